# Sourced by ./irangelda: the answer of restore_listing, taken apart. Its numbers have eight bytes and its words four, the lowest first.

# The listing reader's number stands alone if it is a refusal; else the writer's follows it, and then as many words as that one tells.
# What is to be said of them is then in `text`, and the exit status in `status`. Returns 0, unless the bytes are no such answer.
take_apart() {
    set -- $(numbers) 0 0
    if refuses "$1"; then
        status=$REFUSED text=$(refusal "$1") size=8
    elif refuses "$2"; then
        status=$REFUSED text="listing=whole $(refusal "$2")" size=16
    else
        count=$(($2 / 256))
        status=$DONE text="listing=whole words=$count" size=$((16 + 4 * count))
        [ "$count" -eq 0 ] || text="$text
$(words)"
    fi
    [ "$(wc -c <"$answer")" -eq "$size" ]
}

numbers() { od --endian=little -A n -v -t u8 -N 16 "$answer"; }
words() { echo $(od --endian=little -A n -v -t x4 -j 16 "$answer" | tr abcdef ABCDEF); }
