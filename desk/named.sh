# Sourced by ./irangelda: the answer of name_grants, taken apart. Its number has four bytes, the lowest first.

# The reader's number stands alone if it is a refusal; else the numbers of the grants follow it, and the listing. What is to be said of
# them is then in `text`, and the exit status in `status`. Returns 0, unless the bytes are no such answer.
take_names_apart() {
    size=$(wc -c <"$answer")
    [ "$size" -ge 4 ] || return
    number=$(od --endian=little -A n -v -t u4 -N 4 "$answer")
    if refuses "$number"; then
        status=$REFUSED text=$(refusal "$number")
        [ "$size" -eq 4 ]
    else
        status=$DONE
        text=$(named_lines)
    fi
}

# The listing, with the grant's number behind each line that has one. The numbers are bytes of at most 64, which stands for none, and the
# letters of the listing are above that. It has to be whole: the first line tells as many lines as there are numbers, and no others follow.
named_lines() {
    od -A n -v -t u1 -j 4 "$answer" | awk '
        function printable(b) { return b == 10 || 32 <= b && b <= 126 }
        { for (i = 1; i <= NF; i++) byte[all++] = $i }
        END {
            count = 0
            while (count < all && byte[count] <= 64) count++
            for (i = count; i < all; i++) {
                if (!printable(byte[i])) exit 1
                listing = listing sprintf("%c", byte[i])
            }
            ends = split(listing, line, "\n")
            if (line[1] != "cells=" count || ends != count + 2 || line[ends] != "") exit 1
            for (i = 2; i < ends; i++) {
                if (line[i] !~ /^reg=[0-9a-f.]+ val=[0-9a-f]+$/) exit 1
                if (byte[i - 2] < 64) line[i] = line[i] " grant=" byte[i - 2]
            }
            for (i = 1; i < ends; i++) print line[i]
        }'
}
