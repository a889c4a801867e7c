# Sourced: batches as bytes.

byte() { printf "\\$(($1 >> 6 & 3))$(($1 >> 3 & 7))$(($1 & 7))"; }

# Hex words as the bytes of a batch, the lowest byte of a word first.
bytes() {
    for word; do
        n=$((0x$word))
        byte $((n & 255))
        byte $((n >> 8 & 255))
        byte $((n >> 16 & 255))
        byte $((n >> 24 & 255))
    done
}
