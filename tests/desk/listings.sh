# Sourced by tests/desk/run, behind batches.sh and use.sh: listings that are read back, and texts that are none.

# What is printed of the file in.
reads() { # NAME STATUS LINES
    printf '%s\n' "$3" >"$work/want"
    desk back <"$work/in"
    ended "$1" "$2"
    printed "$1"
}

# A text is as printf has it: \n ends a line. The listing of a state that no batch makes under K1's grant, since a cell is in the way;
unwritable() { # NAME TEXT CELL
    printf "$2" >"$work/in"
    reads "$1" 1 "listing=whole reason=12 place=$3"
}
# and no listing: so many of its first bytes begin one, and with one byte more they begin none.
no_listing() { # NAME TEXT PLACE
    printf "$2" >"$work/in"
    reads "$1" 1 "reason=19 place=$3"
}

# Read back and listed again, the listing in is what it was.
comes_back() { # NAME
    desk back <"$work/in"
    ended "$1, read back" 0
    desk list $(sed 1d "$work/got") </dev/null
    ended "$1, listed again" 0
    cp "$work/in" "$work/want"
    printed "$1, listed again"
}

# ---- listings

k1='cells=1\nreg=01.00.50 val=00001000\n'
printf "$k1" >"$work/text"

cp "$work/text" "$work/in"
reads K1 0 'listing=whole words=3
0002043C 00010000 50001000'
printf 'cells=0\n' >"$work/in"
reads 'no cell' 0 'listing=whole words=0'

kept=0
while [ "$kept" -lt "$listings" ]; do
    kept=$((kept + 1))
    cp "$work/listing.$kept" "$work/in"
    comes_back "listing $kept"
done

# Every cell, with K1's target, format 89 and else 0, as in the house's state; and all cells but the scalers' addresses.
awk '
    function line(name, value) { print "reg=" name " val=" (value ? value : "00000000") }
    BEGIN {
        print "cells=101"
        line("01.00.3f"); line("01.00.50", "00001000"); line("01.00.51"); line("01.00.52", "00890000")
        for (n = 0; n < 16; n++)
            for (a = 50; a <= 51; a++) line(sprintf("02.%02x.%d", n, a))
        for (n = 0; n < 16; n++)
            for (a = 30; a <= 32; a++) line(sprintf("02.%02x.%d", 32 + n, a))
        count = split("2208 220c 2210 23e4 23e8 23ec 23f0 23f4 23f8 23fc 33e4 33e8 33ec 33f0 33f4 33f8 33fc", offset, " ")
        for (i = 1; i <= count; i++) line(offset[i])
    }' >"$work/in"
reads 'every cell' 1 'listing=whole reason=12 place=89'
sed -i -e 's/cells=101/cells=95/' -e '/reg=[23]3\(ec\|f0\|fc\)/d' "$work/in"
comes_back '95 cells'

# ---- listings of states that K1's grant, a mask or a value rule forbids

unwritable 'a scaler address' 'cells=1\nreg=23ec val=00000010\n' 89
unwritable 'a target that is not granted' 'cells=1\nreg=01.00.50 val=00001001\n' 1
unwritable 'a target in the other memory' 'cells=2\nreg=01.00.50 val=00001000\nreg=01.00.51 val=00100000\n' 1
unwritable 'a target in no memory' 'cells=2\nreg=01.00.50 val=00001000\nreg=01.00.51 val=00200000\n' 1
unwritable 'no memory, and no target' 'cells=1\nreg=01.00.51 val=00200000\n' 2
unwritable 'a bit that must be clear' 'cells=1\nreg=01.00.3f val=00000800\n' 0
unwritable 'a bit that must be clear, and a target in the other memory' \
    'cells=3\nreg=01.00.3f val=00000800\nreg=01.00.50 val=00001000\nreg=01.00.51 val=00100000\n' 0
unwritable 'a format byte' 'cells=1\nreg=01.00.52 val=00940000\n' 3
unwritable 'a shrinking filter alone' 'cells=1\nreg=02.23.31 val=00000800\n' 46
unwritable 'two bad cells' 'cells=3\nreg=01.00.50 val=00001000\nreg=02.23.31 val=00004080\nreg=23ec val=00000010\n' 46

# ---- K1's listing, cut and changed

for place in 0 5 6 7 8 20 33; do
    head -c "$place" "$work/text" >"$work/in"
    reads "$place bytes" 1 "reason=19 place=$place"
done
no_listing 'a line end more' "$k1\n" 34
no_listing 'a line more' "${k1}reg=01.00.51 val=00000000\n" 34
no_listing 'a byte order mark' "\357\273\277$k1" 0
no_listing 'line ends as in mail' 'cells=1\r\nreg=01.00.50 val=00001000\r\n' 7
no_listing 'the second line end as in mail' 'cells=1\nreg=01.00.50 val=00001000\r\n' 33
no_listing 'an upper-case digit of a name' 'cells=1\nreg=01.00.3F val=00400400\n' 19
no_listing 'an upper-case digit of a value' 'cells=1\nreg=01.00.50 val=00001A00\n' 30
no_listing 'a digit fewer' 'cells=1\nreg=01.00.50 val=0001000\n' 32
no_listing 'a digit more' 'cells=1\nreg=01.00.50 val=000001000\n' 33
no_listing 'a 3D value of 25 bits' 'cells=1\nreg=01.00.50 val=01000000\n' 26
no_listing 'no register' 'cells=1\nreg=01.00.53 val=00001000\n' 19
no_listing 'a line of a refusal' 'reason=9 place=2\n' 0

# ---- counts: the true one and no other

no_listing 'a leading zero' 'cells=01\nreg=01.00.50 val=00001000\n' 7
no_listing 'no digit' 'cells=\n' 6
no_listing 'a count that is too high' 'cells=2\nreg=01.00.50 val=00001000\n' 34
no_listing 'a count of 0 and a line' 'cells=0\nreg=01.00.50 val=00001000\n' 8
no_listing 'a count that is too low' 'cells=1\nreg=01.00.3f val=00400400\nreg=01.00.50 val=00001000\n' 34
no_listing '102 cells' 'cells=102\n' 8
no_listing '101 cells without the first' 'cells=101\nreg=01.00.50 val=00001000\n' 20
no_listing 'two cells from the last on' 'cells=2\nreg=33fc val=00000000\n' 15

# ---- lines in the order of the cells, each once

no_listing 'two lines exchanged' 'cells=2\nreg=01.00.50 val=00001000\nreg=01.00.3f val=00400400\n' 44
no_listing 'a line twice' 'cells=2\nreg=01.00.50 val=00001000\nreg=01.00.50 val=00001000\n' 45
no_listing 'a video line before a 3D line' 'cells=2\nreg=2208 val=00000000\nreg=01.00.50 val=00001000\n' 34

# ---- long texts

{ cat "$work/text" && head -c 65502 /dev/zero; } >"$work/in"
reads '65,536 bytes of text' 1 'reason=19 place=34'
head -c 1 /dev/zero >>"$work/in"
reads '65,537 bytes of text' 1 'reason=13 place=0'

printf 'listing=whole words=3\n0002043C 00010000 50001000\n' >"$work/want"
dd bs=5 2>/dev/null <"$work/text" | from_pipe back
came_in_pieces 'a listing in pieces of 5 bytes' 0

# ---- wrong use, and what cannot be written or read

wrong 'words to back' back 0002043C 00010000 50001000
wrong 'a file to back' back "$work/text"
wrong 'an empty word to back' back ''
wrong 'an option to back' back --help

"$command" back <&- >"$work/got" 2>"$work/said"
status=$?
ended 'closed input to back' 2
printed_nothing 'closed input to back'
said 'closed input to back' 'standard input is closed'
timeout 30 script -qec "'$command' back" /dev/null </dev/null >"$work/said" 2>&1
status=$?
ended 'a terminal as input to back' 2
said 'a terminal as input to back' 'standard input is a terminal'

for input in "$work/text" "$work/in"; do
    "$command" back <"$input" >/dev/full 2>"$work/said"
    cannot 'back to a full disk' 'the output could not be written'
    "$command" back <"$input" >&- 2>"$work/said"
    cannot 'back to nowhere' 'standard output is closed'
done
"$command" back </ >"$work/got" 2>"$work/said"
cannot 'a folder as input to back' 'standard input cannot be read'
printed_nothing 'a folder as input to back'
TMPDIR=/dev/null "$command" back <"$work/text" >"$work/got" 2>"$work/said"
cannot 'no place for a temporary file of back' 'temporary'
printed_nothing 'no place for a temporary file of back'
