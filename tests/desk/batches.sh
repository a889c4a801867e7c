# Sourced by tests/desk/run: the cases of docs/RULES.md and inputs of awkward lengths, and what is listed.

# The file in, as bytes on standard input.
as_bytes() { # NAME STATUS
    desk list <"$work/in"
    ended "$1" "$2"
    printed "$1"
}

# The same words, as words and as bytes.
both_ways() { # NAME STATUS WORDS..
    name=$1 wanted=$2
    shift 2
    bytes "$@" >"$work/in"
    as_bytes "$name, as bytes" "$wanted"
    [ $# -gt 0 ] || return 0
    desk list "$@"
    ended "$name" "$wanted"
    printed "$name"
}

# Each listing is kept, to be read back in listings.sh.
listings=0
keep_listing() {
    listings=$((listings + 1))
    cp "$work/want" "$work/listing.$listings"
}

# A batch that is accepted, and the lines of its listing; or refused.
accepted() { # NAME LINES WORDS..
    name=$1
    printf '%s\n' "$2" >"$work/want"
    keep_listing
    shift 2
    both_ways "$name" 0 "$@"
}
refused() { # NAME REASON PLACE WORDS..
    name=$1
    printf 'reason=%s place=%s\n' "$2" "$3" >"$work/want"
    shift 3
    both_ways "$name" 1 "$@"
}

# ---- the cases that K1's grant lets us try; K2 and K3 have other grants

accepted K1 'cells=1
reg=01.00.50 val=00001000' 0002043C 00010000 50001000
accepted K4 'cells=1
reg=01.00.3f val=00400400' 0002043C 00010000 3F400400
refused K5 8 2 0002043C 00010000 3F000401
refused K6 7 2 0002043C 00010000 3F000800
accepted K7 'cells=1
reg=01.00.52 val=00990000' 0002043C 00010000 52990000
refused K8 8 2 0002043C 00010000 52940000
accepted K9 'cells=1
reg=02.23.31 val=00004100' 0002043C 23020000 31004100
refused K10 8 2 0002043C 23020000 31004080
accepted 300002CB 'cells=1
reg=02.23.30 val=000002cb' 0002043C 23020000 300002CB
refused 3000000C 8 2 0002043C 23020000 3000000C
accepted 320001FF 'cells=1
reg=02.23.32 val=000001ff' 0002043C 23020000 320001FF
refused 32000004 8 2 0002043C 23020000 32000004
refused K11 6 2 0002043C 23020000 50000001
accepted K12 'cells=1
reg=02.03.50 val=00000001' 0002043C 03020000 50000001
refused K24 8 2 0002043C 23020000 31000800
refused K25 8 2 0002043C 23020000 31000020
accepted K26 'cells=1
reg=02.23.31 val=00000820' 0002043C 23020000 31000820
refused K31 14 4 0003043C 00010000 50001000 51100000
refused K33 8 2 0002043C 00010000 51200000
accepted K34 'cells=1
reg=01.00.51 val=00100000' 0002043C 00010000 51100000

# ---- headers alone

refused 0001043C 4 0 0001043C
refused 0072043C 4 0 0072043C
refused 0071043C 10 1 0071043C
refused 000723E4 10 1 000723E4
refused 000823E4 4 0 000823E4
refused 000123E0 3 0 000123E0
refused 0001041C 3 0 0001041C

# ---- K1's grant: one address of the target, and none of the scalers

refused 'address below' 9 2 0002043C 00010000 50000FFF
refused 'address above' 9 2 0002043C 00010000 50001001
refused 'scaler address' 9 1 000123EC 00000010
refused 'scaler location' 8 1 000123EC 00000001
refused 'scaler mask' 7 1 000123EC 00000004
refused 'type 03' 5 1 0002043C 00030000 50001000

# ---- K1's grant is in memory 0: the target's address is judged with its location, behind the last word

refused 'the location first' 14 4 0003043C 00010000 51100000 50001000
refused 'the location in another packet' 14 6 0002043C 00010000 50001000 0002043C 00010000 51100000
accepted 'there and back' 'cells=2
reg=01.00.50 val=00001000
reg=01.00.51 val=00800000' 0003043C 00010000 50001000 51100000 0002043C 00010000 51800000

# ---- words in lower case and without their leading zeros

accepted 'short words' 'cells=1
reg=01.00.50 val=00001000' 2043c 10000 50001000
refused 'a short word' 3 0 0

# ---- no packet, and several

accepted empty 'cells=0'
accepted 'four packets' 'cells=5
reg=01.00.50 val=00001000
reg=02.03.50 val=00000003
reg=02.03.51 val=00000002
reg=2208 val=00010002
reg=220c val=00030004' \
    00022208 00010002 00030004 \
    0003043C 03020000 50000001 51000002 \
    0002043C 00010000 50001000 \
    0002043C 03020000 50000003
refused 'second packet' 9 5 0002043C 00010000 50001000 0002043C 00010000 50001001
refused 'second packet cut' 10 5 0002043C 00010000 50001000 0002043C 00010000

# ---- bytes left over, however good the words before them

bytes 0002043C 00010000 50001000 00022208 >"$work/all"
echo 'reason=13 place=0' >"$work/want"
for size in 1 2 3 13 14 15; do
    head -c "$size" "$work/all" >"$work/in"
    as_bytes "$size bytes" 1
done

# ---- the largest batch, 16,384 words, and what is larger: packets like K1's, in steps of twice as many

bytes 0002043C 00010000 50001000 >"$work/k1"
while [ "$(wc -c <"$work/k1")" -lt 65536 ]; do
    cat "$work/k1" "$work/k1" >"$work/twice"
    mv "$work/twice" "$work/k1"
done

large() { # BYTES WORDS..: so many bytes of those packets, and the words behind them
    head -c "$1" "$work/k1"
    shift
    bytes "$@"
}

printf 'cells=2\nreg=01.00.3f val=00400400\nreg=01.00.50 val=00001000\n' >"$work/want"
keep_listing
large 65520 0003043C 00010000 50001000 3F400400 >"$work/in"
as_bytes '65,536 bytes' 0

printf 'reason=10 place=16384\n' >"$work/want"
large 65532 0002043C >"$work/in"
as_bytes '65,536 bytes, cut' 1

printf 'reason=8 place=16383\n' >"$work/want"
large 65520 0003043C 00010000 50001000 3F000401 >"$work/in"
as_bytes '65,536 bytes, the last word bad' 1

printf 'reason=13 place=0\n' >"$work/want"
for size in 65537 65538 65540 98304; do
    head -c "$size" "$work/k1" >"$work/in"
    as_bytes "$size bytes" 1
done

# ---- as many words on the command line, and one more

printf 'reason=10 place=16384\n' >"$work/want"
k1_words='0002043C 00010000 50001000'
many=$(while :; do echo "$k1_words"; done | head -n 5461)
desk list $many 0002043C
ended '16,384 words' 1
printed '16,384 words'

printf 'reason=13 place=0\n' >"$work/want"
desk list $many 0002043C 00010000
ended '16,385 words' 1
printed '16,385 words'

# ---- input that comes in pieces

# A variable that is set behind a pipe is lost there.
from_pipe() { # WORD
    desk "$1"
    echo "$status" >"$work/status"
}
came_in_pieces() { # NAME STATUS
    status=$(cat "$work/status")
    ended "$1" "$2"
    printed "$1"
}

printf 'cells=1\nreg=01.00.50 val=00001000\n' >"$work/want"
{
    printf '\074'
    sleep 1
    bytes 0002043C 00010000 50001000 | tail -c 11 | head -c 6
    sleep 1
    bytes 0002043C 00010000 50001000 | tail -c 5
} | from_pipe list
came_in_pieces 'three pieces' 0

printf 'cells=2\nreg=01.00.3f val=00400400\nreg=01.00.50 val=00001000\n' >"$work/want"
large 65520 0003043C 00010000 50001000 3F400400 | dd bs=100 2>/dev/null | from_pipe list
came_in_pieces '65,536 bytes in pieces of 100' 0

printf 'reason=13 place=0\n' >"$work/want"
large 65520 0003043C 00010000 50001000 3F400400 00022208 | dd bs=100 2>/dev/null | from_pipe list
came_in_pieces '65,540 bytes in pieces of 100' 1
