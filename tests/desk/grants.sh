# Sourced by tests/desk/run, behind batches.sh and use.sh: batches under grants of their own, and which grant is told.

# A batch that is accepted under the grants before the --, and the lines that are printed; or refused. What is on standard input is not read.
told() { # NAME LINES WORDS.. -- WORDS..
    name=$1
    printf '%s\n' "$2" >"$work/want"
    shift 2
    desk grants "$@" <"$work/in"
    ended "$name" 0
    printed "$name"
}
denied() { # NAME REASON PLACE WORDS.. -- WORDS..
    name=$1
    printf 'reason=%s place=%s\n' "$2" "$3" >"$work/want"
    shift 3
    desk grants "$@" <"$work/in"
    ended "$name" 1
    printed "$name"
}
bytes 0002043C 00010000 3F400400 >"$work/in"

# The grant and the batch of K1, and the line of its register; the grant without its memory, and in memory 1.
four_words='1 00100000 00080000 00080000'
k1_grant="$four_words 0"
k1_grant_1="$four_words 1"
k1_batch='0002043C 00010000 50001000'
k1_line='reg=01.00.50 val=00001000'

target() { # NAME NUMBER GRANT..: K1's batch under these grants
    name=$1 number=$2
    shift 2
    told "$name" "cells=1
$k1_line grant=$number" "$@" -- $k1_batch
}
no_target() { # NAME GRANT..
    name=$1
    shift
    denied "$name" 9 2 "$@" -- $k1_batch
}

# ---- the cases that have grants of their own, and registers without an address

target K1 0 $k1_grant
no_target K2 1 00100000 00080000 00080001 0
no_target K3
told K4 'cells=1
reg=01.00.3f val=00400400' -- 0002043C 00010000 3F400400
told 'K4 under a grant' 'cells=1
reg=01.00.3f val=00400400' $k1_grant -- 0002043C 00010000 3F400400
denied K5 8 2 -- 0002043C 00010000 3F000401
told 'K1 and a register without an address' "cells=2
$k1_line grant=0
reg=02.00.50 val=00000001" $k1_grant -- $k1_batch 0002043C 00020000 50000001
target 'short words' 0 1 100000 80000 80000 0

# ---- which grant: the lowest-numbered one of the role that has room for the reach

target 'a grant of the first scaler before' 1 2 00100000 00080000 00080000 0 $k1_grant
target 'grants of both scalers before' 2 2 00100000 00080000 00080000 0 3 00100000 00080000 00080000 0 $k1_grant
target 'more reach than length before' 1 1 00100000 00080000 00080001 0 $k1_grant
target 'no length before' 1 1 00100000 00000000 00000001 0 $k1_grant
target 'a grant that ends before' 1 1 00000000 00100000 00000001 0 $k1_grant
target 'a grant that starts behind' 1 1 00100001 00080000 00000001 0 $k1_grant
target 'a larger grant before' 0 1 00000000 10000000 00000001 0 $k1_grant
target 'a larger grant behind' 0 $k1_grant 1 00000000 10000000 00000001 0
target 'grants that overlap in the address' 0 1 00000000 00100001 00000001 0 1 00100000 00080000 00080000 0
target 'a grant up to 2^32' 1 3 00000000 FFFFFFFF 00000001 0 1 00100000 FFF00000 FFF00000 0
target 'equal grants' 0 $k1_grant $k1_grant $k1_grant
no_target 'the first scaler alone' 2 00100000 00080000 00080000 0
no_target 'no length' 1 00100000 00000000 00000001 0

# Both ends of the grant, by the address.
told 'the first address' 'cells=1
reg=01.00.50 val=00001000 grant=1' 1 00100100 00000200 00000100 0 1 00100000 00000200 00000100 0 -- 0002043C 00010000 50001000
told 'the second address' 'cells=1
reg=01.00.50 val=00001001 grant=0' 1 00100100 00000200 00000100 0 1 00100000 00000200 00000100 0 -- 0002043C 00010000 50001001
told 'the last address' 'cells=1
reg=01.00.50 val=00001002 grant=0' 1 00100100 00000200 00000100 0 1 00100000 00000200 00000100 0 -- 0002043C 00010000 50001002
denied 'behind the last address' 9 2 1 00100100 00000200 00000100 0 1 00100000 00000200 00000100 0 -- 0002043C 00010000 50001003

# ---- the target and both scalers; the address alone counts, not the bits beside it

told 'a target and two scalers' "cells=7
$k1_line grant=2
reg=23ec val=c0000010 grant=1
reg=23f0 val=00001000 grant=4
reg=23fc val=1ffffff0 grant=4
reg=33ec val=00000010 grant=0
reg=33f0 val=00000020 grant=3
reg=33fc val=00000010 grant=0" \
    3 00000000 00000020 00000010 0 \
    2 00000000 00001000 00000010 0 \
    $k1_grant \
    3 00000000 00000030 00000010 0 \
    2 00000000 20000000 00000010 0 \
    -- $k1_batch 000123EC C0000010 000123F0 00001000 000123FC 1FFFFFF0 000133EC 00000010 000133F0 00000020 000133FC 00000010
denied 'the other scaler' 9 1 3 00000000 20000000 00000010 0 -- 000123EC 00000010
told 'a register that is written again' "cells=1
reg=23ec val=00000020 grant=1" 2 00000010 00000010 00000010 0 2 00000020 00000010 00000010 0 -- 000123EC 00000010 000123EC 00000020

# ---- two memories: the cases of the pair that begin at the empty state

pair_batch='0003043C 00010000 50001000 51100000'
pair() { # NAME NUMBER GRANT..: the target of K1 in memory 1, under these grants
    name=$1 number=$2
    shift 2
    told "$name" "cells=2
$k1_line grant=$number
reg=01.00.51 val=00100000" "$@" -- $pair_batch
}
no_pair() { # NAME GRANT..
    name=$1
    shift
    denied "$name" 14 4 "$@" -- $pair_batch
}
pair K30 0 1 00100000 00080000 1 1
no_pair K31 1 00100000 00080000 1 0
denied K32 14 3 1 00100000 00080000 1 1 -- $k1_batch
denied K33 8 2 -- 0002043C 00010000 51200000
told K34 'cells=1
reg=01.00.51 val=00100000' -- 0002043C 00010000 51100000
denied K41 10 3 1 00100000 00080000 1 1 -- 0003043C 00010000 50001000
no_pair 'no room in memory 1' $k1_grant 1 00100000 00080000 00080001 1
denied 'granted in neither memory' 9 2 1 00100001 00080000 1 0 1 00000000 00100000 1 1 -- $pair_batch
denied 'a bad word behind the pair' 3 4 $k1_grant -- $pair_batch 0
denied 'location 3' 8 3 $k1_grant_1 -- 0003043C 00010000 50001000 51300000
denied 'a location with a bit that must be clear' 7 3 $k1_grant_1 -- 0003043C 00010000 50001000 51100001

# Judged once, behind the last word: the order of the words does not matter, and the last write holds.
told 'the location first' "cells=2
$k1_line grant=0
reg=01.00.51 val=00100000" $k1_grant_1 -- 0003043C 00010000 51100000 50001000
told 'the location in another packet, and tiles of 16 lines' "cells=3
$k1_line grant=0
reg=01.00.51 val=00d00000
reg=2208 val=00010002" $k1_grant_1 -- $k1_batch 00012208 00010002 0002043C 00010000 51D00000
denied 'the location alone in another packet' 14 6 $k1_grant -- $k1_batch 0002043C 00010000 51100000
denied 'no location but in the other memory' 14 5 $k1_grant_1 -- $k1_batch 00012208 00010002
told 'there and back' "cells=2
$k1_line grant=0
reg=01.00.51 val=00000000" $k1_grant -- $pair_batch 0002043C 00010000 51000000
denied 'there, back and there' 14 7 $k1_grant -- $pair_batch 0002043C 00010000 51100000
told 'an address of either memory' "cells=2
reg=01.00.50 val=00002000 grant=0
reg=01.00.51 val=00100000" 1 00200000 00000100 00000100 1 $k1_grant -- 0004043C 00010000 50001000 51100000 50002000
denied 'the address of memory 0 last' 14 5 1 00200000 00000100 00000100 1 $k1_grant -- 0004043C 00010000 50002000 51100000 50001000

# Which grant: of the target only those in the memory that 01.00.51 names, and 0 where it is not written.
target 'a grant in memory 1 before' 1 $k1_grant_1 $k1_grant
target 'a grant in memory 1 behind' 0 $k1_grant $k1_grant_1
pair 'a grant in memory 0 before' 1 $k1_grant $k1_grant_1
pair 'a grant in memory 0 behind' 0 $k1_grant_1 $k1_grant
pair 'the lowest of memory 1' 4 $k1_grant 3 0 10 10 0 1 00100000 00080000 00080001 1 $k1_grant 1 00000000 10000000 1 1 $k1_grant_1 $k1_grant_1
told 'location 0' "cells=2
$k1_line grant=1
reg=01.00.51 val=00800000" $k1_grant_1 $k1_grant -- 0003043C 00010000 50001000 51800000
told 'a scaler beside a target in memory 1' "cells=3
$k1_line grant=1
reg=01.00.51 val=00100000
reg=23ec val=00000010 grant=0" 2 0 20 10 0 $k1_grant_1 -- $pair_batch 000123EC 00000010
denied 'a scaler, and grants of the target in both memories' 9 1 $k1_grant $k1_grant_1 -- 000123EC 00000010

# ---- 64 grants, and numbers that are line ends, spaces, digits and signs where they are bytes

fill() { # COUNT: so many grants that grant nothing
    for unused in $(seq "$1"); do echo 1 00100000 00000000 00000001 0; done
}
target 'the last of 64 grants' 63 $(fill 63) $k1_grant
pair 'the last of 64 grants, in memory 1' 63 $(fill 62) $k1_grant $k1_grant_1
told '64 grants, and no number' 'cells=1
reg=01.00.3f val=00400400' $(fill 64) -- 0002043C 00010000 3F400400
no_target '64 grants of nothing' $(fill 64)
denied '65 grants' 2 0 $(fill 64) $k1_grant -- $k1_batch
told 'seven numbers' "cells=7
$k1_line grant=10
reg=23ec val=00000010 grant=0
reg=23f0 val=00000020 grant=13
reg=23fc val=00000030 grant=32
reg=33ec val=00000010 grant=48
reg=33f0 val=00000020 grant=61
reg=33fc val=00000030 grant=63" \
    2 00000010 00000010 00000010 0 $(fill 9) \
    $k1_grant $(fill 2) \
    2 00000020 00000010 00000010 0 $(fill 18) \
    2 00000030 00000010 00000010 0 $(fill 15) \
    3 00000010 00000010 00000010 0 $(fill 12) \
    3 00000020 00000010 00000010 0 $(fill 1) \
    3 00000030 00000010 00000010 0 \
    -- $k1_batch 000123EC 00000010 000123F0 00000020 000123FC 00000030 000133EC 00000010 000133F0 00000020 000133FC 00000030

# ---- every cell, as in the house's state

# Two columns: the words of the batch, and the lines.
awk '
    function write(word) { printf "%s ", word }
    function line(name, value, number) {
        lines = lines "reg=" name " val=" (value ? value : "00000000") (number ? " grant=" number - 1 : "") "\n"
    }
    function scaler(first, number,    i) {
        write("0007" first "3E4")
        for (i = 0; i < 7; i++) {
            write("00000000")
            line(first "3" substr("e4e8ecf0f4f8fc", 2 * i + 1, 2), "", i == 2 || i == 3 || i == 6 ? number : 0)
        }
    }
    BEGIN {
        write("0005043C 00010000 3F000000 50001000 51000000 52890000")
        line("01.00.3f"); line("01.00.50", "00001000", 1); line("01.00.51"); line("01.00.52", "00890000")
        for (n = 0; n < 16; n++) {
            write(sprintf("0003043C %02X020000 50000000 51000000", n))
            for (a = 50; a <= 51; a++) line(sprintf("02.%02x.%d", n, a))
        }
        for (n = 0; n < 16; n++) {
            write(sprintf("0004043C %02X020000 30000000 31000000 32000000", 32 + n))
            for (a = 30; a <= 32; a++) line(sprintf("02.%02x.%d", 32 + n, a))
        }
        write("00032208 00000000 00000000 00000000")
        line("2208"); line("220c"); line("2210")
        scaler("2", 2)
        scaler("3", 3)
        printf "\ncells=101\n%s", lines
    }' >"$work/every"
told 'every cell' "$(sed 1d "$work/every")" $k1_grant 2 0 10 10 0 3 0 10 10 0 -- $(sed -n 1p "$work/every")

# ---- no grants, no batch, neither

told 'no batch' cells=0 $k1_grant --
told 'neither' cells=0 --
"$command" grants -- <&- >"$work/got" 2>"$work/said"
status=$?
ended 'neither, and closed input' 0
printed 'neither, and closed input'

# ---- refused: the grant list before the batch, and the batch by its first bad word

bad_list() { # NAME GRANT..
    name=$1
    shift
    denied "$name" 2 0 "$@" -- $k1_batch
    denied "$name, and a bad batch" 2 0 "$@" -- 0
    denied "$name, and no batch" 2 0 "$@" --
}
bad_list 'role 0' $k1_grant 0 00100000 00080000 00080000 0
bad_list 'role 4' $k1_grant 4 00100000 00080000 00080000 0
bad_list 'no reach' $k1_grant 1 00100000 00080000 0 0
bad_list 'above 2^32' $k1_grant 1 00100001 FFF00000 00000001 0
bad_list 'memory 2' $k1_grant 1 00100000 00080000 00080000 2
bad_list 'memory 2^32 - 1' 1 00100000 00080000 00080000 FFFFFFFF
bad_list 'the first scaler in memory 1' $k1_grant 2 00100000 00080000 00080000 1
bad_list 'the second scaler in memory 1' 3 00100000 00080000 00080000 1 $k1_grant
bad_list 'the first scaler in memory 1, and no room' 2 00100000 00080000 00080001 1
bad_list 'four words' $four_words
bad_list 'six words' $k1_grant 1
bad_list 'two grants of four words' $four_words $four_words
bad_list 'five grants of four words' $four_words $four_words $four_words $four_words $four_words
denied 'an offset' 3 0 $k1_grant -- 0
denied 'a packet that is cut' 10 2 $k1_grant -- 0002043C 00010000
denied 'the second packet' 9 5 $k1_grant -- $k1_batch 0002043C 00010000 50001001

# ---- as many words as a call takes, and one more: `many` has 16,383

denied '16,384 words of a batch' 10 16384 $k1_grant -- $many 0002043C
denied '16,385 words of a batch' 13 0 $k1_grant -- $many 0002043C 00010000
denied '16,384 words of grants' 2 0 $many 0 --
denied '16,385 words of grants' 13 0 $many 0 0 --
denied '16,384 words of both' 2 0 $many 0 -- $many 0002043C
denied '16,384 words of grants and 16,385 of a batch' 13 0 $many 0 -- $many 0002043C 00010000

# ---- wrong use

wrong 'grants without words' grants
wrong 'grants without a --' grants $k1_grant $k1_batch
wrong 'grants with two --' grants $k1_grant -- $k1_batch --
wrong 'grants with nothing but two --' grants -- --
said 'grants with nothing but two --' 'one -- is wanted, not 2'
for word in 0001000G 00002043C '' 0x2043C -1 --- - --help '-- ' '0002043C 00010000'; do
    wrong "'$word' among the grants" grants "$word" -- $k1_batch
    wrong "'$word' in the batch" grants $k1_grant -- "$word"
done

# ---- what cannot be written

for use in "$k1_grant -- $k1_batch" '-- 0'; do
    "$command" grants $use >/dev/full 2>"$work/said"
    cannot "grants $use to a full disk" 'the output could not be written'
    "$command" grants $use >&- 2>"$work/said"
    cannot "grants $use to nowhere" 'standard output is closed'
done
TMPDIR=/dev/null "$command" grants -- >"$work/got" 2>"$work/said"
cannot 'no place for a temporary file of grants' 'temporary'
printed_nothing 'no place for a temporary file of grants'
