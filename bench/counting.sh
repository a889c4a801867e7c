# Sourced by bench/run and bench/query/run behind tests/c/machine.sh, at the top of the repository: how many x86-64 instructions a call of
# bench/bench.c needs, ours and the careful C's.

calls=2

"$cc" -std=c11 -O3 -Wall -Wextra -Werror -c tests/reference/careful.c -o "$scratch/careful.o"
"$cc" -std=c11 -O2 -Wall -Wextra -Werror -static -o "$scratch/bench" bench/bench.c "$scratch/careful.o" "$archive"

# The instructions of a whole run: who, line, how many calls. The option to go one by one has another name in older versions.
if [ -n "$emulator" ]; then
    one_by_one=-one-insn-per-tb
    "$emulator" -help | grep -q -e "$one_by_one" || one_by_one=-singlestep
    instructions_of_run() {
        "$emulator" "$one_by_one" -d exec,nochain "$scratch/bench" "$@" 2>&1 >/dev/null | grep -c '^Trace'
    }
else
    have valgrind || install_packages valgrind
    instructions_of_run() {
        valgrind --tool=callgrind --callgrind-out-file=/dev/null "$scratch/bench" "$@" 2>&1 >/dev/null |
            awk '/ Collected : / { print $4 }'
    }
fi

# The instructions that one turn of the loop needs.
instructions_of_turn() {
    once=$(instructions_of_run "$1" "$2" $calls)
    twice=$(instructions_of_run "$1" "$2" $((2 * calls)))
    echo $(((twice - once) / calls))
}

# A call that is refused is not counted: bench then fails.
instructions_of_call() {
    $emulator "$scratch/bench" "$1" "$2" 1 >/dev/null
    turn=$(instructions_of_turn "$1" "$2")
    loop=$(($(instructions_of_turn nothing "$2") - 2))
    echo $((turn - loop))
}

print_head() {
    printf '%-46s %9s %10s %7s\n' "x86-64 instructions of one call" ours "careful C" ratio
}

# A line of the table: its name in bench.c, the number of words to share the count among, and what it is. The two counts are then in `ours`
# and `careful`.
count_line() {
    ours=$(instructions_of_call ours "$1")
    careful=$(instructions_of_call careful "$1")
    awk -v ours="$ours" -v careful="$careful" -v words="$2" -v what="$3" 'BEGIN {
        form = words == 1 ? "%-46s %9d %10d %7.2f\n" : "%-46s %9.1f %10.1f %7.2f\n"
        printf form, what, ours / words, careful / words, ours / careful
    }'
}
