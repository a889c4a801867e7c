# Sourced by ./irangelda, with `root` the top of the repository: running a program, and the ways in which the command ends.

. "$root/desk/machine.sh"
. "$root/desk/fresh.sh"

# ---- exit statuses

DONE=0 REFUSED=1 WRONG_USE=2 FAILED=3

wrong_use() {
    tell "$1; see ./irangelda help"
    exit $WRONG_USE
}

fail() {
    tell "$1"
    exit $FAILED
}

# ---- a program's answer

is_open() { (exec 3>&"$1") 2>/dev/null; } # DESCRIPTOR

# A place that goes when the command ends, however it ends.
prepare_answer() {
    work=$(mktemp -d) || fail 'no place for a temporary file'
    answer=$work/answer
    trap 'rm -rf "$work"' EXIT
    trap 'exit $FAILED' HUP INT TERM
}

# Runs a program from standard input into the answer, by way of cat: where that cannot be kept, it is cat that fails, and not the program.
run_program() { # NAME
    fresh_program "$1" || exit $FAILED
    prepare_to_run || fail 'an emulator of x86-64 could not be installed'
    {
        $run "$root/crates/$1/out/$1"
        echo $? >"$work/status"
    } | cat >"$answer" || fail "what $1 printed could not be kept"
    [ "$(cat "$work/status")" = 0 ] || fail "$1 ended with status $(cat "$work/status")"
}

# A number in it is place × 256 + reason.
refuses() { [ $(($1 % 256)) -ne 0 ]; }
refusal() { echo "reason=$(($1 % 256)) place=$(($1 / 256))"; }

# The answer, byte for byte.
pass_on() { cat "$answer" || fail 'the output could not be written'; }

# Lines of text. Not every echo tells when it cannot write; cat does.
say() { echo "$1" | cat || fail 'the output could not be written'; }
