# Sourced by tests/desk/run: help, wrong use, and output that cannot be written.

# ---- help: one screen, on which every word of use and every exit status stands

desk help
ended help 0
if awk 'length($0) > 80 { wide = 1 } END { exit wide || NR > 24 || NR == 0 }' "$work/got"; then
    pass
else
    fail help 'more than 24 lines of 80 columns'
fi
cp "$work/got" "$work/said"
words=$(sed -n 's/^\([a-z |]*\)) "\$@" ;;$/\1/p' "$command" | tr -d '|')
[ -n "$words" ] || fail help 'no word of use is found in the command'
for word in $words; do
    said "help of $word" "^  ./irangelda $word "
done
for text in '0 done' '1 refused' '2 wrong use' '3 a failure'; do
    said 'help of exit statuses' "$text"
done

# ---- wrong use

wrong() { # NAME WORDS..
    name=$1
    shift
    desk "$@" </dev/null
    ended "$name" 2
    printed_nothing "$name"
    said "$name" './irangelda help'
}
wrong 'no word'
wrong 'an empty word' ''
wrong 'another word' lists
wrong 'a path' ../desk/list
wrong 'an option' --list
wrong 'no hex' list 0002043C 0001000G
wrong 'nine digits' list 00002043C
wrong 'an empty batch word' list ''
wrong 'a prefix' list 0x2043C
wrong 'a sign' list -1
wrong 'two words in one' list '0002043C 00010000'
wrong 'an option to list' list --help

timeout 30 script -qec "'$command' list" /dev/null </dev/null >"$work/said" 2>&1
status=$?
ended 'a terminal as input' 2
said 'a terminal as input' 'standard input is a terminal'

# ---- what cannot be written or read

cannot() { # NAME TEXT
    status=$?
    ended "$1" 3
    said "$1" "$2"
}
for use in 'list 0002043C 00010000 50001000' 'list 0' help; do
    "$command" $use >/dev/full 2>"$work/said"
    cannot "$use to a full disk" 'the output could not be written'
    "$command" $use >&- 2>"$work/said"
    cannot "$use to nowhere" 'standard output is closed'
done

"$command" list <&- >"$work/got" 2>"$work/said"
cannot 'closed input' 'standard input cannot be read'
printed_nothing 'closed input'
"$command" list </ >"$work/got" 2>"$work/said"
cannot 'a folder as input' 'standard input cannot be read'
printed_nothing 'a folder as input'
TMPDIR=/dev/null "$command" list 0 >"$work/got" 2>"$work/said"
cannot 'no place for a temporary file' 'temporary'
printed_nothing 'no place for a temporary file'

# ---- from elsewhere, and by another name

ln -s "$command" "$work/by another name"
printf 'cells=0\n' >"$work/want"
(cd / && "$work/by another name" list </dev/null) >"$work/got" 2>"$work/said"
status=$?
ended 'a link to the command' 0
printed 'a link to the command'
