# Sourced by ./irangelda: the words of use.

help() {
    cat <<'END' || fail 'the output could not be written'
irangelda: what a batch of register writes does, for the support desk

  ./irangelda list WORD..   the registers a batch leaves, from the empty state
  ./irangelda list <FILE    the same of bytes, the lowest byte of a word first
  ./irangelda grants WORD.. -- WORD..   the same under the grants before the --,
                            five words each: role, start, length, reach, memory
  ./irangelda back <FILE    from a listing back to words that list takes
  ./irangelda help          this page
  For example               ./irangelda list 0002043C 00010000 50001000

A WORD is 1 to 8 hex digits. list and back know one grant, that of case K1: role
1, start 00100000h, length and reach 00080000h, memory 0. grants says which of
its grants admits an address, as grant=G; a target's in the memory that 01.00.51
names. A refusal is one line, reason=R place=P: docs/DRIVER.md has the reasons.
G and P count from 0, P in words of a batch, bytes of a text. Of a listing back
says listing=whole words=N, then the words, if any; or listing=whole reason=12
place=C, if no batch makes its state under that grant: C is the cell in the way,
see docs/REGISTERS.md. Whole tells nothing of masks, value rules or grants.

Exit status: 0 done, 1 refused, 2 wrong use, 3 a failure: it could not be built
or run, or its output could not be written. 2 and 3 say why on standard error.

The first time, and after a source has changed, it proves and builds what it
runs. That takes long the first time, and needs rt, Rattle's command.
END
}

# All of them are words of 32 bits in hex.
want_words() { # WORD..
    for word; do
        case $word in
        '' | *[!0-9A-Fa-f]* | ?????????*) wrong_use "'$word' is no word of 1 to 8 hex digits" ;;
        esac
    done
}

# The registers that a batch leaves from the empty state, under the grant of case K1.
list() { # WORD..
    want_words "$@"
    [ $# -gt 0 ] || [ ! -t 0 ] || wrong_use 'no words are given, and standard input is a terminal'
    prepare_answer
    if [ $# -gt 0 ]; then
        bytes "$@" | cat >"$work/batch" || fail 'the batch could not be kept'
        run_program list_batch <"$work/batch"
    else
        run_program list_batch
    fi
    read -r first <"$answer"
    case $first in
    cells=*) status=$DONE ;;
    reason=*) status=$REFUSED ;;
    *) fail 'list_batch printed neither a listing nor a refusal' ;;
    esac
    pass_on
    exit "$status"
}

# The registers that a batch leaves from the empty state, under the grants before the --, and which of them admits the address in each.
grants() { # WORD.. -- WORD..
    marks=0 count=0
    for word; do
        if [ "$word" = -- ]; then
            marks=$((marks + 1))
        else
            want_words "$word"
            [ "$marks" -gt 0 ] || count=$((count + 1))
        fi
    done
    [ "$marks" -eq 1 ] || wrong_use "between the grants and the batch one -- is wanted, not $marks"
    prepare_answer
    with_length "$@" | cat >"$work/input" || fail 'grants and batch could not be kept'
    run_program name_grants <"$work/input"
    take_names_apart || fail 'name_grants wrote something that is no answer'
    say "$text"
    exit "$status"
}

# As bytes: how many bytes the grants have, the grants, the batch.
with_length() { # WORD.. -- WORD..
    bytes "$(printf %X $((4 * count)))"
    for each; do
        [ "$each" = -- ] || bytes "$each"
    done
}

# The words of a batch that makes the state of a listing, under the grant of case K1.
back() {
    [ $# -eq 0 ] || wrong_use "'$1' is one word too many: the listing is read from standard input"
    is_open 0 || wrong_use 'standard input is closed'
    [ ! -t 0 ] || wrong_use 'standard input is a terminal'
    prepare_answer
    run_program restore_listing
    take_apart || fail 'restore_listing wrote something that is no answer'
    say "$text"
    exit "$status"
}
