# Sourced, with `root` the top of the repository: a program or an archive that is what rt builds of the sources as they are.
#
#   fresh_program NAME    crates/NAME/out/NAME
#   fresh_archive NAME    out/libNAME.a, of the static library NAME_c
#
# Status 0: the file is there and fresh. Else it was said on standard error why not.
#
# A stamp in out/built tells by which rt, of which sources and with which bytes a file was built. Where it does not hold, rt is
# asked. rt alone would not do: it builds an archive anew each time, and for a program it needs a second to find that nothing has
# changed, and then runs it.

fresh_program() { fresh "$root/crates/$1/out/$1" "$1" build_program; }
fresh_archive() { fresh "$root/out/lib$1.a" "$1_c" build_archive; }

# In a subshell, so that its variables, its traps and the lock end with it. What rt leaves running when it is interrupted has the lock
# too, and so is waited for.
fresh() ( # FILE CRATE BUILD
    file=$1 crate=$2 build=$3 built=$root/out/built
    stamp=$built/${file##*/} log=$built/${file##*/}.log
    command -v rt >/dev/null || refuse "rt is not there: $crate can be neither built nor told to be fresh"
    ! is_fresh || exit 0
    mkdir -p "$built" && exec 9>"$built/lock" || exit
    flock -n 9 || { tell 'waiting for a build that is under way'; flock 9; } || exit
    # Again where another has built it meanwhile, and where a source changed while it was built.
    until is_fresh; do
        build_and_stamp || exit
    done
)

tell() { echo "irangelda: $1" >&2; }

refuse() {
    tell "$1"
    exit 1
}

# ---- the stamp

sum() { sha256sum | cut -d ' ' -f 1; }

# rt, the machine, and the name and content of every file of every crate, but for what rt made; not their times, which a checkout sets
# as it likes.
sources_sum() {
    {
        rt version </dev/null && uname -m && cd "$root" &&
            find crates crates.txt -path 'crates/*/out' -prune -o -type f -exec sha256sum {} + | LC_ALL=C sort
    } | sum
}

# Leaves the sum in `sources`: what is built next is stamped with it.
is_fresh() {
    sources=$(sources_sum)
    [ -f "$file" ] && [ "$(cat "$stamp" 2>/dev/null)" = "$sources $(sum <"$file")" ]
}

# A build that fails or is interrupted leaves no stamp.
build_and_stamp() {
    rm -f "$stamp"
    build_in_view || return
    [ -f "$file" ] || refuse "rt is content, but ${file#"$root"/} is not there"
    put_stamp
}

put_stamp() { echo "$sources $(sum <"$file")" >"$stamp.new" && mv "$stamp.new" "$stamp"; }

# ---- rt, in the crate's folder

# It builds a program only where it runs it: here on no input. How that ends does not matter.
build_program() { rt run || grep -q '^rt: running ' "$log"; }
build_archive() { rt lib && cp "out/lib$crate.a" "$file"; }

# The crates of the repository that the crate stands on.
crates_below() {
    awk -v crate="$crate" '
        function visit(name,    below, count, i) {
            count = split(stands_on[name], below, " ")
            for (i = 1; i <= count; i++)
                if (below[i] in stands_on && !(below[i] in visited)) {
                    visited[below[i]] = 1
                    print below[i]
                    visit(below[i])
                }
        }
        { sub(/#.*/, "") }
        split($0, line, ":") == 2 {
            sub(/ .*/, "", line[1])
            stands_on[line[1]] = line[2]
        }
        END { visit(crate) }' "$root/crates.txt"
}

# ---- for who waits

# Builds, with all that rt says in the log. Of that one line is shown: on a terminal one that moves, and that goes at the end.
build_in_view() {
    : >"$log"
    if [ -t 2 ]; then
        show_progress 9>&- &
        progress=$!
        trap stop_progress EXIT
        trap 'exit 1' HUP INT TERM
    else
        tell "proving and building $crate, which takes long the first time"
    fi
    (cd "$root/crates/$crate" && "$build") >"$log" 2>&1 </dev/null
    status=$?
    stop_progress
    [ "$status" = 0 ] || show_failure
    return "$status"
}

# Ends by itself if the command is killed.
show_progress() {
    seconds=0 all=$(($(crates_below | wc -l) + 1))
    while kill -0 $$ 2>/dev/null; do
        printf '\r%-72s' "proving and building: $(proved_so_far) of $all, $seconds s" >&2
        sleep 1
        seconds=$((seconds + 1))
    done
}

# The last crate that rt had to look at, and how many so far: each once.
proved_so_far() {
    awk '
        /^crate [^ ]+: modules / {
            sub(/:$/, "", $2)
            if (!named[$2]++) count++
            last = $2 " proved, "
        }
        END { print last count + 0 }' "$log" 2>/dev/null
}

stop_progress() {
    [ -n "${progress:-}" ] || return 0
    kill "$progress" 2>/dev/null
    progress=
    printf '\r%72s\r' '' >&2
}

show_failure() {
    tell "rt could not prove and build $crate. Its last lines:"
    tail -n 12 "$log" >&2
    tell "all of them are in ${log#"$root"/}"
}
