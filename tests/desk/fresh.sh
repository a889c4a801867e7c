# Sourced by tests/desk/run: a made-up repository with a stand-in for rt, to see what is built when. What is built prints the source
# that it was built of.

made=$work/made stand=$work/stand
for crate in leaf irangelda irangelda_c list_batch restore_listing name_grants; do
    mkdir -p "$made/crates/$crate/src"
done
mkdir -p "$made/.ci" "$stand/kit/bin"
cp -R "$root/irangelda" "$root/desk" "$made"
cp "$root/.ci/judged" "$made/.ci"
cat >"$made/crates.txt" <<'END'
leaf:
irangelda: leaf
irangelda_c staticlib: leaf irangelda
list_batch: leaf irangelda io
restore_listing: leaf irangelda io
name_grants: leaf irangelda io
END
source=$made/crates/leaf/src/lib.rt
echo first >"$source"
echo kit-1 >"$stand/version"
: >"$stand/asked"
command=$made/irangelda

# Like rt, it works in a crate's folder, runs the program that it builds, and builds it anew where it is not what it left. Files beside it
# make it slow, or fail.
cat >"$stand/rt" <<'END'
#!/bin/sh
stand=$(dirname "$0")
case $1 in
version) exec cat "$stand/version" ;;
doc) exec echo "$stand/kit/START-HERE.md" ;;
esac
crate=${PWD##*/}
source=$(cat ../leaf/src/lib.rt)
echo "$* in $crate" >>"$stand/asked"
echo 'crate leaf: modules loaded=0 checked=1'
[ ! -f "$stand/slow" ] || sleep 2
[ ! -f "$stand/fails" ] || { echo "rt: $crate NOT PROVED" && exit 1; }
mkdir -p out
is_left() { [ -f "out/$crate" ] && [ "$(cat "out/$crate.stamp" 2>/dev/null)" = "$source $(sha256sum <"out/$crate")" ]; }
case $* in
lib) echo "$source" >"out/lib$crate.a" ;;
run)
    is_left || "$stand/build" "$crate" "$source"
    echo "$source $(sha256sum <"out/$crate")" >"out/$crate.stamp"
    echo "rt: running out/$crate"
    exec "out/$crate"
    ;;
*) exit 2 ;;
esac
END
cat >"$stand/build" <<'END'
#!/bin/sh
printf '#!/bin/sh\ncat >/dev/null\n%s\n' "$(cat "$(dirname "$0")/prints")" | sed "s/SOURCE/$2/" >"out/$1"
chmod +x "out/$1"
END
# The program that it builds is for any machine.
printf '#!/bin/sh\necho x86_64\n' >"$stand/uname"
echo 'echo cells=1 SOURCE' >"$stand/prints"
chmod +x "$stand/rt" "$stand/build" "$stand/uname"
old_path=$PATH
PATH=$stand:$PATH

# Lists the source as it is now, after asking rt so many times.
lists() { # NAME TIMES
    : >"$stand/asked"
    desk list 0
    echo "cells=1 $(cat "$source")" >"$work/want"
    printed "$1"
    asked "$1" "$2"
    if [ "$status" = 0 ]; then pass; else fail "$1" "status $status"; fi
}
asked() { # NAME TIMES
    if [ "$(wc -l <"$stand/asked")" = "$2" ]; then pass; else fail "$1" "asked rt $(wc -l <"$stand/asked") times, not $2"; fi
}

# ---- never stale, and not built without need

lists 'the first time' 1
said 'the first time' 'proving and building'
lists 'the second time' 0
ended 'the second time' 0

touch -r "$source" "$work/time"
echo other >"$source"
touch -r "$work/time" "$source"
lists 'another source, as old' 1
touch "$source"
lists 'a source that is newer and the same' 0
touch "$made/crates/leaf/src/more.rt"
lists 'one more source' 1
rm "$made/crates/leaf/src/more.rt"
lists 'one source fewer' 1
echo '# more' >>"$made/crates.txt"
lists 'another crates.txt' 1
echo kit-2 >"$stand/version"
lists 'another rt' 1
lists 'the same rt' 0
built=$made/crates/list_batch/out/list_batch
rm "$built"
lists 'a program that is gone' 1
printf '#!/bin/sh\necho cells=0\n' >"$built"
lists 'a program that was replaced' 1
mkdir -p "$made/crates/leaf/out"
echo more >"$made/crates/leaf/out/more.rt"
lists 'what rt made of a crate, which is no source' 0
printf '#!/bin/sh\necho cells=0\n' >"$built"
echo third >"$made/crates/list_batch/src/main.rt"
lists 'a program that was replaced, and another source' 1

# ---- builds that fail, are interrupted, or meet

fails() { # NAME TEXT
    desk list 0
    ended "$1" 3
    printed_nothing "$1"
    said "$1" "$2"
}
echo fourth >"$source"
: >"$stand/fails"
for time in first second; do
    fails "a build that fails, the $time time" 'list_batch NOT PROVED'
    said "a build that fails, the $time time" 'out/built/list_batch.log'
done
rm "$stand/fails"
lists 'after a build that fails' 1

# In a session of its own, so that all of it can be interrupted at once.
echo fifth >"$source"
: >"$stand/slow"
setsid "$command" list 0 >"$work/got" 2>"$work/said" &
sleep 1
kill -s TERM -- "-$!"
wait $!
status=$?
ended 'a build that is interrupted' 3
printed_nothing 'a build that is interrupted'
rm "$stand/slow"
lists 'after a build that is interrupted' 1

echo sixth >"$source"
: >"$stand/slow" >"$stand/asked"
"$command" list 0 >"$work/one" 2>/dev/null &
"$command" list 0 >"$work/two" 2>/dev/null
wait $!
cat "$work/one" "$work/two" >"$work/got"
printf 'cells=1 sixth\ncells=1 sixth\n' >"$work/want"
printed 'two at once'
asked 'two at once' 1

echo seventh >"$source"
{ sleep 1 && echo eighth >"$source"; } &
desk list 0
wait $!
echo 'cells=1 eighth' >"$work/want"
printed 'a source that changes while it is built'

# ---- one line that moves, on a terminal

echo ninth >"$source"
script -qec "'$command' list 0" /dev/null </dev/null >"$work/said"
status=$?
if [ "$status" = 0 ]; then pass; else fail 'on a terminal' "status $status"; fi
said 'on a terminal' 'leaf proved, 1 of 3'
tr '\r' '\n' <"$work/said" | grep -v '^ *$' | tail -n 1 >"$work/got"
echo 'cells=1 ninth' >"$work/want"
printed 'on a terminal'
if [ "$(wc -l <"$work/said")" = 1 ]; then pass; else fail 'on a terminal' "more than one line: $(cat "$work/said")"; fi
rm "$stand/slow"

# ---- programs that are not as they should be

prints() { # NAME COMMANDS TEXT
    echo "$2" >"$stand/prints"
    rm "$built"
    fails "$1" "$3"
}
prints 'a program that prints nothing' : 'neither a listing nor a refusal'
prints 'a program that prints something else' 'echo SOURCE; echo cells=1' 'neither a listing nor a refusal'
prints 'a program that fails' 'echo cells=1; exit 7' 'ended with status 7'
prints 'a program that dies' 'echo cells=1; kill -KILL $$' 'ended with status 137'

writes() { # NAME BYTES
    no_answer "$1" "$2" restore_listing back
}
names() { # NAME BYTES
    no_answer "$1" "$2" name_grants grants --
}
no_answer() { # NAME BYTES PROGRAM USE..
    name=$1
    echo "printf '$2'" >"$stand/prints"
    rm -f "$made/crates/$3/out/$3"
    shift 3
    desk "$@" </dev/null
    ended "$name" 3
    printed_nothing "$name"
    said "$name" 'something that is no answer'
}
done_8='\0\010\0\0\0\0\0\0' done_1='\0\001\0\0\0\0\0\0' refused_8='\023\010\0\0\0\0\0\0'
writes 'no number' ''
writes 'part of a number' '\023\010\0'
writes 'a refusal and a byte' "$refused_8\0"
writes 'success alone' "$done_8"
writes 'a refusal of the writer and a byte' "$done_8$refused_8\0"
writes 'a word fewer than told' "$done_8$done_1"
writes 'part of a word' "$done_8$done_1\074\004\002"
writes 'a word more than told' "$done_8$done_1\074\004\002\0\0\0\001\0"

k1='cells=1\nreg=01.00.50 val=00001000\n' done_3='\0\003\0\0' refused_2='\011\002\0\0'
names 'no number before the grants' ''
names 'part of a number before the grants' '\0\003\0'
names 'part of a refusal before the grants' '\011\002\0'
names 'a refusal under grants and a byte' "$refused_2\0"
names 'a refusal under grants and a listing' "${refused_2}cells=0\n"
names 'success under grants alone' "$done_3"
names 'success under grants and a number alone' "$done_3\0"
names 'a number fewer than lines' "$done_3$k1"
names 'a number more than lines' "$done_3\0\100$k1"
names 'a number without a line' "$done_3\0cells=0\n"
names 'a number above 64' "$done_3\101$k1"
names 'a number above 127' "$done_3\377$k1"
names 'a count that is too high' "$done_3\0\0cells=2\nreg=01.00.50 val=00001000\n"
names 'a count that is too low' "${done_3}cells=0\nreg=01.00.50 val=00001000\n"
names 'a count with a leading zero' "$done_3\0cells=01\nreg=01.00.50 val=00001000\n"
names 'another line' "$done_3\0cells=1\nreason=9 place=2\n"
names 'a line that is cut' "$done_3\0cells=1\nreg=01.00.50 val=00001000"
names 'a line end more' "$done_3\0$k1\n"
names 'a byte behind the listing' "$done_3\0$k1\0"
names 'a zero in the listing' "$done_3\0cells=1\nreg=01.00.50 \0val=00001000\n"

# ---- an archive is as fresh

archive() { # NAME TIMES
    : >"$stand/asked"
    (root=$made && . "$made/desk/fresh.sh" && fresh_archive irangelda) 2>"$work/said"
    status=$?
    cp "$made/out/libirangelda.a" "$work/got"
    cp "$source" "$work/want"
    printed "$1"
    asked "$1" "$2"
    if [ "$status" = 0 ]; then pass; else fail "$1" "status $status"; fi
}
archive 'an archive, the first time' 1
archive 'an archive, the second time' 0
echo tenth >"$source"
archive 'an archive of another source' 1
echo another >"$made/out/libirangelda.a"
archive 'an archive that was replaced' 1

# ---- what `rt ci` left is taken, as .ci/run does it

echo 'echo cells=1 SOURCE' >"$stand/prints"
cat >"$stand/kit/bin/rattle" <<'END'
#!/bin/sh
[ "$*" = "$(cat "$(dirname "$0")/wanted")" ] || exit 1
cat ../leaf/src/lib.rt >out/libirangelda_c.a
END
chmod +x "$stand/kit/bin/rattle"
kit=$stand/kit
echo "build --crate-name irangelda_c src/lib.rt --crate-type staticlib --extern std=$kit/rlibs/std.rlib" \
    "--extern leaf=../leaf/out/rlib/leaf.rlib --extern irangelda=../irangelda/out/rlib/irangelda.rlib -L dependency=../leaf/out/rlib" \
    "-L dependency=../irangelda/out/rlib -L dependency=$kit/rlibs --antt-project $kit/rattle/logic/antt-project.json" \
    "--logic-built $kit/logic_built --jobs 2 --links irangelda_c= --toolchain $kit/toolchain --backend llvm -o out/libirangelda_c.a" >"$kit/bin/wanted"

leaves() { # SOURCE: programs, and libraries without a stamp; before that, what the sources sum up to
    echo "$1" >"$source"
    sources=$("$made/.ci/judged" sum)
    for crate in leaf irangelda; do
        rm -rf "$made/crates/$crate/out"
        mkdir -p "$made/crates/$crate/out/rlib/$crate.rlib"
    done
    for crate in list_batch restore_listing name_grants; do
        (cd "$made/crates/$crate" && rm -rf out && mkdir out && "$stand/build" "$crate" "$1")
    done
}
leaves eleventh
"$made/.ci/judged" take "$sources"
lists 'what rt ci built' 0
archive 'an archive over what rt ci proved' 0
leaves twelfth
echo thirteenth >"$source"
"$made/.ci/judged" take "$sources" 2>"$work/said"
said 'a source that changed meanwhile' 'have changed'
lists 'a source that changed meanwhile' 1
archive 'an archive of a source that changed meanwhile' 1
leaves fourteenth
touch "$made/crates/leaf/out/rlib/stamp"
"$made/.ci/judged" take "$sources"
archive 'an archive over libraries that rt stamped' 1
leaves fifteenth
echo other >"$kit/bin/wanted"
"$made/.ci/judged" take "$sources" 2>"$work/said"
said 'an archive that cannot be built' 'out/built/libirangelda.a.log'
archive 'an archive that cannot be built' 1
lists 'a program beside such an archive' 0

PATH=$old_path
