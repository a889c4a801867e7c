# Sourced by tests/c/run: data that a program can write.

# Prints each section of an object, or of the objects of an archive, that is not empty and that a program has in memory and can write,
# and each common symbol, which comes to stand in such a section. Addresses that a loader sets (.data.rel.ro) are no exception: until
# then they can be written, and a kernel need not have such a loader.
writable_data() { # FILE
    "$readelf" -SW "$1" | awk '
        sub(/^ *\[ *[0-9]+\] /, "") { sections++ }
        NF == 10 && $7 ~ /W/ && $7 ~ /A/ && $5 !~ /^0*$/ { print "section " $1 }
        END { if (sections == 0) print "no section at all" }'
    "$nm" "$1" | awk 'NF == 3 && $2 ~ /^[BbCcDdGgSsu]$/ { print "symbol " $3 }'
}

# That it would be seen: objects that have some, and one that has none.
sees_data() { # C OPTIONS..
    echo "$1" >"$scratch/data.c"
    shift
    "$cc" -std=c11 "$@" -c "$scratch/data.c" -o "$scratch/data.o" || exit 1
    [ -n "$(writable_data "$scratch/data.o")" ]
}

sees_writable_data() {
    for option in -fcommon -fno-common; do
        sees_data 'int written = 1;' $option &&
            sees_data 'int zero;' $option &&
            sees_data 'int count(void) { static int calls; return ++calls; }' $option &&
            sees_data '_Thread_local int own;' $option &&
            sees_data 'extern int there; int *const to = &there;' -fPIC $option &&
            ! sees_data 'const int table[] = { 1, 2 }; int at(int i) { return table[i]; }' $option || return
    done
}
