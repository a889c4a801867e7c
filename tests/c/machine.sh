# Sourced by tests/c/run and bench/run, at the top of the repository: the tools for x86-64, and the archive.
#
# On x86-64 the programs are compiled by cc and run by themselves. Elsewhere, and with EMULATE=1, Debian's compiler for x86-64 compiles
# them, which has the same name on Arm and on x86-64, and they run under qemu-x86_64. Packages are installed only where something is
# missing.
#
# The archive is the one that rt builds of the sources as they are. With IRANGELDA_ARCHIVE=FILE (its whole path) it is that file,
# whatever is in it: for looking at an archive that is not proved.
root=$PWD
. desk/machine.sh
. desk/fresh.sh

scratch=out/c
archive=${IRANGELDA_ARCHIVE:-out/libirangelda.a}

if native && [ "${EMULATE:-0}" != 1 ]; then
    cc=cc
    nm=nm
    readelf=readelf
    emulator=
else
    cc=x86_64-linux-gnu-gcc
    nm=x86_64-linux-gnu-nm
    readelf=x86_64-linux-gnu-readelf
    emulator=qemu-x86_64
fi

links_statically() {
    echo 'int main(void) { return 0; }' | "$cc" -static -x c - -o "$scratch/probe" 2>/dev/null
}

prepare_compiler() {
    if native; then
        have "$cc" || install_packages gcc
        links_statically || install_packages libc6-dev
    else
        have "$cc" || install_packages gcc-x86-64-linux-gnu
        links_statically || install_packages libc6-dev-amd64-cross
    fi
    links_statically
}

prepare_emulator() {
    [ -z "$emulator" ] || have "$emulator" || install_packages qemu-user
}

prepare_archive() {
    if [ -n "${IRANGELDA_ARCHIVE:-}" ]; then
        tell "the archive is $archive, which nothing here says is proved"
    else
        fresh_archive irangelda
    fi
}

mkdir -p "$scratch"
prepare_compiler
prepare_emulator
prepare_archive
