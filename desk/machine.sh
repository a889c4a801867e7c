# Sourced: what there is on this machine. What rt builds is for x86-64, and runs under an emulator on any other.

native() { [ "$(uname -m)" = x86_64 ]; }

have() { command -v "$1" >/dev/null 2>&1; }

install_packages() {
    if [ "$(id -u)" = 0 ]; then as_root=; else as_root=sudo; fi
    {
        $as_root apt-get update -qq &&
            $as_root env DEBIAN_FRONTEND=noninteractive apt-get install -y -qq --no-install-recommends "$@"
    } >&2
}

# Sets `run`, the words before a program that is to be run, which may be none.
prepare_to_run() {
    run=
    native && return
    run='qemu-x86_64 -L /usr/x86_64-linux-gnu'
    { have qemu-x86_64 && [ -d /usr/x86_64-linux-gnu/lib ]; } || install_packages qemu-user libc6-amd64-cross
}
