# shellcheck shell=sh
# What this machine lacks to build and run code for a kind of machine, installed by apt-get where it can be. Sourced by the scripts.

machine=$(uname -m)
# the kind of machine that the library is also made for; and the one whose code runs here by itself, or on an emulator
case $machine in x86_64) other=aarch64 own=x86_64 ;; aarch64) other=x86_64 own=aarch64 ;; *) other='' own=x86_64 ;; esac

# Runs a command as root, or says what could not be done.
as_root() {
    if [ "$(id -u)" -eq 0 ]; then "$@"
    elif command -v sudo >/dev/null 2>&1; then sudo -n "$@"
    else echo "cannot run as root: $*" >&2; return 1
    fi
}

# install PACKAGE...: nothing is asked, and little is said.
install_packages() {
    log=$(mktemp)
    echo "installing by apt-get: $*" >&2
    if [ -z "${lists_fresh:-}" ]; then as_root apt-get update -q >"$log" 2>&1 || { cat "$log" >&2; exit 1; }; fi
    lists_fresh=yes
    as_root env DEBIAN_FRONTEND=noninteractive apt-get install -y -q --no-install-recommends "$@" >"$log" 2>&1 || { cat "$log" >&2; exit 1; }
    rm -f "$log"
}

# need COMMAND PACKAGE...: the packages, unless the command is there.
need() {
    command=$1
    shift
    command -v "$command" >/dev/null 2>&1 || install_packages "$@"
}

# need_compiler MACHINE: a C compiler for a kind of machine (cc).
need_compiler() {
    case $1 in
        "$machine") cc=gcc packages="gcc libc6-dev" ;;
        x86_64) cc=x86_64-linux-gnu-gcc packages="gcc-x86-64-linux-gnu libc6-dev-amd64-cross" ;;
        aarch64) cc=aarch64-linux-gnu-gcc packages="gcc-aarch64-linux-gnu libc6-dev-arm64-cross" ;;
        *) echo "no code is made for $1" >&2 && exit 2 ;;
    esac
    # shellcheck disable=SC2086
    need "$cc" $packages
}

# need_target MACHINE: a C compiler for a kind of machine (cc), and what runs its programs here (run): nothing, or an emulator.
need_target() {
    need_compiler "$1"
    need "${cc%gcc}nm" binutils
    run=
    [ "$machine" = "$1" ] || { run=qemu-$1 && need "$run" qemu-user; }
}

# A Rust compiler for this machine; rustc links by cc.
need_rust() {
    PATH=$PATH:${CARGO_HOME:-${HOME:-}/.cargo}/bin
    need rustc rustc
    need cc gcc libc6-dev
}

# build_outside MACHINE FLAG...: the library for a kind of machine under $out/prefix, and the driver (with the flags) and the test program in $out.
build_outside() {
    mkdir -p "$out"
    rm -rf "$out/prefix"
    ./install.sh --target "$1" "$out/prefix" >"$out/installed.txt"
    shift
    "$cc" -std=c11 -O2 -Wall -Wextra "$@" -I"$out/prefix/include" tests/driver.c -L"$out/prefix/lib" -lzibsnarda -o "$out/driver"
    # the calls have one list, the driver's
    sed -n 's/^ *\([A-Z][A-Z0-9_]*\) = \([0-9]*\),\{0,1\}$/pub const \1: u64 = \2;/p' tests/driver.c >"$out/calls.rs"
    CALLS=$(cd "$out" && pwd)/calls.rs rustc -O --edition 2021 tests/outside/main.rs -o "$out/outside"
}
