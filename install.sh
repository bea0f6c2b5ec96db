#!/bin/sh
# Proves the library and the program `turn`, and installs them under a prefix.
set -eu
usage() {
    cat <<'USAGE'
Usage: ./install.sh [--target MACHINE] [PREFIX]    (default: this machine, /usr/local)
       ./install.sh --uninstall [PREFIX]           removes what was installed, and its folders where they are empty then
MACHINE is x86_64 or aarch64. DESTDIR is put before the prefix where it is set.
Installed are the header, the archive, the shared library, the files for pkg-config and CMake, the Python module, the programs `turn` and `turn-sheet`
and their manual pages. The first time takes about 8 minutes, for all is proved; what stands proved is not proved again.
USAGE
}

# said on standard error, and the end
stop() {
    echo "install.sh: $*" >&2
    exit 2
}

uninstall='' target=$(uname -m) prefix=/usr/local
while [ $# -gt 0 ]; do
    case $1 in
        --help | -h) usage && exit 0 ;;
        --uninstall) uninstall=yes ;;
        --target) target=${2:?install.sh: --target needs a machine} && shift ;;
        -*) usage >&2 && exit 2 ;;
        *) [ $# -eq 1 ] && [ -n "$1" ] || { usage >&2 && exit 2; } && prefix=$1 ;;
    esac
    shift
done
given=$prefix
prefix=$(realpath -m -- "$prefix")
root=${DESTDIR:+$(realpath -m -- "$DESTDIR")}$prefix
cd "$(dirname "$(readlink -f -- "$0")")"
python=lib/python3/site-packages/zibsnarda
files="include/zibsnarda.h lib/libzibsnarda.a lib/libzibsnarda.so.3 lib/pkgconfig/zibsnarda.pc lib/cmake/zibsnarda/zibsnarda-config.cmake
    lib/cmake/zibsnarda/zibsnarda-config-version.cmake $python/__init__.py $python/py.typed bin/turn bin/turn-sheet
    share/man/man1/turn.1 share/man/man1/turn-sheet.1"

if [ -n "$uninstall" ]; then
    for file in $files; do
        [ ! -e "$root/$file" ] || { rm -- "$root/$file" && echo "removed $root/$file"; }
    done
    rm -rf -- "$root/$python/__pycache__" # what Python made of the module
    for file in $files; do
        (cd -- "$root" && rmdir -p -- "${file%/*}") 2>/dev/null || true
    done
    [ -L "$given" ] || rmdir -- "$root" 2>/dev/null || true
    exit 0
fi

# all that can be wrong with the words is found before anything is proved
. tests/machine.sh
. share/build.sh
known_target "$target" || stop "no code is made for $target: say --target x86_64 or --target aarch64"
{ mkdir -p -- "$root" && [ -w "$root" ]; } 2>/dev/null || stop "cannot write to $root"
need_compiler "$target"
mkdir -p "$made/$target"
stands "$made/$target/libzibsnarda.a" "$made/$target/turn" || echo "proving: about 8 minutes the first time, a line for each crate" >&2
make_library "$target"
make_program "$target" "$cc"

# put MODE FILE PLACE
put() {
    install -D -m "$1" -- "$2" "$root/$3"
    echo "installed $root/$3"
}

version=$(sed -n 's/^#define ZIB_VERSION "\(.*\)"$/\1/p' include/zibsnarda.h)
for file in zibsnarda.pc zibsnarda-config-version.cmake; do
    sed -e "s/@VERSION@/$version/" -e "s/@TARGET@/$target/" "share/$file" >"$made/$target/$file"
done
put 644 include/zibsnarda.h include/zibsnarda.h
put 644 "$made/$target/libzibsnarda.a" lib/libzibsnarda.a
put 755 "$made/$target/libzibsnarda.so.3" lib/libzibsnarda.so.3
put 644 "$made/$target/zibsnarda.pc" lib/pkgconfig/zibsnarda.pc
put 644 share/zibsnarda-config.cmake lib/cmake/zibsnarda/zibsnarda-config.cmake
put 644 "$made/$target/zibsnarda-config-version.cmake" lib/cmake/zibsnarda/zibsnarda-config-version.cmake
put 644 bindings/python/zibsnarda/__init__.py "$python/__init__.py"
put 644 bindings/python/zibsnarda/py.typed "$python/py.typed"
"$cc" -std=c99 -O2 -Iinclude share/turn-sheet.c "$made/$target/libzibsnarda.a" -o "$made/$target/turn-sheet"
put 755 "$made/$target/turn-sheet" bin/turn-sheet
put 644 share/turn-sheet.1 share/man/man1/turn-sheet.1
put 755 "$made/$target/turn" bin/turn
put 644 share/turn.1 share/man/man1/turn.1
