# shellcheck shell=sh
# The library built for a measurement. Sourced by the scripts that measure.

# archive MACHINE FOLDER FILE: the archive for a kind of machine of the library that lies in FOLDER.
archive() {
    rm -f "$2/crates/exports_c/out/libexports_c.a"
    (cd "$2/crates/exports_c" && rt lib --target "$1-unknown-linux-gnu") >"$3.log" 2>&1 && cp "$2/crates/exports_c/out/libexports_c.a" "$3"
}

# of_revision MACHINE REVISION FILE: the archive of a revision that the kit at hand proves, built in a folder outside the repository, unless FILE is there.
of_revision() {
    [ ! -f "$3" ] || return 0
    earlier=$(mktemp -d)
    git archive "$2" | tar -x -C "$earlier"
    archive "$1" "$earlier" "$3" || { cat "$3.log" >&2; exit 1; }
    rm -rf "$earlier"
}
