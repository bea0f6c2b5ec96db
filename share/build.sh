# shellcheck shell=sh
# What is proved and compiled for those who install or run: the library and the program `turn`, for a kind of machine. Sourced from the
# repository's root.
#
# The kit's commands compile what they have proved, for x86-64 and for aarch64: the static library exports_c as the whole archive, the program as
# an object. They link for x86-64 alone; for another machine its own C compiler links the program, with share/errno.c.

made=target/made
tools=$(dirname "$(dirname "$(readlink -f "$(command -v rt)")")")/toolchain/bin

# Whether code can be made for a kind of machine.
known_target() {
    case $1 in x86_64 | aarch64) ;; *) return 1 ;; esac
}

# What everything is made of: the toolchain, the crates' files and what compiles them. Where none of it has changed, what was made stands proved.
made_of=$({ rt version; cat crates.txt share/build.sh share/errno.c
    find crates -type d \( -name must-fail -o -name out \) -prune -o -type f -print0 | sort -z | xargs -0 sha256sum; } | sha256sum | cut -d ' ' -f 1)

# stands FILE...: whether all are there and made of what is here now.
stands() {
    for file in "$@"; do
        [ -e "$file" ] && [ "$(cat "$file.made-of" 2>/dev/null)" = "$made_of" ] || return 1
    done
}

# standing FILE...: notes that they are made of what is here now.
standing() {
    for file in "$@"; do echo "$made_of" >"$file.made-of"; done
}

# The crates that a crate is made of, itself last, one a line, in the order in which rt proves them: each after those that it stands on.
crates_of() {
    awk -F: -v wanted="$1" '
        /^[a-z]/ { name = $1; sub(/ .*/, "", name); needs[name] = $2 }
        function visit(name,   list, count, k) {
            if (!(name in needs) || seen[name]++) return
            count = split(needs[name], list, " ")
            for (k = 1; k <= count; k++) visit(list[k])
            print name
        }
        END { visit(wanted) }' crates.txt
}

# prove CRATE FILE WORD...: proves a crate and what it is made of by `rt WORD...` in its folder, which compiles it into FILE of its out/ and leaves
# nothing there where a proof fails. Says a line on standard error for each crate that is proved; of one that stands proved rt says nothing.
prove() {
    crate=$1 file=$2 log=$made/$1.log
    shift 2
    rm -f "crates/$crate/out/$file"
    (cd "crates/$crate" && rt "$@" </dev/null) 2>&1 | tee "$log" | awk -v order="$(crates_of "$crate" | tr '\n' ' ')" '
        BEGIN { count = split(order, crates, " "); for (k = 1; k <= count; k++) place[crates[k]] = k }
        /^crate [a-z0-9_]+: / { name = $2; sub(/:$/, "", name) }
        /^logic=proved functions=/ { sub(/.*=/, "", $2); print place[name] " of " count " " name ", " $2 " functions"; fflush() }' >&2
    [ -e "crates/$crate/out/$file" ] || { cat "$log" >&2; echo "not proved: $log has all that the prover said" >&2; return 1; }
}

# make_library TARGET: proves the library, and makes the archive and the shared library of it for a kind of machine.
make_library() {
    into=$made/$1
    stands "$into/libzibsnarda.a" "$into/libzibsnarda.so.3" && return
    mkdir -p "$into"
    prove exports_c libexports_c.a lib --target "$1-unknown-linux-gnu"
    cp crates/exports_c/out/libexports_c.a "$into/libzibsnarda.a"
    echo '{ global: zib_*; local: *; };' >"$into/names.txt"
    "$tools/ld.lld" -shared -soname libzibsnarda.so.3 --version-script "$into/names.txt" --whole-archive "$into/libzibsnarda.a" -o "$into/libzibsnarda.so.3"
    standing "$into/libzibsnarda.a" "$into/libzibsnarda.so.3"
}

# make_program TARGET CC: proves the program `turn`, and makes it for a kind of machine, by its C compiler where that is no x86-64.
make_program() {
    into=$made/$1
    stands "$into/turn" && return
    mkdir -p "$into"
    if [ "$1" = x86_64 ]; then
        prove turn turn run # which then runs it once, on no input
        cp crates/turn/out/turn "$into/turn"
    else
        prove turn turn.o run --target "$1-unknown-linux-gnu" # which ends at the link: the object is there
        "$2" -O2 share/errno.c crates/turn/out/turn.o -o "$into/turn"
    fi
    standing "$into/turn"
}
