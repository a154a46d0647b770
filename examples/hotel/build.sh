# Sourced by ask and move, from the project's root: make NAME sets `program` to the example program of that name, which is built, with the library,
# where a source has changed since it was. With DINGHY_LIB_DIR, the folder of a libdinghy.a, that library is taken and none is built.
work=$(mktemp -d)
trap 'rm -rf "$work"' EXIT

# Proves and builds the library, saying how far it has come; what the prover says is shown only if it fails.
build_library() {
    local log=$work/log crates proved
    crates=$(grep -c '^[a-z_]*[ a-z]*:' crates.txt)
    ./library >"$log" 2>&1 &
    while kill -0 $! 2>/dev/null; do
        proved=$(grep -ac '^logic=proved' "$log" || true)
        printf '\rproving and building the library: %d of %d crates' $((proved < crates ? proved : crates)) "$crates" >&2
        sleep 1
    done
    printf '\n' >&2
    wait $! || { cat "$log" >&2; exit 1; }
}

# build_program LIBRARY PROGRAM: the one of that name
build_program() {
    "${CC:-gcc}" -std=c11 -O2 -Wall -Wextra -Werror -Iinclude "examples/$(basename "$2").c" "$1/libdinghy.a" -o "$2"
}

# newer FILE PATH..: a source in these that is newer than the file, or the file itself if it is missing. What the prover keeps in crates/NAME/out is none.
newer() {
    local file=$1
    shift
    if [ -f "$file" ]; then find "$@" -name out -prune -o -type f -newer "$file" -print -quit; else echo "$file"; fi
}

make() {
    if [ -n "${DINGHY_LIB_DIR:-}" ]; then
        program=$work/$1
        build_program "$DINGHY_LIB_DIR" "$program"
    else
        local library=target/staticlib/libdinghy.a
        program=target/$1
        if [ -n "$(newer "$library" crates crates.txt)" ]; then build_library; fi
        if [ -n "$(newer "$program" "$library" include examples/*.[ch])" ]; then build_program target/staticlib "$program"; fi
    fi
}
