#!/usr/bin/env bash
# scripts/archive.sh: the archive for C and Rust, target/staticlib/libhurdlesong_c.a, of the crate `hurdlesong_archive`. It is proved and built
# where that is not done yet; this needs the Rattle toolchain's `rt` on the path and takes long the first time.
set -eu
cd "$(dirname "$(realpath "$0")")/.."
. scripts/runner.sh
crate=hurdlesong_archive
made=crates/$crate/out/lib$crate.a

# Over the libraries that `rt ci` left, as it builds programs over them: `rt lib` takes none of those, and would prove each once more. The crate
# itself is proved here again, and where it is not, nothing is built. The folder of a library tells when it came: its files may be older.
over_gate() {
    local kit library words
    kit=$(dirname "$(dirname "$(realpath "$(command -v rt)")")")
    words=(--crate-name $crate --crate-type staticlib src/lib.rt --extern "std=$kit/rlibs/std.rlib" -L "dependency=$kit/rlibs")
    for library in $(sed -n "s/^$crate staticlib: *//p" crates.txt); do
        words+=(--extern "$library=../$library/out/rlib/$library.rlib")
    done
    for library in crates/*/out/rlib/*.rlib; do
        newest "$library" || return
        words+=(-L "dependency=../../${library%/*}")
    done
    words+=(--antt-project "$kit/rattle/logic/antt-project.json" --logic-built "$kit/logic_built" --toolchain "$kit/toolchain")
    mkdir -p "crates/$crate/out"
    (cd "crates/$crate" && "$kit/bin/rattle" build "${words[@]}" --links "$crate=" -o "out/lib$crate.a" < /dev/null)
}

if ! newest "$made"; then
    proving "the archive"
    if ! over_gate > /dev/null 2>&1 && echo "$0: not over what rt ci left; rt lib proves each library that it needs" >&2 &&
        ! log=$(cd "crates/$crate" && rt lib 2>&1 < /dev/null); then
        printf '%s\n' "$log" >&2
        exit 1
    fi
fi
mkdir -p target/staticlib
cp "$made" target/staticlib/libhurdlesong_c.a
