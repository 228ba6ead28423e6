#!/usr/bin/env bash
# Builds the static library of the calls for C, crates/desk/out/libdesk.a, for x86-64.
#   library.sh         by rt lib: the crates that it is made of are proved first, over what earlier checks of them kept
#   library.sh --ci    right after rt ci, in a clone in which no crate was built before: over the libraries that rt ci proved. rt lib takes none of those
#                      and would prove each again. The crate desk itself is proved once more; where this does not build it, rt lib is to
set -eu

rt=$(command -v rt) || { echo "library.sh: the proof tools are missing: rt is not on the path" >&2; exit 2; }
kit=$(cd "$(dirname "$(readlink -f "$rt")")/.." && pwd)
cd "$(dirname "$0")/../crates/desk"

over_ci() {
    local name at words=()
    for name in $(sed -n 's/#.*//; s/^desk staticlib://p' ../../crates.txt); do words+=(--extern "$name=../$name/out/rlib/$name.rlib"); done
    for at in ../*/out/rlib; do words+=(-L "dependency=$at"); done
    mkdir -p out
    "$kit/bin/rattle" build --crate-name desk --crate-type staticlib --links desk= src/lib.rt "${words[@]}" --extern "std=$kit/rlibs/std.rlib" \
        -L "dependency=$kit/rlibs" --antt-project "$kit/rattle/logic/antt-project.json" --logic-built "$kit/logic_built" --toolchain "$kit/toolchain" \
        --jobs 2 -o out/libdesk.a
}

case ${1-} in
"") exec rt lib ;;
--ci) over_ci || exec rt lib ;;
*)
    echo "usage: library.sh [--ci]" >&2
    exit 2
    ;;
esac
