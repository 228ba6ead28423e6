#!/usr/bin/env bash
# Builds and runs serve.c, the program through which the comparison drivers ask the proved static library.
#   serve.sh build LIBRARY.a PROGRAM    link serve.c with the library
#   serve.sh run PROGRAM                run it
# The compiler and the linker are those that come with the proof tools (`rt`).
set -eu

here=$(cd "$(dirname "$0")" && pwd)
rt=$(command -v rt) || { echo "serve.sh: rt is not on the path" >&2; exit 2; }
tools=$(cd "$(dirname "$(readlink -f "$rt")")/.." && pwd)/toolchain/bin
[ -x "$tools/clang" ] || { echo "serve.sh: the proof tools have no compiler at $tools" >&2; exit 2; }

case ${1-} in
build)
    [ $# -eq 3 ] || { echo "usage: serve.sh build LIBRARY.a PROGRAM" >&2; exit 2; }
    object=$(mktemp)
    trap 'rm -f "$object"' EXIT
    "$tools/clang" --target=x86_64-linux-gnu -std=c11 -Wall -Wextra -Werror -O2 -ffreestanding -fno-builtin \
        -fno-stack-protector -fno-pic -c "$here/serve.c" -o "$object"
    # All of the library: a weak name, as serve.c has them, draws nothing out of an archive.
    "$tools/ld.lld" -static -o "$3" "$object" --whole-archive "$2"
    ;;
run)
    [ $# -eq 2 ] || { echo "usage: serve.sh run PROGRAM" >&2; exit 2; }
    exec "$2"
    ;;
*)
    echo "usage: serve.sh build LIBRARY.a PROGRAM | serve.sh run PROGRAM" >&2
    exit 2
    ;;
esac
