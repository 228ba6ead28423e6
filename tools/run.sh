#!/usr/bin/env bash
# Runs a program that the proof tools linked, with the loader and the C library that they linked it against.
#   run.sh PROGRAM WORD..
set -eu

[ $# -ge 1 ] || { echo "usage: run.sh PROGRAM WORD.." >&2; exit 2; }
rt=$(command -v rt) || { echo "run.sh: the proof tools are missing: rt is not on the path" >&2; exit 2; }
lib=$(cd "$(dirname "$(readlink -f "$rt")")/.." && pwd)/toolchain/lib
loader=$lib/ld-linux-x86-64.so.2
[ -x "$loader" ] || { echo "run.sh: the proof tools have no loader at $loader" >&2; exit 2; }
exec "$loader" --library-path "$lib" "$@"
