#!/usr/bin/env bash
# Builds and runs the benchmark: the proved library beside plain Rust of the same method. Run by hand; no part of the gate.
#   benchmark.sh [SEED [BODIES]]
set -eu

cd "$(dirname "$0")/.."
said=$(mktemp)
trap 'rm -f "$said"' EXIT
tools/library.sh >"$said" 2>&1 || { tail -n 20 "$said" >&2; exit 1; }
library=$PWD/crates/desk/out/libdesk.a
# cargo does not look at the library: a changed one would not be linked.
touch compare/benchmark/src/main.rs
cargo rustc --quiet --release --offline --manifest-path compare/benchmark/Cargo.toml -- -C "link-arg=$library"
compare/benchmark/target/release/benchmark "$@"
