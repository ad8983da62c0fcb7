#!/bin/sh
# Compares the engine with the second implementation: COUNT random lists of calls and COUNT random read-outs, from SEED on.
# What differs is shrunk and printed. Run from any folder: sh second/compare.sh [SEED [COUNT]]
set -e
cd "$(dirname "$0")/.."
# rt run proves and builds a program; here it is given nothing to answer
for program in replay line; do
    (cd crates/$program && rt run < /dev/null > /dev/null)
done
(cd second && cargo build --release --offline -j1)
second/target/release/compare lists own crates/replay/out/replay "${1:-1}" "${2:-1000}"
second/target/release/compare readouts own crates/line/out/line "${1:-1}" "${2:-1000}"
