#!/bin/sh
# Builds the static library and runs the examples in C and in Rust.
# Run from any folder: sh bindings/build.sh
set -e
cd "$(dirname "$0")/.."
(cd crates/list_run && rt lib)
mkdir -p target/bindings
cc -O2 -Wall -o target/bindings/example_c bindings/example.c -L crates/list_run/out -llist_run
rustc -O -o target/bindings/example_rs bindings/example.rs -L crates/list_run/out -l static=list_run
target/bindings/example_c
target/bindings/example_rs
