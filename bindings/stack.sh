#!/bin/sh
# The stack, in KB, that each entry point needs: the least limit with which it still gives its answers, found by halving.
# Run from any folder: sh bindings/stack.sh
set -e
cd "$(dirname "$0")/.."
(cd crates/list_run && rt lib) > /dev/null 2>&1
for program in replay line; do
    (cd crates/$program && rt run < /dev/null) > /dev/null 2>&1
done
mkdir -p target/bindings
cc -O2 -Wall -o target/bindings/stack bindings/stack.c -L crates/list_run/out -llist_run

least() { # NAME PROGRAM INPUT
    "$2" < "$3" > target/bindings/due
    low=0
    high=8192
    while [ $((high - low)) -gt 4 ]; do
        middle=$(((low + high) / 8 * 4))
        if (ulimit -s $middle && env -i "$2" < "$3" | cmp -s - target/bindings/due) 2> /dev/null; then high=$middle; else low=$middle; fi
    done
    echo "$1 $high"
}

least yerwaqis_replay target/bindings/stack crates/replay/stdin
least replay crates/replay/out/replay crates/replay/stdin
least line crates/line/out/line crates/line/stdin
