#!/bin/bash
# Measures the engine beside the Rust port of its own method (bench/port), by value and by `&mut`: instructions counted by
# callgrind, so that figures repeat. Prints the tables of docs/BENCH.md.
# Run from any folder: bash bench/run.sh
# It needs rt, cargo, rustc, valgrind and python3.
set -e
cd "$(dirname "$0")/.."
out=target/bench
mkdir -p $out
(cd crates/bench_calls && rt lib) > $out/lib.log 2>&1
for program in replay line; do
    (cd crates/$program && rt run < /dev/null) > $out/$program.log 2>&1
done
cargo build --release --offline -j1 --manifest-path bench/port/Cargo.toml --target-dir $out/port 2> $out/port.log
cargo build --release --offline -j1 --manifest-path second/Cargo.toml --target-dir $out/second 2> $out/second.log
rustc -C opt-level=3 --edition 2021 -o $out/run bench/run.rs \
    --extern port=$out/port/release/libport.rlib -L crates/bench_calls/out -l static=bench_calls

# The port gives the engine's answers: random lists and read-outs, both programs.
echo "port and engine over random lists and read-outs:"
$out/second/release/compare lists crates/replay/out/replay $out/port/release/replay 1 300
$out/second/release/compare readouts crates/line/out/line $out/port/release/line 1 300

# The instructions of each measured function, with all that it calls.
counts() { # CARDS STATES KIND
    valgrind --tool=callgrind --callgrind-out-file=$out/run.out $out/run $1 $2 $3 2> $out/valgrind.log
    callgrind_annotate --inclusive=yes --tree=calling --threshold=100 $out/run.out > $out/counts.$1.$2.$3
}

for cards in 1 2 4 8 16; do counts $cards 48 reads; done
for states in 0 12 24; do counts 16 $states reads; done
counts 16 0 writes

# All instructions of a program.
whole() { # INPUT PROGRAM
    valgrind --tool=callgrind --callgrind-out-file=/dev/null "$2" < "$1" 2>&1 > /dev/null | sed -n 's/.*Collected : //p'
}

$out/second/release/generate lists 1 5 > $out/list
$out/second/release/generate largest > $out/largest
for program in crates/replay/out/replay $out/port/release/replay; do
    echo "replay $(wc -l < $out/list) $(whole $out/list $program)"
done > $out/whole
for program in crates/line/out/line $out/port/release/line; do
    echo "line $(wc -c < $out/largest) $(whole $out/largest $program)"
done >> $out/whole
python3 bench/tables.py $out
