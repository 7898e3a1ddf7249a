#!/usr/bin/env bash
# Builds the proved program and the plain Rust one, runs them one after the other, holds their checksums against each
# other, and prints the time of each piece beside Rust's.
set -eu
cd "$(dirname "$0")/.."
out="$PWD/target/speed"
mkdir -p "$out"

# proves and builds, and runs the program once
if ! (cd crates/bench && rt run) >"$out/build.log" 2>&1; then
    cat "$out/build.log"
    exit 1
fi
rustc --edition 2024 -O -C target-cpu=x86-64 -o "$out/rust" bench/rust/main.rs

crates/bench/out/bench >"$out/ours.sums" 2>"$out/ours.times"
"$out/rust" >"$out/rust.sums" 2>"$out/rust.times"

if ! diff "$out/ours.sums" "$out/rust.sums"; then
    echo "the checksums differ" >&2
    exit 1
fi

python3 bench/table.py "$out/ours.times" "$out/rust.times"
