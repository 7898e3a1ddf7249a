#!/usr/bin/env bash
# Demands that the check refuses each program under misuse/ with its message, and proves the mended one. It works in a
# throwaway repository outside the checkout, and leaves nothing behind.
set -eu
here="$(cd "$(dirname "$0")" && pwd)"
root="$(dirname "$here")"
work="$(mktemp -d)"
trap 'rm -rf "$work"' EXIT
libraries="search_sorted patches runs"

# The libraries: sources, definitions and proofs; not their must-fail edits, nor what a check left in out/.
for crate in $libraries; do
    mkdir -p "$work/crates/$crate"
    for part in src specs proofs; do
        cp -r "$root/crates/$crate/$part" "$work/crates/$crate/$part"
    done
    grep "^$crate:" "$root/crates.txt" >>"$work/crates.txt"
done

# Lays a text into a program crate of its own.
lay() {
    mkdir -p "$work/crates/$1/src"
    cp "$2" "$work/crates/$1/src/main.rt"
    echo "$1: runs patches search_sorted" >>"$work/crates.txt"
}

# Checks a program crate, after the libraries below it. What it says is in the log.
check() {
    (cd "$work/crates/$1" && rt check) >"$work/log" 2>&1
}

for folder in "$here"/*/; do
    name="$(basename "$folder")"
    lay "${name}_mended" "$folder/mended.txt"
    if ! check "${name}_mended" || ! grep -q '^logic=proved' "$work/log"; then
        cat "$work/log"
        echo "misuse: $name mended: NOT proved"
        exit 1
    fi
    echo "misuse: $name mended: proved"
    lay "$name" "$folder/program.txt"
    if check "$name"; then
        echo "misuse: $name was NOT refused"
        exit 1
    fi
    if ! grep -qF "$(cat "$folder/message.txt")" "$work/log"; then
        cat "$work/log"
        echo "misuse: $name was refused, and not with the message it must get"
        exit 1
    fi
    echo "misuse: $name: refused as it must be"
done
