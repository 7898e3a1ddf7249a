#!/usr/bin/env bash
# Proves and builds month_end, and runs the sample job in a folder of its own.
set -eu
cd "$(dirname "$0")"
crate="$PWD/crates/month_end"
folder="$(mktemp -d)"
cp "$crate"/data/* "$folder"
program="$crate/out/month_end"
# this proves and builds the program, which with `--help` only says how it is used
(cd "$crate" && rt run -- --help) >"$folder/build.log" 2>&1 || true
if [ ! -x "$program" ]; then
    cat "$folder/build.log"
    exit 1
fi
rm "$folder/build.log"
cd "$folder"
"$program" month.job "$@"
echo
echo "the corrected history: $folder/prices-corrected.bin"
