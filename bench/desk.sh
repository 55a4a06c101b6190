#!/bin/sh
# The times of a desk over lists in memory: a submission and a retry beside few and many settled entries
# of their company and of others, cuts of large and of small batches, files of up to 20,000 returns.
# Proves and builds bench/desk/main.rt.txt beside a copy of the crates, which takes long where they were
# not proved before.
set -eu
top=$(cd "$(dirname "$0")/.." && pwd)
work=$(mktemp -d)
trap 'rm -rf "$work"' EXIT
cp -R "$top/crates" "$top/crates.txt" "$top/HANDLES" "$work/"
mkdir -p "$work/crates/desk_bench/src"
cp "$top/bench/desk/main.rt.txt" "$work/crates/desk_bench/src/main.rt"
echo "desk_bench: ach_fields ach_records ach_files desk_rules desk_core" >>"$work/crates.txt"
cd "$work/crates/desk_bench"
rt run
