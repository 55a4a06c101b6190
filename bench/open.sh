#!/bin/sh
# The times of the look for a company's open submissions, and for those that wait, in the tables of a desk in
# memory; and in the same run that of one query that says the same and goes over all submissions of the company,
# and that of stock SQLite, in memory too, with the same rows, tables and indexes.
# Proves and builds bench/open/main.rt.txt beside a copy of the crates, which takes long where they were not
# proved before.
set -eu
top=$(cd "$(dirname "$0")/.." && pwd)
work=$(mktemp -d)
trap 'rm -rf "$work"' EXIT
cp -R "$top/crates" "$top/crates.txt" "$top/HANDLES" "$work/"
mkdir -p "$work/crates/open_bench/src"
cp "$top/bench/open/main.rt.txt" "$work/crates/open_bench/src/main.rt"
echo "open_bench: ach_fields bank_days sql_queries sql_setup sqlite" >>"$work/crates.txt"
cd "$work/crates/open_bench"
rt run
python3 "$top/bench/open/stock.py" "$top/achdesk"
