#!/bin/sh
# The times of a desk over a database file: durable submissions, cuts, a file of returns, reads, the opening of a file; and the
# bytes of a row, next to those in a file that stock SQLite wrote. bench/rival.py compares the times with SQLite's. The first word is the
# number of rounds, 5 if it is left out; with `million` as the second the writes are also made in a file of 1,000,000 entries. Proves
# and builds bench/tables/main.rt.txt next to a copy of the crates, which takes long if they were not proved before.
set -eu
top=$(cd "$(dirname "$0")/.." && pwd)
work=$(mktemp -d)
trap 'rm -rf "$work"' EXIT
cp -R "$top/crates" "$top/crates.txt" "$top/HANDLES" "$work/"
mkdir -p "$work/crates/tables_bench/src"
cp "$top/bench/tables/main.rt.txt" "$work/crates/tables_bench/src/main.rt"
echo "tables_bench: ach_fields ach_records ach_files bank_days desk_accounts desk_rules desk_core sql_store sqlite" >>"$work/crates.txt"
(cd "$work/crates/tables_bench" && rt run -- "$work/first.db" make </dev/null >/dev/null)
python3 "$top/bench/tables/measure.py" "$work/crates/tables_bench/out/tables_bench" "${1:-5}" ${2:+"$2"}
