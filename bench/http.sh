#!/bin/sh
# Messages a second that a desk over lists answers in sessions over memory: submissions of one and of 1,000
# entries, and each GET; and in the same run what Python's `http.server` and `json` need to read such a
# message, check nothing, and write such an answer. Proves and builds bench/http/main.rt.txt beside a copy
# of the crates, which takes long where they were not proved before.
set -eu
top=$(cd "$(dirname "$0")/.." && pwd)
work=$(mktemp -d)
trap 'rm -rf "$work"' EXIT
cp -R "$top/crates" "$top/crates.txt" "$top/HANDLES" "$work/"
mkdir -p "$work/crates/http_bench/src"
cp "$top/bench/http/main.rt.txt" "$work/crates/http_bench/src/main.rt"
echo "http_bench: ach_fields desk_core http_session http_routes desk_http itoa sha2" >>"$work/crates.txt"
(cd "$work/crates/http_bench" && rt run)
python3 "$top/bench/http/rival.py"
