#!/bin/sh
# The speed of sessions over memory with an answerer that does nothing: GETs of 100 bytes a second, and
# the megabytes a second of POSTs with bodies of 100,000 bytes; and the time of a head that comes one byte
# a read. Proves and builds bench/session/main.rt.txt beside a copy of the crates, which takes long where
# they were not proved before.
set -eu
top=$(cd "$(dirname "$0")/.." && pwd)
work=$(mktemp -d)
trap 'rm -rf "$work"' EXIT
cp -R "$top/crates" "$top/crates.txt" "$top/HANDLES" "$work/"
mkdir -p "$work/crates/session_bench/src"
cp "$top/bench/session/main.rt.txt" "$work/crates/session_bench/src/main.rt"
echo "session_bench: http_message http_session" >>"$work/crates.txt"
cd "$work/crates/session_bench"
rt run
