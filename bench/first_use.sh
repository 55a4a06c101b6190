#!/bin/sh
# Measures the first use: from a fresh clone of the last commit to the answer to a first submission.
# On standard error the program tells how long each crate took. Then the seconds of the clock are printed,
# and the time that processors worked, as the shell counts it: its own, and below it that of all that it
# started, first for the program's code and then for the system's.
set -eu
top=$(cd "$(dirname "$0")/.." && pwd)
work=$(mktemp -d)
trap 'rm -rf "$work"' EXIT
git clone --quiet "$top" "$work/achdesk"
cd "$work/achdesk"
start=$(date +%s)
./achdesk < examples/pay-1.json
echo "first use: $(($(date +%s) - start)) seconds by the clock, $(nproc) processors"
times
