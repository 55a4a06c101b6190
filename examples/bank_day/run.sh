#!/bin/sh
# A bank's days in messages: a pay run and a collection are taken, cut and fetched, the collection comes
# back, and the accounts are asked. One session answers all; the answers must be those of answers.txt.
set -eu
here=$(cd "$(dirname "$0")" && pwd)
answers=$(mktemp)
trap 'rm -f "$answers"' EXIT
cat "$here"/*.http | "$here/../../achdesk" stdio >"$answers"
cat "$answers"
cmp "$answers" "$here/answers.txt"
