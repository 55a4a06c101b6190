#!/bin/sh
# A bank's days by curl: `examples/bank_by_curl.sh [PROGRAM]`. PROGRAM is ./achdesk by default.
#
# Creates a desk in a temporary file and serves it on a free port of this machine. A company submits a payroll from a
# CSV list and a collection; the bank cuts, fetches its file and takes a file of returns; then both ask for accounts.
# Prints each step with its answer and compares the answer with the expected one. The last line counts the checks; the
# exit status is 1 if one failed.
set -u
here=$(cd "$(dirname "$0")" && pwd)
achdesk=${1:-$here/../achdesk}
work=$(mktemp -d)
server=
trap '[ -z "$server" ] || kill "$server" 2>/dev/null; rm -rf "$work"' EXIT
checks=0
failed=0

# Prints a step and its answer, and compares the answer with the expected one.
step() {
    checks=$((checks + 1))
    echo "$1"
    echo "$2" | sed 's/^/    /'
    if [ "$2" != "$3" ]; then
        failed=$((failed + 1))
        echo "FAILED, since this must come:"
        echo "$3" | sed 's/^/    /'
    fi
}

# Serves the desk on the first port from 20000 on that is free.
serve() {
    port=${port:-$((20000 + $$ % 10000))}
    while :; do
        : >"$work/said"
        "$achdesk" serve "$work/bank.db" "$port" --connections 1000000 >"$work/said" &
        server=$!
        until [ -s "$work/said" ] || ! kill -0 "$server" 2>/dev/null; do sleep 0.05; done
        grep -q '^listening' "$work/said" && break
        grep -q '^unavailable' "$work/said" || break
        port=$((port + 1))
    done
    desk=http://127.0.0.1:$port
}

# The keys are in files, so that they appear in no list of processes.
operator() { curl --silent --show-error --header "@$here/operator.key" "$@"; }
mill() { curl --silent --show-error --header "@$here/mill.key" "$@"; }

step "The bank makes its desk in a file:" \
    "$("$achdesk" init "$work/bank.db" --odfi 121042882 --odfi-name 'OUR BANK' \
        --destination 061000146 --destination-name 'ACH OPERATOR' --key operator-key)" \
    'created'

serve
step "It serves the desk on a port of this machine:" "$(cat "$work/said")" "listening on 127.0.0.1:$port"

step "The operator sets the holidays, one day a line:" \
    "$(echo 2025-01-20 | operator --data-binary @- "$desk/ops/holidays")" \
    '{"holidays":1}'

step "It registers a company, with its key and its limits in cents:" \
    "$(operator --data '{"id":"MILL01","name":"MILL STREET","key":"mill-street-key","entry_limit":9999999999,"credit_limit":20000000,"debit_limit":5000000}' "$desk/ops/companies")" \
    '{"id":"MILL01"}'

step "It sets the desk's day:" \
    "$(operator --data '{"day":"2025-01-08"}' "$desk/ops/day")" \
    '{"day":"2025-01-08"}'

# The last line of the message that `submit` prints is its body.
"$achdesk" submit "$here/pay.csv" --company MILL01 --key mill-street-key --ref PAY-1 --sec PPD \
    --direction credit --description PAYROLL --day 2025-01-10 | tail -n 1 >"$work/pay.json"
step "The company makes its pay run of a list in CSV, and hands it in. It is its first order:" \
    "$(mill --data-binary "@$work/pay.json" "$desk/c/MILL01/submissions")" \
    '{"cents":150000,"entries":1,"order":1,"ref":"PAY-1"}'

step "It does not know whether that came through, so it sends it again. Nothing is taken twice:" \
    "$(mill --data-binary "@$work/pay.json" "$desk/c/MILL01/submissions")" \
    '{"cents":150000,"entries":1,"order":1,"ref":"PAY-1"}'

step "With a wrong key nobody learns anything:" \
    "$(curl --silent --show-error --header 'X-Desk-Key: mill-street' "$desk/c/MILL01/submissions/PAY-1")" \
    '{"error":"Denied"}'

step "The bank cuts: what is due becomes a file for the ACH operator:" \
    "$(operator --data '' "$desk/ops/cut")" \
    '{"day":"2025-01-08","entries":1,"files":["A"],"lapsed":0}'

operator "$desk/ops/files/2025-01-08/A" >"$work/sent.ach"
step "It fetches the file:" "$(cat "$work/sent.ach")" \
'101 061000146 121042882250108    A094101ACH OPERATOR           OUR BANK                       
5220MILL STREET                         MILL01    PPDPAYROLL         250110   1121042880000001
622091000019123456789        0000150000E1             ANN LEE                 0121042880000001
82200000010009100001000000000000000000150000MILL01                             121042880000001
9000001000001000000010009100001000000000000000000150000                                       
9999999999999999999999999999999999999999999999999999999999999999999999999999999999999999999999
9999999999999999999999999999999999999999999999999999999999999999999999999999999999999999999999
9999999999999999999999999999999999999999999999999999999999999999999999999999999999999999999999
9999999999999999999999999999999999999999999999999999999999999999999999999999999999999999999999
9999999999999999999999999999999999999999999999999999999999999999999999999999999999999999999999'

step "That file goes out. Were it to come in by mistake, a check of incoming files tells it at its first entry:" \
    "$("$achdesk" check "$work/sent.ach")" \
    'ForwardEntry at record 3'

step "The company hands in a collection, also for 10 January:" \
    "$(mill --data-binary "@$here/pay-2.json" "$desk/c/MILL01/submissions")" \
    '{"cents":2500,"entries":1,"order":2,"ref":"PAY-2"}'

step "The next day comes:" \
    "$(operator --data '{"day":"2025-01-09"}' "$desk/ops/day")" \
    '{"day":"2025-01-09"}'

step "The collection is due one day before it settles:" \
    "$(operator --data '' "$desk/ops/cut")" \
    '{"day":"2025-01-09","entries":1,"files":["A"],"lapsed":0}'

step "It is 14 January:" \
    "$(operator --data '{"day":"2025-01-14"}' "$desk/ops/day")" \
    '{"day":"2025-01-14"}'

# The message has a head of three lines and an empty one.
tail -n +5 "$here/bank_day/11_returns_file.http" >"$work/returns.ach"
step "A file comes from the ACH operator. The bank checks it:" \
    "$("$achdesk" check "$work/returns.ach")" \
    'ok 1 returns 0 changes'

step "And hands it to the desk, which finds the entry that came back:" \
    "$(operator --data-binary "@$work/returns.ach" "$desk/ops/returns")" \
    '{"changes":0,"day":"2025-01-14","late":0,"returns":1,"suspense":0}'

step "The company looks its collection up:" \
    "$(mill "$desk/c/MILL01/submissions/PAY-2")" \
    '{"cents":2500,"day":"2025-01-10","direction":"debit","entries":[{"cents":2500,"code":"R01","index":1,"late":false,"returned":"2025-01-14","settled":"2025-01-10","state":"returned"}],"order":2,"ref":"PAY-2","sec":"PPD"}'

step "Its statement has a line for each cut and for the return:" \
    "$(mill "$desk/c/MILL01/statement")" \
    '{"balance":"-150000","day":"2025-01-14","lines":[{"cause":"cut","cents":-150000,"day":"2025-01-10","index":0,"ref":"PAY-1"},{"cause":"cut","cents":2500,"day":"2025-01-10","index":0,"ref":"PAY-2"},{"cause":"return","cents":-2500,"day":"2025-01-14","index":1,"ref":"PAY-2"}]}'

step "Its return rates: one of one debit came back, which is over Nacha's overall level of 15 percent:" \
    "$(mill "$desk/c/MILL01/rates")" \
    '{"administrative":{"d":1,"n":0,"over":false},"day":"2025-01-14","overall":{"d":1,"n":1,"over":true},"unauthorized":{"d":1,"n":0,"over":false}}'

step "The bank sees the limits, exposures and return rates of all companies:" \
    "$(operator "$desk/ops/companies")" \
    '{"companies":[{"credit":"0","credit_limit":20000000,"debit":"0","debit_limit":5000000,"entry_limit":9999999999,"id":"MILL01","name":"MILL STREET","rates":{"administrative":{"d":1,"n":0,"over":false},"overall":{"d":1,"n":1,"over":true},"unauthorized":{"d":1,"n":0,"over":false}}}],"day":"2025-01-14"}'

step "The bank settles with the ACH operator by these days:" \
    "$(operator "$desk/ops/settlement")" \
    '{"balance":"150000","day":"2025-01-14","days":[{"cents":"147500","day":"2025-01-10"},{"cents":"2500","day":"2025-01-14"}]}'

kill -KILL "$server"
wait "$server" 2>/dev/null
server=
serve
step "The desk is killed and started again, and everything stands:" \
    "$(operator "$desk/ops/settlement")" \
    '{"balance":"150000","day":"2025-01-14","days":[{"cents":"147500","day":"2025-01-10"},{"cents":"2500","day":"2025-01-14"}]}'

echo "$checks checks, $failed failed"
[ "$failed" -eq 0 ]
