#!/bin/sh
# The time from start to answer of a run over one submission, beside Python reading the same JSON:
# for examples/pay-1.json and for a submission of 1,000 entries. Prints milliseconds a run, the best
# of five rounds of 20 runs.
set -eu
top=$(cd "$(dirname "$0")/.." && pwd)
work=$(mktemp -d)
trap 'rm -rf "$work"' EXIT
"$top/achdesk" <"$top/examples/pay-1.json" >/dev/null
cp "$top/examples/pay-1.json" "$work/one"
python3 - "$work/thousand" <<'PY'
import json, sys
entry = {"routing": "091000019", "account": "123456789", "kind": "checking", "cents": 150000, "id": "E1", "name": "ANN LEE"}
body = {"ref": "PAY-1", "sec": "PPD", "direction": "credit", "description": "PAYROLL", "day": "2025-01-10", "entries": [entry] * 1000}
json.dump(body, open(sys.argv[1], "w"), separators=(",", ":"))
PY
python3 - "$work" "$top/crates/achdesk/out/achdesk" <<'PY'
import subprocess, sys, time
work, program = sys.argv[1:]
runs = {
    "achdesk": [program],
    "python3 json.load": ["python3", "-c", "import json,sys; json.load(sys.stdin)"],
}
for body in ("one", "thousand"):
    for name, command in runs.items():
        best = None
        for _ in range(5):
            start = time.perf_counter()
            for _ in range(20):
                with open(f"{work}/{body}", "rb") as stdin:
                    subprocess.run(command, stdin=stdin, stdout=subprocess.DEVNULL, check=True)
            took = (time.perf_counter() - start) / 20
            best = took if best is None else min(best, took)
        print(f"{body:9} {name:18} {best * 1000:7.2f} ms")
PY
