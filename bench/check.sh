#!/bin/sh
# The time to check a returns file of just under 4 MiB, beside sha256sum of the same file in the same
# run. Prints milliseconds a run, the best of seven rounds of 20 runs, and how many times sha256sum's
# time the check takes. The program is the first word given, else the one that ./achdesk builds.
set -eu
top=$(cd "$(dirname "$0")/.." && pwd)
work=$(mktemp -d)
trap 'rm -rf "$work"' EXIT
program=${1:-$top/crates/achdesk/out/achdesk}
[ -x "$program" ] || "$top/achdesk" <"$top/examples/pay-1.json" >/dev/null
python3 - "$work/returns.ach" "$program" <<'PY'
import subprocess, sys, time
path, program = sys.argv[1:]

def field(text, width):
    return text.ljust(width)[:width]

ITEMS = 22_072  # with the four records around them 44,148, and two fillers
odfi, operator = "12104288", "09100001"
records = [
    "101" + " 121042882" + " 061000146" + "250114" + "0930" + "A" + "094101" + field("OUR BANK", 23) + field("ACH OPERATOR", 23) + " " * 8,
    "5225" + field("MILL STREET", 16) + " " * 20 + field("MILL01", 10) + "PPD" + field("DUES", 10) + " " * 6 + "250114" + "014" + "1" + operator + "0000001",
]
hash_sum = cents_sum = 0
for n in range(1, ITEMS + 1):
    cents = n % 9_973 + 1
    hash_sum += int(odfi)
    cents_sum += cents
    sequence = str(n).zfill(7)
    records.append("626" + odfi + "2" + field(str(n), 17) + str(cents).zfill(10) + field("E%d" % n, 15) + field("BOB RAY", 22) + "  " + "1" + operator + sequence)
    records.append("799" + "R01" + odfi + sequence + " " * 6 + operator + " " * 44 + operator + sequence)
count = str(2 * ITEMS)
hashed = str(hash_sum)[-10:].zfill(10)
debits = str(cents_sum).zfill(12)
records.append("8225" + count.zfill(6) + hashed + debits + "0" * 12 + field("MILL01", 10) + " " * 25 + operator + "0000001")
blocks = (len(records) + 1 + 9) // 10
records.append("9" + "000001" + str(blocks).zfill(6) + count.zfill(8) + hashed + debits + "0" * 12 + " " * 39)
records += ["9" * 94] * (-len(records) % 10)
assert all(len(r) == 94 for r in records)
data = "".join(r + "\n" for r in records).encode()
open(path, "wb").write(data)
assert len(data) <= 4_194_304

said = subprocess.run([program, "check", path], capture_output=True).stdout.decode()
print(len(data), "bytes:", said.strip())
assert said == "ok %d returns 0 changes\n" % ITEMS

best = {}
runs = {"achdesk check": [program, "check", path], "sha256sum": ["sha256sum", path]}
for _ in range(7):
    for name, command in runs.items():
        start = time.perf_counter()
        for _ in range(20):
            subprocess.run(command, stdout=subprocess.DEVNULL, check=True)
        took = (time.perf_counter() - start) / 20
        best[name] = min(took, best.get(name, took))
for name, took in best.items():
    print("%-14s %7.2f ms" % (name, took * 1000))
print("%-14s %7.2f" % ("times", best["achdesk check"] / best["sha256sum"]))
PY
