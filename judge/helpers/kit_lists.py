"""Lists of entries in CSV: the client library takes and refuses them as `achdesk submit` and the desk do."""

import json
import random
import tempfile
from pathlib import Path

from helpers.kit_bank import LIST
from helpers.running import MILL_KEY, run

import achdesk
from achdesk import Entry, ListFault
from achdesk.csv_list import LARGEST_LIST

# fmt: off
PIECES = ["091000019", "123456789", "checking", "savings", "150000", "0", "E1", "ANN LEE", "yes", "no", "", "1.5",
          "1" * 18, "1" * 19, "+1", " 1", '"a,b"', '"a""b"', '"a\nb"', '"open', 'a"b', '"a"b', '""', '"yes"', "Zo\xeb",
          "\ufeff", "'", " ", "\t", ";"]
# fmt: on
GOOD = ["091000019", "123456789", "checking", "", "150000", "E1", "ANN LEE", ""]


def random_list(rng):
    """The bytes of a list in which some fields, rows and line ends are wrong."""
    ends = rng.choice(["\n", "\r\n", "\r", "\n\n", "\n\r"])
    rows = []
    for _ in range(rng.randrange(4)):
        row = list(GOOD)
        for _ in range(rng.randrange(3)):
            row[rng.randrange(8)] = rng.choice(PIECES)
        if rng.random() < 0.1:
            row = row[: rng.randrange(1, 8)] if rng.random() < 0.5 else [*row, "x"]
        rows.append(",".join(row))
    header = ",".join(achdesk.COLUMNS)
    if rng.random() < 0.1:
        header = rng.choice(["", f'"routing"{header[7:]}', header.upper(), f"{header},x", f" {header}", f"\n{header}"])
    text = rng.choice(["", "", "\ufeff"]) + ends.join([header, *rows]) + rng.choice(["", ends])
    data = text.encode()
    return data.replace("\xeb".encode(), b"\xeb") if rng.random() < 0.3 else data


def by_program(program, path):
    """What `achdesk submit` makes of a list: the entries of its body, or its line."""
    said, status = run(
        program,
        "submit",
        path,
        "--company",
        "MILL01",
        "--key",
        MILL_KEY,
        "--ref",
        "R",
        "--sec",
        "PPD",
        "--direction",
        "credit",
        "--description",
        "P",
        "--day",
        "2025-01-10",
    )
    return json.loads(said.partition(b"\r\n\r\n")[2])["entries"] if status == 0 else said.decode().rstrip("\n")


def by_library(data):
    try:
        return [it.body() for it in achdesk.entries_of_csv(data)]
    except ListFault as fault:
        return fault.name if fault.row is None else f"row {fault.row}: {fault.name}"


VALUES = {
    "routing": ["091000019", "091000018", "061000146", "09100001", "0910000190", "09100001x", "", "000000000"],
    "account": ["1", "1" * 17, "1" * 18, "", " 1", "1 ", "a b", "~!", "\x7f", "caf\xe9", "1\t2", "0 "],
    "kind": ["checking", "savings", "Checking", "", "loan"],
    "cents": [1, 0, 9_999_999_999, 10_000_000_000, 150000, 10**17],
    "id": ["", "E1", "E" * 15, "E" * 16, " E", "E ", "\u0142"],
    "name": ["ANN LEE", "A" * 22, "A" * 23, "", " ANN", "ANN ", "ZO\xcb"],
    "info": [None, "JAN", "I" * 80, "I" * 81, " I", "I ", "\n"],
}


def random_entries(rng):
    """Entries of which some have values at and past their bounds."""
    entries = []
    for _ in range(rng.randrange(1, 4)):
        it = {"routing": "091000019", "account": "1", "kind": "checking", "cents": 1, "id": "", "name": "A", "info": None}
        for name in rng.sample(sorted(VALUES), rng.randrange(3)):
            it[name] = rng.choice(VALUES[name])
        entries.append(Entry(prenote=rng.random() < 0.2, **it))
    return entries


def refused_by_program(program, entries):
    """The first field of an entry that a new desk refuses: its name and the number of its entry; None if there is none."""
    body = {"ref": "R", "sec": "PPD", "direction": "credit", "description": "P", "day": "2025-01-10"}
    said, _ = run(program, given=json.dumps({**body, "entries": [it.body() for it in entries]}).encode())
    answer = json.loads(said)
    return (answer["field"], answer["index"]) if answer.get("error") == "BadField" else None


def fields(checks, program):
    """The library finds the same first fault in the fields of entries as the desk."""
    rng, differ, seen = random.Random(88), [], set()
    for _ in range(300):
        entries = random_entries(rng)
        found = [(column, n) for n, it in enumerate(entries, 1) for column, _ in it.faults()]
        wanted = refused_by_program(program, entries)
        seen.add(wanted and wanted[0])
        if (found[0] if found else None) != wanted:
            differ.append((entries, found, wanted))
    checks.that("300 submissions: the first faulty field of an entry is the desk's", differ, [])
    checks.that("each field was among them", seen, {None, *VALUES})


def lists(checks, program):
    """The same entries and faults as `achdesk submit`."""
    rng = random.Random(73)
    cases = [
        LIST,
        b"",
        b"\n",
        b"\xef\xbb\xbf" + LIST,
        LIST + b"x" * (LARGEST_LIST + 1 - len(LIST)),
        LIST.rstrip(b"\n") + b"," + b"x" * 200_000,
    ]
    cases += [random_list(rng) for _ in range(400)]
    differ, seen = [], set()
    with tempfile.TemporaryDirectory() as folder:
        path = Path(folder) / "list.csv"
        for data in cases:
            path.write_bytes(data)
            wanted, said = by_program(program, path), by_library(data)
            seen.add(wanted.rpartition(": ")[2] if isinstance(wanted, str) else "entries")
            if said != wanted:
                differ.append((data[:200], said, wanted))
    checks.that(f"{len(cases)} lists: entries and faults are those of `achdesk submit`", differ, [])
    checks.that(
        "each fault was among them", seen, {"entries", "too large", "bad header", "bad row", "bad cents", "bad prenote"}
    )
