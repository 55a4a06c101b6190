#!/usr/bin/env python3
"""Compares what the status says of the next cut with that cut: `python3 judge/next_cut.py [PROGRAM] [--banks N] [--lists]`.

A bank is a new desk and some days of its companies: submissions that fill files by their cents, by their records or hardly at
all, credits and debits, due and not due. Before each cut the operator asks for the status. The cut has to make as many files as
`due_files`, the printed files have to have as many records 6 and 7 as `due_records`, and `held_records` has to be what was
accepted and not yet sent. A cut that is refused for want of modifiers needed more files than the day had left: as many as a
division that is computed here from the rules. The first banks fill all files of a day by one company, and one file more.

N banks are made, 20 by default, each by `achdesk stdio` over a file, or over lists with `--lists`. The status is 1 if a check
fails.
"""

import argparse
import json
import random
import subprocess
import tempfile
from pathlib import Path

from helpers.random_history import FIRST_DAY, banking_day
from helpers.running import Checks, body_of, make_desk, message, program_of, read_answer, status_of

DAY_FILES = 36
MOST_CENTS, MOST_BATCHES, MOST_RECORDS = 999_999_999_999, 1_000, 100_000
MOST_ENTRY = 9_999_999_999
COMPANIES = ("BAKE01", "COAL01", "MILL01")
LIMITS = {"entry_limit": MOST_ENTRY, "credit_limit": 999_999_999_999_999, "debit_limit": 999_999_999_999_999}


class Load:
    """A submission that is accepted: when it is asked for, and what it takes of a file."""

    def __init__(self, company, order, direction, day, cents, addenda):
        self.company, self.order, self.direction, self.day, self.cents = company, order, direction, day, cents
        self.total, self.records = sum(cents), len(cents) + addenda

    def is_due(self, today):
        return self.day <= banking_day(today, 2 if self.direction == "credit" else 1)


def files_of(loads):
    """How many files the batches fill, in the order of their companies and of their orders: a file takes the next one if it can."""
    files, batches, records, cents = 0, 0, 0, {}
    for it in sorted(loads, key=lambda load: (load.company, load.order)):
        more = cents.get(it.direction, 0) + it.total
        if not files or batches == MOST_BATCHES or records + it.records > MOST_RECORDS or more > MOST_CENTS:
            files, batches, records, cents, more = files + 1, 0, 0, {}, it.total
        batches, records, cents[it.direction] = batches + 1, records + it.records, more
    return files


class Bank:
    """A desk with its companies, and what they have held."""

    def __init__(self, words, checks, name):
        self.desk = subprocess.Popen(words, stdin=subprocess.PIPE, stdout=subprocess.PIPE)
        self.checks, self.name, self.today, self.held = checks, name, FIRST_DAY, []
        self.orders = dict.fromkeys(COMPANIES, 0)
        self.says("an empty desk", files=0, due=0, held=0)
        for it in COMPANIES:
            self.told("POST /ops/companies", {"id": it, "name": f"{it} INC", "key": f"key-of-{it}", **LIMITS})
        self.told("POST /ops/day", {"day": str(self.today)})

    def ask(self, asks, body=None, **key):
        text = "" if asks == "POST /ops/cut" else None if body is None else json.dumps(body)
        self.desk.stdin.write(message(asks, text, **key))
        self.desk.stdin.flush()
        return read_answer(self.desk.stdout)

    def told(self, asks, body=None, **key):
        return json.loads(body_of(self.ask(asks, body, **key)))

    def end(self):
        self.desk.communicate()

    def submit(self, company, direction, day, cents, addenda=0):
        self.orders[company] += 1
        entries = [{"routing": "091000019", "account": str(at), "kind": "checking", "cents": it, "prenote": it == 0, "id": f"E{at}", "name": "ANN LEE",
                    **({"info": "INVOICE"} if at <= addenda else {})} for at, it in enumerate(cents, 1)]
        body = {"ref": f"R{self.orders[company]}", "sec": "PPD", "direction": direction, "description": "PAYROLL", "day": str(day), "entries": entries}
        answer = self.ask(f"POST /c/{company}/submissions", body, key=f"key-of-{company}")
        if status_of(answer) != 201:
            raise SystemExit(f"a submission was refused: {answer!r}")
        self.held.append(Load(company, self.orders[company], direction, day, cents, addenda))

    def says(self, what, files, due, held):
        """Compares the numbers of the status. Returns the modifiers of the day's files."""
        status = self.told("GET /ops/status")
        found = {it: status[it] for it in ("due_files", "due_records", "held_records")}
        self.checks.that(f"{self.name}: {what}: {files} files with {due} records, {held} held", found, {"due_files": files, "due_records": due, "held_records": held})
        return status["files"]

    def cut(self):
        """Cuts, and compares the status before and after with what the files have."""
        due = [it for it in self.held if it.is_due(self.today)]
        files, records, held = files_of(due), sum(it.records for it in due), sum(it.records for it in self.held)
        before = self.says("before a cut", files, records, held)
        made = self.told("POST /ops/cut")
        if len(before) + files > DAY_FILES:
            self.checks.that(f"{self.name}: {files} files after {len(before)} are too many", made.get("error"), "ModifiersSpent")
            return
        texts = [body_of(self.ask(f"GET /ops/files/{self.today}/{it}")).decode() for it in made.get("files", [])]
        self.checks.that(f"{self.name}: the cut makes them, with these records",
                         (len(texts), sum(record[:1] in ("6", "7") for text in texts for record in text.splitlines())), (files, records))
        self.held = [it for it in self.held if it not in due]
        self.says("after it", 0, 0, held - records)

    def next_day(self):
        self.today = banking_day(self.today)
        self.told("POST /ops/day", {"day": str(self.today)})


def fills_the_day(bank):
    """One company has a file for each submission: as many as the day has, and one more on the next day."""
    for submissions in (DAY_FILES, DAY_FILES + 1):
        for _ in range(submissions):
            bank.submit("MILL01", "debit", banking_day(bank.today), [MOST_ENTRY] * 51)
        bank.cut()
        bank.next_day()


def fills_by_records(bank):
    """Prenotes with addenda fill files without a cent: 50 submissions a file."""
    for _ in range(101):
        bank.submit("BAKE01", "credit", banking_day(bank.today), [0] * 1_000, 1_000)
    bank.cut()


def lives(bank, chance):
    """Some days of all companies."""
    for _ in range(chance.randint(1, 4)):
        for _ in range(chance.randint(0, 12)):
            day = banking_day(bank.today, chance.choice([1, 1, 1, 2, 2, 3]))
            kind = chance.choice(["cents", "cents", "records", "few", "few"])
            cents = {"cents": [MOST_ENTRY] * chance.randint(20, 100), "records": [chance.choice([0, 7])] * 1_000,
                     "few": [chance.randint(0, 150_000) for _ in range(chance.randint(1, 8))]}[kind]
            bank.submit(chance.choice(COMPANIES), chance.choice(["credit", "debit"]), day, cents, chance.randint(0, len(cents)))
        for _ in range(chance.choice([1, 1, 2])):
            bank.cut()
        bank.next_day()


def main():
    parser = argparse.ArgumentParser(description=__doc__, formatter_class=argparse.RawDescriptionHelpFormatter)
    parser.add_argument("program", nargs="?")
    parser.add_argument("--banks", type=int, default=20)
    parser.add_argument("--lists", action="store_true")
    words = parser.parse_args()
    program, checks = program_of([words.program] if words.program else []), Checks()
    for at in range(words.banks):
        with tempfile.TemporaryDirectory() as folder:
            path = Path(folder) / "desk.db"
            if not words.lists:
                make_desk(program, path)
            bank = Bank([program, "stdio"] + ([] if words.lists else [str(path)]), checks, f"bank {at + 1}")
            days = [fills_the_day, fills_by_records]
            if at < len(days):
                days[at](bank)
            else:
                lives(bank, random.Random(at))
            bank.end()
    checks.end()


if __name__ == "__main__":
    main()
