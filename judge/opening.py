#!/usr/bin/env python3
"""How a desk's file grows, and how long it takes to open: `python3 judge/opening.py [PROGRAM] [DAYS] [ENTRIES]`.

PROGRAM is the built program, DAYS 10 and ENTRIES 10000 where they are left out. On each banking day ten companies hand in so
many entries together, in submissions of 100, the bank cuts, and two in a hundred of the entries of the cut before come
back. After each day the desk is stopped and started again: the line tells how many entries there are, the bytes of the
file and of its log, the seconds until it listens by the clock and of a processor, its resident memory then, and its
milliseconds for one more submission of one entry. At the end the growth from the middle day to the last is told for
each 1,000,000 entries. Nothing is judged here, but that each answer has the status that it must have.
"""

import datetime
import json
import sys
import tempfile
import time
from pathlib import Path

from helpers.returned import file_of_returns
from helpers.running import MILL, Serving, connect, make_desk, message, program_of, read_answer, status_of

COMPANIES = [f"C{number}" for number in range(10)]
SIZE = 100  # entries of a submission


def next_day(day):
    day += datetime.timedelta(1)
    while day.weekday() >= 5:
        day += datetime.timedelta(1)
    return day


def entry(number):
    return {"routing": "091000019", "account": str(100_000_000 + number), "kind": "checking", "cents": 1_000 + number % 9_000, "id": f"E{number}", "name": f"RECEIVER {number}"}


def submission(company, reference, day, first, count):
    body = {"ref": reference, "sec": "PPD", "direction": "debit", "description": "DUES", "day": str(day), "entries": [entry(number) for number in range(first, first + count)]}
    return message(f"POST /c/{company}/submissions", json.dumps(body, separators=(",", ":")), "a-company-key")


def ask(port, messages):
    """Sends the messages over one connection for each 500, and looks at the status of each answer."""
    for at in range(0, len(messages), 500):
        with connect(port) as it, it.makefile("rb") as reader:
            it.settimeout(600)
            for sent in messages[at:at + 500]:
                it.sendall(sent)
                came = read_answer(reader)
                if status_of(came) not in (200, 201):
                    sys.exit(f"{sent[:200]} was answered {came[:300]}")
    return came


class Bank:
    def __init__(self):
        self.day, self.entries, self.references = datetime.date(2025, 1, 8), 0, 0
        self.first_company = []  # numbers of entries that the first company handed in and no cut has sent
        self.sent, self.sequence = [], 0  # what the last cut sent, each with its sequence

    def opening(self):
        companies = [message("POST /ops/companies", MILL.replace("MILL01", name).replace("mill-street-key", "a-company-key")) for name in COMPANIES]
        return [*companies, self.set_day()]

    def set_day(self):
        return message("POST /ops/day", json.dumps({"day": str(self.day)}))

    def day_of_work(self, count):
        """The messages of a day: submissions, the cut that sends them, and what came back of the last one."""
        settles, work, numbers = next_day(self.day), [], {COMPANIES[0]: self.first_company}
        for company in COMPANIES:
            for _ in range(count // SIZE // len(COMPANIES)):
                self.references += 1
                work.append(submission(company, f"R{self.references}", settles, self.entries, SIZE))
                numbers.setdefault(company, []).extend(range(self.entries, self.entries + SIZE))
                self.entries += SIZE
        work.append(message("POST /ops/cut", ""))
        back = self.sent[:len(self.sent) // 50]
        if back:
            items = [dict(debit=True, savings=False, account=entry(number)["account"], cents=entry(number)["cents"], ident=f"E{number}", name="RECEIVER", code="R01",
                          trace=f"12104288{sequence:07}", dfi="09100001") for sequence, number in back]
            work.append(message("POST /ops/returns", file_of_returns(self.references, "PPD", items)))
        ordered = [number for company in COMPANIES for number in numbers[company]]
        self.sent = [(self.sequence + at, number) for at, number in enumerate(ordered, 1)]
        self.sequence += len(ordered)
        self.first_company = []
        self.day = next_day(self.day)
        return [*work, self.set_day()]


def measured(program, path, bank, number):
    start = time.monotonic()
    with Serving(program, path, 10).listen() as desk:
        opened, worked, memory = time.monotonic() - start, desk.worked(), desk.resident()
        one = submission("C0", f"ONE-{number}", next_day(bank.day), 0, 1)
        with connect(desk.port) as it, it.makefile("rb") as reader:
            it.settimeout(600)
            start = time.monotonic()
            it.sendall(one)
            read_answer(reader)
            took = time.monotonic() - start
    bank.entries += 1
    bank.first_company.append(0)
    sizes = [Path(f"{path}{end}").stat().st_size for end in ("", "-wal")]
    return bank.entries, *sizes, opened, worked, memory, took


def main():
    program = program_of(sys.argv[1:])
    days = int(sys.argv[2]) if len(sys.argv) > 2 else 10
    count = int(sys.argv[3]) if len(sys.argv) > 3 else 10_000
    lines = []
    with tempfile.TemporaryDirectory() as folder:
        path, bank = Path(folder) / "bank.db", Bank()
        make_desk(program, path)
        for number in range(1, days + 1):
            with Serving(program, path, 1_000_000).listen() as desk:
                start = time.monotonic()
                ask(desk.port, (bank.opening() if number == 1 else []) + bank.day_of_work(count))
                took = time.monotonic() - start
            lines.append(measured(program, path, bank, number))
            entries, size, log, opened, worked, memory, one = lines[-1]
            print(f"{entries} entries: {size / 1e6:.1f} MB and a log of {log / 1e6:.1f} MB, opened in {opened:.2f} s ({worked:.2f} s of a processor) with {memory / 1000:.0f} MB of memory, "
                  f"a submission in {one * 1000:.1f} ms; the day took {took:.1f} s", flush=True)
    middle, last = lines[len(lines) // 2 - 1], lines[-1]
    per = (last[0] - middle[0]) / 1e6
    print(f"for each 1,000,000 entries: {(last[1] - middle[1]) / 1e6 / per:.0f} MB of file, {(last[4] - middle[4]) / per:.0f} s of a processor to open, {(last[5] - middle[5]) / 1000 / per:.0f} MB of memory")


main()
