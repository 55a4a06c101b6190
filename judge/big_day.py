#!/usr/bin/env python3
"""A busy day of a bank, and the days around it: `python3 judge/big_day.py [PROGRAM] [LISTED] [PART]`.

PROGRAM is the built program if it is left out, and LISTED the program of judge/listed/main.rt.txt, a desk over lists. Where that
is left out, or `-`, it is proved and built beside a copy of the crates, which takes long where they were not proved before.
With a PART of 2 to 100 the numbers below are divided by it, for a first try.

`achdesk serve` over a file gets what a large bank has: a list of 400 holidays, and one of 401; on each of ten banking
days 1,001 submissions of one company that wait for the cut, 10,010 in all; on the first two days beside them 100
submissions of 1,000 entries with all fields at their full width, so that a cut sends 101,001 entries and the desk's file
passes 64 MiB; three files of 4,194,304 bytes, as many as a message may have, with 22,073 returns, as many items that meet
no entry, and as many changes, and one that has a byte more; 100 retries; and then each GET of each company, of each
submission and of each file. The desk is started again over its file, and gets all GETs once more.

No answer may be 503. Each has to have the status and, files aside, the body that is computed here from the rules; and
each has to be that of the desk over lists to the same messages, to the byte, `Connection` aside. At the end stock SQLite
has to find the file whole. The desk's file, its log and the messages take some 300 MB of disk; where LISTED was
built, all took a minute. The last line counts the checks; the status is 1 where one failed.
"""

import calendar
import datetime
import json
import os
import subprocess
import sys
import tempfile
import time
from pathlib import Path

from helpers.returned import file_of_returns
from helpers.running import TOP, Checks, Serving, body_of, built, connect, make_desk, message, plain, program_of, read_answer, rows_of, status_of

LIST_OF_USES = "ach_fields desk_core http_session http_routes desk_http sha2"
FIRST_DAY = datetime.date(2025, 1, 8)
LARGE, MANY, QUIET = "LARGE01", "MANY01", "QUIET01"  # in the order in which a cut takes them
KEY = "a-company-key"
LIMITS = {"credit_limit": 999_999_999_999_999, "debit_limit": 999_999_999_999_999, "entry_limit": 9_999_999_999}
MOST_BYTES = 4_194_304  # of a message's body
MOST_BATCHES, MOST_RECORDS, MOST_CENTS = 1_000, 100_000, 999_999_999_999  # of a file
DAYS, SIZE = 10, 1_000
CODES = ["R01", "R02", "R10"]
RATES = {"administrative": (["R02", "R03", "R04"], 100, 3), "unauthorized": (["R05", "R07", "R10", "R11", "R29"], 1_000, 5),
         "overall": (CODES, 100, 15)}


def compact(value):
    return json.dumps(value, separators=(",", ":"), sort_keys=True).encode()


def bank_holidays(count):
    """So many holidays of the Federal Reserve Banks, eleven a year from 2025 on."""
    def nth(year, month, weekday, number):
        days = [day for day in calendar.Calendar().itermonthdates(year, month) if day.month == month and day.weekday() == weekday]
        return days[number]

    days = []
    for year in range(2025, 2100):
        days += [datetime.date(year, 1, 1), nth(year, 1, 0, 2), nth(year, 2, 0, 2), nth(year, 5, 0, -1), datetime.date(year, 6, 19), datetime.date(year, 7, 4),
                 nth(year, 9, 0, 0), nth(year, 10, 0, 1), datetime.date(year, 11, 11), nth(year, 11, 3, 3), datetime.date(year, 12, 25)]
    return days[:count]


class Submission:
    """A submission or retry, and what became of its entries."""

    def __init__(self, company, order, reference, debit, asked, cents, retried=None):
        self.company, self.order, self.reference, self.debit, self.asked = company, order, reference, debit, asked
        self.cents, self.retried, self.settled = cents, retried, None
        self.returned = {}  # by the index of an entry: code and day

    def records(self):
        """How many records its entries and their addenda are."""
        return len(self.cents) * (2 if self.company == LARGE else 1)

    def looked_up(self):
        entries = []
        for index, cents in enumerate(self.cents, 1):
            entry = {"cents": cents, "index": index, "state": "held"}
            if self.settled:
                entry |= {"settled": str(self.settled), "state": "sent"}
            if index in self.returned:
                code, day = self.returned[index]
                entry |= {"code": code, "late": False, "returned": str(day), "state": "returned"}
            entries.append(entry)
        of = {} if self.retried is None else {"of": self.retried[0], "of_index": self.retried[1]}
        return {"cents": sum(self.cents), "day": str(self.asked), "direction": "debit" if self.debit else "credit", "entries": entries,
                "order": self.order, "ref": self.reference, "sec": "PPD"} | of


class Bank:
    """The messages to the desk, each with the status and the body of its answer as the rules have them. A body that is None is
    compared with that of the desk over lists alone."""

    def __init__(self, part):
        self.waiting, self.large, self.items = 1_001 // part, 100 // part, 22_073 // part
        self.holidays, self.day, self.messages = bank_holidays(400), None, []
        self.submissions = {LARGE: [], MANY: [], QUIET: []}
        self.sent = []  # the submission and the index of each entry, in the order of sequences
        self.lines = {LARGE: [], MANY: [], QUIET: []}
        self.settlement, self.files, self.returns, self.changes, self.suspense = {}, [], [], [], []

    def ask(self, asks, status, wanted, body=None, key="operator-key"):
        text = wanted if wanted is None or isinstance(wanted, bytes) else compact(wanted)
        self.messages.append((message(asks, body, key), status, text))

    def next(self, day, count=1):
        for _ in range(count):
            day += datetime.timedelta(1)
            while day.weekday() >= 5 or day in self.holidays:
                day += datetime.timedelta(1)
        return day

    def all(self):
        """All messages, and how many of them come before the last GETs."""
        self.open()
        for number in range(DAYS):
            if number == 2:
                self.take_files()
                self.retry()
            if number < 2:
                self.hand_in_large()
            self.hand_in_many()
            self.look_at_exposures()
            self.cut()
            self.look_at_exposures()
            self.set_day(self.next(self.day))
        before = len(self.messages)
        self.look_at_all()
        return before

    def open(self):
        rows = "".join(f"{day}\n" for day in self.holidays)
        self.ask("POST /ops/holidays", 422, {"error": "BadCalendar", "fault": "TooMany", "number": 28, "row": 0}, f"{rows}2099-12-31\n")
        self.ask("POST /ops/holidays", 200, {"holidays": 400}, rows)
        for name in self.submissions:
            self.ask("POST /ops/companies", 201, {"id": name}, compact({"id": name, "name": "MILL STREET", "key": KEY} | LIMITS))
        self.set_day(FIRST_DAY)

    def set_day(self, day):
        self.day = day
        self.ask("POST /ops/day", 200, {"day": str(day)}, compact({"day": str(day)}))

    def accepted(self, company, debit, cents, retried=None):
        """A submission or retry for the next banking day."""
        its = self.submissions[company]
        its.append(Submission(company, len(its) + 1, f"{company}-{len(its) + 1}", debit, self.next(self.day), cents, retried))
        return its[-1]

    def acknowledge(self, it, route, body):
        self.ask(f"POST /c/{it.company}/{route}", 201, {"cents": sum(it.cents), "entries": len(it.cents), "order": it.order, "ref": it.reference},
                 compact(body | {"ref": it.reference, "day": str(it.asked)}), KEY)

    def hand_in(self, company, debit, cents, more):
        it = self.accepted(company, debit, cents)
        entries = [{"routing": "091000019", "account": f"{index:017}", "kind": "checking", "cents": amount, "id": f"E{index:014}",
                    "name": f"RECEIVER {index:013}"} | more for index, amount in enumerate(cents, 1)]
        self.acknowledge(it, "submissions", {"sec": "PPD", "direction": "debit" if debit else "credit", "description": "PAYROLL", "entries": entries})

    def hand_in_large(self):
        for number in range(self.large):
            self.hand_in(LARGE, True, [1 + (number * SIZE + index) % 9_973 for index in range(SIZE)], {"info": "INVOICE ".ljust(80, "7")})

    def hand_in_many(self):
        for number in range(self.waiting):
            self.hand_in(MANY, False, [1 + number % 9_973], {})

    def retry(self):
        """Tries some of what came back for lack of funds again, of the first submission."""
        first = self.submissions[LARGE][0]
        for index in [it for it, (code, _) in first.returned.items() if code == "R01"][:self.large]:
            it = self.accepted(LARGE, True, [first.cents[index - 1]], (first.reference, index))
            self.acknowledge(it, "retries", {"of": first.reference, "index": index})

    def cut(self):
        """Sends all that is held, and packs it into files."""
        settles, entries, files = self.next(self.day), 0, 0
        batches = records = most = 0
        for company, its in self.submissions.items():
            for it in its:
                if it.settled:
                    continue
                total = sum(it.cents)
                if not files or batches == MOST_BATCHES or records + it.records() > MOST_RECORDS or most + total > MOST_CENTS:
                    files, batches, records, most = files + 1, 0, 0, 0
                batches, records, most = batches + 1, records + it.records(), most + total
                it.settled, entries = settles, entries + len(it.cents)
                self.sent += [(it, index) for index in range(1, len(it.cents) + 1)]
                self.post(company, total if it.debit else -total, settles, "cut", it.reference, 0)
        letters = [chr(65 + number) for number in range(files)]
        self.files += [(self.day, letter) for letter in letters]
        self.ask("POST /ops/cut", 200, {"day": str(self.day), "entries": entries, "files": letters, "lapsed": 0}, b"")

    def post(self, company, cents, day, cause, reference, index):
        self.settlement[day] = self.settlement.get(day, 0) - cents
        if company:
            self.lines[company].append({"cause": cause, "cents": cents, "day": str(day), "index": index, "ref": reference})

    def item(self, number, sequence, cents, code, **more):
        entry, index = self.sent[number]
        return dict(debit=True, savings=False, account=f"{index:017}", cents=cents, ident=f"E{index:014}", name=f"RECEIVER {index:013}", code=code,
                    trace=f"12104288{sequence:07}", dfi="09100001", **more)

    def take_files(self):
        """Hands in the files of returns, of returns that meet no entry, and of changes, each as large as a message may be."""
        self.take(1, [self.item(at, at + 1, self.cents_of(at), CODES[at % 3]) for at in range(self.items)], returns=self.items)
        for at in range(self.items):
            it, index = self.sent[at]
            it.returned[index] = CODES[at % 3], self.day
            self.returns.append({"code": CODES[at % 3], "day": str(self.day), "index": index, "info": "", "late": False, "ref": it.reference})
            self.post(it.company, -self.cents_of(at), self.day, "return", it.reference, index)
        strays = [self.item(at, 9_000_000 + at, self.cents_of(at), "R01") for at in range(self.items)]
        key = self.take(2, strays, suspense=self.items)
        for at, stray in enumerate(strays, 1):
            self.post(None, -stray["cents"], self.day, "return", "", 0)
            self.suspense.append({"cents": stray["cents"], "code": "R01", "day": str(self.day), "file": key, "item": at, "trace": stray["trace"], "why": "NoTrace"})
        corrected = [self.item(self.items + at, self.items + at + 1, 0, "C01", text=f"{at:017}") for at in range(self.items)]
        self.take(3, corrected, changes=self.items)
        for at, change in enumerate(corrected):
            it, index = self.sent[self.items + at]
            self.changes.append({"code": "C01", "day": str(self.day), "index": index, "ref": it.reference, "text": change["text"].ljust(29)})
        self.ask("POST /ops/returns", 413, {"error": "TooLarge"})
        sent = self.messages[-1]
        self.messages[-1] = (sent[0].replace(b"\r\n\r\n", f"\r\nContent-Length: {MOST_BYTES + 1}\r\n\r\n".encode()), *sent[1:])

    def cents_of(self, at):
        it, index = self.sent[at]
        return it.cents[index - 1]

    def take(self, number, items, **counts):
        """Hands in a file twice, and gives its key."""
        text = file_of_returns(number, "COR" if "changes" in counts else "PPD", items)
        wanted = {"changes": 0, "day": str(self.day), "late": 0, "returns": 0, "suspense": 0} | counts
        for _ in range(2):
            self.ask("POST /ops/returns", 200, wanted, text.ljust(MOST_BYTES, "\n"))
        return text[13:34]

    def look_at_exposures(self):
        for company in self.submissions:
            self.ask(f"GET /c/{company}/exposure", 200, self.exposure(company), key=KEY)

    def exposure(self, company):
        sums = {"credit": 0, "debit": 0}
        for it in self.submissions[company]:
            if it.debit and (not it.settled or self.next(it.settled, 2) >= self.day):
                sums["debit"] += sum(cents for index, cents in enumerate(it.cents, 1) if index not in it.returned)
            elif not it.debit and (not it.settled or it.settled >= self.day):
                sums["credit"] += sum(it.cents)
        return LIMITS | {"day": str(self.day)} | {name: str(cents) for name, cents in sums.items()}

    def rates(self, company):
        debits = [it for it in self.submissions[company] if it.debit]
        count = sum(len(it.cents) for it in debits)  # all have settled in the sixty days
        codes = [code for it in debits for code, _ in it.returned.values()]
        told = {"day": str(self.day)}
        for name, (those, of, level) in RATES.items():
            back = sum(code in those for code in codes)
            told[name] = {"d": count, "n": back, "over": back * of > count * level}
        return told

    def statement(self, company):
        lines = self.lines[company]
        return {"balance": str(sum(it["cents"] for it in lines if it["day"] <= str(self.day))), "day": str(self.day), "lines": lines}

    def look_at_all(self):
        """Asks for all that can be asked for."""
        for company, its in self.submissions.items():
            whole = company == LARGE
            self.ask(f"GET /c/{company}/returns", 200, {"returns": self.returns if whole else []}, key=KEY)
            self.ask(f"GET /c/{company}/changes", 200, {"changes": self.changes if whole else []}, key=KEY)
            self.ask(f"GET /c/{company}/statement", 200, self.statement(company), key=KEY)
            self.ask(f"GET /c/{company}/rates", 200, self.rates(company), key=KEY)
            self.ask(f"GET /c/{company}/exposure", 200, self.exposure(company), key=KEY)
            self.ask(f"GET /c/{company}/submissions/NONE", 404, {"error": "NoReference"}, key=KEY)
            for it in its:
                self.ask(f"GET /c/{company}/submissions/{it.reference}", 200, it.looked_up(), key=KEY)
        days = [{"cents": str(self.settlement[day]), "day": str(day)} for day in sorted(self.settlement)]
        balance = sum(cents for day, cents in self.settlement.items() if day <= self.day)
        self.ask("GET /ops/settlement", 200, {"balance": str(balance), "day": str(self.day), "days": days})
        self.ask("GET /ops/suspense", 200, {"items": self.suspense})
        for day, letter in self.files:
            self.ask(f"GET /ops/files/{day}/{letter}", 200, None)
        self.ask(f"GET /ops/files/{self.day}/A", 404, {"error": "NoFile"})


def served(desk, messages):
    """The answers of the desk, over connections of at most 500 messages."""
    came = []
    while len(came) < len(messages):
        with connect(desk.port) as it, it.makefile("rb") as reader:
            it.settimeout(3_600)
            for sent, *_ in messages[len(came):len(came) + 500]:
                it.sendall(sent)
                came.append(read_answer(reader))
                if b"\r\nConnection: close\r\n" in came[-1]:
                    break
    return came


def listed(program, folder, messages):
    """The answers of the desk over lists, one after another."""
    given = folder / "given"
    with open(given, "wb") as out:
        for sent, *_ in messages:
            out.write(f"{len(sent):08}".encode() + sent)
    with open(given, "rb") as text:
        done = subprocess.run([program], stdin=text, stdout=subprocess.PIPE)
    if done.returncode != 0:
        sys.exit(f"the desk over lists ended with status {done.returncode}")
    return done.stdout


def unlike(came, said):
    """The first answers that differ from those that stand one after another in a text, and whether all of it was read."""
    found, at = [], 0
    for number, answer in enumerate(came):
        head = said.find(b"\r\n\r\n", at) + 4
        other = said[at:head + len(body_of(answer))]
        at += len(other)
        if plain(other) != plain(answer):
            found.append((number, answer[:200], other[:200]))
            break
    return found, at == len(said)


def judge(program, lists, part, folder):
    bank, checks, path = Bank(part), Checks(), folder / "bank.db"
    before = bank.all()
    messages, last = bank.messages, bank.messages[before:]
    print(f"{len(messages)} messages, {len(bank.sent)} entries, {len(bank.files)} files", flush=True)
    make_desk(program, path)
    start = time.monotonic()
    with Serving(program, path, 1_000_000).listen() as desk:
        came = served(desk, messages)
        print(f"served in {time.monotonic() - start:.0f} s, {desk.worked():.0f} s of a processor, with {desk.resident() / 1000:.0f} MB of memory at the end")
    size = sum(Path(f"{path}{end}").stat().st_size for end in ("", "-wal"))
    print(f"the desk's two files have {size / 2**20:.0f} MiB")
    checks.that("the desk's file passes 64 MiB", part > 1 or path.stat().st_size > 64 * 2**20)
    checks.that("no answer is 503", sum(status_of(it) == 503 for it in came), 0)
    wrong = [(sent[:100], status, text[:200]) for (sent, status, _), text in zip(messages, came) if status_of(text) != status]
    checks.that("answers with another status than the rules have", wrong[:3], [])
    wrong = [(sent[:100], body[:200], body_of(text)[:200]) for (sent, _, body), text in zip(messages, came) if body is not None and body_of(text) != body]
    checks.that("answers with another body than the rules have", (len(wrong), wrong[:3]), (0, []))
    start = time.monotonic()
    checks.that("answers that differ from those of a desk over lists", unlike(came, listed(lists, folder, messages)), ([], True))
    print(f"over lists in {time.monotonic() - start:.0f} s")
    with Serving(program, path, 1_000_000) as desk:
        desk.wait_for_line(600)
        checks.that("started again, it answers all GETs as before", [plain(it) for it in served(desk, last)] == [plain(it) for it in came[before:]])
    rows = rows_of(path)
    checks.that("SQLite finds the file whole", rows["integrity_check"], [("ok",)])
    checks.that("and in it so many entries", len(rows["entries"]), len(bank.sent))
    checks.end()


def main():
    words = sys.argv[1:]
    program = program_of(words)
    part = int(words[2]) if len(words) > 2 else 1
    with tempfile.TemporaryDirectory() as name:
        folder = Path(name)
        if len(words) > 1 and words[1] != "-":
            lists = os.path.abspath(words[1])
        else:
            lists = built(folder, "listed", TOP / "judge" / "listed" / "main.rt.txt", LIST_OF_USES)
        judge(program, lists, part, folder)


main()
