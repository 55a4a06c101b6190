#!/usr/bin/env python3
"""Kills `achdesk serve` under load, as `kill -9` does: `python3 judge/kill_nine.py [PROGRAM] [TIMES] [SEED]`.

PROGRAM is the built program, TIMES 200 and SEED a number of the clock where they are left out; the seed is printed. Several
clients hand in numbered submissions while an operator sets days, cuts, and hands in files of returns. At a random
moment the desk is killed, also while it opens its file. Then a copy of the file and of its log is read by stock SQLite,
which must find it whole: each message that was answered stands there, each other one stands there whole or not at all,
and the accounts balance. The desk is started again, and what was sent again is answered as it was, or for the first
time. One line tells one kill, the last line counts them; the status is 1 where one failed.

A killed process leaves what it wrote to the system. What a machine without power leaves is not tried here.
"""

import datetime
import json
import random
import shutil
import sqlite3
import sys
import tempfile
import threading
import time
from pathlib import Path

from helpers.returned import file_of_returns
from helpers.running import MILL, Serving, body_of, connect, make_desk, message, program_of, read_answer, run, status_of

COMPANIES = {"BAKE01": "bakery-key", "MILL01": "mill-street-key", "SHOP01": "corner-shop-key"}
FIRST_DAY = datetime.date(2025, 1, 8)
EPOCH = datetime.date(1970, 1, 1)
LONGEST = 0.15  # seconds of load before a kill
ONCE = 7  # one in so many kills meets the desk as it opens its file
AGAIN = 25  # so many older messages are sent again after each kill


class Wrong(Exception):
    """What is not as it must be."""


def must(what, found, wanted=True):
    if found != wanted:
        raise Wrong(f"{what}: found {str(found)[:500]}, wanted {str(wanted)[:500]}")


# ---- days ----

def next_day(day):
    """The next banking day, where no day is a holiday."""
    day += datetime.timedelta(1)
    while day.weekday() >= 5:
        day += datetime.timedelta(1)
    return day


def rolled(day):
    return next_day(day - datetime.timedelta(1))


# ---- messages ----

class Sent:
    """A message that was sent, and its answer, where it came whole."""

    def __init__(self, kind, asks, body, key, **facts):
        self.kind, self.facts, self.body = kind, facts, body
        self.message = message(asks, body, key)
        self.answer = None
        self.number = 0

    def __str__(self):
        return self.facts.get("ref", self.kind)


class Maker:
    """Makes the messages of a round, numbered on over all rounds."""

    def __init__(self, chance):
        self.chance, self.day, self.references, self.files = chance, FIRST_DAY, 0, 0
        self.lock = threading.Lock()

    def submission(self):
        with self.lock:
            self.references += 1
            chance, number = random.Random(self.chance.random()), self.references
        company = chance.choice(list(COMPANIES))
        entries = []
        for index in range(1, chance.randint(1, 3) + 1):
            entry = {"routing": chance.choice(["091000019", "021000021"]), "account": str(chance.randint(1, 10**9)),
                     "kind": chance.choice(["checking", "savings"]), "cents": chance.randint(1, 500_000), "id": f"E{index}", "name": f"RECEIVER {number}"}
            entries.append(entry)
        asked = self.day + datetime.timedelta(chance.randint(5, 12))
        body = {"ref": f"REF-{number}", "sec": "PPD", "direction": chance.choice(["credit", "debit"]), "description": "PAYROLL", "day": str(asked), "entries": entries}
        return Sent("submission", f"POST /c/{company}/submissions", json.dumps(body), COMPANIES[company], company=company, ref=body["ref"], content=body)

    def set_day(self, day):
        return Sent("day", "POST /ops/day", json.dumps({"day": str(day)}), "operator-key", day=day)

    def cut(self):
        return Sent("cut", "POST /ops/cut", "", "operator-key", day=self.day)

    def returns(self, rows):
        """A file that returns these sent entries, and one that nobody sent."""
        self.files += 1
        items = [dict(debit=row["direction"] == "debit", savings=row["savings"] == 1, account=row["account"], cents=row["cents"], ident=row["ident"],
                      name=row["name"], code="R01", trace=f"12104288{row['seq']:07}", dfi=row["routing"][:8]) for row in rows]
        items.append(dict(debit=True, savings=False, account="1", cents=100, ident="", name="NOBODY", code="R01", trace="121042889999999", dfi="09100001"))
        late = sum(self.day > next_day(next_day(EPOCH + datetime.timedelta(row["settled"]))) for row in rows)
        wanted = f'{{"changes":0,"day":"{self.day}","late":{late},"returns":{len(rows)},"suspense":1}}'
        text = file_of_returns(self.files, "PPD", items)
        return Sent("returns", "POST /ops/returns", text, "operator-key", wanted=wanted, rows=[(row["company"], row["ord"], row["idx"]) for row in rows])


# ---- clients ----

class Client(threading.Thread):
    """Sends messages over one connection after another until the desk is gone."""

    def __init__(self, port, make, most, begun=None):
        super().__init__(daemon=True)
        self.port, self.make, self.most, self.begun = port, make, most, begun
        self.sent = []

    def run(self):
        try:
            while self.connection():
                pass
        except OSError:
            pass

    def connection(self):
        with connect(self.port) as it, it.makefile("rb") as reader:
            for _ in range(self.most):
                sent = self.make()
                if sent is None:
                    return False
                self.sent.append(sent)
                it.sendall(sent.message)
                if self.begun:
                    self.begun.set()
                came = read_answer(reader)
                if not is_whole(came):
                    return False
                sent.answer = came
        return True


def is_whole(came):
    head, end, body = came.partition(b"\r\n\r\n")
    lengths = [line.split(b":")[1] for line in head.split(b"\r\n") if line.lower().startswith(b"content-length:")]
    return bool(end) and len(lengths) == 1 and len(body) == int(lengths[0])


def ask(port, messages):
    """The answers to messages, each of them whole, over connections of at most 500 messages."""
    came = []
    for at in range(0, len(messages), 500):
        with connect(port) as it, it.makefile("rb") as reader:
            for sent in messages[at:at + 500]:
                it.sendall(sent)
                came.append(read_answer(reader))
    return came


# ---- the file ----

class Book:
    """The rows of a desk's file, as stock SQLite reads a copy of it."""

    def __init__(self, path):
        with tempfile.TemporaryDirectory() as folder:
            copy = Path(folder) / "copy.db"
            shutil.copyfile(path, copy)
            log = Path(f"{path}-wal")
            if log.exists():
                shutil.copyfile(log, f"{copy}-wal")
            db = sqlite3.connect(copy)
            db.row_factory = sqlite3.Row
            must("integrity_check", [tuple(row) for row in db.execute("PRAGMA integrity_check")], [("ok",)])
            for name in ("desk", "submissions", "entries", "returns", "postings", "balances", "files", "taken", "suspense", "numbers"):
                setattr(self, name, db.execute(f"SELECT * FROM {name} ORDER BY 1, 2, 3" if name == "entries" else f"SELECT * FROM {name}").fetchall())
            db.close()
        self.by_reference = {(row["company"], row["ref"]): row for row in self.submissions}
        self.entries_by_order = {}
        for row in self.entries:
            self.entries_by_order.setdefault((row["company"], row["ord"]), []).append(row)
        self.day = None if self.desk[0]["day"] is None else EPOCH + datetime.timedelta(self.desk[0]["day"])

    def check(self):
        """What holds of the file whatever was sent."""
        orders = {}
        for row in self.submissions:
            orders.setdefault(row["company"], []).append(row["ord"])
        for company, numbers in orders.items():
            must(f"orders of {company}", sorted(numbers), list(range(1, len(numbers) + 1)))
        must("entries of submissions that are there", set(self.entries_by_order), {(row["company"], row["ord"]) for row in self.submissions})
        for row in self.submissions:
            placed = {entry["seq"] is not None for entry in self.entries_by_order[row["company"], row["ord"]]}
            must(f"places of {row['ref']}", placed, {row["settled"] is not None})
        must("places of entries", sorted(entry["seq"] for entry in self.entries if entry["seq"] is not None), list(range(1, len(self.numbers) + 1)))
        self.check_accounts()
        self.check_files()

    def check_accounts(self):
        sums, lines = {}, []
        for row in self.postings:
            key = (row["account"], row["value_day"])
            sums[key] = sums.get(key, 0) + row["cents"]
            if row["account"] not in ("O", "S"):
                lines.append((row["account"][2:], row["ref"], row["cause"], row["idx"], row["cents"], row["value_day"]))
        must("balances", {(row["account"], row["value_day"]): int(row["cents"]) for row in self.balances}, sums)
        for day in {day for _, day in sums}:
            must(f"the accounts on day {day}", sum(cents for (_, on), cents in sums.items() if on == day), 0)
        must("lines of companies", sorted(lines), sorted(self.wanted_lines()))
        must("lines of suspense", [row["cents"] for row in self.postings if row["account"] == "S"], [-row["cents"] for row in self.suspense])

    def wanted_lines(self):
        names = {(row["company"], row["ord"]): row for row in self.submissions}
        for key, row in names.items():
            if row["settled"] is not None:
                total = sum(entry["cents"] for entry in self.entries_by_order[key])
                yield row["company"], row["ref"], "cut", 0, total if row["direction"] == "debit" else -total, row["settled"]
        for row in self.returns:
            of = names[row["company"], row["ord"]]
            cents = self.entries_by_order[row["company"], row["ord"]][row["idx"] - 1]["cents"]
            yield row["company"], of["ref"], "return", row["idx"], -cents if of["direction"] == "debit" else cents, row["day"]

    def check_files(self):
        printed = {}
        for row in self.submissions:
            if row["settled"] is not None:
                key = (row["file_day"], row["modifier"])
                printed[key] = printed.get(key, 0) + len(self.entries_by_order[row["company"], row["ord"]])
        held = {(row["day"], row["modifier"]): sum(line.startswith(b"6") for line in bytes(row["text"]).split(b"\n")) for row in self.files}
        must("entries of files", held, printed)
        must("returns of files", len(self.returns), sum(row["returns"] for row in self.taken))
        must("suspense of files", len(self.suspense), sum(row["suspense"] for row in self.taken))

    def holds_submission(self, sent):
        """The order of a submission, all of which must be there; 0 where nothing of it is."""
        row = self.by_reference.get((sent.facts["company"], sent.facts["ref"]))
        if row is None:
            return 0
        content = sent.facts["content"]
        must(f"{row['ref']}", (row["sec"], row["direction"], row["description"], EPOCH + datetime.timedelta(row["asked"])),
             (content["sec"], content["direction"], content["description"], datetime.date.fromisoformat(content["day"])))
        found = [(it["routing"], it["account"], "savings" if it["savings"] else "checking", it["cents"], it["ident"], it["name"])
                 for it in self.entries_by_order[row["company"], row["ord"]]]
        must(f"entries of {row['ref']}", found, [tuple(entry.values()) for entry in content["entries"]])
        return row["ord"]

    def is_due(self, row):
        """Whether a cut on the desk day sends a submission."""
        last = next_day(self.day) if row["direction"] == "debit" else next_day(next_day(self.day))
        return row["settled"] is None and rolled(EPOCH + datetime.timedelta(row["asked"])) <= last

    def due(self):
        """How many entries a cut would send."""
        return sum(len(self.entries_by_order[row["company"], row["ord"]]) for row in self.submissions if self.is_due(row))

    def sent_entries(self, chance, most):
        """Some entries that were sent and have not come back."""
        names = {(row["company"], row["ord"]): row for row in self.submissions}
        back = {(row["company"], row["ord"], row["idx"]) for row in self.returns}
        out = [row for row in self.entries if row["seq"] is not None and (row["company"], row["ord"], row["idx"]) not in back]
        return [{**dict(row), **{name: names[row["company"], row["ord"]][name] for name in ("direction", "settled")}}
                for row in chance.sample(out, min(most, len(out)))]


# ---- the rounds ----

class Judge:
    def __init__(self, program, path, chance):
        self.program, self.path, self.chance = program, path, chance
        self.maker = Maker(chance)
        self.answered, self.open = [], []  # in the order in which they were sent
        self.cut_entries = 0  # entries of the cuts that were answered
        self.stood = {True: 0, False: 0}  # unanswered messages that stood in the file, or did not

    def begin(self):
        messages = [message("POST /ops/companies", MILL.replace("MILL01", name).replace("mill-street-key", key)) for name, key in COMPANIES.items()]
        messages.append(message("POST /ops/day", json.dumps({"day": str(FIRST_DAY)})))
        said, status = run(self.program, "stdio", self.path, given=b"".join(messages))
        must("the desk is set up", (status, said.count(b"HTTP/1.1 20")), (0, len(messages)))

    def operator(self, book):
        """What the operator sends in a round: at times a new day, then a cut, or a file of returns."""
        kinds = self.chance.choice([["cut"], ["day", "cut"], ["day", "cut"], ["returns"], ["cut", "returns"], ["day"], []])
        todo = []
        for kind in kinds:
            if kind == "day":
                todo.append(self.maker.set_day(next_day(book.day)))
                self.maker.day = next_day(book.day)
            elif kind == "cut":
                todo.append(self.maker.cut())
            elif rows := book.sent_entries(self.chance, 12):
                todo.append(self.maker.returns(rows))
        todo.reverse()
        return lambda: todo.pop() if todo else None

    def load(self, book):
        """Runs the desk under load, kills it, and gives what was sent."""
        with Serving(self.program, self.path, 1_000_000).listen() as desk:
            self.send_again(desk.port, book)
            book = Book(self.path)
            self.maker.day = book.day
            aimed = threading.Event()
            operator = Client(desk.port, self.operator(book), 3, aimed)
            clients = [operator, *(Client(desk.port, self.maker.submission, self.chance.randint(1, 8)) for _ in range(3))]
            self.chance.shuffle(clients)
            for client in clients:
                client.start()
            if self.chance.random() < 0.5:
                aimed.wait(LONGEST)
                time.sleep(self.chance.uniform(0, 0.02))
            else:
                time.sleep(self.chance.uniform(0, LONGEST))
            desk.stop()
        for client in clients:
            client.join()
        sent = [it for client in clients for it in client.sent]
        self.answered += [it for it in sent if it.answer]
        self.cut_entries += sum(json.loads(body_of(it.answer))["entries"] for it in sent if it.answer and it.kind == "cut")
        self.open = [it for it in sent if not it.answer]
        return sent

    def kill_opening(self):
        """Kills the desk while it opens its file, or just after."""
        with Serving(self.program, self.path, 1_000_000) as desk:
            time.sleep(self.chance.uniform(0, 0.03))
            desk.stop()

    def send_again(self, port, book):
        """What was not answered is answered now, and what was is answered as it was."""
        for sent in self.open:
            [came] = ask(port, [sent.message])
            self.check_late_answer(sent, came, book)
            if sent.kind != "day" and sent.kind != "cut":
                sent.answer = came
                self.answered.append(sent)
        self.open = []
        old = [it for it in self.answered if it.kind in ("submission", "returns")]
        some = old[-AGAIN:] + self.chance.sample(old[:-AGAIN], min(AGAIN, len(old[:-AGAIN])))
        for sent, came in zip(some, ask(port, [it.message for it in some])):
            must(f"{sent} again", came, sent.answer)

    def check_late_answer(self, sent, came, book):
        body = body_of(came).decode()
        if sent.kind == "submission":
            must(f"{sent} is taken", status_of(came), 201)
        elif sent.kind == "returns":
            must(f"{sent} is taken", (status_of(came), body), (200, sent.facts["wanted"]))
        elif sent.kind == "day":
            stands = book.day >= sent.facts["day"]
            must("the day", body, '{"error":"DayNotLater","number":20}' if stands else f'{{"day":"{sent.facts["day"]}"}}')
        else:
            must("a cut", (status_of(came), json.loads(body)["entries"]), (200, book.due()))
            self.cut_entries += book.due()

    def look(self):
        """What the file has after a kill: all that was answered, and each other message whole or not at all."""
        book = Book(self.path)
        book.check()
        must("the desk has a day", book.day is not None)
        for sent in self.answered:
            if sent.kind == "submission":
                order = book.holds_submission(sent)
                must(f"{sent}, which was answered, stands", order > 0)
                content = sent.facts["content"]
                cents = sum(entry["cents"] for entry in content["entries"])
                must(f"answer to {sent}", body_of(sent.answer).decode(), f'{{"cents":{cents},"entries":{len(content["entries"])},"order":{order},"ref":"{content["ref"]}"}}')
            elif sent.kind == "returns":
                must("answer to a file", body_of(sent.answer).decode(), sent.facts["wanted"])
                must("its returns", back(book, sent), {True})
            elif sent.kind == "day":
                must("the day stands", book.day >= sent.facts["day"])
        there = [self.stands(book, sent) for sent in self.open]
        sent = {(it.facts["company"], it.facts["ref"]) for it in self.answered + self.open if it.kind == "submission"}
        must("no other reference", set(book.by_reference) <= sent)
        must("sent entries", len(book.numbers), self.cut_entries)
        self.maker.day = book.day
        return book, there

    def stands(self, book, sent):
        """Whether a message that was not answered stands in the file, which it must do whole."""
        if sent.kind == "submission":
            return book.holds_submission(sent) > 0
        if sent.kind == "returns":
            must("returns of a file that was not answered", len(back(book, sent)), 1)
            return back(book, sent) == {True}
        if sent.kind == "day":
            return book.day >= sent.facts["day"]
        more = len(book.numbers) - self.cut_entries
        if more:
            must("what a cut leaves to send", book.due(), 0)
            self.cut_entries += more
        return more > 0


def back(book, sent):
    """Whether the entries of a file of returns have come back: both where some have and some have not."""
    rows = {(row["company"], row["ord"], row["idx"]) for row in book.returns}
    return {it in rows for it in sent.facts["rows"]}


def tell(number, sent, judge, there):
    counts = {}
    for it in judge.open:
        counts[it.kind] = counts.get(it.kind, 0) + 1
    unanswered = ", ".join(f"{count} {kind}" for kind, count in counts.items()) or "none"
    size = sum(Path(f"{judge.path}{end}").stat().st_size for end in ("", "-wal") if Path(f"{judge.path}{end}").exists())
    print(f"ok      kill {number}: {sum(it.answer is not None for it in sent)} answered, unanswered {unanswered}, of which {sum(there)} stood; {size / 1e6:.1f} MB", flush=True)


def judged(judge, times):
    """How many kills were found to be as they must be."""
    book, _ = judge.look()
    for number in range(1, times + 1):
        sent = judge.load(book)
        book, there = judge.look()
        for stands in there:
            judge.stood[stands] += 1
        tell(number, sent, judge, there)
        if number % ONCE == 0:
            judge.kill_opening()
            book, _ = judge.look()
            print("ok      killed once more as it opened", flush=True)
    with Serving(judge.program, judge.path).listen() as desk:
        judge.send_again(desk.port, book)
        old = [it for it in judge.answered if it.kind in ("submission", "returns")]
        for sent, came in zip(old, ask(desk.port, [it.message for it in old])):
            must(f"{sent} again at the end", came, sent.answer)
    judge.look()
    return len(old)


def main():
    program = program_of(sys.argv[1:])
    times = int(sys.argv[2]) if len(sys.argv) > 2 else 200
    seed = int(sys.argv[3]) if len(sys.argv) > 3 else time.time_ns() % 10**9
    print(f"seed {seed}", flush=True)
    with tempfile.TemporaryDirectory() as folder:
        path = Path(folder) / "bank.db"
        make_desk(program, path)
        judge = Judge(program, path, random.Random(seed))
        try:
            judge.begin()
            old = judged(judge, times)
        except Wrong as wrong:
            kept = Path(tempfile.mkdtemp(prefix="kill_nine."))
            for file in Path(folder).iterdir():
                shutil.copyfile(file, kept / file.name)
            print(f"FAILED  {wrong}\n        the file is kept in {kept}\n{times} checks, 1 failed")
            sys.exit(1)
        print(f"ok      all {old} submissions and files were sent again at the end and answered as the first time")
        print(f"of {sum(judge.stood.values())} messages that were not answered {judge.stood[True]} stood in the file, whole, and {judge.stood[False]} did not")
        print(f"{times + 1} checks, 0 failed")


main()
