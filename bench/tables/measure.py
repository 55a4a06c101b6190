#!/usr/bin/env python3
"""Times of a desk over a database file.

`measure.py PROGRAM [ROUNDS [million]]`: PROGRAM is bench/tables/main.rt.txt as `rt run` builds it. Each round works
on fresh copies of the same files, and the best round of each call counts. With `million` the writes are also made in a
file of 1,000,000 entries, which takes some minutes more. At the end the bytes of a file are compared with those of a
file in which stock SQLite (Python's `sqlite3`) wrote the same rows. How the desk compares with SQLite in time,
`bench/rival.py` measures.
"""

import datetime
import os
import shutil
import sqlite3
import subprocess
import sys
import tempfile
import time
from contextlib import closing
from pathlib import Path

FIRST_DAY = datetime.date(2025, 1, 8)
TABLES = ["desk", "holidays", "companies", "submissions", "entries", "returns", "changes", "postings", "suspense", "files",
          "taken", "balances", "numbers", "authorizations"]
SEND = ("UPDATE submissions SET settled = ?, file_day = ?, modifier = ?, batch = ? WHERE company = ? AND ord = ? "
        "AND settled IS NULL AND lapsed = 0")
MARK = "UPDATE entries SET seq = ? WHERE company = ? AND ord = ? AND idx = ? AND seq IS NULL"
BEFORE_CUT = {"submissions": lambda row: (*row[:10], None, None, None, None), "entries": lambda row: (*row[:11], None)}

best = {}


def keep(what, who, took):
    """Keeps the best time by the clock and the best of a processor."""
    times = best.setdefault(what, {})
    times[who] = tuple(map(min, took, times.get(who, took)))


class Desk:
    """A running program over a database file. Its first two answers are the times to open and to adopt it."""

    def __init__(self, path, mode="open", *more):
        command = [program, str(path), mode, *more]
        self.process = subprocess.Popen(command, stdin=subprocess.PIPE, stdout=subprocess.PIPE, bufsize=0)
        self.worked = 0
        self.opening = self.answer()
        self.adopting = self.answer()

    def answer(self):
        """The nanoseconds that the program tells, and those for which a processor worked for it since the last answer,
        which has what it took to make the call."""
        line = self.process.stdout.readline()
        if not line.strip().isdigit():
            raise SystemExit(f"the program ended: {line!r}, status {self.process.wait()}")
        before, self.worked = self.worked, int(Path(f"/proc/{self.process.pid}/schedstat").read_text().split()[0])
        return int(line), self.worked - before

    def ask(self, *words):
        self.process.stdin.write((" ".join(map(str, words)) + "\n").encode())
        return self.answer()

    def end(self):
        self.process.stdin.close()
        if self.process.wait() != 0:
            raise SystemExit("the program ended with a fault")


def close(path):
    """Copies the log into the database file."""
    subprocess.run([program, str(path), "close"], check=True)


def reading(path):
    return closing(sqlite3.connect(path))


def timed(do):
    worked, start = time.process_time_ns(), time.perf_counter_ns()
    do()
    return time.perf_counter_ns() - start, time.process_time_ns() - worked


def rows_of(db, table):
    return db.execute(f"SELECT * FROM {table} ORDER BY rowid").fetchall()


def count_of(db, table):
    return db.execute(f"SELECT count(*) FROM {table}").fetchone()[0]


def must_be_same(one, other):
    """Each row has a key of its own, so files of as many rows are the same where none of one is missing in the other."""
    with reading(one) as db:
        db.execute("ATTACH ? AS other", (str(other),))
        for table in TABLES:
            missing = db.execute(f"SELECT 1 FROM (SELECT * FROM main.{table} EXCEPT SELECT * FROM other.{table})").fetchone()
            if missing or count_of(db, f"main.{table}") != count_of(db, f"other.{table}"):
                raise SystemExit(f"{table}: the rows of the desk and of SQLite differ")


def copy_of(base):
    """A fresh copy of a database file."""
    path = work / "desk.db"
    for end in ["-wal", "-shm"]:
        (work / f"desk.db{end}").unlink(missing_ok=True)
    shutil.copyfile(base, path)
    os.sync()
    return path


def companies(count):
    return [f"MILL{number}" for number in range(count)]


def day(number):
    return FIRST_DAY + datetime.timedelta(days=number)


def base(name, owners, weeks, submissions, entries, back=0):
    """A file of so many companies. In each week each hands in so many submissions of so many entries, and the
    desk cuts; of the first week's entries some come back. Without weeks, all are held."""
    path = work / name
    desk = Desk(path, "make")
    for company in companies(owners):
        desk.ask("company", company)
    for week in range(max(weeks, 1)):
        desk.ask("day", day(7 * week))
        for company in companies(owners):
            for number in range(submissions):
                desk.ask("submit", company, f"S{week * submissions + number}", day(7 * week + 1), entries)
        if weeks > 0:
            desk.ask("cut")
        if back > 0 and week == 0:
            desk.ask("day", day(2))
            desk.ask("take", 930, 1, back)
    if weeks > 0:
        desk.ask("day", day(7 * weeks + 7))
    desk.end()
    close(path)
    return path


def held_beside(name, path, weeks, owners, entries):
    """The same file, in which each company has handed in one submission more, which is held."""
    shutil.copyfile(path, work / name)
    desk = Desk(work / name)
    for company in companies(owners):
        desk.ask("submit", company, "HELD", day(7 * weeks + 8), entries)
    desk.end()
    close(work / name)
    return work / name


def submissions(what, path, weeks, owners, entries, *more):
    """A submission of each company. The first one is not counted: a log begins with it."""
    desk = Desk(copy_of(path), "open", *more)
    first, *others = companies(owners)
    desk.ask("submit", first, "NEW", day(7 * weeks + 8), entries)
    for company in others:
        keep(what, "desk", desk.ask("submit", company, "NEW", day(7 * weeks + 8), entries))
    desk.end()


def cut(what, path):
    desk = Desk(copy_of(path))
    keep(what, "desk", desk.ask("cut"))
    desk.end()


def take(what, path, first, count):
    copy = copy_of(path)
    desk = Desk(copy)
    keep(what, "desk", desk.ask("take", 1030, first, count))
    desk.end()
    with reading(copy) as done, reading(path) as before:
        taken = count_of(done, "returns") - count_of(before, "returns")
    if taken != count:
        raise SystemExit(f"{taken} returns of {count} were taken")


def reads(name, path, weeks):
    """Reads of the first company, each some times, by the store of the desk; and what its messages ask of the desk. The
    opening is also that of SQLite, with and without its check of the whole file."""
    copy = copy_of(path)
    desk = Desk(copy)
    since = day(7 * weeks + 5)
    for what in ["company", "postings", "balances", "count", f"open {since}", "retries S0", "submission S0", "items", "traced 60",
                 "settled 1000", "entries"]:
        word, *rest = what.split()
        for _ in range(3 if what == "entries" else 20):
            keep(f"read {what} of {name}", "desk", desk.ask("read", word, "MILL0", *rest))
    for message in ["look MILL0 S0", "returns MILL0", "statement MILL0", "exposure MILL0", "rates MILL0"]:
        for _ in range(3 if message.startswith("rates") else 20):
            keep(f"call {message} of {name}", "desk", desk.ask(*message.split()))
    keep(f"open and adopt {name}", "desk", tuple(map(sum, zip(desk.opening, desk.adopting))))
    keep(f"adopt {name}", "desk", (desk.adopting[0], 0))
    desk.end()
    keep(f"open and adopt {name}", "SQLite", timed(lambda: asked(copy, "SELECT version FROM desk")))
    keep(f"check all of {name}", "SQLite", timed(lambda: asked(copy, "PRAGMA integrity_check")))


def asked(path, text):
    with reading(path) as db:
        db.execute(text).fetchall()


def sizes(path):
    """The bytes of a file, and those of a file in which stock SQLite wrote the same rows: as they were before a cut,
    and then what the cut wrote into them."""
    copy = work / "size.db"
    copy.unlink(missing_ok=True)
    with reading(path) as done:
        page = done.execute("PRAGMA page_size").fetchone()[0]
        texts = [text for text, in done.execute("SELECT sql FROM sqlite_master WHERE sql IS NOT NULL ORDER BY rowid")]
        rows = {table: rows_of(done, table) for table in TABLES}
    db = sqlite3.connect(copy, isolation_level=None)
    db.execute(f"PRAGMA page_size = {page}")
    db.execute("BEGIN")
    for text in texts:
        db.execute(text)
    for table, values in rows.items():
        if values:
            places = ",".join("?" * len(values[0]))
            db.executemany(f"INSERT INTO {table} VALUES ({places})", map(BEFORE_CUT.get(table, tuple), values))
    db.executemany(SEND, [(*row[10:], *row[:2]) for row in rows["submissions"]])
    db.executemany(MARK, sorted((row[11], *row[:3]) for row in rows["entries"]))
    db.execute("COMMIT")
    db.close()
    must_be_same(path, copy)
    count = sum(map(len, rows.values()))
    texts = sum(len(text) for _, _, text in rows["files"])
    print(f"{path.name}: {len(rows['entries'])} entries, {count} rows, pages of {page} bytes")
    for who, size in [("desk", path.stat().st_size), ("SQLite", copy.stat().st_size)]:
        print(f"  {who}: {size} bytes, {size / count:.1f} a row, without the texts of files {(size - texts) / count:.1f}")


def shown(took):
    clock, worked = took
    return f"{clock / 1e6:.3f} ms" + (f" (processor {worked / 1e6:.3f})" if worked else "")


def ratios(times):
    if len(times) < 2:
        return ""
    clock, worked = (ours / theirs for ours, theirs in zip(times["desk"], times["SQLite"]))
    return f", {clock:.2f} times ({worked:.2f})"


def one_round():
    for size in [1, 100, 1000]:
        submissions(f"submission of {size} in 1000_entries", small, 1, 10, size)
        submissions(f"submission of {size} in 100000_entries", large, 10, 10, size)
    submissions("submission of 1 in 1000_entries, synced twice", small, 1, 10, 1, "wary")
    cut("cut of 1000", few_held)
    cut("cut of 1000 single submissions", singles_held)
    cut("cut of 1000 in 101000_entries", held_late)
    cut("cut of 100000", many_held)
    take("500 returns in 1000_entries", small, 501, 500)
    take("5000 returns in 100000_entries", large, 5001, 5000)
    if huge:
        submissions("submission of 1000 in 1000000_entries", huge, 100, 10, 1000)
        cut("cut of 1000 in 1001000_entries", held_in_huge)
        take("5000 returns in 1000000_entries", huge, 5001, 5000)
    reads("1000_entries", small, 1)
    reads("100000_entries", large, 10)
    reads("100000_entries_of_one", alone, 10)


program = os.path.abspath(sys.argv[1])
rounds = int(sys.argv[2]) if len(sys.argv) > 2 else 5
work = Path(tempfile.mkdtemp())
try:
    small = base("1000_entries.db", 10, 1, 1, 100, back=50)
    large = base("100000_entries.db", 10, 10, 10, 100, back=50)
    alone = base("100000_entries_of_one.db", 1, 10, 100, 100, back=50)
    few_held = base("1000_held.db", 10, 0, 1, 100)
    singles_held = base("1000_singles_held.db", 10, 0, 100, 1)
    held_late = held_beside("1000_held_beside.db", large, 10, 10, 100)
    many_held = base("100000_held.db", 10, 0, 10, 1000)
    huge = base("1000000_entries.db", 10, 100, 10, 100, back=50) if "million" in sys.argv else None
    held_in_huge = huge and held_beside("1000_held_in_huge.db", huge, 100, 10, 100)
    try:
        for number in range(rounds):
            one_round()
            print(f"round {number + 1} of {rounds} is done", file=sys.stderr)
    except KeyboardInterrupt:
        print("The rounds were broken off.")
    for what, times in best.items():
        print(f"{what}: " + ", ".join(f"{who} {shown(took)}" for who, took in times.items()) + ratios(times))
    sizes(large)
finally:
    shutil.rmtree(work)
