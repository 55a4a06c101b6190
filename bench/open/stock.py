#!/usr/bin/env python3
"""The look for a company's open submissions by stock SQLite, in memory, over the rows of main.rt.txt.

Usage: stock.py ACHDESK. The tables and indexes are those of a new desk that the program ACHDESK makes.
"""

import sqlite3
import subprocess
import sys
import tempfile
import time
from pathlib import Path

INIT = ["--odfi", "121042882", "--odfi-name", "OUR BANK", "--destination", "061000146"]
INIT += ["--destination-name", "ACH OPERATOR", "--key", "operator-key"]
INSERT = (
    "INSERT INTO submissions VALUES"
    " ('MILL01', ?, ?, 'PPD', 'debit', 'DUES', 20000, NULL, NULL, ?, ?, NULL, NULL, NULL)"
)
COLUMNS = "company, ord, ref, sec, direction, description, asked, of_ref, of_index, lapsed, settled"
SELECT = f"SELECT {COLUMNS} FROM submissions WHERE company = 'MILL01'"
# The first day since which what settled is open.
SINCE = 20_004
WAITING = f"{SELECT} AND settled IS NULL AND lapsed = 0 ORDER BY ord"
RECENT = f"{SELECT} AND settled >= {SINCE} ORDER BY ord"
ROUNDS = 2_000


def schema_of(program):
    """Returns the statements that make the tables and the indexes of a new desk."""
    with tempfile.TemporaryDirectory() as folder:
        path = Path(folder) / "bank.db"
        subprocess.run([program, "init", path, *INIT], check=True, stdout=subprocess.DEVNULL)
        with sqlite3.connect(path) as desk:
            return [sql for (sql,) in desk.execute("SELECT sql FROM sqlite_master WHERE sql IS NOT NULL")]


def filled(schema, settled, waiting):
    """Returns a database in memory with so many submissions that settled, two that lapsed, and so many that wait."""
    database = sqlite3.connect(":memory:")
    for sql in schema:
        database.execute(sql)
    kinds = [(1, settled, 0, 20_000), (100_001, 2, 1, None), (300_001, waiting, 0, None)]
    for first, count, lapsed, day in kinds:
        rows = [(order, f"R{order}", lapsed, day) for order in range(first, first + count)]
        database.executemany(INSERT, rows)
    return database


def best(database, *queries):
    """Returns the nanoseconds of the best round of these queries, with all rows of each."""
    times = []
    for _ in range(ROUNDS):
        start = time.perf_counter_ns()
        for query in queries:
            database.execute(query).fetchall()
        times.append(time.perf_counter_ns() - start)
    return min(times)


def main():
    schema = schema_of(sys.argv[1])
    for waiting in (0, 5, 200):
        for settled in (10, 100, 1_000, 10_000):
            database = filled(schema, settled, waiting)
            held, both = best(database, WAITING), best(database, WAITING, RECENT)
            print(f"{settled} settled, {waiting} waiting, by SQLite {sqlite3.sqlite_version}: "
                  f"{held} ns for those that wait, {both} ns for the open ones")


if __name__ == "__main__":
    main()
