#!/usr/bin/env python3
"""Migrates a desk's file of version 1: `python3 judge/migrated.py [PROGRAM]`, the built program if it is left out.

A desk in a file answers the messages of examples/bank_day. Stock SQLite writes its rows into a new file as version 1 had
them: the same tables and indexes, but for those of numbers and of authorizations. `serve` and `stdio` must refuse that
file, `migrate` must make it one of version 2, and then every GET must be answered as by the first desk, and so must what
is sent again and what is new. A file of an unknown version is refused, and no refusal changes a byte of the database
file. The last line counts the checks; the exit status is 1 if one failed.
"""

import sqlite3
import subprocess
import sys
import tempfile
from pathlib import Path

from helpers.first_version import write_copy, write_version_1
from helpers.running import MILL_KEY, TOP, Checks, free_port, make_desk, message, program_of, run

COMPANY = ["returns", "changes", "statement", "rates", "exposure", "submissions/PAY-1", "submissions/PAY-2", "submissions/PAY-3"]
OPERATOR = ["settlement", "suspense", "companies", "files/2025-01-08/A", "files/2025-01-09/A", "files/2025-01-09/B"]


def days():
    """The messages of a bank's days."""
    return b"".join(file.read_bytes() for file in sorted((TOP / "examples" / "bank_day").glob("*.http")))


def asked_after():
    """GETs of all kinds, a file and a submission that are sent again, and a retry of what came back with its cut."""
    reads = [message(f"GET /c/MILL01/{what}", key=MILL_KEY) for what in COMPANY] + [message(f"GET /ops/{what}") for what in OPERATOR]
    again = [(TOP / "examples" / "bank_day" / name).read_bytes() for name in ("11_returns_file.http", "07_collection.http")]
    retry = message("POST /c/MILL01/retries", '{"ref":"RT-1","of":"PAY-2","index":1,"day":"2025-01-15"}', MILL_KEY)
    return b"".join([*reads, *again, retry, message("POST /ops/cut", ""), *reads])


def write_version_9(source, path):
    """The rows of a desk's file, with a version that no program has."""
    write_copy(source, path)
    new = sqlite3.connect(path, isolation_level=None)
    new.execute("UPDATE desk SET version = 9")
    new.close()


def main():
    program, checks = program_of(sys.argv[1:]), Checks()
    with tempfile.TemporaryDirectory() as folder:
        first, old = Path(folder) / "first.db", Path(folder) / "old.db"
        make_desk(program, first)
        said, status = run(program, "stdio", first, given=days())
        checks.that("a bank's days are answered", (said, status), ((TOP / "examples" / "bank_day" / "answers.txt").read_bytes(), 0))
        write_version_1(first, old)
        before = old.read_bytes()
        checks.that("`serve` refuses a file of version 1", run(program, "serve", old, free_port()), (b"WrongVersion 1\n", 1))
        checks.that("`stdio` refuses it", run(program, "stdio", old, given=days()), (b"WrongVersion 1\n", 1))
        checks.that("`init` refuses it", run(program, "init", old, "--odfi", "121042882", "--odfi-name", "X", "--destination", "061000146",
                                             "--destination-name", "Y", "--key", "operator-key"), (b"Exists\n", 1))
        checks.that("no refusal changed the database file", old.read_bytes() == before)
        later = Path(folder) / "later.db"
        write_version_9(first, later)
        before = later.read_bytes()
        for words in (["serve", later, free_port()], ["stdio", later], ["migrate", later]):
            checks.that(f"`{words[0]}` refuses a file of version 9", run(program, *words, given=b""), (b"WrongVersion 9\n", 1))
        checks.that("and leaves the database file as it was", later.read_bytes() == before)
        checks.that("it is migrated", run(program, "migrate", old), (b"migrated 1 to 2\n", 0))
        checks.that("a second time it is refused", run(program, "migrate", old), (b"WrongVersion 2\n", 1))
        checks.that("so is a desk that was made so", run(program, "migrate", first), (b"WrongVersion 2\n", 1))
        read = subprocess.run([sys.executable, TOP / "judge" / "stock_sqlite.py", old], capture_output=True)
        checks.that("stock SQLite finds the tables of version 2", (read.stdout[:4], read.returncode), (b"ok: ", 0))
        wanted = run(program, "stdio", first, given=asked_after())
        checks.that("the first desk has an answer to all", (wanted[0].count(b"HTTP/1.1 "), wanted[1]), (asked_after().count(b" HTTP/1.1\r\n"), 0))
        checks.that("the migrated one has the same answers", run(program, "stdio", old, given=asked_after()), wanted)
    checks.end()


main()
