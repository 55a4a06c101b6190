#!/usr/bin/env python3
"""Looks who may read a desk's files: `python3 judge/private_files.py [PROGRAM]`, the built program if it is left out.

`achdesk init` makes a desk under umasks that take off much, little and nothing. Both files have to be their owner's
alone, mode 0600, and still after they were served, answered messages and were opened again under another umask. A
file that is no desk keeps the mode that it has. The last line counts the checks; the status is 1 where one failed.
"""

import os
import subprocess
import sys
import tempfile
from pathlib import Path

from helpers.running import IDENTITY, MILL, Checks, message, program_of

MASKS = (0o000, 0o022, 0o077, 0o277, 0o777)
DAY = message("POST /ops/day", '{"day":"2025-01-08"}')


def mode_of(path):
    return oct(os.stat(path).st_mode & 0o7777)


def modes(path):
    return [mode_of(f"{path}{end}") for end in ("", "-wal")]


def run(program, mask, *words, given=b""):
    done = subprocess.run([program, *map(str, words)], input=given, capture_output=True, umask=mask, timeout=30)
    return done.stdout, done.returncode


def main():
    program = program_of(sys.argv[1:])
    checks = Checks()
    with tempfile.TemporaryDirectory() as name:
        for mask in MASKS:
            path, said = Path(name) / f"bank_{mask:03o}.db", f"umask {mask:03o}"
            checks.that(f"{said}: a desk is made", run(program, mask, "init", path, *IDENTITY), (b"created\n", 0))
            checks.that(f"{said}: both files are for their owner alone", modes(path), ["0o600", "0o600"])
            answers, status = run(program, 0, "stdio", path, given=message("POST /ops/companies", MILL) + DAY)
            checks.that(f"{said}: the desk answers", (answers.count(b"HTTP/1.1 20"), status), (2, 0))
            checks.that(f"{said}: and its files are as they were", modes(path), ["0o600", "0o600"])
            checks.that(f"{said}: a second `init` is refused", run(program, 0, "init", path, *IDENTITY), (b"Exists\n", 1))
            checks.that(f"{said}: and leaves them so", modes(path), ["0o600", "0o600"])
        empty = Path(name) / "empty.db"
        empty.touch()
        empty.chmod(0o644)
        checks.that("an empty file that others can read becomes a desk", run(program, 0o022, "init", empty, *IDENTITY), (b"created\n", 0))
        checks.that("and both files are for their owner alone", modes(empty), ["0o600", "0o600"])
        letter = Path(name) / "letter.txt"
        letter.write_text("This is a letter and no database.\n" * 500)
        letter.chmod(0o644)
        checks.that("a letter becomes no desk", run(program, 0o022, "init", letter, *IDENTITY), (b"unavailable\n", 3))
        checks.that("and keeps its mode", mode_of(letter), "0o644")
    checks.end()


main()
