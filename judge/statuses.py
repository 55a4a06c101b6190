#!/usr/bin/env python3
"""Looks how the process ends: `python3 judge/statuses.py [PROGRAM]`, the built program if it is left out.

The program runs as a process with each of its exit statuses, 0, 1, 2 and 3, and what it prints then stands on standard
output alone. The last line counts the checks; the status is 1 where one failed.
"""

import os
import subprocess
import sys
import tempfile
from pathlib import Path

from helpers.running import SECONDS, TOP, Checks, program_of

BODY = (TOP / "examples" / "pay-1.json").read_bytes()
LINE = b'{"cents":150000,"entries":1,"order":1,"ref":"PAY-1"}\n'
PART = b"GET / HTTP/1.1\r\n"


def ended(program, *words, given=b"", out=subprocess.PIPE):
    """What a process prints on standard output and on standard error, and its exit status."""
    done = subprocess.run([program, *map(str, words)], input=given, stdout=out, stderr=subprocess.PIPE, timeout=SECONDS)
    return done.stdout, done.stderr, done.returncode


def main():
    program = program_of(sys.argv[1:])
    checks = Checks()
    checks.that("a submission is answered", ended(program, given=BODY), (LINE, b"", 0))
    checks.that("an empty session is done", ended(program, "stdio"), (b"", b"", 0))
    checks.that("a body that is none is refused", ended(program, given=b"[]"), (b'{"error":"BadJson"}\n', b"", 1))
    checks.that("a session that breaks off is refused", ended(program, "stdio", given=PART), (b"", b"", 1))
    checks.that("a file that is not there is no desk", ended(program, "stdio", "no such file"), (b"NotADesk\n", b"", 1))
    said, errors, status = ended(program, "bogus")
    checks.that("a wrong word is told", (said[:6], errors, status), (b"error:", b"", 2))
    unread = b"error: a word of the command line is not UTF-8\n"
    checks.that("a word that is no text is told", ended(program, os.fsdecode(b"\xff")), (unread, b"", 2))
    said, errors, status = ended(program, "--help")
    checks.that("help is given", (said[:12], errors, status), (b"ACH desk of ", b"", 0))
    checks.that("a file that cannot be read", ended(program, "check", "no such file"), (b"unavailable\n", b"", 3))
    with open("/dev/full", "wb") as full:
        checks.that("output that takes nothing", ended(program, given=BODY, out=full)[1:], (b"", 3))
    with tempfile.TemporaryDirectory() as name:
        letter = Path(name) / "letter.txt"
        letter.write_text("This is a letter and no file of a bank.\n")
        checks.that("a letter is no file of a bank", ended(program, "check", letter), (b"BadLength at record 1\n", b"", 1))
    checks.end()


main()
