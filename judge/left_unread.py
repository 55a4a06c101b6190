#!/usr/bin/env python3
"""Looks how far commands read their input: `python3 judge/left_unread.py [PROGRAM]`, the built program if it is left out.

The input is a file that this judge opened, so after a command its position says what was read. A body, a list and a file
are read for one byte more than they may have, a session to the end of the piece that has its last message, and a command
that needs no input reads none. The files that `check` and `submit` open are pipes, so what their writer could
not write was not read. The last line counts the checks; the status is 1 where one failed.
"""

import os
import subprocess
import sys
import tempfile
import threading
from pathlib import Path

from helpers.running import IDENTITY, Checks, message, program_of

# One byte more than an input may have, and as much as a session reads at once.
MOST, PIECE = 4_194_305, 16_384
LONG = b"\n" * (MOST + 1_000_000)
LAST = message("POST /ops/day", '{"day":"2025-01-08"}').replace(b"\r\n\r\n", b"\r\nConnection: close\r\n\r\n", 1)
LIST = ("--company", "MILL01", "--ref", "PAY-1", "--sec", "PPD", "--direction", "credit", "--description", "PAYROLL", "--day", "2025-01-10", "--key", "mill-street-key")


def read_of(program, folder, given, *words):
    """Gives how many of these bytes the command read that has them as its standard input."""
    path = folder / "input"
    path.write_bytes(given)
    with path.open("rb", buffering=0) as file:
        subprocess.run([program, *map(str, words)], stdin=file, capture_output=True, timeout=60)
        return os.lseek(file.fileno(), 0, os.SEEK_CUR)


def taken_of(program, folder, *words):
    """Gives how many bytes could be written to the pipe at the path `pipe`, which the command reads."""
    pipe, taken = folder / "pipe", []
    os.mkfifo(pipe)

    def write():
        with pipe.open("wb", buffering=0) as file:
            try:
                for at in range(0, len(LONG), PIECE):
                    taken.append(file.write(LONG[at : at + PIECE]))
            except BrokenPipeError:
                pass

    writer = threading.Thread(target=write)
    writer.start()
    subprocess.run([program, *map(str, words)], stdin=subprocess.DEVNULL, capture_output=True, timeout=60)
    writer.join()
    pipe.unlink()
    return sum(taken)


def main():
    program = program_of(sys.argv[1:])
    checks = Checks()
    with tempfile.TemporaryDirectory() as name:
        folder = Path(name)
        desk = folder / "bank.db"
        checks.that("a long body is read for one byte more than it may have", read_of(program, folder, LONG), MOST)
        checks.that("a short one to its end", read_of(program, folder, b"{}"), 2)
        for words in (("stdio",), ("stdio", desk)):
            if len(words) > 1:
                checks.that("`init` reads no input", read_of(program, folder, LONG, "init", desk, *IDENTITY), 0)
            said = " ".join(map(str, words[:1])) + (" DB" if len(words) > 1 else "")
            read = read_of(program, folder, LAST + LONG, *words)
            checks.that(f"`{said}`: a session reads no further than the piece with its last message", 0 < read <= len(LAST) + PIECE, True)
        checks.that("a desk that is refused reads no message", read_of(program, folder, LAST, "stdio", folder / "none.db"), 0)
        checks.that("`migrate` reads no input", read_of(program, folder, LONG, "migrate", desk), 0)
        checks.that("help reads no input", read_of(program, folder, LONG, "--help"), 0)
        # What the pipe itself holds, 65,536 bytes by default, was written and not read.
        for words in (("check", folder / "pipe"), ("submit", folder / "pipe", *LIST)):
            taken = taken_of(program, folder, *words)
            checks.that(f"`{words[0]}` reads no more than decides", taken <= MOST + 2 * 65_536, True)
    checks.end()


main()
