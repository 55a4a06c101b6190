#!/usr/bin/env python3
"""Refuses calls that take memory, one in each run, to `achdesk stdio` over a desk in a file:
`python3 judge/growths_in_files.py [PROGRAM] [STEP]`. PROGRAM is the built program and STEP 1 if they are left out: each call
is refused in turn; with a STEP of 20 each twentieth.

Each run begins with the same new desk and gets the messages of judge/helpers/answered_days.py. It must answer them as they stand there up
to some message, and may answer that one by the constant text with status 503, or end before the first. A second session,
which is refused nothing, gets that message and all after it, and must answer each as it stands there. Then stock SQLite
must find the rows of a desk that was refused nothing: what was answered 503 changed nothing. The last line says how many
calls were refused; the status is 1 where one of these did not hold.
"""

import collections
import concurrent.futures
import os
import shutil
import subprocess
import sys
import tempfile
from pathlib import Path

from helpers.answered_days import DAYS, KEYS
from helpers.running import TOP, answer, make_desk, message, program_of, rows_of, run

UNAVAILABLE = answer(503, '{"error":"Unavailable"}', closes=True)
STATUSES = (0, 1, 3)  # all is answered, a 503 closed the session, no session began or the file was not closed


def days():
    """The messages and their answers."""
    sent = [message(asks, body if asks.startswith("POST") else None, KEYS[caller]) for caller, asks, body, _, _ in DAYS]
    wanted = [answer(int(status.split()[0]), body, kind="text/plain" if "/ops/files/" in asks else "application/json") for _, asks, _, status, body in DAYS]
    return sent, wanted


class Judge:
    def __init__(self, program, folder):
        self.program, self.folder = program, folder
        self.shim = folder / "refuse.so"
        subprocess.run(["gcc", "-O2", "-shared", "-fPIC", "-o", self.shim, TOP / "judge" / "growths" / "refuse.c", "-ldl"], check=True)
        self.sent, self.wanted = days()
        self.new = folder / "new.db"
        make_desk(program, self.new)

    def copy(self, path):
        for end in ("", "-wal"):
            if Path(f"{self.new}{end}").exists():
                shutil.copyfile(f"{self.new}{end}", f"{path}{end}")
        return path

    def session(self, path, number):
        """What a session says that is refused the call with this number, its status, and how many calls it made where none is refused."""
        counted = Path(f"{path}.counted")
        words = {**os.environ, "LD_PRELOAD": str(self.shim), "REFUSED": str(number), "COUNTED": str(counted)}
        done = subprocess.run([self.program, "stdio", path], input=b"".join(self.sent), env=words, stdout=subprocess.PIPE, stderr=subprocess.PIPE)
        return done.stdout, done.returncode, int(counted.read_text()) if number == 0 else 0

    def undisturbed(self):
        """How many calls take memory where none is refused, and the rows that are left then."""
        path = self.copy(self.folder / "whole.db")
        said, status, calls = self.session(path, 0)
        if (said, status) != (b"".join(self.wanted), 0):
            sys.exit("the answers differ where no memory is refused")
        return calls, rows_of(path)

    def judge(self, number, rows):
        """What came of a session that is refused the call with this number."""
        with tempfile.TemporaryDirectory(dir=self.folder) as folder:
            path = self.copy(Path(folder) / "desk.db")
            said, status, _ = self.session(path, number)
            answered = 0
            while answered < len(self.wanted) and said.startswith(self.wanted[answered]):
                said = said[len(self.wanted[answered]):]
                answered += 1
            if status not in STATUSES:
                return f"status {status}"
            is_refused = said == UNAVAILABLE
            if not is_refused and answered < len(self.wanted) and (answered > 0 or b"HTTP" in said):
                return f"after {answered} answers it said {said[:60]}"
            rest = run(self.program, "stdio", path, given=b"".join(self.sent[answered:]))
            if rest != (b"".join(self.wanted[answered:]), 0):
                return f"the rest after {answered} answers was answered otherwise"
            if rows_of(path) != rows:
                return f"other rows after {answered} answers"
            return "answered 503 once" if is_refused else "not needed" if answered else "before a session began"


def main():
    program = program_of(sys.argv[1:])
    step = int(sys.argv[2]) if len(sys.argv) > 2 else 1
    with tempfile.TemporaryDirectory() as folder:
        judge = Judge(program, Path(folder))
        calls, rows = judge.undisturbed()
        with concurrent.futures.ThreadPoolExecutor(len(os.sched_getaffinity(0))) as pool:
            refused = range(1, calls + 1, step)
            came = dict(zip(refused, pool.map(lambda number: judge.judge(number, rows), refused)))
    counted = collections.Counter(came.values())
    told = {"answered 503 once", "not needed", "before a session began"}
    for number, what in came.items():
        if what not in told:
            print(f"call {number} refused: {what}")
    print(f"{len(came)} of {calls} calls were refused: {', '.join(f'{count} {what}' for what, count in sorted(counted.items()))}")
    sys.exit(any(what not in told for what in counted))


main()
