#!/usr/bin/env python3
"""Checks the types of what is shipped in Python: `python3 judge/typed.py`. It needs mypy.

`mypy --strict` must find nothing in the client library, in the day program, in the alarms and in their unit tests, as the oldest Python
reads them that runs them. No module has more than 300 lines. The last line counts the checks; the exit status is 1 if one
failed.
"""

import os
import subprocess
import sys
import tempfile

from helpers.running import TOP, Checks, found

# A folder, the oldest Python, and what mypy checks there, as far as the folder has it.
CHECKED = (("clients/python", "3.9", ("achdesk", "tests")), ("deploy", "3.11", ("achdesk_day", "achdesk_alarm", "tests")))
MOST_LINES = 300


def main():
    if sys.argv[1:]:
        sys.exit(__doc__)
    mypy, checks = found("mypy"), Checks()
    if mypy is None:
        print("not tried, since this package is missing: mypy")
        sys.exit(2)
    known = {**os.environ, "MYPYPATH": str(TOP / "clients/python")}
    for folder, python, wanted in CHECKED:
        names = [it for it in wanted if (TOP / folder / it).is_dir()]
        if not names:
            continue
        with tempfile.TemporaryDirectory() as cache:
            words = [mypy, "--strict", "--python-version", python, "--cache-dir", cache, *names]
            done = subprocess.run(words, cwd=TOP / folder, env=known, stdout=subprocess.PIPE, stderr=subprocess.STDOUT, text=True)
        checks.that(f"mypy --strict {folder}", (done.returncode, done.returncode and done.stdout), (0, 0))
        long = [str(it.relative_to(TOP)) for name in names for it in (TOP / folder / name).rglob("*.py")
                if len(it.read_text().splitlines()) > MOST_LINES]
        checks.that(f"{folder}: modules with more than {MOST_LINES} lines", long, [])
    checks.end()


main()
