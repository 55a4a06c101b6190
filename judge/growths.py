#!/usr/bin/env python3
"""Refuses each call that takes memory, one in each run, while a desk answers a bank's days over HTTP, and then one message of
each route that these do not ask: a desk over lists, and one over tables in memory.

`python3 judge/growths.py` proves and builds judge/growths/main.rt.txt beside a copy of the crates, which takes long if they
were not proved before; `python3 judge/growths.py PROGRAM` takes a program that was built so. With --short the desk is over
lists alone, which takes seconds once the program is built.

Every answer must be the one in judge/helpers/answered_days.py, or the constant text with status 503. That comes at most once
in a run; the same message sent again must then be answered as it stands there, and so must all others: what was refused
memory changed nothing.
"""

import argparse
import concurrent.futures
import os
import subprocess
import sys
import tempfile
from pathlib import Path

from helpers.answered_days import DAYS, KEYS, OTHER_ROUTES
from helpers.running import TOP, built

HERE = TOP / "judge" / "growths"
USES = "ach_fields desk_core sql_store http_session http_routes desk_http sha2"

# what each status of the program says
TOLD = {100: "before the desk was made", 1: "were answered 503 once", 0: "were not needed"}


def exchange(caller, asks, body, status, answer):
    """A message and its answer, each with its length before them in eight digits."""
    kind = "text/plain" if "/ops/files/" in asks else "application/json"
    message = f"{asks} HTTP/1.1\r\nX-Desk-Key: {KEYS[caller]}\r\nContent-Length: {len(body)}\r\n\r\n{body}"
    wanted = f"HTTP/1.1 {status}\r\nContent-Type: {kind}\r\nContent-Length: {len(answer)}\r\nConnection: keep-alive\r\n\r\n{answer}"
    return f"{len(message):08}{len(wanted):08}{message}{wanted}"


def judge(program, work, over, given):
    """Refuses each call in turn over one kind of store, and prints what came of it."""
    days = "".join(exchange(*it) for it in DAYS + OTHER_ROUTES).encode()

    def run(number):
        words = {**os.environ, "LD_PRELOAD": str(work / "refuse.so"), "REFUSED": str(number), "COUNTED": str(work / f"counted_{number}")}
        return subprocess.run([program, *given], input=days, env=words, stdout=subprocess.DEVNULL).returncode

    if run(0) != 0:
        sys.exit(f"over {over} the answers differ where no memory is refused")
    calls = int((work / "counted_0").read_text())
    with concurrent.futures.ThreadPoolExecutor(len(os.sched_getaffinity(0))) as pool:
        statuses = list(pool.map(run, range(1, calls + 1)))
    for number, status in enumerate(statuses, 1):
        if status not in TOLD:
            sys.exit(f"over {over}, call {number} refused: status {status}")
    told = ", ".join(f"{statuses.count(status)} {what}" for status, what in TOLD.items())
    print(f"over {over}, {calls} calls took memory: {told}")


def main():
    words = argparse.ArgumentParser(description=__doc__, formatter_class=argparse.RawDescriptionHelpFormatter)
    words.add_argument("program", nargs="?", type=Path, help="a build of judge/growths/main.rt.txt")
    words.add_argument("--short", action="store_true", help="over lists alone")
    given = words.parse_args()
    with tempfile.TemporaryDirectory() as folder:
        work = Path(folder)
        program = given.program.resolve() if given.program else built(work, "growths", HERE / "main.rt.txt", USES)
        subprocess.run(["gcc", "-O2", "-shared", "-fPIC", "-o", work / "refuse.so", HERE / "refuse.c", "-ldl"], check=True)
        judge(program, work, "lists", [])
        if not given.short:
            judge(program, work, "tables in memory", ["tables"])


main()
