#!/usr/bin/env python3
"""Asks two desks the same in random histories of a bank: `python3 judge/histories.py [PROGRAM] [--histories N] [--serve K]`.

One desk runs on, by `achdesk stdio DB`, and answers by what it remembers. Its twin has a file of its own, and is started anew
after each event, so that it remembers nothing of it. All answers must be equal, byte for byte. A history has submissions,
repeated and refused ones, retries that lapse, cuts, files of returns, late ones and changes, days, holiday lists that bring days
back, and limits. After most events each company is asked, for its exposures above all.

N histories are made, 40 by default, each of 1 to 160 events, or of as many as `--events` says. K of them, 2 by default, are
made once more over `achdesk serve`. Standard error says how far it is. The status is 1 if an answer differs. A short history
takes a third of a second: `--histories 10000 --serve 100 --events 24` takes an hour on one processor.
"""

import argparse
import multiprocessing
import os
import random
import subprocess
import sys
import tempfile
import time
from collections import Counter
from pathlib import Path

from helpers.desk_messages import split
from helpers.random_history import History
from helpers.running import Checks, Serving, connect, copy_desk, make_desk, plain, program_of, read_answer

LONGEST_SESSION = 1000
PROGRESS = 10  # seconds between two lines on standard error
# Each must happen in a run of this many histories or more.
ENOUGH = 40
MUST_HAPPEN = ("accepted", "refused", "repeated", "retried", "lapsed", "cuts", "returns", "late", "changes", "suspense", "days", "holiday lists", "limits")


# The files need no disk, since none is read after a crash.
MEMORY = "/dev/shm" if os.access("/dev/shm", os.W_OK) else None
# Starts a program over a desk's file for each round of messages. A loop of the shell takes less time than one of Python.
ASK_ROUNDS = 'at=0; while [ $at -lt "$3" ]; do "$1" stdio "$2" < $at.asked > $at.answered 2>&1 || exit 1; at=$((at + 1)); done'


class NoAnswer(Exception):
    pass


class Session:
    """A desk over `achdesk stdio DB`, in sessions of at most 1,000 messages."""

    def __init__(self, program, path):
        self.command, self.process, self.messages = [program, "stdio", str(path)], None, 0

    def answer(self, sent):
        if self.messages % LONGEST_SESSION == 0:
            self.end()
            self.process = subprocess.Popen(self.command, stdin=subprocess.PIPE, stdout=subprocess.PIPE)
        self.messages += 1
        self.process.stdin.write(sent)
        self.process.stdin.flush()
        return read_answer(self.process.stdout)

    def end(self):
        if self.process:
            self.process.communicate()


class Served:
    """A desk over `achdesk serve`, with a connection for each message or for several."""

    def __init__(self, program, path, chance):
        self.desk = Serving(program, path, connections=1_000_000, patience=600).listen()
        self.chance, self.connection = chance, None

    def answer(self, sent):
        if self.connection is None or self.chance.random() < 0.2:
            self.close()
            self.connection = connect(self.desk.port)
            self.reader = self.connection.makefile("rb")
        self.connection.sendall(sent)
        answer = read_answer(self.reader)
        if b"\r\nConnection: close\r\n" in answer:
            self.close()
        return answer

    def close(self):
        if self.connection:
            self.connection.close()
            self.connection = None

    def end(self):
        self.close()
        self.desk.stop()


class Recorded:
    """A desk that runs on, and its messages with their answers in rounds: each has questions, and then the next event."""

    def __init__(self, desk):
        self.desk, self.rounds = desk, [[]]

    def ask(self, sent):
        answer = self.desk.answer(sent)
        self.rounds[-1].append((sent, answer))
        if not answer:
            raise NoAnswer
        if not sent.startswith(b"GET "):
            self.rounds.append([])
        return answer


def compare(program, path, folder, rounds):
    """Asks the twin. Returns the number of equal answers, and the first difference, if there is one."""
    for at, asked in enumerate(rounds):
        (folder / f"{at}.asked").write_bytes(b"".join(sent for sent, _ in asked))
    status = subprocess.run(["sh", "-c", ASK_ROUNDS, "sh", program, path, str(len(rounds))], cwd=folder).returncode
    equal = 0
    for at, asked in enumerate(rounds):
        said = folder / f"{at}.answered"
        wanted = split(said.read_bytes()) if said.exists() else []
        wanted += [b""] * (len(asked) - len(wanted))
        for (sent, answer), other in zip(asked, wanted):
            if plain(answer) != plain(other) or other == b"":
                return equal, f"asked {sent[:300]!r}, the desk answered {answer!r}, its twin {other!r}"
            equal += 1
    return equal, "the twin ended with a fault" if status else None


def made(task):
    """Makes a history. Returns how it was asked, what happened, the number of equal answers, and the difference, if there is one.
    Returns None if the time is over."""
    program, new, seed, most, is_served, until = task
    if time.monotonic() > until:
        return None
    chance = random.Random(f"twin of {seed}")
    with tempfile.TemporaryDirectory(dir=MEMORY) as name:
        folder = Path(name)
        for path in (folder / "desk.db", folder / "twin.db"):
            copy_desk(new, path)
        desk = Served(program, folder / "desk.db", chance) if is_served else Session(program, folder / "desk.db")
        recorded = Recorded(desk)
        history = History(recorded.ask, seed)
        try:
            history.begin()
            for _ in range(chance.randint(1, most)):
                history.event()
                for question in history.questions() if chance.random() < 0.7 else []:
                    recorded.ask(question)
            for question in history.questions():
                recorded.ask(question)
        except NoAnswer:
            pass
        finally:
            desk.end()
        equal, difference = compare(program, folder / "twin.db", folder, recorded.rounds)
    return is_served, history.counts, equal, difference and f"history {seed}{' over serve' if is_served else ''}: {difference}"


class Results:
    """What all histories gave, and how far they are."""

    def __init__(self, total):
        self.total, self.answers, self.happened, self.differences = total, 0, Counter(), []
        self.histories = Counter()  # over serve (True), and over stdio
        self.began = self.told = time.monotonic()

    def add(self, is_served, happened, equal, difference):
        self.histories[is_served] += 1
        self.answers, self.happened = self.answers + equal, self.happened + happened
        self.differences += [difference] if difference else []
        if time.monotonic() > self.told + PROGRESS:
            self.told = time.monotonic()
            print(f"{self.histories.total():,} of {self.total:,} histories, {self.answers:,} equal answers, {len(self.differences)} differences, "
                  f"{self.told - self.began:.0f} s", file=sys.stderr, flush=True)


def options():
    parser = argparse.ArgumentParser(description=__doc__, formatter_class=argparse.RawDescriptionHelpFormatter)
    parser.add_argument("words", nargs="*", metavar="PROGRAM", help="the program; by default the one that ./achdesk builds")
    parser.add_argument("--program", help="the same")
    parser.add_argument("--histories", type=int, default=40, help="how many histories, 40")
    parser.add_argument("--events", type=int, default=160, help="the most events of a history, 160")
    parser.add_argument("--seed", type=int, default=1, help="the seed of the first, 1")
    parser.add_argument("--serve", type=int, default=2, metavar="K", help="how many of them once more over `achdesk serve`, 2")
    parser.add_argument("--minutes", type=float, default=float("inf"), help="the histories that are not made by then are left out")
    parser.add_argument("--jobs", type=int, default=os.cpu_count(), help="how many at a time, by default one for each processor")
    return parser.parse_args()


def made_all(given, program, folder):
    """Makes all histories, those over `achdesk serve` first."""
    new = Path(folder) / "new.db"
    make_desk(program, new)
    seeds = [(given.seed + at, True) for at in range(given.serve)] + [(given.seed + at, False) for at in range(given.histories)]
    results = Results(len(seeds))
    until = results.began + 60 * given.minutes
    with multiprocessing.Pool(given.jobs) as pool:
        for result in pool.imap_unordered(made, [(program, new, seed, given.events, is_served, until) for seed, is_served in seeds]):
            if result:
                results.add(*result)
    return results


def main():
    given = options()
    program, checks = program_of([given.program] if given.program else given.words), Checks()
    with tempfile.TemporaryDirectory(dir=MEMORY) as folder:
        results = made_all(given, program, folder)
    print(f"{results.histories[False]:,} histories over stdio and {results.histories[True]:,} over serve, {results.answers:,} equal answers: "
          f"{', '.join(f'{name} {count:,}' for name, count in sorted(results.happened.items()))}")
    checks.that("no answer differs from that of the twin", results.differences[:3], [])
    if results.histories[False] >= ENOUGH:
        checks.that("each kind of event happened", [name for name in MUST_HAPPEN if not results.happened[name]], [])
    checks.end()


if __name__ == "__main__":
    main()
