#!/usr/bin/env python3
"""Compares the desk with a rival in C++, and measures both: `python3 bench/rival.py`.

The rival (bench/rival) makes the same calls over the same tables by SQLite's C API. It is built with g++ -O2. First all answers
are compared byte for byte, and all rows of all tables: heads of every kind, each route with its refusals, and random days of a
bank. Then a table reports the instructions of user code (callgrind) and the CPU time of both for each call, and their ratios.

The status is 1 if an answer or a row differs or a call takes more instructions than it may, which is printed, and 2 if a Debian
package is missing, which is named.
"""

import argparse
import os
import random
import shutil
import subprocess
import sys
import tempfile
from collections import Counter
from pathlib import Path

HERE = Path(__file__).resolve().parent
sys.path[:0] = [str(HERE / "rival"), str(HERE.parent / "judge")]
PACKAGES = {"g++": "g++", "valgrind": "valgrind", "/usr/include/sqlite3.h": "libsqlite3-dev", "/usr/include/rapidjson/document.h": "rapidjson-dev"}
HISTORIES = ("spent_modifiers", "full_files", "lapses", "late_returns")
DAYS_OF_A_FILE = 50
SHOWN = 5


def options():
    parser = argparse.ArgumentParser(prog="bench/rival.py", description=__doc__, formatter_class=argparse.RawDescriptionHelpFormatter)
    parser.add_argument("--program", help="the desk's program; by default the one that ./achdesk builds")
    parser.add_argument("--desk-words", default="", metavar="WORDS", help="more words for `achdesk stdio DB`, in one argument")
    parser.add_argument("--days", type=int, default=150, help="how many random days, 150")
    parser.add_argument("--seed", type=int, default=1, help="the seed of the first random days, 1")
    parser.add_argument("--spoiled", type=int, default=150, help="how many spoiled bodies of each kind, 150")
    parser.add_argument("--open", type=int, default=100_000, help="how many entries are open where calls are measured, 100,000")
    parser.add_argument("--rounds", type=int, default=3, help="rounds of which the least CPU time counts, 3")
    parser.add_argument("--compare", action="store_true", help="compares, and does not measure")
    parser.add_argument("--figures", action="store_true", help="measures, and does not compare")
    parser.add_argument("--no-instructions", action="store_true", help="measures the CPU time alone")
    return parser.parse_args()


def missing_packages():
    return sorted(package for it, package in PACKAGES.items() if not (os.path.exists(it) or shutil.which(it)))


def built(folder):
    """The rival's program."""
    rival = folder / "rival"
    sources = sorted((HERE / "rival").glob("*.cpp"))
    subprocess.run(["g++", "-std=c++17", "-O2", "-Wall", "-Wextra", "-Wno-maybe-uninitialized", "-o", rival, *sources, "-lsqlite3"], check=True)
    return str(rival)


def shown(value):
    text = value if isinstance(value, str) else repr(value)
    return text if len(text) <= 1200 else f"{text[:900]} .. {text[-250:]} ({len(text)} characters)"


class Comparison:
    """All histories, each over files of its own."""

    def __init__(self, commands, folder):
        self.commands, self.folder = commands, folder
        self.answers = self.rows = self.differences = 0
        self.kinds = Counter()

    def pair(self, name, base=None):
        return Pair(self.commands, self.folder, name, base)

    def count(self, name, pairs):
        answers, rows = sum(it.answers for it in pairs), sum(it.rows for it in pairs)
        found = [it for pair in pairs for it in pair.differences]
        print(f"{name}: {answers:,} answers and {rows:,} rows, {len(found)} differ", flush=True)
        for what, desk, rival in found[:SHOWN]:
            print(f"  {shown(what)}\n    desk:  {shown(desk)}\n    rival: {shown(rival)}", flush=True)
        for pair in pairs:
            self.kinds += pair.kinds
        self.answers, self.rows, self.differences = self.answers + answers, self.rows + rows, self.differences + len(found)

    def one(self, name, history, *more):
        pair = self.pair(name.replace(" ", "-"))
        history(pair, *more)
        self.count(name, [pair])

    def days(self, days, seed):
        """A new file for each 50 days."""
        for first in range(0, days, DAYS_OF_A_FILE):
            self.one(f"random days of seed {seed}", histories.random_days, seed, min(DAYS_OF_A_FILE, days - first))
            seed += 1

    def all(self, given):
        self.one("heads", histories.heads)
        self.one("routes", histories.refusals, given.seed, given.spoiled)
        for name in HISTORIES:
            self.one(name.replace("_", " "), getattr(histories, name))
        self.count("sequences used again", histories.reused_sequences(self.pair))
        self.days(given.days, given.seed)
        print("answers by status and name: " + ", ".join(f"{kind} {count:,}" for kind, count in sorted(self.kinds.items())))
        equal = "all are equal" if self.differences == 0 else f"{self.differences} differ"
        print(f"{self.answers:,} answers and {self.rows:,} rows: {equal}", flush=True)


def main():
    given = options()
    if missing := missing_packages():
        print(f"bench/rival.py needs the Debian packages {' '.join(missing)}")
        return 2
    with tempfile.TemporaryDirectory() as name:
        folder = Path(name)
        commands = [[program_of([given.program] if given.program else []), *given.desk_words.split()], [built(folder)]]
        if not given.figures:
            comparison = Comparison(commands, folder)
            comparison.all(given)
            if comparison.differences:
                return 1
        if not given.compare:
            measured = figures.Figures(commands, folder, given.open, given.rounds)
            times = measured.times()
            instructions = None if given.no_instructions else measured.instructions()
            print(f"{given.open:,} open entries, the least CPU time of {given.rounds} rounds\n")
            print(figures.table(instructions, times))
            if found := figures.beyond(instructions) if instructions else []:
                print("", *found, sep="\n")
                return 1
    return 0


if __name__ == "__main__":
    import figures
    import histories
    from pair import Pair
    from helpers.running import program_of

    sys.exit(main())
