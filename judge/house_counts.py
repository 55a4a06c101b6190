#!/usr/bin/env python3
"""Counts what a reader of the code has to get over: `python3 judge/house_counts.py [TREE]`. It needs no program.

TREE is a checkout: a folder, or a revision of this one; without it, this one as it is. The table has a line for each count. The
product is all crates but those of tests and of examples.

  one-use, one-clause   definitions of at most three lines that one clause or one definition names. Definitions that no clause
                        rests on name nothing here. A clause is a `requires`, an `ensures` or a ghost member
  fact-names, names     names that abbreviations have in several files; of facts, whose names begin with a capital letter, and of
                        all. A history and its book share names on purpose, and count as one. other-names are those of records,
                        data and plain definitions
  equal                 groups of definitions that are the same, whatever they and their variables are called
  arguments             clauses that begin with a word of seven or more arguments; arguments-inside are others that have one
  constants             numbers that two constants of code name, or two definitions, but for small and round ones
  submission, cut, returns-file
                        functions on a walk from the answer to a message. The walk enters functions with a body, but no laws. A
                        function of a trait it enters in those types alone that it makes. A store remembers all that it is asked;
                        the message is new and accepted. Branches that only values decide are entered, those for faults too
  imports               lines that begin with `use`, in hundredths

Whoever counts by hand finds some hundredths more or less: of a name with two equal definitions one may say that it has one
meaning, two definitions that differ in their variables alone may pass for different ones, the end of a file for a line, and a walk
may begin where a session reads the message. A count is compared with itself, before a change and after it.
"""

import argparse
import json
import subprocess
import sys
import tempfile
from collections.abc import Iterator
from contextlib import contextmanager
from pathlib import Path

from helpers.definitions import TOP, Unknown
from helpers.house_count import Row, counted, items_of, names, repeated
from helpers.house_made_up import check
from helpers.house_tree import House, NoCheckout


@contextmanager
def opened(name: str) -> Iterator[House]:
    """Opens a checkout: a folder, or a revision, which is written into a folder for as long as it is read."""
    if Path(name).is_dir():
        yield House(Path(name))
        return
    with tempfile.TemporaryDirectory(prefix="house-") as folder:
        archive = subprocess.run(["git", "-C", str(TOP), "archive", name], capture_output=True, check=False)
        if archive.returncode:
            raise NoCheckout(f"{name} is no folder, and no revision of {TOP}")
        subprocess.run(["tar", "-x", "-C", folder], input=archive.stdout, check=True)
        # A program that looks for what is written twice asks git for the files.
        subprocess.run(["git", "init", "--quiet", folder], check=True)
        yield House(Path(folder))


def rows_of(name: str, repeats: str) -> list[Row]:
    with opened(name) as house:
        return [*counted(house), repeated(house, repeats)]


def print_table(trees: dict[str, list[Row]]) -> None:
    """Prints a column for each tree."""
    width = max(12, *(len(it) + 2 for it in trees))
    if len(trees) > 1:
        print("".join(f"{it:>{width}}" for it in trees))
    for rows in zip(*trees.values()):
        numbers = "".join(f"{shown(it):>{width}}" for it in rows)
        print(f"{numbers}  {rows[0].name}: {rows[0].title}")


def shown(row: Row) -> str:
    return "-" if row.number is None else f"{row.number:,}"


def print_items(name: str, what: str) -> None:
    with opened(name) as house:
        for it in items_of(house, what):
            print(f"{it.path.relative_to(house.top)}:{it.line}: {it.text}")


def main() -> int:
    parser = argparse.ArgumentParser(description=__doc__, formatter_class=argparse.RawDescriptionHelpFormatter)
    parser.add_argument("tree", nargs="?", default=str(TOP), metavar="TREE")
    parser.add_argument("--list", metavar="WHAT", choices=names(), help=f"prints the items behind a count: {', '.join(names())}")
    parser.add_argument("--json", action="store_true", help="prints the counts as JSON")
    parser.add_argument("--compare", metavar="TREE", help="another checkout or revision, for a second column")
    parser.add_argument("--repeats", metavar="PROGRAM", default="",
                        help="a program that, in a checkout, prints the number of pairs of places that repeat; it takes a minute, or five on a busy machine")
    parser.add_argument("--check", action="store_true", help="tries the counts on small trees that are made up for it, and ends")
    given = parser.parse_args()
    if given.check:
        check()
    repeats = str(Path(given.repeats).resolve()) if given.repeats else ""
    try:
        if given.list:
            print_items(given.tree, given.list)
            return 0
        trees = {it: rows_of(it, repeats) for it in (given.tree, given.compare) if it}
    except (NoCheckout, Unknown) as fault:
        print(fault, file=sys.stderr)
        return 2
    if given.json:
        print(json.dumps({tree: {it.name: it.number for it in rows} for tree, rows in trees.items()}, indent=2))
    else:
        print_table(trees)
    return 0


if __name__ == "__main__":
    sys.exit(main())
