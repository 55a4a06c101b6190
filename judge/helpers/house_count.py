"""The counts of the house: each with its name, what it counts, and its items or its number."""

import subprocess
from collections.abc import Callable
from dataclasses import dataclass

from helpers import house_code as code
from helpers import house_words as words
from helpers.house_tree import House, Item
from helpers.house_walks import WALKS, Walk, walk_of

Number = int | float


@dataclass(frozen=True)
class Count:
    """A count: its name, what it counts, and how its items are found."""

    name: str
    title: str
    items: Callable[[House], list[Item]]


COUNTS = (
    Count("one-use", "definitions of at most three lines with one use", words.one_use),
    Count("one-clause", "of them: used by a clause", words.of_one_clause),
    Count("fact-names", "names of facts with two meanings", words.two_meanings_of_facts),
    Count("names", "names of abbreviations with two meanings, without the parallels of history and book", words.two_meanings),
    Count("other-names", "other names with two meanings: of records, data, plain definitions", words.other_names),
    Count("equal", "groups of equal definitions", words.equal_definitions),
    Count("proofs-alone", "definitions that no clause rests on", words.proofs_alone),
    Count("arguments", "clauses that begin with a word of seven or more arguments", words.many_arguments),
    Count("arguments-inside", "other clauses that have such a word", words.many_arguments_inside),
    Count("types", "Rust type names used twice", code.types_twice),
    Count("constants", "constants twice", code.constants_twice),
    Count("bytes", "lines with `.bytes() ==`", code.bytes_compared),
    Count("returned", "`let x = ..?; Ok(x)`", code.returned_at_once),
    Count("small-sources", "source files under 40 lines, of the product", code.small_sources),
    Count("small-sources-with-tests", "source files under 40 lines, with tests", code.small_sources_with_tests),
    Count("small-specs", "files of definitions under 25 lines", code.small_specs),
    Count("crates", "crates", code.crates),
)


@dataclass(frozen=True)
class Row:
    """A line of the table. A number that cannot be counted here is None, and the reason follows the title."""

    name: str
    title: str
    number: Number | None


def counted(house: House) -> list[Row]:
    """Counts a checkout, but for what is written twice."""
    rows = [Row(it.name, it.title, len(it.items(house))) for it in COUNTS]
    rows += [row for walk in WALKS for row in walked(house, walk)]
    return rows + [
        Row("imports", "imports, in hundredths of the product's lines of code", code.import_share(house.product)),
        Row("imports-of-specs", "imports, in hundredths of the lines of definitions", code.import_share(house.all_specs)),
        Row("lines-of-code", "lines of the product's code", code.line_count(house.product)),
        Row("lines-of-specs", "lines of definitions", code.line_count(house.all_specs)),
        Row("lines-of-proofs", "lines of proofs", code.line_count(house.proofs())),
    ]


def walked(house: House, walk: Walk) -> list[Row]:
    """Counts a walk: its functions, their files and crates, and how many functions are of the SQL layer."""
    functions = walk_of(house, walk)
    paths = {it.path for it in functions}
    of_sql = [it for it in functions if it.crate.startswith("sql_")]
    return [
        Row(walk.name, f"functions on the walk of {walk.title}", len(functions)),
        Row(f"{walk.name}-files", "its files", len(paths)),
        Row(f"{walk.name}-crates", "its crates", len({it.crate for it in functions})),
        Row(f"{walk.name}-sql", "its functions of the SQL layer", len(of_sql)),
    ]


def repeated(house: House, program: str) -> Row:
    """Counts what is written twice by a program that runs inside the checkout, takes `--most ROWS` and `--seconds BOUND`, and prints
    the number of pairs first. A busy machine may not get to the end."""
    title = "pairs of places that repeat"
    if not program:
        return Row("repeats", f"{title}: not counted, since --repeats names no program", None)
    try:
        ran = subprocess.run([program, "--most", "1", "--seconds", "600"], cwd=house.top, capture_output=True, text=True, check=False)
    except OSError as fault:
        return Row("repeats", f"{title}: not counted: {fault}", None)
    first, printed = ran.stdout.split(" ", 1)[0], ran.stdout + ran.stderr
    left = [line for line in printed.splitlines() if line.startswith("incomplete")]
    if first.isdigit() and not left:
        return Row("repeats", title, int(first))
    why = left[0] if left else " ".join(printed.split())[:80] or "the program printed nothing"
    return Row("repeats", f"{title}: not counted: {why}", None)


def items_of(house: House, name: str) -> list[Item]:
    """Returns the items behind a count or a walk."""
    for walk in WALKS:
        if name == walk.name:
            return [Item(it.path, it.line, it.full_name) for it in walk_of(house, walk)]
    return next(it for it in COUNTS if it.name == name).items(house)


def names() -> list[str]:
    """Returns the names that have items to be listed."""
    return [*(it.name for it in COUNTS), *(it.name for it in WALKS)]
