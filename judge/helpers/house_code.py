"""Counts of the code and of the files."""

import re
from collections import defaultdict
from pathlib import Path

from helpers.house_tree import House, Item, code_of, lines_of

SMALL_SOURCE = 40
SMALL_SPECS = 25
TYPE = re.compile(r"^\s*(?:pub(?:\([\w:]+\))? )?(?:struct|enum|trait) (\w+)", re.M)
COMPARED = re.compile(r"\.bytes\(\) ==")
RETURNED = re.compile(r"let (\w+) = [^;]*\?;\s*Ok\(\1\)")
NAMED_NUMBER = re.compile(r"\bconst (\w+): [^=;]+ = (\d[\d_]*)(?:[iu]\w+)?;")
IMPORT = re.compile(r"\s*(?:pub(?:\([\w:]+\))? )?(?:ghost )?use ")
DEFINED_NUMBER = re.compile(r"([\w']+) : ℕ\n\1 = (\d[\d_]*)")


def types_twice(house: House) -> list[Item]:
    """Finds the names that several structs, enums and traits of the product have."""
    by_name: dict[str, list[Item]] = defaultdict(list)
    for path in house.product:
        code = code_of(path)
        for at in TYPE.finditer(code):
            by_name[at[1]].append(Item(path, line_at(code, at.start(1)), at[1]))
    return [joined(house, items) for _, items in sorted(by_name.items()) if len(items) > 1]


def bytes_compared(house: House) -> list[Item]:
    """Finds the lines of the product that compare the bytes of two values."""
    return [Item(path, number, line.strip()) for path in house.product
            for number, line in enumerate(lines_of(path), 1) if COMPARED.search(line)]


def returned_at_once(house: House) -> list[Item]:
    """Finds the values that are given a name only to be returned."""
    found = []
    for path in house.product:
        code = code_of(path)
        found += [Item(path, line_at(code, at.start()), f"let {at[1]}") for at in RETURNED.finditer(code)]
    return found


# ---- constants ----

def is_round(number: int) -> bool:
    """A small number, a power of ten or the size of a room may be meant twice by chance."""
    is_power_of_two = number & (number - 1) == 0
    return number < 30 or re.fullmatch("10*", str(number)) is not None or is_power_of_two and number < 1 << 20


def constants_twice(house: House) -> list[Item]:
    """Finds the numbers that two constants of the product's code name, or two definitions."""
    in_code: dict[int, list[Item]] = defaultdict(list)
    defined: dict[int, list[Item]] = defaultdict(list)
    for path in house.product:
        code = code_of(path)
        for at in NAMED_NUMBER.finditer(code):
            in_code[value_of(at[2])].append(Item(path, line_at(code, at.start(1)), at[1]))
    for own in house.definitions:
        if number := DEFINED_NUMBER.search(own.text):
            defined[value_of(number[2])].append(house.item(own))
    found = []
    for value in sorted(in_code.keys() | defined.keys()):
        items = [it for named in (in_code[value], defined[value]) if len(named) > 1 for it in named]
        if items and not is_round(value):
            found.append(joined(house, items, f"{value:,}: "))
    return found


def value_of(text: str) -> int:
    return int(text.replace("_", ""))


# ---- files ----

def small_sources(house: House) -> list[Item]:
    return small(house.product, SMALL_SOURCE)


def small_sources_with_tests(house: House) -> list[Item]:
    return small(house.sources, SMALL_SOURCE)


def small_specs(house: House) -> list[Item]:
    return small(house.specs, SMALL_SPECS)


def small(paths: list[Path], bound: int) -> list[Item]:
    sized = [(len(lines_of(path)), path) for path in paths]
    return [Item(path, 1, f"{count} lines") for count, path in sized if count < bound]


def crates(house: House) -> list[Item]:
    return [Item(it, 1, it.name) for it in sorted(house.crates.iterdir()) if (it / "src").is_dir()]


def import_share(paths: list[Path]) -> float:
    """Returns which part of the lines begins with `use`, in hundredths."""
    lines = [line for path in paths for line in lines_of(path)]
    return round(100 * sum(1 for line in lines if IMPORT.match(line)) / max(1, len(lines)), 1)


def line_count(paths: list[Path]) -> int:
    return sum(len(lines_of(path)) for path in paths)


# ---- items ----

def line_at(text: str, place: int) -> int:
    return text.count("\n", 0, place) + 1


def joined(house: House, items: list[Item], head: str = "") -> Item:
    """Makes one item of several, at the place of the first."""
    first, *others = items
    places = ", ".join(f"{it.text} {it.path.relative_to(house.crates)}:{it.line}" for it in others)
    return Item(first.path, first.line, f"{head}{first.text}, also {places}")
