"""Entries, and the bounds of their fields."""

from __future__ import annotations

import re
from dataclasses import dataclass
from typing import Callable, Dict, Iterator, Optional, Tuple

from .errors import shown

MOST_ENTRIES = 1_000
MOST_CENTS = 9_999_999_999
COLUMNS = ("routing", "account", "kind", "prenote", "cents", "id", "name", "info")
WEIGHTS = (3, 7, 1, 3, 7, 1, 3, 7)


@dataclass(frozen=True)
class Entry:
    """An entry of a submission: one receiver, with an amount, or a prenote with 0 cents."""

    routing: str
    account: str
    kind: str
    cents: int
    id: str
    name: str
    prenote: bool = False
    info: Optional[str] = None

    def body(self) -> Dict[str, object]:
        """Returns the entry as the desk reads it. A prenote of False and no info are left out."""
        members: Dict[str, object] = {
            "routing": self.routing, "account": self.account, "kind": self.kind,
            "cents": self.cents, "id": self.id, "name": self.name,
        }
        if self.prenote:
            members["prenote"] = True
        if self.info is not None:
            members["info"] = self.info
        return members

    def faults(self) -> Iterator[Tuple[str, str]]:
        """Returns each column that the desk refuses, and why, in the order of the desk's checks."""
        for column, check in CHECKS:
            why = check(self)
            if why:
                yield column, why


def quoted(value: object) -> str:
    """Returns a value in quotation marks, as a message shows it."""
    return f'"{shown(str(value), 60)}"'


def _routing(entry: Entry) -> str:
    if not re.fullmatch("[0-9]{9}", entry.routing):
        return f"{quoted(entry.routing)} is not a routing number of nine digits"
    total = sum(weight * int(digit) for weight, digit in zip(WEIGHTS, entry.routing))
    last = -total % 10
    if int(entry.routing[8]) != last:
        return (f"{quoted(entry.routing)} is not a routing number: after {entry.routing[:8]} the "
                f"ninth digit is {last}")
    return ""


def _kind(entry: Entry) -> str:
    if entry.kind in ("checking", "savings"):
        return ""
    return f"{quoted(entry.kind)} is neither checking nor savings"


def _cents(entry: Entry) -> str:
    if entry.prenote:
        return "" if entry.cents == 0 else f"{quoted(entry.cents)} is not 0, as a prenote has"
    if 1 <= entry.cents <= MOST_CENTS:
        return ""
    return f"{quoted(entry.cents)} is not 1 to {MOST_CENTS} cents; only a prenote has 0"


def _text_of(value: str, least: int, most: int) -> str:
    """Says why a text is not one of so many characters from blank to ~."""
    if not value and least == 0:
        return ""
    bound = f"{least} to {most} characters"
    if not least <= len(value) <= most:
        return f"{quoted(value)} has {len(value)} characters; it takes {bound}"
    other = re.search("[^ -~]", value)
    if other:
        return f"{quoted(value)} has {other[0]!a}; it takes {bound} of ASCII, from blank to ~"
    if value != value.strip(" "):
        return f"{quoted(value)} begins or ends with a blank"
    return ""


Check = Callable[[Entry], str]
# In the order in which the desk checks them.
CHECKS: Tuple[Tuple[str, Check], ...] = (
    ("routing", _routing),
    ("account", lambda it: _text_of(it.account, 1, 17)),
    ("kind", _kind),
    ("cents", _cents),
    ("id", lambda it: _text_of(it.id, 0, 15)),
    ("name", lambda it: _text_of(it.name, 1, 22)),
    ("info", lambda it: "" if it.info is None else _text_of(it.info, 1, 80)),
)
