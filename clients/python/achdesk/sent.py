"""What a company sent, as an explanation of its refusal needs it."""

from __future__ import annotations

import datetime
from dataclasses import dataclass
from typing import Optional, Tuple, Union

from .entries import Entry


@dataclass(frozen=True)
class SentEntries:
    """A submission. `lines` has the line of each entry, if a list was submitted."""

    ref: str
    sec: str
    direction: str
    description: str
    day: datetime.date
    entries: Tuple[Entry, ...]
    lines: Tuple[int, ...] = ()

    def place(self, index: int) -> str:
        """Returns where the entry of this number, from 1, was read."""
        if index <= len(self.lines):
            return f"line {self.lines[index - 1]}"
        return f"entry {index}"

    def total(self) -> int:
        """Returns the sum of the entries in cents."""
        return sum(it.cents for it in self.entries)


@dataclass(frozen=True)
class SentRetry:
    """A retry."""

    ref: str
    of: str
    index: int
    day: datetime.date
    authorized: Optional[datetime.date]


Sent = Union[SentEntries, SentRetry]
