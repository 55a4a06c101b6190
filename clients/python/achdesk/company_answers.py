"""What the desk answers to a company."""

from __future__ import annotations

import datetime
from dataclasses import dataclass
from typing import Dict, Optional, Tuple

from .codes import correction


@dataclass(frozen=True)
class Accepted:
    """An accepted submission or retry. `order` is its number among the company's, from 1."""

    ref: str
    order: int
    entries: int
    cents: int


@dataclass(frozen=True)
class FoundEntry:
    """An entry of a submission, numbered from 1, and its state.

    `state` is `held`, `lapsed`, `sent` or `returned`. `sent` means that the entry is in a file, and
    `settled` is the day on which it settles. A returned entry also has the return's `code`, the day
    on which the bank took it (`returned`), and whether that was after its deadline (`late`).
    """

    index: int
    cents: int
    state: str
    settled: Optional[datetime.date]
    returned: Optional[datetime.date]
    code: Optional[str]
    late: Optional[bool]


@dataclass(frozen=True)
class Found:
    """A submission or retry that was looked up. Only a retry has `of` and `of_index`."""

    ref: str
    order: int
    sec: str
    direction: str
    day: datetime.date
    cents: int
    entries: Tuple[FoundEntry, ...]
    of: Optional[str]
    of_index: Optional[int]


@dataclass(frozen=True)
class Return:
    """A return of the entry `index` of the submission `ref`, taken on `day`."""

    ref: str
    index: int
    code: str
    day: datetime.date
    late: bool
    info: str


@dataclass(frozen=True)
class Change:
    """A notification of change. `text` is the corrected data, with all 29 characters."""

    ref: str
    index: int
    code: str
    day: datetime.date
    text: str

    def correction(self) -> Dict[str, str]:
        """Returns the values to correct, by columns of a list of entries.

        It is empty for codes that correct nothing in a list (C08 and C10 to C14).
        """
        return correction(self.code, self.text)


@dataclass(frozen=True)
class Line:
    """A line of the company's account: a `cut` (index 0), or the `return` of the entry `index`.

    Negative `cents` are owed by the company. The line counts from `day` on.
    """

    day: datetime.date
    cause: str
    ref: str
    index: int
    cents: int


@dataclass(frozen=True)
class Statement:
    """The company's account: all lines, and the balance on the desk day."""

    day: datetime.date
    balance: int
    lines: Tuple[Line, ...]


@dataclass(frozen=True)
class Rate:
    """A return rate: `n` returns of `d` debits, and whether it exceeds Nacha's level."""

    n: int
    d: int
    over: bool


@dataclass(frozen=True)
class Rates:
    """The three return rates of the 60 days that end on the desk day."""

    day: datetime.date
    unauthorized: Rate
    administrative: Rate
    overall: Rate


@dataclass(frozen=True)
class Exposure:
    """The company's exposures on the desk day, and its limits."""

    day: datetime.date
    credit: int
    credit_limit: int
    debit: int
    debit_limit: int
    entry_limit: int
