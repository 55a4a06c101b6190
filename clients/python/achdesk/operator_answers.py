"""What the desk answers to the bank's operator."""

from __future__ import annotations

import datetime
from dataclasses import dataclass
from typing import Optional, Tuple

from .company_answers import Rate


@dataclass(frozen=True)
class CompanyRates:
    """A company's three return rates."""

    unauthorized: Rate
    administrative: Rate
    overall: Rate


@dataclass(frozen=True)
class CompanyRisk:
    """A company's limits, its exposures and its return rates."""

    id: str
    name: str
    credit: int
    credit_limit: int
    debit: int
    debit_limit: int
    entry_limit: int
    rates: CompanyRates


@dataclass(frozen=True)
class Companies:
    """All companies, in the order of their identifications.

    Exposures are those of the desk day, and rates those of the 60 days that end on it.
    """

    day: datetime.date
    companies: Tuple[CompanyRisk, ...]

    def company(self, id: str) -> Optional[CompanyRisk]:
        """Returns the company with this identification, or None."""
        return next((it for it in self.companies if it.id == id), None)


@dataclass(frozen=True)
class CutMade:
    """A cut: how many entries were put into files, the files' modifiers, and lapsed retries."""

    day: datetime.date
    entries: int
    files: Tuple[str, ...]
    lapsed: int


@dataclass(frozen=True)
class ReturnsTaken:
    """A returns file that was taken, first on `day`, with its accepted items and the others."""

    day: datetime.date
    returns: int
    changes: int
    late: int
    suspense: int


@dataclass(frozen=True)
class DaySum:
    """The sum of the lines of one value day."""

    day: datetime.date
    cents: int


@dataclass(frozen=True)
class Settlement:
    """The account of the ACH operator: positive, the bank pays; negative, the bank receives."""

    day: datetime.date
    balance: int
    days: Tuple[DaySum, ...]


@dataclass(frozen=True)
class SuspenseItem:
    """An item of a returns file that matches no entry, and the reason in `why`.

    `file` is the key of its file, `item` its number there from 1, `trace` the trace it names. A
    change has 0 cents.
    """

    day: datetime.date
    file: str
    item: int
    trace: str
    code: str
    why: str
    cents: int


@dataclass(frozen=True)
class Tally:
    """How many submissions and retries, and their cents."""

    submissions: int
    cents: int


@dataclass(frozen=True)
class Held:
    """What is held: accepted, and neither sent nor lapsed."""

    credits: Tally
    debits: Tally


@dataclass(frozen=True)
class DueDay:
    """What a cut would send now that settles on `day`."""

    day: datetime.date
    credits: Tally
    debits: Tally


@dataclass(frozen=True)
class CompanyStatus:
    """A company's held and due submissions, and the retries that a cut would let lapse."""

    id: str
    name: str
    held: Held
    due: Tuple[DueDay, ...]
    lapsing: int


@dataclass(frozen=True)
class Status:
    """The desk's status. `day` is None until the first desk day is set.

    `files` has the modifiers of the day's files. `holidays`, `sent` and `suspense` are counts: of
    days in the holiday list, entries ever sent, and items in suspense. `held_records` and
    `due_records` count entry and addenda records, and `due_files` the files that a cut would make
    now; they are None if the desk does not report them, which older ones do not.
    """

    day: Optional[datetime.date]
    companies: Tuple[CompanyStatus, ...]
    files: Tuple[str, ...]
    holidays: int
    sent: int
    suspense: int
    held_records: Optional[int] = None
    due_records: Optional[int] = None
    due_files: Optional[int] = None

    def company(self, id: str) -> Optional[CompanyStatus]:
        """Returns the company with this identification, or None."""
        return next((it for it in self.companies if it.id == id), None)
