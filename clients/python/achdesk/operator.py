"""The calls of the bank's operator."""

from __future__ import annotations

import datetime
import re
from dataclasses import dataclass
from typing import Callable, Iterable, Optional, Tuple, Union

from .caller import Caller, Request, foreign, get, iso, post
from .errors import DeskError, InputFault, Refused
from .link import Answer
from .operator_answers import (
    Companies, CutMade, ReturnsTaken, Settlement, Status, SuspenseItem,
)
from .reading import json_of
from .settings import Settings


@dataclass(frozen=True)
class _DaySet:
    day: datetime.date


@dataclass(frozen=True)
class _HolidaysSet:
    holidays: int


@dataclass(frozen=True)
class _CompanySet:
    id: str


@dataclass(frozen=True)
class _Items:
    items: Tuple[SuspenseItem, ...]


class Operator(Caller):
    """The calls of the bank's operator. `key` is the operator's key."""

    def __init__(self, url: str, key: str, settings: Optional[Settings] = None) -> None:
        """Raises `InputFault`: `bad key` or `bad url`. No request is made yet."""
        super().__init__(url, key, settings)

    def __enter__(self) -> Operator:
        return self

    def status(self) -> Status:
        """Returns the desk's status: its day, and what each company has held and due."""
        return self._read(get("/ops/status"), Status)

    def companies(self) -> Companies:
        """Returns every company with its limits, exposures and return rates.

        Raises `Refused` with `NoDay` before the first desk day.
        """
        return self._read(get("/ops/companies"), Companies)

    def set_day(self, day: datetime.date) -> datetime.date:
        """Sets the desk day, which cannot be taken back, and returns it.

        If an answer was lost and the next attempt is refused as `DayNotLater`, the call is done if
        the status shows this day.
        """
        try:
            return self._read(post("/ops/day", {"day": iso(day)}), _DaySet, day=_date(day)).day
        except Refused as refused:
            if not self._is_done(refused, "DayNotLater", lambda it: it.day == _date(day)):
                raise
        return _date(day)

    def set_holidays(self, days: Union[bytes, Iterable[datetime.date]]) -> int:
        """Replaces the holiday list, and returns how many days it has.

        `days` are ascending dates, or such a list as CSV with one date in each row.
        """
        if not isinstance(days, bytes):
            days = "".join(f"{iso(day)}\n" for day in days).encode()
        request = Request("POST", "/ops/holidays", days, "text/csv")
        return self._read(request, _HolidaysSet).holidays

    def add_company(
        self, *, id: str, name: str, key: str, entry_limit: int, credit_limit: int, debit_limit: int
    ) -> None:
        """Registers a company with its key and its limits in cents.

        If an answer was lost and the next attempt is refused as `CompanyExists`, the call is done
        if the status shows a company with this identification and name.
        """
        members = {
            "id": id, "name": name, "key": key, "entry_limit": entry_limit,
            "credit_limit": credit_limit, "debit_limit": debit_limit,
        }
        try:
            self._read(post("/ops/companies", members), _CompanySet, id=id)
        except Refused as refused:
            if not self._is_done(refused, "CompanyExists", lambda it: _shows(it, id, name)):
                raise

    def set_limits(self, *, id: str, entry_limit: int, credit_limit: int, debit_limit: int) -> None:
        """Sets all three limits of a company, in cents."""
        members = {
            "id": id, "entry_limit": entry_limit, "credit_limit": credit_limit,
            "debit_limit": debit_limit,
        }
        self._read(post("/ops/limits", members), _CompanySet, id=id)

    def cut(self) -> CutMade:
        """Puts all that is due into files, and returns how much that was.

        The files are made and not transmitted: fetch each with `file`, and transmit it. This call
        is never repeated by itself, since a second cut also takes what became due in between. After
        an error with `may_have_acted`, wait for the seconds of its `settles_in`: until then a proxy
        may still pass the cut on to the desk. Then read `status`: its `files` show whether files
        were made.
        """
        return self._read(Request("POST", "/ops/cut", is_repeated=False), CutMade)

    def take_returns(self, data: bytes) -> ReturnsTaken:
        """Posts a file of returns and notifications of change, whole or not at all.

        The same file again has no effect and is answered as it was the first time.
        """
        return self._read(Request("POST", "/ops/returns", data, "text/plain"), ReturnsTaken)

    def file(self, day: datetime.date, modifier: str) -> bytes:
        """Returns the bytes of the file that a cut of this desk day made under this modifier.

        Raises `Refused` with `NoFile` if there is no such file, and `InputFault` if the modifier is
        not one of A to Z and 0 to 9.
        """
        if not re.fullmatch("[A-Z0-9]", modifier):
            raise InputFault("bad modifier")

        def text_of(answer: Answer) -> bytes:
            if not answer.content_type.startswith("text/plain"):
                raise foreign(answer)
            return answer.body

        return self._ask(get(f"/ops/files/{iso(day)}/{modifier}"), text_of)

    def settlement(self) -> Settlement:
        """Returns the account of the ACH operator, by value day."""
        return self._read(get("/ops/settlement"), Settlement)

    def suspense(self) -> Tuple[SuspenseItem, ...]:
        """Returns all items in suspense, oldest first."""
        return self._read(get("/ops/suspense"), _Items).items

    def read(self, path: str) -> object:
        """Returns what a GET of a path such as `/ops/status` is answered with, as JSON.

        It has the members that this version of the library does not know, too.
        """
        if not re.fullmatch("/[!-~]*", path):
            raise InputFault("bad path")

        def value_of(answer: Answer) -> object:
            value = json_of(answer.body)
            if value is None:
                raise foreign(answer)
            return value

        return self._ask(get(path), value_of)

    def _is_done(self, refused: Refused, name: str, shows: Callable[[Status], bool]) -> bool:
        """Says whether a refused call was done by an earlier attempt whose answer was lost."""
        if refused.name != name or not refused.may_have_acted:
            return False
        try:
            return shows(self.status())
        except DeskError as error:
            raise refused from error


def _date(day: datetime.date) -> datetime.date:
    return datetime.date(day.year, day.month, day.day)


def _shows(status: Status, id: str, name: str) -> bool:
    company = status.company(id)
    return company is not None and company.name == name
