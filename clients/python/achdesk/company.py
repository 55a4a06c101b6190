"""The calls of a company."""

from __future__ import annotations

import datetime
import re
from dataclasses import dataclass
from typing import Dict, Optional, Sequence, Tuple

from .caller import Caller, Request, get, iso, post
from .company_answers import Accepted, Change, Exposure, Found, Rates, Return, Statement
from .csv_list import checked_list
from .entries import Entry
from .errors import InputFault, Refused
from .explain import explanation
from .parts import submit_parts
from .sent import Sent, SentEntries, SentRetry
from .settings import Settings


@dataclass(frozen=True)
class _Returns:
    returns: Tuple[Return, ...]


@dataclass(frozen=True)
class _Changes:
    changes: Tuple[Change, ...]


class Company(Caller):
    """The calls of one company. `key` is the key that the bank gave to it.

    All of them can be repeated. Apart from the errors that the module lists, each raises `Refused`
    with `Denied` if the key does not fit.
    """

    def __init__(
        self, url: str, company: str, key: str, settings: Optional[Settings] = None
    ) -> None:
        """Raises `InputFault`: `bad company`, `bad key` or `bad url`. No request is made yet."""
        if not re.fullmatch("[A-Z0-9]{1,10}", company):
            raise InputFault("bad company")
        super().__init__(url, key, settings)
        self._path = f"/c/{company}"

    def __enter__(self) -> Company:
        return self

    def submit(
        self,
        entries: Sequence[Entry],
        *,
        ref: str,
        sec: str,
        direction: str,
        description: str,
        day: datetime.date,
    ) -> Accepted:
        """Submits entries under a reference of the company's own.

        `sec` is `PPD` (accounts of persons) or `CCD` (of companies), `direction` is `credit` or
        `debit`, `description` is what receivers read, and `day` the day asked for. The same
        reference with the same content is answered as it was the first time; with other content it
        is refused as `RefReused`.
        """
        return self.send(SentEntries(ref, sec, direction, description, _date(day), tuple(entries)))

    def submit_csv(
        self,
        data: bytes,
        *,
        ref: str,
        sec: str,
        direction: str,
        description: str,
        day: datetime.date,
    ) -> Accepted:
        """Submits a list in CSV: what `checked_list` returns.

        Raises `ListFault`, and makes no request, if the list has a fault.
        """
        it = checked_list(data)
        return self.send(
            SentEntries(ref, sec, direction, description, _date(day), it.entries, it.lines))

    def submit_in_parts(
        self,
        data: bytes,
        *,
        ref: str,
        sec: str,
        direction: str,
        description: str,
        day: datetime.date,
    ) -> Tuple[Accepted, ...]:
        """Submits a list in CSV of any length, 1,000 entries under each of REF.1, REF.2 and so on.

        The same call again submits the parts that are left, and each part is taken once. Raises
        `PartsFault` before the first part if an earlier list under `ref` does not fit this one, or
        if a limit or the day would refuse a part. After an error, `taken` of it has the parts that
        were accepted.
        """
        it = checked_list(data)
        return submit_parts(
            self, SentEntries(ref, sec, direction, description, _date(day), it.entries, it.lines))

    def send(self, sent: SentEntries) -> Accepted:
        """Submits entries, as `submit` does."""
        members = {
            "ref": sent.ref, "sec": sent.sec, "direction": sent.direction,
            "description": sent.description, "day": iso(sent.day),
            "entries": [it.body() for it in sent.entries],
        }
        return self._send(post(f"{self._path}/submissions", members), sent)

    def retry(
        self,
        *,
        ref: str,
        of: str,
        index: int,
        day: datetime.date,
        authorized: Optional[datetime.date] = None,
    ) -> Accepted:
        """Asks to collect a returned debit again: the entry `index` of the submission `of`.

        `ref` is a new reference of the company's own. `authorized` is the day of a new
        authorization, which a stopped payment (R08) needs.
        """
        members: Dict[str, object] = {"ref": ref, "of": of, "index": index, "day": iso(day)}
        if authorized is not None:
            members["authorized"] = iso(authorized)
        sent = SentRetry(ref, of, index, _date(day), authorized)
        return self._send(post(f"{self._path}/retries", members), sent)

    def _send(self, request: Request, sent: Sent) -> Accepted:
        try:
            return self._read(request, Accepted, ref=sent.ref)
        except Refused as refused:
            refused.sent = sent
            raise

    def explain(self, refused: Refused) -> str:
        """Returns sentences on a refusal for a person, or an empty text.

        They have the desk day and the company's limits, which are read by further calls.
        """
        return explanation(self, refused)

    def look_up(self, ref: str) -> Found:
        """Returns a submission or retry with the state of each entry.

        Raises `Refused` with `NoReference` if the company has none with this reference, and
        `InputFault` if the text cannot be a reference.
        """
        if not re.fullmatch("[A-Za-z0-9._-]{1,20}", ref):
            raise InputFault("bad ref")
        return self._read(get(f"{self._path}/submissions/{ref}"), Found, ref=ref)

    def returns(self) -> Tuple[Return, ...]:
        """Returns all returns of the company's entries, oldest first."""
        return self._read(get(f"{self._path}/returns"), _Returns).returns

    def changes(self) -> Tuple[Change, ...]:
        """Returns all notifications of change to the company's entries, oldest first."""
        return self._read(get(f"{self._path}/changes"), _Changes).changes

    def statement(self) -> Statement:
        """Returns the company's account."""
        return self._read(get(f"{self._path}/statement"), Statement)

    def rates(self) -> Rates:
        """Returns the company's return rates."""
        return self._read(get(f"{self._path}/rates"), Rates)

    def exposure(self) -> Exposure:
        """Returns the company's exposures and limits."""
        return self._read(get(f"{self._path}/exposure"), Exposure)


def _date(day: datetime.date) -> datetime.date:
    return datetime.date(day.year, day.month, day.day)
