"""The desk, called by the client library that companies and operators use."""

from __future__ import annotations

import datetime
import ssl
from collections.abc import Callable
from typing import TypeVar

import achdesk

from achdesk_day.hooks import step
from achdesk_day.settings import Settings, read_key
from achdesk_day.stops import Misused, NoAnswer, Rejected, Stop, Unavailable

T = TypeVar("T")


class Desk:
    """Calls the desk, itself or through its proxy.

    Calls that have no effect the second time are repeated for `[desk] timeout` seconds and those of `--wait`; with
    `is_brief` each is sent once.
    """

    def __init__(self, settings: Settings, key_file: str | None = None, wait: int = 0, is_brief: bool = False) -> None:
        self.url = settings.needed("desk", "url")
        self.key_file = key_file or settings.needed("desk", "key_file")
        timeout, trust = settings.number("desk", "timeout"), settings["desk"]["ca_file"]
        try:
            tls = ssl.create_default_context(cafile=trust) if trust else None
            how = achdesk.Settings(timeout=timeout, total_seconds=0 if is_brief else timeout + wait, tls=tls)
            self.operator = achdesk.Operator(self.url, read_key(self.key_file), how)
        except achdesk.InputFault as fault:
            raise Misused(f"{settings.path}: [desk] {fault}") from None
        except OSError as fault:
            raise Misused(f"[desk] ca_file {trust} cannot be read: {fault}") from None

    def status(self) -> achdesk.Status:
        return self._call("GET /ops/status", self.operator.status)

    def companies(self) -> achdesk.Companies:
        return self._call("GET /ops/companies", self.operator.companies)

    def suspense(self) -> tuple[achdesk.SuspenseItem, ...]:
        return self._call("GET /ops/suspense", self.operator.suspense)

    def settlement(self) -> achdesk.Settlement:
        return self._call("GET /ops/settlement", self.operator.settlement)

    def set_day(self, day: datetime.date) -> None:
        self._call("POST /ops/day", lambda: self.operator.set_day(day))

    def set_holidays(self, days: list[datetime.date]) -> None:
        self._call("POST /ops/holidays", lambda: self.operator.set_holidays(days))

    def take_returns(self, text: bytes) -> achdesk.ReturnsTaken:
        return self._call("POST /ops/returns", lambda: self.operator.take_returns(text))

    def cut(self) -> achdesk.CutMade:
        """Cuts once. After `NoAnswer` the cut may have been made."""
        return self._call("POST /ops/cut", self.operator.cut)

    def file(self, name: str) -> bytes | None:
        """Returns the bytes of a file that a cut made, or None if there is none."""
        day, modifier = datetime.date.fromisoformat(name[:10]), name[11]
        try:
            return self._call(f"GET /ops/files/{day}/{modifier}", lambda: self.operator.file(day, modifier))
        except Rejected as stop:
            if stop.name == "NoFile":
                return None
            raise

    def _call(self, what: str, call: Callable[[], T]) -> T:
        step()
        try:
            answer = call()
        except achdesk.DeskError as fault:
            raise self._stop(what, fault) from None
        step()
        return answer

    def _stop(self, what: str, fault: achdesk.DeskError) -> Stop:
        """Returns how a call's error ends the command: a refusal, or a call that was not or was perhaps carried out."""
        said = f"{what}: {fault}"
        if isinstance(fault, achdesk.InputFault):
            return Misused(said)
        if isinstance(fault.__cause__, ssl.SSLCertVerificationError):
            return Misused(f"the certificate of {self.url} is not trusted: {fault.__cause__.verify_message}")
        if isinstance(fault, achdesk.Refused) and fault.status == 403:
            return Misused(f"{said}: the key in {self.key_file} is not accepted")
        if isinstance(fault, achdesk.Refused) and not fault.is_temporary:
            return Rejected(f"{what} was refused: {refusal(fault)}", fault.name, refusal(fault))
        if isinstance(fault, achdesk.ForeignAnswer) and fault.status < 400 and what.startswith("GET"):
            return Misused(f"{self.url} is not a desk: {said}")
        if fault.may_have_acted or isinstance(fault, achdesk.ForeignAnswer) and fault.status >= 500:
            return NoAnswer(said)
        is_down = isinstance(fault, achdesk.NoAnswer)
        return Unavailable(f"{self.url} cannot be reached: {said}" if is_down else said)


def refusal(fault: achdesk.Refused) -> str:
    """Returns the name of a refusal, with the fault and where it is."""
    told = (fault.name, fault.fault, fault.record, fault.row, fault.field)
    return " ".join(str(it) for it in told if it is not None)
