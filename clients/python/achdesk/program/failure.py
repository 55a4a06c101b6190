"""Errors that the user reads, with the exit status."""

from __future__ import annotations

import ssl
import sys

from ..company import Company
from ..errors import DeskError, InputFault, NoAnswer, Refused, shown
from ..parts import PartsFault

REFUSED, USAGE, UNAVAILABLE, FOREIGN, RESTORED, LOCAL = 1, 2, 3, 4, 5, 6
MOST_LINES = 200


class Failure(Exception):
    """An error that the user reads, with the exit status."""

    def __init__(self, status: int, text: str) -> None:
        super().__init__(text)
        self.status = status


def report(text: str) -> None:
    """Prints a message for the user, without control characters."""
    lines = text.split("\n")
    if len(lines) > MOST_LINES:
        lines[MOST_LINES:] = [f"and {len(lines) - MOST_LINES} more"]
    for line in lines:
        print(f"achdesk-company: {shown(line, 2000)}", file=sys.stderr, flush=True)


def report_retry(error: DeskError, pause: float) -> None:
    """Reports an attempt that failed and is repeated."""
    report(f"{error}; trying again in {pause:.1f} s")


def failure_of(error: DeskError, company: Company) -> Failure:
    """Returns what the user reads of an error of a call."""
    taken = "".join(f"{it.ref} is accepted. " for it in error.taken)
    if isinstance(error.__cause__, ssl.SSLCertVerificationError):
        return Failure(FOREIGN, (
            f"{error}. If the bank's own authority signed the desk's certificate, give --ca-file"))
    if error.is_temporary or isinstance(error, NoAnswer):
        may = " It may have been carried out." if error.may_have_acted else ""
        again = f"{taken}{error}.{may} Run the same command again"
        return Failure(UNAVAILABLE, f"{again} (attempts: {error.attempts})")
    if isinstance(error, Refused):
        why = company.explain(error)
        return Failure(REFUSED, f"{taken}refused: {error}" + (f". {why}" if why else ""))
    if isinstance(error, (InputFault, PartsFault)):
        return Failure(REFUSED, str(error))
    return Failure(FOREIGN, f"{taken}{error}")
