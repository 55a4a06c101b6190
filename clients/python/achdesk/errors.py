"""The errors of a call."""

from __future__ import annotations

from typing import TYPE_CHECKING, Dict, Mapping, Optional, Tuple

if TYPE_CHECKING:
    from .company_answers import Accepted
    from .sent import Sent

TEMPORARY = frozenset({429, 502, 503, 504})
LONGEST_TEXT = 600


def shown(text: str, longest: int = LONGEST_TEXT) -> str:
    """Returns a text as a terminal may print it: without control characters, and not too long."""
    kept = text if len(text) <= longest else f"{text[:longest]} .."
    return "".join(it if it.isprintable() else "?" for it in kept)


class DeskError(Exception):
    """An error of one call.

    `attempts` is how often the request was sent. `is_temporary` is True if the same call may
    succeed later; `retry_after` is how many seconds to wait before, if the answer said so, or 0.

    `may_have_acted` is True if an attempt was sent and the desk's own answer to it did not arrive:
    the desk may have carried it out, or may still do so. `settles_in` is how many seconds, from
    when the error was raised, a proxy may still keep such a request before the desk gets it. After
    such an error make the same call again; for `Operator.cut`, wait so long, and read
    `Operator.status` first.

    `taken` lists the parts of `Company.submit_in_parts` that were accepted before the error.
    """

    def __init__(self, text: str, *, may_have_acted: bool = False) -> None:
        super().__init__(text)
        self.attempts = 0
        self.may_have_acted = may_have_acted
        self.settles_in = 0.0
        self.is_temporary = False
        self.retry_after = 0.0
        self.taken: Tuple[Accepted, ...] = ()


class Refused(DeskError):
    """The desk, or the proxy in front of it, refused the call.

    A refusal of the desk changes nothing. `status` is the HTTP status and `name` the refusal, such
    as `EntryLimit`. Faults of the message (`Denied`, `NoReference`, `Unavailable` and others) have
    no `number`. The other members are set by some refusals only:

    - `BadField`: `field`, and `index`, the number of the entry from 1, or 0 for the whole body;
    - `NotRetryable`: `code`, the return code;
    - `BadFile`: `fault`, and `record`, the number of the record from 1;
    - `BadCalendar`: `fault`, and `row`, the number of the row from 1 (0 for `TooMany`).

    `sent` is the submission or retry that was refused, for `Company.explain`.
    """

    def __init__(self, status: int, body: Mapping[str, object]) -> None:
        self.status = status
        self.sent: Optional[Sent] = None
        self.body: Dict[str, object] = dict(body)
        self.name = str(body["error"])
        self.number = _int_or_none(body.get("number"))
        self.field = _str_or_none(body.get("field"))
        self.index = _int_or_none(body.get("index"))
        self.code = _str_or_none(body.get("code"))
        self.fault = _str_or_none(body.get("fault"))
        self.record = _int_or_none(body.get("record"))
        self.row = _int_or_none(body.get("row"))
        # The desk answers 503 before it has changed anything. Any other answer from 500 on is
        # that of a gateway, which may have sent the request on.
        is_of_the_desk = status < 500 or (status, self.name) == (503, "Unavailable")
        super().__init__(shown(self._text()), may_have_acted=not is_of_the_desk)
        self.is_temporary = status in TEMPORARY

    def _text(self) -> str:
        number = "" if self.number is None else f" (refusal {self.number})"
        more = [
            f"{name} {value}"
            for name, value in (
                ("field", self.field), ("entry", self.index or None), ("code", self.code),
                ("fault", self.fault), ("record", self.record), ("row", self.row),
            )
            if value is not None
        ]
        return f"{self.name}{number}, status {self.status}" + "".join(f", {it}" for it in more)


def _int_or_none(value: object) -> Optional[int]:
    return value if isinstance(value, int) else None


def _str_or_none(value: object) -> Optional[str]:
    return value if isinstance(value, str) else None


class NoAnswer(DeskError):
    """No complete answer arrived in the given time. The cause is in `__cause__`."""

    def __init__(self, why: str, *, may_have_acted: bool, is_temporary: bool = True) -> None:
        super().__init__(shown(f"no answer: {why}"), may_have_acted=may_have_acted)
        self.is_temporary = is_temporary


class ForeignAnswer(DeskError):
    """Something other than the desk answered: the body is not one of the desk's.

    Usually this is a proxy with a page of its own. `body` holds the first 2,000 bytes.
    """

    def __init__(self, status: int, content_type: str, body: bytes) -> None:
        self.status = status
        self.content_type = content_type
        self.body = body[:2000]
        text = (f"status {status} with {content_type or 'no content type'}, which is not an answer "
                f"of the desk: {self.body[:80]!r}")
        super().__init__(shown(text), may_have_acted=status < 400 or status >= 500)
        self.is_temporary = status in TEMPORARY


class InputFault(DeskError, ValueError):
    """No request was made, because what was given is malformed.

    `name` says what is wrong, such as `bad company` or `bad key`.
    """

    def __init__(self, name: str, text: str = "") -> None:
        super().__init__(text or name)
        self.name = name
