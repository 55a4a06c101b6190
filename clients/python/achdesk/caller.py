"""Requests to one address with one key, and their repetition."""

from __future__ import annotations

import datetime
import http.client
import json
import random
import re
import socket
import ssl
import time
import urllib.parse
from dataclasses import dataclass
from types import TracebackType
from typing import Callable, Mapping, Optional, Type, TypeVar

from .errors import DeskError, ForeignAnswer, InputFault, NoAnswer, Refused
from .link import Answer, Bounds, Link, TooLong
from .reading import Mismatch, json_of, value_of
from .settings import Settings
from .version import __version__

FIRST_PAUSE = 0.5
LONGEST_PAUSE = 30.0
# No further attempt begins if less than this is left of the total time.
SHORTEST_ATTEMPT = 1.0
LOOPBACK = re.compile(r"localhost|127\.\d+\.\d+\.\d+|::1")
USER_AGENT = f"achdesk-python/{__version__}"

T = TypeVar("T")


@dataclass(frozen=True)
class Request:
    """What is sent. A request that is not repeated has a connection of its own."""

    method: str
    path: str
    body: bytes = b""
    content_type: str = ""
    is_repeated: bool = True


class Caller:
    """Sends requests to one address with one key, and repeats them."""

    def __init__(self, url: str, key: str, settings: Optional[Settings]) -> None:
        self._settings = settings or Settings()
        if not re.fullmatch("[!-~]{8,64}", key):
            raise InputFault("bad key")
        self._key = key
        address = _address(url, self._settings.allows_plain_http)
        is_secure = address.scheme == "https"
        self._host = address.hostname or ""
        usual_port = http.client.HTTPS_PORT if is_secure else http.client.HTTP_PORT
        self._port = address.port or usual_port
        self._prefix = address.path.rstrip("/")
        self._tls: Optional[ssl.SSLContext] = None
        if is_secure:
            self._tls = self._settings.tls or ssl.create_default_context()
        self._kept: Optional[Link] = None
        self._sent_at = 0.0

    def close(self) -> None:
        """Closes the connection that was kept, if there is one."""
        if self._kept is not None:
            self._kept.close()
            self._kept = None

    def __exit__(
        self,
        kind: Optional[Type[BaseException]],
        error: Optional[BaseException],
        trace: Optional[TracebackType],
    ) -> None:
        self.close()

    def _read(self, request: Request, kind: Type[T], **wanted: object) -> T:
        """Returns the JSON object that answers the request.

        Its members that are `wanted` must have these values: it could be another call's answer.
        """

        def reader(answer: Answer) -> T:
            try:
                value: T = value_of(kind, json_of(answer.body))
                if all(getattr(value, name) == it for name, it in wanted.items()):
                    return value
            except Mismatch:
                pass
            raise foreign(answer)

        return self._ask(request, reader)

    def _ask(self, request: Request, reader: Callable[[Answer], T]) -> T:
        """Returns the value of the first answer with status 200 or 201.

        Repeats the request until it arrives, another status forbids it, or the time is over.
        """
        total = self._settings.total_seconds
        until = time.monotonic() + (total or self._settings.timeout)
        may_have_acted, settled, attempt = False, 0.0, 0
        while True:
            attempt, was_kept = attempt + 1, self._kept is not None
            try:
                return reader(self._attempt(request, until))
            except DeskError as error:
                if error.may_have_acted:
                    may_have_acted, settled = True, self._sent_at + self._settings.queue_seconds
                error.attempts, error.may_have_acted = attempt, may_have_acted
                error.settles_in = max(0.0, settled - time.monotonic()) if may_have_acted else 0.0
                # The other side closes a connection that was idle; another one is opened at once.
                is_at_once = was_kept and isinstance(error, NoAnswer)
                pause = 0.0 if is_at_once else max(error.retry_after, pause_after(attempt))
                is_over = total == 0 or time.monotonic() + pause + SHORTEST_ATTEMPT > until
                if is_over or not (request.is_repeated and error.is_temporary):
                    raise
                if self._settings.on_retry is not None:
                    self._settings.on_retry(error, pause)
            time.sleep(pause)

    def _attempt(self, request: Request, until: float) -> Answer:
        bounds = Bounds(self._settings.timeout, until, self._settings.largest_answer)
        link, self._kept = self._kept, None
        if link is not None and not (link.is_open and request.is_repeated):
            link.close()
            link = None
        answer = self._exchange(link or self._connect(bounds), request, bounds)
        if answer.status not in (200, 201):
            raise _failure(answer)
        return answer

    def _connect(self, bounds: Bounds) -> Link:
        try:
            return Link(self._host, self._port, self._tls, bounds)
        except OSError as error:
            is_final = isinstance(error, ssl.SSLCertVerificationError) or (
                isinstance(error, socket.gaierror) and error.errno == socket.EAI_NONAME)
            why = f"no connection to {self._host}: {error}"
            raise NoAnswer(why, may_have_acted=False, is_temporary=not is_final) from error

    def _exchange(self, link: Link, request: Request, bounds: Bounds) -> Answer:
        headers = {"X-Desk-Key": self._key, "Accept": "*/*", "User-Agent": USER_AGENT}
        if request.content_type:
            headers["Content-Type"] = request.content_type
        if not self._settings.keeps_connection:
            headers["Connection"] = "close"
        path = self._prefix + request.path
        try:
            answer = link.exchange(request.method, path, request.body, headers, bounds)
        except (OSError, http.client.HTTPException) as error:
            why = str(error) or type(error).__name__
            is_temporary = not isinstance(error, TooLong)
            raise NoAnswer(why, may_have_acted=True, is_temporary=is_temporary) from error
        finally:
            self._sent_at = link.sent_at or time.monotonic()
        if link.is_open:
            self._kept = link
        return answer


def _address(url: str, allows_plain_http: bool) -> urllib.parse.SplitResult:
    try:
        address = urllib.parse.urlsplit(url)
        address.port  # raises ValueError if it is not a port
    except ValueError:
        raise InputFault("bad url") from None
    if address.scheme not in ("http", "https") or not address.hostname:
        why = "it must begin with https:// or http:// and a host"
    elif address.query or address.fragment or address.username is not None:
        why = "it must not have a query, a fragment or a user"
    elif not re.fullmatch("[!-~]*", address.path):
        why = "its path has a character that is not allowed"
    elif address.scheme == "http" and not (
        LOOPBACK.fullmatch(address.hostname) or allows_plain_http
    ):
        why = "http would show the key to everyone on the way; use https"
    else:
        return address
    raise InputFault("bad url", f"bad url: {why}")


def pause_after(attempt: int) -> float:
    """Returns how long to wait after the attempt of this number, from 1."""
    # The random part keeps clients that failed together from coming again together.
    longest: float = min(LONGEST_PAUSE, FIRST_PAUSE * 2 ** min(attempt - 1, 10))
    return longest * random.uniform(0.5, 1.0)


def foreign(answer: Answer) -> ForeignAnswer:
    """Returns the error for an answer that is not the desk's."""
    return ForeignAnswer(answer.status, answer.content_type, answer.body)


def _failure(answer: Answer) -> DeskError:
    body = json_of(answer.body)
    error: DeskError
    if answer.status >= 400 and isinstance(body, dict) and isinstance(body.get("error"), str):
        error = Refused(answer.status, body)
    else:
        error = foreign(answer)
    if re.fullmatch("[0-9]{1,4}", answer.retry_after):
        error.retry_after = float(answer.retry_after)
    return error


def post(path: str, members: Mapping[str, object]) -> Request:
    """Returns the request that posts an object in JSON."""
    body = json.dumps(members, separators=(",", ":"), sort_keys=True, ensure_ascii=False)
    try:
        return Request("POST", path, body.encode(), "application/json")
    except UnicodeEncodeError:
        raise InputFault("bad text", "bad text: it is not Unicode") from None


def get(path: str) -> Request:
    """Returns the request that gets a path."""
    return Request("GET", path)


def iso(day: datetime.date) -> str:
    """Returns a day as the desk reads it; of a datetime, too, the day alone."""
    return datetime.date.isoformat(day)
