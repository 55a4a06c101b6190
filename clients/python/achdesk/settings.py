"""How requests are sent."""

from __future__ import annotations

import ssl
from dataclasses import dataclass
from typing import Callable, Optional

from .errors import DeskError, InputFault

LONGEST_TIME = 1_000_000.0
LONGEST_ANSWER = 134_217_728

Notice = Callable[[DeskError, float], None]


@dataclass(frozen=True)
class Settings:
    """How requests are sent.

    `timeout` bounds each wait for the network, in seconds. It is longer than the bank's proxy keeps
    a request, which is `queue_seconds` at most. `total_seconds` bounds all attempts of one call
    with their pauses, and the last attempt ends with it. With 0 each call is sent once, and
    `timeout` bounds it as a whole. Only the system's resolver of names has bounds of its own. A
    restart of a large desk takes minutes.

    `largest_answer` bounds an answer in bytes; the lists of a company only grow.

    `keeps_connection` sends one request after another on one connection. Use it through a proxy
    only: the desk itself serves one connection at a time, and others wait until it is closed.

    `tls` replaces the default context, for example to trust the bank's own authority:
    `ssl.create_default_context(cafile="bank.pem")`. `allows_plain_http` permits http to another
    machine, which shows the key to everyone on the way. `on_retry` is called with the error and the
    coming pause before each further attempt.
    """

    timeout: float = 110.0
    total_seconds: float = 600.0
    keeps_connection: bool = False
    tls: Optional[ssl.SSLContext] = None
    allows_plain_http: bool = False
    on_retry: Optional[Notice] = None
    queue_seconds: float = 100.0
    largest_answer: int = LONGEST_ANSWER

    def __post_init__(self) -> None:
        """Raises `InputFault`, such as `bad timeout`."""
        if not 0 < self.timeout <= LONGEST_TIME:
            raise InputFault("bad timeout")
        if not 0 <= self.total_seconds <= LONGEST_TIME:
            raise InputFault("bad total_seconds")
        if not 0 <= self.queue_seconds <= LONGEST_TIME:
            raise InputFault("bad queue_seconds")
        if self.largest_answer < 0:
            raise InputFault("bad largest_answer")
