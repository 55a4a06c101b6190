"""How a command ends, and what all modules share."""

from __future__ import annotations

import datetime
import re

MOST_CHARACTERS = 8_000  # of an alarm


class Misused(Exception):
    """The words or the configuration are wrong."""


class Undelivered(Exception):
    """A receiver did not take an alarm."""


class Unwanted(Undelivered):
    """A receiver refused alarms for what they say, and would do so again."""


def now() -> datetime.datetime:
    return datetime.datetime.now(datetime.timezone.utc)


def plain(text: str) -> str:
    """Returns a text without control characters, which could forge a mail's head or move a terminal's cursor, and without bytes
    that are not UTF-8, which no mail could carry."""
    return re.sub(r"[^\n\t -~\u00a0-\ud7ff\ue000-\uffff]", "?", text)[:MOST_CHARACTERS]
