"""Times, dates, amounts and the names of files."""

from __future__ import annotations

import datetime
import re
import string

from achdesk import Status

from achdesk_day.stops import Misused

MODIFIERS = string.ascii_uppercase + string.digits  # the files of a day, in the order in which cuts make them
FILE_NAME = re.compile(r"\d{4}-\d\d-\d\d-[A-Z0-9]")
ONE_DAY = datetime.timedelta(1)


def stamp(moment: datetime.datetime) -> str:
    return moment.isoformat(timespec="milliseconds").replace("+00:00", "Z")


def time_of(text: str) -> datetime.datetime:
    return datetime.datetime.fromisoformat(text.replace("Z", "+00:00"))


def date_of(text: str) -> datetime.date:
    try:
        return datetime.date.fromisoformat(text)
    except ValueError:
        raise Misused(f"{text!r} is not a date YYYY-MM-DD") from None


def money(cents: int | str) -> str:
    """Writes cents as dollars: 1,500.00."""
    cents = int(cents)
    return f"{'-' if cents < 0 else ''}{abs(cents) // 100:,}.{abs(cents) % 100:02}"


def due_sums(status: Status) -> tuple[int, int, int]:
    """Sums what is due: submissions, credits and debits in cents."""
    dues = [it for company in status.companies for it in company.due]
    return (sum(it.credits.submissions + it.debits.submissions for it in dues),
            sum(it.credits.cents for it in dues), sum(it.debits.cents for it in dues))


def file_name(word: str) -> str:
    name = word.removesuffix(".ach")
    if not FILE_NAME.fullmatch(name):
        raise Misused(f"{word} is not the name of a file, as 2025-01-08-A")
    return name


def order_of(name: str) -> tuple[str, int]:
    return name[:10], MODIFIERS.index(name[11])
