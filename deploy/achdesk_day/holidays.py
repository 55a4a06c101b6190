"""The command holidays."""

from __future__ import annotations

import csv
import datetime
import re

from achdesk import Status

from achdesk_day.day import Day
from achdesk_day.durable import given_bytes
from achdesk_day.stops import Misused, Refused
from achdesk_day.values import ONE_DAY, date_of

MOST_HOLIDAYS, NEAR_DAYS = 400, 60


def nth_weekday(year: int, month: int, weekday: int, nth: int) -> datetime.date:
    """Returns the nth such weekday of a month, Monday being 0; the last for -1."""
    first = datetime.date(year, month, 1)
    days = [first + ONE_DAY * at for at in range(31)]
    return [it for it in days if it.month == month and it.weekday() == weekday][nth if nth < 0 else nth - 1]


def federal_reserve_holidays(year: int) -> list[datetime.date]:
    """Lists the days of a year on which the Federal Reserve Banks are closed, Saturdays and Sundays aside. A holiday
    on a Sunday is kept on the Monday after it; one on a Saturday is not kept on another day."""
    fixed = [(1, 1), *([(6, 19)] if year >= 2022 else []), (7, 4), (11, 11), (12, 25)]
    floating = [(1, 0, 3), (2, 0, 3), (5, 0, -1), (9, 0, 1), (10, 0, 2), (11, 3, 4)]
    days = [datetime.date(year, month, at) for month, at in fixed]
    days = [it + ONE_DAY if it.weekday() == 6 else it for it in days if it.weekday() != 5]
    return sorted(days + [nth_weekday(year, *it) for it in floating])


def are_years(words: list[str]) -> bool:
    return len(words) == 2 and all(re.fullmatch(r"20\d\d", it) for it in words)


def listed_holidays(words: list[str]) -> list[datetime.date]:
    """Returns the days of the list that the words name: two years, or a file."""
    if are_years(words):
        return [it for year in range(int(words[0]), int(words[1]) + 1) for it in federal_reserve_holidays(year)]
    if len(words) != 1:
        raise Misused("holidays takes two years of this century, FROM TO, or a FILE with a date in each line")
    try:
        text = given_bytes(words[0]).decode("ascii")
    except (OSError, UnicodeError) as fault:
        raise Misused(f"the list cannot be read: {fault}") from None
    days = [date_of(row[0] if len(row) == 1 else ",".join(row)) for row in csv.reader(text.splitlines()) if row]
    for before, after in zip(days, days[1:]):
        if before >= after:
            raise Misused(f"{words[0]}: {after} is not after {before}")
    return days


def known_lists(day: Day) -> list[list[str]]:
    """Returns the lists that the desk may have: the one accepted last, and one that was sent and had no answer."""
    lists: list[list[str]] = []
    restored_to = None
    for line in reversed(day.journal.lines):
        if line["did"] == "restored":
            restored_to = line["began"]
        if line["did"] == "set-holidays" and (restored_to is None or line["at"] <= restored_to):
            return lists + [line["days"]]
        if line["did"] == "setting-holidays" and restored_to is None:
            lists.append(line["days"])
    return lists + [[]]


def is_closed(day: Day, status: Status, today: datetime.date) -> bool:
    """Whether the desk has refused this day because it is no banking day, by the list of holidays that it still has. A list that
    was set by other means since is known by its length alone."""
    for line in reversed(day.journal.lines):
        if line["did"] == "not-a-banking-day" and line["day"] == str(today):
            return today.weekday() >= 5 or line.get("holidays", status.holidays) == status.holidays
        if line["did"] in ("setting-holidays", "restored") and today.weekday() < 5:
            return False
    return False


def near_before(known: list[list[str]], today: datetime.date, first: datetime.date) -> list[datetime.date]:
    """Returns the days of lists that are near and before a first day, as those of the last months are in January."""
    days = {date_of(it) for old in known for it in old}
    return sorted(it for it in days if it < first and abs(it - today).days <= NEAR_DAYS)


def holidays(day: Day) -> None:
    """Sets the desk's list of holidays, unless it drops a near day or the list that the desk has is unknown. To years the
    near days of the present list before them are added."""
    days = listed_holidays(day.words.list)
    status, known, today = day.desk_status(), known_lists(day), day.local_now().date()
    if are_years(day.words.list) and days:
        days = near_before(known, today, days[0]) + days
    new = [str(it) for it in days]
    if len(new) > MOST_HOLIDAYS:
        raise Misused(f"the list has {len(new)} days, and a desk takes {MOST_HOLIDAYS}")
    if status.holidays not in map(len, known) and not day.words.replace_unknown:
        raise Refused(f"the desk has {status.holidays} holidays, and the journal does not say which. "
                      "Look at the list, and replace it by --replace-unknown")
    dropped = sorted({it for old in known for it in old} - set(new))
    near = [it for it in dropped if abs(date_of(it) - today).days <= NEAR_DAYS]
    if near and not day.words.drop_near:
        raise Refused(f"the new list drops days within {NEAR_DAYS} days of today: {' '.join(near)}. "
                      "--drop-near drops them")
    if day.dry:
        day.say("\n".join(new))
        return
    day.record("setting-holidays", days=new)
    day.desk.set_holidays(days)
    day.record("set-holidays", days=new)
    day.say(f"{len(new)} holidays, from {new[0]} to {new[-1]}" if new else "no holidays")
    if dropped:
        day.say(f"no longer in the list: {' '.join(dropped)}")
