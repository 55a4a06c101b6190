"""The command late, and the alarm for late returns, which the bank can dishonor within five banking days."""

from __future__ import annotations

import datetime
import sqlite3
from collections.abc import Collection

from achdesk_day.copied import copied_desk
from achdesk_day.day import Day
from achdesk_day.journal import Line
from achdesk_day.open_items import Item, closed_items, decide, list_items, with_decisions
from achdesk_day.table import Column
from achdesk_day.values import ONE_DAY, money

KIND = "late"
DAYS_TO_DECIDE = 5  # banking days after the return
COLUMNS = (
    Column("no", "number", "number"), Column("taken"), Column("company"), Column("ref"), Column("entry", kind="number"), Column("code"),
    Column("direction"), Column("cents", "amount", "cents"), Column("settled"), Column("deadline"), Column("until", "decide by"),
)


def late(day: Day) -> None:
    """Lists the late returns of which the bank can still decide, or closes one."""
    with copied_desk(day) as db:
        items = late_items(day, db)
    if not decide(day, KIND, items):
        list_items(day, COLUMNS, items)


def late_items(day: Day, db: sqlite3.Connection) -> dict[str, Item]:
    """Returns all late returns by their keys. One is open until it is closed or its time to decide is over."""
    holidays = {it for (it,) in db.execute("SELECT day FROM audit_holidays")}
    items = {}
    for row in db.execute("SELECT * FROM audit_returns WHERE late = 'late' ORDER BY no"):
        it = {key: row[key] for key in ("no", "taken", "company", "ref", "entry", "code", "direction", "cents", "settled", "deadline")}
        text = f"{it['company']} {it['ref']} entry {it['entry']}, {it['code']}, {it['direction']} {money(it['cents'])}, taken on {it['taken']}"
        key = "/".join(str(it[part]) for part in ("company", "ref", "entry", "code", "taken"))
        items[key] = it | {"until": last_day_to_decide(it["taken"], holidays), "text": text}
    today = str(day.local_now().date())
    return {key: it | {"is_open": it["closed"] is None and it["until"] >= today} for key, it in with_decisions(day, KIND, items).items()}


def last_day_to_decide(taken: str, holidays: Collection[str]) -> str:
    day, left = datetime.date.fromisoformat(taken), DAYS_TO_DECIDE
    while left:
        day += ONE_DAY
        left -= day.weekday() < 5 and str(day) not in holidays
    return str(day)


def alarm_of_new(day: Day, items: dict[str, Item]) -> None:
    """Records each open late return that the journal does not have yet, and raises an alarm for it."""
    known = {line["key"] for line in day.journal.lines if line["did"] == "late"}
    for key, it in items.items():
        if it["is_open"] and key not in known:
            day.alarm(f"late return: {text_of(it)}")
            day.record("late", key=key, text=it["text"], until=it["until"], no=it["no"])


def text_of(it: Item | Line) -> str:
    return f"{it['text']}. The bank decides by {it['until']}, and then runs achdesk-day late --close {it['no']} --note TEXT"


def undecided(day: Day) -> list[Line]:
    """Lists the lines of the journal of late returns of which the bank can still decide."""
    closed, today = closed_items(day, KIND), str(day.local_now().date())
    return [line for line in day.journal.lines if line["did"] == "late" and line["key"] not in closed and line["until"] >= today]


def look_for_late(day: Day, count: int) -> None:
    """Raises the alarm after a file with so many late returns was taken."""
    if day.desk_file().exists():
        with copied_desk(day) as db:
            items = late_items(day, db)
        alarm_of_new(day, items)
    else:
        day.alarm(f"{count} late returns were taken; the bank has five banking days to decide")
