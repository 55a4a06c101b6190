"""What a copy of the desk's file has for a day."""

from __future__ import annotations

import sqlite3
from dataclasses import dataclass
from typing import Any

from achdesk_day.copied import copied_desk
from achdesk_day.day import Day
from achdesk_day.late import late_items
from achdesk_day.open_items import Item
from achdesk_day.stops import Unavailable
from achdesk_day.suspense import Directions

Settled = dict[str, int]
Found = dict[str, Any]


@dataclass(frozen=True)
class Books:
    """What a copy of the desk's file has for a day: the balance of each account at its end, with the account's text as the
    key; the submissions that cuts sent on it; the files that were taken on it, by their keys, and the returns and changes by
    code; the late returns of the day, and all of them; and the directions of all items in suspense."""

    balances: dict[str, int]
    sent: list[Found]
    taken: dict[str, Found]
    codes: list[Found]
    late: list[Found]
    late_items: dict[str, Item]
    directions: Directions


LATE_RETURNS = """
SELECT r.code, s.direction, e.cents, r.company, s.ref, r.idx, substr(d.odfi, 1, 8) || printf('%07d', n.sequence) AS trace,
       date(s.settled * 86400, 'unixepoch') AS settled
FROM desk d JOIN returns r JOIN submissions s ON s.company = r.company AND s.ord = r.ord
JOIN entries e ON e.company = r.company AND e.ord = r.ord AND e.idx = r.idx LEFT JOIN numbers n ON n.nth = e.seq
WHERE r.late = 1 AND date(r.day * 86400, 'unixepoch') = ? ORDER BY r.no"""
SENT = """
SELECT company, sec, direction, settled, file, count(*) AS submissions, sum(entries) AS entries, sum(cents) AS cents
FROM audit_submissions WHERE cut_on = ? GROUP BY company, direction, settled, file, sec ORDER BY file, company, direction, settled"""
CODES = """
SELECT 'return' AS section, code, count(*) AS count, coalesce(sum(cents) FILTER (WHERE direction = 'debit'), 0) AS debits,
       coalesce(sum(cents) FILTER (WHERE direction = 'credit'), 0) AS credits
FROM audit_returns WHERE taken = ?1 GROUP BY code
UNION ALL SELECT 'change', code, count(*), 0, 0 FROM audit_changes WHERE taken = ?1 GROUP BY code ORDER BY section DESC, code"""


def settlement_and_books(day: Day, wanted: str) -> tuple[Settled, Books | None]:
    """Returns the sum of each value day by the desk's answer, and what a copy of its file has, or None if the file is not on
    this machine. If both differ, something was posted in between, and both are read again."""
    for _ in range(3):
        settled = {str(it.day): it.cents for it in day.desk.settlement().days}
        if not day.desk_file().exists():
            return settled, None
        with copied_desk(day) as db:
            books = books_of(day, db, wanted)
        if books.balances["O"] == settled_through(settled, wanted):
            return settled, books
    raise Unavailable("the desk's file and its answers differ: something is being posted, or the file is another desk's")


def settled_through(settled: Settled, wanted: str) -> int:
    return sum(cents for day, cents in settled.items() if day <= wanted)


def books_of(day: Day, db: sqlite3.Connection, wanted: str) -> Books:
    def found(query: str, *values: str) -> list[Found]:
        return [dict(it) for it in db.execute(query, values)]

    return Books(
        balances_of(db, wanted), found(SENT, wanted), {it["file"]: it for it in found("SELECT * FROM audit_taken WHERE taken = ?", wanted)},
        found(CODES, wanted), found(LATE_RETURNS, wanted), late_items(day, db),
        {(it["file"], it["item"]): it["direction"] for it in found("SELECT * FROM audit_unmatched")})


def balances_of(db: sqlite3.Connection, wanted: str) -> dict[str, int]:
    balances = {"O": 0, "S": 0, **{f"C:{it}": 0 for (it,) in db.execute("SELECT id FROM companies ORDER BY id")}}
    sums = "SELECT account, cents FROM balances WHERE date(value_day * 86400, 'unixepoch') <= ?"
    for account, cents in db.execute(sums, (wanted,)):
        balances[account] += int(cents)
    return balances
