"""The commands companies, held and find, which only read."""

from __future__ import annotations

import re
import sys
from typing import Any

from achdesk_day.copied import copied_desk
from achdesk_day.day import Day
from achdesk_day.rows import LEVELS, rate_of
from achdesk_day.stops import Misused
from achdesk_day.table import Column, show

COMPANIES = (
    Column("company"), Column("name"), Column("entry_limit", "entry limit", "cents"), Column("credit", "credits open", "cents"),
    Column("credit_limit", "credit limit", "cents"), Column("debit", "debits open", "cents"), Column("debit_limit", "debit limit", "cents"),
    Column("debits", "debits settled", "number"), *(Column(it, kind="number") for it in LEVELS), Column("over", "over the level"),
)
HELD = (
    Column("company"), Column("ref"), Column("kind"), Column("direction"), Column("entries", kind="number"),
    Column("cents", "amount", "cents"), Column("asked", "requested"),
)
FOUND = (
    Column("company"), Column("ref"), Column("entry", kind="number"), Column("name"), Column("account"), Column("direction"),
    Column("cents", "amount", "cents"), Column("state"), Column("settled"), Column("cut_on", "cut on"), Column("file"), Column("trace"), Column("code"),
    Column("returned"),
)
# What `find` looks for: the option, and the condition on the view audit_entries.
CONDITIONS = {
    "company": "company = :company COLLATE NOCASE",
    "account": "substr(account, -length(:account)) = :account",
    "amount": "cents = :amount",
    "name": "instr(upper(name), upper(:name)) > 0",
    "trace": "trace = :trace",
    "ref": "ref = :ref COLLATE NOCASE",
}
AMOUNT = re.compile(r"(\d+|\d{1,3}(?:,\d{3})+)(?:\.(\d\d))?")
SHOWN_DIGITS = 4


def companies(day: Day) -> None:
    """Prints each company's limits, exposures and return rates on the desk day."""
    rows = []
    for it in day.desk.companies().companies:
        rates = {kind: rate_of(it, kind) for kind in LEVELS}
        rows.append({"company": it.id, "name": it.name, "entry_limit": it.entry_limit, "credit": it.credit, "credit_limit": it.credit_limit,
                     "debit": it.debit, "debit_limit": it.debit_limit, "debits": rates["overall"].d,
                     **{kind: rate.n for kind, rate in rates.items()},
                     "over": " ".join(kind for kind, rate in rates.items() if rate.over)})
    show(day, COMPANIES, rows)


def held(day: Day) -> None:
    """Prints each submission and retry that no cut has sent yet, by its requested day."""
    with copied_desk(day) as db:
        rows = db.execute("SELECT * FROM audit_submissions WHERE state = 'held' ORDER BY asked, company, number").fetchall()
    show(day, HELD, rows)


def find(day: Day) -> None:
    """Prints the entries that fit all given options. Account numbers are masked unless the words ask for them."""
    told = vars(day.words)
    wanted: dict[str, Any] = {name: told[name] for name in CONDITIONS if told[name] is not None}
    if wanted.get("account") == "-":
        wanted["account"] = sys.stdin.readline().strip()
    if not all(wanted.values()) or not wanted:
        raise Misused("find needs what to look for: --account, --amount, --name, --trace, --ref or --company")
    if "amount" in wanted:
        wanted["amount"] = cents_of(wanted["amount"])
    query = f"SELECT * FROM audit_entries WHERE {' AND '.join(CONDITIONS[it] for it in wanted)} ORDER BY company, number, entry"
    with copied_desk(day) as db:
        rows = [dict(it) for it in db.execute(query, wanted)]
    for row in rows:
        row["account"] = row["account"] if day.words.accounts else masked(row["account"])
    show(day, FOUND, rows)
    if not rows:
        print("achdesk-day: no entry fits", file=sys.stderr)


def cents_of(text: str) -> int:
    """Returns the cents of an amount in dollars, as 1,500.00, 1500.00 or 1500."""
    it = AMOUNT.fullmatch(text)
    if not it:
        raise Misused(f"{text!r} is not an amount in dollars, as 1500.00")
    return int(it[1].replace(",", "")) * 100 + int(it[2] or 0)


def masked(account: str) -> str:
    """Leaves the last digits of an account number, if it has more than these."""
    kept = account[-SHOWN_DIGITS:] if len(account) > SHOWN_DIGITS else ""
    return "*" * (len(account) - len(kept)) + kept
