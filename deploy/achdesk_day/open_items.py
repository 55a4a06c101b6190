"""What the bank has to decide outside the desk, and what it decided: a journal of items that a person closed."""

from __future__ import annotations

from collections.abc import Mapping
from typing import Any

from achdesk_day.journal import Line
from achdesk_day.run import Run
from achdesk_day.stops import Misused, Refused
from achdesk_day.table import Column, show

CLOSED = (Column("closed"), Column("closed_by", "by"), Column("note"))
ENDS = ("closed-item", "reopened-item")
Item = dict[str, Any]


def closed_items(run: Run, kind: str) -> dict[str, Line]:
    """Returns the line of the journal that closed each item of a kind, by the item's key."""
    lines = {line["key"]: line for line in run.journal.lines if line["did"] in ENDS and line["kind"] == kind}
    return {key: line for key, line in lines.items() if line["did"] == "closed-item"}


def with_decisions(run: Run, kind: str, items: Mapping[str, Item]) -> dict[str, Item]:
    """Adds to each item when, by whom and with which note it was closed."""
    lines = closed_items(run, kind)
    return {key: item | ({"closed": lines[key]["at"][:10], "closed_by": lines[key]["by"], "note": lines[key]["note"]} if key in lines
                         else {"closed": None, "closed_by": None, "note": None}) for key, item in items.items()}


def decide(run: Run, kind: str, items: Mapping[str, Item]) -> bool:
    """Closes an item or opens it again, if the words say so. Returns whether they do."""
    number = run.words.close if run.words.close is not None else run.words.reopen
    if number is None:
        return False
    is_close = run.words.close is not None
    if not run.words.note:
        raise Misused(f"--note is needed: why the item is {'closed' if is_close else 'open again'}")
    found = [(key, it) for key, it in items.items() if it["no"] == number]
    if not found:
        raise Refused(f"there is no item {number}: achdesk-day {kind} --all lists them")
    (key, item), is_closed = found[0], found[0][0] in closed_items(run, kind)
    if is_closed == is_close:
        run.say(f"item {number} is {'closed' if is_closed else 'open'} already")
        return True
    facts = {it: value for it, value in item.items() if it not in ("closed", "closed_by", "note")}
    run.record(ENDS[0] if is_close else ENDS[1], kind=kind, key=key, note=run.words.note, item=facts)
    would = "would have " if run.dry else ""
    run.say(f"{would}{'closed' if is_close else 'opened again'} item {number}: {item['text']}")
    return True


def list_items(run: Run, columns: tuple[Column, ...], items: Mapping[str, Item]) -> None:
    """Prints the open items, or with --all also the closed ones and what was decided."""
    rows = [it for it in items.values() if run.words.all or it["is_open"]]
    show(run, (*columns, *CLOSED) if run.words.all else columns, rows)
