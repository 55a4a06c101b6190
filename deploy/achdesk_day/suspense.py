"""The command suspense, and the items in suspense with their directions."""

from __future__ import annotations

from achdesk import SuspenseItem

from achdesk_day.copied import copied_desk
from achdesk_day.day import Day
from achdesk_day.nacha import items_of, key_of_incoming
from achdesk_day.open_items import Item, decide, list_items, with_decisions
from achdesk_day.table import Column
from achdesk_day.values import money

KIND = "suspense"
COLUMNS = (
    Column("no", "number", "number"), Column("taken"), Column("code"), Column("trace"), Column("direction"), Column("cents", "amount", "cents"),
    Column("why"), Column("file"), Column("item", kind="number"),
)
Directions = dict[tuple[str, int], str | None]  # by the file's key and the item's number


def suspense(day: Day) -> None:
    """Lists the items in suspense that nobody has closed, or closes one."""
    items = suspense_items(day, day.desk.suspense(), directions(day))
    if not decide(day, KIND, items):
        list_items(day, COLUMNS, items)


def directions(day: Day) -> Directions:
    """Returns whether each item returned a debit or a credit: by a copy of the desk's file, or by the archived files."""
    if day.desk_file().exists():
        with copied_desk(day) as db:
            return {(row["file"], row["item"]): row["direction"] for row in db.execute("SELECT * FROM audit_unmatched")}
    return directions_by_archive(day)


def directions_by_archive(day: Day) -> Directions:
    found: Directions = {}
    for path in sorted(day.incoming.glob("*/*.json")):
        if path.with_suffix("").exists():
            text = path.with_suffix("").read_bytes()
            found |= {(key_of_incoming(text), it.number): "debit" if it.debits else "credit" if it.credits else None for it in items_of(text)}
    return found


def suspense_items(day: Day, told: tuple[SuspenseItem, ...], known: Directions) -> dict[str, Item]:
    """Returns the items of the desk's list by their keys, which stay the same after a restore; `no` is their place."""
    items = {}
    for number, it in enumerate(told, 1):
        direction = known.get((it.file, it.item))
        text = f"{it.code} {direction or ''} {money(it.cents)}, trace {it.trace}, {it.why}, taken on {it.day}".replace("  ", " ")
        items[f"{it.file.strip()}/{it.item}"] = {
            "no": number, "taken": str(it.day), "code": it.code, "trace": it.trace, "direction": direction, "cents": it.cents, "why": it.why,
            "file": it.file.strip(), "item": it.item, "text": text}
    return {key: item | {"is_open": item["closed"] is None} for key, item in with_decisions(day, KIND, items).items()}
