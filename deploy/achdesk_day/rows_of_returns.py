"""The rows of a report for what came back: incoming files, returns, changes, late returns and suspense."""

from __future__ import annotations

import json
from typing import Any

from achdesk import SuspenseItem

from achdesk_day.books import Books
from achdesk_day.day import Day
from achdesk_day.nacha import items_of, key_of_incoming
from achdesk_day.rows import Cell, Row, row_of
from achdesk_day.stops import Refused
from achdesk_day.suspense import Directions, directions_by_archive, suspense_items
from achdesk_day.values import money

Incoming = dict[str, tuple[bytes, dict[str, Any]]]
Suspense = tuple[SuspenseItem, ...]
COUNTS = ("returns", "changes", "late", "suspense")


def incoming_files(day: Day, wanted: str) -> Incoming:
    """Returns the archived incoming files that were first taken on a day, as (bytes, answer) by the desk's key."""
    files: Incoming = {}
    for path in sorted((day.incoming / wanted).glob("*.json")):
        if path.with_suffix("").exists():  # the file itself; it is missing if its move was interrupted
            text = path.with_suffix("").read_bytes()
            files[key_of_incoming(text)] = text, json.loads(path.read_bytes())["answer"]
    return files


def return_rows(wanted: str, incoming: Incoming, suspense: Suspense, books: Books | None) -> list[Row]:
    """One row for each code of a return or change that met its entry, and one for late returns and for files: by a copy of
    the desk's file, or by the archive if the file is on another machine."""
    if books is None:
        rows, answers, note = archived_rows(wanted, incoming, suspense), [it for _, it in incoming.values()], "by the archive alone"
    else:
        rows = [row_of(it["section"], wanted, it["code"], it["count"], f"{it['section']}s", it["debits"], it["credits"]) for it in books.codes]
        answers, note = list(books.taken.values()), ""
    return [*rows, row_of("late returns", wanted, "", sum(it["late"] for it in answers), "returns", note=note),
            row_of("incoming files", wanted, "", len(answers), "files", note=note), *differing_rows(wanted, incoming, books)]


def archived_rows(wanted: str, incoming: Incoming, suspense: Suspense) -> list[Row]:
    """One row for each code by the archived files, without the items in suspense. The counts are compared with the desk's
    answers."""
    unmatched = {(it.file, it.item) for it in suspense}
    sums: dict[str, tuple[int, int, int]] = {}
    for key, (text, _) in incoming.items():
        for item in (it for it in items_of(text) if (key, it.number) not in unmatched):
            count, debits, credits = sums.get(item.code, (0, 0, 0))
            sums[item.code] = (count + 1, debits + item.debits, credits + item.credits)
    sections = {code: "change" if code[0] == "C" else "return" for code in sums}
    rows = [row_of(sections[code], wanted, code, count, f"{sections[code]}s", debits, credits)
            for code, (count, debits, credits) in sorted(sums.items())]
    answers = [answer for _, answer in incoming.values()]
    for section, counted in (("return", "returns"), ("change", "changes")):
        found, told = sum(row["count"] for row in rows if row["section"] == section), sum(it[counted] for it in answers)
        if found != told:
            raise Refused(f"the archived files of {wanted} have {found} {counted} that met an entry, and the desk took {told}")
    return rows


def differing_rows(wanted: str, incoming: Incoming, books: Books | None) -> list[Row]:
    """One row for each file that the desk took and the archive lacks, and for each that a restored desk has not taken."""
    taken = {} if books is None else books.taken
    rows = [row_of("incoming file that the archive lacks", wanted, key.strip(), sum(it[name] for name in COUNTS if name != "late"), "items",
                   note="taken by the console or by hand; give the same file to achdesk-day returns")
            for key, it in taken.items() if key not in incoming]
    if books is not None:
        rows += [row_of("incoming file that the desk lacks", wanted, key.strip(), len(items_of(text)), "items",
                        note="of before a restore; give it to achdesk-day returns again")
                 for key, (text, _) in incoming.items() if key not in taken]
    return rows


def late_rows(wanted: str, books: Books | None) -> list[Row]:
    """One row for each late return that was taken on a day, with its entry, and until when the bank can decide or what it
    decided."""
    rows = []
    for it in books.late if books else ():
        item = books.late_items["/".join(map(str, (it["company"], it["ref"], it["idx"], it["code"], wanted)))] if books else {}
        note = f"{it['company']} {it['ref']} entry {it['idx']}, trace {it['trace'] or 'used again since'}, settled {it['settled']}"
        note += f", closed {item['closed']}: {item['note']}" if item["closed"] else f", decide by {item['until']}"
        rows.append(row_of("late return", wanted, it["code"], 1, "returns", it["cents"] if it["direction"] == "debit" else 0,
                           it["cents"] if it["direction"] == "credit" else 0, note=note))
    return rows


def suspense_rows(day: Day, wanted: str, suspense: Suspense, books: Books | None) -> list[Row]:
    """One row for each item in suspense that was taken on the day, and for each one that is still open."""
    known: Directions = books.directions if books else directions_by_archive(day)
    items = suspense_items(day, suspense, known)
    rows = []
    for section, found in (("suspense", [it for it in items.values() if it["taken"] == wanted]),
                           ("open in suspense", [it for it in items.values() if it["is_open"] and it["taken"] <= wanted])):
        for it in found:
            is_known = it["direction"] is not None or not it["cents"]
            debits: Cell = "" if not is_known else it["cents"] if it["direction"] == "debit" else 0
            credits: Cell = "" if not is_known else it["cents"] if it["direction"] == "credit" else 0
            note = f"number {it['no']}, {it['why']}, trace {it['trace']}, item {it['item']} of file {it['file']}"
            note += "" if is_known else f", {money(it['cents'])}, of a file that is not in the archive"
            note += f", closed {it['closed']}: {it['note']}" if it["closed"] else ""
            rows.append(row_of(section, it["taken"], it["code"], 1, "items", debits, credits, note=note))
    return rows
