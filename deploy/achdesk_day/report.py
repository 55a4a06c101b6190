"""The command report."""

from __future__ import annotations

import csv
import io
import itertools

from achdesk_day.books import settlement_and_books
from achdesk_day.day import Day
from achdesk_day.durable import write_synced
from achdesk_day.late import alarm_of_new
from achdesk_day.rows import REPORT_COLUMNS, Row, balance_rows, rate_rows, settlement_rows
from achdesk_day.rows_of_files import cut_rows, file_rows, files_of, sent_rows
from achdesk_day.rows_of_returns import incoming_files, late_rows, return_rows, suspense_rows
from achdesk_day.stops import Refused
from achdesk_day.table import Column, laid_out
from achdesk_day.values import date_of

# The headings of a section's first two columns, unless they are `day` and `name`.
DAYS = {"settlement": "value day", "return rates over a level": "desk day", "suspense": "taken", "open in suspense": "taken"}
NAMES = {
    "cut": "time", "file": "file", "transmitted in its place": "file", "all files": "files", "sent": "company", "return": "code", "change": "code",
    "late return": "code", "incoming file that the archive lacks": "key", "incoming file that the desk lacks": "key", "suspense": "code",
    "open in suspense": "code", "return rates over a level": "company", "balance": "account",
}


def report(day: Day) -> None:
    """Writes the end of day as text and as CSV, and prints the text. Each section has a function that makes its rows."""
    status = day.desk_status()
    told = date_of(day.words.day) if day.words.day else status.day
    if told is None or status.day is None or told > status.day:
        raise Refused(f"there is nothing to report of {told}: the desk day is {status.day}")
    wanted = str(told)
    files, incoming, suspense = files_of(day, wanted, status), incoming_files(day, wanted), day.desk.suspense()
    settled, books = settlement_and_books(day, wanted)
    rows = [*cut_rows(day, wanted, files), *file_rows(day, wanted, files), *sent_rows(wanted, books),
            *return_rows(wanted, incoming, suspense, books), *late_rows(wanted, books), *suspense_rows(day, wanted, suspense, books),
            *rate_rows(day), *settlement_rows(wanted, settled), *balance_rows(wanted, settled, books)]
    text = report_text(wanted, rows)
    print(text, end="")
    if not day.dry:
        sheet = io.StringIO()
        writer = csv.DictWriter(sheet, REPORT_COLUMNS, lineterminator="\n")
        writer.writeheader()
        writer.writerows(rows)
        write_synced(day.reports / f"{wanted}.txt", text.encode())
        write_synced(day.reports / f"{wanted}.csv", sheet.getvalue().encode())
        day.record("reported", day=wanted)
        alarm_of_new(day, books.late_items if books else {})


def report_text(wanted: str, rows: list[Row]) -> str:
    """Lays the rows out for a reader: each section with the headings of those columns that it has."""
    lines = [f"ACH desk, end of day {wanted}"]
    for section, found in itertools.groupby(rows, lambda row: str(row["section"])):
        of_section = list(found)
        known = (Column("day", DAYS.get(section, "day")), Column("name", NAMES.get(section, "name")),
                 Column("count", of_section[0]["counted"], "number"), *(Column(it, kind="cents") for it in ("debits", "credits", "net")), Column("note"))
        columns = [it for it in known if any(row[it.key] != "" for row in of_section)]
        cells = [[it.cell(row[it.key]) for it in columns] for row in of_section]
        lines += ["", section[0].upper() + section[1:], *(f"  {it}" for it in laid_out(columns, cells))]
    return "\n".join(lines) + "\n"
