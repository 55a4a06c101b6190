"""The rows of a report for what the bank sent: cuts, files and submissions."""

from __future__ import annotations

from achdesk import Status

from achdesk_day.archive import accepted_totals, copy_totals
from achdesk_day.books import Books
from achdesk_day.day import Day
from achdesk_day.nacha import check_outgoing, records_of
from achdesk_day.rows import Row, row_of
from achdesk_day.values import date_of

Files = dict[str, bytes]  # by their names, as 2025-01-08-A


def files_of(day: Day, wanted: str, status: Status) -> Files:
    """Returns the desk's files of a day: the archive's, or those that the desk answers."""
    return {name: day.archived_bytes(name) if day.archived(name) else day.desk.file(name) or b""
            for name in day.files_of_day(date_of(wanted), status)}


def cut_rows(day: Day, wanted: str, files: Files) -> list[Row]:
    """One row for each cut of the day that the journal has, and one for the files of all other cuts: the desk keeps no
    cuts."""
    cuts = [line for line in day.journal.lines if line["did"] == "cut" and line["day"] == wanted]
    rows = [row_of("cut", wanted, line["at"], line["entries"], "entries",
                   note=f"by {line['by']}, files {' '.join(line['files']) or 'none'}, {line['lapsed']} retries lapsed") for line in cuts]
    known = {f"{wanted}-{letter}" for line in cuts for letter in line["files"]}
    if others := [name for name in files if name not in known]:
        count = sum(it[:1] == "6" for name in others for it in records_of(files[name]))
        rows.append(row_of("cut", wanted, "by other means", count, "entries",
                           note=f"files {' '.join(it[11] for it in others)}, by one or more cuts of the console or by hand"))
    return rows


def file_rows(day: Day, wanted: str, files: Files) -> list[Row]:
    """One row for each file of the day with its totals, and their sum; a record is an entry or an addenda."""
    sent = {line["file"]: line["at"] for line in day.journal.lines if line["did"] == "sent"}
    rows: list[Row] = []
    copies: list[Row] = []
    states, uploads, acknowledged = day.states(), day.open_uploads(), day.acknowledged()
    for name, text in files.items():
        is_sent = day.archived(name) and name not in uploads
        totals = check_outgoing(name, text)
        note = f"{totals.batches} batches"
        note += f", transmitted {sent.get(name, 'at an unknown time')}" if is_sent else ""
        note += " by hand" if is_sent and "how" in states.get(name, {}) else ""
        note += f", withheld {states[name]['at']}" if day.is_withheld(name) else "" if is_sent else ", NOT TRANSMITTED"
        given_back = len(day.corrected(name, text))
        note += f", {given_back} entries corrected" if given_back else ""
        note += f", acknowledged {acknowledged[name]}" if name in acknowledged else ""
        note += ", not acknowledged" if is_sent and name not in acknowledged and accepted_totals(day, name) else ""
        rows.append(row_of("file", wanted, name, totals.entries, "records", totals.debits, totals.credits, note=note))
        if is_sent and (own := copy_totals(states.get(name, {}))):
            copies.append(row_of("transmitted in its place", wanted, name, own.entries, "records", own.debits, own.credits,
                                 note=f"{own.batches} batches"))
    sums: list[int] = [sum(row[column] for row in rows) for column in ("count", "debits", "credits")]
    return [*rows, *copies, row_of("all files", wanted, str(len(rows)), sums[0], "records", sums[1], sums[2])]


def sent_rows(wanted: str, books: Books | None) -> list[Row]:
    """One row for the submissions of each company that cuts sent on the day, by file, class, direction and settlement day."""
    return [row_of("sent", wanted, it["company"], it["submissions"], "submissions", it["cents"] if it["direction"] == "debit" else 0,
                   it["cents"] if it["direction"] == "credit" else 0,
                   note=f"{it['entries']} entries, {it['sec']}, file {it['file']}, settle {it['settled']}")
            for it in (books.sent if books else ())]
