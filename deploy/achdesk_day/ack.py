"""The command ack."""

from __future__ import annotations

import csv
import io
import re

from achdesk_day.archive import accepted_totals, archive, copy_totals, fetched
from achdesk_day.day import Day
from achdesk_day.durable import given_bytes, sha256
from achdesk_day.nacha import Totals
from achdesk_day.stops import Misused
from achdesk_day.values import file_name, order_of

ACK_COLUMNS = ["file", "batches", "entries", "debits", "credits"]


def read_ack(path: str) -> tuple[dict[str, Totals], str]:
    """Reads an acknowledgement, a CSV with the columns file, batches, entries, debits, credits. Returns the totals by file,
    and the SHA-256 of the list."""
    try:
        given = given_bytes(path)
        rows = [row for row in csv.reader(io.StringIO(given.decode("ascii"), newline="")) if row]
    except (OSError, UnicodeError) as fault:
        raise Misused(f"the acknowledgement cannot be read: {fault}") from None
    if not rows or rows[0] != ACK_COLUMNS:
        raise Misused(f"{path}: the first row is not {','.join(ACK_COLUMNS)}")
    told: dict[str, Totals] = {}
    for number, row in enumerate(rows[1:], 1):
        if len(row) != 5 or not all(re.fullmatch(r"[0-9]{1,12}", it) for it in row[1:]):
            raise Misused(f"{path}: row {number} does not have a file and four whole numbers")
        if told.setdefault(file_name(row[0]), totals := Totals(*map(int, row[1:]))) is not totals:
            raise Misused(f"{path}: row {number}: {row[0]} is there twice")
    return told, sha256(given)


def ack(day: Day) -> None:
    """Compares an acknowledgement with the control records of the files that were transmitted."""
    (told, digest), names = read_ack(day.words.file), set(day.sent_names())
    for name, totals in sorted(told.items(), key=lambda it: order_of(it[0])):
        if name not in names:
            is_withheld = day.states().get(name, {}).get("did") == "withheld"
            day.alarm(f"the acknowledgement has {name}, which was {'withheld' if is_withheld else 'not transmitted from here'}")
            continue
        if name in day.second_uploads():
            day.alarm(f"the acknowledgement has {name}, which is being transmitted a second time, and may be of the first time. Run "
                      "achdesk-day send, and give the list again afterwards")
            continue
        path, own = fetched(day, name)
        own, accepted = copy_totals(day.states().get(name, {})) or own, accepted_totals(day, name)
        if totals not in (own, accepted):
            day.alarm(f"{name} was transmitted with {own}, and acknowledged with {totals}")
            continue
        if accepted is None and name not in day.acknowledged():
            day.alarm(f"the acknowledgement has {name}, of which achdesk-day correct has returned every entry. Ask the ACH "
                      "operator whether it processes the file")
            continue
        day.say(f"acknowledged {name}: {totals}" + ("" if totals == own else ", without the entries that were corrected"))
        if not day.dry:
            if name in day.open_uploads():
                archive(day, path, name, own, by_ack=True)
            if name not in day.acknowledged():
                day.record("acknowledged", file=name, ack=digest)
    last = max((name[:10] for name in told), default="9999")
    missing = [name for name in day.sent_names() if name not in told | day.acknowledged() and name[:10] <= last
               and accepted_totals(day, name)]
    if missing:
        day.alarm(f"not acknowledged: {' '.join(missing)}")
