"""Files in Nacha's format: their records and totals."""

from __future__ import annotations

from collections.abc import Collection, Iterable
from dataclasses import dataclass

from achdesk_day.stops import Refused
from achdesk_day.values import money

Sums = tuple[int, int, int, int]


@dataclass(frozen=True)
class Totals:
    """What a file's control record says. `entries` counts entry and addenda records; money is in cents."""

    batches: int
    entries: int
    debits: int
    credits: int

    def facts(self) -> dict[str, int]:
        return {"batches": self.batches, "entries": self.entries, "debits": self.debits, "credits": self.credits}

    def __str__(self) -> str:
        amounts = f"debits {money(self.debits)}, credits {money(self.credits)}"
        return f"{self.batches} batches, {self.entries} records, {amounts}"


def records_of(text: bytes) -> list[str]:
    """Divides a file into its records of 94 characters, with or without line ends."""
    told = text.decode("ascii", errors="replace")
    records, at = [], 0
    while at < len(told):
        records.append(told[at:at + 94])
        at += 94
        while told[at:at + 1] in ("\r", "\n"):
            at += 1
    return records


def summed(records: Iterable[str]) -> Sums:
    """Sums the entries and addenda: their number, the hash, debits and credits."""
    entries = [it for it in records if it[0] == "6"]
    debits = sum(int(it[29:39]) for it in entries if it[2] in "56789")
    credits = sum(int(it[29:39]) for it in entries if it[2] in "01234")
    hashed = sum(int(it[3:11]) for it in entries) % 10 ** 10
    return sum(it[0] in "67" for it in records), hashed, debits, credits


def batches_of(text: bytes) -> list[list[str]]:
    """Divides a file into its batches, each a list of records from the batch header to the batch control."""
    found: list[list[str]] = []
    for record in records_of(text):
        if record[:1] == "5":
            found.append([])
        if found and record[:1] in "5678":
            found[-1].append(record)
    return found


def entries_of(text: bytes) -> dict[str, str]:
    """Returns the entry records of a file by trace number."""
    return {record[79:94]: record for batch in batches_of(text) for record in batch if record[0] == "6"}


def totals_without(text: bytes, traces: Collection[str]) -> Totals | None:
    """Returns the totals of a file without the entries with these traces and their addenda, or None if no entry is left."""
    sums = []
    for batch in batches_of(text):
        kept, is_kept = [], False
        for record in batch:
            is_kept = record[79:94] not in traces if record[0] == "6" else is_kept
            kept += [record] if record[0] in "67" and is_kept else []
        sums += [summed(kept)] if kept else []
    if not sums:
        return None
    return Totals(len(sums), *(sum(it[at] for it in sums) for at in (0, 2, 3)))


def numbers_of(record: str, *fields: tuple[int, int]) -> tuple[int, ...]:
    """Returns numbers of a record, each of the positions from `at` to before `end`, counted from 0."""
    return tuple(int(record[at:end]) for at, end in fields)


def must(what: str, found: object, wanted: object) -> None:
    if found != wanted:
        raise Refused(f"{what} is {found}, not {wanted}")


def check_outgoing(name: str, text: bytes) -> Totals:
    """Checks a file that a cut made against its header and its control records, and returns its totals."""
    records = [text[at:at + 94].decode("ascii", errors="replace") for at in range(0, len(text), 95)]
    must(f"file {name}: what is beyond whole blocks of ten records", (len(text) % 950, text[94::95].strip(b"\n")), (0, b""))
    must(f"file {name}: its number of blocks", len(text) // 950, -(-sum(it != "9" * 94 for it in records) // 10))
    return check_records(f"file {name}", records, name)


def check_records(what: str, records: list[str], name: str | None = None) -> Totals:
    """Checks records against their control records, and against the day and modifier of a name; returns the totals."""
    try:
        header, *body, control = [it for it in records if it != "9" * 94]
        must(f"{what}: the type of the first and of the last record", header[0] + control[0], "19")
        if name:
            must(f"{what}: the header's day and modifier", header[23:29] + header[33], name[2:10].replace("-", "") + name[11])
        batch = []
        for record in body:
            batch.append(record)
            if record[0] == "8":
                must(f"{what}: a batch control", numbers_of(record, (4, 10), (10, 20), (20, 32), (32, 44)), summed(batch))
                batch = []
        must(f"{what}: what follows the last batch", batch, [])
        told = numbers_of(control, (1, 7), (7, 13), (13, 21), (21, 31), (31, 43), (43, 55))
        must(f"{what}: the file control", told, (sum(it[0] == "8" for it in body), -(-(len(body) + 2) // 10), *summed(body)))
    except (ValueError, IndexError):
        raise Refused(f"{what}: it is not a file of batches, or a number in it is not one") from None
    return Totals(told[0], told[2], told[4], told[5])


@dataclass(frozen=True)
class Item:
    """A return or change of an incoming file: its number there, its code, and the cents that came back."""

    number: int
    code: str
    debits: int
    credits: int


def items_of(text: bytes) -> list[Item]:
    """Lists the items of an incoming file that the desk took."""
    records = records_of(text)
    pairs = [(entry, addenda) for entry, addenda in zip(records, records[1:]) if entry[0] == "6"]
    return [Item(number, addenda[3:6], *((int(entry[29:39]), 0) if entry[2] in "56789" else (0, int(entry[29:39]))))
            for number, (entry, addenda) in enumerate(pairs, 1)]


def key_of_incoming(text: bytes) -> str:
    """Returns the key by which the desk knows an incoming file: origin, date, time and modifier of its header."""
    return records_of(text[:100])[0][13:34]
