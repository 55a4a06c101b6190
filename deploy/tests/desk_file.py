"""A desk's file for tests, with the tables as `achdesk init` makes them (docs/audit/tables.md)."""

from __future__ import annotations

import contextlib
import datetime
import sqlite3
from pathlib import Path
from typing import Any

TABLES = """
CREATE TABLE desk (id INT NOT NULL, version INT NOT NULL, odfi TEXT NOT NULL, odfi_name TEXT NOT NULL, destination TEXT NOT NULL, destination_name TEXT NOT NULL, operator_key BLOB NOT NULL, day INT, PRIMARY KEY (id)) STRICT;
CREATE TABLE holidays (day INT NOT NULL, PRIMARY KEY (day)) STRICT;
CREATE TABLE companies (id TEXT NOT NULL, name TEXT NOT NULL, key_digest BLOB NOT NULL, entry_limit INT NOT NULL, credit_limit INT NOT NULL, debit_limit INT NOT NULL, PRIMARY KEY (id)) STRICT;
CREATE TABLE submissions (company TEXT NOT NULL, ord INT NOT NULL, ref TEXT NOT NULL, sec TEXT NOT NULL, direction TEXT NOT NULL, description TEXT NOT NULL, asked INT NOT NULL, of_ref TEXT, of_index INT, lapsed INT NOT NULL, settled INT, file_day INT, modifier TEXT, batch INT, PRIMARY KEY (company, ord), UNIQUE (company, ref)) STRICT;
CREATE TABLE entries (company TEXT NOT NULL, ord INT NOT NULL, idx INT NOT NULL, routing TEXT NOT NULL, account TEXT NOT NULL, savings INT NOT NULL, prenote INT NOT NULL, cents INT NOT NULL, ident TEXT NOT NULL, name TEXT NOT NULL, info TEXT, seq INT, PRIMARY KEY (company, ord, idx)) STRICT;
CREATE TABLE returns (no INTEGER PRIMARY KEY, company TEXT NOT NULL, ord INT NOT NULL, idx INT NOT NULL, code TEXT NOT NULL, day INT NOT NULL, late INT NOT NULL, info TEXT NOT NULL, UNIQUE (company, ord, idx)) STRICT;
CREATE TABLE changes (no INTEGER PRIMARY KEY, company TEXT NOT NULL, ord INT NOT NULL, idx INT NOT NULL, code TEXT NOT NULL, day INT NOT NULL, text TEXT NOT NULL) STRICT;
CREATE TABLE postings (no INTEGER PRIMARY KEY, account TEXT NOT NULL, value_day INT NOT NULL, cents INT NOT NULL, cause TEXT NOT NULL, ref TEXT NOT NULL, idx INT NOT NULL) STRICT;
CREATE TABLE suspense (no INTEGER PRIMARY KEY, file_key TEXT NOT NULL, item INT NOT NULL, why TEXT NOT NULL, code TEXT NOT NULL, trace TEXT NOT NULL, cents INT NOT NULL, day INT NOT NULL) STRICT;
CREATE TABLE files (day INT NOT NULL, modifier TEXT NOT NULL, text BLOB NOT NULL, PRIMARY KEY (day, modifier)) STRICT;
CREATE TABLE taken (file_key TEXT NOT NULL, digest BLOB NOT NULL, day INT NOT NULL, returns INT NOT NULL, changes INT NOT NULL, late INT NOT NULL, suspense INT NOT NULL, PRIMARY KEY (file_key)) STRICT;
CREATE TABLE balances (account TEXT NOT NULL, value_day INT NOT NULL, cents TEXT NOT NULL, PRIMARY KEY (account, value_day)) STRICT;
CREATE TABLE numbers (sequence INTEGER PRIMARY KEY, nth INT NOT NULL, UNIQUE (nth)) STRICT;
CREATE TABLE authorizations (company TEXT NOT NULL, ord INT NOT NULL, day INT NOT NULL, PRIMARY KEY (company, ord)) STRICT;
"""
EPOCH = datetime.date(1970, 1, 1)


def days(day: datetime.date | None) -> int | None:
    return (day - EPOCH).days if day else None


class DeskFile:
    """The file of a desk with one company, MILL01."""

    def __init__(self, path: Path, day: datetime.date) -> None:
        self.path = path
        with contextlib.closing(sqlite3.connect(path)) as db:
            db.executescript(TABLES)
        self.add("desk", 1, 2, "121042882", "OUR BANK", "061000146", "ACH OPERATOR", b"", days(day))
        self.add("companies", "MILL01", "MILL STREET", b"", 500000, 20000000, 5000000)

    def add(self, table: str, *values: Any) -> None:
        with contextlib.closing(sqlite3.connect(self.path)) as db, db:
            db.execute(f"INSERT INTO {table} VALUES ({', '.join('?' * len(values))})", values)

    def submit(self, number: int, ref: str, direction: str, asked: datetime.date, *entries: tuple[int, str, str],
               cut: datetime.date | None = None) -> None:
        """Adds a submission with entries of (cents, name, account), which a cut sent into file A or nobody has sent yet."""
        self.add("submissions", "MILL01", number, ref, "PPD", direction, "DUES", days(asked), None, None, 0, days(asked) if cut else None,
                 days(cut), "A" if cut else None, number if cut else None)
        for at, (cents, name, account) in enumerate(entries, 1):
            place = number * 100 + at if cut else None
            self.add("entries", "MILL01", number, at, "091000019", account, 0, 0, cents, f"E{at}", name, None, place)
            if place:
                self.add("numbers", place, place)

    def give_back(self, no: int, number: int, entry: int, code: str, taken: datetime.date, is_late: bool) -> None:
        self.add("returns", no, "MILL01", number, entry, code, days(taken), int(is_late), "")

    def take(self, key: str, taken: datetime.date, returns: int = 0, changes: int = 0, late: int = 0, suspense: int = 0) -> None:
        self.add("taken", key, b"", days(taken), returns, changes, late, suspense)

    def suspend(self, no: int, key: str, item: int, trace: str, cents: int, taken: datetime.date, is_debit: bool = True) -> None:
        self.add("suspense", no, key, item, "NoTrace", "R01", trace, cents, days(taken))
        signed = -cents if is_debit else cents
        self.add("postings", 2 * no - 1, "S", days(taken), signed, "return", "", 0)
        self.add("postings", 2 * no, "O", days(taken), -signed, "return", "", 0)
