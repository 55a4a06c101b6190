#!/usr/bin/env python3
"""Reads a desk's file with stock SQLite: `python3 judge/stock_sqlite.py FILE`.

Works on a copy of the file and of the log beside it. The file must open, pass SQLite's own check, have version 2, and
have exactly the tables, columns, keys and indexes that stand here, which were written by hand and not taken from
the program. Then the rows of each table are counted. The exit status is 1 at the first difference.
"""

import shutil
import sqlite3
import sys
import tempfile
from pathlib import Path

# Each table: its columns, with ? where one may be NULL, and INTEGER where one is the rowid; its primary key; what else is
# unique in it.
TABLES = {
    "desk": ("id:INT version:INT odfi:TEXT odfi_name:TEXT destination:TEXT destination_name:TEXT operator_key:BLOB day:INT?", "id"),
    "holidays": ("day:INT", "day"),
    "companies": ("id:TEXT name:TEXT key_digest:BLOB entry_limit:INT credit_limit:INT debit_limit:INT", "id"),
    "submissions": ("company:TEXT ord:INT ref:TEXT sec:TEXT direction:TEXT description:TEXT asked:INT of_ref:TEXT? of_index:INT? "
                    "lapsed:INT settled:INT? file_day:INT? modifier:TEXT? batch:INT?", "company ord", "company ref"),
    "entries": ("company:TEXT ord:INT idx:INT routing:TEXT account:TEXT savings:INT prenote:INT cents:INT ident:TEXT name:TEXT "
                "info:TEXT? seq:INT?", "company ord idx"),
    "returns": ("no:INTEGER company:TEXT ord:INT idx:INT code:TEXT day:INT late:INT info:TEXT", "no", "company ord idx"),
    "changes": ("no:INTEGER company:TEXT ord:INT idx:INT code:TEXT day:INT text:TEXT", "no"),
    "postings": ("no:INTEGER account:TEXT value_day:INT cents:INT cause:TEXT ref:TEXT idx:INT", "no"),
    "suspense": ("no:INTEGER file_key:TEXT item:INT why:TEXT code:TEXT trace:TEXT cents:INT day:INT", "no"),
    "files": ("day:INT modifier:TEXT text:BLOB", "day modifier"),
    "taken": ("file_key:TEXT digest:BLOB day:INT returns:INT changes:INT late:INT suspense:INT", "file_key"),
    "balances": ("account:TEXT value_day:INT cents:TEXT", "account value_day"),
    "numbers": ("sequence:INTEGER nth:INT", "sequence", "nth"),
    "authorizations": ("company:TEXT ord:INT day:INT", "company ord"),
}

# Indexes beside those of the keys.
INDEXES = {
    "entries_seq": ("entries", "seq"),
    "submissions_open": ("submissions", "company settled lapsed ord"),
    "submissions_retries": ("submissions", "company of_ref"),
    "returns_company": ("returns", "company day"),
    "changes_company": ("changes", "company no"),
    "postings_account": ("postings", "account no"),
}


def must_be(what, found, wanted):
    if found != wanted:
        sys.exit(f"{what}: found {found!r}, wanted {wanted!r}")


def columns(db, table):
    return " ".join(f"{name}:{kind}{'' if required or name in rowid(db, table) else '?'}"
                    for _, name, kind, required, _, _ in db.execute(f"PRAGMA table_info({table})"))


def rowid(db, table):
    """The column that is the rowid, if one is."""
    return [name for _, name, kind, _, _, place in db.execute(f"PRAGMA table_info({table})") if place and kind == "INTEGER"]


def indexed(db, index):
    return " ".join(name for _, _, name in db.execute(f"PRAGMA index_info({index})"))


def keys(db, table):
    """The primary key, empty where there is none, and then what else is unique."""
    unique = [(origin, indexed(db, name)) for _, name, is_unique, origin, _ in db.execute(f"PRAGMA index_list({table})") if is_unique]
    primary = [columns for origin, columns in unique if origin == "pk"] or rowid(db, table) or [""]
    return primary + sorted(columns for origin, columns in unique if origin != "pk")


def check(db):
    must_be("integrity_check", db.execute("PRAGMA integrity_check").fetchall(), [("ok",)])
    listed = db.execute("SELECT type, name, tbl_name FROM sqlite_master WHERE name NOT LIKE 'sqlite_autoindex_%'").fetchall()
    must_be("tables and indexes", sorted(listed),
            sorted([("table", name, name) for name in TABLES] + [("index", name, of) for name, (of, _) in INDEXES.items()]))
    strict = {row[1]: row[5] for row in db.execute("PRAGMA table_list")}
    for table, (wanted, *unique) in TABLES.items():
        must_be(f"columns of {table}", columns(db, table), wanted)
        must_be(f"keys of {table}", keys(db, table), unique)
        must_be(f"STRICT of {table}", strict[table], 1)
    automatic = db.execute("SELECT count(*) FROM sqlite_master WHERE name LIKE 'sqlite_autoindex_%'").fetchone()[0]
    must_be("indexes of keys", automatic, sum(len(unique) - len(rowid(db, table)) for table, (_, *unique) in TABLES.items()))
    for index, (_, wanted) in INDEXES.items():
        must_be(f"columns of {index}", indexed(db, index), wanted)
    must_be("version", db.execute("SELECT id, version FROM desk").fetchall(), [(1, 2)])


path = Path(sys.argv[1])
with tempfile.TemporaryDirectory() as folder:
    copy = Path(folder) / "desk.db"
    shutil.copyfile(path, copy)
    log = path.with_name(path.name + "-wal")
    if log.exists():
        shutil.copyfile(log, copy.with_name("desk.db-wal"))
    with sqlite3.connect(copy) as db:
        check(db)
        # One write, which a reader that stops after some lines, as `head`, does not break off.
        counts = (f"{table} {db.execute(f'SELECT count(*) FROM {table}').fetchone()[0]}" for table in TABLES)
        print(f"ok: {len(TABLES)} tables and {len(INDEXES)} indexes, read by SQLite {sqlite3.sqlite_version}", *counts, sep="\n")
