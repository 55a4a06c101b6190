"""A desk's file that stock SQLite writes of the rows of another, as it is or as version 1 had it. It has no checksums."""

import shutil
import sqlite3
import tempfile
from pathlib import Path

LATER = ("numbers", "authorizations")


def write_version_1(source, path):
    """The rows of a desk's file in tables of version 1."""
    write_copy(source, path, LATER)
    new = sqlite3.connect(path, isolation_level=None)
    new.execute("UPDATE desk SET version = 1")
    new.close()


def write_copy(source, path, without=()):
    """The rows of a desk's file in the same tables and indexes, but for some."""
    with tempfile.TemporaryDirectory() as folder:
        copy = Path(folder) / "copy.db"
        for end in ("", "-wal"):
            shutil.copyfile(f"{source}{end}", f"{copy}{end}")
        old, new = sqlite3.connect(copy), sqlite3.connect(path, isolation_level=None)
        schema = [row for row in old.execute("SELECT type, name, sql FROM sqlite_master WHERE sql IS NOT NULL") if row[1] not in without]
        for _, _, statement in schema:
            new.execute(statement)
        for kind, name, _ in schema:
            for row in old.execute(f"SELECT * FROM {name}") if kind == "table" else ():
                new.execute(f"INSERT INTO {name} VALUES ({', '.join('?' * len(row))})", row)
        new.close()
        old.close()
