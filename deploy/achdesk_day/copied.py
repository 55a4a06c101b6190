"""A copy of the desk's file, which stock SQLite reads with the audit views."""

from __future__ import annotations

import contextlib
import fcntl
import os
import shutil
import sqlite3
import tempfile
import time
from collections.abc import Iterator
from pathlib import Path

from achdesk_day.backup import copy_pair
from achdesk_day.run import Run
from achdesk_day.stops import Misused

OF_THE_SOURCE, INSTALLED = Path(__file__).resolve().parents[2] / "docs/audit.sql", Path("/usr/share/achdesk/audit.sql")
NAMES = ".copy-"
YOUNG = 60  # seconds in which a folder that nobody has locked may be one that was made just now


@contextlib.contextmanager
def copied_desk(run: Run) -> Iterator[sqlite3.Connection]:
    """Copies the desk's files as a backup does, and opens the copy with the audit views."""
    if not run.desk_file().exists():
        raise Misused(f"the desk's file {run.desk_file()} is not on this machine: see [files] desk of {run.settings.path}")
    views = OF_THE_SOURCE if OF_THE_SOURCE.exists() else INSTALLED
    with scratch(run.state) as folder:
        copy_pair(run.desk_file(), folder)
        with contextlib.closing(sqlite3.connect(folder / run.desk_file().name)) as db:
            db.row_factory = sqlite3.Row
            db.executescript(views.read_text())
            yield db


@contextlib.contextmanager
def scratch(parent: Path) -> Iterator[Path]:
    """Makes a folder that is removed afterwards, and removes those of commands that were killed: whoever works in one has
    locked it."""
    for old in parent.glob(f"{NAMES}*"):
        with contextlib.suppress(OSError):
            remove_if_left(old)
    folder = Path(tempfile.mkdtemp(prefix=NAMES, dir=parent))
    descriptor = os.open(folder, os.O_RDONLY)
    try:
        fcntl.flock(descriptor, fcntl.LOCK_EX)
        yield folder
    finally:
        shutil.rmtree(folder, ignore_errors=True)
        os.close(descriptor)


def remove_if_left(folder: Path) -> None:
    descriptor = os.open(folder, os.O_RDONLY)
    try:
        fcntl.flock(descriptor, fcntl.LOCK_EX | fcntl.LOCK_NB)
        if time.time() - folder.stat().st_mtime > YOUNG:
            shutil.rmtree(folder)
    finally:
        os.close(descriptor)
