"""Locks between commands that run at the same time."""

from __future__ import annotations

import fcntl
import time
from pathlib import Path
from typing import Protocol

from achdesk_day.durable import give
from achdesk_day.stops import Unavailable


class HasFileno(Protocol):
    """A file that a child can be given."""

    def fileno(self) -> int:
        ...


class Lock:
    """Holds a lock file, so that one command at a time changes something. A child that is given the lock's
    descriptor keeps it: if a command is killed while `sftp` works, the next command waits for that `sftp`."""

    def __init__(self, path: Path, seconds: float = 60) -> None:
        self.file = open(path, "a+")
        give(path, path.parent)  # of a restore by root, on a machine where no command ran before
        until = time.monotonic() + seconds
        while True:
            try:
                fcntl.flock(self.file, fcntl.LOCK_EX | fcntl.LOCK_NB)
                return
            except BlockingIOError:
                if time.monotonic() > until:
                    raise Unavailable(f"another achdesk-day, or its sftp, holds {path}") from None
                time.sleep(0.1)

    def fileno(self) -> int:
        return self.file.fileno()

    def close(self) -> None:
        self.file.close()
