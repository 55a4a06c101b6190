"""The journal of what commands did."""

from __future__ import annotations

import errno
import functools
import json
import os
from pathlib import Path
from typing import Any

from achdesk_day.durable import give, sync_folder
from achdesk_day.hooks import now, person, step, user
from achdesk_day.stops import Refused, Unavailable
from achdesk_day.values import stamp

Line = dict[str, Any]


class Journal:
    """A file of JSON lines: `at`, `by` and `did` of each action, with what belongs to it. They are parsed when they are
    first asked for: the journal of backups grows by one in ten minutes, and no backup asks."""

    def __init__(self, path: Path, is_written: bool) -> None:
        self.path = path
        self.file: int | None = None
        text = self.path.read_bytes() if self.path.exists() else b""
        self.text = text[:text.rfind(b"\n") + 1]
        if is_written:
            is_new = not self.path.exists()
            self.file = os.open(path, os.O_RDWR | os.O_CREAT | os.O_APPEND, 0o600)
            os.ftruncate(self.file, len(self.text))  # a line that a crash cut short is of an action that was not recorded
            if is_new:
                give(self.path, self.path.parent)
                sync_folder(self.path.parent)

    def close(self) -> None:
        if self.file is not None:
            os.close(self.file)
            self.file = None

    @functools.cached_property
    def lines(self) -> list[Line]:
        found = []
        for number, line in enumerate(self.text.splitlines(), 1):
            try:
                found.append(json.loads(line))
            except ValueError:
                raise Refused(f"{self.path}: line {number} is damaged") from None
        return found

    def write(self, did: str, **facts: Any) -> None:
        """Appends a line and syncs it. A line that finds no room is taken back."""
        line = {"at": stamp(now()), "by": person() or user(), "did": did, **facts}
        text = json.dumps(line).encode() + b"\n"
        if self.file is None:
            raise ValueError("a journal that is only read is not written")
        step()
        size = os.fstat(self.file).st_size
        try:
            if os.write(self.file, text) != len(text):
                raise OSError(errno.ENOSPC, os.strerror(errno.ENOSPC))
            os.fsync(self.file)
        except OSError as fault:
            os.ftruncate(self.file, size)
            raise Unavailable(f"{self.path} cannot be written: {fault.strerror}") from None
        self.text += text
        if "lines" in self.__dict__:
            self.lines.append(line)
        step()

    def last(self, *kinds: str, **facts: Any) -> Line | None:
        """Returns the newest line of one of these kinds with these facts, or None."""
        for line in reversed(self.lines):
            if line["did"] in kinds and all(line.get(key) == value for key, value in facts.items()):
                return line
        return None

    def unfinished(self, begun: str, *ends: str, **facts: Any) -> Line | None:
        """Returns the newest line of the kind `begun` if no line of a kind in `ends` followed it, or None."""
        line = self.last(begun, *ends, **facts)
        return line if line and line["did"] == begun else None
