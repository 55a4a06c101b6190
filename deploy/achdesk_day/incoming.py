"""Files that arrive in the inbox: their names, sizes and bytes, whoever delivers them."""

from __future__ import annotations

import json
import os
import re
import stat
from dataclasses import dataclass
from pathlib import Path

from achdesk_day.durable import move, sync_folder, write_synced
from achdesk_day.journal import Line
from achdesk_day.stops import Misused, Refused

UNFINISHED = (".part", ".tmp", ".filepart")  # endings of files that are still being delivered
MOST_BYTES = 4_194_304  # what the desk takes
LONGEST_NAME = 100


@dataclass(frozen=True)
class Arrived:
    """A file of the inbox. `shown` is its name in ASCII, as it is printed and archived."""

    path: Path
    size: int
    written: float
    is_file: bool
    is_whole: bool

    @property
    def shown(self) -> str:
        return shown(self.path.name)


def shown(name: str) -> str:
    plain = name.encode("utf-8", "surrogateescape").decode("ascii", "backslashreplace")
    return re.sub(r"[^ -~]", lambda it: f"\\x{ord(it[0]):02x}", plain)


def safe_name(name: str) -> str:
    """Returns a name for the archive: short, and with letters, digits and . _ - alone."""
    return re.sub(r"[^A-Za-z0-9._-]", "_", shown(name))[:LONGEST_NAME]


def arrived(inbox: Path) -> list[Arrived]:
    """Lists what is in the inbox, in the order of the names. Names that begin with a dot are left out."""
    if not inbox.is_dir():
        raise Misused(f"there is no inbox {inbox}")
    found = []
    for path in sorted(it for it in inbox.iterdir() if not it.name.startswith(".")):
        try:
            it = path.lstat()
        except FileNotFoundError:
            continue
        if not stat.S_ISDIR(it.st_mode):
            found.append(Arrived(path, it.st_size, it.st_mtime, stat.S_ISREG(it.st_mode), not path.name.endswith(UNFINISHED)))
    return found


def text_of(file: Arrived) -> bytes:
    """Reads a file, at most one byte more than the desk takes. Neither a link nor a pipe is followed or waited for."""
    descriptor = os.open(file.path, os.O_RDONLY | os.O_NOFOLLOW | os.O_NONBLOCK)
    with open(descriptor, "rb") as reader:
        if not stat.S_ISREG(os.fstat(descriptor).st_mode):
            raise Refused(f"{file.shown} is not a file")
        return reader.read(MOST_BYTES + 1)


def put_away(file: Arrived, text: bytes, folder: Path, facts: Line) -> None:
    """Archives the bytes of a file under a safe name, with what is known of it next to it, and removes it from the inbox
    unless it was written to since."""
    name = f"{facts['sha256'][:16]}-{safe_name(file.path.name)}"
    write_synced(folder / f"{name}.json", json.dumps(facts, indent=1).encode() + b"\n")
    write_synced(folder / name, text)
    remove(file)


def remove(file: Arrived) -> None:
    now = file.path.lstat()
    if (now.st_size, now.st_mtime) == (file.size, file.written):
        file.path.unlink()
        sync_folder(file.path.parent)


def set_aside(file: Arrived, folder: Path, facts: Line) -> None:
    """Moves a file that is too large to be read, without reading it."""
    name = f"{facts['refused']}-{file.size}-{safe_name(file.path.name)}"
    write_synced(folder / f"{name}.json", json.dumps(facts, indent=1).encode() + b"\n")
    if folder.stat().st_dev == file.path.parent.stat().st_dev:
        move(file.path, folder / name)
    else:  # it is not copied, and it is left out from now on
        os.rename(file.path, file.path.with_name(f".{name}"))
        sync_folder(file.path.parent)
