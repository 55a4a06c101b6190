"""Files and folders that outlast a crash."""

from __future__ import annotations

import errno
import hashlib
import os
import pwd
import shutil
import sys
from pathlib import Path

from achdesk_day.hooks import step
from achdesk_day.stops import Misused


def sync_folder(path: Path) -> None:
    folder = os.open(path, os.O_RDONLY | os.O_DIRECTORY)
    try:
        os.fsync(folder)
    finally:
        os.close(folder)


def private(name: str, flags: int) -> int:
    """Opens a file that its owner alone can read."""
    return os.open(name, flags, 0o600)


def write_synced(path: Path, text: bytes, mode: int = 0o600) -> None:
    """Writes a file whole or not at all, by a temporary name next to it."""
    path = Path(path)
    part = path.with_name(f".{path.name}.part")
    with open(part, "wb", opener=private) as file:
        os.fchmod(file.fileno(), mode)
        file.write(text)
        file.flush()
        os.fsync(file.fileno())
    step()
    os.replace(part, path)
    sync_folder(path.parent)
    step()


def move(source: Path, target: Path) -> None:
    """Renames a file or folder and syncs both folders; copies first if they are on different file systems."""
    source, target = Path(source), Path(target)
    step()
    try:
        os.rename(source, target)
    except OSError as fault:
        if fault.errno != errno.EXDEV:
            raise
        write_synced(target, source.read_bytes())
        source.unlink()
    sync_folder(target.parent)
    sync_folder(source.parent)
    step()


def copy_file(source: Path, target: Path) -> None:
    """Copies a file, as quickly as the system can; the copy is not synced."""
    with open(source, "rb") as taken, open(target, "xb", opener=private) as given:
        shutil.copyfileobj(taken, given, 1 << 20)
    step()


def synced(path: Path) -> str:
    """Syncs a file, and returns its SHA-256."""
    with open(path, "rb") as file:
        os.fsync(file.fileno())
        step()
        return hashlib.file_digest(file, "sha256").hexdigest()


def sha256(text: bytes) -> str:
    return hashlib.sha256(text).hexdigest()


def sha256_of_file(path: Path) -> str:
    with open(path, "rb") as file:
        return hashlib.file_digest(file, "sha256").hexdigest()


def make_folder(path: Path) -> Path:
    path = Path(path)
    if not path.is_dir():
        path.mkdir(mode=0o700, parents=True, exist_ok=True)
        sync_folder(path.parent)
    return path


def give(path: Path, folder: Path) -> None:
    """Gives a file that root made to the owner of a folder."""
    if os.geteuid() == 0:
        os.chown(path, folder.stat().st_uid, folder.stat().st_gid)


def must_own(folder: Path, or_root: bool = False) -> None:
    """Refuses to leave files of another user in a folder. Root may if the command gives what it makes to the owner."""
    if not folder.is_dir():
        raise Misused(f"there is no folder {folder}: make it for the user that runs achdesk-day, mode 0700")
    if folder.stat().st_uid != os.geteuid() and not (or_root and os.geteuid() == 0):
        user = pwd.getpwuid(folder.stat().st_uid).pw_name
        raise Misused(f"{folder} is the folder of {user}: run sudo -u {user} achdesk-day ..")


def given_bytes(word: str) -> bytes:
    """Returns the bytes of a file that a command names, or of standard input for `-`: the user that runs achdesk-day can
    seldom read the files of the person who called it."""
    return sys.stdin.buffer.read() if word == "-" else Path(word).read_bytes()
