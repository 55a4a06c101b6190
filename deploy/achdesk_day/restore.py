"""The command restore."""

from __future__ import annotations

import datetime
import fcntl
import glob
import gzip
import json
import os
import re
import shutil
import struct
import sys
from pathlib import Path
from typing import TextIO

from achdesk_day.backup import Manifest, finished_backups, log_of, try_desk
from achdesk_day.day import Day
from achdesk_day.durable import copy_file, give, move, must_own, sha256_of_file, sync_folder, synced, write_synced
from achdesk_day.hooks import now
from achdesk_day.repository import taken_back
from achdesk_day.stops import Misused, Refused, Unavailable
from achdesk_day.values import stamp, time_of


def restore(day: Day) -> None:
    """Puts a backup in the place of the desk's files, which are kept under a dated name."""
    target = Path(day.words.to).absolute() if day.words.to else day.desk_file()
    must_own(target.parent, or_root=True)
    scratch = day.backups / ".taken-back.part"
    shutil.rmtree(scratch, ignore_errors=True)
    try:
        put_back(day, target, chosen_backup(day, scratch))
    finally:
        shutil.rmtree(scratch, ignore_errors=True)


def put_back(day: Day, target: Path, source: Path) -> None:
    manifest = manifest_of(day, source)
    verify(day, source, manifest)
    refuse_running(target)
    moment = f"{now():%Y-%m-%dT%H%M%SZ}"
    kept, number = target.with_name(f"{target.name}-before-restore-{moment}"), 1
    while kept.exists():  # of another restore in this second
        number += 1
        kept = target.with_name(f"{target.name}-before-restore-{moment}-{number}")
    present = [path for path in (target, log_of(target), target.with_name(target.name + "-journal")) if path.exists()]
    if day.dry:
        day.say(f"would restore {source} to {target}" + (f" and keep the present files in {kept}" if present else ""))
        return
    if target == day.desk_file():
        day.record("restoring", name=source.name, to=str(target), began=manifest["began"])
    fresh = fresh_copy(source, target, manifest)
    if present:
        kept.mkdir(mode=0o700)
        give(kept, target.parent)
    for path in present:  # the file before its log: a log alone is not a desk, and a file alone is an older one
        move(path, kept / path.name)
    for path in sorted(fresh.iterdir(), reverse=True):  # and back in the other order
        move(path, target.with_name(path.name))
    fresh.rmdir()
    day.record("restored", name=source.name, to=str(target), began=manifest["began"], kept=str(kept) if present else None)
    shown = day.words.backup if day.words.backup.startswith("repository:") else source
    day.say(f"restored {shown} to {target}" + (f"; the files that were there are in {kept}" if present else ""))
    list_since(day, manifest["began"], moment)


def chosen_backup(day: Day, scratch: Path) -> Path:
    """Returns the folder of a backup: of a copy of this machine by its name, of a repository, or any folder by a path with a
    slash."""
    if day.words.backup.startswith("repository:"):
        return taken_back(day, day.words.backup.removeprefix("repository:"), scratch)
    if "/" in day.words.backup:
        folder = Path(day.words.backup).absolute()
        if not folder.is_dir():
            raise Misused(f"there is no folder {folder}")
        return folder
    names = finished_backups(day.backups)
    name: str = names[-1] if names and day.words.backup == "newest" else day.words.backup
    if name not in names:
        raise Misused(f"{day.backups} has no finished backup {day.words.backup}; it has: {' '.join(names) or 'none'}")
    return day.backups / name


def manifest_of(day: Day, source: Path) -> Manifest:
    """Returns the manifest of a backup. For a copy that was made by other means it makes one: such a copy has what was
    answered until its files were written last."""
    if (source / "backup.json").exists():
        manifest: Manifest = json.loads((source / "backup.json").read_bytes())
        return manifest
    paths = [source / day.desk_file().name, log_of(source / day.desk_file().name)]
    for path in paths:
        if not path.exists():
            raise Misused(f"{source} is not a backup: it has no {path.name}, and a desk is its file and its log")
    written = max(path.stat().st_mtime for path in paths)
    began = stamp(datetime.datetime.fromtimestamp(written, datetime.timezone.utc))
    day.say(f"{source} was not made by achdesk-day; its files were written last at {began}")
    return {"desk_file": str(day.desk_file()), "began": began, "sha256": {path.name: sha256_of_file(path) for path in paths}}


def verify(day: Day, source: Path, manifest: Manifest) -> None:
    """Compares a backup with its manifest, and opens a copy of it."""
    for name, digest in manifest["sha256"].items():
        if not (source / name).exists() or sha256_of_file(source / name) != digest:
            raise Refused(f"{source / name} is not the file that was backed up")
    try_desk(day, source, Path(manifest["desk_file"]).name)


def refuse_running(path: Path) -> None:
    """Refuses while a process holds SQLite's lock on the desk's file."""
    if not path.exists():
        return
    with open(path, "r+b") as file:
        asked = struct.pack("hhqqi4x", fcntl.F_WRLCK, os.SEEK_SET, 0x40000000, 512, 0)
        kind, _, _, _, holder = struct.unpack("hhqqi4x", fcntl.fcntl(file, fcntl.F_GETLK, asked))
    if kind != fcntl.F_UNLCK:
        raise Refused(f"a desk is running on {path}: stop it first (systemctl stop achdesk)")


def fresh_copy(source: Path, target: Path, manifest: Manifest) -> Path:
    """Copies a backup's files next to the target, under the names that they will have there."""
    fresh = target.with_name(f".{target.name}-restoring")
    shutil.rmtree(fresh, ignore_errors=True)
    fresh.mkdir(mode=0o700, parents=True)
    file = Path(manifest["desk_file"]).name
    for name, digest in manifest["sha256"].items():
        path = fresh / (target.name + name.removeprefix(file))
        copy_file(source / name, path)
        if synced(path) != digest:
            raise Unavailable(f"{path} is not a copy of {source / name}: the disk may be failing")
        path.chmod(0o640 if target.parent.stat().st_mode & 0o050 else 0o600)  # for the group that may enter the folder
        give(path, target.parent)
    sync_folder(fresh)
    return fresh


def list_since(day: Day, began: str, moment: str) -> None:
    """Lists what may have been answered since the backup began: from the journal, and from the proxy's log."""
    kinds = ("opened", "set-holidays", "posting", "cutting", "cut", "sent", "withheld", "correcting")
    own = [line for line in day.journal.lines if line["at"] >= began and line["did"] in kinds]
    logs = sorted(glob.glob(day.settings["files"]["proxy_logs"]))
    asked = [line for path in logs for line in writes_in_log(path, time_of(began).replace(microsecond=0))]
    lines = [f"The desk was restored to a backup that began {began}. What follows may have been answered since.",
             "", "By achdesk-day:", *(json.dumps(line) for line in own), "", "By way of the proxy:", *asked, "",
             "Before companies submit anything new, repeat this, one day after the other, and up to each cut: set the day",
             "(achdesk-day open --day), move the incoming files that were taken before the cut from the archive back to the",
             "inbox (achdesk-day returns), let companies send again what they had sent before it, in the same order, and make",
             "the cut (achdesk-day cut --remake), which compares each file with the one that was transmitted."]
    path = day.reports / f"restored-{moment}.txt"
    write_synced(path, ("\n".join(lines) + "\n").encode())
    give(path, day.reports)
    for line in own:
        day.say(f"  since: {line['at']} {line['did']} {line.get('file') or line.get('day') or ''}")
    day.say(f"  since: {len(asked)} requests that may have written, by way of the proxy")
    day.say(f"listed in {path}")


def opened(path: str) -> TextIO:
    if path.endswith(".gz"):
        return gzip.open(path, "rt", errors="replace")
    return open(path, errors="replace")


def writes_in_log(path: str, began: datetime.datetime) -> list[str]:
    """Lists the requests of the proxy's log from a time on that the desk may have carried out."""
    lines = []
    try:
        with opened(path) as file:
            for line in file:
                found = re.match(r'(\S+) .*?"POST [^"]*" (200|201|499|500|502|504) ', line)
                if found and time_of(found[1]) >= began:
                    lines.append(line.rstrip("\n"))
    except (OSError, ValueError) as fault:
        print(f"achdesk-day: {path} cannot be read: {fault}", file=sys.stderr)
    return lines
