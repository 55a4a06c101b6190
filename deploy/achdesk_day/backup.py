"""The command backup."""

from __future__ import annotations

import json
import re
import shutil
import subprocess
import time
from pathlib import Path
from typing import Any

from achdesk_day.day import Day
from achdesk_day.durable import copy_file, make_folder, move, synced, write_synced
from achdesk_day.hooks import now, step
from achdesk_day.repository import begin_repositories, expire_repositories, places, store
from achdesk_day.stops import Misused, Refused, Unavailable
from achdesk_day.values import stamp

Manifest = dict[str, Any]
SHARED = 0o640  # for the group that may read the desk's file
STORED = "stored.json"  # in a backup's folder: the repositories that have it
HEAD_SIZE = 32  # the log's header, which changes when the log begins again
BACKUP_NAME = re.compile(r"\d{4}-\d\d-\d\dT\d{6}Z")


def log_of(path: Path) -> Path:
    return path.with_name(path.name + "-wal")


def log_head(path: Path) -> bytes:
    """Reads the log's header, which changes when the log begins again, or b"" without a log."""
    try:
        with open(path, "rb") as file:
            return file.read(HEAD_SIZE)
    except FileNotFoundError:
        return b""


def finished_backups(folder: Path) -> list[str]:
    """Lists the names of backups that were finished, oldest first. One that is still being copied has no manifest."""
    return sorted(path.parent.name for path in folder.glob("*/backup.json") if BACKUP_NAME.fullmatch(path.parent.name))


def backup(day: Day) -> None:
    """Makes a backup of the running desk, adds it to the repositories, and removes older copies of this machine."""
    if day.words.init:
        begin_repositories(day)
        return
    if not day.dry:
        make_folder(day.backups)
        for path in day.backups.glob(".*"):
            if path.name.endswith((".part", ".expired")) and path.is_dir():
                shutil.rmtree(path)  # of a backup that was killed; it never had its name
            elif path.name.endswith(".part"):
                path.unlink()  # of a file that found no room
    if day.words.expire_only:
        expire_repositories(day)
    else:
        make_backup(day)
    for name in finished_backups(day.backups)[:-max(1, day.settings.number("backup", "newest"))]:
        expire(day, name)


def make_backup(day: Day) -> None:
    began, clock, source = now(), time.monotonic(), day.desk_file()
    name = f"{began:%Y-%m-%dT%H%M%SZ}"
    if not source.exists():
        raise Misused(f"there is no desk file {source}")
    if (day.backups / name).exists():
        raise Unavailable(f"the backup {name} exists already: wait a second")
    if day.dry:
        day.say(f"would back up {source} to {day.backups / name}")
        return
    part = day.backups / f".{name}.part"
    try:
        part.mkdir(mode=0o700)
        part.chmod(0o750)  # whatever the umask
        manifest: Manifest = copy_pair(source, part) | {"began": stamp(began), "desk_file": str(source)}
        copied = time.monotonic()
        try_desk(day, part, source.name)
        tried = time.monotonic() - copied
        manifest["finished"] = stamp(now())
        for path in part.iterdir():
            path.chmod(SHARED)
        write_synced(part / "backup.json", json.dumps(manifest, indent=1).encode() + b"\n", SHARED)
        move(part, day.backups / name)
    except OSError as fault:
        raise Unavailable(f"no backup was made: {fault}") from None
    finally:
        shutil.rmtree(part, ignore_errors=True)
    size, seconds = sum(manifest["bytes"].values()), time.monotonic() - clock
    day.record("backed-up", name=name, tag=day.words.tag, **manifest)
    day.say(f"backed up {day.backups / name}: {size:,} bytes in {seconds:.1f} s, of which {tried:.1f} s to open a copy")
    store(day, day.backups / name, manifest["began"], day.words.tag)
    write_synced(day.backups / name / STORED, json.dumps(places(day)).encode(), SHARED)


def copy_pair(source: Path, folder: Path, tries: int = 100) -> Manifest:
    """Copies the desk's file, then its log. If the log's header is the same before and after, the pair is what a crash
    between the two moments leaves: what a checkpoint moves into the file is still in the log that is copied after it.
    Otherwise the log began again in between, and the pair is copied again. The copies are synced afterwards: a disk
    that is slow to sync must not give the log time to begin again."""
    for made in range(1, tries + 1):
        head = log_head(log_of(source))
        copies = [folder / path.name for path in ((source, log_of(source)) if head else (source,))]
        for path in copies:
            copy_file(source.with_name(path.name), path)
        if head == log_head(log_of(source)):
            return {"copies": made, "sha256": {path.name: synced(path) for path in copies},
                    "bytes": {path.name: path.stat().st_size for path in copies}}
        for path in copies:
            path.unlink()
    raise Unavailable(f"the log began again during each of {tries} copies")


def try_desk(day: Day, folder: Path, file: str) -> None:
    """Opens a copy of a backup with `achdesk stdio`, which checks each row and page. A request without a key is
    answered 403 if the desk opens, so that no key is needed here."""
    scratch = day.backups / f".{folder.name.strip('.').removesuffix('.part')}-trial.part"
    try:
        shutil.rmtree(scratch, ignore_errors=True)
        scratch.mkdir(mode=0o700, parents=True)
        for path in (folder / file, log_of(folder / file)):
            if path.exists():
                shutil.copyfile(path, scratch / path.name)
        step()
        done = subprocess.run([day.settings["files"]["program"], "stdio", str(scratch / file)], capture_output=True,
                              input=b"GET /ops/status HTTP/1.1\r\nHost: backup\r\nConnection: close\r\n\r\n")
    except OSError as fault:
        raise Unavailable(f"the backup cannot be tried: {fault}") from None
    finally:
        shutil.rmtree(scratch, ignore_errors=True)
    if done.returncode != 0 or not done.stdout.startswith(b"HTTP/1.1 403 "):
        said = (done.stdout + done.stderr)[:200].decode(errors="replace").strip()
        raise Refused(f"the backup in {folder} does not open: {said or done.returncode}")


def backed_up(day: Day) -> None:
    """Ends with status 3 unless a backup that began after the last cut is in every repository."""
    cut = day.journal.last("cut")
    for name in reversed(finished_backups(day.backups)):
        manifest = json.loads((day.backups / name / "backup.json").read_bytes())
        if cut and manifest["began"] < cut["at"]:
            break
        stored = day.backups / name / STORED
        if stored.exists() and set(places(day)) <= set(json.loads(stored.read_bytes())):
            day.say(f"the backup {name} has the last cut" if cut else f"the newest backup is {name}")
            return
    if cut:
        raise Unavailable(f"no backup that began after the cut of {cut['at']} is in every repository yet")
    day.say("nothing was cut")


def expire(day: Day, name: str) -> None:
    if day.dry:
        day.say(f"would remove the backup {name}")
        return
    gone = day.backups / f".{name}.expired"
    move(day.backups / name, gone)
    shutil.rmtree(gone)
    day.record("expired", name=name)
    day.say(f"removed the backup {name}")
