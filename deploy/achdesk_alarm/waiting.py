"""Alarms that wait for their receivers, each a file, and which runs of units raised those that were delivered."""

from __future__ import annotations

import contextlib
import datetime
import fcntl
import json
import os
import re
import sys
import time
import uuid
from collections.abc import Iterator
from dataclasses import asdict, dataclass, field
from pathlib import Path

from achdesk_alarm.faults import Undelivered, now

DELIVERED, A_DAY = "delivered", 86_400
INVOCATION = re.compile(r"[0-9a-f]{32}")  # systemd's number of one run of a unit


@dataclass(frozen=True)
class Alarm:
    """An alarm: when, of which unit or program, its text, the receivers that have it, and the run of a unit in which it was
    raised."""

    at: str
    source: str
    text: str
    is_over: bool = False
    delivered: tuple[str, ...] = ()
    number: str = field(default_factory=lambda: uuid.uuid4().hex)
    invocation: str = ""


def write_whole(path: Path, value: object, mode: int = 0o640) -> None:
    """Writes JSON whole or not at all."""
    part = path.with_name(f".{path.name}.{os.getpid()}")
    with open(part, "w", encoding="utf-8", opener=lambda name, flags: os.open(name, flags, mode)) as file:
        os.fchmod(file.fileno(), mode)
        json.dump(value, file)
        file.flush()
        os.fsync(file.fileno())
        os.replace(part, path)
        os.fsync(file.fileno())  # its name too: who raises an alarm cannot open the folder


@contextlib.contextmanager
def alone(path: Path) -> Iterator[None]:
    """Waits until no other process is alone with this folder, or with this file, which is made for it. If it cannot be had, as
    on a full disk, it is not waited for: two alarms in the wrong order are better than none."""
    with contextlib.ExitStack() as stack:
        with contextlib.suppress(OSError):
            descriptor = os.open(path, os.O_RDONLY | (0 if path.is_dir() else os.O_CREAT), 0o644)
            stack.callback(os.close, descriptor)
            fcntl.flock(descriptor, fcntl.LOCK_EX)
        yield


def put(alarm: Alarm, state: Path, second: Path) -> None:
    """Writes an alarm into the folder of those that wait, or into the one in memory if the disk is full."""
    print(f"ALARM: {alarm.source}: {alarm.text}", file=sys.stderr, flush=True)
    name, faults = f"{alarm.at.replace(':', '')}-{alarm.number}.json", []
    for folder in (state / "waiting", second):
        try:
            write_whole(folder / name, asdict(alarm))
            return
        except OSError as fault:
            faults.append(str(fault))
    raise Undelivered(f"the alarm cannot be written: {'; '.join(faults)}")


def waiting(state: Path, second: Path) -> Iterator[tuple[Path, Alarm]]:
    """Lists the alarms that wait, oldest first. A file that is not an alarm is reported, and put aside."""
    paths = [path for folder in (state / "waiting", second) for path in folder.glob("[!.]*.json")]
    for path in sorted(paths, key=lambda it: it.name):
        try:
            told = json.loads(path.read_text(encoding="utf-8"))
            yield path, Alarm(**told | {"delivered": tuple(told["delivered"])})
        except FileNotFoundError:
            continue  # it was delivered meanwhile
        except (ValueError, TypeError, KeyError) as fault:
            print(f"achdesk-alarm: {path} is not an alarm: {fault}", file=sys.stderr)
            path.rename(path.with_suffix(".bad"))


def after_those_of(source: str, state: Path, second: Path) -> datetime.datetime:
    """Returns the time of the next alarm of a unit: now, or right after the newest of that unit that waits, so that a clock that
    was set back does not turn an alarm and its end around."""
    times = [datetime.datetime.fromisoformat(it.at) for _, it in waiting(state, second) if it.source == source]
    return max([now(), *(it + datetime.timedelta(microseconds=1) for it in times)])


def remove(path: Path, alarm: Alarm, state: Path) -> None:
    """Removes an alarm that was delivered. For a day it is kept which run of a unit raised it, which is written first, unless the
    disk is full."""
    folder = state / DELIVERED
    folder.mkdir(exist_ok=True)
    if INVOCATION.fullmatch(alarm.invocation):
        with contextlib.suppress(OSError):
            (folder / alarm.invocation).touch()
    path.unlink()
    for old in folder.iterdir():
        if time.time() - old.stat().st_mtime > A_DAY:
            old.unlink(missing_ok=True)


def has_raised(invocation: str, state: Path, second: Path) -> bool:
    """Whether a run of a unit has raised an alarm itself, which waits or was delivered."""
    return bool(INVOCATION.fullmatch(invocation)) and (any(it.invocation == invocation for _, it in waiting(state, second))
                                                       or (state / DELIVERED / invocation).exists())
