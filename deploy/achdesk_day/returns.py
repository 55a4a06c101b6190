"""The command returns."""

from __future__ import annotations

import dataclasses
import subprocess
from pathlib import Path

from achdesk_day.day import Day
from achdesk_day.durable import make_folder, sha256, write_synced
from achdesk_day.holidays import is_closed
from achdesk_day.incoming import MOST_BYTES, Arrived, arrived, put_away, set_aside, text_of
from achdesk_day.journal import Line
from achdesk_day.late import look_for_late
from achdesk_day.opening import AHEAD
from achdesk_day.stops import Refused, Rejected, Unavailable

# What the desk itself refuses a file of returns for. Another refusal is the proxy's, and says nothing about the file.
OF_THE_FILE = ("BadFile", "FileKeyReused", "TooLarge")


def returns(day: Day) -> None:
    """Takes each file of the inbox, in the order of their names. A file that fails does not keep the next one waiting."""
    files = [it for it in arrived(day.inbox) if it.is_whole]
    if not files:
        day.say("the inbox is empty")
        return
    if not is_banking_day(day):
        return
    failed: Unavailable | None = None
    for file in files:
        try:
            take_file(day, file)
        except Unavailable as stop:
            failed = failed or stop
        except OSError as fault:
            day.alarm(f"the incoming file {file.shown} cannot be read or archived: {fault.strerror}")
    if failed:
        raise failed


def is_banking_day(day: Day) -> bool:
    """Whether the desk day is today, since returns count on the desk day. Refuses if it is another day, unless that day is
    named, as after a restore."""
    today, status = day.local_now().date(), day.desk_status()
    if status.day is None:
        raise Refused("the desk has no day yet: run achdesk-day open")
    if status.day == today or day.words.other_day:
        return True
    if is_closed(day, status, today):
        day.say(f"{today} is not a banking day; nothing is taken")
        return False
    advice = AHEAD if status.day > today else "Run achdesk-day open; after a restore, returns --other-day"
    raise Refused(f"the inbox has files, the desk day is {status.day} and today is {today}. {advice}")


def checked(day: Day, path: Path, name: str) -> str:
    """Returns what `achdesk check` says of a file."""
    try:
        words = [day.settings["files"]["program"], "check", str(path)]
        done = subprocess.run(words, capture_output=True, text=True, timeout=300)
    except (OSError, subprocess.TimeoutExpired) as fault:
        raise Unavailable(f"achdesk check cannot be run: {fault}") from None
    if done.returncode not in (0, 1):
        raise Unavailable(f"achdesk check {name}: {done.stdout.strip()} {done.stderr.strip()}")
    return done.stdout.strip()


def take_file(day: Day, file: Arrived) -> None:
    """Checks a file, posts it, and archives it with the answer; a refused file goes into quarantine."""
    if not file.is_file:
        day.alarm(f"{file.shown} in the inbox is not a file; it is left there")
        return
    if file.size > MOST_BYTES:
        refuse_large(day, file)
        return
    text = text_of(file)
    facts: Line = {"file": file.shown, "sha256": sha256(text)}
    said = checked_copy(day, text, file.shown)
    if day.dry:
        day.say(f"would take {file.shown}: {said}")
    elif said.startswith("ok "):
        post(day, file, text, facts)
    else:
        quarantine(day, file, text, facts, said)


def checked_copy(day: Day, text: bytes, name: str) -> str:
    """Checks a copy of what was read: whoever delivers files may still write to them."""
    path = day.state / ".checked"
    try:
        write_synced(path, text)
        return checked(day, path, name)
    finally:
        path.unlink(missing_ok=True)


def post(day: Day, file: Arrived, text: bytes, facts: Line) -> None:
    day.record("posting", **facts)
    try:
        taken = day.desk.take_returns(text)
    except Rejected as stop:
        if stop.name == "NoDay":
            raise Refused("the desk has no day yet: run achdesk-day open") from None
        if stop.name not in OF_THE_FILE:
            raise Unavailable(f"{file.shown} was not taken: {stop}") from None
        quarantine(day, file, text, facts, stop.refusal)
        return
    facts["answer"] = dataclasses.asdict(taken) | {"day": str(taken.day)}
    put_away(file, text, make_folder(day.incoming / facts["answer"]["day"]), facts)
    day.record("taken", **facts)
    counts = ", ".join(f"{facts['answer'][key]} {key}" for key in ("returns", "changes", "late", "suspense"))
    day.say(f"taken {file.shown}: {counts}; first taken on {facts['answer']['day']}")
    if taken.late:
        look_for_late(day, taken.late)


def quarantine(day: Day, file: Arrived, text: bytes, facts: Line, why: str) -> None:
    """Raises an alarm and moves the file, in this order, so that a kill between them cannot lose the alarm."""
    forward = " It has forward entries, so it is not a file of returns and changes." if "ForwardEntry" in why else ""
    day.alarm(f"the incoming file {file.shown} was refused: {why}.{forward} It goes to {day.quarantine}")
    put_away(file, text, day.quarantine, facts | {"refused": why})
    day.record("quarantined", **facts, refused=why)


def refuse_large(day: Day, file: Arrived) -> None:
    day.alarm(f"the incoming file {file.shown} was refused: TooLarge, it has {file.size:,} bytes and a desk takes "
              f"{MOST_BYTES:,}. It goes to {day.quarantine}")
    if not day.dry:
        facts: Line = {"file": file.shown, "bytes": file.size, "refused": "TooLarge"}
        set_aside(file, day.quarantine, facts)
        day.record("quarantined", **facts)
