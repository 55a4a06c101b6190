"""Alarms for commands that could not do their work. A command that a unit of this package runs raises none here: the unit
ends with the command's status, and its OnFailure= raises the one alarm, with the log's end and the patience of alarm.conf."""

from __future__ import annotations

import datetime
import json
import sys
from pathlib import Path

from achdesk_day import hooks
from achdesk_day.durable import write_synced
from achdesk_day.hooks import now
from achdesk_day.run import Run, give_alarm
from achdesk_day.settings import Settings
from achdesk_day.stops import Stop
from achdesk_day.values import stamp, time_of

FILE = "failing.json"


def raise_alarm(settings: Settings, run: Run | None, text: str, about: str = "") -> None:
    """Raises an alarm by the run, or by the configured command alone if the run did not get as far as its journal."""
    try:
        if run is not None and run.journal.file is not None:
            run.alarm(text, about)
            return
    except (Stop, OSError) as fault:
        print(f"achdesk-day: {fault}", file=sys.stderr)
    print(f"achdesk-day: ALARM: {text}", file=sys.stderr)
    give_alarm(settings, text)


def misused(settings: Settings, run: Run | None, command: str, text: str) -> None:
    """Raises an alarm at once, unless a person runs the command and reads what it prints."""
    if hooks.person() is None and hooks.unit() is None:
        raise_alarm(settings, run, f"achdesk-day {command} cannot run: {text}")


def unavailable(settings: Settings, run: Run | None, command: str, text: str) -> None:
    """Notes since when the command fails, and raises an alarm after `[alarm] unavailable` minutes."""
    state = run.state if run else Path(settings["folders"]["state"])
    since = failing_since(state).setdefault(command, stamp(now()))
    keep(state, failing_since(state) | {command: since})
    limit = datetime.timedelta(minutes=settings.number("alarm", "unavailable"))
    if not datetime.timedelta() <= now() - time_of(since) < limit and hooks.person() is None and hooks.unit() is None:
        raise_alarm(settings, run, f"achdesk-day {command} fails since {since}: {text}", f"{command} fails since {since}")


def done(run: Run, command: str) -> None:
    """Ends the time for which a command has failed."""
    if command in (known := failing_since(run.state)):
        keep(run.state, {name: since for name, since in known.items() if name != command})


def failing_since(state: Path) -> dict[str, str]:
    """Returns since when commands that use this folder have failed, by their names."""
    try:
        known: dict[str, str] = json.loads((state / FILE).read_bytes())
        return known
    except (OSError, ValueError):
        return {}


def keep(state: Path, known: dict[str, str]) -> None:
    try:
        write_synced(state / FILE, json.dumps(known).encode())
    except OSError as fault:
        print(f"achdesk-day: {fault}", file=sys.stderr)
