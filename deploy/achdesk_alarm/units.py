"""Units that fail: since when, and whether that is an alarm yet."""

from __future__ import annotations

import datetime
import json
import re
import subprocess
from dataclasses import asdict, dataclass, replace
from pathlib import Path

from achdesk_alarm.faults import Misused, now, plain
from achdesk_alarm.settings import Settings
from achdesk_alarm.waiting import Alarm, after_those_of, alone, has_raised, put, write_whole

OVER = "over:"  # before the name of a unit that ended with success
MOST_LINES, SECONDS = 15, 20  # of a unit's log in an alarm, and how long it is waited for
UNAVAILABLE = "exit-code/3"  # the result of a unit whose command can simply be run again
ALARMED = "exit-code/1"  # the result of one whose command has raised the alarms itself, if it has


@dataclass
class Failing:
    """A unit that fails: since when, how it ended last, how often, the end of its log, when an alarm of this end was raised,
    whether its program raised it, and whether an alarm of the unit, of whatever end, is not over yet."""

    first: str
    last: str
    how: str
    times: int
    log: str
    alarmed: str = ""
    by_itself: bool = False
    is_raised: bool = False

    def text(self, unit: str) -> str:
        return (f"{unit} ended with {self.how}, {self.times} times since {self.first}. Look at: journalctl -u {unit}"
                + (f"\n\n{self.log}" if self.log else ""))


def path_of(unit: str, state: Path) -> Path:
    if not re.fullmatch(r"[A-Za-z0-9@:._\\-]{1,200}", unit):
        raise Misused(f"{unit!r} is not the name of a unit")
    return state / "units" / f"{unit}.json"


def lock_of(path: Path) -> Path:
    """Returns the file by which one process at a time deals with a unit: its failure is recorded while it may work again."""
    return path.with_name(f".{path.name}.lock")


def known(path: Path) -> Failing | None:
    try:
        return Failing(**json.loads(path.read_text(encoding="utf-8")))
    except FileNotFoundError:
        return None
    except (ValueError, TypeError):
        return None  # a damaged state counts as none: the next failure is reported as the first


def end_of_log(invocation: str) -> str:
    """Returns the last lines that a unit printed, if they can be read."""
    if not re.fullmatch(r"[0-9a-f]{32}", invocation):
        return ""
    words = ["journalctl", "--no-pager", "--quiet", "--output=cat", f"--lines={MOST_LINES}", f"_SYSTEMD_INVOCATION_ID={invocation}"]
    try:
        return plain(subprocess.run(words, capture_output=True, text=True, errors="replace", timeout=SECONDS).stdout.strip())
    except (OSError, subprocess.SubprocessError):
        return ""


def ended(settings: Settings, unit: str, state: Path, second: Path, told: dict[str, str]) -> None:
    """Records how a unit ended, by the variables that systemd gives to the unit of OnFailure= and OnSuccess=. Those of
    success have OVER before the unit's name."""
    result = told.get("MONITOR_SERVICE_RESULT", "success" if unit.startswith(OVER) else "")
    unit = unit.removeprefix(OVER)
    path = path_of(unit, state)
    with alone(lock_of(path)):
        if result == "success":
            over(unit, path, state, second)
            return
        how = f"{result}/{told.get('MONITOR_EXIT_STATUS', '')}" if result else "an unknown result"
        settle(settings, unit, failed(path, how, told.get("MONITOR_INVOCATION_ID", ""), state, second), state, second)


def over(unit: str, path: Path, state: Path, second: Path) -> None:
    """Ends the alarm of a unit, if one was raised, and forgets that the unit failed."""
    before = known(path)
    if before and before.is_raised:
        put(Alarm(after_those_of(unit, state, second).isoformat(), unit, f"{unit} ended with success again", is_over=True), state, second)
    path.unlink(missing_ok=True)


def failed(path: Path, how: str, invocation: str, state: Path, second: Path) -> Failing:
    """Returns what is known of a unit that has failed, and now once more."""
    before, moment = known(path), now().isoformat()
    failing = Failing(moment, moment, how, 1, end_of_log(invocation))
    if before:
        failing = replace(failing, first=before.first, times=before.times + 1, is_raised=before.is_raised)
    if how == ALARMED and has_raised(invocation, state, second):
        return replace(failing, alarmed=moment, by_itself=True)
    if before and before.how == how:
        return replace(failing, alarmed=before.alarmed, by_itself=before.by_itself)
    return failing


def settle(settings: Settings, unit: str, failing: Failing, state: Path, second: Path) -> None:
    """Raises the alarm of a unit if it is due, and keeps the unit's state. The alarm is written first: after a kill between
    the two it is raised again. A program that raised the alarm itself repeats it itself, and is given twice the time for that.
    A time of the future, of a clock that was set back since, keeps no alarm waiting."""
    moment, first = now(), datetime.datetime.fromisoformat(failing.first)
    is_due = failing.how != UNAVAILABLE or not first <= moment < settings.due(unit, first)
    again = datetime.timedelta(minutes=settings.number("alarm", "again")) * (2 if failing.by_itself else 1)
    if is_due and not (failing.alarmed and datetime.timedelta() <= moment - datetime.datetime.fromisoformat(failing.alarmed) < again):
        put(Alarm(after_those_of(unit, state, second).isoformat(), unit, failing.text(unit)), state, second)
        failing = replace(failing, alarmed=moment.isoformat(), by_itself=False, is_raised=True)
    write_whole(path_of(unit, state), asdict(failing))


def raise_due(settings: Settings, state: Path, second: Path) -> None:
    """Raises the alarms of units that are due and whose unit has not run since."""
    for path in sorted((state / "units").glob("[!.]*.json")):
        with alone(lock_of(path)):
            failing = known(path)
            if failing and not failing.alarmed:
                settle(settings, path.name.removesuffix(".json"), failing, state, second)
