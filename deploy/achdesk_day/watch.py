"""The command watch, which raises the alarms that no other command raises."""

from __future__ import annotations

import datetime

from achdesk import Status

from achdesk_day.cut import NOTHING_DUE, OLDER_DESK, alarm_if_crowded
from achdesk_day.day import Day
from achdesk_day.incoming import arrived
from achdesk_day.late import text_of, undecided
from achdesk_day.values import time_of

INCOMING = ("taken", "quarantined", "fetched")


def watch(day: Day) -> None:
    """Looks for files that are late: not cut, not transmitted, not acknowledged, not received, or not taken; and for late returns
    of which the bank has not decided."""
    for name, why in day.unclear():
        day.alarm(f"{name} {why}")
    for line in undecided(day):
        day.alarm(f"late return: {text_of(line)}")
    not_acknowledged(day)
    waiting(day)
    status = day.desk_status()
    not_cut(day, status)
    not_transmitted(day, status)
    not_received(day, status)
    alarm_if_crowded(day, status)
    if status.due_files is None:
        day.say(f"a flood is not looked for: {OLDER_DESK}")
    if not day.status:
        day.say("nothing is late")


def not_cut(day: Day, status: Status) -> None:
    """Something is due, and nobody has cut on the desk day until the cut-off time or the window: the timer of a machine that was
    off does not cut later. What comes after a cut, also after one that found nothing due, waits for the next day's."""
    end, today = day.settings.time("bank", "cut_off") or day.settings.time("sftp", "window"), day.local_now()
    nothing = day.journal.unfinished(NOTHING_DUE, "restored")
    is_cut = bool(status.files) or nothing is not None and nothing["day"] == str(status.day)
    if end and status.day == today.date() and today.time() >= end and not is_cut and any(it.due for it in status.companies):
        day.alarm(f"nothing was cut on {status.day} until {end:%H:%M}, and something is due: achdesk-day cut --late")


def not_transmitted(day: Day, status: Status) -> None:
    """Files that are not transmitted after the ACH operator's window has closed."""
    end = day.settings.time("sftp", "window")
    names = sorted(day.untransmitted(status)) if end and status.day else []
    if end and names and (day.local_now().time() >= end or any(name[:10] < str(day.local_now().date()) for name in names)):
        day.alarm(f"not transmitted, and the window of the ACH operator closed at {end:%H:%M}: {' '.join(names)}")


def not_acknowledged(day: Day) -> None:
    """Files that were transmitted and not acknowledged for longer than is configured."""
    if names := unacknowledged(day):
        day.alarm(f"not acknowledged {day.settings['alarm']['acknowledged']} minutes after the transmission: {' '.join(names)}")


def unacknowledged(day: Day) -> list[str]:
    """Lists the transmitted files for which an acknowledgement is overdue; none if no time is configured."""
    if not day.settings["alarm"]["acknowledged"]:
        return []
    limit, done = datetime.timedelta(minutes=day.settings.number("alarm", "acknowledged")), day.acknowledged()
    late = str((day.local_now() - limit).astimezone(datetime.timezone.utc).isoformat())
    since = day.journal.last("confirmed-all")
    lines = {name: line for name, line in day.states().items() if line["did"] == "sent" and name not in done}
    given_back = {line["file"] for line in day.journal.lines if line["did"] == "correcting"}
    return sorted(name for name, line in lines.items() if line["at"] < late and name not in given_back
                  and (since is None or line["at"] > since["at"]))


def waiting(day: Day) -> None:
    """Files of the inbox that nobody takes, also those that are still being delivered."""
    minutes = day.settings.number("alarm", "waiting")
    before = day.local_now().timestamp() - 60 * minutes
    if names := [it.shown for it in arrived(day.inbox) if it.written < before]:
        day.alarm(f"in the inbox for more than {minutes} minutes: {' '.join(names)}")


def not_received(day: Day, status: Status) -> None:
    """No incoming file on a banking day, by the configured time."""
    by, today = day.settings.time("alarm", "received"), day.local_now()
    if by is None or today.time() < by or status.day != today.date():
        return
    came = [line for line in day.journal.lines if line["did"] in INCOMING]
    if not came or time_of(came[-1]["at"]).astimezone(day.zone).date() < today.date():
        day.alarm(f"no incoming file until {by:%H:%M} on {today.date()}")
