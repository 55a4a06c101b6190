"""The commands begin and open."""

from __future__ import annotations

import datetime

from achdesk import Status

from achdesk_day.clock import wait_for_clock
from achdesk_day.day import Day
from achdesk_day.holidays import known_lists
from achdesk_day.stops import Refused, Rejected
from achdesk_day.values import date_of


def begin(day: Day) -> None:
    """Records from which day on this program transmits the files of a desk that made files before."""
    first, status = date_of(day.words.day), day.desk_status()
    if status.day is None or first > status.day:
        raise Refused(f"{first} is after the desk day {status.day}")
    if day.journal.last("closed", "begun"):
        raise Refused("the journal has a beginning already")
    names = day.files_since(first, status)
    day.record("begun", **{"from": str(first)})
    day.say(f"achdesk-day send transmits the files of {first} and later; so far {' '.join(names) or 'none'}")


AHEAD = "A desk day cannot be taken back: see The day was set wrong in /usr/share/doc/achdesk/docs/operate/troubleshooting.md"


def open_day(day: Day) -> None:
    """Sets the desk day to today, or to an earlier day that is named."""
    today = day.local_now().date()
    wanted = date_of(day.words.day) if day.words.day else today
    if wanted > today:
        raise Refused(f"{wanted} is after today, {today}: a desk day cannot be taken back")
    status = day.desk_status()
    if status.day and status.day > wanted:
        raise Refused(f"the desk day is {status.day}, which is after {wanted if day.words.day else f'today, {today}'}. {AHEAD}")
    refuse_unsent(day, status, wanted)
    if status.day != wanted:
        refuse_jump(day, status, wanted)
        refuse_short_list(day, status, wanted)
        wait_for_clock(day)
    if status.day == wanted:
        day.say(f"the desk day is {wanted} already")
        return
    lost = [it for it in day.not_on_desk() if it[0][:10] < str(wanted)]
    if lost:
        day.refuse_lost(lost, f"going past {lost[0][0][:10]}")
    if day.dry:
        day.say(f"would set the desk day to {wanted}")
        return
    day.begin(day.first_day(status) or wanted)
    day.record("opening", day=str(wanted))
    set_day(day, status, wanted)


def refuse_jump(day: Day, status: Status, wanted: datetime.date) -> None:
    """Refuses to go further than the configured number of days: a wrong clock cannot be told from a long pause."""
    most = day.settings.number("bank", "most_days")
    if status.day and (wanted - status.day).days > most and not day.words.jump:
        raise Refused(f"{wanted} is {(wanted - status.day).days} days after the desk day {status.day}, more than {most}. If "
                      "the date is right, achdesk-day open --jump sets it")


def refuse_short_list(day: Day, status: Status, wanted: datetime.date) -> None:
    """Refuses if the list of holidays ends soon, since settlement days are reckoned by it."""
    ahead = day.settings.number("bank", "holidays_ahead")
    needed = wanted + datetime.timedelta(ahead)
    if not ahead or day.words.short_holidays:
        return
    ends = [it[-1] for it in known_lists(day) if it and len(it) == status.holidays]
    if not ends or max(ends) < str(needed):
        why = f"the list of holidays ends on {max(ends)}" if ends else "the journal does not know the desk's list of holidays"
        raise Refused(f"{why}, and it has to reach {needed}. Run achdesk-day holidays {wanted.year} {wanted.year + 1}; "
                      "--short-holidays opens the day all the same")


def set_day(day: Day, status: Status, wanted: datetime.date) -> None:
    try:
        day.desk.set_day(wanted)
    except Rejected as stop:
        if stop.name == "NotBankingDay":
            day.record("not-a-banking-day", day=str(wanted), holidays=status.holidays)
            day.say(f"{wanted} is not a banking day; the desk day is as it was")
            return
        if stop.name != "DayNotLater":
            raise
    day.record("opened", day=str(wanted))
    day.say(f"the desk day is {wanted}")


def refuse_unsent(day: Day, status: Status, wanted: datetime.date) -> None:
    """Refuses while a file of a day before the wanted one is not transmitted, also if the desk has that day already."""
    unsent = [name for name in day.not_transmitted(status) if name[:10] < str(wanted)]
    if unsent:
        day.record("unsent", files=unsent)
    if unsent and not day.words.leave_unsent:
        raise Refused(f"not transmitted: {' '.join(unsent)}. Run achdesk-day send first; "
                      "--leave-unsent opens the day all the same")
    if unsent:
        day.say(f"not transmitted: {' '.join(unsent)}")
