"""The command copy."""

from __future__ import annotations

import glob

from achdesk_day.day import Day
from achdesk_day.leave import copy_to_standby, has_standby, leave_journal


def copy(day: Day) -> None:
    """Copies the archive, the journals and the proxy's log to the standby by rsync over SSH. Backups are added to the
    standby's repository as they are made."""
    if not has_standby(day.settings):
        day.say("there is no standby")
        return
    # The marks of transmissions are not copied: `send` leaves each itself, and finds out by it that the standby had none.
    copy_to_standby(day, "state/", "--exclude=*.lock", "--exclude=/day.journal", "--exclude=/begun", f"{day.state}/")
    leave_journal(day)
    if logs := sorted(glob.glob(day.settings["files"]["proxy_logs"])):
        copy_to_standby(day, "proxy-logs/", *logs)
