#!/usr/bin/env python3
"""Runs deploy/achdesk_day with what judges replace, which the program itself takes from nobody:

    ACHDESK_DAY_NOW      the time, as 2025-01-08T15:00:00-05:00, in place of the clock's
    ACHDESK_DAY_KILL_AT  N: SIGKILL is sent at the Nth step, which is before or after a write, a request or a rename
    ACHDESK_DAY_KILL     the process to which it is sent, in place of this one
    ACHDESK_DAY_PERSON   the person who runs the command
    ACHDESK_DAY_MACHINE  what tells this machine from another
"""

import datetime
import os
import signal
import sys
from pathlib import Path

TOP = Path(__file__).resolve().parent.parent.parent
sys.path[:0] = [str(TOP / "deploy"), str(TOP / "clients" / "python")]

from achdesk_day import hooks
from achdesk_day.cli import main

steps_done = 0


def kill_at_step():
    global steps_done
    steps_done += 1
    if os.environ.get("ACHDESK_DAY_KILL_AT") == str(steps_done):
        os.kill(int(os.environ.get("ACHDESK_DAY_KILL") or os.getpid()), signal.SIGKILL)


hooks.at_step = kill_at_step
if told := os.environ.get("ACHDESK_DAY_NOW"):
    hooks.clock = lambda: datetime.datetime.fromisoformat(told).astimezone(datetime.timezone.utc)
if machine := os.environ.get("ACHDESK_DAY_MACHINE"):
    hooks.machine_of = lambda: machine
if person := os.environ.get("ACHDESK_DAY_PERSON"):
    hooks.person_of = lambda: person
sys.exit(main())
