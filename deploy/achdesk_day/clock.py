"""Whether the machine's clock is synchronised."""

from __future__ import annotations

import shlex
import subprocess
import time

from achdesk_day.run import Run
from achdesk_day.stops import Misused, Refused

PAUSE = 5


def wait_for_clock(run: Run) -> None:
    """Waits until the configured command prints `yes`. Refuses after `[clock] wait` seconds. Without a command the clock is
    trusted."""
    command, until = run.settings["clock"]["command"], time.monotonic() + run.settings.number("clock", "wait")
    while command and not is_synchronised(command):
        if time.monotonic() >= until:
            raise Refused(f"the clock is not synchronised, and a desk day cannot be taken back: {command} does not print yes")
        time.sleep(min(PAUSE, max(0.0, until - time.monotonic())))


def is_synchronised(command: str) -> bool:
    try:
        done = subprocess.run(shlex.split(command), capture_output=True, text=True, timeout=30)
    except (OSError, ValueError) as fault:
        raise Misused(f"[clock] command cannot be run: {fault}") from None
    except subprocess.TimeoutExpired:
        return False
    return done.stdout.strip() == "yes"
