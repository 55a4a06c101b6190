"""The clock, the steps of a command, the person or the unit that runs it, and the machine. Only tests replace them: no
environment and no option does."""

from __future__ import annotations

import datetime
import hashlib
import os
import pwd
import re
import socket
from collections.abc import Callable
from pathlib import Path

NOBODY = 4_294_967_295  # the login of a process that no person's login began
OWN_UNIT = re.compile(r"/(achdesk[\w@:.\\-]*\.service)$", re.MULTILINE)  # at the end of a line of /proc/self/cgroup


def system_clock() -> datetime.datetime:
    return datetime.datetime.now(datetime.timezone.utc)


def nothing() -> None:
    pass


def audited_person() -> str | None:
    """Returns the user whose login began this process, which `sudo` keeps and no program of that user can change, or None
    for a process that no login began, as of a timer."""
    try:
        login = int(Path("/proc/self/loginuid").read_text())
    except (OSError, ValueError):
        login = NOBODY
    return None if login == NOBODY else name_of(login)


def unit_of_process() -> str | None:
    """Returns the unit of this package that systemd runs this process for, or None. Its OnFailure= learns of the status."""
    try:
        found = OWN_UNIT.search(Path("/proc/self/cgroup").read_text())
    except OSError:
        return None
    return found[1] if found else None


def machine_identity() -> str:
    """Returns what tells this machine from a standby. /etc/machine-id itself is not to be shown."""
    try:
        told = Path("/etc/machine-id").read_text().strip()
    except OSError:
        told = ""
    return hashlib.sha256(f"achdesk-day {told or socket.gethostname()}".encode()).hexdigest()[:16]


def name_of(number: int) -> str:
    try:
        return pwd.getpwuid(number).pw_name
    except KeyError:
        return str(number)


clock: Callable[[], datetime.datetime] = system_clock
at_step: Callable[[], None] = nothing
person_of: Callable[[], str | None] = audited_person
unit_of: Callable[[], str | None] = unit_of_process
machine_of: Callable[[], str] = machine_identity


def now() -> datetime.datetime:
    """Returns the present time in UTC."""
    return clock()


def step() -> None:
    """Marks a point between two effects. Tests kill the process at each of them."""
    at_step()


def person() -> str | None:
    """Returns the person who runs the command, or None for a timer."""
    return person_of()


def unit() -> str | None:
    """Returns the unit of this package that runs the command, or None."""
    return unit_of()


def user() -> str:
    """Returns the user of the process."""
    return name_of(os.getuid())


def machine() -> str:
    return machine_of()
