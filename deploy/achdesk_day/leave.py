"""What leaves this machine before an upload begins and after it, so that a standby knows of it."""

from __future__ import annotations

import contextlib
import json
import shlex
import subprocess

from achdesk_day.durable import make_folder, write_synced
from achdesk_day.hooks import step
from achdesk_day.journal import Line
from achdesk_day.locks import Lock
from achdesk_day.run import Run
from achdesk_day.settings import Settings
from achdesk_day.stops import Unavailable

NO_STANDBY = "none"


def has_standby(settings: Settings) -> bool:
    """Whether there is a standby. A bank without one says so, since nothing is transmitted while the setting is empty."""
    return settings.needed("standby", "to") != NO_STANDBY


def leave(run: Run, *names: str) -> None:
    """Copies these files of the state to the standby, and then the journal, unless it has all of that."""
    if not has_standby(run.settings):
        return
    told = {"to": run.settings["standby"]["to"], "journal": len(run.journal.text), "files": sorted(names)}
    mark = run.state / "left.json"
    if mark.exists() and mark.read_bytes() == encoded(told):
        return
    if names:
        copy_to_standby(run, "state/", "--fsync", "--files-from=-", f"{run.state}/", given="".join(f"{it}\n" for it in names))
    leave_journal(run)
    write_synced(mark, encoded(told))


def leave_journal(run: Run) -> None:
    """Copies the journal to the standby. One command at a time does so, that no older journal takes the place of a newer
    one."""
    with contextlib.closing(Lock(run.state / "standby.lock", run.settings.number("locks", "wait"))):
        copy_to_standby(run, "state/", "--fsync", "--files-from=-", "--ignore-missing-args", f"{run.state}/", given="day.journal\n")


def is_first(run: Run) -> bool:
    """Leaves a mark for the transmission that begins, and returns whether the standby had none of this number. It has one if
    this machine was put back to an earlier state, with its journal, and has transmitted files that it no longer knows of."""
    if not has_standby(run.settings):
        return True
    names = marks(run.journal.lines)
    make_folder(run.state / "begun")
    for path in (run.state / name for name in names):
        if not path.exists():
            write_synced(path, b"")
    return names[-1] in copy_to_standby(run, "state/", "--fsync", "--ignore-existing", "--out-format=%n", "--files-from=-",
                                        f"{run.state}/", given="".join(f"{it}\n" for it in names)).split()


def marks(lines: list[Line]) -> list[str]:
    """Returns the name of the mark of the transmission that begins, and before it those that the standby may lack: of the
    transmissions since the last one that got as far as its rename, and one after the last that a person confirmed. Without
    them a journal that was put back could come upon a number that the standby has no mark of."""
    names: list[str] = []
    confirmed = begun = 0
    for line in lines:
        if line["did"] == "renaming":
            names = []
        elif line["did"] == "confirmed-all":
            names.append(f"begun/{confirmed}-{begun + 1}")
            confirmed += 1
        elif line["did"] == "sending":
            begun += 1
            names.append(f"begun/{confirmed}-{begun}")
    return names


def encoded(told: object) -> bytes:
    return json.dumps(told).encode()


def copy_to_standby(run: Run, folder: str, *words: str, given: str = "") -> str:
    """Runs rsync over SSH, into a folder of the standby, and returns what it printed."""
    told = run.settings["standby"]
    target = f"{told['to'].rstrip('/')}/{folder}"
    shell = ["ssh", "-F", "none", "-p", str(run.settings.number("standby", "port")), "-o", "BatchMode=yes",
             "-o", "ConnectTimeout=30", "-o", "StrictHostKeyChecking=yes"]
    shell += ["-i", told["identity"], "-o", "IdentitiesOnly=yes"] if told["identity"] else []
    shell += ["-o", f"UserKnownHostsFile={told['known_hosts']}"] if told["known_hosts"] else []
    options = ["--archive", "--mkpath", "--timeout=120", "--exclude=.*", *(["--dry-run"] if run.dry else [])]
    try:
        done = subprocess.run(["rsync", *options, "--rsh", shlex.join(shell), *words, target], input=given,
                              capture_output=True, text=True)
    except OSError as fault:
        raise Unavailable(f"rsync cannot be run: {fault}") from None
    if done.returncode not in (0, 24):  # 24: a backup expired meanwhile
        raise Unavailable(f"nothing more was copied to {target}: {done.stderr.strip()}")
    step()
    return done.stdout
