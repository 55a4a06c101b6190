"""A command's run: its settings, journal, locks, desk and alarms."""

from __future__ import annotations

import argparse
import datetime
import shlex
import subprocess
import sys
from pathlib import Path
from typing import Any

from achdesk import Status

from achdesk_day.desk import Desk
from achdesk_day.durable import make_folder, must_own
from achdesk_day.hooks import now
from achdesk_day.journal import Journal
from achdesk_day.locks import Lock
from achdesk_day.settings import Settings
from achdesk_day.stops import Refused
from achdesk_day.transfer import Server
from achdesk_day.values import time_of

FOLDERS = ("outgoing", "sending", "withheld", "by_hand", "incoming", "quarantine", "reports")
# The journal of a command, by which its lock is named. Whoever holds several locks takes them in the order of LOCKS.
JOURNALS = {"backup": "backups", "copy": "copies"}
OF_BACKUPS = ("backup", "repository")  # commands of the backups' user, whose state is the folder of backups
OF_ROOT = ("restore", "repository")  # commands that root may run too
READERS = ("metrics", "backed-up", "repository", "companies", "held", "find")  # commands that write no journal
LISTS = ("suspense", "late")  # commands that write one only with --close or --reopen
LOCKS = ("day", "backups", "copies")  # and then `standby` and `metrics`, each for a moment


class Run:
    """A command's run."""

    def __init__(self, words: argparse.Namespace, settings: Settings) -> None:
        self.words, self.dry, self.settings = words, words.dry_run, settings
        self.backups = Path(self.settings["folders"]["backups"])
        self.is_of_backups = words.command in OF_BACKUPS
        self.state = self.backups if self.is_of_backups else Path(self.settings["folders"]["state"])
        self.inbox = Path(self.settings["folders"]["inbox"])
        self.zone = self.settings.zone()
        self.status = 0
        self.made: Desk | None = None
        must_own(self.state, or_root=words.command in OF_ROOT)
        self.outgoing, self.sending, self.withheld, self.by_hand, self.incoming, self.quarantine, self.reports = (
            self.state / name for name in FOLDERS)
        if not self.dry and not self.is_of_backups:
            for name in FOLDERS:
                make_folder(self.state / name)
            if self.inbox.parent == self.state:
                make_folder(self.inbox)
        self.kind = JOURNALS.get(words.command, "day")
        self.locks: dict[str, Lock] = {}
        is_reader = words.command in READERS or words.command in LISTS and words.close is None and words.reopen is None
        self.is_written = not self.dry and not is_reader
        self.begin_run()

    def begin_run(self) -> None:
        """Takes the locks and reads the journal."""
        if self.is_written:
            # A backup removes folders that were left half-way and backups that expire, and it must not copy a desk that
            # is being replaced.
            wanted = {self.kind, "backups"} if self.words.command == "restore" else {self.kind}
            for name in (it for it in LOCKS if it in wanted):
                folder = self.backups if name == "backups" else self.state
                self.locks[name] = Lock(folder / f"{name}.lock", self.settings.number("locks", "wait"))
        self.journal = Journal(self.state / f"{self.kind}.journal", self.is_written)

    def end_run(self) -> None:
        """Gives the locks back, so that other commands can run while this one waits."""
        self.journal.close()
        for lock in self.locks.values():
            lock.close()
        self.locks = {}

    @property
    def lock(self) -> Lock | None:
        return self.locks.get(self.kind)

    @property
    def desk(self) -> Desk:
        if self.made is None:
            is_brief = self.words.command == "metrics"
            self.made = Desk(self.settings, self.words.key_file, self.words.wait, is_brief)
        return self.made

    def server(self, section: str = "sftp") -> Server:
        return Server(self.settings, self.lock, self.state, section)

    def say(self, text: str) -> None:
        print(text, flush=True)

    def alarm(self, text: str, about: str = "") -> None:
        """Raises an alarm: on standard error, in the journal, and by the configured command. Of alarms about the same, by
        their text if nothing else is said, one in `[alarm] repeat` minutes is given to the command. If the command does not
        take it, this one ends with status 2, which the unit's OnFailure= does not take for an alarm that was given."""
        self.status = max(1, self.status)
        print(f"achdesk-day: ALARM: {text}", file=sys.stderr, flush=True)
        if self.journal.file is None or self.is_repeated(about or text):
            return
        is_given = give_alarm(self.settings, text)
        self.status = self.status if is_given else 2
        self.journal.write("alarm", text=text, about=about or text, given=is_given)

    def is_repeated(self, about: str) -> bool:
        try:
            last = self.journal.last("alarm", about=about, given=True)
        except Refused:  # the journal is damaged
            return False
        if last is None:
            return False
        # One of the future, of a clock that was set back since, counts as none.
        return datetime.timedelta() <= now() - time_of(last["at"]) < datetime.timedelta(minutes=self.settings.number("alarm", "repeat"))

    def record(self, did: str, **facts: Any) -> None:
        """Writes a line of the journal, but not in a dry run."""
        if not self.dry:
            self.journal.write(did, **facts)

    def desk_file(self) -> Path:
        return Path(self.settings["files"]["desk"])

    def local_now(self) -> datetime.datetime:
        return now().astimezone(self.zone)

    def desk_status(self) -> Status:
        return self.desk.status()


def give_alarm(settings: Settings, text: str) -> bool:
    """Runs the alarm command, if there is one, with a text on its standard input. Returns whether it ended well."""
    command = settings["alarm"]["command"]
    if not command:
        return True
    try:
        subprocess.run(shlex.split(command), input=text + "\n", text=True, timeout=30, check=True)
    except (OSError, ValueError, subprocess.SubprocessError) as fault:
        print(f"achdesk-day: the alarm command failed: {fault}", file=sys.stderr)
        return False
    return True
