"""A bank in a temporary folder, whose desk, SFTP server and standby are fakes of this process."""

from __future__ import annotations

import contextlib
import datetime
import functools
import gc
import io
import json
import shutil
import sys
import tempfile
import unittest
from pathlib import Path
from typing import Any
from unittest import mock

from achdesk_day import cli, hooks, words
from achdesk_day.run import Run
from achdesk_day.stops import Unavailable
from tests.fakes import MON, TUE, WED, FakeDesk, FakeServer, file_of

__all__ = ["MON", "TUE", "WED", "Bank", "TestCase", "file_of"]
MEMORY = Path("/dev/shm")
PARSER = functools.lru_cache(words.parser_of_words)


class Killed(BaseException):
    """The process was killed at a step."""


class Bank:
    """Runs commands of achdesk-day with fakes."""

    def __init__(self, folder: Path) -> None:
        self.folder, self.state = folder, folder / "state"
        self.desk, self.server = FakeDesk(), FakeServer()
        self.standby: Path | None = folder / "standby"
        self.is_standby_up, self.person, self.machine, self.unit = True, "", "one", ""
        self.now = datetime.datetime(2025, 1, 13, 14, tzinfo=datetime.timezone.utc)
        self.state.mkdir(mode=0o700)
        (folder / "key").touch(mode=0o600)
        (folder / "key").write_text("X-Desk-Key: an-operator-s-key\n")
        (folder / "check").write_text("#!/bin/sh\ncase $(head -c 3 \"$2\") in 101) echo ok 1 returns 0 changes;; *) echo BadByte at record 1;; esac\n")
        (folder / "check").chmod(0o700)
        self.configure()

    def configure(self, **changes: dict[str, str]) -> None:
        sections: dict[str, dict[str, str]] = {
            "desk": {"url": "http://127.0.0.1:1", "key_file": f"{self.folder}/key"},
            "folders": {"state": str(self.state)},
            "sftp": {"host": "sftp.example", "user": "bank", "retry": "0"},
            "files": {"desk": f"{self.folder}/bank.db", "program": f"{self.folder}/check", "proxy_logs": f"{self.folder}/none*"},
            "standby": {"to": str(self.standby) if self.standby else "none"},
            "alarm": {"command": f"sh -c 'cat >> {self.folder}/alarms'"},
            "clock": {"command": "echo yes"},
            "bank": {"holidays_ahead": "0"},
            "locks": {"wait": "0"},
        }
        for section, settings in changes.items():
            sections[section] = sections.get(section, {}) | settings
        text = "".join(f"[{name}]\n" + "".join(f"{key} = {value}\n" for key, value in told.items()) for name, told in sections.items())
        (self.folder / "day.conf").write_text(text)

    def at(self, day: datetime.date, hour: int = 14, minute: int = 0) -> None:
        """Sets the clock; the hours are those of UTC, five after New York's."""
        self.now = datetime.datetime(day.year, day.month, day.day, hour, minute, tzinfo=datetime.timezone.utc)

    def copy_to_standby(self, run: Run, folder: str, *words: str, given: str = "") -> str:
        if not self.is_standby_up:
            raise Unavailable("the standby is down")
        assert self.standby
        target = self.standby / folder
        target.mkdir(parents=True, exist_ok=True)
        copied = []
        for name in given.split() or self.names_of_copy(words):
            (target / name).parent.mkdir(exist_ok=True)
            if (self.state / name).exists() and not ("--ignore-existing" in words and (target / name).exists()):
                shutil.copyfile(self.state / name, target / name)
                copied.append(name)
        hooks.step()
        return "\n".join(copied)

    def names_of_copy(self, words: tuple[str, ...]) -> list[str]:
        """Lists what `copy` copies of the state: all but what rsync is told to leave out."""
        names = (path.relative_to(self.state) for path in sorted(self.state.rglob("*")) if path.is_file())
        return [str(it) for it in names
                if it.suffix != ".lock" and not it.name.startswith(".") and f"--exclude=/{it.parts[0]}" not in words]

    def run(self, *told: str, kill_at: int = 0) -> tuple[int, str]:
        """Runs a command; returns its status and what it printed. A killed one has the status -9."""
        steps = 0

        def at_step() -> None:
            nonlocal steps
            steps += 1
            if steps == kill_at:
                raise Killed

        said = io.StringIO()
        command: cli.Command | None = None
        with contextlib.ExitStack() as stack:
            for target, name, value in (
                    (sys, "argv", ["achdesk-day", "--config", f"{self.folder}/day.conf", *told]), (hooks, "clock", lambda: self.now),
                    (hooks, "at_step", at_step), (hooks, "person_of", lambda: self.person or None), (hooks, "machine_of", lambda: self.machine),
                    (hooks, "unit_of", lambda: self.unit or None)):
                stack.enter_context(mock.patch.object(target, name, value))
            stack.enter_context(mock.patch("achdesk_day.run.Desk", self.desk))
            stack.enter_context(mock.patch("achdesk_day.run.Server", self.server))
            for module in ("leave", "standby"):
                stack.enter_context(mock.patch(f"achdesk_day.{module}.copy_to_standby", self.copy_to_standby))
            stack.enter_context(mock.patch("time.sleep", lambda seconds: None))
            stack.enter_context(mock.patch("os.fsync", lambda file: None))  # no test cuts the power
            stack.enter_context(mock.patch("achdesk_day.cli.parser_of_words", PARSER))
            stack.enter_context(contextlib.redirect_stdout(said))
            stack.enter_context(contextlib.redirect_stderr(said))
            try:
                command = cli.Command()
                status = command.run()
            except Killed:
                status = -9
            if command and command.day:
                command.day.end_run()
        if status == -9:
            gc.collect()  # a lock of a command that was killed before it had its journal
        return status, said.getvalue()

    def journal(self, *kinds: str) -> list[dict[str, Any]]:
        path = self.state / "day.journal"
        lines = [json.loads(line) for line in path.read_text().splitlines()] if path.exists() else []
        return [line for line in lines if not kinds or line["did"] in kinds]

    def alarms(self) -> list[str]:
        path = self.folder / "alarms"
        return path.read_text().splitlines() if path.exists() else []

    def take_over(self) -> None:
        """Goes on with what the standby has, on another machine."""
        assert self.standby
        shutil.rmtree(self.state)
        shutil.copytree(self.standby / "state", self.state)
        self.state.chmod(0o700)
        self.machine = "two"


class TestCase(unittest.TestCase):
    """A test with a bank of its own."""

    def setUp(self) -> None:
        self.folder = Path(tempfile.mkdtemp(prefix="achdesk-day-", dir=MEMORY if MEMORY.is_dir() else None))
        self.addCleanup(shutil.rmtree, self.folder)
        self.bank = Bank(self.folder)

    def does(self, *words: str, status: int = 0, says: str = "") -> str:
        """Runs a command, and checks its status and what it prints."""
        ended, printed = self.bank.run(*words)
        self.assertEqual(status, ended, printed)
        self.assertIn(says, printed)
        return printed

    def opened(self, *cents: int) -> None:
        """Opens Monday, with these submissions due."""
        self.does("open", says=str(MON))
        self.bank.desk.due = list(cents)
