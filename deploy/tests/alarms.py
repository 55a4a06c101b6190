"""A folder with a configuration of achdesk-alarm, and a clock."""

from __future__ import annotations

import contextlib
import datetime
import io
import sys
import tempfile
import unittest
from pathlib import Path
from unittest import mock

from achdesk_alarm import cli, receivers, units, waiting
from achdesk_alarm.settings import Settings

NOON = datetime.datetime(2025, 1, 8, 17, 0, tzinfo=datetime.timezone.utc)  # 12:00 in New York
MINUTE = datetime.timedelta(minutes=1)
SEND = "achdesk-day-send.service"


class Case(unittest.TestCase):
    """A folder with a configuration, and a clock."""

    def setUp(self) -> None:
        folder = self.enterContext(tempfile.TemporaryDirectory())
        self.state, self.second = Path(folder) / "state", Path(folder) / "second"
        for path in (self.state / "waiting", self.state / "units", self.second):
            path.mkdir(parents=True)
        self.config = Path(folder) / "alarm.conf"
        self.moment = NOON
        for module in (units, receivers, waiting):
            self.enterContext(mock.patch.object(module, "now", lambda: self.moment))
        self.errors = self.enterContext(contextlib.redirect_stderr(io.StringIO()))

    def settings(self, text: str = "[mail]\nto = a@bank.example\n") -> Settings:
        self.config.write_text(text)
        return Settings(self.config)

    def raised(self) -> list[waiting.Alarm]:
        return [it for _, it in waiting.waiting(self.state, self.second)]

    def ended(self, settings: Settings, status: str, result: str = "exit-code", unit: str = SEND, run: str = "") -> int:
        """Tells how a run of a unit ended, and returns how many alarms that raised."""
        before = len(self.raised())
        told = {"MONITOR_SERVICE_RESULT": result, "MONITOR_EXIT_STATUS": status, "MONITOR_INVOCATION_ID": run}
        with mock.patch.object(units, "end_of_log", lambda _: ""):
            units.ended(settings, unit, self.state, self.second, told)
        return len(self.raised()) - before

    def by_itself(self, run: str) -> None:
        """Raises an alarm as the program of a unit does."""
        with mock.patch.dict("os.environ", INVOCATION_ID=run), mock.patch.object(sys, "stdin", io.StringIO("a file was refused")), \
                mock.patch.object(sys, "argv", ["achdesk-alarm", "--state", str(self.state), "--second", str(self.second), "raise"]):
            self.assertEqual(0, cli.main())

    def delivered(self) -> int:
        """Delivers what waits, and returns how many alarms that were."""
        got: list[waiting.Alarm] = []
        with mock.patch.object(receivers, "receivers", lambda _: {"mail": lambda _, alarms: got.extend(alarms)}):
            receivers.deliver(self.settings(), self.state, self.second)
        return len(got)
