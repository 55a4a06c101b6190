"""Runs a command."""

from __future__ import annotations

import os
import sys
from collections.abc import Callable

from achdesk_day import failures
from achdesk_day.ack import ack
from achdesk_day.approval import approve
from achdesk_day.backup import backed_up, backup
from achdesk_day.correct import correct
from achdesk_day.cut import cut
from achdesk_day.day import Day
from achdesk_day.fetch import fetch
from achdesk_day.holidays import holidays
from achdesk_day.late import late
from achdesk_day.mark import mark
from achdesk_day.metrics import metrics
from achdesk_day.opening import begin, open_day
from achdesk_day.questions import companies, find, held
from achdesk_day.report import report
from achdesk_day.repository import repository
from achdesk_day.restore import restore
from achdesk_day.returns import returns
from achdesk_day.send import send
from achdesk_day.settings import Settings
from achdesk_day.standby import copy
from achdesk_day.state import publish
from achdesk_day.stops import Misused, Refused, Stop
from achdesk_day.suspense import suspense
from achdesk_day.takeover import confirm, note_machine
from achdesk_day.watch import watch
from achdesk_day.words import parser_of_words

COMMANDS: dict[str, Callable[[Day], None]] = {
    "begin": begin, "open": open_day, "holidays": holidays, "fetch": fetch, "returns": returns, "cut": cut, "send": send,
    "approve": approve, "confirm": confirm, "mark": mark, "correct": correct, "ack": ack, "report": report, "watch": watch,
    "companies": companies, "held": held, "find": find, "suspense": suspense, "late": late,
    "metrics": metrics, "backup": backup, "backed-up": backed_up,
    "repository": repository, "copy": copy, "restore": restore,
}


class Command:
    """A command of the command line."""

    def __init__(self) -> None:
        self.words = parser_of_words().parse_args()
        self.name: str = self.words.command
        self.settings: Settings | None = None
        self.day: Day | None = None

    def run(self) -> int:
        """Runs the command, publishes the state of the day, and returns the exit status."""
        status = self.run_command()
        try:
            if self.day and self.day.lock and self.day.kind == "day":
                publish(self.day)
        except (Stop, OSError) as stop:
            status = status or self.ended(3, f"the state for the console cannot be published: {stop}")
        return status

    def run_command(self) -> int:
        """Runs the command, and returns the exit status. Each other status than 0 is raised as an alarm: 1 and 2 at once,
        and 3 after a configured time."""
        try:
            self.settings = Settings(self.words.config)
            self.day = Day(self.words, self.settings)
            if self.day.is_written and self.day.kind == "day":
                note_machine(self.day)
            COMMANDS[self.name](self.day)
        except Refused as stop:
            return self.refused(stop)
        except Misused as stop:
            return self.ended(2, str(stop))
        except (Stop, OSError) as stop:
            return self.ended(3, str(stop))
        except KeyboardInterrupt:
            print("achdesk-day: interrupted; run the same command again", file=sys.stderr)
            return 3
        self.worked()
        return self.day.status

    def refused(self, stop: Refused) -> int:
        try:
            if self.day:
                self.day.alarm(str(stop))
            else:
                print(f"achdesk-day: {stop}", file=sys.stderr)
        except (Stop, OSError) as fault:
            print(f"achdesk-day: {fault}", file=sys.stderr)
        self.worked()
        return max(1, self.day.status if self.day else 1)

    def ended(self, status: int, text: str) -> int:
        print(f"achdesk-day: {text}", file=sys.stderr)
        if self.settings and not self.words.dry_run and self.name != "metrics":
            raises = failures.misused if status == 2 else failures.unavailable
            raises(self.settings, self.day, self.name, text)
        return status

    def worked(self) -> None:
        if self.day and not self.words.dry_run and self.name != "metrics":
            failures.done(self.day, self.name)


def main() -> int:
    os.umask(0o077)
    return Command().run()
