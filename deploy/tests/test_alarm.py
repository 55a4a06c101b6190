"""Failures of units: when they are alarms, and when these are over."""

from __future__ import annotations

import os
import re
import threading
from pathlib import Path
from unittest import mock

from achdesk_alarm import units, waiting
from achdesk_alarm.faults import Misused
from tests.alarms import MINUTE, NOON, SEND, Case

HERE = Path(__file__).resolve().parent


class Units(Case):
    def test_any_other_status_than_3_is_an_alarm_at_once(self) -> None:
        for result, status in (("exit-code", "1"), ("exit-code", "2"), ("exit-code", "4"), ("signal", "KILL"), ("timeout", "TERM"), ("oom-kill", "KILL"), ("exit-code", "243")):
            self.assertEqual(self.ended(self.settings(), status, result, f"achdesk-day@{result}-{status}.service"), 1)

    def test_status_3_is_an_alarm_after_the_patience(self) -> None:
        settings = self.settings("[alarm]\npatience = 30\n")
        self.assertEqual(self.ended(settings, "3"), 0)
        self.moment += 25 * MINUTE
        self.assertEqual(self.ended(settings, "3"), 0)
        self.moment += 5 * MINUTE
        self.assertEqual(self.ended(settings, "3"), 1)
        self.assertIn("3 times since 2025-01-08T17:00", self.raised()[0].text)

    def test_a_success_ends_the_patience(self) -> None:
        settings = self.settings("[alarm]\npatience = 30\n")
        self.ended(settings, "3")
        self.moment += 25 * MINUTE
        self.assertEqual(self.ended(settings, "0", "success"), 0)
        self.moment += 25 * MINUTE
        self.assertEqual(self.ended(settings, "3"), 0)

    def test_status_3_is_an_alarm_at_a_time_of_day_though_the_unit_does_not_run_again(self) -> None:
        settings = self.settings(f"[patience]\n{SEND} = 16:30\n")
        self.ended(settings, "3")
        self.moment = NOON + 269 * MINUTE
        units.raise_due(settings, self.state, self.second)
        self.assertEqual(self.raised(), [])
        self.moment = NOON + 270 * MINUTE
        units.raise_due(settings, self.state, self.second)
        units.raise_due(settings, self.state, self.second)
        self.assertEqual([it.source for it in self.raised()], [SEND])

    def test_a_unit_that_goes_on_failing_is_an_alarm_again_after_a_time(self) -> None:
        settings = self.settings("[alarm]\nagain = 60\n")
        counts = []
        for _ in range(8):
            counts.append(self.ended(settings, "2"))
            self.moment += 20 * MINUTE
        self.assertEqual(counts, [1, 0, 0, 1, 0, 0, 1, 0])

    def test_another_failure_is_an_alarm_at_once(self) -> None:
        settings = self.settings()
        self.assertEqual([self.ended(settings, "1"), self.ended(settings, "2")], [1, 1])

    def test_a_success_after_an_alarm_is_reported(self) -> None:
        settings = self.settings()
        self.ended(settings, "2")
        self.moment += MINUTE
        self.assertEqual(self.ended(settings, "0", "success"), 1)
        self.assertEqual([it.is_over for it in self.raised()], [False, True])
        self.assertEqual(self.ended(settings, "0", "success"), 0)

    def test_what_its_program_raised_is_one_alarm(self) -> None:
        settings = self.settings()
        self.by_itself("a" * 32)
        self.assertEqual(0, self.ended(settings, "1", run="a" * 32), "while it waits")
        self.by_itself("b" * 32)
        self.assertEqual(2, self.delivered())
        self.assertEqual(0, self.ended(settings, "1", run="b" * 32), "after it was delivered")
        self.moment += 10 * MINUTE
        self.assertEqual(0, self.ended(settings, "1", run="c" * 32), "the program repeats its alarm itself")
        self.assertEqual(0, self.ended(settings, "0", "success"), "and nothing is over: a person has to look")

    def test_a_program_that_raised_nothing_or_ends_otherwise_is_an_alarm_of_its_unit(self) -> None:
        settings, run = self.settings(), "a" * 32
        self.by_itself(run)
        self.assertEqual(1, self.ended(settings, "1", run="b" * 32), "of another run")
        self.assertEqual(1, self.ended(settings, "2", run=run))
        self.assertEqual(1, self.ended(settings, "KILL", "signal", run=run))
        self.assertEqual(0, self.ended(settings, "3", run=run))
        self.moment += 31 * MINUTE
        units.raise_due(settings, self.state, self.second)
        self.assertEqual(5, len(self.raised()), "status 3 keeps its patience, and then is an alarm")

    def test_a_program_that_stops_raising_is_an_alarm_of_its_unit_after_twice_the_time(self) -> None:
        settings = self.settings()
        self.by_itself("a" * 32)
        counts = [self.ended(settings, "1", run="a" * 32)]
        for at in range(5):
            self.moment += 30 * MINUTE
            counts.append(self.ended(settings, "1", run=f"{at:032}"))
        self.assertEqual([0, 0, 0, 0, 1, 0], counts)
        self.assertEqual(1, self.ended(settings, "0", "success"), "and that one is over")

    def test_what_was_delivered_is_known_for_a_day(self) -> None:
        self.by_itself("a" * 32)
        self.delivered()
        marker = self.state / waiting.DELIVERED / ("a" * 32)
        self.assertTrue(marker.exists())
        os.utime(marker, (1, 1))
        self.by_itself("../../b")
        self.delivered()
        self.assertEqual([], list((self.state / waiting.DELIVERED).iterdir()))

    def test_each_shipped_unit_has_the_alarm_of_its_failure(self) -> None:
        for path in HERE.parent.glob("*.service"):
            with self.subTest(path.name):
                self.assertEqual(path.name in ("achdesk-alarm.service", "achdesk-alarm@.service"),
                                 "\nOnFailure=achdesk-alarm@%n.service\n" not in path.read_text())

    def test_the_name_of_a_unit_that_worked_says_so(self) -> None:
        settings = self.settings()
        self.ended(settings, "2")
        units.ended(settings, f"{units.OVER}{SEND}", self.state, self.second, {})
        self.assertEqual([(it.source, it.is_over) for it in self.raised()], [(SEND, False), (SEND, True)])

    def test_an_alarm_and_its_end_keep_their_order_whatever_the_clock_does(self) -> None:
        settings = self.settings()
        for _ in range(4):
            self.ended(settings, "2")
            self.moment -= MINUTE
            self.ended(settings, "0", "success")
            self.moment -= MINUTE
        self.assertEqual([it.is_over for it in self.raised()], [False, True] * 4)

    def test_a_failure_and_a_success_of_a_unit_are_recorded_one_after_the_other(self) -> None:
        settings, is_held, success = self.settings(), threading.Event(), threading.Thread()

        def log_of_a_busy_machine(_: str) -> str:
            """The unit works again while the log of its failure is being read."""
            success.start()
            is_held.wait(0.2)
            return ""

        success = threading.Thread(target=units.ended, args=(settings, f"{units.OVER}{SEND}", self.state, self.second, {}))
        with mock.patch.object(units, "end_of_log", log_of_a_busy_machine):
            units.ended(settings, SEND, self.state, self.second, {"MONITOR_SERVICE_RESULT": "exit-code", "MONITOR_EXIT_STATUS": "2"})
        success.join()
        self.assertEqual([it.is_over for it in self.raised()], [False, True])

    def test_an_alarm_is_over_though_the_unit_failed_otherwise_since(self) -> None:
        settings = self.settings()
        self.assertEqual([self.ended(settings, "2"), self.ended(settings, "3"), self.ended(settings, "0", "success")], [1, 0, 1])
        self.assertEqual([it.is_over for it in self.raised()], [False, True])

    def test_a_clock_that_was_set_back_keeps_no_alarm_waiting(self) -> None:
        settings = self.settings()
        self.moment += 10_000 * MINUTE
        self.ended(settings, "2")
        self.ended(settings, "3", unit="achdesk-day@copy.service")
        self.moment = NOON
        self.assertEqual(1, self.ended(settings, "2"))
        units.raise_due(settings, self.state, self.second)
        self.assertIn("achdesk-day@copy.service", [it.source for it in self.raised()])

    def test_each_shipped_unit_has_another_handler_of_success(self) -> None:
        """systemd gives no result to a unit that is both OnFailure= and OnSuccess= of another one."""
        for path in HERE.parent.glob("**/*.service"):
            for told in re.findall(r"(?m)^OnSuccess=(.*)$", path.read_text()):
                self.assertEqual(told, f"achdesk-alarm@{units.OVER}%n.service", path.name)

    def test_a_unit_without_a_known_result_is_an_alarm(self) -> None:
        units.ended(self.settings(), SEND, self.state, self.second, {})
        self.assertEqual(len(self.raised()), 1)

    def test_a_name_that_is_no_unit_writes_nothing(self) -> None:
        with self.assertRaises(Misused):
            self.ended(self.settings(), "2", unit="../../etc/passwd")

    def test_a_damaged_state_is_an_alarm_again(self) -> None:
        (self.state / "units" / f"{SEND}.json").write_text("{")
        self.assertEqual(self.ended(self.settings(), "2"), 1)
