"""The desk day: no jump, a clock that is synchronised, a list of holidays that reaches far enough."""

from __future__ import annotations

import datetime

from tests.support import MON, TUE, TestCase


class Opening(TestCase):
    def test_a_jump_needs_a_person(self) -> None:
        self.does("open", says=str(MON))
        self.bank.at(MON + datetime.timedelta(8))
        self.does("open", status=1, says="8 days after the desk day 2025-01-13, more than 7")
        self.assertEqual(MON, self.bank.desk.day)
        self.does("open", "--jump", says="the desk day is 2025-01-21")

    def test_seven_days_are_no_jump(self) -> None:
        self.does("open")
        self.bank.at(MON + datetime.timedelta(7))
        self.does("open", says="the desk day is 2025-01-20")

    def test_the_clock_has_to_be_synchronised(self) -> None:
        self.bank.configure(clock={"command": "echo no", "wait": "0"})
        self.does("open", status=1, says="the clock is not synchronised")
        self.assertIsNone(self.bank.desk.day)
        self.bank.configure(clock={"command": "/nowhere/timedatectl"})
        self.does("open", status=2, says="[clock] command cannot be run")
        self.bank.configure(clock={"command": ""})
        self.does("open", says=str(MON))

    def test_the_list_of_holidays_has_to_reach_60_days(self) -> None:
        self.bank.configure(bank={"holidays_ahead": "60"})
        self.does("open", status=1, says="the journal does not know the desk's list of holidays")
        near = self.folder / "near.csv"
        near.write_text("2025-01-20\n2025-03-13\n")
        self.does("holidays", str(near))
        self.does("open", status=1, says="the list of holidays ends on 2025-03-13, and it has to reach 2025-03-14")
        self.does("open", "--short-holidays", says=str(MON))
        self.bank.at(TUE)
        self.does("holidays", "2025", "2026", "--drop-near", says="21 holidays")
        self.does("open", says=str(TUE))

    def test_a_later_day_is_never_set(self) -> None:
        self.does("open", "--day", str(TUE), status=1, says="is after today")

    def test_a_day_that_is_not_a_banking_day_is_reported(self) -> None:
        self.does("open")
        self.bank.desk.closed = {TUE}
        self.bank.at(TUE)
        self.does("open", says="is not a banking day")

    def test_a_corrected_list_undoes_that_a_day_is_no_banking_day(self) -> None:
        self.opened(100)
        self.bank.desk.closed = {TUE}
        self.bank.at(TUE)
        self.does("open", says="is not a banking day")
        self.does("cut", says="nothing is cut")
        self.bank.desk.closed = set()
        (self.folder / "list").write_text("2025-12-25\n")
        self.does("holidays", str(self.folder / "list"))
        self.does("metrics", says="achdesk_banking_day 1")
        self.does("cut", status=1, says="Run achdesk-day open")
        self.does("open", says=str(TUE))
        self.does("cut", says="A")

    def test_so_does_a_list_that_was_corrected_by_other_means(self) -> None:
        self.opened(100)
        saturday = MON + datetime.timedelta(5)
        for today in (TUE, saturday):
            self.bank.desk.closed |= {today}
            self.bank.at(today)
            self.does("open", says="is not a banking day")
        self.bank.desk.holidays += 1  # by the console
        self.does("metrics", says="achdesk_banking_day 0")
        self.does("cut", says="2025-01-18 is not a banking day; nothing is cut")
        self.bank.at(TUE)
        self.does("metrics", says="achdesk_banking_day 1")
        self.does("cut", status=1, says="Run achdesk-day open")

    def test_a_file_of_an_earlier_day_has_to_be_transmitted(self) -> None:
        self.opened(100)
        self.does("cut")
        self.bank.at(TUE)
        self.does("open", status=1, says=f"not transmitted: {MON}-A")
        self.does("open", "--leave-unsent", says=str(TUE))


class Holidays(TestCase):
    def test_near_days_are_not_dropped(self) -> None:
        self.does("holidays", "2025", "2026")
        shorter = self.folder / "shorter.csv"
        shorter.write_text("2025-05-26\n")
        self.does("holidays", str(shorter), status=1, says="drops days within 60 days of today: 2025-01-01 2025-01-20")

    def test_in_january_the_days_of_the_last_two_months_stay(self) -> None:
        self.does("holidays", "2025", "2026")
        self.bank.at(datetime.date(2026, 1, 12))
        said = self.does("holidays", "2026", "2027", says="21 holidays, from 2025-11-27 to 2027-11-25")
        self.assertIn("no longer in the list: 2025-01-01", said)
        self.does("holidays", "2026", "2027", says="21 holidays")

    def test_an_unknown_list_is_not_replaced(self) -> None:
        self.bank.desk.holidays = 3
        self.does("holidays", "2025", "2026", status=1, says="the desk has 3 holidays")
        self.does("holidays", "2025", "2026", "--replace-unknown", says="21 holidays")


class Calendar(TestCase):
    def test_the_metrics_have_today_and_the_end_of_the_list(self) -> None:
        self.does("open")
        printed = self.does("metrics", says="achdesk_banking_day 1")
        self.assertNotIn("achdesk_holidays_end_timestamp_seconds", printed)
        self.assertRegex(printed, r"(?m)^achdesk_free_bytes \d+$")
        (self.folder / "list").write_text("2025-01-14\n2025-12-25\n")
        self.does("holidays", str(self.folder / "list"))
        self.does("metrics", says="achdesk_holidays_end_timestamp_seconds 1766620800")  # 2025-12-25T00:00Z
        for day, wanted in ((TUE, 0), (MON + datetime.timedelta(2), 1), (MON + datetime.timedelta(5), 0)):
            self.bank.at(day)
            self.does("metrics", says=f"achdesk_banking_day {wanted}")
        self.bank.desk.closed = {MON + datetime.timedelta(3)}
        self.bank.at(MON + datetime.timedelta(3))
        self.does("open", says="not a banking day")
        self.does("metrics", says="achdesk_banking_day 0")
