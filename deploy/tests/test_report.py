"""The report has what the desk knows, whoever cut and whoever posted files; suspense and late returns are closed with a
note."""

from __future__ import annotations

import csv
import datetime
import json
import os

import achdesk

from tests.desk_file import DeskFile
from tests.support import MON, TUE, WED, TestCase, file_of

FRI = datetime.date(2025, 1, 17)
KEY = " 0610001462501141000A"


def incoming(key: str = KEY) -> bytes:
    """A file with this key and one returned debit, as far as the day program reads it."""
    entry = f"626091000019123456789        {4900:010}{'E1':15}{'RECEIVER 1':22}  1091000010000001"
    addenda = f"799R01121042880009999{' ' * 73}"
    assert len(entry) == len(addenda) == 94, (len(entry), len(addenda))
    return "".join(f"{it}\n" for it in (f"101 121042882{key}"[:34].ljust(94), entry, addenda)).encode()


class Reports(TestCase):
    def setUp(self) -> None:
        super().setUp()
        self.does("open")
        self.file = DeskFile(self.folder / "bank.db", MON)
        setattr(self.bank.desk, "suspense", lambda: tuple(self.suspended))
        self.suspended: list[achdesk.SuspenseItem] = []

    def suspend(self, no: int, item: int = 1, trace: str = "121042880009999") -> None:
        self.file.suspend(no, KEY, item, trace, 4900, MON)
        self.suspended.append(achdesk.SuspenseItem(MON, KEY, item, trace, "R01", "NoTrace", 4900))

    def rows(self, section: str, day: datetime.date = MON) -> list[dict[str, str]]:
        with open(self.bank.state / "reports" / f"{day}.csv") as file:
            return [row for row in csv.DictReader(file) if row["section"] == section]

    def late_return(self) -> None:
        """A debit that settled on Monday and whose return is taken late, on Friday."""
        self.file.submit(1, "DUES-1", "debit", MON, (2500, "ANN LEE", "111"), (4900, "BOB RAY", "123456789"), cut=MON)
        self.file.give_back(7, 1, 2, "R01", FRI, is_late=True)
        self.file.take(KEY, FRI, returns=1, late=1)
        self.bank.at(FRI)
        self.bank.desk.day = FRI


class WhatTheDeskKnows(Reports):
    def test_a_cut_of_the_console_is_shown_by_its_files(self) -> None:
        self.bank.desk.files[f"{MON}-A"] = file_of(f"{MON}-A", 100, 200)
        self.does("report", says="by other means")
        row, = self.rows("cut")
        self.assertEqual(("by other means", "2", "entries"), (row["name"], row["count"], row["counted"]))
        self.assertIn("files A, by one or more cuts", row["note"])

    def test_a_cut_of_the_journal_and_another_one_are_told_apart(self) -> None:
        self.bank.desk.due = [100]
        self.does("cut")
        self.bank.desk.files[f"{MON}-B"] = file_of(f"{MON}-B", 200, 300, 400)
        self.does("report")
        self.assertEqual([("1", "files A, 0"), ("3", "files B, b")], [(it["count"], it["note"][it["note"].index("files"):][:10]) for it in self.rows("cut")])

    def test_a_posted_file_that_the_archive_lacks_is_named_until_returns_has_it(self) -> None:
        self.file.submit(1, "DUES-1", "debit", MON, (4900, "ANN LEE", "111"), cut=MON)
        self.file.give_back(1, 1, 1, "R01", MON, is_late=False)
        self.file.take(KEY, MON, returns=1)
        self.does("report", says="Incoming file that the archive lacks")
        self.assertEqual([("R01", "1", "returns", "4900")], [(it["name"], it["count"], it["counted"], it["debits"]) for it in self.rows("return")])
        self.assertEqual(["1"], [it["count"] for it in self.rows("incoming files")])
        self.assertEqual([(KEY.strip(), "1")], [(it["name"], it["count"]) for it in self.rows("incoming file that the archive lacks")])
        inbox = self.bank.state / "inbox"
        inbox.mkdir(exist_ok=True)
        (inbox / "r.ach").write_bytes(incoming())
        self.does("returns", says="taken r.ach")
        self.does("report")
        self.assertEqual([], self.rows("incoming file that the archive lacks"))

    def test_a_file_that_a_restored_desk_lacks_is_named(self) -> None:
        inbox = self.bank.state / "inbox"
        inbox.mkdir(exist_ok=True)
        (inbox / "r.ach").write_bytes(incoming())
        self.does("returns")
        self.does("report", says="Incoming file that the desk lacks")

    def test_sent_submissions_are_listed_by_company_and_file(self) -> None:
        self.file.submit(1, "DUES-1", "debit", WED, (2500, "ANN LEE", "111"), (4900, "BOB RAY", "222"), cut=MON)
        self.file.submit(2, "DUES-2", "debit", WED, (100, "ANN LEE", "111"), cut=MON)
        self.file.submit(3, "DUES-3", "debit", WED, (100, "ANN LEE", "111"))
        self.does("report")
        row, = self.rows("sent")
        self.assertEqual(("MILL01", "2", "submissions", "7500", "0"), tuple(row[it] for it in ("name", "count", "counted", "debits", "credits")))
        self.assertEqual(f"3 entries, PPD, file A, settle {WED}", row["note"])

    def test_sections_have_headings_and_dates(self) -> None:
        lines = self.does("report").splitlines()
        at = lines.index("Incoming files")
        self.assertEqual([["day", "files"], [str(MON), "0"]], [it.split() for it in lines[at + 1:at + 3]])

    def test_without_the_desk_s_file_the_report_says_so(self) -> None:
        (self.folder / "bank.db").unlink()
        self.does("report", says="by the archive alone")


class Suspense(Reports):
    def test_an_item_is_closed_with_a_note_and_leaves_the_report(self) -> None:
        self.suspend(1)
        self.suspend(2, item=2, trace="121042880008888")
        self.does("report")
        self.assertEqual(2, len(self.rows("open in suspense")))
        self.does("suspense", "--close", "1", status=2, says="--note is needed")
        self.does("suspense", "--close", "3", "--note", "R61", status=1, says="there is no item 3")
        self.does("suspense", "--close", "1", "--note", "R61", says="closed item 1: R01 debit 49.00, trace 121042880009999")
        self.does("suspense", "--close", "1", "--note", "R61", says="closed already")
        self.assertNotIn("0009999", self.does("suspense", says="0008888"))
        self.assertIn("R61", self.does("suspense", "--all"))
        self.does("report")
        self.assertEqual([" trace 121042880008888"], [it["note"].split(",")[2] for it in self.rows("open in suspense")])
        self.assertEqual(2, len(self.rows("suspense")))

    def test_a_closed_item_is_opened_again(self) -> None:
        self.suspend(1)
        self.does("suspense", "--close", "1", "--note", "R61")
        self.does("suspense", "--reopen", "1", "--note", "contested", says="opened again")
        self.assertEqual([1], [it["no"] for it in json.loads(self.does("suspense", "--json"))])

    def test_it_is_closed_for_good_whatever_its_number(self) -> None:
        self.suspend(1)
        self.does("suspense", "--close", "1", "--note", "R61")
        self.suspended.insert(0, achdesk.SuspenseItem(MON, KEY, 9, "1", "R01", "NoTrace", 1))
        self.assertEqual([9], [it["item"] for it in json.loads(self.does("suspense", "--json"))])

    def test_a_dry_run_closes_nothing(self) -> None:
        self.suspend(1)
        self.does("suspense", "--dry-run", "--close", "1", "--note", "R61", says="would have closed")
        self.assertEqual([], self.bank.journal("closed-item"))

    def test_the_direction_is_that_of_a_file_in_the_archive_if_the_desk_is_elsewhere(self) -> None:
        self.suspend(1)
        (self.folder / "bank.db").unlink()
        self.assertEqual([None], [it["direction"] for it in json.loads(self.does("suspense", "--json"))])
        inbox = self.bank.state / "inbox"
        inbox.mkdir(exist_ok=True)
        (inbox / "r.ach").write_bytes(incoming())
        self.does("returns")
        self.assertEqual(["debit"], [it["direction"] for it in json.loads(self.does("suspense", "--json"))])


class Late(Reports):
    def test_a_late_return_alarms_until_it_is_closed(self) -> None:
        self.late_return()
        self.file.add("holidays", (datetime.date(2025, 1, 20) - datetime.date(1970, 1, 1)).days)
        self.does("report", status=1, says="ALARM: late return: MILL01 DUES-1 entry 2, R01, debit 49.00, taken on 2025-01-17. The bank decides by 2025-01-27")
        self.assertIn("decide by 2025-01-27", self.rows("late return", FRI)[0]["note"])
        self.assertEqual(1, len(self.bank.journal("late")))
        self.does("report")
        self.does("watch", status=1, says="late return: MILL01 DUES-1 entry 2")
        self.does("metrics", says="achdesk_late_returns 1")
        self.does("late", says="DUES-1")
        self.does("late", "--close", "7", "--note", "accepted", says="closed item 7")
        self.does("watch", says="nothing is late")
        self.does("metrics", says="achdesk_late_returns 0")
        self.assertNotIn("DUES-1", self.does("late"))

    def test_returns_alarms_at_once(self) -> None:
        self.late_return()
        setattr(self.bank.desk, "take_returns", lambda text: achdesk.ReturnsTaken(FRI, 1, 0, 1, 0))
        inbox = self.bank.state / "inbox"
        inbox.mkdir(exist_ok=True)
        (inbox / "r.ach").write_bytes(incoming())
        self.does("returns", status=1, says="ALARM: late return: MILL01 DUES-1 entry 2")
        self.assertEqual(1, len(self.bank.alarms()))

    def test_the_alarm_ends_after_five_banking_days(self) -> None:
        self.late_return()
        self.does("report", status=1)
        self.bank.at(datetime.date(2025, 1, 24))
        self.does("watch", status=1)
        self.bank.at(datetime.date(2025, 1, 25))
        self.does("watch", says="nothing is late")
        self.assertNotIn("DUES-1", self.does("late"))
        self.assertIn("DUES-1", self.does("late", "--all"))


class Questions(Reports):
    def setUp(self) -> None:
        super().setUp()
        self.file.submit(1, "DUES-1", "debit", WED, (2500, "ANN LEE", "111"), (4900, "BOB RAY", "123456789"), cut=MON)
        self.file.submit(2, "PAY-1", "credit", TUE, (150000, "CAL DOE", "987654321"))

    def found(self, *words: str) -> list[tuple[str, int]]:
        return [(it["ref"], it["entry"]) for it in json.loads(self.does("find", "--json", *words))]

    def test_held_submissions(self) -> None:
        self.assertEqual(["company,ref,kind,direction,entries,cents,asked", f"MILL01,PAY-1,submission,credit,1,150000,{TUE}"],
                         self.does("held", "--csv").splitlines())
        self.does("held", says="1,500.00")

    def test_an_entry_is_found_by_each_of_its_marks(self) -> None:
        for words, wanted in ((("--account", "6789"), [("DUES-1", 2)]), (("--account", "123456789"), [("DUES-1", 2)]), (("--amount", "1,500.00"), [("PAY-1", 1)]),
                              (("--amount", "1500"), [("PAY-1", 1)]), (("--name", "bob"), [("DUES-1", 2)]), (("--trace", "121042880000101"), [("DUES-1", 1)]),
                              (("--ref", "dues-1"), [("DUES-1", 1), ("DUES-1", 2)]), (("--ref", "DUES-1", "--amount", "25.00"), [("DUES-1", 1)])):
            with self.subTest(words):
                self.assertEqual(wanted, self.found(*words))

    def test_account_numbers_are_masked_unless_asked_for(self) -> None:
        for words in ((), ("--csv",), ("--json",)):
            told = self.does("find", "--ref", "DUES-1", *words)
            self.assertIn("*****6789", told)
            self.assertNotIn("123456789", told)
            self.assertNotIn("111", told)
        self.assertIn("123456789", self.does("find", "--ref", "DUES-1", "--accounts"))

    def test_words_that_say_nothing_are_refused(self) -> None:
        self.does("find", status=2, says="find needs what to look for")
        self.does("find", "--name", "", status=2, says="find needs what to look for")
        self.does("find", "--amount", "12.5", status=2, says="is not an amount in dollars")
        self.does("find", "--name", "ZZ", says="no entry fits")

    def test_a_copy_of_a_killed_command_is_removed_and_none_is_left(self) -> None:
        old, new = self.bank.state / ".copy-old", self.bank.state / ".copy-new"
        for path in (old, new):
            path.mkdir()
        os.utime(old, (0, 0))
        self.does("held")
        self.assertEqual([new.name], [it.name for it in self.bank.state.glob(".copy-*")])

    def test_without_the_desk_s_file_it_says_what_is_missing(self) -> None:
        (self.folder / "bank.db").unlink()
        self.does("held", status=2, says="is not on this machine")

    def test_readers_write_no_journal_and_wait_for_nobody(self) -> None:
        before = self.bank.journal()
        for words in (("held",), ("companies",), ("find", "--ref", "X"), ("suspense",), ("late",)):
            self.does(*words)
        self.assertEqual(before, self.bank.journal())

    def test_companies(self) -> None:
        rate = achdesk.Rate(1, 3, True)
        rates = achdesk.CompanyRates(achdesk.Rate(0, 3, False), achdesk.Rate(0, 3, False), rate)
        risk = achdesk.CompanyRisk("MILL01", "MILL STREET", 150000, 20000000, 7400, 5000000, 500000, rates)
        setattr(self.bank.desk, "companies", lambda: achdesk.Companies(MON, (risk,)))
        told, = json.loads(self.does("companies", "--json"))
        self.assertEqual(("MILL01", 150000, 3, 1, "overall"), (told["company"], told["credit"], told["debits"], told["overall"], told["over"]))
        self.does("companies", says="200,000.00")
