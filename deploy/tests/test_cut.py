"""Cuts: a lost answer, the cut-off time, the number of files, and two persons."""

from __future__ import annotations

from achdesk_day.stops import NoAnswer, Rejected, Unavailable
from achdesk_day.values import MODIFIERS
from tests.support import MON, TUE, TestCase, file_of


class Cutting(TestCase):
    def test_a_cut_whose_answer_is_lost_is_looked_up(self) -> None:
        self.opened(100)
        self.bank.desk.fails["cut"] = [NoAnswer("the connection was cut")]
        self.does("cut", says="cut on 2025-01-13: 1 entries in files A")
        self.assertEqual(1, self.bank.desk.asked.count("cut"))

    def test_a_cut_that_did_not_reach_the_desk_is_made_again(self) -> None:
        self.opened(100)
        self.bank.desk.fails["cut"] = [Unavailable("refused")]
        self.does("cut", status=3)
        self.does("cut", says="in files A")

    def test_a_refused_cut_is_an_alarm(self) -> None:
        self.opened(100)
        self.bank.desk.fails["cut"] = [Rejected("POST /ops/cut", "ModifiersSpent", "ModifiersSpent")]
        self.does("cut", status=1, says="the cut was refused: ModifiersSpent")

    def test_nothing_is_cut_on_another_day_or_past_the_time(self) -> None:
        self.opened(100)
        self.bank.configure(bank={"cut_off": "16:30"})
        self.bank.at(MON, 22)
        self.does("cut", status=1, says="past the cut-off time 16:30")
        self.bank.at(TUE)
        self.does("cut", status=1, says="Run achdesk-day open")
        self.does("cut", "--dry-run", "--other-day", says="due MILL01")

    def test_a_payment_after_a_cut_that_found_nothing_due_waits_for_the_next_one(self) -> None:
        self.bank.configure(bank={"cut_off": "16:30"})
        self.opened()
        self.does("cut", "--dry-run", says="nothing is due")
        self.bank.at(MON, 22)
        self.does("watch", says="nothing is late")
        self.bank.desk.due = [100]
        self.does("watch", status=1, says="nothing was cut on 2025-01-13 until 16:30, and something is due")
        self.bank.at(MON, 21)
        self.bank.desk.due = []
        self.does("cut", says="nothing is due")
        self.bank.at(MON, 22)
        self.bank.desk.due = [100]
        self.does("watch", says="nothing is late")
        with open(self.bank.state / "day.journal", "a") as journal:
            journal.write('{"at": "2025-01-13T22:00:00.000Z", "by": "root", "did": "restored", "began": "2025-01-13T10:00:00.000Z"}\n')
        self.does("watch", status=1, says="nothing was cut on 2025-01-13 until 16:30, and something is due")
        self.bank.at(TUE)
        self.does("open", says=str(TUE))
        self.bank.at(TUE, 22)
        self.does("watch", status=1, says="nothing was cut on 2025-01-14 until 16:30, and something is due")

    def test_the_number_of_files_is_the_desk_s(self) -> None:
        self.opened(100, 200)
        self.bank.desk.many_files = 8
        self.does("cut", "--dry-run", says="files left today: 36; a cut makes 8 now, with 2 entry and addenda records\n")
        self.does("watch", says="nothing is late")
        self.assertEqual([], self.bank.alarms())

    def test_a_quarter_of_the_day_s_files_is_an_alarm(self) -> None:
        self.opened(100, 200)
        self.bank.desk.many_files = 9
        crowded = "a cut would make 9 files now; 36 of the day's 36 are left: see A company floods the desk"
        self.does("cut", "--dry-run", status=1, says=crowded)
        self.does("watch", status=1, says=crowded)
        self.does("watch", status=1, says=crowded)
        self.assertEqual(1, sum(crowded in it for it in self.bank.alarms()))
        printed = self.does("metrics")
        for line in ("achdesk_due_files 9", "achdesk_due_records 2", "achdesk_held_records 2", "achdesk_files_left 36"):
            self.assertIn(f"\n{line}\n", printed)

    def test_more_files_than_are_left_are_an_alarm(self) -> None:
        self.opened(100)
        for modifier in MODIFIERS[:30]:
            self.bank.desk.files[f"{MON}-{modifier}"] = file_of(f"{MON}-{modifier}", 1)
        self.bank.desk.many_files = 6
        self.does("cut", "--dry-run", says="files left today: 6; a cut makes 6 now")
        self.bank.desk.many_files = 7
        self.does("cut", "--dry-run", status=1, says="a cut would make 7 files now; 6 of the day's 36 are left")

    def test_an_older_desk_does_not_report_the_files_of_a_cut(self) -> None:
        self.bank.desk.is_older = True
        self.opened(100)
        self.does("cut", "--dry-run", says="files left today: 36; the desk, an older one, does not report how many files a cut makes")
        self.does("watch", says="a flood is not looked for: the desk, an older one, does not report")
        self.assertNotIn("achdesk_due_files", self.does("metrics"))
        self.does("cut", says="in files A")


class Remaking(TestCase):
    """Monday had two cuts, of which the second was withheld, and Tuesday one. Then the desk was restored."""

    def setUp(self) -> None:
        super().setUp()
        self.opened(100)
        self.does("cut")
        self.does("send")
        self.bank.desk.due = [200]
        self.does("cut")
        self.does("mark", f"{MON}-B", "--withheld")
        self.bank.at(TUE)
        self.does("open")
        self.bank.desk.due = [300]
        self.does("cut")
        self.does("send")
        self.bank.desk.files.clear()
        self.bank.desk.day, self.bank.desk.due = MON, [100]

    def remakes(self, *words: str, status: int = 0, says: str = "") -> None:
        self.does("cut", "--remake", "--other-day", *words, status=status, says=says)

    def test_a_withheld_file_is_made_again_though_it_was_the_last_of_its_day(self) -> None:
        self.remakes(says=f"{MON}-A is the file that was transmitted, byte for byte")
        self.bank.desk.due = [200]
        self.remakes(says=f"{MON}-B is the file that was withheld, byte for byte")
        self.bank.desk.due = [300]
        self.remakes(status=1, says="a cut would pay twice")
        self.does("open")
        self.does("cut", "--remake", says=f"{TUE}-A is the file that was transmitted, byte for byte")
        self.does("send", says="nothing")

    def test_a_cut_with_other_sums_is_not_made_again(self) -> None:
        self.bank.desk.due = [100, 200]
        sums = "had 1 submissions, credits 1.00, debits 0.00; now 2 submissions, credits 3.00, debits 0.00 are due"
        self.remakes("--dry-run", says=sums)
        self.remakes(status=1, says=sums)
        self.assertEqual({}, self.bank.desk.files)
        self.remakes("--again", status=1, says=f"{MON}-A was made again with other bytes")


    def test_a_cut_is_compared_with_the_one_whose_file_was_transmitted(self) -> None:
        self.remakes()
        self.bank.desk.due = [200, 300]
        self.remakes("--again", status=1, says=f"{MON}-B was withheld, and made again with other bytes")
        self.does("send", "--again", f"{MON}-B", says=f"sent {MON}-B")
        self.bank.desk.files.clear()
        self.bank.desk.due = [100]
        self.remakes(says="as are due now")
        self.bank.desk.due = [200]
        self.remakes(status=1, says="had 2 submissions, credits 5.00, debits 0.00; now 1 submissions, credits 2.00, debits 0.00 are due")
        self.bank.desk.due = [200, 300]
        self.remakes(says=f"{MON}-B is the file that was transmitted, byte for byte")

    def test_a_cut_with_other_bytes_is_not_compared_with(self) -> None:
        self.bank.desk.due = [100, 200]
        self.remakes("--again", status=1, says=f"{MON}-A was made again with other bytes")
        self.bank.server.folder.clear()
        self.does("send", "--again", f"{MON}-A", says=f"sent {MON}-A")
        self.bank.desk.files.clear()
        self.bank.desk.due = [100]
        self.remakes(says=f"{MON}-A is the file that was transmitted, byte for byte")


class DualControl(TestCase):
    def setUp(self) -> None:
        super().setUp()
        self.bank.configure(approval={"cut": "yes", "send": "yes"})

    def test_a_cut_needs_two_persons(self) -> None:
        self.opened(100)
        self.does("cut", status=1, says="the cut needs two persons")
        self.does("approve", "cut", status=2, says="only a person approves")
        self.bank.person = "ann"
        self.does("approve", "cut", says="ann approves a cut on 2025-01-13 of at most 1 submissions, credits 1.00")
        self.does("cut", status=1, says="So far: ann")
        self.bank.person = "bob"
        self.does("cut", says="in files A")
        self.assertEqual(["ann", "bob"], self.bank.journal("cutting")[0]["people"])

    def test_an_approval_is_of_one_cut_and_of_no_more_than_was_due(self) -> None:
        self.opened(100)
        self.bank.person = "ann"
        self.does("approve", "cut")
        self.bank.desk.due = [100, 100]
        self.bank.person = "bob"
        self.does("cut", status=1, says="So far: bob")
        self.bank.desk.due = [100]
        self.does("cut", says="in files A")
        self.bank.desk.due = [100]
        self.does("cut", status=1, says="So far: bob")

    def test_a_timer_transmits_what_two_persons_approved(self) -> None:
        self.bank.configure(approval={"send": "yes"})
        self.opened(100)
        self.does("cut")
        self.bank.person = "ann"
        self.does("approve", f"{MON}-A", says="ann approves the transmission")
        self.bank.person = ""
        self.does("send", status=1, says="needs two persons. So far: ann")
        self.assertEqual([], self.bank.server.received)
        self.bank.person = "bob"
        self.does("approve", f"{MON}-A")
        self.bank.person = ""
        self.does("send", says="sent")
        self.assertEqual(["ann", "bob"], self.bank.journal("sending")[0]["people"])

    def test_it_is_off_unless_it_is_configured(self) -> None:
        self.bank.configure()
        self.opened(100)
        self.does("cut", says="in files A")
        self.does("send", says="sent")
