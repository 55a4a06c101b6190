"""A machine that is lost at each step of an afternoon, and the standby that goes on with what has left it."""

from __future__ import annotations

import copy
import shutil

from achdesk_day.durable import sha256
from tests.support import MON, TUE, Bank, TestCase, file_of

A, B = f"{MON}-A", f"{MON}-B"
AFTERNOON = (("cut",), ("copy",), ("send",))


class Afternoon(TestCase):
    def test_a_standby_goes_on_with_the_desk_as_it_was(self) -> None:
        self.lost_at_each_step(is_older=False)

    def test_a_standby_goes_on_with_a_desk_from_before_the_cut(self) -> None:
        self.lost_at_each_step(is_older=True)

    def lost_at_each_step(self, is_older: bool) -> None:
        for at, words in enumerate(AFTERNOON):
            step, status = 1, -9
            while status == -9:
                bank = self.prepared()
                older = copy.deepcopy(bank.desk)
                for done in AFTERNOON[:at]:
                    bank.run(*done)
                status, _ = bank.run(*words, kill_at=step)
                bank.take_over()
                if is_older:
                    bank.desk = older
                with self.subTest(f"{words[0]} at step {step}"):
                    self.person_goes_on(bank)
                step += 1
            self.assertGreater(step, 2, words)

    def prepared(self) -> Bank:
        """A bank whose desk has something due. Its operator takes files at once, and its standby has what `copy` brought in the
        morning."""
        shutil.rmtree(self.folder)
        self.folder.mkdir()
        self.bank = Bank(self.folder)
        self.bank.server.is_quick = True
        self.opened(100)
        self.does("copy")
        return self.bank

    def person_goes_on(self, bank: Bank) -> None:
        """Does at the standby what the page says, and then the afternoon once more: the payment is transmitted once."""
        for words in (("cut",), ("send",)):
            self.does(*words, status=1, says="the journal is another machine's")
        received = {name.removesuffix(".ach") for name, _ in bank.server.received}
        for name in (line.split()[0] for line in self.does("confirm").splitlines() if line.startswith("  ")):
            self.does("confirm", name, "--transmitted" if name in received else "--not-transmitted", "--by", "ANN")
        self.does("confirm", "--no-other", "--by", "ANN")
        afternoon: tuple[tuple[str, ...], ...] = (("cut",), ("cut", "--remake"), ("send",))
        for again in afternoon:
            bank.run(*again)
        self.assertEqual([f"{MON}-A.ach"], [name for name, _ in bank.server.received])
        self.does("send", says="to transmit: nothing")


class TransmittedBefore(TestCase):
    def test_a_person_is_shown_that_an_upload_that_was_begun_is_a_second_one(self) -> None:
        for at in range(1, 30):
            with self.subTest(f"send --again at step {at}"):
                if not self.lost_in_a_second_upload(at):
                    return
        self.fail("send --again has no end")

    def lost_in_a_second_upload(self, step: int) -> bool:
        """Loses the machine at a step of `send --again`. Returns whether there was one."""
        shutil.rmtree(self.folder)
        self.folder.mkdir()
        self.bank = Bank(self.folder)
        self.bank.server.is_quick = True
        self.opened(100)
        self.does("cut")
        self.does("send")
        is_killed = self.bank.run("send", "--again", A, kill_at=step)[0] == -9
        self.bank.take_over()
        self.does("send", status=1, says="the journal is another machine's")
        is_begun = self.bank.journal("sending", "renaming", "uploaded", "sent")[-1]["did"] != "sent"
        shown = "transmitted before, on 2025-01-13T14:00:00.000Z: ask whether the ACH operator has it once or twice"
        self.assertEqual(is_begun, shown in self.does("confirm"))
        self.assertEqual([None, True][:1 + is_begun], [it.get("again") for it in self.bank.journal("sending")][:1 + is_begun])
        self.does("confirm", A, "--transmitted", "--by", "ANN", says="confirmed")
        self.does("confirm", "--no-other", "--by", "ANN")
        self.does("send", says="to transmit: nothing")
        return is_killed


class Restoring(TestCase):
    def test_cut_and_send_refuse_after_a_restore_until_all_is_confirmed(self) -> None:
        self.opened(100)
        self.does("cut")
        self.does("send")
        with open(self.bank.state / "day.journal", "a") as journal:
            journal.write('{"at": "2025-01-13T15:00:00.000Z", "by": "root", "did": "restoring", "began": "2025-01-13T10:00:00.000Z"}\n')
        self.does("send", status=1, says=f"not confirmed: {A}")
        self.does("cut", status=1, says="the desk was restored")
        self.assertIn("achdesk_unconfirmed 1", self.does("metrics"))
        self.does("confirm", A, "--transmitted", status=2, says="--by NAME is needed")
        self.does("confirm", "--no-other", "--by", "ANN", status=1, says=f"not confirmed yet: {A}")
        self.does("confirm", A, "--transmitted", "--by", "ANN", says="confirmed")
        self.does("send", status=1, says="whether it has any other file is not confirmed")
        self.does("confirm", "--no-other", "--by", "ANN", says="cut and send go on")
        self.does("send", says="nothing")
        self.assertEqual("ANN", self.bank.journal("confirmed")[0]["who"])

    def test_a_person_is_shown_the_file_that_was_transmitted_in_place_of_the_desk_s(self) -> None:
        self.opened(100, 200)
        self.does("cut")
        own = self.bank.folder / "own.ach"
        own.write_bytes(file_of(A, 100))
        self.does("mark", A, "--transmitted-as", str(own))
        self.bank.machine = "two"
        self.does("cut", status=1, says=f"not confirmed: {A}")
        told = self.does("confirm")
        self.assertIn(f"1 batches, 1 entries, 0 debits, 100 credits  SHA-256 {sha256(own.read_bytes())}", told)

    def test_a_file_that_was_withheld_is_not_confirmed_as_transmitted(self) -> None:
        self.opened(100)
        self.does("cut")
        self.does("mark", A, "--withheld")
        self.bank.machine = "two"
        self.does("cut", status=1, says="whether it has any other file is not confirmed")
        self.does("confirm", A, "--transmitted", "--by", "ANN", status=1, says=f"{A} was withheld on")
        self.does("confirm", "--no-other", "--by", "ANN", says="cut and send go on")
        self.does("send", says="nothing")

    def test_a_second_restore_asks_again(self) -> None:
        self.opened(100)
        self.does("cut")
        self.does("send")
        for _ in range(2):
            with open(self.bank.state / "day.journal", "a") as journal:
                journal.write('{"at": "2025-01-13T15:00:00.000Z", "by": "root", "did": "restoring", "began": "2025-01-13T10:00:00.000Z"}\n')
            self.does("send", status=1, says=f"not confirmed: {A}")
            self.does("confirm", A, "--transmitted", "--by", "ANN")
            self.does("confirm", "--no-other", "--by", "ANN")
            self.does("send", says="nothing")

    def test_a_file_that_the_operator_lacks_is_transmitted_once_more(self) -> None:
        self.opened(100)
        self.does("cut")
        self.does("send")
        self.bank.server.folder.clear()
        self.bank.machine = "two"
        self.does("confirm", says=A)
        self.does("confirm", A, "--not-transmitted", "--by", "ANN")
        self.does("confirm", "--no-other", "--by", "ANN")
        self.does("send", says=f"sent {A}")
        self.assertEqual(2, len(self.bank.server.received))

    def test_a_machine_that_was_put_back_with_its_journal_is_noticed_by_the_standby(self) -> None:
        self.opened(100)
        self.does("cut")
        self.keep()
        self.does("send", says=f"sent {A}")
        self.put_back()
        self.does("send", status=1, says="the standby knows of a transmission that this journal does not have")
        self.assertEqual(1, len(self.bank.server.received))
        self.does("confirm", A, "--transmitted", "--by", "ANN")
        self.does("confirm", "--no-other", "--by", "ANN")
        self.bank.desk.due = [300]
        self.does("cut")
        self.bank.run("mark", A, "--transmitted")
        self.does("send", says=f"sent {B}")
        self.assertEqual(2, len(self.bank.server.received))

    def test_a_copy_during_a_transmission_does_not_bring_its_mark_to_the_standby(self) -> None:
        self.opened(100)
        self.does("cut")
        (self.bank.state / "begun").mkdir()
        (self.bank.state / "begun/0-1").touch()
        self.does("copy")
        self.does("send", says=f"sent {A}")

    def test_a_machine_that_was_put_back_is_noticed_though_the_standby_was_down_before(self) -> None:
        self.opened(100)
        self.does("cut")
        self.keep()
        self.bank.is_standby_up = False
        for _ in range(3):
            self.does("send", status=3, says="the standby is down")
        self.bank.is_standby_up = True
        self.does("send", says=f"sent {A}")
        self.put_back()
        self.does("send", status=1, says="the standby knows of a transmission that this journal does not have")

    def test_a_machine_that_was_put_back_to_before_a_confirmation_is_noticed(self) -> None:
        self.opened(100)
        self.does("cut")
        self.keep()
        self.bank.machine = "two"
        self.does("send", status=1, says="the journal is another machine's")
        self.does("confirm", "--no-other", "--by", "ANN")
        self.does("send", says=f"sent {A}")
        self.put_back()
        self.bank.machine = "one"
        self.does("send", status=1, says="the standby knows of a transmission that this journal does not have")

    def keep(self) -> None:
        shutil.copytree(self.bank.state, self.folder / "kept")

    def put_back(self) -> None:
        """Brings the kept state back, after the ACH operator has taken what was transmitted."""
        self.bank.server.folder.clear()
        shutil.rmtree(self.bank.state)
        (self.folder / "kept").rename(self.bank.state)

    def test_a_desk_that_has_sent_less_than_the_journal_knows_is_noticed(self) -> None:
        self.opened(100, 200)
        self.does("cut")
        self.bank.desk.sent, self.bank.desk.files, self.bank.desk.due = 0, {}, [700]
        self.does("cut", status=1, says="the desk has sent fewer entries than the journal knows")
        self.does("confirm", "--no-other", "--by", "ANN")
        self.does("cut", says="in files A")

    def test_a_restore_of_tuesday_asks_for_files_of_the_days_before(self) -> None:
        self.opened(100)
        self.does("cut")
        self.does("send")
        self.bank.at(TUE)
        self.does("open")
        self.bank.machine = "two"
        self.does("send", status=1, says=f"not confirmed: {A}")
