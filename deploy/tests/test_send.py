"""Files are transmitted once: by the journal and the archive together, killed at each step, and after takeovers."""

from __future__ import annotations

import copy
import shutil

from achdesk_day.stops import Unavailable
from tests.support import MON, Bank, TestCase, file_of

A, B = f"{MON}-A", f"{MON}-B"


class Sending(TestCase):
    def cut(self, *cents: int) -> None:
        self.opened(*cents)
        self.does("cut", says="in files A")

    def test_a_file_is_transmitted_once(self) -> None:
        self.cut(100, 200)
        self.does("send", says=f"sent {A}: 1 batches, 2 records, debits 0.00, credits 3.00")
        self.does("send", says="to transmit: nothing")
        self.assertEqual([f"{A}.ach"], [name for name, _ in self.bank.server.received])

    def test_the_intent_is_on_the_standby_before_the_server_has_anything(self) -> None:
        self.cut(100)
        self.bank.is_standby_up = False
        self.does("send", status=3, says="the standby is down")
        self.assertEqual({}, self.bank.server.folder)
        self.bank.is_standby_up = True
        self.does("send", says=f"sent {A}")
        standby = (self.bank.folder / "standby/state/day.journal").read_text()
        self.assertIn('"did": "sending"', standby)
        self.assertIn('"did": "sent"', standby)

    def test_nothing_is_transmitted_while_the_standby_is_not_configured(self) -> None:
        self.cut(100)
        self.bank.configure(standby={"to": ""})
        self.does("send", status=2, says="[standby] to is not set")
        self.assertEqual({}, self.bank.server.folder)
        self.bank.configure(standby={"to": "none"})
        self.does("send", says=f"sent {A}")

    def test_what_did_not_leave_after_an_upload_leaves_with_the_next_send(self) -> None:
        self.cut(100)
        step, sent = 1, False
        while not sent:
            status, _ = self.bank.run("send", kill_at=step)
            sent = bool(self.bank.journal("sent"))
            step += 1
        self.bank.is_standby_up = False
        self.does("send", status=3, says="the standby is down")
        self.bank.is_standby_up = True
        self.does("send", says="nothing")
        self.assertIn('"did": "sent"', (self.bank.folder / "standby/state/day.journal").read_text())

    def test_a_sent_file_that_the_archive_lacks_is_an_alarm_and_never_sent_again(self) -> None:
        self.cut(100)
        self.does("send")
        (self.bank.state / "outgoing" / f"{A}.ach").unlink()
        self.bank.server.folder.clear()
        self.does("send", status=1, says=f"{A} was transmitted by the journal, and the archive lacks it")
        self.assertEqual(1, len(self.bank.server.received))
        self.assertIn("achdesk_unclear_files 1", self.does("metrics"))
        self.does("mark", A, "--transmitted", says=f"{A} is in the archive again")
        self.does("send", says="nothing")

    def test_an_archived_file_that_the_journal_lacks_is_an_alarm(self) -> None:
        self.cut(100)
        (self.bank.state / "outgoing" / f"{A}.ach").write_bytes(self.bank.desk.files[A])
        self.does("send", status=1, says="is in the archive, and the journal does not say that it was transmitted")
        self.assertEqual([], self.bank.server.received)

    def test_an_acknowledged_file_needs_a_second_flag(self) -> None:
        self.cut(100)
        self.does("send")
        ack = self.bank.folder / "ack.csv"
        ack.write_text(f"file,batches,entries,debits,credits\n{A},1,1,0,100\n")
        self.does("ack", str(ack), says="acknowledged")
        self.bank.server.folder.clear()
        self.does("send", "--again", A, status=1, says="the ACH operator acknowledged")
        self.does("send", "--again", A, "--though-acknowledged", says=f"sent {A}")

    def test_a_server_that_stores_half_has_nothing_under_the_file_s_name(self) -> None:
        self.cut(100)
        self.bank.server.stores = 0.5
        self.does("send", status=3, says="bytes of")
        self.assertEqual([], self.bank.server.received)
        self.bank.server.stores = 1
        self.does("send", says=f"sent {A}")

    def test_a_file_of_that_name_on_the_server_is_not_replaced(self) -> None:
        self.cut(100)
        self.bank.server.folder[f"{A}.ach"] = b"another"
        self.does("send", status=1, says="another file with the name")
        self.assertEqual(b"another", self.bank.server.folder[f"{A}.ach"])

    def test_an_undecided_file_keeps_back_itself_alone(self) -> None:
        self.cut(100)
        self.does("mark", A, "--withheld")
        self.bank.desk.files[A] = file_of(A, 999)
        self.bank.desk.due = [300]
        self.does("cut", says="in files B")
        self.does("send", status=1, says=f"{A} was withheld, and made again with other bytes")
        self.assertEqual([f"{B}.ach"], [name for name, _ in self.bank.server.received])

    def test_a_file_that_the_desk_made_again_is_known_by_its_bytes(self) -> None:
        self.cut(100)
        self.does("send")
        self.bank.desk.files[A] = file_of(A, 100, 500)  # the console of a restored desk cut it
        self.does("send", status=1, says=f"{A} has other bytes on the desk")
        self.assertEqual(1, len(self.bank.server.received))
        self.assertIn("achdesk_lost_files 1", self.does("metrics"))
        self.does("cut", "--remake", status=1, says="was made again with other bytes")
        self.does("send", says="nothing")
        self.assertIn("achdesk_lost_files 0", self.does("metrics"))

    def test_an_interrupted_rename_is_left_to_a_person(self) -> None:
        self.cut(100)
        self.bank.server.is_quick = True
        self.bank.server.fails["rename"] = [Unavailable("the connection was cut")]
        self.does("send", status=3, says="perhaps not renamed")
        del self.bank.server.folder[f"{A}.ach.part"]
        self.does("send", status=1, says=f"it is unclear whether {A} was transmitted")

    def test_an_upload_that_was_interrupted_before_the_rename_needs_nobody(self) -> None:
        self.cut(100)
        self.bank.server.is_quick = True
        step = 1
        while not self.bank.journal("sending"):
            self.bank.run("send", kill_at=step)
            step += 1
        self.does("send", says=f"sent {A}")

    def test_a_second_transmission_is_recorded_as_one_also_by_the_send_that_goes_on_with_it(self) -> None:
        self.cut(100)
        self.bank.server.is_quick = True
        self.does("send")
        step = 1
        while len(self.bank.journal("sending")) < 2:
            self.bank.run("send", "--again", A, kill_at=step)
            step += 1
        self.bank.server.fails["rename"] = [Unavailable("the connection was cut")]
        self.does("send", status=3, says="perhaps not renamed")
        self.assertEqual([None, True, True], [it.get("again") for it in self.bank.journal("sending")])
        del self.bank.server.folder[f"{A}.ach.part"]
        self.does("send", status=1, says=f"it is unclear whether {A} was transmitted a second time")

    def test_an_acknowledgement_of_the_first_transmission_is_not_taken_for_one_of_the_second(self) -> None:
        self.cut(100)
        self.bank.server.is_quick = True
        self.does("send")
        ack = self.bank.folder / "ack.csv"
        ack.write_text(f"file,batches,entries,debits,credits\n{A},1,1,0,100\n")
        self.does("ack", str(ack), says=f"acknowledged {A}")
        self.bank.server.fails["rename"] = [Unavailable("the connection was cut")]
        self.does("send", "--again", A, "--though-acknowledged", status=3, says="perhaps not renamed")
        del self.bank.server.folder[f"{A}.ach.part"]
        self.does("ack", str(ack), status=1, says=f"the acknowledgement has {A}, which is being transmitted a second time")
        said = self.does("send", status=1, says=f"it is unclear whether {A} was transmitted a second time")
        self.assertNotIn("achdesk-day ack", said)
        self.does("mark", A, "--transmitted", says="marked")
        self.does("ack", str(ack), says=f"acknowledged {A}")

    def test_send_tries_again_until_the_window_closes(self) -> None:
        self.cut(100)
        self.bank.configure(sftp={"window": "16:00", "retry": "0"})
        self.bank.server.fails["names"] = [Unavailable("down")] * 3
        self.does("send", "--retry", says=f"sent {A}")
        self.bank.desk.due = [5]
        self.does("cut")
        self.bank.at(MON, 22)
        self.bank.server.fails["names"] = [Unavailable("down")] * 3
        self.does("send", "--retry", status=1, says="until the ACH operator's window closed at 16:00")
        self.assertTrue(any("window closed" in it for it in self.bank.alarms()))


class Killing(TestCase):
    """Kills `send` at each step. The same machine goes on, or the standby takes over with an older desk."""

    def prepared(self, is_quick: bool) -> Bank:
        shutil.rmtree(self.folder)
        self.folder.mkdir()
        self.bank = Bank(self.folder)
        self.bank.server.is_quick = is_quick
        self.opened(100)
        self.bank.run("cut")
        return self.bank

    def transmitted_once(self, bank: Bank, when: str) -> None:
        names = [name for name, _ in bank.server.received]
        self.assertLessEqual(len(names), 1, f"{when}: transmitted twice")
        if not names:
            self.assertTrue(bank.alarms(), f"{when}: left out without an alarm")

    def test_the_same_machine_goes_on(self) -> None:
        for is_quick in (False, True):
            step, status = 1, -9
            while status == -9:
                bank = self.prepared(is_quick)
                status, _ = bank.run("send", kill_at=step)
                ended, said = bank.run("send")
                if ended == 1:
                    self.assertIn("it is unclear", said)
                self.transmitted_once(bank, f"step {step}")
                step += 1
            self.assertGreater(step, 15)

    def test_a_standby_takes_over_with_the_desk_as_it_was(self) -> None:
        self.taken_over(is_older=False)

    def test_a_standby_takes_over_with_an_older_desk(self) -> None:
        self.taken_over(is_older=True)

    def taken_over(self, is_older: bool) -> None:
        step, status = 1, -9
        while status == -9:
            bank = self.prepared(is_quick=True)
            older = copy.deepcopy(bank.desk)
            older.files, older.sent, older.due = {}, 0, [100]
            self.copied_state(bank)
            status, _ = bank.run("send", kill_at=step)
            bank.take_over()
            if is_older:
                bank.desk = older
            self.person_goes_on(bank, f"step {step}")
            step += 1
        self.assertGreater(step, 15)

    def copied_state(self, bank: Bank) -> None:
        """The standby has what `copy` brought there before."""
        shutil.copytree(bank.state, bank.folder / "standby/state", dirs_exist_ok=True)

    def person_goes_on(self, bank: Bank, when: str) -> None:
        received = {name.removesuffix(".ach") for name, _ in bank.server.received}
        for words in (("cut",), ("send",)):
            status, said = bank.run(*words)
            self.assertEqual(1, status, f"{when}: {said}")
            self.assertIn("the journal is another machine's", said)
        status, said = bank.run("confirm")
        for name in (line.split()[0] for line in said.splitlines() if line.startswith("  ")):
            answer = "--transmitted" if name in received else "--not-transmitted"
            self.assertEqual(0, bank.run("confirm", name, answer, "--by", "ANN")[0])
        self.assertEqual(0, bank.run("confirm", "--no-other", "--by", "ANN")[0])
        bank.run("cut")
        bank.run("cut", "--remake")
        bank.run("send")
        names = [name for name, _ in bank.server.received]
        self.assertEqual([f"{A}.ach"], names, when)
