"""Incoming files: on the right day, whatever their names and sizes, and each fetched once."""

from __future__ import annotations

import datetime
import json
import os
from pathlib import Path

from achdesk_day.stops import Rejected, Unavailable
from tests.support import MON, TUE, TestCase


class Returns(TestCase):
    def arrive(self, name: str | bytes, text: bytes = b"101 a file of returns") -> Path:
        inbox = self.bank.state / "inbox"
        inbox.mkdir(exist_ok=True)
        path = inbox / os.fsdecode(name)
        path.write_bytes(text)
        return path

    def inbox(self) -> list[str]:
        return sorted(it.name for it in (self.bank.state / "inbox").iterdir())

    def test_a_file_is_taken_once_and_archived(self) -> None:
        self.does("open")
        self.arrive("r.ach")
        self.does("returns", says="taken r.ach: 1 returns")
        self.assertEqual([], self.inbox())
        archived = sorted(it.name for it in (self.bank.state / "incoming" / str(MON)).iterdir())
        self.assertEqual(["r.ach", "r.ach.json"], [it[17:] for it in archived])
        self.does("returns", says="the inbox is empty")

    def test_returns_are_never_posted_to_yesterday(self) -> None:
        self.does("open")
        self.bank.at(TUE)
        self.arrive("r.ach")
        self.does("returns", status=1, says=f"the desk day is {MON} and today is {TUE}. Run achdesk-day open")
        self.assertEqual([], self.bank.desk.taken)
        self.does("open")
        self.does("returns", says=f"first taken on {TUE}")

    def test_an_earlier_day_has_to_be_named(self) -> None:
        self.does("open")
        self.bank.at(TUE)
        self.arrive("r.ach")
        self.does("returns", "--other-day", says=f"first taken on {MON}")

    def test_a_holiday_is_quiet(self) -> None:
        self.does("open")
        self.bank.desk.closed = {TUE}
        self.bank.at(TUE)
        self.does("open")
        self.arrive("r.ach")
        self.does("returns", says="is not a banking day; nothing is taken")

    def test_names_of_all_kinds_are_archived_and_the_next_file_goes_on(self) -> None:
        self.does("open")
        names: list[str | bytes] = ["a" * 240, "b" * 236, b"caf\xe9.ach", "new\nline", "z.ach"]
        for at, name in enumerate(names):
            self.arrive(name, b"101 file %d" % at)
        printed = self.does("returns", says="taken z.ach")
        self.assertEqual(5, printed.count("first taken on"))
        self.assertIn("caf\\xe9.ach", printed)
        self.assertIn("new\\x0aline", printed)
        self.assertEqual([], self.inbox())

    def test_a_large_sparse_file_is_not_read(self) -> None:
        self.does("open")
        path = self.arrive("a-large.ach", b"")
        os.truncate(path, 30 << 30)
        self.arrive("z.ach")
        self.does("returns", status=1, says="a-large.ach was refused: TooLarge, it has 32,212,254,720 bytes")
        self.assertEqual(1, len(self.bank.desk.taken))
        self.assertEqual([], self.inbox())

    def test_a_link_and_a_pipe_are_left_alone(self) -> None:
        self.does("open")
        self.arrive("z.ach")
        (self.bank.state / "inbox" / "link").symlink_to(self.bank.folder / "key")
        os.mkfifo(self.bank.state / "inbox" / "pipe")
        self.does("returns", status=1, says="link in the inbox is not a file")
        self.assertEqual(["link", "pipe"], self.inbox())

    def test_a_page_of_a_proxy_does_not_put_a_file_into_quarantine(self) -> None:
        self.does("open")
        self.arrive("r.ach")
        for stop in (Unavailable("a page"), Rejected("a proxy", "BadHead", "BadHead"), Rejected("a proxy", "NotFound", "NotFound")):
            self.bank.desk.fails["take_returns"] = [stop]
            self.does("returns", status=3)
            self.assertEqual(["r.ach"], self.inbox())
        self.bank.desk.fails["take_returns"] = [Rejected("the desk", "FileKeyReused", "FileKeyReused")]
        self.does("returns", status=1, says="r.ach was refused: FileKeyReused")
        self.assertEqual([], self.inbox())

    def test_a_file_that_is_being_delivered_waits(self) -> None:
        self.does("open")
        self.arrive("r.ach.part")
        self.does("returns", says="the inbox is empty")

    def test_killed_at_each_step_a_file_is_taken(self) -> None:
        self.does("open")
        step, status = 1, -9
        while status == -9:
            self.arrive("r.ach", b"101 step %d" % step)
            status, _ = self.bank.run("returns", kill_at=step)
            self.bank.run("returns")
            self.assertEqual([], self.inbox())
            self.assertEqual(step, len(self.bank.desk.taken))
            step += 1
        self.assertGreater(step, 8)


class Fetching(TestCase):
    def setUp(self) -> None:
        super().setUp()
        self.bank.configure(fetch={"folder": "returns", "names": "*.ach"})
        self.does("open")

    def inbox(self) -> dict[str, bytes]:
        return {it.name: it.read_bytes() for it in (self.bank.state / "inbox").iterdir()}

    def test_each_file_is_fetched_once(self) -> None:
        self.bank.server.folder = {"r1.ach": b"101 one", "r2.ach": b"101 two", "r3.ach.part": b"1", "note.txt": b"n"}
        self.does("fetch", says="fetched r2.ach: 7 bytes")
        self.assertEqual({"r1.ach": b"101 one", "r2.ach": b"101 two"}, self.inbox())
        self.does("returns", says="taken r2.ach")
        self.does("fetch")
        self.assertEqual({}, self.inbox())

    def test_another_file_under_the_same_name_is_fetched(self) -> None:
        self.bank.server.folder = {"r.ach": b"101 one"}
        self.does("fetch")
        self.bank.server.folder = {"r.ach": b"101 other"}
        self.does("fetch")
        self.assertEqual([b"101 one", b"101 other"], sorted(self.inbox().values()))

    def test_the_server_s_file_is_deleted_or_moved_after_it_is_stored(self) -> None:
        self.bank.configure(fetch={"folder": "returns", "then": "delete"})
        step, status = 1, -9
        while status == -9:
            name = f"r{step}.ach"
            self.bank.server.folder = {name: b"101 step %d" % step}
            status, _ = self.bank.run("fetch", kill_at=step)
            self.does("fetch")
            self.assertEqual({}, self.bank.server.folder)
            self.assertEqual(b"101 step %d" % step, self.inbox()[name])
            step += 1
        self.assertGreater(step, 5)

    def test_a_file_that_took_the_place_of_a_fetched_one_is_not_removed_unread(self) -> None:
        self.bank.configure(fetch={"folder": "returns", "then": "delete"})
        step = 1
        self.bank.server.folder = {"r.ach": b"101 one"}
        while not self.bank.journal("fetched"):
            self.bank.run("fetch", kill_at=step)
            step += 1
        self.bank.server.folder = {"r.ach": b"101 two"}
        self.does("fetch")
        self.assertEqual([b"101 one", b"101 two"], sorted(self.inbox().values()))

    def test_strange_and_large_files_are_alarms_and_the_next_goes_on(self) -> None:
        self.bank.server.folder = {"a;rm.ach": b"1", "b" * 240 + ".ach": b"1", "large.ach": bytes(4_194_305), "z.ach": b"101"}
        printed = self.does("fetch", status=1, says="fetched z.ach")
        self.assertEqual(3, printed.count("is not fetched"))

    def test_the_configuration_is_checked(self) -> None:
        self.bank.configure(fetch={"folder": ""})
        self.does("fetch", status=2, says="[fetch] folder is not set")
        self.bank.configure(fetch={"folder": "returns", "then": "move"})
        self.does("fetch", status=2, says="needs the folder moved")


class Watching(TestCase):
    def test_a_file_that_waits_in_the_inbox(self) -> None:
        self.does("open")
        path = self.bank.state / "inbox" / "r.ach.part"
        path.write_bytes(b"1")
        os.utime(path, (self.bank.now.timestamp() - 3601,) * 2)
        self.does("watch", status=1, says="in the inbox for more than 60 minutes: r.ach.part")
        self.assertIn("achdesk_inbox_oldest_seconds 3601", self.does("metrics"))

    def test_nothing_received_in_time(self) -> None:
        self.bank.configure(alarm={"received": "10:00"})
        self.does("open")
        self.does("watch", says="nothing is late")
        self.bank.at(MON, 15)
        self.does("watch", status=1, says="no incoming file until 10:00 on 2025-01-13")
        (self.bank.state / "inbox" / "r.ach").write_bytes(b"101")
        self.does("returns")
        self.does("watch", says="nothing is late")

    def test_not_acknowledged_in_time(self) -> None:
        self.bank.configure(alarm={"acknowledged": "120"})
        self.opened(100)
        self.does("cut")
        self.does("send")
        self.does("watch", says="nothing is late")
        self.bank.now += datetime.timedelta(minutes=121)
        self.does("watch", status=1, says=f"not acknowledged 120 minutes after the transmission: {MON}-A")
        self.assertIn("achdesk_unacknowledged_files 1", self.does("metrics"))

    def test_not_transmitted_when_the_window_closes(self) -> None:
        self.bank.configure(sftp={"window": "16:00"})
        self.opened(100)
        self.does("cut")
        self.does("watch", says="nothing is late")
        self.bank.at(MON, 21)
        self.does("watch", status=1, says=f"the window of the ACH operator closed at 16:00: {MON}-A")

    def test_nothing_is_cut_by_the_cut_off_time(self) -> None:
        self.bank.configure(bank={"cut_off": "15:45"})
        self.opened(100)
        self.does("watch", says="nothing is late")
        self.bank.at(MON, 20, 45)
        self.does("watch", status=1, says=f"nothing was cut on {MON} until 15:45, and something is due")
        self.does("cut", "--late")
        self.does("watch", says="nothing is late")

    def test_the_same_alarm_is_given_once_an_hour(self) -> None:
        self.bank.configure(alarm={"received": "08:00", "command": f"sh -c 'cat >> {self.folder}/alarms'"})
        self.does("open")
        for _ in range(3):
            self.does("watch", status=1)
        self.assertEqual(1, len(self.bank.alarms()))
        for moved in (61, -90):  # the last one by a clock that is set back
            self.bank.now += datetime.timedelta(minutes=moved)
            self.does("watch", status=1)
        self.assertEqual(3, len(self.bank.alarms()))


class Failing(TestCase):
    def test_what_is_misused_alarms_at_once_unless_a_person_sees_it(self) -> None:
        (self.folder / "key").chmod(0o644)
        self.bank.configure(fetch={"folder": ""})
        self.bank.person = "ann"
        self.does("fetch", status=2)
        self.assertEqual([], self.bank.alarms())
        self.bank.person = ""
        self.does("fetch", status=2)
        self.assertEqual(1, len(self.bank.alarms()))

    def test_what_is_unavailable_alarms_after_the_configured_time(self) -> None:
        self.opened(100)
        self.bank.desk.fails["status"] = [Unavailable("down")] * 3
        self.does("send", status=3)
        self.bank.now += datetime.timedelta(minutes=29)
        self.does("send", status=3)
        self.assertEqual([], self.bank.alarms())
        self.assertIn("achdesk_failing_commands 1", self.does("metrics", says="achdesk_up 0"))
        self.bank.now += datetime.timedelta(minutes=1)
        self.bank.desk.fails["status"] = [Unavailable("down")]
        self.does("send", status=3)
        self.assertIn("achdesk-day send fails since 2025-01-13T14:00:00.000Z", self.bank.alarms()[0])
        self.bank.now -= datetime.timedelta(days=400)
        self.bank.desk.fails["status"] = [Unavailable("down")]
        self.does("send", status=3)
        self.assertEqual(2, len(self.bank.alarms()), "a clock that was set back keeps nothing waiting")
        self.bank.now += datetime.timedelta(days=400)
        self.does("send")
        self.assertEqual({}, json.loads((self.bank.state / "failing.json").read_text()))

    def test_a_unit_of_the_package_has_the_one_alarm_of_statuses_2_and_3(self) -> None:
        self.opened(100)
        self.bank.unit = "achdesk-day-send.service"
        self.bank.desk.fails["status"] = [Unavailable("down")] * 2
        self.does("send", status=3)
        self.bank.now += datetime.timedelta(minutes=31)
        self.does("send", status=3)
        self.assertIn("achdesk_failing_commands 1", self.does("metrics"))
        (self.folder / "key").chmod(0o644)
        self.bank.configure(fetch={"folder": ""})
        self.does("fetch", status=2)
        self.assertEqual([], self.bank.alarms())

    def test_an_alarm_that_the_command_does_not_take_ends_with_status_2(self) -> None:
        self.bank.configure(alarm={"received": "08:00", "command": "false"})
        self.does("open")
        self.does("watch", status=2, says="ALARM: no incoming file")
        self.does("open", "--day", "2025-01-20", status=2, says="ALARM: 2025-01-20 is after today")
        self.bank.configure(alarm={"received": "08:00", "command": f"sh -c 'cat >> {self.folder}/alarms'"})
        self.does("watch", status=1)
        self.assertEqual(1, len(self.bank.alarms()))

    def test_a_damaged_journal_is_an_alarm(self) -> None:
        self.does("open")
        with open(self.bank.state / "day.journal", "a") as journal:
            journal.write("{damaged}\n")
        self.does("send", status=1, says="line")
        self.assertIn("is damaged", self.bank.alarms()[0])

    def test_a_held_lock_is_waited_for_and_then_counts_as_unavailable(self) -> None:
        from achdesk_day.locks import Lock
        lock = Lock(self.bank.state / "day.lock")
        self.does("send", status=3, says="holds")
        self.bank.now += datetime.timedelta(minutes=30)
        self.does("send", status=3)
        lock.close()
        self.assertIn("holds", self.bank.alarms()[0])
        self.does("open")
