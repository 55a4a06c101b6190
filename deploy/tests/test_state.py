"""The published state: what the console learns of files, after each command and after kills."""

from __future__ import annotations

import datetime
import hashlib
import json
from typing import Any
from unittest import mock

import achdesk

from tests.support import MON, TUE, TestCase

A, B = f"{MON}-A", f"{MON}-B"
ENTRIES = [f"6{code}09100001{number}123456789        {cents:010}{'E1':15}{'SECRET NAME':22}  109100001{number:07}" for number, (code, cents) in
           enumerate((("26", 0), ("21", 4900), ("36", 7)), 1)]
RETURNS = "".join(f"{it:94}\n" for it in ("101 121042882 0610001462501140000H094101", *(it for entry in ENTRIES for it in (entry, "799R03"))))


class Published(TestCase):
    def published(self) -> dict[str, Any]:
        path = self.bank.state / "public" / "state.json"
        self.assertEqual((0o755, 0o644), (path.parent.stat().st_mode & 0o777, path.stat().st_mode & 0o777))
        told: dict[str, Any] = json.loads(path.read_bytes())
        return told

    def states(self) -> dict[str, str]:
        return {name: it["state"] for name, it in self.published()["files"].items()}

    def test_a_file_is_published_once_it_is_transmitted(self) -> None:
        self.opened(100)
        self.does("cut")
        self.assertEqual((str(MON), {}), (self.published()["since"], self.states()))
        self.does("send")
        told = self.published()["files"][A]
        digest = hashlib.sha256(self.bank.desk.files[A]).hexdigest()
        self.assertEqual(("transmitted", digest, False, None), (told["state"], told["sha256"], told["by_hand"], told["acknowledged"]))
        (self.folder / "ack.csv").write_text(f"file,batches,entries,debits,credits\n{A},1,1,0,100\n")
        self.bank.at(MON, 15)
        self.does("ack", str(self.folder / "ack.csv"))
        self.assertEqual("2025-01-13T15:00:00.000Z", self.published()["files"][A]["acknowledged"])

    def test_files_by_hand_and_withheld_ones(self) -> None:
        self.opened(100)
        self.does("cut")
        self.bank.desk.due = [200]
        self.does("cut")
        self.does("mark", A, "--transmitted")
        self.does("mark", B, "--withheld")
        self.assertEqual({A: "transmitted", B: "withheld"}, self.states())
        self.assertEqual([True, True], [it["by_hand"] for it in self.published()["files"].values()])

    def test_an_archived_file_that_is_missing_is_undecided(self) -> None:
        self.opened(100)
        self.does("cut")
        self.does("send")
        (self.bank.state / "outgoing" / f"{A}.ach").unlink()
        self.does("watch", status=1)
        self.assertEqual({A: "undecided"}, self.states())

    def test_kills_leave_no_file_that_is_transmitted_and_said_not_to_be(self) -> None:
        self.opened(100)
        self.does("cut")
        step, status = 1, -9
        while status == -9:
            status, _ = self.bank.run("send", kill_at=step)
            self.does("watch", status=status if status > 0 else 0)
            if f"{A}.ach" in self.bank.server.folder:
                self.assertIn(self.states().get(A), ("undecided", "transmitted"))
            step += 1
        self.assertEqual({A: "transmitted"}, self.states())

    def test_quarantine_and_directions_have_no_payment_data(self) -> None:
        self.does("open")
        inbox = self.bank.state / "inbox"
        inbox.mkdir(exist_ok=True)
        (inbox / "bad.ach").write_bytes(b"no file")
        (inbox / "good.ach").write_text(RETURNS)
        with mock.patch.object(self.bank.desk, "take_returns", lambda text: achdesk.ReturnsTaken(MON, 0, 0, 0, 3)):
            self.does("returns", status=1)
        told = self.published()
        self.assertEqual([{"file": "bad.ach", "refused": "BadByte at record 1"}], told["quarantined"])
        self.assertEqual({" 0610001462501140000H": "dcd"}, told["directions"])
        text = json.dumps(told)
        self.assertEqual([], [it for it in ("SECRET", "123456789", "4900") if it in text])

    def test_it_is_written_if_it_changed(self) -> None:
        self.does("open")
        before = self.published()
        self.bank.at(MON, 16)
        self.does("watch")
        self.assertEqual(before, self.published())
        (self.bank.state / "public" / "state.json").write_bytes(b"{")
        self.does("watch")
        self.assertEqual({**before, "at": "2025-01-13T16:00:00.000Z"}, self.published())
        self.does("watch", "--dry-run")

    def test_a_state_that_cannot_be_published_is_a_failure(self) -> None:
        (self.bank.state / "public").write_text("")
        self.does("open", status=3, says="the state for the console cannot be published")

    def test_old_files_are_left_out(self) -> None:
        self.opened(100)
        self.does("cut")
        self.does("send")
        self.bank.now += datetime.timedelta(61)
        self.does("watch")
        self.assertEqual(({}, str(self.bank.now.date() - datetime.timedelta(60))), (self.states(), self.published()["since"]))

    def test_the_next_day_keeps_the_first(self) -> None:
        self.opened(100)
        self.does("cut")
        self.does("send")
        self.bank.at(TUE)
        self.does("open")
        self.assertEqual({A: "transmitted"}, self.states())
