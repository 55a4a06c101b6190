"""Alarms that wait, what receivers get, and the configuration."""

from __future__ import annotations

import contextlib
import email.message
import json
import smtplib
import unittest
from collections.abc import Callable
from pathlib import Path
from unittest import mock

from achdesk_alarm import receivers, waiting
from achdesk_alarm.faults import Misused, Undelivered, plain
from achdesk_alarm.settings import Settings
from tests.alarms import MINUTE, NOON, SEND, Case

HERE = Path(__file__).resolve().parent


class Waiting(Case):
    def put(self, text: str = "a file was refused") -> waiting.Alarm:
        alarm = waiting.Alarm(self.moment.isoformat(), "achdesk-day", text)
        waiting.put(alarm, self.state, self.second)
        return alarm

    def test_an_alarm_waits_until_each_receiver_has_it(self) -> None:
        alarm, is_up = self.put(), {"mail": True, "alertmanager": False}
        got: list[tuple[str, list[str]]] = []

        def receiver(name: str) -> receivers.Send:
            def send(_: Settings, alarms: list[waiting.Alarm]) -> None:
                if not is_up[name]:
                    raise Undelivered("refused")
                got.append((name, [it.number for it in alarms]))
            return send

        with mock.patch.object(receivers, "receivers", lambda _: {name: receiver(name) for name in is_up}):
            for _ in range(2):
                with self.assertRaisesRegex(Undelivered, "1 alarms wait: alertmanager: refused"):
                    receivers.deliver(self.settings(), self.state, self.second)
            is_up["alertmanager"] = True
            receivers.deliver(self.settings(), self.state, self.second)
            receivers.deliver(self.settings(), self.state, self.second)
        self.assertEqual(got, [("mail", [alarm.number]), ("alertmanager", [alarm.number])])
        self.assertEqual(self.raised(), [])

    def test_without_a_receiver_nothing_is_lost_and_the_status_says_so(self) -> None:
        self.put()
        with self.assertRaisesRegex(Misused, "1 alarms wait"):
            receivers.deliver(self.settings("[mail]\n"), self.state, self.second)
        self.assertEqual(len(self.raised()), 1)

    def test_on_a_full_disk_an_alarm_waits_in_memory(self) -> None:
        (self.state / "waiting").rmdir()
        self.put()
        self.assertEqual(len(list(self.second.iterdir())), 1)
        self.assertEqual(len(self.raised()), 1)

    def test_an_alarm_that_cannot_be_written_is_a_failure(self) -> None:
        (self.state / "waiting").rmdir()
        self.second.rmdir()
        with self.assertRaises(Undelivered):
            self.put()
        self.assertIn("a file was refused", self.errors.getvalue())

    def test_a_file_that_is_not_an_alarm_does_not_hold_the_others(self) -> None:
        (self.state / "waiting" / "1.json").write_text("{")
        (self.state / "waiting" / "2.json").write_text(json.dumps({"at": "x"}))
        self.put()
        self.assertEqual(len(self.raised()), 1)
        self.assertEqual(len(self.raised()), 1)

    def test_a_disk_that_is_full_keeps_an_alarm_from_no_receiver(self) -> None:
        self.put()
        got: list[str] = []
        both = {name: lambda _, alarms, name=name: got.append(name) for name in ("mail", "alertmanager")}
        with mock.patch.object(receivers, "receivers", lambda _: both), mock.patch.object(receivers, "write_whole", mock.Mock(side_effect=OSError("full"))), \
                mock.patch("pathlib.Path.touch", mock.Mock(side_effect=OSError("full"))), self.assertRaisesRegex(Undelivered, "0 alarms wait: full"):
            receivers.deliver(self.settings(), self.state, self.second)
        self.assertEqual((["mail", "alertmanager"], []), (got, self.raised()))

    def test_an_alarm_that_a_former_receiver_lacks_is_removed(self) -> None:
        alarm = waiting.Alarm(self.moment.isoformat(), "achdesk-day", "a file was refused", delivered=("mail",))
        waiting.put(alarm, self.state, self.second)
        with mock.patch.object(receivers, "receivers", lambda _: {"mail": self.fail}):
            receivers.deliver(self.settings(), self.state, self.second)
        self.assertEqual([], self.raised())

    def test_bytes_that_are_no_text_do_not_keep_a_mail_back(self) -> None:
        self.put(b"restic: \xff\xfe".decode(errors="surrogateescape"))
        server = mock.MagicMock()
        server.send_message.return_value = {}
        with mock.patch("smtplib.SMTP", lambda *_, **__: server):
            receivers.deliver(self.settings("[mail]\nto = a@bank.example\nencryption = none\n"), self.state, self.second)
        self.assertIn(b"restic: ??", server.send_message.call_args.args[0].as_bytes())

    def test_a_text_that_a_mail_server_refuses_keeps_no_other_mail_back(self) -> None:
        """The others arrive, and in place of the text a mail that says where it is."""
        for text in ("a file was late", "the body has a VIRUS", "a file was refused"):
            self.put(text)
            self.moment += MINUTE
        self.assertEqual(([], ["a file was late", "is in the log", "a file was refused"]), self.mailed(lambda text: "VIRUS" in text, 552))
        self.put("the next one")
        self.assertEqual(([], ["the next one"]), self.mailed(lambda text: "VIRUS" in text, 552))

    def test_a_mail_server_that_refuses_every_text_or_for_a_time_gets_each_again(self) -> None:
        for code in (554, 451):
            for text in ("a file was late", "a file was refused"):
                self.put(text)
            left, got = self.mailed(lambda text: True, code)
            self.assertEqual((2, []), (len(left), got))
            self.assertEqual(([], ["a file was late", "a file was refused"]), self.mailed(lambda text: False, code))

    def mailed(self, is_refused: Callable[[str], bool], code: int) -> tuple[list[waiting.Alarm], list[str]]:
        """Delivers to a mail server that refuses some texts. Returns what waits then, and which of the known texts arrived."""
        texts: list[str] = []

        def data(mail: email.message.EmailMessage) -> dict[str, str]:
            text = mail.get_content()
            if is_refused(text):
                raise smtplib.SMTPDataError(code, b"refused")
            texts.append(text)
            return {}

        server, known = mock.MagicMock(), ("a file was late", "a file was refused", "is in the log", "VIRUS", "the next one")
        server.send_message = data
        with mock.patch("smtplib.SMTP", lambda *_, **__: server), contextlib.suppress(Undelivered):
            receivers.deliver(self.settings("[mail]\nto = a@bank.example\nencryption = none\n"), self.state, self.second)
        return self.raised(), [it for text in texts for it in known if it in text]

    def test_alertmanager_gets_no_end_before_its_beginning(self) -> None:
        posted: list[dict[str, str]] = []
        link = mock.MagicMock()
        link.request = lambda _, __, body, ___: posted.extend(json.loads(body))
        link.getresponse.return_value.status = 200
        self.moment += 10_000 * MINUTE
        self.put()
        waiting.put(waiting.Alarm(self.moment.isoformat(), SEND, "works again", is_over=True), self.state, self.second)
        self.moment = NOON
        with mock.patch("http.client.HTTPConnection", lambda *_, **__: link):
            receivers.deliver(self.settings("[alertmanager]\nurl = http://127.0.0.1:9093\n"), self.state, self.second)
        self.assertEqual([NOON.isoformat()] * 2, sorted(it.get("startsAt", it["endsAt"]) for it in posted))

    def test_many_alarms_are_few_mails(self) -> None:
        for _ in range(120):
            self.put()
        sizes = []
        with mock.patch.object(receivers, "receivers", lambda _: {"mail": lambda _, alarms: sizes.append(len(alarms))}):
            receivers.deliver(self.settings(), self.state, self.second)
        self.assertEqual(sizes, [50, 50, 20])


class Configuration(Case):
    def test_what_is_not_a_setting_is_an_error(self) -> None:
        for text in ("[mail]\nforever = 1\n", "[other]\na = 1\n", "[alarm]\npatience = soon\n", "[patience]\nx.service = 25:00\n", "[patience]\nx.service = later\n",
                     "[mail]\nencryption = ssl\n", "[alertmanager]\nurl = 127.0.0.1\n", "no section\n", "[alarm]\ntime_zone = Nowhere/Land\n[patience]\nx.service = 16:30\n"):
            with self.subTest(text), self.assertRaises(Misused):
                self.settings(text)

    def test_the_shipped_file_is_read(self) -> None:
        told = Settings(HERE.parent / "alarm.conf")
        self.assertEqual(told.due(SEND, NOON), NOON + 299 * MINUTE)
        self.assertEqual(told.due("achdesk-day@open.service", NOON), NOON + 30 * MINUTE)

    def test_a_time_of_day_that_is_over_is_the_next_day_s(self) -> None:
        told = self.settings("[patience]\nx.service = 11:00\n")
        self.assertEqual(told.due("x.service", NOON), NOON + 23 * 60 * MINUTE)

    def test_control_characters_do_not_reach_a_mail(self) -> None:
        self.assertEqual(plain("a\r\nTo: b\x1b[2J\x00é"), "a?\nTo: b?[2J?é")
