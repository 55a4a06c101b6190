"""Which failures may have acted, and for how long one has to wait before looking."""

from __future__ import annotations

import time
import unittest
from unittest import mock

from achdesk import DeskError, InputFault, NoAnswer, Operator, Refused, Settings, __version__
from achdesk import caller
from tests.fakes import DAY, Server, SmallDesk, answer, in_turn, queueing

OPERATOR_KEY = "operator-key"


def operator(url: str, **more: float) -> Operator:
    return Operator(url, OPERATOR_KEY, Settings(**{"total_seconds": 0, **more}))  # type: ignore


class MayHaveActed(unittest.TestCase):
    def check(self, reply: bytes, expected: bool) -> None:
        with Server(in_turn(reply)) as server:
            with self.assertRaises(DeskError) as caught:
                operator(server.url).cut()
            self.assertEqual(caught.exception.may_have_acted, expected, reply)
            self.assertEqual(caught.exception.settles_in > 0, expected, reply)

    def test_what_the_desk_refused_has_not_acted(self) -> None:
        for status, name in ((400, "BadHead"), (403, "Denied"), (409, "NoDay"),
                             (429, "TooManyRequests"), (503, "Unavailable")):
            self.check(answer(status, {"error": name}), False)

    def test_a_gateway_may_have_passed_the_request_on(self) -> None:
        for status in (500, 502, 503, 504, 507):
            self.check(answer(status, b"<html>", "text/html"), True)
            self.check(answer(status, {"error": "BadGateway"}), True)
        self.check(answer(503, {"message": "Unavailable"}), True)

    def test_a_page_of_a_proxy(self) -> None:
        self.check(answer(404, b"<html>", "text/html"), False)
        self.check(answer(200, b"<html>", "text/html"), True)

    def test_no_connection_has_not_acted(self) -> None:
        with Server(in_turn(b"")) as server:
            pass
        with self.assertRaises(NoAnswer) as caught:
            operator(server.url).cut()
        self.assertFalse(caught.exception.may_have_acted)
        self.assertEqual(caught.exception.settles_in, 0)

    def test_an_earlier_attempt_counts(self) -> None:
        lost, denied = answer(502, {"error": "BadGateway"}), answer(403, {"error": "Denied"})
        with Server(in_turn(lost, denied)) as server, mock.patch.object(caller, "FIRST_PAUSE", 0):
            with self.assertRaises(Refused) as caught:
                operator(server.url, total_seconds=20).status()
        error = caught.exception
        self.assertEqual((error.name, error.attempts, error.may_have_acted), ("Denied", 2, True))


class LostCut(unittest.TestCase):
    """A cut that a proxy still keeps while its client has given up."""

    def test_looking_at_once_does_not_show_it_and_looking_later_does(self) -> None:
        desk = SmallDesk()
        with queueing(desk.reply, 0.8) as proxy:
            bank = operator(proxy.url, timeout=0.2, queue_seconds=1.5)
            with self.assertRaises(NoAnswer) as caught:
                bank.cut()
            error = caught.exception
            self.assertTrue(error.may_have_acted)
            self.assertEqual(bank.status().files, (), "the cut is still on its way")
            self.assertGreater(error.settles_in, 0.8)
            time.sleep(error.settles_in)
            self.assertEqual(bank.status().files, ("A",))
        self.assertEqual(desk.cuts, 1)

    def test_a_timeout_that_is_longer_than_the_queue_gets_the_answer(self) -> None:
        desk = SmallDesk()
        with queueing(desk.reply, 0.5) as proxy:
            self.assertEqual(operator(proxy.url, timeout=1.5).cut().files, ("A",))

    def test_after_such_a_timeout_there_is_nothing_to_wait_for(self) -> None:
        desk = SmallDesk()
        with queueing(desk.reply, 1.2) as proxy:
            with self.assertRaises(NoAnswer) as caught:
                operator(proxy.url, timeout=0.6, queue_seconds=0.5).cut()
        self.assertEqual(caught.exception.settles_in, 0)

    def test_the_timeout_is_longer_than_the_queue_by_default(self) -> None:
        self.assertGreater(Settings().timeout, Settings().queue_seconds)


class Sent(unittest.TestCase):
    def test_the_version_is_in_the_user_agent(self) -> None:
        self.assertIn(__version__, caller.USER_AGENT)

    def test_no_attempt_begins_that_could_not_end(self) -> None:
        with Server(in_turn(answer(503, {"error": "Unavailable"}))) as server:
            began = time.monotonic()
            with mock.patch.object(caller, "FIRST_PAUSE", 0.1), self.assertRaises(Refused):
                operator(server.url, total_seconds=2).status()
            self.assertLess(time.monotonic() - began, 2)
            self.assertGreater(len(server.requests), 2)

    def test_a_path_is_read_with_members_that_are_not_known(self) -> None:
        with Server(in_turn(answer(200, {"day": str(DAY), "records": 7}))) as server:
            self.assertEqual(operator(server.url).read("/ops/status"),
                             {"day": str(DAY), "records": 7})
            with self.assertRaises(InputFault):
                operator(server.url).read("ops status")


if __name__ == "__main__":
    unittest.main()


class StatusOfTheDesk(unittest.TestCase):
    def test_an_older_desk_does_not_report_records_and_files(self) -> None:
        desk = SmallDesk()
        with Server(desk.reply) as server:
            bank = operator(server.url)
            status = bank.status()
            self.assertEqual((status.held_records, status.due_records, status.due_files), (None,) * 3)
            desk.sizes = {"held_records": 12, "due_records": 10, "due_files": 2}
            status = bank.status()
            self.assertEqual((status.held_records, status.due_records, status.due_files), (12, 10, 2))
