"""Lists of more than 1,000 entries."""

from __future__ import annotations

import datetime
import unittest
from typing import Any, Dict, List, Tuple
from unittest import mock

from achdesk import (
    Accepted, COLUMNS, Company, DeskError, InputFault, NoAnswer, PartsFault, Refused, Settings,
    parts,
)
from tests.fakes import DAY, KEY, Answering, Server, SmallDesk

PAYDAY = datetime.date(2025, 1, 10)


def list_of(count: int, cents: int = 100) -> bytes:
    rows = [f"091000019,{number},checking,,{cents},E{number},NAME {number},"
            for number in range(1, count + 1)]
    return "\n".join([",".join(COLUMNS), *rows]).encode()


MANY = 12  # entries of two parts: a part has ten here


class Parts(unittest.TestCase):
    def setUp(self) -> None:
        patch = mock.patch.object(parts, "MOST_ENTRIES", 10)
        patch.start()
        self.addCleanup(patch.stop)
        self.desk = SmallDesk()
        # What becomes of each further POST: it is lost before or after the desk has it, or passes.
        self.plans: List[str] = []
        self.server = Server(self.reply)
        self.addCleanup(self.server.__exit__, None, None, None)
        self.mill = Company(self.server.url, "MILL01", KEY, Settings(total_seconds=0))

    def reply(self, method: str, path: str, body: bytes) -> Answering:
        plan = self.plans.pop(0) if method == "POST" and self.plans else "pass"
        if plan == "before":
            return b""
        answered = self.desk.reply(method, path, body)
        return b"" if plan == "after" else answered

    def submit(self, data: bytes, **more: Any) -> Tuple[Accepted, ...]:
        given: Dict[str, Any] = {"ref": "PAY-1", "sec": "PPD", "direction": "credit",
                                 "description": "PAYROLL", "day": PAYDAY, **more}
        return self.mill.submit_in_parts(data, **given)

    def paid(self) -> List[str]:
        """The identification of each receiver who is paid."""
        return sorted(entry["id"] for it in self.desk.submissions.values()
                      for entry in it["body"]["entries"])

    def test_two_parts_are_two_submissions(self) -> None:
        wanted = (Accepted("PAY-1.1", 1, 10, 1000), Accepted("PAY-1.2", 2, 2, 200))
        self.assertEqual(self.submit(list_of(MANY)), wanted)
        self.assertEqual(self.submit(list_of(MANY)), wanted)
        self.assertEqual(self.paid(), sorted(f"E{it}" for it in range(1, MANY + 1)))

    def test_the_last_part(self) -> None:
        self.assertEqual([it.entries for it in self.submit(list_of(10))], [10])
        self.assertEqual([it.entries for it in self.submit(list_of(11), ref="B")], [10, 1])

    def test_a_half_finished_list_is_resumed(self) -> None:
        for plans in (["before"], ["after"], ["pass", "before"], ["pass", "after"]):
            with self.subTest(plans):
                self.desk.submissions.clear()
                self.plans = list(plans)
                with self.assertRaises(NoAnswer) as caught:
                    self.submit(list_of(MANY))
                self.assertEqual([it.ref for it in caught.exception.taken],
                                 ["PAY-1.1"] if plans[0] == "pass" else [])
                self.assertEqual(len(self.submit(list_of(MANY))), 2)
                self.assertEqual(self.paid(), sorted(f"E{it}" for it in range(1, MANY + 1)))

    def refused(self, data: bytes, **more: Any) -> DeskError:
        before = dict(self.desk.submissions)
        with self.assertRaises((PartsFault, Refused)) as caught:
            self.submit(data, **more)
        self.assertEqual(self.desk.submissions, before)
        return caught.exception

    def test_a_list_that_was_changed_pays_nobody_twice(self) -> None:
        self.submit(list_of(MANY))
        self.assertIn("PAY-1.2 was submitted before", str(self.refused(list_of(9))))
        self.assertIn("RefReused", str(self.refused(list_of(13))))
        self.assertIn("RefReused", str(self.refused(list_of(MANY, 200))))

    def test_a_list_that_was_submitted_whole(self) -> None:
        self.mill.submit_csv(list_of(9), ref="PAY-1", sec="PPD", direction="credit",
                             description="PAYROLL", day=PAYDAY)
        self.assertIn("as a whole", str(self.refused(list_of(9))))
        self.assertIn("as a whole", str(self.refused(list_of(MANY))))

    def test_limits_refuse_all_parts(self) -> None:
        self.desk.limits["credit"] = 1_100
        self.assertIn("$12.00, is over what is left", str(self.refused(list_of(MANY))))
        self.desk.limits.update(credit=1_200, entry=99)
        self.assertIn("line 13: $1.00 is over", str(self.refused(list_of(MANY))))
        self.desk.limits["entry"] = 100
        self.submit(list_of(MANY))

    def test_a_part_that_is_there_is_not_counted_again(self) -> None:
        self.desk.limits["credit"] = 1_200
        self.desk.refused["PAY-1.2"] = (409, {"error": "NoDay"})
        with self.assertRaises(Refused) as caught:
            self.submit(list_of(MANY))
        self.assertEqual([it.ref for it in caught.exception.taken], ["PAY-1.1"])
        self.desk.refused.clear()
        self.assertEqual(len(self.submit(list_of(MANY))), 2)

    def test_the_day(self) -> None:
        self.assertIn("ask for 2025-01-09", str(self.refused(list_of(MANY), day=DAY)))
        self.desk.refused["PAY-1.2"] = (409, {"error": "NoDay"})
        with self.assertRaises(Refused):
            self.submit(list_of(MANY))
        self.desk.refused.clear()
        self.desk.day = PAYDAY
        said = str(self.refused(list_of(MANY)))
        self.assertIn("Accepted before: PAY-1.1", said)
        self.assertIn("line 12 to line 13 are PAY-1.2", said)

    def test_references_are_not_too_long(self) -> None:
        with self.assertRaises(InputFault):
            self.submit(list_of(1), ref="R" * 19)
        self.assertEqual(self.submit(list_of(1), ref="R" * 18)[0].ref, "R" * 18 + ".1")

    def test_nothing_is_sent_of_a_faulty_list(self) -> None:
        with self.assertRaises(InputFault):
            self.submit(list_of(MANY) + b"\nx")
        self.assertEqual(self.server.requests, [])


class Employees(unittest.TestCase):
    def test_1200_are_two_submissions(self) -> None:
        with Server(SmallDesk().reply) as server:
            mill = Company(server.url, "MILL01", KEY, Settings(total_seconds=0))
            told = mill.submit_in_parts(list_of(1200), ref="PAY-1", sec="PPD", direction="credit",
                                        description="PAYROLL", day=PAYDAY)
        self.assertEqual(told, (
            Accepted("PAY-1.1", 1, 1000, 100_000), Accepted("PAY-1.2", 2, 200, 20_000)))


if __name__ == "__main__":
    unittest.main()