"""Refusals with the desk day and the limits, as the company's own calls return them."""

from __future__ import annotations

import datetime
import unittest
from typing import Any, Dict, Sequence, cast

from achdesk import Company, Entry, Found, FoundEntry, Refused
from achdesk.company_answers import Exposure
from achdesk.explain import SENTENCES, explanation
from achdesk.sent import Sent, SentEntries, SentRetry

DAY = datetime.date(2026, 11, 30)
ANN = Entry("091000019", "123456789", "checking", 150000, "E1", "ANN LEE")
RICH = Entry("091000019", "5", "checking", 600000, "E2", "BOB RAY")


class Told:
    """A company whose calls return what the tests tell."""

    def __init__(self, *found: Found) -> None:
        self.found = {it.ref: it for it in found}

    def exposure(self) -> Exposure:
        return Exposure(DAY, 19_900_000, 20_000_000, 0, 0, 500_000)

    def look_up(self, ref: str) -> Found:
        if ref not in self.found:
            raise Refused(404, {"error": "NoReference"})
        return self.found[ref]


def told(name: str, sent: Sent, *found: Found, **more: Any) -> str:
    refused = Refused(409, {"error": name, **more})
    refused.sent = sent
    return explanation(cast(Company, Told(*found)), refused)


def pay(entries: Sequence[Entry], lines: Sequence[int] = (), **more: Any) -> SentEntries:
    given: Dict[str, Any] = {"ref": "PAY-1", "sec": "PPD", "direction": "credit",
                             "description": "PAYROLL", "day": DAY, **more}
    return SentEntries(entries=tuple(entries), lines=tuple(lines), **given)


def found(direction: str, *entries: FoundEntry, **more: Any) -> Found:
    given: Dict[str, Any] = {"ref": "DUES-1", "of": None, "of_index": None, **more}
    return Found(order=3, sec="PPD", direction=direction, day=DAY, cents=7400, entries=entries,
                 **given)


def entry(state: str, **more: Any) -> FoundEntry:
    given: Dict[str, Any] = {"cents": 2500, "settled": None, "returned": None, "code": None,
                             "late": None, **more}
    return FoundEntry(index=1, state=state, **given)


RETRY = SentRetry("RT-1", "DUES-1", 1, datetime.date(2027, 1, 4), None)


class Submissions(unittest.TestCase):
    def test_the_day(self) -> None:
        sent = pay([ANN], day=datetime.date(2025, 1, 10))
        self.assertEqual(told("DateRange", sent), (
            "The day asked for, 2025-01-10, is not 1 to 60 days after the desk day, 2026-11-30: "
            "ask for 2026-12-01 to 2027-01-29."))

    def test_each_entry_over_the_limit(self) -> None:
        self.assertEqual(told("EntryLimit", pay([ANN, RICH, RICH], [2, 3, 9])).split("\n"), [
            "line 3: $6,000.00 is over the company's limit for one entry, $5,000.00.",
            "line 9: $6,000.00 is over the company's limit for one entry, $5,000.00."])
        self.assertIn("entry 1: $6,000.00", told("EntryLimit", pay([RICH])))

    def test_exposures(self) -> None:
        self.assertEqual(told("CreditLimit", pay([ANN])), (
            "The total, $1,500.00, is over what is left of the credit limit, $1,000.00: the "
            "exposure is $199,000.00 of $200,000.00."))
        self.assertIn("debit limit, $0.00", told("DebitLimit", pay([ANN], direction="debit")))

    def test_a_reference_that_was_used(self) -> None:
        it = found("credit", entry("held"), ref="PAY-1")
        self.assertEqual(told("RefReused", pay([ANN]), it), (
            "PAY-1 is order 3, a PPD credit with entries: 1, of $74.00 asked for 2026-11-30. Other "
            "content takes another reference."))

    def test_fields(self) -> None:
        bad = Entry("091000018", "1", "checking", 1, "", "B")
        self.assertEqual(told("BadField", pay([ANN, bad], [2, 4]), field="routing", index=2), (
            'line 4, column routing: "091000018" is not a routing number: after 09100001 the ninth '
            'digit is 9.'))
        self.assertEqual(told("BadField", pay([ANN], ref="PAY 1"), field="ref", index=0), (
            'ref: "PAY 1" is refused; it takes 1 to 20 letters, digits, dots, underscores and '
            'hyphens.'))
        self.assertIn("RETRY PYMT", told("BadField", pay([ANN], description="REVERSAL"),
                                         field="description", index=0))
        self.assertEqual(told("BadField", pay([]), field="entries", index=0),
                         "The list has no entries.")

    def test_counts(self) -> None:
        self.assertIn("1,001 entries", told("TooManyEntries", pay([ANN] * 1001)))
        self.assertIn("$1,500.00", told("TotalTooLarge", pay([ANN])))

    def test_without_the_desk_a_general_sentence(self) -> None:
        refused = Refused(409, {"error": "RefReused"})
        refused.sent = pay([ANN])
        company = cast(Company, Told())  # which does not know the reference
        self.assertEqual(explanation(company, refused), SENTENCES["RefReused"])
        self.assertEqual(explanation(company, Refused(403, {"error": "Denied"})),
                         SENTENCES["Denied"])
        self.assertEqual(explanation(company, Refused(409, {"error": "NotKnown"})), "")


class Retries(unittest.TestCase):
    def test_the_entry(self) -> None:
        self.assertEqual(told("NoEntry", RETRY), "The company has no submission DUES-1.")
        self.assertIn("is a credit", told("NoEntry", RETRY, found("credit", entry("sent"))))
        self.assertIn("has entries 1 to 0", told("NoEntry", RETRY, found("debit")))
        prenote = found("debit", entry("sent", cents=0))
        self.assertIn("is a prenote", told("NoEntry", RETRY, prenote))
        self.assertIn("name PAY-2 entry 7", told("NoEntry", RETRY, found(
            "debit", entry("sent"), of="PAY-2", of_index=7)))

    def test_its_state(self) -> None:
        self.assertEqual(told("NotReturned", RETRY, found("debit", entry("sent"))),
                         "Entry 1 of DUES-1 is sent, and has not been returned.")
        self.assertIn("newest retry", told("NotReturned", RETRY, found("debit", entry("returned"))))

    def test_its_code(self) -> None:
        self.assertIn("R02 (account closed)", told("NotRetryable", RETRY, code="R02"))
        self.assertIn("--authorized", told("NotRetryable", RETRY, code="R08"))
        old = SentRetry("RT-1", "DUES-1", 1, DAY, datetime.date(2026, 1, 1))
        self.assertIn("up to the desk day, 2026-11-30", told("NotRetryable", old, code="R08"))

    def test_its_day(self) -> None:
        settled = datetime.date(2025, 1, 10)
        self.assertIn("must settle by 2025-07-09", told(
            "RetryTooLate", RETRY, found("debit", entry("returned", settled=settled))))
        self.assertIn("ask for 2026-12-01", told("DateRange", RETRY))


if __name__ == "__main__":
    unittest.main()
