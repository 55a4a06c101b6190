"""Return codes, change codes and corrected data."""

from __future__ import annotations

import datetime
import unittest

from achdesk import CHANGE_CODES, RETURN_CODES, Change


def corrected(code: str, text: str) -> object:
    return Change("PAY-1", 1, code, datetime.date(2025, 1, 14), text.ljust(29)).correction()


class Changes(unittest.TestCase):
    def test_each_code(self) -> None:
        # The positions of Nacha's rules on corrected data.
        account, routing = "987654321", "091000019"
        for code, text, wanted in (
            ("C01", account, {"account": account}),
            ("C02", routing, {"routing": routing}),
            ("C03", f"{routing}   {account}", {"routing": routing, "account": account}),
            ("C04", "ANN MARIE LEE", {"name": "ANN MARIE LEE"}),
            ("C05", "32", {"kind": "savings"}),
            ("C05", "27", {"kind": "checking"}),
            ("C06", f"{account:17}   37", {"account": account, "kind": "savings"}),
            ("C07", f"{routing}{account:17}22",
             {"routing": routing, "account": account, "kind": "checking"}),
            ("C09", "EMPLOYEE-7", {"id": "EMPLOYEE-7"}),
            ("C03", f"{routing}   {'1' * 17}", {"routing": routing, "account": "1" * 17}),
            ("C07", f"{routing}{'1' * 17}", {"routing": routing, "account": "1" * 17}),
            ("C01", "", {}),
        ):
            with self.subTest(code=code, text=text):
                self.assertEqual(corrected(code, text), wanted)

    def test_codes_without_a_value_for_a_list(self) -> None:
        for code in ("C08", "C10", "C11", "C12", "C13", "C14", "C15", ""):
            self.assertEqual(corrected(code, "A" * 29), {})

    def test_the_codes_that_the_desk_processes(self) -> None:
        self.assertEqual(sorted(CHANGE_CODES), [f"C{it:02}" for it in range(1, 15)])
        self.assertEqual(sorted(RETURN_CODES), [f"R{it:02}" for it in range(1, 30)])


if __name__ == "__main__":
    unittest.main()
