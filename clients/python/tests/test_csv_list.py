"""Lists of entries: each fault with its line, column, value and bound."""

from __future__ import annotations

import unittest
from typing import List

from achdesk import COLUMNS, Entry, InputFault, ListFault, checked_list, entries_of_csv

HEADER = ",".join(COLUMNS)
GOOD = "091000019,123456789,checking,,150000,E1,ANN LEE,"


def list_of(*rows: str) -> bytes:
    return "\n".join([HEADER, *rows, ""]).encode()


def faults_of(data: bytes) -> List[str]:
    try:
        checked_list(data)
    except ListFault as fault:
        return str(fault).split("\n")
    return []


class Lists(unittest.TestCase):
    def test_a_list_without_faults(self) -> None:
        found = checked_list(list_of(GOOD, "", '091000019,5,savings,yes,0,,"CAL ""X"", DOE",JAN'))
        self.assertEqual(found.entries, (
            Entry("091000019", "123456789", "checking", 150000, "E1", "ANN LEE"),
            Entry("091000019", "5", "savings", 0, "", 'CAL "X", DOE', True, "JAN")))
        self.assertEqual(found.lines, (2, 4))

    def test_an_amount_in_dollars(self) -> None:
        rows = [GOOD] * 10 + ['091000019,1,checking,,"$1,500.00",E1,ANN LEE,']
        self.assertEqual(faults_of(list_of(*rows)), [
            'line 12, column cents: "$1,500.00" is not a number of cents, such as 150000'])

    def test_all_faulty_rows_at_once(self) -> None:
        self.assertEqual(faults_of(list_of(
            "091000018,123456789,checking,,150000,E1,ANN LEE,", GOOD,
            "091000019,123456789,check,no,1.5,E1,ANN LEE,",
            "091000019,123456789,checking",
            f"091000019,{'1' * 18},savings,,0,{'E' * 16},{'N' * 23},{'I' * 81}",
            "091000019,1,savings,yes,5,, ANN,caf\u00e9",
            "09100001,1,savings,,10000000000,,,"
        )), [
            'line 2, column routing: "091000018" is not a routing number: after 09100001 the ninth '
            'digit is 9',
            'line 4, column cents: "1.5" is not a number of cents, such as 150000',
            'line 4, column prenote: "no" is neither yes nor empty',
            'line 4, column kind: "check" is neither checking nor savings',
            f"line 5: it has 3 columns; a row has 8: {HEADER}",
            'line 6, column account: "111111111111111111" has 18 characters; it takes 1 to 17 '
            'characters',
            'line 6, column cents: "0" is not 1 to 9999999999 cents; only a prenote has 0',
            'line 6, column id: "EEEEEEEEEEEEEEEE" has 16 characters; it takes 0 to 15 characters',
            'line 6, column name: "NNNNNNNNNNNNNNNNNNNNNNN" has 23 characters; it takes 1 to 22 '
            'characters',
            f'line 6, column info: "{"I" * 60} .." has 81 characters; it takes 1 to 80 characters',
            'line 7, column cents: "5" is not 0, as a prenote has',
            'line 7, column name: " ANN" begins or ends with a blank',
            'line 7, column info: "caf\u00e9" has \'\\xe9\'; it takes 1 to 80 characters of ASCII, '
            'from blank to ~',
            'line 8, column routing: "09100001" is not a routing number of nine digits',
            'line 8, column cents: "10000000000" is not 1 to 9999999999 cents; only a prenote has '
            '0',
            'line 8, column name: "" has 0 characters; it takes 1 to 22 characters',
        ])

    def test_lines_are_those_of_the_file(self) -> None:
        for end in ("\n", "\r\n", "\r"):
            rows = [HEADER, '091000019,1,checking,,1,,"A', 'B",', "", "x", ""]
            with self.assertRaises(ListFault) as caught:
                entries_of_csv(end.join(rows).encode())
            self.assertEqual([(it.row, it.line) for it in caught.exception.faults], [(2, 5)])

    def test_the_header(self) -> None:
        self.assertEqual(faults_of(b"routing,account\n"), [
            f'line 1: the first row is "routing,account"; it must be {HEADER}'])
        self.assertEqual(faults_of(b""), [f'line 1: the first row is ""; it must be {HEADER}'])
        self.assertEqual(faults_of(b"\n\nx"), [
            f'line 3: the first row is "x"; it must be {HEADER}'])

    def test_a_list_that_is_too_large(self) -> None:
        self.assertEqual(faults_of(b" " * 4_194_305), [
            "line 1: the list has 4,194,305 bytes; it takes at most 4,194,304"])

    def test_the_first_fault_is_that_of_achdesk_submit(self) -> None:
        with self.assertRaises(ListFault) as caught:
            entries_of_csv(list_of(GOOD, "091000019,1,checking,no,1.5,,A,", "x"))
        fault = caught.exception
        self.assertIsInstance(fault, InputFault)
        self.assertEqual((fault.name, fault.row, len(fault.faults)), ("bad cents", 2, 3))

    def test_what_only_the_desk_checks_is_left_to_it(self) -> None:
        row = "1,2,3,,4,,,"
        self.assertEqual(len(entries_of_csv(list_of(row))), 1)
        self.assertEqual(len(faults_of(list_of(row))), 3)

    def test_no_message_carries_control_characters(self) -> None:
        for line in faults_of(list_of("\x1b[31m,\x07,\x9b,\x1b,\x1b,\x1b,\x1b,\x1b")):
            self.assertTrue(line.isprintable(), line)

    def test_text_that_is_not_utf_8(self) -> None:
        self.assertEqual(faults_of(list_of(GOOD) + b"091000019,1,checking,,1,,Zo\xeb,\n"), [
            'line 3, column name: "Zo\ufffd" is not UTF-8'])


if __name__ == "__main__":
    unittest.main()
