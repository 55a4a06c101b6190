"""What achdesk-company prints, and how it starts."""

from __future__ import annotations

import contextlib
import csv
import io
import json
import os
import subprocess
import sys
import tempfile
import unittest
from pathlib import Path
from typing import Tuple
from unittest import mock

from achdesk.program import main
from achdesk.program.printing import csv_cell
from tests.fakes import KEY, Server, SmallDesk, answer, in_turn
from tests.test_parts import list_of

SCRIPT = Path(__file__).resolve().parents[2] / "achdesk-company"
ESCAPE = "\x1b]52;c;x\x07\x9b\x7f\r"


def run(url: str, *words: str, given: bytes = b"") -> Tuple[str, str, int]:
    """Runs the program in this process. Returns what it prints, its messages and its status."""
    out, errors = io.TextIOWrapper(io.BytesIO(), newline=""), io.StringIO()
    given_file = io.TextIOWrapper(io.BytesIO(given))
    known = {"ACHDESK_URL": url, "ACHDESK_COMPANY": "MILL01", "ACHDESK_KEY": KEY}
    with contextlib.ExitStack() as stack:
        stack.enter_context(mock.patch.dict(os.environ, known))
        stack.enter_context(mock.patch.object(sys, "argv", ["achdesk-company", *words]))
        stack.enter_context(mock.patch.object(sys, "stdin", given_file))
        stack.enter_context(contextlib.redirect_stdout(out))
        stack.enter_context(contextlib.redirect_stderr(errors))
        status = main()
    out.seek(0)
    return out.read(), errors.getvalue(), status


def returns(info: str, ref: str = "PAY-1") -> bytes:
    return answer(200, {"returns": [{"ref": ref, "index": 1, "code": "R03", "day": "2025-01-14",
                                     "late": False, "info": info}]})


SUBMIT = ["submit", "-", "--ref", "PAY-1", "--sec", "PPD", "--direction", "credit",
          "--description", "PAYROLL", "--day", "2025-01-10"]


class Formulas(unittest.TestCase):
    def test_a_cell_that_a_spreadsheet_would_compute(self) -> None:
        for text in ("=1+1", "+1", "-1", "@SUM(A1)", "\t=1", "\r=1", "  =1", "x;=1", "x; @A",
                     "\uff1d1+1", "=cmd|' /C calc'!A0", '=HYPERLINK("http://x","y")'):
            said = csv_cell(text)
            for piece in said.split(";"):
                self.assertNotRegex(piece.strip(), "^[=+\\-@\uff1d]", text)

    def test_other_cells_are_as_they_are(self) -> None:
        for value, wanted in (("PAY-1", "PAY-1"), ("A=B", "A=B"), (-150000, "-150000"),
                              (None, ""), (True, "yes"), ("a;b", "a;b"), ("", "")):
            self.assertEqual(csv_cell(value), wanted)

    def test_a_list_of_returns(self) -> None:
        with Server(in_turn(returns("=1+1", "-A1"))) as server:
            said = run(server.url, "returns", "--csv")[0]
            self.assertEqual(list(csv.reader(said.splitlines()))[1],
                             ["'-A1", "1", "R03", "2025-01-14", "no", "'=1+1"])
            exact = json.loads(run(server.url, "returns", "--json")[0])["returns"][0]
            self.assertEqual((exact["ref"], exact["info"]), ("-A1", "=1+1"))


class Terminal(unittest.TestCase):
    def check(self, reply: bytes, *words: str) -> None:
        with Server(in_turn(reply)) as server:
            for form in ("--quiet", "--csv", "--json"):
                said, errors, _ = run(server.url, *words, form, "--total-seconds", "0")
                for line in [*said.split("\n"), *errors.split("\n")]:
                    self.assertTrue(line.isprintable(), repr(line))

    def test_no_control_character_reaches_it(self) -> None:
        self.check(returns(ESCAPE), "returns")
        self.check(returns("", ESCAPE), "returns")
        self.check(answer(409, {"error": f"No{ESCAPE}", "field": ESCAPE}), "exposure")
        self.check(answer(500, ESCAPE.encode(), "text/\x1b"), "exposure")
        found = {"ref": "PAY-1", "order": 1, "sec": ESCAPE, "direction": ESCAPE, "cents": 1,
                 "day": "2025-01-10", "entries": []}
        self.check(answer(200, found), "look", "PAY-1")


class Messages(unittest.TestCase):
    def test_all_faults_of_a_list(self) -> None:
        rows = b"\n091000019,1,checking,,$5,,A,\n091000019,1,check,,1,,A,\n"
        said, errors, status = run("http://127.0.0.1:1", *SUBMIT, given=list_of(10) + rows)
        self.assertEqual((said, status), ("", 1))
        self.assertEqual(errors.splitlines(), [
            'achdesk-company: line 12, column cents: "$5" is not a number of cents, such as 150000',
            'achdesk-company: line 13, column kind: "check" is neither checking nor savings'])

    def test_a_refusal_with_the_limit(self) -> None:
        desk = SmallDesk()
        desk.refused["PAY-1"] = (409, {"error": "EntryLimit", "number": 7})
        desk.limits["entry"] = 99
        with Server(desk.reply) as server:
            said, errors, status = run(server.url, *SUBMIT, given=list_of(2))
        self.assertEqual((said, status), ("", 1))
        self.assertEqual(errors.splitlines(), [
            "achdesk-company: refused: EntryLimit (refusal 7), status 409. line 2: $1.00 is over "
            "the company's limit for one entry, $0.99.",
            "achdesk-company: line 3: $1.00 is over the company's limit for one entry, $0.99."])

    def test_split(self) -> None:
        with Server(SmallDesk().reply) as server:
            self.assertEqual(run(server.url, *SUBMIT, "--split", given=list_of(1200)), (
                "Accepted.\nref      order  entries      cents\n"
                "PAY-1.1      1     1000  $1,000.00\nPAY-1.2      2      200    $200.00\n", "", 0))

    def test_a_split_that_is_refused_half_way(self) -> None:
        desk = SmallDesk()
        desk.refused["PAY-1.2"] = (409, {"error": "NoDay", "number": 1})
        with Server(desk.reply) as server:
            said, errors, status = run(server.url, *SUBMIT, "--split", given=list_of(1200))
        self.assertEqual((said, status), ("", 1))
        self.assertIn("achdesk-company: PAY-1.1 is accepted. refused: NoDay", errors)


class Started(unittest.TestCase):
    def run_script(self, path: str, **more: str) -> "subprocess.CompletedProcess[bytes]":
        return subprocess.run([SCRIPT, "--version"], env={"PATH": path, **more}, timeout=60,
                              stdout=subprocess.PIPE, stderr=subprocess.STDOUT, check=False)

    @unittest.skipUnless(SCRIPT.exists() and os.access("/usr/bin/python3", os.X_OK), "no Python")
    def test_another_python_first_on_the_path_does_not_matter(self) -> None:
        with tempfile.TemporaryDirectory() as folder:
            other = Path(folder) / "python3"
            other.write_text("#!/bin/sh\necho another Python; exit 9\n")
            other.chmod(0o755)
            done = self.run_script(f"{folder}:/usr/bin:/bin", PYTHONDONTWRITEBYTECODE="1")
        self.assertEqual((done.stdout[:16], done.returncode), (b"achdesk-company ", 0))


if __name__ == "__main__":
    unittest.main()
