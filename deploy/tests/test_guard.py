"""Unit tests of achdesk-guard: `python3 -m unittest discover -s deploy/tests`."""

import http.server
import importlib.machinery
import importlib.util
import os
import sys
import tempfile
import threading
import unittest
from pathlib import Path
from unittest import mock

sys.dont_write_bytecode = True
PATH = Path(__file__).resolve().parent.parent / "achdesk-guard"
LOADER = importlib.machinery.SourceFileLoader("achdesk_guard", str(PATH))
guard = importlib.util.module_from_spec(importlib.machinery.ModuleSpec("achdesk_guard", LOADER))
LOADER.exec_module(guard)


class Desk(http.server.HTTPServer):
    """A desk that answers with these statuses, the last one again and again."""

    def __init__(self, *statuses: int):
        self.asked: list[tuple[str, str]] = []
        desk = self

        class Handler(http.server.BaseHTTPRequestHandler):
            def do_GET(self) -> None:
                desk.asked.append((self.path, self.headers["X-Desk-Key"]))
                self.send_response(statuses[min(len(desk.asked), len(statuses)) - 1])
                self.send_header("Content-Length", "0")
                self.end_headers()

            def log_message(self, *_: object) -> None:
                pass

        super().__init__(("127.0.0.1", 0), Handler)
        threading.Thread(target=self.serve_forever, daemon=True).start()


class Ask(unittest.TestCase):
    def asked(self, *statuses: int) -> tuple[int, int]:
        """Returns the status with which `ask` ends, and how often it asked."""
        desk = Desk(*statuses)
        try:
            with mock.patch.object(guard, "PAUSE", 0.01):
                guard.ask(desk.server_port, "a-key-of-the-desk", 5)
            return 0, len(desk.asked)
        except guard.Stop as stop:
            return stop.status, len(desk.asked)
        finally:
            desk.shutdown()
            desk.server_close()

    def test_a_desk_that_answers_is_well(self) -> None:
        self.assertEqual([self.asked(404), self.asked(200)], [(0, 1), (0, 1)])

    def test_only_503_again_and_again_is_a_closed_file(self) -> None:
        self.assertEqual([self.asked(503), self.asked(503, 404), self.asked(503, 503, 404)], [(4, 3), (0, 2), (0, 3)])

    def test_a_key_that_is_refused_is_a_wrong_configuration(self) -> None:
        self.assertEqual(self.asked(403), (2, 1))

    def test_a_desk_that_does_not_answer_is_not_restarted(self) -> None:
        desk = Desk(200)
        desk.shutdown()
        desk.server_close()
        with self.assertRaises(guard.Stop) as raised:
            guard.ask(desk.server_port, "a-key-of-the-desk", 5)
        self.assertEqual(raised.exception.status, 3)


class Keys(unittest.TestCase):
    def test_the_operator_s_key_is_found_in_the_shipped_form(self) -> None:
        with tempfile.TemporaryDirectory() as folder:
            path = Path(folder) / "desk.map"
            path.write_text((PATH.parent / "keys" / "desk.map").read_text())
            with self.assertRaises(guard.Stop):
                guard.operator_key(path)
            path.write_text(path.read_text() + '"~^MILL01$" "another-key";\n"~^operator$" "the-operator-s-key";\n')
            self.assertEqual(guard.operator_key(path), "the-operator-s-key")


class Reread(unittest.TestCase):
    def setUp(self) -> None:
        self.path = Path(self.enterContext(tempfile.TemporaryDirectory(dir="."))) / "bank.db"
        self.path.write_bytes(os.urandom(3_000_001))

    def test_a_file_as_its_disk_has_it(self) -> None:
        self.assertEqual(guard.reread(self.path), f"{self.path} is as its disk has it")

    def test_what_differs_is_reported_and_dropped(self) -> None:
        with mock.patch.object(guard, "differing", side_effect=[17, 0]), mock.patch.object(os, "posix_fadvise") as dropped:
            self.assertIn("17 bytes in memory were not those of its disk, and are dropped", guard.reread(self.path))
        dropped.assert_called_once_with(mock.ANY, 0, 0, os.POSIX_FADV_DONTNEED)

    def test_what_cannot_be_dropped_keeps_the_desk_from_starting(self) -> None:
        with mock.patch.object(guard, "differing", side_effect=[17, 17]), self.assertRaises(guard.Stop) as raised:
            guard.reread(self.path)
        self.assertEqual(raised.exception.status, 3)

    def test_each_byte_that_differs_counts(self) -> None:
        other = self.path.with_name("other")
        text = bytearray(self.path.read_bytes())
        for at in (0, 1_048_576, 3_000_000):
            text[at] ^= 1
        other.write_bytes(text)
        with open(self.path, "rb") as file:
            self.assertEqual(guard.differing(file.fileno(), other), 3)
            other.write_bytes(text + b"more")
            self.assertEqual(guard.differing(file.fileno(), other), 7)


if __name__ == "__main__":
    unittest.main()
