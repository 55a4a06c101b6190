"""The parts by themselves: journal, configuration, files, sftp, and calls of the desk."""

from __future__ import annotations

import http.server
import json
import os
import re
import sys
import tempfile
import threading
import unittest
from pathlib import Path
from unittest import mock

from achdesk_day import hooks
from achdesk_day.desk import Desk
from achdesk_day.incoming import safe_name
from achdesk_day.journal import Journal
from achdesk_day.locks import Lock
from achdesk_day.nacha import Totals, check_outgoing, entries_of, totals_without
from achdesk_day.settings import Settings, read_key
from achdesk_day.stops import Misused, NoAnswer, Refused, Rejected, Unavailable
from achdesk_day.transfer import Server
from achdesk_day.words import parser_of_words
from tests.support import MON, TestCase, file_of


class Journals(TestCase):
    def test_a_line_that_a_crash_cut_short_is_left_out(self) -> None:
        path = self.folder / "journal"
        journal = Journal(path, True)
        journal.write("cut", day="2025-01-13")
        with open(path, "a") as file:
            file.write('{"did": "se')
        journal = Journal(path, True)
        self.assertEqual(["cut"], [line["did"] for line in journal.lines])
        journal.write("sent")
        self.assertEqual(["cut", "sent"], [json.loads(line)["did"] for line in path.read_text().splitlines()])

    def test_what_root_makes_belongs_to_the_owner_of_the_folder(self) -> None:
        given: list[Path] = []
        with mock.patch("os.geteuid", lambda: 0), mock.patch("os.chown", lambda path, user, group: given.append(Path(path))):
            Lock(self.folder / "day.lock").close()
            Journal(self.folder / "day.journal", True).close()
            Journal(self.folder / "day.journal", True).close()
        self.assertEqual([self.folder / "day.lock", self.folder / "day.journal"], given)

    def test_the_person_is_the_one_who_logged_in(self) -> None:
        with mock.patch.dict(os.environ, {"SUDO_USER": "mallory", "ACHDESK_DAY_NOW": "1999-01-01T00:00:00+00:00"}):
            journal = Journal(self.folder / "journal", True)
            journal.write("cut")
        self.assertNotEqual("mallory", journal.lines[0]["by"])
        self.assertNotEqual("1999", journal.lines[0]["at"][:4])
        with mock.patch.object(hooks, "person_of", lambda: "ann"):
            journal.write("cut")
        self.assertEqual("ann", journal.lines[1]["by"])

    def test_a_damaged_line_is_refused(self) -> None:
        (self.folder / "journal").write_text("{}\nx\n")
        with self.assertRaisesRegex(Refused, "line 2 is damaged"):
            Journal(self.folder / "journal", False).lines


class Configurations(TestCase):
    def settings(self, text: str) -> Settings:
        path = self.folder / "day.conf"
        path.write_text(text)
        return Settings(str(path))

    def test_an_unknown_setting_is_an_error(self) -> None:
        with self.assertRaisesRegex(Misused, r"\[desk\] uri is not a setting"):
            self.settings("[desk]\nuri = x\n")

    def test_values_are_checked(self) -> None:
        told = self.settings("[sftp]\nport = x\nwindow = 25:00\n[approval]\ncut = maybe\n[bank]\ntime_zone = Mars\n")
        for ask in (lambda: told.number("sftp", "port"), lambda: told.time("sftp", "window"), lambda: told.is_on("approval", "cut"), told.zone):
            with self.assertRaises(Misused):
                ask()

    def test_a_key_that_others_can_read_is_refused(self) -> None:
        path = self.folder / "one"
        path.write_text("X-Desk-Key: key-of-a-test\n")
        path.chmod(0o600)
        self.assertEqual("key-of-a-test", read_key(str(path)))
        path.chmod(0o644)
        with self.assertRaisesRegex(Misused, "can be read by others"):
            read_key(str(path))

    def test_the_shipped_file_shows_each_default(self) -> None:
        shipped = Path(__file__).resolve().parent.parent / "day.conf"
        told, section = Settings(str(shipped)), ""
        for line in shipped.read_text().splitlines():
            if heading := re.fullmatch(r"\[(\w+)\]", line):
                section = heading[1]
            if it := re.fullmatch(r"#([a-z_]+) = ?(.*)", line):
                is_example = it[1] == "to"
                self.assertEqual("" if is_example else it[2], told[section][it[1]].removeprefix("/etc/achdesk/keys/"), f"[{section}] {it[1]}")

    def test_the_shipped_configuration_has_known_settings(self) -> None:
        shipped = Path(__file__).resolve().parent.parent / "day.conf"
        text = "\n".join(it[1:] if it[:1] == "#" and it[1:2].isalpha() and " = " in it or it[:1] == "#" and it.endswith(" =") else it
                         for it in shipped.read_text().splitlines())
        self.assertEqual("7", self.settings(text)["bank"]["most_days"])

    def test_each_command_has_a_help(self) -> None:
        self.assertIn("achdesk-day", parser_of_words().format_help())


class Files(unittest.TestCase):
    def test_a_file_is_checked_against_its_control_records(self) -> None:
        text = file_of("2025-01-13-A", 100, 250)
        self.assertEqual(Totals(1, 2, 0, 350), check_outgoing("2025-01-13-A", text))
        for wrong in (text.replace(b"0000000250E2", b"0000000251E2"), text[:-95], text.replace(b"\n", b"\r")):
            with self.assertRaises(Refused):
                check_outgoing("2025-01-13-A", wrong)
        with self.assertRaisesRegex(Refused, "day and modifier"):
            check_outgoing("2025-01-13-B", text)

    def test_totals_without_entries(self) -> None:
        text = file_of("2025-01-13-A", 100, 250)
        first, second = entries_of(text)
        self.assertEqual(Totals(1, 1, 0, 250), totals_without(text, {first}))
        self.assertIsNone(totals_without(text, {first, second}))

    def test_names_for_the_archive(self) -> None:
        self.assertEqual("caf_xe9.ach", safe_name(os.fsdecode(b"caf\xe9.ach")))
        self.assertEqual(100, len(safe_name("a" * 250)))


SFTP = """#!{python} -I
import os, shlex, sys
mode, folder = open("{folder}/mode").read(), "{folder}/there/"
print("banner", file=sys.stderr)
if mode == "key changed":
    sys.exit("Host key verification failed.")
for line in sys.stdin:
    print("sftp>", line.strip())
    command, *words = [it for it in shlex.split(line) if it not in ("-f", "-l")]
    if command == "ls" and mode == "endless":
        while True:
            print("-rw-r--r--    ? 0        0        1 Jan 14 09:00 name")
    elif command == "ls":
        names = sorted(os.listdir(folder)) if words[-1] == "." else [words[-1][2:]]
        for name in names:
            print(f"-rw-r--r--    ? 1000     1000     {{os.path.getsize(folder + name):8}} Jan 14 09:00 {{name}}")
    elif command == "put":
        text = open(words[0], "rb").read()
        open(folder + words[1], "wb").write(text[:len(text) // 2] if mode == "half" else text)
    elif command == "get":
        with open(words[1], "wb") as out:
            while mode == "endless" or not out.tell():
                out.write(open(folder + words[0], "rb").read())
    elif command == "rename":
        if os.path.exists(folder + words[1]):
            sys.exit("remote rename: Failure")
        os.rename(folder + words[0], folder + words[1])
"""


class Transfers(TestCase):
    def setUp(self) -> None:
        super().setUp()
        (self.folder / "there").mkdir()
        (self.folder / "sftp").write_text(SFTP.format(python=sys.executable, folder=self.folder))
        (self.folder / "sftp").chmod(0o700)
        self.mode("right")
        self.server = Server(Settings(str(self.folder / "day.conf")), None, self.folder)
        self.server.words[0] = str(self.folder / "sftp")
        self.source = self.folder / "a.ach"
        self.source.write_bytes(b"x" * 950)

    def mode(self, mode: str) -> None:
        (self.folder / "mode").write_text(mode)

    def test_a_file_is_stored_under_a_temporary_name_and_renamed(self) -> None:
        self.server.put(self.source, "a.ach")
        self.assertEqual({"a.ach.part"}, self.server.names())
        self.server.rename("a.ach")
        self.assertEqual([("a.ach", 950)], [(it.name, it.size) for it in self.server.listed()])
        self.assertEqual(b"x" * 950, self.server.text("a.ach", self.folder / "back", 950))

    def test_half_a_file_is_noticed_before_the_rename(self) -> None:
        self.mode("half")
        with self.assertRaisesRegex(Unavailable, "has 475 bytes of a.ach.part, and 950 were sent"):
            self.server.put(self.source, "a.ach")

    def test_the_rename_does_not_overwrite(self) -> None:
        (self.folder / "there/a.ach").write_bytes(b"another")
        self.server.put(self.source, "a.ach")
        with self.assertRaisesRegex(Unavailable, "Failure"):
            self.server.rename("a.ach")
        self.assertEqual(b"another", (self.folder / "there/a.ach").read_bytes())

    def test_a_server_without_end_is_cut_off(self) -> None:
        (self.folder / "there/a.ach").write_bytes(b"x" * 950)
        self.mode("endless")
        with self.assertRaises(Unavailable):
            self.server.text("a.ach", self.folder / "back", 950)
        self.assertFalse((self.folder / "back").exists())
        with mock.patch("achdesk_day.transfer.MOST_PRINTED", 65_536), self.assertRaises(Unavailable):
            self.server.run("ls -lna .", most=65_536)

    def test_a_changed_host_key_is_for_a_person(self) -> None:
        self.mode("key changed")
        with self.assertRaisesRegex(Misused, "does not let achdesk-day in, or is another one"):
            self.server.names()


class Answers(http.server.BaseHTTPRequestHandler):
    answers: list[tuple[int, str, bytes]] = []

    def do_GET(self) -> None:
        status, kind, body = self.answers.pop(0) if len(self.answers) > 1 else self.answers[0]
        self.rfile.read(int(self.headers.get("Content-Length", 0)))
        self.send_response(status)
        self.send_header("Content-Type", kind)
        self.send_header("Content-Length", str(len(body)))
        self.end_headers()
        self.wfile.write(body)

    do_POST = do_GET

    def log_message(self, *_: object) -> None:
        pass


class Calls(TestCase):
    def setUp(self) -> None:
        super().setUp()
        self.web = http.server.HTTPServer(("127.0.0.1", 0), Answers)
        threading.Thread(target=self.web.serve_forever, daemon=True).start()
        self.addCleanup(self.web.server_close)
        self.addCleanup(self.web.shutdown)
        self.bank.configure(desk={"url": f"http://127.0.0.1:{self.web.server_port}", "timeout": "5"})
        self.desk = Desk(Settings(str(self.folder / "day.conf")), is_brief=True)

    def answers(self, *told: tuple[int, str, bytes]) -> None:
        Answers.answers = list(told)

    def test_a_lost_answer_of_a_cut_may_have_acted(self) -> None:
        for status, kind, body in ((500, "text/html", b"<html>"), (502, "application/json", b'{"error":"BadGateway"}'), (504, "text/html", b"")):
            self.answers((status, kind, body))
            with self.assertRaises(NoAnswer):
                self.desk.cut()

    def test_a_refusal_is_the_desk_s(self) -> None:
        self.answers((409, "application/json", b'{"error":"ModifiersSpent","number":40}'))
        with self.assertRaises(Rejected) as caught:
            self.desk.cut()
        self.assertEqual("ModifiersSpent", caught.exception.name)

    def test_a_refusal_names_the_fault_and_its_record(self) -> None:
        self.answers((422, "application/json", b'{"error":"BadFile","fault":"BadTotal","record":7}'))
        with self.assertRaisesRegex(Rejected, "BadFile BadTotal 7"):
            self.desk.take_returns(b"101")

    def test_a_page_of_a_proxy_is_not_a_refusal(self) -> None:
        for status in (400, 413, 422, 429):
            self.answers((status, "text/html", b"<html>no</html>"))
            with self.assertRaises(Unavailable):
                self.desk.take_returns(b"101")

    def test_a_busy_desk_changed_nothing(self) -> None:
        self.answers((429, "application/json", b'{"error":"TooManyRequests"}'))
        with self.assertRaises(Unavailable) as caught:
            self.desk.cut()
        self.assertNotIsInstance(caught.exception, NoAnswer)

    def test_a_key_that_does_not_fit_is_misused(self) -> None:
        self.answers((403, "application/json", b'{"error":"Denied"}'))
        with self.assertRaisesRegex(Misused, "is not accepted"):
            self.desk.status()

    def test_a_file_that_is_not_there(self) -> None:
        self.answers((404, "application/json", b'{"error":"NoFile","number":38}'))
        self.assertIsNone(self.desk.file(f"{MON}-A"))

    def test_a_desk_that_is_down_was_not_reached(self) -> None:
        self.bank.configure(desk={"url": "http://127.0.0.1:1"})
        with self.assertRaisesRegex(Unavailable, "cannot be reached"):
            Desk(Settings(str(self.folder / "day.conf")), is_brief=True).status()

    def test_plain_http_to_another_machine_would_show_the_key(self) -> None:
        self.bank.configure(desk={"url": "http://desk.example"})
        with self.assertRaisesRegex(Misused, "http would show the key"):
            Desk(Settings(str(self.folder / "day.conf")))
