"""Unit tests of backups, and of the repositories with a restic that is a fake."""

from __future__ import annotations

import argparse
import datetime
import json
import os
import subprocess
import tempfile
import types
import unittest
from pathlib import Path
from typing import Any
from unittest import mock

from achdesk_day import backup, repository, secret
from achdesk_day.stops import Misused, Refused, Unavailable

NOW = datetime.datetime(2025, 1, 14, 17, 0, tzinfo=datetime.timezone.utc)


class Restic:
    """Answers in place of restic, and keeps its words and environment."""

    def __init__(self, **answers: tuple[int, str, str]):
        self.answers = answers
        self.asked: list[tuple[str, list[str], dict[str, Any]]] = []

    def __call__(self, words: list[str], **how: Any) -> subprocess.CompletedProcess[str]:
        command = next(it for it in words[1:] if it in ("backup", "cat", "check", "forget", "init", "restore", "snapshots"))
        self.asked.append((command, words, how))
        status, printed, errors = self.answers.get(command, (0, "", ""))
        return subprocess.CompletedProcess(words, status, printed, errors)

    def commands(self) -> list[str]:
        return [it[0] for it in self.asked]


class Case(unittest.TestCase):
    def setUp(self) -> None:
        self.folder = Path(self.enterContext(tempfile.TemporaryDirectory()))
        self.said: list[str] = []
        self.enterContext(mock.patch.object(repository, "now", lambda: NOW))

    def run_of(self, to: str, **told: str) -> Any:
        known = {"to": to, "password_file": "/keys/repository", "identity": "/keys/backup", "known_hosts": "/keys/hosts", "port": "22", "also": "/keys/desk.map",
                 "keep": "--keep-within 35d --keep-tag cut"} | told
        settings = mock.MagicMock()
        settings.__getitem__.side_effect = lambda section: {"repository": known}[section]
        settings.needed.side_effect = lambda section, key: known[key]
        settings.number.side_effect = lambda section, key: int(known[key])
        return types.SimpleNamespace(settings=settings, backups=self.folder, say=self.said.append, dry=False, words=argparse.Namespace())

    def with_restic(self, **answers: tuple[int, str, str]) -> Restic:
        fake = Restic(**answers)
        self.enterContext(mock.patch.object(subprocess, "run", fake))
        return fake


class Repositories(Case):
    def test_a_backup_goes_to_each_place_with_its_tag_time_and_the_other_files(self) -> None:
        restic = self.with_restic()
        repository.store(self.run_of("/disk ssh:u@standby"), Path("/b/2025"), "2025-01-14T13:30:00.123Z", "cut")
        first, second = (it[1] for it in restic.asked)
        for words in (first, second):
            self.assertEqual(words[-2:], ["/b/2025", "/keys/desk.map"])
            self.assertLessEqual({"--tag=cut", "--time=2025-01-14 13:30:00", "--host=achdesk", "--password-file=/keys/repository"}, set(words))
        self.assertIn("--repo=/disk", first)
        self.assertIn("--repo=rclone:repository", second)
        self.assertRegex(" ".join(second), r"rclone.program=ssh .*-i /keys/backup .*StrictHostKeyChecking=yes.* u@standby rclone|rclone.program=ssh .*StrictHostKeyChecking=yes.*-i /keys/backup.*u@standby rclone")
        self.assertEqual(restic.asked[0][2]["env"]["TZ"], "UTC")

    def test_a_place_that_fails_does_not_keep_the_other_from_its_backup(self) -> None:
        restic = self.with_restic(backup=(1, "", "Fatal: no space left on device"))
        with self.assertRaisesRegex(Unavailable, "no space left"):
            repository.store(self.run_of("/one /two"), Path("/b"), "2025-01-14T13:30:00Z", "timer")
        self.assertEqual(restic.commands(), ["backup", "backup"])

    def test_a_disk_that_is_not_mounted_and_a_wrong_password_are_for_a_person(self) -> None:
        for errors in ("Is there a repository at the following location?", "Fatal: wrong password or no key found"):
            with self.subTest(errors), mock.patch.object(subprocess, "run", Restic(backup=(1, "", errors))), self.assertRaises(Misused):
                repository.store(self.run_of("/one"), Path("/b"), "2025-01-14T13:30:00Z", "timer")

    def test_only_init_makes_a_repository_and_never_over_one(self) -> None:
        restic = self.with_restic(cat=(1, "", "Is there a repository at the following location?"))
        repository.begin_repositories(self.run_of("/one"))
        self.assertEqual(restic.commands(), ["cat", "init"])
        for errors, ends in (("wrong password", Misused), ("connection refused", Unavailable)):
            fake = Restic(cat=(1, "", errors))
            with mock.patch.object(subprocess, "run", fake), self.assertRaises(ends):
                repository.begin_repositories(self.run_of("/one"))
            self.assertEqual(fake.commands(), ["cat"])

    def expired(self, *times: str, to: str = "/here ssh:u@standby") -> Restic:
        listed = json.dumps([{"id": str(at), "time": time, "tags": ["cut"]} for at, time in enumerate(times)])
        restic = self.with_restic(snapshots=(0, listed, ""))
        repository.expire_repositories(self.run_of(to))
        return restic

    def test_what_expires_is_in_restic_s_terms_and_on_this_machine_alone(self) -> None:
        restic = self.expired("2025-01-14T16:50:00Z")
        self.assertEqual(restic.commands(), ["snapshots", "forget", "check"])
        self.assertLessEqual({"--group-by=host", "--prune", "--keep-within", "35d", "--keep-tag", "cut", "--repo=/here"}, set(restic.asked[1][1]))

    def test_a_standby_s_repository_is_not_expired_from_here(self) -> None:
        self.assertEqual(self.expired("2025-01-14T16:50:00Z", to="ssh:u@standby").commands(), [])

    def test_a_backup_from_the_future_keeps_all(self) -> None:
        self.expired("2025-01-14T17:09:00Z")
        with self.assertRaisesRegex(Refused, "from the future"):
            self.expired("2025-01-14T16:00:00Z", "2025-01-14T17:11:00Z")

    def test_a_restore_takes_the_first_place_that_has_the_backup(self) -> None:
        found = self.folder / "target" / "b" / "2025"

        def restic(words: list[str], **how: object) -> subprocess.CompletedProcess[str]:
            if "--repo=/two" in words:
                found.mkdir(parents=True)
                (found / "backup.json").write_text("{}")
                return subprocess.CompletedProcess(words, 0, "", "")
            return subprocess.CompletedProcess(words, 1, "", "no such disk")

        with mock.patch.object(subprocess, "run", restic):
            self.assertEqual(repository.taken_back(self.run_of("/one /two"), "latest", self.folder / "target"), found)
            with self.assertRaisesRegex(Misused, "no such disk"):
                repository.taken_back(self.run_of("/one"), "latest", self.folder / "other")


class Making(Case):
    def test_what_found_no_room_does_not_keep_the_next_backup_back(self) -> None:
        (self.folder / ".failing.json.part").touch()
        (self.folder / ".2025-01-14T133000Z.part").mkdir()
        it = self.run_of("/one", newest="3")
        it.settings.number.side_effect = lambda section, key: 3
        it.words = argparse.Namespace(init=False, expire_only=False)
        with mock.patch.object(backup, "make_backup") as made:
            backup.backup(it)
        made.assert_called_once()
        self.assertEqual([], list(self.folder.iterdir()))


class BackedUp(Case):
    def day(self, cut: str | None, *backups: tuple[str, list[str] | None]) -> Any:
        for name, stored in backups:
            folder = self.folder / name
            folder.mkdir()
            (folder / "backup.json").write_text(json.dumps({"began": f"{name[:13]}:{name[13:15]}:{name[15:]}"}))
            if stored is not None:
                (folder / backup.STORED).write_text(json.dumps(stored))
        it = self.run_of("/one ssh:u@two")
        it.journal = mock.MagicMock()
        it.journal.last.return_value = {"at": cut} if cut else None
        return it

    def test_a_backup_that_began_after_the_cut_and_is_everywhere(self) -> None:
        backup.backed_up(self.day("2025-01-14T13:31:00.000Z", ("2025-01-14T133200Z", ["/one", "ssh:u@two"])))

    def test_one_that_began_before_the_cut_does_not_count(self) -> None:
        with self.assertRaises(Unavailable):
            backup.backed_up(self.day("2025-01-14T13:31:00.000Z", ("2025-01-14T133000Z", ["/one", "ssh:u@two"])))

    def test_one_that_a_repository_lacks_does_not_count(self) -> None:
        with self.assertRaises(Unavailable):
            backup.backed_up(self.day("2025-01-14T13:31:00.000Z", ("2025-01-14T133200Z", ["/one"]), ("2025-01-14T134200Z", None)))

    def test_without_a_cut_none_is_needed(self) -> None:
        backup.backed_up(self.day(None))


class Secrets(Case):
    def test_a_name_is_a_credential_if_the_unit_has_one(self) -> None:
        (self.folder / "day").write_text("a-key\n")
        (self.folder / "sftp").write_text("none\n")
        with mock.patch.dict(os.environ, {"CREDENTIALS_DIRECTORY": str(self.folder)}):
            self.assertEqual([secret.secret_path(it) for it in ("day", "sftp", "other", "/a/path")],
                             [self.folder / "day", Path("/etc/achdesk/keys/sftp"), Path("/etc/achdesk/keys/other"), Path("/a/path")])


if __name__ == "__main__":
    unittest.main()
