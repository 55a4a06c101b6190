#!/usr/bin/env python3
"""Tries backups, restores and a takeover by deploy/achdesk-day: `python3 judge/backups.py [PROGRAM] [EVERY]`.

PROGRAM is ./achdesk if it is left out. EVERY is 1 if it is left out: with 5 only each fifth step of a command is killed.

- While clients submit and the log is moved into the file again and again, backups are made one after another. Every one
  has to open, and to have each submission that was answered before it began, by the rows that stock SQLite finds in it.
- A checkpoint, and a log that begins again, between the copy of the file and that of the log.
- A backup is killed at each of its steps, under load. What has a backup's name then has to be one.
- On a full volume no backup is made, and the one before it stays.
- A backup with a changed byte, or without its log, is not restored. A restore is killed at each of its steps: the
  target has the old desk, the restored one, or none that starts, and the old files are never lost.
- A backup waits while a restore tries a copy, and a restore while a backup is made; what a killed one leaves is removed.
- Each backup goes to a repository of restic on this machine and to one of a standby, by SSH. The standby takes what is added and
  refuses to delete. A disk that is not mounted is a failure. What the default rule keeps is worked out by hand.
- A backup of a stopped desk, and a copy of its files by the commands of docs/operate/backup.md, which is restored by its path;
  a copy without its log or with a damaged file is not.
- A standby is given the archive by rsync over SSH, which is killed at each step, and takes over in another folder, from its
  repository, by the commands of docs/operate/backup.md.

The status is 1 if a check failed, and 2 if Debian packages are missing, which are named; that is not a pass.
"""

import http.client
import importlib
import json
import os
import re
import shutil
import signal
import sqlite3
import subprocess
import sys
import tempfile
import threading
import time
from datetime import date, datetime, timedelta
from pathlib import Path

from helpers.bank import DAY, DESK_KEYS, OPERATOR_KEY, Bank, bytes_of, end_if_missing
from helpers.returned import file_of_returns
from helpers.running import HOST, TOP, Checks, program_of

SECONDS = 60  # of load with backups
CLIENTS = 3
PAUSE, LONG_PAUSE = 0.05, 0.5  # seconds between two submissions of a client: while backups are made, and while they are killed
LARGE = 30  # entries of a submission, so that the log fills


class Clients:
    """Clients that submit one after another, and remember when each submission was answered."""

    def __init__(self, bank):
        self.bank, self.answered, self.is_on, self.lock, self.pause = bank, [], True, threading.Lock(), PAUSE
        self.threads = [threading.Thread(target=self.work, args=(at,), daemon=True) for at in range(CLIENTS)]
        for it in self.threads:
            it.start()

    def work(self, client):
        number = 0
        while self.is_on:
            number += 1
            if submit(self.bank, f"C{client}-{number}"):
                with self.lock:
                    self.answered.append((time.time(), f"C{client}-{number}"))
            time.sleep(self.pause)

    def before(self, moment):
        with self.lock:
            return {ref for at, ref in self.answered if at < moment}

    def stop(self):
        self.is_on = False
        for it in self.threads:
            it.join()


def submit(bank, ref):
    """Whether a submission was accepted."""
    entries = [{"routing": "091000019", "account": "123456789", "kind": "checking", "cents": 100 + at, "id": f"E{at}", "name": "ANN LEE"}
               for at in range(LARGE)]
    body = json.dumps({"ref": ref, "sec": "PPD", "direction": "credit", "description": "PAYROLL", "day": "2025-01-15", "entries": entries})
    link = http.client.HTTPConnection(HOST, bank.desk.port, timeout=60)
    try:
        link.request("POST", "/c/MILL01/submissions", body, {"X-Desk-Key": DESK_KEYS["MILL01"], "Connection": "close"})
        return link.getresponse().status == 201
    except (OSError, http.client.HTTPException):
        return False
    finally:
        link.close()


def refs_in(folder):
    """The references of the submissions in a backup, by stock SQLite, which reads a copy."""
    with tempfile.TemporaryDirectory() as copy:
        for path in folder.glob("bank.db*"):
            shutil.copy(path, copy)
        db = sqlite3.connect(Path(copy) / "bank.db")
        try:
            return {ref for (ref,) in db.execute("SELECT ref FROM submissions")}
        finally:
            db.close()


def opens(program, file):
    """Whether a desk opens, on a copy of its files."""
    with tempfile.TemporaryDirectory() as copy:
        for path in (file, file.with_name(file.name + "-wal")):
            if path.exists():
                shutil.copy(path, Path(copy) / path.name)
        done = subprocess.run([program, "stdio", Path(copy) / file.name], input=b"GET /ops/status HTTP/1.1\r\nHost: h\r\nX-Desk-Key: "
                              + OPERATOR_KEY.encode() + b"\r\n\r\n", capture_output=True)
        return done.stdout.partition(b"\r\n\r\n")[2] if done.stdout.startswith(b"HTTP/1.1 200") else done.stdout


def finished(bank):
    return sorted(path for path in bank.backups.glob("[0-9]*") if path.is_dir())


def began(folder):
    return datetime.fromisoformat(json.loads((folder / "backup.json").read_text())["began"].replace("Z", "+00:00")).timestamp()


def lost_of(paths, clients):
    """What backups lack of that which was answered before they began, by the backup's name."""
    return {path.name: sorted(lost)[:3] for path in paths if (lost := clients.before(began(path)) - refs_in(path))}


# ---- under load ----

def under_load(bank, checks, every):
    bank.write_config(backup={"newest": 1000}, repository={"to": ""})
    bank.now = ""
    clients, tries, logs, earlier = Clients(bank), 0, set(), len(finished(bank))
    until = time.monotonic() + SECONDS
    while time.monotonic() < until:
        status, printed, errors = bank.day("backup")
        tries += 1
        if status:
            checks.that("a backup under load", (status, errors), (0, ""))
        time.sleep(1)  # a backup's name is the second in which it began
    for path in finished(bank):
        logs.add((path / "bank.db-wal").read_bytes()[16:24])
    made = len(finished(bank)) - earlier
    checks.that(f"{made} of {tries} backups under load, {len(clients.answered)} submissions answered", made, tries)
    checks.that("none lacks what was answered before it began", lost_of(finished(bank), clients), {})
    again = sum(json.loads((path / "backup.json").read_text())["copies"] - 1 for path in finished(bank))
    print(f"        the log began again at least {len(logs) - 1} times between backups; {again} copies were made again", flush=True)
    step, failed, tried, clients.pause = 1, [], set(finished(bank)), LONG_PAUSE
    while bank.day("backup", ACHDESK_DAY_KILL_AT=step)[0] == -9:
        new = set(finished(bank)) - tried
        failed += [path.name for path in new if not opens(bank.program, path / "bank.db").startswith(b"{")]
        failed += lost_of(new, clients)
        tried |= new
        time.sleep(1)
        if bank.day("backup")[0]:
            failed.append(f"the backup after the kill at step {step}")
        step += every
        time.sleep(1)
    clients.stop()
    checks.that(f"a backup is killed at its steps, up to step {step - 1}, under load", failed, [])
    checks.that("and there were steps", step > 5)
    checks.that("nothing is left of the killed ones", [path.name for path in bank.backups.glob(".*")], [])
    bank.write_config()


# ---- a checkpoint between the two copies ----

def day_module(name):
    """A module of the package achdesk_day."""
    sys.dont_write_bytecode = True
    for folder in (TOP / "clients" / "python", TOP / "deploy"):
        if str(folder) not in sys.path:
            sys.path.insert(0, str(folder))
    return importlib.import_module(f"achdesk_day.{name}")


def checkpoints(bank, checks):
    """Copies pairs while the desk moves its log into the file, between the copy of the file and that of the log: once it is
    stopped in the middle of that, and once the log has begun again, after which the pair has to be copied again."""
    for what, stops, copies in (("in the middle of a checkpoint", True, 1), ("with a log that begins again", False, 2)):
        made, failed = [], []
        while made[-1:] != [copies] and len(made) < 20:
            answered = [f"{len(what)}-{len(made)}-{at}" for at in range(3)]
            failed += [ref for ref in answered if not submit(bank, ref)]
            folder, count = copied_during(bank, f"{len(what)}-{len(made)}", stops)
            failed += [answered] if set(answered) - refs_in(folder) else []
            failed += [opens(bank.program, folder / "bank.db")] if not opens(bank.program, folder / "bank.db").startswith(b"{") else []
            made.append(count)
        checks.that(f"a pair is copied {what}, at try {len(made)}", made[-1:], [copies])
        checks.that("each pair opens, and has what was answered before", failed, [])


def copied_during(bank, name, stops):
    """Copies a pair, with submissions after the copy of the file until the log begins again or, if the desk is to be
    stopped, until the file changes. Returns the pair's folder, and how often it was copied."""
    module, hooks, log, desk = day_module("backup"), day_module("hooks"), bank.desk_file.with_name("bank.db-wal"), bank.desk.process
    state = (lambda: bank.desk_file.stat().st_mtime_ns) if stops else (lambda: log.read_bytes()[:32])
    calls, is_on, undisturbed = [], [True], hooks.at_step

    def work():
        number = 0
        while is_on[0]:
            number += 1
            submit(bank, f"{name}-between-{number}")

    client = threading.Thread(target=work, daemon=True)

    def after_a_copy():
        calls.append(name)
        if len(calls) > 1:
            return
        before, until = state(), time.monotonic() + 120
        client.start()
        while state() == before and time.monotonic() < until:
            pass
        if stops:
            desk.send_signal(signal.SIGSTOP)
        is_on[0] = False

    folder, hooks.at_step = Path(tempfile.mkdtemp(dir=bank.folder)), after_a_copy
    try:
        return folder, module.copy_pair(bank.desk_file, folder)["copies"]
    finally:
        hooks.at_step = undisturbed
        desk.send_signal(signal.SIGCONT)
        client.join()


# ---- a full volume ----

FULL = r"""
set -e
mount -t tmpfs -o size=4m none "$1"
"$2" "$3" --config "$4" backup
dd if=/dev/zero of="$1/other" bs=64k 2>/dev/null || :
sleep 1.1
if "$2" "$3" --config "$4" backup; then exit 9; fi
ls -A "$1"
rm "$1/other"
sleep 1.1
"$2" "$3" --config "$4" backup
ls -A "$1"
cp -r "$1"/2* "$5"
"""


def full_volume(bank, checks):
    small, kept = bank.folder / "small", bank.folder / "kept"
    small.mkdir()
    kept.mkdir()
    config = bank.folder / "small.conf"
    other = small_desk(bank)
    bank.write_config(config, folders={"backups": small}, files={"desk": other}, repository={"to": ""})
    space = [] if os.geteuid() == 0 else ["--user", "--map-root-user"]
    done = subprocess.run(["unshare", *space, "--mount", "sh", "-c", FULL, "sh", small, sys.executable, DAY, config, kept], capture_output=True, text=True)
    checks.that("on a full volume: a backup, none, and one again", done.returncode, 0)
    kinds = [it if it == "other" else "backup" for it in done.stdout.splitlines() if it == "other" or re.match(r"\.?2\d{3}-", it)]
    checks.that("the full volume has the first backup and nothing half-way", kinds, ["backup", "other", "backup", "backup"])
    checks.that("an error says that there is no room", "No space left on device" in done.stderr, True)
    checks.that("both backups open", [opens(bank.program, path / "bank.db")[:1] for path in sorted(kept.iterdir())], [b"{", b"{"])


def small_desk(bank):
    """A small desk's files, which nobody serves."""
    folder = bank.folder / "small-desk"
    if folder.exists():
        return folder / "bank.db"
    folder.mkdir()
    subprocess.run([bank.program, "init", folder / "bank.db", "--odfi", "121042882", "--odfi-name", "OUR BANK", "--destination", "061000146",
                    "--destination-name", "ACH OPERATOR", "--key", OPERATOR_KEY], check=True, stdout=subprocess.DEVNULL)
    return folder / "bank.db"


# ---- restores ----

def restores(bank, checks, every):
    bank.day("backup")
    bank.desk.stop()
    newest, target = finished(bank)[-1], bank.folder / "restored" / "bank.db"
    spoiled = bank.backups / "2001-01-01T000000Z"
    shutil.copytree(newest, spoiled)
    log = bytearray((spoiled / "bank.db-wal").read_bytes())
    log[len(log) // 2] ^= 1
    (spoiled / "bank.db-wal").write_bytes(log)
    target.parent.mkdir()
    status, _, errors = bank.day("restore", spoiled.name, "--to", target)
    checks.that("a backup with a changed byte is not restored", (status, "is not the file that was backed up" in errors, target.exists()), (1, True, False))
    (spoiled / "bank.db-wal").unlink()
    status, _, errors = bank.day("restore", spoiled.name, "--to", target)
    checks.that("nor one without its log", (status, "is not the file that was backed up" in errors, target.exists()), (1, True, False))
    shutil.rmtree(spoiled)
    old = small_desk(bank)
    step, failed, wanted = 1, [], opens(bank.program, newest / "bank.db")
    while True:
        shutil.rmtree(target.parent)
        shutil.copytree(old.parent, target.parent)
        before = bytes_of(target.parent)
        answers = {opens(bank.program, target), wanted, b"NotADesk\n"}
        if bank.day("restore", newest.name, "--to", target, ACHDESK_DAY_KILL_AT=step)[0] != -9:
            break
        if (found := opens(bank.program, target)) not in answers:
            failed.append((step, "the target is another desk", found))
        if bank.day("restore", newest.name, "--to", target)[0] or opens(bank.program, target) != wanted:
            failed.append((step, "the restore after it"))
        there = [bytes_of(path) for path in target.parent.iterdir() if path.is_dir()]
        if not all(any(text in it.values() for it in there) for text in before.values()):
            failed.append((step, "old files are lost"))
        step += every
    checks.that(f"a restore is killed at its steps, up to step {step - 1}", failed, [])
    checks.that("and there were steps", step > 10)
    bank.desk.start()


def side_by_side(bank, checks):
    """Stops a restore in the middle of its trial and makes a backup, and the other way around."""
    target = bank.folder / "beside" / "bank.db"
    target.parent.mkdir()
    bank.write_config(repository={"to": ""})  # whose newest backup is of the day of the cut
    bank.day("backup")
    restore = ("restore", "newest", "--to", target)
    for first, second in ((restore, ("backup",)), (("backup",), restore)):
        time.sleep(1)  # a backup's name is the second in which it began
        held, there = stopped_half_way(bank, *first)
        other = bank.begun_day(*second)
        time.sleep(3)
        checks.that(f"a {second[0]} waits while a {first[0]} is half-way, and leaves its folder", (other.poll(), there.is_dir()), (None, True))
        held.send_signal(signal.SIGCONT)
        ends = [(it.communicate(timeout=120)[1], it.returncode) for it in (held, other)]
        checks.that(f"then the {first[0]} and the {second[0]} are done", ends, [("", 0), ("", 0)])
        checks.that("and the restored desk opens", opens(bank.program, target).startswith(b"{"))
    held, there = stopped_half_way(bank, *restore)
    held.kill()
    held.wait()
    time.sleep(1)
    checks.that("a killed restore leaves its folder, which the next backup removes", (there.is_dir(), bank.day("backup")[0], list(bank.backups.glob(".*"))), (True, 0, []))
    bank.write_config()


def stopped_half_way(bank, *words):
    """Starts a command and stops it while it has a folder of its own among the backups. Returns its process and that folder."""
    for _ in range(50):
        it = bank.begun_day(*words)
        while it.poll() is None and not (found := list(bank.backups.glob(".*"))):
            pass
        it.send_signal(signal.SIGSTOP)
        if it.poll() is None and found and found[0].is_dir():
            return it, found[0]
        it.send_signal(signal.SIGCONT)
        it.communicate()
        time.sleep(1)
    sys.exit(f"achdesk-day {words[0]} is never half-way")


# ---- copies that achdesk-day did not make ----

def stopped_desk(bank, checks):
    """Backs up a stopped desk, by achdesk-day and by hand, and restores both."""
    bank.desk.stop()
    wanted, folder, target = opens(bank.program, bank.desk_file), bank.folder / "stopped", bank.folder / "from-a-path" / "bank.db"
    target.parent.mkdir()
    bank.now = "2025-01-14T09:10:00-05:00"
    checks.that("a stopped desk is backed up", (bank.day("backup")[0], opens(bank.program, finished(bank)[-1] / "bank.db")), (0, wanted))
    text = commands_of_page("cp -p /var/lib/achdesk/bank.db", {"/var/lib/achdesk-backup/stopped": folder, "/var/lib/achdesk": bank.desk_file.parent})
    checks.that("the page's commands copy it", (subprocess.run(["sh", "-ec", text]).returncode, sorted(bytes_of(folder)) if folder.is_dir() else []), (0, ["bank.db", "bank.db-wal"]))
    written = max(path.stat().st_mtime for path in (bank.desk_file, bank.desk_file.with_name("bank.db-wal")))
    status, printed, _ = bank.day("restore", folder, "--to", target)
    checks.that("the copy is restored by its path", (status, opens(bank.program, target)), (0, wanted))
    checks.that("and taken as of the time at which it was written", f"{datetime.utcfromtimestamp(written):%Y-%m-%dT%H:%M:%S}" in printed)
    status, _, errors = bank.day("restore", bank.folder / "nowhere", "--to", target)
    checks.that("a folder that is not there is not restored", (status, "there is no folder" in errors), (2, True))
    damaged = bytearray((folder / "bank.db").read_bytes())
    damaged[len(damaged) // 2:] = bytes(len(damaged) - len(damaged) // 2)
    (folder / "bank.db").write_bytes(damaged)
    status, _, errors = bank.day("restore", folder, "--to", target)
    checks.that("a damaged copy is not restored", (status, "does not open" in errors, opens(bank.program, target)), (1, True, wanted))
    (folder / "bank.db-wal").unlink()
    status, _, errors = bank.day("restore", folder, "--to", target)
    checks.that("nor one without its log", (status, "it has no bank.db-wal" in errors, opens(bank.program, target)), (2, True, wanted))
    bank.desk.start()


# ---- the repository and its rule ----

class Repositories:
    """One on this machine and one of the standby, which the bank's key can add to."""

    def __init__(self, bank):
        self.here, self.there = bank.folder / "repository", bank.folder / "operator" / "repository"
        self.password, self.key = bank.folder / "keys" / "repository", bank.folder / "keys" / "backup"
        self.password.touch(mode=0o600)
        self.password.write_text("the-repository-password\n")
        subprocess.run(["ssh-keygen", "-q", "-t", "ed25519", "-N", "", "-f", self.key], check=True)
        line = next(it for it in (TOP / "docs/operate/backup.md").read_text().splitlines() if it.startswith('command="rclone'))
        line = line.replace("/var/lib/achdesk-standby/repository", str(self.there)).replace("ssh-ed25519 AAAA.. achdesk-backup", self.key.with_suffix(".pub").read_text())
        with open(bank.sftp.folder / "authorized_keys", "a") as file:
            file.write(line)
        self.place = f"ssh:{bank.sftp.user}@{HOST}"
        self.settings = {"to": f"{self.here} {self.place}", "password_file": self.password, "identity": self.key, "known_hosts": bank.sftp.known_hosts,
                         "port": bank.sftp.port, "also": f"{bank.folder}/keys/day"}

    def restic(self, where, *words, given=None):
        done = subprocess.run(["restic", "--repo", where, "--password-file", self.password, "--no-cache", *words], capture_output=True, text=True, input=given)
        return done.returncode, done.stdout, done.stderr

    def snapshots(self, where):
        """The tags and times of the backups, oldest first."""
        return sorted((it["time"][:16], *it.get("tags", ())) for it in json.loads(self.restic(where, "snapshots", "--json")[1]) or [])


def repositories(bank, checks, places):
    """Backups go to both repositories; what fails in one is in the other; the standby deletes nothing for the bank's key."""
    status, _, errors = bank.day("backup")
    checks.that("without a repository a backup fails, and is on this machine", (status, "achdesk-day backup --init" in errors, len(finished(bank)) > 0), (2, True, True))
    checks.that("which does not count as one that has the cut", bank.day("backed-up")[0] in (0, 3))
    checks.that("the repositories are made", bank.day("backup", "--init")[0], 0)
    time.sleep(1)
    bank.now = "2025-01-14T09:20:00-05:00"
    checks.that("a backup goes to both", bank.day("backup", "--tag", "cut")[0], 0)
    checks.that("with its tag and time", [places.snapshots(it) for it in (places.here, places.there)], [[("2025-01-14T14:20", "cut")]] * 2)
    moved = places.here.with_name("not-mounted")
    places.here.rename(moved)
    bank.now = "2025-01-14T09:30:00-05:00"
    status, _, errors = bank.day("backup")
    checks.that("a disk that is not mounted is a failure", (status, "If its disk is not mounted" in errors, places.here.exists()), (2, True, False))
    checks.that("and the standby has the backup", len(places.snapshots(places.there)), 2)
    moved.rename(places.here)
    shell = f"ssh -F none -p {bank.sftp.port} -i {places.key} -o UserKnownHostsFile={bank.sftp.known_hosts} {bank.sftp.user}@{HOST} rclone"
    before = sorted(str(it) for it in places.there.rglob("*") if it.is_file() and "locks" not in it.parts)
    for words in (("forget", "--keep-last", "1", "--group-by", "host"), ("forget", "latest"), ("prune",)):
        done = subprocess.run(["restic", "--repo", "rclone:x", "-o", f"rclone.program={shell}", "--password-file", places.password, "--no-cache", *words], capture_output=True, text=True, timeout=120)
        checks.that(f"the standby refuses {words[0]} to the bank's key", (done.returncode != 0 or words == ("prune",), sorted(str(it) for it in places.there.rglob("*") if it.is_file() and "locks" not in it.parts)), (True, before))
    done = subprocess.run([*shell.split()[:-2], f"{bank.sftp.user}@{HOST}", "rm", "-rf", str(places.there)], capture_output=True, timeout=60, stdin=subprocess.DEVNULL)
    checks.that("and runs no other command", sorted(str(it) for it in places.there.rglob("*") if it.is_file() and "locks" not in it.parts), before)


def expiry(bank, checks, places):
    """What the default rule keeps: 35 days, the newest of each month, and each backup after a cut."""
    small, config = bank.folder / "small-repository", bank.folder / "expiry.conf"
    bank.write_config(config, repository={"to": small})
    places.restic(small, "init")
    made = [("2024-10-02", "timer"), ("2024-10-31", "timer"), ("2024-11-05", "cut"), ("2024-11-20", "timer"), ("2024-11-21", "timer"), ("2024-12-05", "timer"),
            ("2024-12-11", "timer"), ("2024-12-12", "timer"), ("2025-01-13", "timer"), ("2025-01-14", "timer")]
    for day, tag in made:
        places.restic(small, "backup", "--host", "achdesk", "--tag", tag, "--time", f"{day} 12:00:00", bank.config)
    status, _, errors = bank.day("backup", "--expire-only", config=config, ACHDESK_DAY_NOW="2025-01-10T12:00:00-05:00")
    checks.that("a backup from the future keeps all", (status, "backups from the future" in errors, len(places.snapshots(small))), (1, True, len(made)))
    checks.that("the backups expire", bank.day("backup", "--expire-only", config=config, ACHDESK_DAY_NOW="2025-01-14T12:00:00-05:00")[0], 0)
    checks.that("35 days, each month and each cut are kept", [(day[:10], tag) for day, tag in places.snapshots(small)],
                [("2024-10-31", "timer"), ("2024-11-05", "cut"), ("2024-11-21", "timer"), ("2024-12-11", "timer"), ("2024-12-12", "timer"), ("2025-01-13", "timer"), ("2025-01-14", "timer")])
    piece = max((small / "data").rglob("*"), key=lambda it: it.stat().st_size if it.is_file() else 0)
    text = bytearray(piece.read_bytes())
    text[len(text) // 2] ^= 1
    piece.chmod(0o600)
    piece.write_bytes(text)
    days = (date(2025, 1, 15) + timedelta(at) for at in range(30))
    found = (bank.day("backup", "--expire-only", config=config, ACHDESK_DAY_NOW=f"{day}T12:00:00-05:00") for day in days)
    checks.that("a changed byte of the repository is found within 30 days", any(status == 3 and "check failed" in errors for status, _, errors in found))


def holidays_of(checks):
    observed = {2025: "01-01 01-20 02-17 05-26 06-19 07-04 09-01 10-13 11-11 11-27 12-25", 2026: "01-01 01-19 02-16 05-25 06-19 09-07 10-12 11-11 11-26 12-25",
                2022: "01-17 02-21 05-30 06-20 07-04 09-05 10-10 11-11 11-24 12-26", 2027: "01-01 01-18 02-15 05-31 07-05 09-06 10-11 11-11 11-25"}
    for year, listed in observed.items():
        checks.that(f"the Federal Reserve's holidays of {year}", [f"{it:%m-%d}" for it in day_module("holidays").federal_reserve_holidays(year)], listed.split())


# ---- the standby ----

def commands_of_page(command, places):
    """The commands of the block of docs/operate/backup.md that has one of them, but those of systemctl, with other paths."""
    blocks = re.findall(r"```(?:sh|console)\n(.*?)```", (TOP / "docs/operate/backup.md").read_text(), re.S)
    lines = next(it for it in blocks if command in it).splitlines()
    text = "".join(f"{it.removeprefix('$ ')}\n" for it in lines if "systemctl" not in it)
    for old, new in places.items():
        text = text.replace(old, str(new))
    return text


def arrive(bank, name, number):
    """Puts a file with the return of an unknown entry into the inbox."""
    item = {"code": "R03", "trace": "121042889999999", "dfi": "09100001", "debit": False, "savings": False, "account": "123456789", "cents": 100,
            "ident": "E1", "name": "ANN LEE"}
    (bank.state / "inbox" / name).write_text(file_of_returns(number, "PPD", [item]))


def take_archive(checks, standby, state):
    """The page's commands, also for a standby to which no file was on its way."""
    text = commands_of_page("cp -a /var/lib/achdesk-standby/state", {"/var/lib/achdesk-standby": standby, "/var/lib/achdesk-day": state, "achdesk-day:achdesk-day": f"{os.geteuid()}:{os.getegid()}"})
    done = subprocess.run(["sh", "-ec", text], capture_output=True, text=True)
    checks.that("the page's commands take the archive over", (done.returncode, done.stderr), (0, ""))
    checks.that("and leave in the inbox what was not taken", sorted(bytes_of(state / "inbox")), ["later.ach"])
    (state / "inbox" / "later.ach").unlink()
    done = subprocess.run(["sh", "-ec", text.partition("\n")[2]], capture_output=True, text=True)
    checks.that("they take an empty inbox", (done.returncode, done.stderr), (0, ""))


def takeover(bank, checks, places):
    """The bank cuts and transmits; a backup before the cut is all that the standby has. It must not pay twice."""
    bank.now = "2025-01-14T09:40:00-05:00"
    checks.that("a backup before the cut", bank.day("backup")[0], 0)
    for path in finished(bank):
        if path.name > "2025-01-14T144000Z":
            shutil.rmtree(path)  # of the real clock, which is later
    bank.now = "2025-01-14T09:45:00-05:00"
    cut, early, sent = bank.day("cut"), bank.day("backed-up"), bank.day("send")
    checks.that("the bank cuts and transmits, and no backup has the cut yet", (cut[0], early[0], sent[0]), (0, 3, 0))
    arrive(bank, "taken.ach", 1)
    standby, config, step = bank.folder / "operator" / "standby", bank.folder / "standby.conf", 1
    while bank.day("copy", ACHDESK_DAY_KILL_AT=step)[0] == -9:
        step += 1
    checks.that(f"a copy is killed at its steps, up to step {step - 1}", step > 2)
    checks.that("a file that was copied is taken", bank.day("returns")[0], 0)
    arrive(bank, "later.ach", 2)
    checks.that("the bank copies to the standby", bank.day("copy")[0], 0)
    bank.desk.stop()
    subprocess.run(["chown", "-R", str(os.geteuid()), standby], check=True)
    desk_file, state = bank.folder / "second" / "bank.db", bank.folder / "second-day"
    desk_file.parent.mkdir()
    state.mkdir(mode=0o700)
    take_archive(checks, standby, state)
    (bank.folder / "second-backups").mkdir(mode=0o700)
    bank.write_config(config, folders={"state": state, "backups": bank.folder / "second-backups"}, files={"desk": desk_file, "proxy_logs": f"{standby}/proxy-logs/*"},
                      repository={"to": places.there}, standby={"to": "none"})
    status, printed, errors = bank.day("restore", "repository:latest", config=config)
    checks.that("the standby restores the newest backup of its repository", (status, "cut 2025-01-14" in printed, "sent 2025-01-14-A" in printed), (0, True, True))
    bank.desk.path = desk_file
    bank.desk.start()
    status, _, errors = bank.day("cut", config=config)
    checks.that("it does not pay twice", (status, "Ask the ACH operator" in errors), (1, True))
    files = [it.removesuffix(".ach") for it in sorted(bank.received())]
    answers = [bank.day("confirm", *words, "--by", "ANN", config=config)[0] for words in (*((it, "--transmitted") for it in files), ("--no-other",))]
    checks.that(f"the ACH operator has {len(files)} files, of which each is confirmed", (len(files) > 0, set(answers)), (True, {0}))
    status, _, errors = bank.day("cut", config=config)
    checks.that("nor once the ACH operator was asked", (status, "would pay twice" in errors or errors), (1, True))
    status, printed, errors = bank.day("cut", "--remake", config=config)
    alike = [it for it in files if f"{it} is the file that was transmitted, byte for byte; it is not sent again" in printed]
    checks.that("it makes each file again", (status, errors, alike), (0, "", files))
    status, printed, _ = bank.day("send", config=config)
    checks.that("and has nothing to transmit", (status, printed), (0, "to transmit: nothing\n"))
    checks.that("the ACH operator has each file once", sorted(bank.received()), sorted(bank.archive()))


def main():
    end_if_missing()
    signal.signal(signal.SIGTERM, lambda *_: sys.exit(1))  # ends the parts too
    program, checks, every = program_of(sys.argv[1:]), Checks(), int((sys.argv[2:] or ["1"])[0])
    holidays_of(checks)
    with tempfile.TemporaryDirectory(prefix="judge-backups-") as folder:
        Path(folder).chmod(0o755)
        with Bank(program, folder) as bank:
            bank.now = "2025-01-14T09:00:00-05:00"
            bank.day("holidays", "2025", "2026")
            bank.day("open")
            bank.curl("day", "/ops/companies", {"id": "MILL01", "name": "MILL STREET", "key": DESK_KEYS["MILL01"], "entry_limit": 9999999999,
                                                "credit_limit": 999999999999999, "debit_limit": 0})
            places = Repositories(bank)
            bank.settings = {"repository": places.settings}
            bank.write_config()
            checkpoints(bank, checks)
            repositories(bank, checks, places)
            expiry(bank, checks, places)
            restores(bank, checks, every)
            stopped_desk(bank, checks)
            under_load(bank, checks, every)
            side_by_side(bank, checks)
            full_volume(bank, checks)
            takeover(bank, checks, places)
    checks.end()


if __name__ == "__main__":
    main()
