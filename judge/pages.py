#!/usr/bin/env python3
"""Runs the commands of the pages as printed: `python3 judge/pages.py [PROGRAM [PAGE ..]]`, the built program by default.

In README.md and in docs/operate, docs/integrate and docs/audit each `console` block is run line by line, and its output
has to be what the page shows, if the page shows any; a line `..` stands for any lines. Each `sh` block is run as one
script and has to succeed; variables that it exports stay. So does each `python` block, and each `sql` block, which stock
SQLite runs with the views of docs/audit.sql. A page is read from the top, in a folder of its own; a second word after
`console` or `sh` names another folder, so that a page can show two ways of doing the same.

Commands are run by the users that the page names: by a person without rights; in a root shell, if the text before a block
says so; as another user by `sudo -u`; and `achdesk-day` as its own user, since the pages leave that out. This takes root;
otherwise one user does all.

Paths under /etc, /var, /usr/share and /tmp lie in that folder, `systemctl` starts and stops the desk, `kill %1` stops it, a
key that a command reads is given to it, `./try` runs the program in place of compiling it, and the desk's address is that of
the desk that is served there. Nothing else is replaced.

NOT_RUN lists the commands of blocks that are not run, each with the reason and the test that covers it, and IN_TEXT the
commands that no block has. A command of NOT_RUN that no page has fails. The last line counts the checks; the exit status
is 1 if one failed. It needs bash, curl, ss, openssl, sqlite3 and OpenSSH's sftp with its server.
"""

import datetime
import os
import re
import shutil
import subprocess
import sys
import tempfile
import time
from dataclasses import dataclass
from pathlib import Path

from helpers.first_version import write_version_1
from helpers.page_rooms import PREPARED, prepare, this_day
from helpers.page_users import HAS_USERS, NUMBERS, PERSON, Sudo, rights_of, settle, under_owner
from helpers.running import MILL_KEY, OPERATOR_KEY, TOP, Checks, Serving, free_port, program_of

PAGES = ("README.md", *sorted(str(it.relative_to(TOP)) for folder in ("operate", "integrate", "audit")
                              for it in (TOP / "docs" / folder).glob("*.md")))

# The start of a command, why it is not run, and what tests it.
NOT_RUN = (
    (".ci/run", "it takes long", "the merge itself, which it gates"),
    ("make deb", "it needs the program in its tree", "judge/deploy.py"),
    ("sudo apt install", "it installs a package", "judge/deploy.py, with dpkg --root"),
    ("sudo install -m 600 new-cert.pem", "it needs a certificate", "judge/deploy.py, with a certificate of its own"),
    ("sudo install -m 600 new-key.pem", "it needs a certificate", "judge/deploy.py, with a certificate of its own"),
    ("sudo nginx -t", "it needs nginx as root", "judge/deploy.py runs nginx with deploy/nginx.conf"),
    ("cp -a /var/lib/achdesk-standby", "it needs a standby", "judge/backups.py, which runs it"),
    ("rsync -a /etc/achdesk", "it needs a standby", "none"),
    ("chown -R achdesk-day", "it needs the users of the package", "none"),
    ("systemctl stop 'achdesk-day-*.timer'", "it needs systemd, and nginx as root", "none"),
    ("sudo systemctl enable systemd-time-wait-sync", "it needs systemd", "judge/deploy.py looks at the unit"),
    ("sudo systemctl enable --now achdesk-alarm.path", "it needs systemd", "judge/units.py starts both"),
    ("echo 'This is a test.'", "it needs the user achdesk-alarm", "judge/alarms.py and judge/units.py"),
    ("sudo systemctl stop achdesk-day-cut.timer", "it needs systemd", "judge/deploy.py verifies the timers"),
    ("sudo systemctl enable --now achdesk-day-metrics.timer", "it needs systemd", "judge/deploy.py verifies the timers"),
    ("sudo chgrp achdesk", "it needs the group achdesk", "judge/deploy.py, which runs it"),
    ("sudo chmod 1775", "it needs the node exporter's folder", "judge/deploy.py, which runs it"),
    ("sudo install -d -o achdesk", "it needs the user achdesk", "judge/backups.py, with a standby of its own"),
    ("sudo usermod", "it needs the user achdesk", "judge/backups.py, with a standby of its own"),
    ("rm -f /etc/nginx", "it needs nginx as root", "judge/deploy.py runs nginx with deploy/nginx.conf"),
)
# Commands in the text of pages that no block has, with the same; judge/facts.py compares them with the pages.
IN_TEXT = (
    ("achdesk help", "its answer is long", "crates/tests_of_the_program"),
    ("achdesk-company --help", "its answer is long", "judge/clients_kit.py runs each command"),
    ("achdesk-company changes", "the page shows it for returns", "judge/clients_kit.py"),
    ("achdesk-company changes --new", "the page shows it for returns", "judge/clients_kit.py"),
    ("achdesk-day backed-up", "a unit runs it", "judge/backups.py"),
    ("achdesk-day restore newest", "the page shows it for a repository", "judge/backups.py"),
    ("achdesk-day begin", "a desk has it once", "judge/day.py"),
    ("achdesk-day confirm FILE", "the page shows it for a file", "judge/day.py"),
    ("achdesk-day fetch", "it needs a folder of the ACH operator", "judge/day.py"),
    ("achdesk-day late", "the page has no late return", "judge/day.py"),
    ("achdesk-day suspense --close", "the page shows the list", "judge/day.py"),
    ("achdesk-day mark FILE", "the page shows it for a file", "judge/day.py"),
    ("achdesk-day correct", "other pages show other words of it", "judge/day.py"),
    ("achdesk-day cut --again", "it follows an answer that was lost", "judge/day.py"),
    ("achdesk-day cut --remake", "it follows a restore", "judge/backups.py"),
    ("achdesk-day holidays -", "the page shows it for years", "judge/day.py"),
    ("achdesk-day metrics --output", "the page shows them on standard output", "judge/day.py"),
    ("achdesk-day open --day", "it follows a restore", "judge/day.py"),
    ("fuser", "it only looks at processes", "none"),
    ("journalctl", "it needs systemd", "none"),
    ("make install", "it installs below /usr", "judge/deploy.py"),
    ("python3 judge/run.py", "it runs the judges, and this one", "none"),
    ("python3 judge/audit.py", "it is a judge", "judge/audit.py itself"),
    ("ss -", "it only looks at sockets", "none"),
    ("systemctl daemon-reload", "it needs systemd", "none"),
    ("systemctl disable --now achdesk", "it needs systemd", "none"),
    ("systemctl edit", "it needs systemd", "judge/deploy.py verifies the units"),
    ("systemctl stop 'achdesk-*.timer'", "it needs systemd", "none"),
    ("systemctl start achdesk-backup@", "it needs systemd", "judge/units.py"),
    ("systemctl status", "it needs systemd", "none"),
)
COPIED = ("examples", "docs", "judge", "clients", "deploy", "console", ".ci", "try")
MOVED = re.compile(r"(?<![\w./])/(etc|var|tmp|usr/share)/")
WAIT = 0.1
SECONDS = 120


@dataclass
class Block:
    number: int
    kind: str
    room: str
    user: str
    lines: list


def blocks(page):
    """Returns the console, sh, python and sql blocks of a page, each with the user that the last line of text before it names."""
    block, found, before = None, [], ""
    for number, line in enumerate((TOP / page).read_text().split("\n"), 1):
        if block is None and line.startswith("```"):
            kind, _, room = line[3:].partition(" ")
            block = Block(number, kind, room, "root" if "root shell" in before else PERSON, [])
        elif line.startswith("```"):
            found += [block] if block.kind in ("console", "sh", "python", "sql") else []
            block = None
        elif block is not None:
            block.lines.append(line)
        else:
            before = line or before
    return found


def commands(block):
    """Returns the commands of a block, each with the output that the page shows, or None if it shows none."""
    if block.kind == "sh":
        return [("\n".join(block.lines), None)]
    if block.kind == "python":
        return [("python3 - <<'END'\n" + "\n".join([*block.lines, "END"]), None)]
    if block.kind == "sql":
        return [("sqlite3 -readonly -init docs/audit.sql copy/bank.db <<'END'\n" + "\n".join([*block.lines, "END"]), None)]
    found, is_open = [], False
    for line in block.lines:
        if is_open:
            found[-1][0] += "\n" + line
        elif line.startswith("$ "):
            found.append([line[2:], []])
        else:
            found[-1][1].append(line)
        is_open = (is_open or line.startswith("$ ")) and line.endswith("\\")
    return [(command, "\n".join(shown) if shown else None) for command, shown in found]


class Room:
    """The folder in which commands of a page are run, and the desk that is served there.

    `tree` is a copy of the repository's files that every user can read, with the program."""

    def __init__(self, folder, tree):
        self.folder, self.tree, self.program, self.served, self.port = Path(folder), tree, tree / "program", None, free_port()
        self.exports = []
        for name in ("bin", "var/lib/achdesk", "var/lib/achdesk-day", "var/lib/achdesk-backup", "tmp", "etc/achdesk/keys", "usr/share/achdesk"):
            (self.folder / name).mkdir(parents=True)
        (self.folder / "usr/share/achdesk/audit.sql").symlink_to(tree / "docs/audit.sql")
        for name in COPIED:
            (self.folder / name).symlink_to(tree / name)
        # The proved program is what ./try has compiled: no source is newer.
        (self.folder / "crates/achdesk/out").mkdir(parents=True)
        (self.folder / "crates.txt").touch()
        for place in ("achdesk", "bin/achdesk", "crates/achdesk/out/tried"):
            (self.folder / place).symlink_to(self.program)
        # On a terminal curl prints no progress when it prints a body.
        (self.folder / ".curlrc").write_text("silent\nshow-error\n")
        self.database = self.folder / "var/lib/achdesk/bank.db"
        self.sudo = Sudo(self.folder)
        settle(self.folder)

    @property
    def address(self):
        return f"http://127.0.0.1:{self.port}"

    def run(self, command, user=PERSON):
        """Returns the output of a command and its status."""
        words = re.sub(r"^sudo (-u \S+ )?", "", command).split() if "\n" not in command else []
        if words[:2] == ["systemctl", "start"] and words[2].startswith("achdesk-backup@"):
            return self.shell(f"sudo -u achdesk-backup achdesk-day backup --tag {words[2][15:-8]} > backup.out")
        if words[:1] == ["systemctl"] and "achdesk" in words:
            return self.stop() if words[1] == "stop" else self.serve(self.database, self.port)
        if words == ["kill", "%1"]:
            return self.stop()
        if len(words) > 2 and words[0].endswith("achdesk") and words[1] == "serve":
            return self.serve(self.folder / words[2], int(words[3]), [it for it in words[4:] if it != "&"])
        if words[:2] == ["achdesk", "migrate"]:
            self.put_version_1(self.folder / self.moved(words[2]))
        return self.shell(command, user)

    def operator_key(self):
        """The desk's own key, which everybody uses, since no proxy is here."""
        made = self.folder / "etc/achdesk/keys/desk.map"
        found = re.search(r'"~\^operator\$" "(\w+)"', made.read_text()) if made.exists() else None
        return found[1] if found else OPERATOR_KEY

    def typed(self, command):
        """Returns the key that a person types for a command that reads one."""
        if "read -rs key" not in command:
            return ""
        return f"{self.operator_key() if 'operator.key' in command else MILL_KEY}\n"

    def give_key(self):
        """Gives the day program its key."""
        path = self.folder / "etc/day.key"
        path.touch(mode=0o600)
        path.write_text(self.operator_key())
        if HAS_USERS:
            os.chown(path, NUMBERS["achdesk-day"], NUMBERS["achdesk-day"])

    def put_version_1(self, path):
        """Replaces a desk's file by one of version 1 with the same rows."""
        self.stop()
        old = path.with_name("version-2.db")
        for end in ("", "-wal"):
            Path(f"{path}{end}").rename(f"{old}{end}")
        write_version_1(old, path)
        settle(self.folder)

    def moved(self, command):
        command = command.replace("https://desk.bank.example", self.address).replace("http://127.0.0.1:880/", f"{self.address}/")
        return MOVED.sub(lambda it: f"{self.folder}/{it[1]}/", command)

    def shell(self, command, user=PERSON):
        self.give_key()
        path = {"PATH": f"{self.folder}/bin:/usr/local/bin:/usr/bin:/bin:/usr/sbin:/sbin", "HOME": str(self.folder), "LANG": "C.UTF-8",
                "PYTHONPATH": str(self.tree / "clients/python")}
        words = "\n".join([*self.exports, self.moved(command)])
        self.exports += [line for line in self.moved(command).split("\n") if line.startswith("export ")]
        done = subprocess.run(["bash", "-ec", words], cwd=self.folder, env=path, input=self.typed(command).encode(),
                              stdout=subprocess.PIPE, stderr=subprocess.DEVNULL if command.startswith("./try ") else subprocess.STDOUT,
                              timeout=SECONDS, **rights_of(user))
        said = done.stdout.decode(errors="replace").replace(self.address, "https://desk.bank.example")
        return said.replace(f"{self.folder}/", "/"), done.returncode

    def serve(self, path, port, options=()):
        self.stop()
        self.served = Serving(self.program, path, port=port, options=options, under=under_owner(path))
        return self.served.wait_for_line().decode(), 0 if self.served.line else 1

    def stop(self):
        if self.served is not None:
            self.served.stop()
            self.served = None
            time.sleep(WAIT)
        return "", 0


def same(said, shown):
    """Compares an output with what a page shows. A line `..` of the page stands for any lines."""
    said = said.replace("\r\n", "\n").rstrip("\n")
    pattern = "".join("(?s:.*?)" if line == ".." else re.escape(line) + "\n" for line in shown.rstrip("\n").split("\n"))
    return re.fullmatch(pattern, said + "\n") is not None


def reason(command):
    return next((it for it in NOT_RUN if command.startswith(it[0])), None)


def judge(page, rooms, checks, used):
    for block in blocks(page):
        for command, shown in commands(block):
            if (why := reason(command)) is not None:
                used.add(why)
                print(f"{page}:{block.number}: not run: {command.splitlines()[0][:60]} ({why[1]}; tested by {why[2]})")
                continue
            said, status = rooms(block.room).run(command, block.user)
            is_right = status in (0, 1) and same(said, shown) if shown else status == 0
            wanted = "status 0" if shown is None else shown
            checks.that(f"{page}:{block.number}: {command.splitlines()[0][:70]}", wanted if is_right else f"status {status}, {said}", wanted)


def copied_tree(folder, program):
    """Copies what pages name of the repository, and the program, to where every user can read it."""
    for name in COPIED:
        copy = shutil.copytree if (TOP / name).is_dir() else shutil.copy
        copy(TOP / name, folder / name, **({"ignore": shutil.ignore_patterns("__pycache__")} if copy is shutil.copytree else {}))
    shutil.copy(program, folder / "program")
    folder.chmod(0o755)
    return folder


def new_folder():
    """A folder for rooms, through which every user gets to them."""
    it = tempfile.TemporaryDirectory(prefix="pages-")
    os.chmod(it.name, 0o755)
    return it


def judge_page(page, tree, checks, used):
    with new_folder() as folder:
        found = {}

        def rooms(name):
            if name not in found:
                found[name] = Room(Path(folder) / (name or "room"), tree)
                prepare(found[name], PREPARED.get(page, ()))
            return found[name]

        try:
            judge(page, rooms, checks, used)
        finally:
            for room in found.values():
                room.stop()
                room.sudo.close()


def judge_today(tree, checks):
    """Runs the quick start of companies on a desk whose day is that of this machine, as a bank's is: up to the desk of one's own."""
    page, today = "docs/integrate/quickstart.md", this_day()
    dates = {"2025-01-08": today, "2025-01-10": today + datetime.timedelta(2)}
    with new_folder() as folder:
        room = Room(Path(folder) / "room", tree)
        prepare(room, ("desk", "company", "this day", "serve", "keys"))
        try:
            for block in (it for it in blocks(page) if not it.room):
                for command, shown in commands(block):
                    said, status = room.run(command)
                    for old, new in dates.items() if shown else ():
                        shown = shown.replace(old, str(new))
                    is_right = status in (0, 1) and same(said, shown) if shown else status == 0 and "refused" not in said
                    checks.that(f"{page}:{block.number}: today: {command.splitlines()[0][:60]}", shown if is_right else said, shown)
        finally:
            room.stop()


def judge_faulty_list(tree, checks):
    """Runs the commands of csv.md that try a list without a desk, with a list that has a fault."""
    block = next(it for it in blocks("docs/integrate/csv.md") if it.room == "check")
    with new_folder() as folder:
        room = Room(Path(folder) / "room", tree)
        (room.folder / "faulty.csv").write_bytes((TOP / "examples/pay.csv").read_bytes().replace(b"150000", b"1.5"))
        command = commands(block)[0][0].replace("examples/pay.csv", "faulty.csv")
        checks.that("docs/integrate/csv.md: with a faulty list the fault is printed", room.run(command)[0], "row 1: bad cents\n")


def main():
    os.environ.pop("ACHDESK_KEY", None)
    program, checks, used = program_of(sys.argv[1:2]), Checks(), set()
    pages = sys.argv[2:] or PAGES
    with tempfile.TemporaryDirectory(prefix="pages-tree-") as folder:
        tree = copied_tree(Path(folder), program)
        for page in pages:
            judge_page(page, tree, checks, used)
        if "docs/integrate/quickstart.md" in pages:
            judge_today(tree, checks)
        if "docs/integrate/csv.md" in pages:
            judge_faulty_list(tree, checks)
    if not sys.argv[2:]:
        checks.that("each command of NOT_RUN is on a page", [it[0] for it in NOT_RUN if it not in used], [])
    checks.end()


if __name__ == "__main__":
    main()
