#!/usr/bin/env python3
"""Starts every installed unit under a real systemd: `python3 judge/units.py [--machine | --user-mode] [PROGRAM] [PART ..]`.

systemd is the first process of namespaces of this machine, or of a machine whose clock and kernel are its own: with --machine a virtual one, with
--user-mode one whose kernel is a program of this machine, which is faster where there is no KVM.

- sandboxes: in the sandbox of each service its user, groups and credentials, and what it can write and reach.
- rights: which user reads or writes what; keys that root alone can read reach the units by LoadCredential=.
- failures: a failure is mailed, whatever fails: a unit that ends with status 1, 2, 3, that is killed or runs too long; once it works
  again, that is mailed too. Status 3 waits for the time of alarm.conf.
- backups: a backup, its tag, and its expiry.
- clock: `open` refuses while the clock is not synchronised; in a machine of its own by the shipped command, and its unit waits for
  time-sync.target.
- day: a bank's day by the units alone, with the shipped day.conf, a real SFTP server, a standby that only takes, and a desk that
  takes long to open.
- once: each failure of achdesk-day is one mail: a refused file, a changed host key, a server that is down, a backup that fails.
- others: a second desk, the guard, the nightly restart, the metrics.
- timers: no two timers of what changes something elapse in one minute; in a machine of its own, whose clock is set forward for it, each starts its unit.

It needs root, systemd, nginx, restic, rsync, openssh-server and python3-aiosmtpd, and what judge/helpers/machine.py or user_mode.py lists.
PROGRAM is the built program if it is left out. The status is 1 if a check failed, and 2 if something is missing, which is named; that is not a pass.
"""

import ctypes
import datetime
import email
import email.policy
import json
import os
import re
import shutil
import signal
import subprocess
import sys
import tempfile
import time
import zoneinfo
from pathlib import Path

from helpers.running import HOST, TOP, Checks, program_of

MAILS, PASSWORD, NOW = Path("/run/mails"), "the-mail-password", "2026-12-01T14:30:00"  # the time of a machine of its own, in UTC
NOW_THERE = datetime.datetime.now(zoneinfo.ZoneInfo("America/New_York")).date()
TODAY, TOMORROW = str(NOW_THERE), str(NOW_THERE + datetime.timedelta(3 if NOW_THERE.weekday() == 4 else 1))  # of the bank
CLOCK = Path("/run/judge-clock")  # what namespaces say of the clock, which is not theirs
USERS = ("achdesk", "achdesk-day", "achdesk-backup", "achdesk-alarm", "achdesk-guard")
UNITS, OPERATOR, STANDBY = Path("/usr/lib/systemd/system"), Path("/srv/operator"), Path("/var/lib/achdesk-standby")
# What day.conf has in place of what is shipped.
SETTINGS = {
    "desk": {"url": f"http://{HOST}:880"}, "sftp": {"host": HOST, "port": "2022", "user": "ach-operator", "folder": f"{OPERATOR}/files", "window": "17:00"},
    "fetch": {"folder": f"{OPERATOR}/returns"}, "repository": {"to": "/var/lib/achdesk-backup/repository"},
    "standby": {"to": f"standby@{HOST}:/", "port": "2022"}, "clock": {"wait": "5"},
}


# ---- inside the machine

def configured(text, settings):
    """A shipped configuration with other values of some settings, each of which it has, perhaps as a comment."""
    lines, section = [], ""
    for line in text.splitlines():
        section = (re.fullmatch(r"\[(\w+)\]", line) or [0, section])[1]
        name = re.match(r"#?([a-z_]+) =", line)
        if name and name[1] in settings.get(section, {}):
            line = f"{name[1]} = {settings[section].pop(name[1])}"
        lines.append(line)
    left = {section: told for section, told in settings.items() if told}
    if left:
        raise SystemExit(f"the shipped configuration lacks {left}")
    return "\n".join(lines) + "\n"


def private(path, text):
    with open(path, "w", opener=lambda path, flags: os.open(path, flags, 0o600)) as file:
        file.write(text)


def configure(installed, kind):
    """The shipped configuration with a mail server that wants a password, an SFTP server and a standby, and the alarm's timer and path."""
    installed.done("openssl", "req", "-x509", "-newkey", "rsa:2048", "-nodes", "-keyout", "/run/key.pem", "-out", "/run/cert.pem", "-days", "2", "-subj", "/CN=localhost",
                   "-addext", "subjectAltName=DNS:localhost", check=True)
    day = Path("/etc/achdesk/day.conf")
    settings = {name: dict(told) for name, told in SETTINGS.items()}
    settings["clock"] |= {} if kind != "namespaces" else {"command": f"cat {CLOCK}"}
    day.write_text(configured(day.read_text(), settings))
    Path("/etc/achdesk/alarm.conf").write_text("[alarm]\nhost = desk-1\npatience = 30\n[patience]\njudge-now.service = 0\n[mail]\nto = a@bank.example\nserver = localhost\nport = 2525\n"
                                               "ca_file = /run/cert.pem\nuser = achdesk\n")
    private("/etc/achdesk/keys/alarm-mail", PASSWORD + "\n")
    os.chmod("/run/cert.pem", 0o644)
    MAILS.mkdir()
    subprocess.Popen(["/usr/bin/python3", str(TOP / "judge/helpers/mail_server.py"), "2525", str(MAILS), "/run/cert.pem", "/run/key.pem", "achdesk", PASSWORD], stderr=subprocess.DEVNULL)
    while installed.done("ss", "-tln", "sport = :2525")[1].count("\n") < 2:
        time.sleep(0.5)
    installed.done("systemctl", "start", "achdesk-alarm.path", "achdesk-alarm.timer", check=True)
    sftp_server(installed)


def sftp_server(installed):
    """An SSH server with the ACH operator, and with the standby, which lets the bank's key do what the line of docs/operate/backup.md says."""
    keys = Path("/etc/achdesk/keys")
    line = next(it for it in (TOP / "docs/operate/backup.md").read_text().splitlines() if it.startswith('command="rrsync '))
    for user, key, before in (("ach-operator", "sftp", ""), ("standby", "standby", line.partition("ssh-ed25519")[0])):
        installed.done("useradd", "--system", "--home-dir", OPERATOR, "--shell", "/bin/sh", "--password", "*", user, check=True)
        installed.done("ssh-keygen", "-q", "-t", "ed25519", "-N", "", "-f", keys / key, check=True)
        Path(f"/run/{user}.keys").write_text(before + (keys / f"{key}.pub").read_text())
    for folder, user in ((OPERATOR / "files", "ach-operator"), (OPERATOR / "returns", "ach-operator"), (STANDBY, "standby")):
        installed.done("install", "-d", "-o", user, "-m", "755", folder, check=True)
    installed.done("ssh-keygen", "-q", "-t", "ed25519", "-N", "", "-f", "/run/host-key", check=True)
    for name in ("sftp_known_hosts", "standby_known_hosts"):
        (keys / name).write_text(f"[{HOST}]:2022 {Path('/run/host-key.pub').read_text()}")
        (keys / name).chmod(0o644)
    Path("/run/sshd").mkdir(exist_ok=True)
    Path("/run/sshd_config").write_text(f"ListenAddress {HOST}\nPort 2022\nHostKey /run/host-key\nPidFile none\nStrictModes no\nAuthorizedKeysFile /run/%u.keys\n"
                                        "PasswordAuthentication no\nKbdInteractiveAuthentication no\nMaxStartups 100\nSubsystem sftp internal-sftp\n")
    Path("/run/systemd/system/judge-sshd.service").write_text("[Service]\nExecStart=/usr/sbin/sshd -D -e -f /run/sshd_config\n")
    installed.done("systemctl", "daemon-reload", check=True)
    installed.done("systemctl", "start", "judge-sshd", check=True)


def mails():
    return [email.message_from_bytes(path.read_bytes(), policy=email.policy.default) for path in sorted(MAILS.iterdir())]


def new_mails(known, wanted=1, seconds=300):
    """The subjects of mails after the first ones, once there are so many or the time is up."""
    until = time.monotonic() + seconds
    while len(mails()) < known + wanted and time.monotonic() < until:
        time.sleep(0.5)
    return [it["Subject"].strip() for it in mails()[known:]]


def settled(installed):
    """Waits until no unit of alarms works or waits, and none will, since each alarm was delivered."""
    idle = 0
    while idle < 3:
        time.sleep(1)
        is_busy = "achdesk-alarm" in installed.done("systemctl", "list-jobs", "--no-legend")[1] or any(Path("/var/lib/achdesk-alarm/waiting").iterdir())
        idle = 0 if is_busy or "activating" in installed.done("systemctl", "list-units", "achdesk-alarm*.service", "--no-legend", "--all")[1] else idle + 1


def start(installed, name):
    """Starts a unit, and returns how it ended."""
    installed.done("systemctl", "start", name)
    return installed.ended(name)


def drop_in(installed, unit, text):
    folder = Path(f"/run/systemd/system/{unit}.d")
    folder.mkdir(parents=True, exist_ok=True)
    (folder / "judge.conf").write_text(text)
    installed.done("systemctl", "daemon-reload", check=True)


def run_in(installed, unit, command):
    """Runs another command in a service of the package, and returns how it ended."""
    drop_in(installed, unit, f"[Service]\nExecStart=\nExecStart={command}\n")
    ended = start(installed, unit)
    (Path(f"/run/systemd/system/{unit}.d") / "judge.conf").unlink()
    installed.done("systemctl", "daemon-reload", check=True)
    return ended


PROBE = """\
import grp, json, os, pathlib, pwd, socket, sys
def tries(call):
    try:
        call()
        return True
    except OSError:
        return False
def made(path):
    with open(path + "/probe", "w"):
        pass
    os.unlink(path + "/probe")
def reached(family, where):
    with socket.socket(family) as it:
        it.settimeout(3)
        it.connect(where)
folder = os.environ.get("CREDENTIALS_DIRECTORY")
told = {
    "user": pwd.getpwuid(os.geteuid()).pw_name, "groups": sorted(grp.getgrgid(it).gr_name for it in {os.getegid(), *os.getgroups()}),
    "credentials": {it: (pathlib.Path(folder) / it).read_text()[:4] for it in sorted(os.listdir(folder))} if folder else {},
    "writes": [it for it in WRITES if tries(lambda: made(it))], "home": tries(lambda: os.listdir("/home")),
    "local": tries(lambda: reached(socket.AF_INET, ("127.0.0.1", 2022))), "others": tries(lambda: reached(socket.AF_INET, ("10.9.9.9", 2022))),
    "unit": [it.rsplit("/", 1)[1] for it in open("/proc/self/cgroup").read().split()], "processes": sum(it.isdigit() for it in os.listdir("/proc")) > 5,
}
print("PROBED " + json.dumps(told), flush=True)
"""
PLACES = ("/etc/achdesk", "/usr/bin", "/var/lib/achdesk", "/var/lib/achdesk-day", "/var/lib/achdesk-backup", "/var/lib/achdesk-alarm", "/var/lib/achdesk-alarm/waiting",
          "/run/achdesk-alarm", "/var/log/achdesk", "/root", f"{STANDBY}/repository")
WAITING = ["/var/lib/achdesk-alarm/waiting", "/run/achdesk-alarm"]
DAY = ("achdesk-day", ["achdesk", "achdesk-alarm", "achdesk-day", "achdesk-inbox"], ["day", "sftp", "standby"], ["/var/lib/achdesk-day", *WAITING], True, True)
BACKUP = ("achdesk-backup", ["achdesk", "achdesk-alarm"], ["backup", "desk.map", "repository"], ["/var/lib/achdesk-backup", *WAITING, f"{STANDBY}/repository"], True, True)
# Each service: its user, its groups, its credentials, where it writes, and whether it reaches this machine and others.
SANDBOXES = {
    "achdesk.service": ("achdesk", ["achdesk"], [], ["/var/lib/achdesk"], True, False),
    "achdesk-day@watch.service": DAY, "achdesk-day-open.service": DAY, "achdesk-day-cut.service": DAY, "achdesk-day-send.service": DAY,
    # systemd 252 leaves /run as it is for a service with credentials.
    "achdesk-day-metrics.service": (*DAY[:3], ["/var/lib/achdesk-day", "/run/achdesk-alarm"], True, True),
    "achdesk-backup@timer.service": BACKUP, "achdesk-expire.service": (*BACKUP[:2], ["repository"], BACKUP[3], True, True),
    "achdesk-alarm.service": ("achdesk-alarm", ["achdesk-alarm"], ["alarm-authorization", "alarm-mail"], ["/var/lib/achdesk-alarm", *WAITING], True, True),
    "achdesk-alarm@judge.service": ("achdesk-alarm", ["achdesk-alarm", "systemd-journal"], [], ["/var/lib/achdesk-alarm", *WAITING], False, False),
    "achdesk-guard.service": ("achdesk-guard", ["achdesk-guard"], ["desk.map"], [], True, False),
}


def sandboxes(installed, checks):
    """Runs a probe in each service in place of its commands. 10.9.9.9 is an address of this machine that is not localhost."""
    installed.done("ip", "addr", "add", "10.9.9.9/32", "dev", "lo", check=True)
    Path("/run/sshd_config").write_text(Path("/run/sshd_config").read_text().replace(f"ListenAddress {HOST}", "ListenAddress 0.0.0.0"))
    installed.done("systemctl", "restart", "judge-sshd", check=True)
    installed.done("install", "-d", "-m", "777", STANDBY / "repository", check=True)
    probe = Path("/usr/lib/judge-probe.py")
    probe.write_text(PROBE.replace("WRITES", repr(PLACES)))
    for name, (user, groups, credentials, writes, local, others) in SANDBOXES.items():
        unit = "judge-probe@1.service" if "@" in name else "judge-probe.service"
        text = re.sub(r"(?m)^(Exec|On|Restart|StandardOutput)\w*=.*\n", "", (UNITS / re.sub("@.*", "@.service", name)).read_text()).replace("[Service]\n", "[Service]\nType=oneshot\n")
        Path("/run/systemd/system", re.sub("@.*", "@.service", unit)).write_text(text.replace("[Service]\n", f"[Service]\nExecStart=/usr/bin/python3 -I {probe}\n"))
        installed.done("systemctl", "daemon-reload", check=True)
        ended = start(installed, unit)
        time.sleep(1)
        printed = installed.done("journalctl", "--sync", "-u", unit, "-o", "cat", "--no-pager")[1] + installed.done("journalctl", "-u", unit, "-o", "cat", "--no-pager")[1]
        told = json.loads((re.findall(r"PROBED (.*)", printed) or ["{}"])[-1])
        found = tuple(told.get(key) for key in ("user", "groups")) + (sorted(told.get("credentials", {})), told.get("writes"), told.get("local"), told.get("others"))
        checks.that(f"the sandbox of {name}", (ended, found), (("success", "0"), (user, groups, credentials, writes, local, others)))
        checks.that("which sees neither a home nor other processes", (told.get("home"), told.get("processes")), (False, False))
        lacking = [key for key, text in told.get("credentials", {}).items() if text == "none" and key not in ("backup", "alarm-authorization")]
        checks.that("and has the keys that root alone can read", lacking, [])


def rights(installed, checks):
    def may(user, *words):
        return installed.done(*words, user=user)[0] == 0

    files = [it for it in ("/var/lib/achdesk/bank.db", "/var/lib/achdesk/bank.db-wal") if Path(it).exists()]
    readers = {user: [may(user, "test", "-r", path) for path in files] for user in USERS}
    checks.that("the desk's file is read by the desk, the day and the backups", readers, {user: [user in USERS[:3]] * len(files) for user in USERS})
    writers = {user: may(user, "test", "-w", "/var/lib/achdesk/bank.db") or may(user, "touch", "/var/lib/achdesk/other") for user in USERS}
    checks.that("and written by the desk alone", [user for user, it in writers.items() if it], ["achdesk"])
    for path, owner in (("/var/lib/achdesk-day/new", "achdesk-day"), ("/var/lib/achdesk-backup/new", "achdesk-backup"), ("/var/lib/achdesk-alarm/units/new", "achdesk-alarm")):
        checks.that(f"{path} is made by {owner} alone", [user for user in USERS if may(user, "touch", path)], [owner])
    raisers = [user for user in USERS if installed.done("achdesk-alarm", "raise", given="x", user=user)[0] == 0]
    checks.that("alarms are raised by the day, the backups and the alarm itself", raisers, ["achdesk-day", "achdesk-backup", "achdesk-alarm"])
    checks.that("and listed by the alarm alone", [user for user in USERS if may(user, "ls", "/var/lib/achdesk-alarm/waiting")], ["achdesk-alarm"])
    keys = ("day", "sftp", "standby", "repository", "desk.map", "alarm-mail")
    checks.that("no user of a service reads a key", [(user, key) for user in USERS for key in keys if may(user, "test", "-r", f"/etc/achdesk/keys/{key}")], [])
    for path in ("/var/lib/achdesk/other", "/var/lib/achdesk-day/new", "/var/lib/achdesk-backup/new", "/var/lib/achdesk-alarm/units/new"):
        Path(path).unlink(missing_ok=True)
    settled(installed)


def unit(installed, name, command, more=""):
    Path(f"/run/systemd/system/{name}.service").write_text(f"[Unit]\nOnFailure=achdesk-alarm@%n.service\nOnSuccess=achdesk-alarm@over:%n.service\n[Service]\nType=oneshot\n{more}ExecStart={command}\n")
    installed.done("systemctl", "daemon-reload", check=True)
    return installed.done("systemctl", "start", f"{name}.service")[0]


def failures(installed, checks):
    for name, command, more in (("judge-one", "sh -c 'echo what was wrong; exit 1'", ""), ("judge-killed", "sh -c 'kill -9 $$$$'", ""),
                                ("judge-slow", "sleep 100", "TimeoutStartSec=2\n"), ("judge-now", "sh -c 'exit 3'", "")):
        known = len(mails())
        unit(installed, name, command, more)
        new_mails(known)
        settled(installed)
        checks.that(f"{name}, which runs {command}, is one mail", [name in it for it in new_mails(known)], [True])
    texts = "".join(it.get_content() for it in mails() if "judge-one" in it["Subject"])
    checks.that("with the end of its log", ("what was wrong" in texts) or texts, True)
    known = len(mails())
    unit(installed, "judge-three", "sh -c 'exit 3'")
    settled(installed)
    checks.that("status 3 is not mailed before its time", new_mails(known, seconds=5), [])
    unit(installed, "judge-one", "true")
    checks.that("a unit that works again is mailed", new_mails(known), ["[desk-1] OVER: judge-one.service: judge-one.service ended with success again"])
    path = Path("/var/lib/achdesk-alarm/units/judge-three.service.json")
    path.write_text(path.read_text().replace("202", "201"))  # ten years ago
    checks.that("and status 3 at its time, by the timer", ["judge-three" in it for it in new_mails(known + 1)], [True])


def backups(installed, checks):
    known = len(mails())
    checks.that("a backup without a repository fails with status 2", start(installed, "achdesk-backup@timer.service"), ("exit-code", "2"))
    new_mails(known)
    settled(installed)
    checks.that("which is one mail", ["achdesk-backup@timer.service" in it for it in new_mails(known)], [True])
    checks.that("the repository is made", run_in(installed, "achdesk-backup@init.service", "/usr/bin/achdesk-day backup --init"), ("success", "0"))
    checks.that("a backup is made", start(installed, "achdesk-backup@timer.service"), ("success", "0"))
    checks.that("and its repository expires and is checked", start(installed, "achdesk-expire.service"), ("success", "0"))
    checks.that("it has the tag of its unit and the keys of the desk", tags(installed), [["timer"]])


def tags(installed):
    """The tags of the backups in the repository, each of which has the keys of the desk."""
    os.environ["RESTIC_PASSWORD_FILE"] = "/etc/achdesk/keys/repository"
    listed = json.loads(installed.done("restic", "--repo", "/var/lib/achdesk-backup/repository", "snapshots", "--json")[1])
    return [it["tags"] for it in sorted(listed, key=lambda it: it["time"]) if any("desk.map" in path for path in it["paths"])]


def set_synchronised(kind, is_synchronised):
    """What the kernel says of its clock, by adjtimex: ADJ_MAXERROR and ADJ_STATUS of struct timex on x86_64."""
    if kind == "namespaces":
        CLOCK.write_text("yes\n" if is_synchronised else "no\n")
        return
    fields = (ctypes.c_long * 26)()
    fields[0], fields[3], fields[5] = 0x0004 | 0x0010, 0 if is_synchronised else 16_000_000, 0 if is_synchronised else 0x0040
    if ctypes.CDLL(None, use_errno=True).adjtimex(fields) < 0:
        raise OSError(ctypes.get_errno(), "adjtimex")


def clock(installed, checks, kind):
    installed.done("systemctl", "stop", "systemd-timesyncd", "systemd-time-wait-sync")
    set_synchronised(kind, False)
    checks.that("the holidays are set by the unit", run_in(installed, "achdesk-day@holidays.service", "/usr/bin/achdesk-day holidays 2026 2027"), ("success", "0"))
    known = len(mails())
    checks.that("open refuses while the clock is not synchronised", start(installed, "achdesk-day-open.service"), ("exit-code", "1"))
    new_mails(known)
    settled(installed)
    checks.that("which is one mail", ["the clock is not synchronised" in it for it in new_mails(known)], [True])
    if kind != "namespaces":
        waits_for_time(installed, checks)
    set_synchronised(kind, True)
    checks.that("it sets the day once the clock is synchronised", (start(installed, "achdesk-day-open.service"), installed.status()["day"]), (("success", "0"), TODAY))


def waits_for_time(installed, checks):
    installed.done("systemctl", "stop", "time-sync.target")  # as after a boot: an earlier `open` has reached it
    Path("/run/systemd/timesync").mkdir(exist_ok=True)  # as systemd-timesyncd makes it when it starts
    installed.done("systemctl", "start", "--no-block", "systemd-time-wait-sync.service")
    installed.done("systemctl", "start", "--no-block", "achdesk-day-open.service")
    time.sleep(20)
    jobs = installed.done("systemctl", "list-jobs", "--no-legend")[1]
    checks.that("its unit waits for time-sync.target", (bool(re.search(r"achdesk-day-open.service +start +waiting", jobs)), bool(re.search(r"systemd-time-wait-sync.service +start +running", jobs))), (True, True))
    Path("/run/systemd/timesync/synchronized").touch()


def waits_for_desk(installed, checks):
    installed.done("systemctl", "stop", "achdesk")
    subprocess.Popen(["sh", "-c", "sleep 25; systemctl start achdesk"])
    began = time.monotonic()
    ended = start(installed, "achdesk-day-open.service")
    checks.that("open waits for a desk that takes long to open", (ended, time.monotonic() - began > 20), (("success", "0"), True))


def day(installed, checks):
    waits_for_desk(installed, checks)
    installed.done("systemctl", "start", "nginx")
    answers = [installed.ask("POST", "/ops/companies", installed.MILL)[0], installed.submit("PAY-1", 2, TOMORROW)]
    checks.that("a company submits", answers, [201, 201])
    for name in ("fetch", "returns", "watch", "copy"):
        checks.that(f"achdesk-day@{name} works", start(installed, f"achdesk-day@{name}.service"), ("success", "0"))
    checks.that("the afternoon's unit cuts, backs up, transmits and reports", start(installed, "achdesk-day-cut.service"), ("success", "0"))
    name = f"{TODAY}-A.ach"
    files = [path for path in (OPERATOR / "files" / name, STANDBY / "state/outgoing" / name, Path("/var/lib/achdesk-day/outgoing") / name)]
    checks.that("the ACH operator, the standby and the archive have the file", len({it.read_bytes() if it.exists() else None for it in files} - {None}) == 1 and all(it.exists() for it in files))
    checks.that("the backup after the cut has its tag", tags(installed)[-1:], [["cut"]])
    checks.that("the report is written", Path(f"/var/lib/achdesk-day/reports/{TODAY}.txt").exists())
    checks.that("the transmission's unit finds nothing left", start(installed, "achdesk-day-send.service"), ("success", "0"))
    checks.that("the backup expires", start(installed, "achdesk-expire.service"), ("success", "0"))
    left = (STANDBY / "state/day.journal").read_bytes()
    checks.that("the standby has the journal", Path("/var/lib/achdesk-day/day.journal").read_bytes().startswith(left) and b'"did": "sent"' in left)


def mailed_once(installed, checks, what, name, ended, word):
    """Starts a unit that fails, which has to be one mail with a word in it."""
    known = len(mails())
    checks.that(what, start(installed, name), ended)
    new_mails(known)
    settled(installed)
    checks.that("which is one mail", [word in it["Subject"] + it.get_content() for it in mails()[known:]] or ["none"], [True])


def once(installed, checks):
    """Status 1 is mailed by the program, status 2 by its unit, and status 3 by its unit after a time: each once."""
    (Path("/var/lib/achdesk-day/inbox") / "returns-1.ach").write_text("this is no file of returns\n")
    mailed_once(installed, checks, "returns refuses a file", "achdesk-day@returns.service", ("exit-code", "1"), "the incoming file returns-1.ach was refused")
    known = len(mails())
    checks.that("the next run works", start(installed, "achdesk-day@returns.service"), ("success", "0"))
    settled(installed)
    checks.that("and takes back nothing", new_mails(known, seconds=3), [])
    checks.that("a company submits again", installed.submit("PAY-2", 1, TOMORROW), 201)
    installed.done("systemctl", "stop", "judge-sshd")
    checks.that("a server that is down ends the afternoon with status 3", start(installed, "achdesk-day-cut.service"), ("exit-code", "3"))
    settled(installed)
    checks.that("which is not mailed before its time", new_mails(known, seconds=3), [])
    path = Path("/var/lib/achdesk-alarm/units/achdesk-day-cut.service.json")
    path.write_text(path.read_text().replace("2026", "2016"))
    new_mails(known)
    settled(installed)
    checks.that("and once then", ["achdesk-day-cut.service" in it for it in new_mails(known)], [True])
    hosts = Path("/etc/achdesk/keys/sftp_known_hosts")
    right = hosts.read_text()
    installed.done("ssh-keygen", "-q", "-t", "ed25519", "-N", "", "-f", "/run/other-key", check=True)
    hosts.write_text(f"[{HOST}]:2022 {Path('/run/other-key.pub').read_text()}")
    installed.done("systemctl", "start", "judge-sshd", check=True)
    mailed_once(installed, checks, "a changed host key ends the transmission with status 2", "achdesk-day-send.service", ("exit-code", "2"), "does not let achdesk-day in, or is another one")
    hosts.write_text(right)
    mailed_once(installed, checks, "with the right one it works", "achdesk-day-send.service", ("success", "0"), "OVER: achdesk-day-send.service")
    checks.that("and once more", installed.submit("PAY-3", 1, TOMORROW), 201)
    repository = Path("/var/lib/achdesk-backup/repository")
    repository.rename(repository.with_name("elsewhere"))
    mailed_once(installed, checks, "a backup that fails ends the afternoon with status 3", "achdesk-day-cut.service", ("exit-code", "3"), "achdesk-backup@cut.service")
    repository.with_name("elsewhere").rename(repository)
    checks.that("a later backup counts", (start(installed, "achdesk-backup@timer.service"), start(installed, "achdesk-day-send.service")), (("success", "0"),) * 2)
    checks.that("each file was transmitted once", sorted(it.name for it in (OPERATOR / "files").iterdir()), [f"{TODAY}-{it}.ach" for it in "ABC"])


def others(installed, checks):
    folder = Path("/var/lib/achdesk/two")
    installed.done("install", "-d", "-o", "achdesk", "-g", "achdesk", "-m", "750", folder, check=True)
    Path("/etc/achdesk/two.env").write_text(Path("/etc/achdesk/achdesk.env").read_text().replace("880", "881"))
    installed.make_desk(folder / "bank.db")
    installed.done("systemctl", "start", "achdesk@two", check=True)
    checks.that("a second desk answers", installed.wait_for_desk(port=881))
    before = {name: installed.done("systemctl", "show", name, "--property=MainPID", "--value")[1] for name in ("achdesk", "achdesk@two")}
    checks.that("the guard finds a desk that is well", start(installed, "achdesk-guard.service"), ("success", "0"))
    checks.that("the nightly restart restarts both", start(installed, "achdesk-restart.service"), ("success", "0"))
    checks.that("and they answer", (installed.wait_for_desk(), installed.wait_for_desk(port=881)), (True, True))
    after = {name: installed.done("systemctl", "show", name, "--property=MainPID", "--value")[1] for name in before}
    checks.that("as new processes", [name for name in before if before[name] == after[name]], [])
    keys = Path("/etc/achdesk/two/keys")
    keys.mkdir(parents=True, mode=0o700)
    shutil.copy("/etc/achdesk/keys/desk.map", keys)
    checks.that("its guard finds it well", start(installed, "achdesk-guard@two.service"), ("success", "0"))
    installed.done("systemctl", "stop", "achdesk@two")
    collected = Path("/var/lib/prometheus/node-exporter")
    installed.done("install", "-d", "-o", "achdesk-day", "-m", "755", collected, check=True)
    checks.that("the metrics are written", (start(installed, "achdesk-day-metrics.service"), "\nachdesk_up 1\n" in (collected / "achdesk.prom").read_text()), (("success", "0"), True))


def begins(installed, timer):
    """The moments of a weekday at which a timer elapses, by systemd."""
    words = re.findall(r"(?m)^OnCalendar=(.*)$", (UNITS / timer.replace("@two.", "@.")).read_text())
    most = 150 if "America/" in "".join(words) else 2000  # systemd makes a process for each moment of another time zone
    printed = installed.done("systemd-analyze", "calendar", f"--iterations={most}", "--base-time=2026-12-02 05:00 UTC", *words, check=True)[1]
    found = re.findall(r"(?m)^ *(?:Next elapse|Iter\. #\d+|Iteration #\d+): \w+ (\d{4}-\d\d-\d\d \d\d:\d\d:\d\d) UTC", printed)
    return [it for it in found if "2026-12-02 05:00:00" <= it < "2026-12-03 05:00:00"]


def is_started(installed, timer, unit):
    """Sets the clock to two seconds before a timer elapses, and returns whether its unit is started then."""
    def shown(name, key):
        return installed.done("systemctl", "show", name, f"--property={key}", "--value", check=True)[1].strip()

    before = shown(unit, "InvocationID")
    elapses = datetime.datetime.strptime(shown(timer, "NextElapseUSecRealtime"), "%a %Y-%m-%d %H:%M:%S UTC").replace(tzinfo=datetime.UTC)
    installed.done("date", "-s", f"@{int(elapses.timestamp()) - 2}", check=True)
    until = time.monotonic() + 300
    while shown(unit, "InvocationID") == before and time.monotonic() < until:
        time.sleep(0.5)
    return shown(unit, "InvocationID") != before


def timers(installed, checks, kind):
    os.environ["TZ"] = "UTC"
    names = sorted(it.name.replace("@.", "@two.") for it in UNITS.glob("achdesk-*.timer") if it.name != "achdesk-standby.timer")
    at = {name: begins(installed, name) for name in names}
    checks.that("each timer elapses on a weekday", [name for name, it in at.items() if not it], [])
    often = [name for name, it in at.items() if len(it) >= 1440]
    checks.that("those of every minute", often, ["achdesk-alarm.timer", "achdesk-day-copy.timer", "achdesk-day-metrics.timer", "achdesk-guard.timer", "achdesk-guard@two.timer"])
    checks.that("have seconds of their own", len({at[name][0][-2:] for name in often}), len(often))
    minutes = [(moment[:16], name) for name, it in at.items() if name not in often for moment in it]
    checks.that("no two of the others begin in one minute", sorted({one for one, _ in minutes if sum(it == one for it, _ in minutes) > 1}), [])
    first = {name: it[0] for name, it in at.items()}
    checks.that("the day is opened before anything is taken or cut", all(first["achdesk-day-open.timer"] < first[f"achdesk-day-{it}.timer"] for it in ("fetch", "returns", "cut", "watch")))
    cut = first["achdesk-day-cut.timer"]
    later = min(it for it in at["achdesk-day-send.timer"] if it > cut)
    checks.that("after the cut there is a backup before the next transmission", any(cut < it < later for it in at["achdesk-backup.timer"]), True)
    for name in names:
        installed.done("systemctl", "start", name)
        shown = installed.done("systemctl", "show", name, "--property=ActiveState", "--property=Unit", "--property=NextElapseUSecRealtime", "--value")[1].split("\n")
        target = next((it for it in shown if it.endswith(".service")), "")
        checks.that(f"{name} is active, and its unit is {target}", ("active" in shown, installed.done("systemctl", "cat", target)[0]), (True, 0))
        if kind != "namespaces":
            checks.that("which starts when it elapses", is_started(installed, name, target))
            installed.done("systemctl", "stop", name, target)


PARTS = {it.__name__: it for it in (sandboxes, rights, failures, backups, clock, day, once, others, timers)}


def inside(kind, words):
    from helpers import installed
    installed.install()
    checks = Checks()
    configure(installed, kind)
    installed.make_desk()
    installed.done("systemctl", "start", "achdesk", check=True)
    checks.that("the desk starts", installed.wait_for_desk())
    for name in words or PARTS:
        print(f"---- {name}", flush=True)
        try:
            PARTS[name](installed, checks, *([kind] if name in ("clock", "timers") else []))
        except (OSError, ValueError) as fault:
            checks.that(f"{name} comes to its end", repr(fault), "")
    if checks.failed:
        print("".join(f"        {it['Subject']}\n" for it in mails()), end="")
        print(installed.done("journalctl", "--no-pager", "-o", "short-monotonic", "-u", "achdesk*", "-u", "judge-*")[1][-20_000:])
    print(f"{checks.count} checks, {checks.failed} failed", flush=True)
    sys.exit(1 if checks.failed else 0)


# ---- on the host

def main():
    from helpers import installed, machine, namespaces, user_mode
    kinds = {"--machine": (machine, machine.Machine), "--user-mode": (user_mode, user_mode.UserMode)}
    kind, made = next((kinds[it] for it in sys.argv[1:] if it in kinds), (namespaces, namespaces.Namespaces))
    told = [it for it in sys.argv[1:] if it not in kinds]
    words = [it for it in told if it in PARTS]
    lacking = kind.missing() + [package for name, package in (("restic", "restic"), ("openssl", "openssl"), ("make", "make"), ("rrsync", "rsync"), ("/usr/sbin/sshd", "openssh-server"), ("/usr/sbin/nginx", "nginx"))
                                   if not shutil.which(name)]
    lacking += [] if subprocess.run(["/usr/bin/python3", "-c", "import aiosmtpd"], capture_output=True).returncode == 0 else ["python3-aiosmtpd"]
    if lacking:
        print(f"not tried: it needs {', '.join(lacking)}")
        sys.exit(2)
    if kind is namespaces and NOW_THERE.weekday() > 4:
        print("not tried: today is not a banking day, and only --machine and --user-mode have a clock of their own")
        sys.exit(2)
    signal.signal(signal.SIGTERM, lambda *_: sys.exit(1))  # ends what it started too
    program = program_of([it for it in told if it not in PARTS])
    with tempfile.TemporaryDirectory(prefix="judge-units-") as folder:
        installed.tree(Path(folder) / "tree", program)
        with made(folder) as it:
            script = f"cd {Path(__file__).resolve().parent} && exec /usr/bin/python3 units.py --inside {kind.__name__.rpartition('.')[2]} {' '.join(words)}\n"
            printed, status = it.run(script, 5400, clock=NOW)
        print(printed, end="")
        if status is None:
            print("systemd did not end:", (Path(folder) / "console").read_text(errors="replace")[-2000:])
        sys.exit(0 if status == 0 else 1)


if __name__ == "__main__":
    inside(sys.argv[2], sys.argv[3:]) if sys.argv[1:2] == ["--inside"] else main()
