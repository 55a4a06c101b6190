#!/usr/bin/env python3
"""The check of a replicated device, `deploy/standby/achdesk-standby`, on texts of /proc/drbd: `python3 judge/standby_states.py`.

The texts are those of DRBD 8.4.11 on Debian 12, in each state that a machine passes through. Also: the group of
`deploy/standby/cluster.crm` has each shipped timer and each folder of the page, and writes wait for as long as fencing may take.
No machine is needed.
"""

import re
import subprocess
import sys
import tempfile
from pathlib import Path

from helpers.running import TOP, Checks

CHECK = TOP / "deploy" / "standby" / "achdesk-standby"
HEAD = "version: 8.4.11 (api:1/proto:86-101)\nsrcversion: F73C670A7EC572DB9CF3E5B \n"
COUNTS = "    ns:25016 nr:0 dw:0 dr:25016 al:8 bm:0 lo:0 pe:1 ua:0 ap:0 ep:1 wo:f oos:"
# The line of the device and its bytes behind in KiB; whether it serves, is connected, has all writes, its peer has; bytes.
STATES = (
    ("both have all writes, serving", " 0: cs:Connected ro:Primary/Secondary ds:UpToDate/UpToDate C r-----", 0, (1, 1, 1, 1, 0)),
    ("both have all writes, not serving", " 0: cs:Connected ro:Secondary/Primary ds:UpToDate/UpToDate C r-----", 0, (0, 1, 1, 1, 0)),
    ("the peer is away", " 0: cs:WFConnection ro:Primary/Unknown ds:UpToDate/Outdated C r-----", 512, (1, 0, 1, 0, 524288)),
    ("the peer is lost, and not known to be behind", " 0: cs:WFConnection ro:Secondary/Unknown ds:UpToDate/DUnknown C r-----", 0, (0, 0, 1, 0, 0)),
    ("the peer is being synced", " 0: cs:SyncSource ro:Primary/Secondary ds:UpToDate/Inconsistent C r-----", 237524, (1, 1, 1, 0, 243224576)),
    ("this disk is being synced", " 0: cs:SyncTarget ro:Secondary/Primary ds:Inconsistent/UpToDate C r-----", 4, (0, 1, 0, 1, 4096)),
    ("this disk failed", " 0: cs:Connected ro:Primary/Secondary ds:Diskless/UpToDate C r-----", 0, (1, 1, 0, 1, 0)),
    ("writes wait for fencing", " 0: cs:NetworkFailure ro:Primary/Unknown ds:UpToDate/DUnknown C s-----", 0, (1, 0, 1, 0, 0)),
    ("both were written to", " 0: cs:StandAlone ro:Primary/Unknown ds:UpToDate/DUnknown   r-----", 8, (1, 0, 1, 0, 8192)),
    ("a device that is not set up", " 0: cs:Unconfigured", None, (0, 0, 0, 0, 0)),
    ("no device", "", None, (0, 0, 0, 0, 0)),
    ("another device alone", " 1: cs:Connected ro:Primary/Secondary ds:UpToDate/UpToDate C r-----", 0, (0, 0, 0, 0, 0)),
)
ATTEMPTS = 10  # to fence, by Pacemaker's default
ORDER = ["files", "desk", "proxy", "address", "alarms", "timer"]  # of the kinds of the group's members
NAMES = ("serving", "connected", "disk_up_to_date", "peer_up_to_date", "behind_bytes")


def run(*words):
    done = subprocess.run([sys.executable, CHECK, *map(str, words)], stdout=subprocess.PIPE, stderr=subprocess.PIPE, text=True)
    return done.returncode, done.stdout, done.stderr


def values(text):
    """The values of an exposition, in the order of NAMES, and how many values and types it has."""
    lines = [line for line in text.splitlines() if not line.startswith("#")]
    found = dict(line.rsplit(" ", 1) for line in lines)
    kinds = [line for line in text.splitlines() if line.startswith("# TYPE") and line.endswith(" gauge")]
    return tuple(int(found.get(f"achdesk_standby_{name}", -1)) for name in NAMES), len(lines), len(kinds)


def check_states(checks, proc):
    for what, line, behind, wanted in STATES:
        proc.write_text(HEAD + (f"{line}\n" if line else "") + ("" if behind is None else f"{COUNTS}{behind}\n"))
        status, printed, _ = run("--proc", proc, "metrics")
        checks.that(f"metrics: {what}", (status, *values(printed)), (0, wanted, 5, 5))
        whole = wanted[1:4] == (1, 1, 1)
        status, printed, _ = run("--proc", proc, "status")
        checks.that(f"status: {what}", (status, "both disks have all writes" in printed), (0 if whole else 1, whole))
    proc.write_text(f"{HEAD}{STATES[1][1]}\n{COUNTS}0\n 1: cs:WFConnection ro:Primary/Unknown ds:UpToDate/Outdated C r-----\n{COUNTS}4\n")
    checks.that("the second of two devices", values(run("--proc", proc, "--minor", 1, "metrics")[1])[0], (1, 0, 1, 0, 4096))
    checks.that("the first of two devices", values(run("--proc", proc, "metrics")[1])[0], (0, 1, 1, 1, 0))


def check_files(checks, folder, proc):
    output = folder / "achdesk-standby.prom"
    checks.that("a file is written", run("--proc", proc, "metrics", "--output", output), (0, "", ""))
    checks.that("the file", values(output.read_text())[0], (0, 1, 1, 1, 0))
    checks.that("the file can be read by all", output.stat().st_mode & 0o777, 0o644)
    checks.that("nothing is left next to it", sorted(it.name for it in folder.iterdir()), ["achdesk-standby.prom", "drbd"])
    status, _, errors = run("--proc", proc, "metrics", "--output", folder / "none" / "a.prom")
    checks.that("a folder that is missing", (status, "No such file" in errors), (3, True))
    checks.that("DRBD is not loaded", values(run("--proc", folder / "none", "metrics")[1])[0], (0, 0, 0, 0, 0))
    checks.that("DRBD cannot be read", run("--proc", folder, "status")[0], 3)
    checks.that("no command", run()[0], 2)


def check_group(checks):
    """What belongs to a desk is on the device, and all that writes to it runs where the device is writable, and nowhere else."""
    text = (TOP / "deploy" / "standby" / "cluster.crm").read_text().replace("\\\n", " ")
    primitives = dict(re.findall(r"^primitive (\S+) (\S+)", text, re.M))
    members = re.search(r"^group bank (.*?) meta ", text, re.M)[1].split()
    shipped = {it.name for it in (TOP / "deploy").iterdir() if it.suffix in (".service", ".timer", ".path")}
    units = {name.removeprefix("systemd:") for it, name in primitives.items() if it in members and name.startswith("systemd:")}
    checks.that("all that has a place of its own is in the group", sorted(set(primitives) - set(members)), ["disk", "fence-desk1", "fence-desk2"])
    checks.that("units of the group that are not shipped", sorted(it for it in units - {"achdesk", "nginx"} if it not in shipped), [])
    checks.that("timers and paths that are not in the group", sorted(it for it in shipped - units if not it.endswith(".service")), ["achdesk-day-copy.timer", "achdesk-guard@.timer"])
    page = (TOP / "docs" / "operate" / "standby.md").read_text()
    folders = re.findall(r"^\| `(/\S+)` \| `(\w+)`:", page, re.M)
    binds = re.findall(r"device=/srv/achdesk/(\w+) directory=(\S+) fstype=none options=bind", text)
    checks.that("the folders of the page are those of the group", sorted(binds), sorted((name, folder) for folder, name in folders))
    checks.that("folders come before the desk, the desk before its timers", [it.split("-")[0] for it in members], sorted((it.split("-")[0] for it in members), key=ORDER.index))


def check_fencing(checks):
    """A machine that writes and has lost its peer waits for longer than all attempts of Pacemaker to switch one of both off."""
    folder = TOP / "deploy" / "standby"
    handler = re.search(r'fence-peer +"\S+ --timeout=(\d+) --dc-timeout=(\d+)"', (folder / "achdesk.res").read_text())
    attempt = re.search(r"stonith-timeout=(\d+)s", (folder / "cluster.crm").read_text())
    checks.that("writes wait for fencing", bool(handler) and int(handler[1]) > ATTEMPTS * int(attempt[1]), True)
    checks.that("and for the cluster to elect who decides", bool(handler) and int(handler[2]) > int(handler[1]), True)


def main():
    checks = Checks()
    check_group(checks)
    check_fencing(checks)
    with tempfile.TemporaryDirectory() as name:
        check_states(checks, Path(name) / "drbd")
        check_files(checks, Path(name), Path(name) / "drbd")
    checks.end()


main()
