#!/usr/bin/env python3
"""Tests the files of deploy/ against the real nginx, systemd, logrotate and dpkg: `python3 judge/deploy.py [PROGRAM] [PART ..]`.

PROGRAM is the built program if it is left out. The parts, all if none is named:

    units    each unit by `systemd-analyze verify` and `security` (exposure at most 2.0); the two of a desk differ in names alone
    start    the ExecStart of the unit as another user, with its limits and its one capability, on a port below 1024
    proxy    the site of nginx: keys, roles, each error in the desk's form, headers, the console, the log
    keys     keys in files of mode 0600, rotated and shut by a reload, compared with case
    limits   guesses, a company, an address, half requests; 300 hostile clients next to a polite one: figures
    second   the README's commands for a second desk, and the site in Debian's own nginx.conf
    firewall the rules of nftables, in a network of their own: connections of one address, users that reach the desk
    log      logrotate's debug run, and a rotation while nginx serves
    manual   the manual pages, by man without a warning
    package  `make install`, `make uninstall`, `make deb`; lintian; the package installed, upgraded, removed and purged by `dpkg --root`;
             the links of the installed pages
    debian   the package in a Debian of its own, with apt and nginx; it needs debootstrap and a mirror, and runs only if it is named

It needs Debian's packages nginx, openssl, logrotate, nftables, iproute2, lintian, man-db, make, strace and systemd, and root. If one is missing it names it,
with status 2. The last line counts the checks; the status is 1 where one failed.
"""

import http.client
import json
import multiprocessing
import os
import re
import shutil
import signal
import socket
import stat
import statistics
import subprocess
import sys
import tempfile
import threading
import time
from pathlib import Path

from helpers.proxy import LOGGED, Proxy, site
from helpers.running import HOST, MILL, MILL_KEY, OPERATOR_KEY, TOP, Checks, Serving, connect, free_port, make_desk, message, program_of, read_answer

DEPLOY = TOP / "deploy"
PACKAGES = {"nginx": "nginx", "openssl": "openssl", "logrotate": "logrotate", "man": "man-db", "make": "make", "strace": "strace",
            "nft": "nftables", "ip": "iproute2", "unshare": "util-linux", "systemd-analyze": "systemd", "setpriv": "util-linux", "dpkg-deb": "dpkg", "lintian": "lintian"}
PATHS = f"{os.environ.get('PATH', '')}:/usr/sbin:/sbin"
USER, OTHER = 64_801, 64_802  # two users of the machine that have nothing
NET_BIND_SERVICE = 1 << 10
MAX_BODY = 4_194_304
ALICE, WATCHER, PAYROLL = "alice-key-1", "watch-key-1", "payroll-key-1"
PEOPLE = {ALICE: "operator:alice", WATCHER: "monitor:prometheus"}
COMPANIES = {PAYROLL: "MILL01:payroll"}
DESK_KEYS = {"operator": OPERATOR_KEY, "MILL01": MILL_KEY}


def missing():
    """What is not on this machine, by the names of Debian's packages."""
    return sorted({package for program, package in PACKAGES.items() if shutil.which(program, path=PATHS) is None})


def said(*words, **how):
    """What a command prints, and its status."""
    done = subprocess.run([str(it) for it in words], stdout=subprocess.PIPE, stderr=subprocess.STDOUT, text=True, timeout=600, **how)
    return done.stdout, done.returncode


def mode_of(path):
    return oct(stat.S_IMODE(os.lstat(path).st_mode))


# ---- units

def unit(name):
    """The settings of a unit, each with its values in order."""
    found = {}
    for line in (DEPLOY / name).read_text().splitlines():
        if "=" in line and not line.startswith("#"):
            setting, _, value = line.partition("=")
            found.setdefault(setting, []).append(value)
    return found


def units(checks, program, folder):
    root = folder / "root"
    places = root / "etc/systemd/system"
    places.mkdir(parents=True)
    names = sorted(it.name for kind in ("service", "timer", "path") for it in DEPLOY.glob(f"*.{kind}"))
    for name in names:
        text = (DEPLOY / name).read_text()
        (places / name).write_text(re.sub(r"/usr/bin/achdesk(-day|-alarm|-guard)?(?= )", program, text))
    paths = {"SYSTEMD_UNIT_PATH": f"{places}:/usr/lib/systemd/system"}
    for name in names:
        where = str(places / name.replace("@.", "@two."))
        if "@." in name:
            shutil.copy(places / name, where)
        checks.that(f"systemd-analyze verify {name}", said("systemd-analyze", "verify", "--man=no", where, env=os.environ | paths), ("", 0))
        if name.endswith(".service"):
            printed = said("systemd-analyze", "security", "--offline=true", where, env=os.environ | paths)[0]
            exposure = re.search(r"exposure level for \S+: ([\d.]+)", printed)
            checks.that(f"the exposure of {name} is at most 2.0: {exposure and exposure[1]}", bool(exposure) and float(exposure[1]) <= 2.0)
    failures(checks, [it for it in names if it.endswith(".service")])
    moments(checks, [it for it in names if it.endswith(".timer")])
    one, many = ((DEPLOY / name).read_text().partition("[Unit]")[2] for name in ("achdesk.service", "achdesk@.service"))
    made = (one.replace("Description=ACH desk", "Description=ACH desk %i").replace("/bank.db", "/%i/bank.db").replace("size of /%i/bank.db", "size of bank.db")
            .replace("StateDirectory=achdesk\n", "StateDirectory=achdesk/%i\n").replace("achdesk.env", "%i.env").replace("edit achdesk,", "edit achdesk@NAME,"))
    checks.that("achdesk@.service is achdesk.service with other names", many, made)
    one, many = ((DEPLOY / name).read_text().partition("[Unit]")[2] for name in ("achdesk-guard.service", "achdesk-guard@.service"))
    made = (one.replace("Description=ACH desk", "Description=ACH desk %i").replace("achdesk.service", "achdesk@%i.service").replace("achdesk.env", "%i.env")
            .replace("/etc/achdesk/keys", "/etc/achdesk/%i/keys"))
    checks.that("achdesk-guard@.service is achdesk-guard.service with other names", many, made)


def failures(checks, services):
    """No unit fails silently: each names the alarm, but for the alarm itself, and one that ends names it for its success too."""
    alarm = ["achdesk-alarm@%n.service"]
    own = ("achdesk-alarm.service", "achdesk-alarm@.service")
    checks.that("each unit has OnFailure= to the alarm", [it for it in services if it not in own and unit(it).get("OnFailure") != alarm], [])
    ending = [it for it in services if unit(it).get("Type") == ["oneshot"] and it not in own]
    checks.that("each unit that ends has another OnSuccess= to it", [it for it in ending if unit(it).get("OnSuccess") != ["achdesk-alarm@over:%n.service"]], [])
    checks.that("the alarm's own units name none, which would go round", [it for it in own if "OnFailure" in unit(it)], [])
    users = {it: unit(it).get("User", ["root"])[0] for it in services}
    checks.that("the desk, the day, the backups, the alarms and the look at the desk are different users",
                {it: users[it] for it in ("achdesk.service", "achdesk-day-cut.service", "achdesk-day@.service", "achdesk-backup@.service", "achdesk-alarm@.service", "achdesk-guard.service")},
                {"achdesk.service": "achdesk", "achdesk-day-cut.service": "achdesk-day", "achdesk-day@.service": "achdesk-day", "achdesk-backup@.service": "achdesk-backup",
                 "achdesk-alarm@.service": "achdesk-alarm", "achdesk-guard.service": "achdesk-guard"})
    checks.that("root runs the restart alone", [it for it, user in users.items() if user == "root"], ["achdesk-restart.service"])
    commands = {it: [line.split()[1:3] for line in unit(it)["ExecStart"] if "achdesk-day " in line] for it in services if it.startswith("achdesk-day-") or it.startswith("achdesk-backup")}
    known = set(re.findall(r"^    \"([a-z-]+)\": \(\"", (DEPLOY / "achdesk_day/words.py").read_text(), re.M))
    options = set(re.findall(r"\"(--[a-z-]+)\"", (DEPLOY / "achdesk_day/words.py").read_text()))
    unknown = [(it, word) for it, lines in commands.items() for line in lines for word in line if word not in known | options and word != "%i"]
    checks.that("each command of a unit is one of achdesk-day", unknown, [])
    made = set(re.findall(r"^u (\S+)", (DEPLOY / "sysusers.conf").read_text(), re.M))
    checks.that("each user is made", sorted(set(users.values()) - {"root"} - made), [])
    bounded = ("MemoryMax", "MemorySwapMax", "CPUWeight", "IOWeight")
    checks.that("backups are bounded in memory, processors and disk", [it for it in bounded if it not in unit("achdesk-backup@.service")], [])
    for name in (it for it in services if it.startswith("achdesk-day")):
        checks.that(f"{name} starts after the network and the proxy", all(f"{it}" in " ".join(unit(name)[key]) for it in ("network-online.target", "nginx.service") for key in ("Wants", "After")))
    checks.that("the day is set with a clock that is synchronized", "time-sync.target" in unit("achdesk-day-open.service")["Wants"][0] and "time-sync.target" in unit("achdesk-day-open.service")["After"][0])


def moments(checks, timers):
    """The moments of the timers, of which those with a lock never fall into the same minute, on a Tuesday."""
    minutes = {}
    for name in timers:
        for moment in unit(name).get("OnCalendar", []):
            printed, status = said("systemd-analyze", "calendar", "--base-time=2026-12-01 00:00:00", "--iterations=1500", moment, env=os.environ | {"TZ": "America/New_York"})
            checks.that(f"the moments of {name}: {moment}", status, 0)
            found = set(re.findall(r"(?:Next elapse|Iter\. #\d+): \w+ 2026-12-01 (\d\d:\d\d):\d\d", printed))
            minutes[name] = minutes.get(name, set()) | found
    locking = [it for it in timers if len(minutes[it]) < 1000]  # those of every minute take a lock for a moment alone
    pairs = {(one, other): sorted(minutes[one] & minutes[other])[:3] for one in locking for other in locking if one < other and minutes[one] & minutes[other]}
    checks.that(f"no two of {len(locking)} timers fall into one minute", (len(locking) > 6, pairs), (True, {}))


# ---- the ExecStart of the unit

def bytes_of(text):
    return int(text[:-1]) << {"K": 10, "M": 20, "G": 30}[text[-1]] if text[-1] in "KMG" else int(text)


def command_of(program, path, port, limit=None):
    """The words that start the desk as the unit does: the same limits, rights and options, as the user USER."""
    it = unit("achdesk.service")
    environment = dict(line.split("=", 1) for line in (DEPLOY / "achdesk.env").read_text().splitlines() if not line.startswith("#"))
    words = it["ExecStart"][0].replace("/usr/bin/achdesk", program).replace("/var/lib/achdesk/bank.db", str(path))
    words = words.replace("$DESK_PORT", str(port)).replace("$DESK_OPTIONS", environment["DESK_OPTIONS"]).split()
    rights = it["AmbientCapabilities"][0].lower().replace("cap_", "-all,+")
    limits = [f"--as={limit or bytes_of(it['LimitAS'][0])}", f"--core={it['LimitCORE'][0]}"]
    return ["setpriv", f"--reuid={USER}", f"--regid={USER}", "--clear-groups", "--no-new-privs", f"--inh-caps={rights}", f"--ambient-caps={rights}",
            f"--bounding-set={rights}", "prlimit", *limits, "env", "-i", *it["Environment"], *words]


def low_port():
    """A port below 1024 that nobody listens on."""
    for port in range(880, 1024):
        with socket.socket() as it:
            try:
                it.bind((HOST, port))
                return port
            except OSError:
                continue
    sys.exit("no port below 1024 is free")


class Started:
    """A desk that was started by some words, as the unit starts it."""

    def __init__(self, words, port):
        self.port = port
        self.process = subprocess.Popen(words, stdout=subprocess.PIPE, stderr=subprocess.STDOUT, preexec_fn=lambda: os.umask(0o077))
        self.line = self.process.stdout.readline()

    def ask(self, sent, seconds=60):
        with connect(self.port) as it, it.makefile("rb") as reader:
            it.settimeout(seconds)
            it.sendall(sent)
            return read_answer(reader)

    def field(self, name, file="status"):
        return next((line[len(name):].lstrip(":").split() for line in Path(f"/proc/{self.process.pid}/{file}").read_text().splitlines() if line.startswith(name)), [])

    def largest_size(self):
        """The most bytes of address space that it has had."""
        return int(self.field("VmPeak")[0]) << 10

    def __enter__(self):
        return self

    def __exit__(self, *_):
        self.process.kill()
        self.process.wait()
        self.process.stdout.close()


def desk_of_user(program, folder, name):
    """A new desk's file that belongs to USER, in a folder of its own."""
    home = folder / name
    home.mkdir(mode=0o700)
    make_desk(program, home / "bank.db")
    for path in (home, *home.iterdir()):
        os.chown(path, USER, USER)
    return home / "bank.db"


def large_body():
    """A body of almost 4,194,304 bytes whose JSON takes the most memory of those that were tried: arrays of one value in
    arrays, as deep as the desk reads them, again and again."""
    deep = b"[" * 125 + b"0" + b"]" * 125
    return b'{"a":[' + (deep + b",") * ((MAX_BODY - 10) // (len(deep) + 1)) + b"0]}"


def memory_of_a_body():
    """The bytes that a body takes at most, by docs/operate/capacity.md."""
    return int(re.search(r"(\d+) MB for 4 MiB", (TOP / "docs" / "operate" / "capacity.md").read_text())[1]) * 1_000_000


def start(checks, program, folder):
    for it in (folder, *folder.parents):
        if it != Path("/") and not os.stat(it).st_mode & 0o001:
            it.chmod(0o711)
    path, port = desk_of_user(program, folder, "started"), low_port()
    if not os.access(program, os.X_OK) or said("setpriv", f"--reuid={USER}", f"--regid={USER}", "--clear-groups", "env", program, "--version")[1]:
        program = str(shutil.copy(program, folder / "achdesk"))
    words, limit = command_of(program, path, port), bytes_of(unit("achdesk.service")["LimitAS"][0])
    with Started(words, port) as desk:
        checks.that("it listens on a port below 1024", desk.line, f"listening on {HOST}:{port}\n".encode())
        checks.that("as the service's user", desk.field("Uid"), [str(USER)] * 4)
        held = [int(desk.field(it)[0], 16) for it in ("CapEff", "CapPrm", "CapBnd", "CapAmb")]
        checks.that("with one capability", held, [NET_BIND_SERVICE] * 4)
        checks.that("without new rights", desk.field("NoNewPrivs"), ["1"])
        checks.that("with the unit's address space", desk.field("Max address space", "limits")[:2], [str(limit)] * 2)
        checks.that("and no core", desk.field("Max core file size", "limits")[:1], ["0"])
        writable = [line for line in Path(f"/proc/{desk.process.pid}/maps").read_text().splitlines() if re.match(r"\S+ .wx", line)]
        checks.that("no memory is both written and executed", writable, [])
        checks.that("it answers", desk.ask(message("GET /ops/status")).split(b"\r\n")[0], b"HTTP/1.1 200 OK")
        before = desk.largest_size()
        checks.that("the largest body is answered within the limit", desk.ask(message("POST /ops/day", large_body())).split(b"\r\n")[0],
                    b"HTTP/1.1 422 Unprocessable Entity")
        took, said_to_take = desk.largest_size() - before, memory_of_a_body()
        checks.that("and takes what docs/operate/capacity.md says, or up to a tenth less",
                    (took, 0.9 * said_to_take <= took <= said_to_take), (took, True))
        checks.that("its files are its own", [mode_of(f"{path}{end}") for end in ("", "-wal")], ["0o600"] * 2)
    bind = f"import socket; s = socket.socket(); s.setsockopt(1, 2, 1); s.bind(('{HOST}', {port}))"
    printed, status = said("setpriv", f"--reuid={OTHER}", "--clear-groups", "--inh-caps=-all", "--ambient-caps=-all", "--bounding-set=-all", sys.executable, "-c", bind)
    checks.that("while it is down, another user cannot have its port", (status, "PermissionError" in printed), (1, True))
    with Started(command_of(program, path, port, limit=memory_of_a_body()), port) as desk:
        checks.that("with no address space but that, the largest body is 503", desk.ask(message("POST /ops/day", large_body())).split(b"\r\n")[0],
                    b"HTTP/1.1 503 Service Unavailable")
        checks.that("and the next request is answered", desk.ask(message("GET /ops/status")).split(b"\r\n")[0], b"HTTP/1.1 200 OK")
    calls(checks, program, folder, path)


def calls(checks, program, folder, path):
    """The system calls of a desk that is asked are those that the unit allows."""
    listed = said("systemd-analyze", "syscall-filter")[0]
    groups = {block.split("\n")[0]: [it.strip() for it in block.split("\n")[1:] if it.startswith("    ") and not it.strip().startswith("#")]
              for block in re.split(r"\n(?=@)", listed)}

    def members(name):
        return {it for member in groups[name] for it in (members(member) if member.startswith("@") else {member})}

    allowed = members(unit("achdesk.service")["SystemCallFilter"][0])
    port, counted = low_port(), path.parent / "calls"
    words = command_of(program, path, port)
    at = words.index(program)
    with Started([*words[:at], "strace", "-f", "-c", "-S", "name", "-U", "name", "-o", counted, *words[at:]], port) as desk:
        for sent in (message("POST /ops/companies", MILL), message("POST /ops/day", '{"day":"2025-01-08"}'), message("POST /ops/cut", ""), message("GET /ops/status")):
            desk.ask(sent)
        child = Path(f"/proc/{desk.process.pid}/task/{desk.process.pid}/children").read_text().split()
        os.kill(int(child[0]), signal.SIGTERM)
        desk.process.wait(30)
    used = {line.strip() for line in counted.read_text().split("\n") if re.fullmatch(r"[a-z_0-9]+", line.strip())} - {"total", "syscall", "execve"}
    checks.that(f"each of its {len(used)} system calls is allowed", (len(used) > 10, sorted(used - allowed)), (True, []))


# ---- the site of nginx

class Bank:
    """A desk of the sample bank with the company MILL01, behind the site of deploy/nginx.conf."""

    def __init__(self, program, folder, people=PEOPLE, companies=COMPANIES, desk=DESK_KEYS):
        folder.mkdir(mode=0o755)
        for it in folder.parents:
            if it != Path("/") and not os.stat(it).st_mode & 0o001:
                it.chmod(0o711)
        self.path = folder / "bank.db"
        make_desk(program, self.path)
        self.desk = Serving(program, self.path, 1_000_000, patience=5).listen()
        for sent in (message("POST /ops/companies", MILL), message("POST /ops/companies", MILL.replace("MILL01", "OPERATOR").replace(MILL_KEY, "another-key-1")),
                     message("POST /ops/day", '{"day":"2025-01-08"}')):
            with connect(self.desk.port) as it, it.makefile("rb") as reader:
                it.sendall(sent)
                read_answer(reader)
        (folder / "proxy").mkdir()
        self.proxy = Proxy(folder / "proxy", self.desk.port, people, companies, desk)

    def __enter__(self):
        return self

    def __exit__(self, *_):
        self.proxy.stop()
        self.desk.stop()


def raw(proxy, sent, seconds=10):
    """All that is answered to some bytes, over TLS."""
    with socket.create_connection((HOST, proxy.port), timeout=seconds) as plain, proxy.context().wrap_socket(plain, server_hostname=HOST) as it:
        it.sendall(sent)
        came = b""
        while piece := it.recv(65_536):
            came += piece
        return came


def error(name):
    return json.dumps({"error": name}, separators=(",", ":")).encode()


def proxy(checks, program, folder):
    with Bank(program, folder / "bank") as bank:
        ask = bank.proxy.ask
        answers(checks, ask)
        state(checks, bank)
        own_errors(checks, bank)
        heads(checks, bank)
        logged(checks, bank)
    gone(checks, program, folder)


def answers(checks, ask):
    """Who may ask what."""
    cases = [
        ("an operator", "GET", "/ops/status", ALICE, 200), ("a monitor", "GET", "/ops/status", WATCHER, 200), ("a company", "GET", "/c/MILL01/returns", PAYROLL, 200),
        ("a monitor and the companies", "GET", "/ops/companies", WATCHER, 200), ("a monitor that registers one", "POST", "/ops/companies", WATCHER, 403),
        ("a monitor and a longer path", "GET", "/ops/companies/x", WATCHER, 403), ("an operator and the companies", "GET", "/ops/companies", ALICE, 200),
        ("a company and the companies", "GET", "/ops/companies", PAYROLL, 403),
        ("a monitor and a query", "GET", "/ops/status?x=1", WATCHER, 403), ("a monitor elsewhere", "GET", "/ops/suspense", WATCHER, 403),
        ("a monitor that posts", "POST", "/ops/status", WATCHER, 403), ("a monitor that cuts", "POST", "/ops/cut", WATCHER, 403),
        ("a monitor by another path", "GET", "/ops/suspense/../status", WATCHER, 403), ("a monitor and a company", "GET", "/c/MILL01/returns", WATCHER, 403),
        ("a company at /ops/", "GET", "/ops/status", PAYROLL, 403), ("another company", "GET", "/c/OPERATOR/returns", PAYROLL, 403),
        ("no key", "GET", "/ops/status", None, 403), ("a key in capitals", "GET", "/ops/status", ALICE.upper(), 403), ("a longer key", "GET", "/ops/status", ALICE + "x", 403),
        ("the desk's own key", "GET", "/ops/status", OPERATOR_KEY, 403), ("a company's own key at the desk", "GET", "/c/MILL01/returns", MILL_KEY, 403),
    ]
    for what, method, path, key, status in cases:
        found = ask(method, path, "" if method == "POST" else None, key, source="127.0.0.1")
        checks.that(f"{what}: {status}", (found[0], status == 200 or found[2]), (status, status == 200 or error("Denied")))
        time.sleep(0.9 if status == 403 else 0)


def state(checks, bank):
    """The state of the day is for operators."""
    ask, path = bank.proxy.ask, "/console/state.json"
    checks.that("without a state of the day: 404", ask("GET", path, key=ALICE)[0::2], (404, error("NotFound")))
    (bank.proxy.folder / "public" / "state.json").write_text('{"files":[]}\n')
    found = ask("GET", path, key=ALICE)
    checks.that("an operator reads the state of the day", (found[0], found[2], found[1]["Content-Type"], found[1]["Cache-Control"]), (200, b'{"files":[]}\n', "application/json", "no-store"))
    for what, key, source in (("a monitor", WATCHER, None), ("a company", PAYROLL, None), ("a stranger", None, None), ("an operator elsewhere", ALICE, "127.0.0.2")):
        checks.that(f"{what} does not", ask("GET", path, key=key, source=source)[0::2], (403, error("Denied")))
        time.sleep(0.9)


def own_errors(checks, bank):
    """What nginx answers by itself has the desk's form."""
    ask = bank.proxy.ask
    get = b"GET /ops/status HTTP/1.1\r\nHost: desk\r\nX-Desk-Key: " + ALICE.encode() + b"\r\nConnection: close\r\n"
    cases = [
        ("another path", ask("GET", "/", key=ALICE), 404, "NotFound"), ("a path that is nginx's own", ask("GET", "/achdesk-unknown", key=ALICE), 404, "NotFound"),
        ("an error's path", ask("GET", "/achdesk-error/Denied", key=ALICE), 404, "NotFound"), ("no such page", ask("GET", "/console/none", key=ALICE), 404, "NotFound"),
        ("TRACE", ask("TRACE", "/ops/status", key=ALICE), 405, "BadMethod"), ("a body that is too large", ask("POST", "/ops/returns", b"x" * (MAX_BODY + 1), ALICE), 413, "TooLarge"),
        ("the desk's own 404", ask("GET", "/ops/none", key=ALICE), 404, "NotFound"), ("the desk's own 405", ask("GET", "/ops/cut", key=ALICE), 405, "BadMethod"),
        ("operators elsewhere", ask("GET", "/ops/status", key=ALICE, source="127.0.0.2"), 403, "Denied"),
        ("the console elsewhere", ask("GET", "/console/", source="127.0.0.2"), 403, "Denied"),
    ]
    for what, found, status, name in cases:
        checks.that(f"{what}: {status}", (found[0], found[2], found[1]["Content-Type"]), (status, error(name), "application/json"))
    for what, sent in [("a head that is none", b"nonsense\r\n\r\n"), ("a head of another version", get.replace(b"HTTP/1.1", b"HTTP/7.1") + b"\r\n"), ("a head without a host", get.replace(b"Host: desk\r\n", b"") + b"\r\n"),
                       ("a head that is too large", get + b"X-Long: " + b"x" * 40_000 + b"\r\n\r\n"), ("a coding that is none", get.replace(b"GET", b"POST") + b"Transfer-Encoding: none\r\n\r\n")]:
        came = raw(bank.proxy, sent)
        checks.that(f"{what}: 400", (came.split(b"\r\n")[0][:12], came.rpartition(b"\r\n\r\n")[2]), (b"HTTP/1.1 400", error("BadHead")))
    with connect(bank.proxy.port) as it:
        it.sendall(get + b"\r\n")
        came = it.recv(65_536)
    checks.that("without TLS: 400", (came.split(b"\r\n")[0][:12], came.rpartition(b"\r\n\r\n")[2]), (b"HTTP/1.1 400", error("BadHead")))
    checks.that("a body of the largest size reaches the desk", ask("POST", "/ops/day", b"x" * MAX_BODY, ALICE)[::2], (400, error("BadJson")))
    chunked = get.replace(b"GET /ops/status", b"POST /ops/day") + b"Transfer-Encoding: chunked\r\n\r\n14\r\n{\"day\":\"2025-01-09\"}\r\n0\r\n\r\n"
    checks.that("a body in chunks is taken", raw(bank.proxy, chunked).rpartition(b"\r\n\r\n")[2], b'{"day":"2025-01-09"}')
    checks.that("a POST without a length is the desk's 411", raw(bank.proxy, get.replace(b"GET /ops/status", b"POST /ops/cut") + b"\r\n").split(b"\r\n")[0], b"HTTP/1.1 411 Length Required")
    checks.that("a path that climbs is the desk's 404", raw(bank.proxy, get.replace(b"/ops/status", b"/ops/x/../status") + b"\r\n").rpartition(b"\r\n\r\n")[2], error("NotFound"))


def heads(checks, bank):
    """What the headers say, also beside an error."""
    wanted = {"Cache-Control": "no-store", "X-Content-Type-Options": "nosniff", "Strict-Transport-Security": "max-age=31536000", "Server": "nginx"}
    for path, status in (("/ops/status", 200), ("/ops/none", 404), ("/none", 404), ("/console/", 200)):
        found = bank.proxy.ask("GET", path, key=ALICE)
        checks.that(f"the headers of {path}", (found[0], {it: found[1][it] for it in wanted}), (status, wanted))
    found = bank.proxy.ask("GET", "/console/")
    checks.that("the console is the file", (found[2], found[1]["Content-Type"], found[1]["Content-Security-Policy"]),
                ((TOP / "console" / "index.html").read_bytes(), "text/html", "frame-ancestors 'none'"))


def logged(checks, bank):
    """Each request of a holder has a line with its name, and no key is in the log."""
    time.sleep(0.5)
    before = len(bank.proxy.logged())
    bank.proxy.ask("GET", "/ops/status", key=ALICE)
    bank.proxy.ask("GET", "/c/MILL01/returns", key=PAYROLL)
    bank.proxy.ask("GET", "/none")
    time.sleep(1.1)
    bank.proxy.ask("GET", "/ops/status", key="guess-key-1")
    lines = [LOGGED.fullmatch(it) for it in bank.proxy.logged(before + 3)[before:]]
    checks.that("the log names the holders, and has no line of a stranger's 404", [it and (it["holder"], it["request"], it["status"], it["desk"]) for it in lines],
                [("operator:alice", "GET /ops/status", "200", "200"), ("MILL01:payroll", "GET /c/MILL01/returns", "200", "200"), ("-", "GET /ops/status", "403", "-")])
    text = bank.proxy.log.read_text() + bank.proxy.errors.read_text()
    checks.that("no key is in a log", [key for key in (ALICE, WATCHER, PAYROLL, OPERATOR_KEY, MILL_KEY, "guess-key-1") if key in text], [])


class Deaf:
    """A desk that takes a connection and says nothing, or ends it."""

    def __init__(self, closes):
        self.socket = socket.create_server((HOST, 0))
        self.port, self.closes, self.kept = self.socket.getsockname()[1], closes, []
        threading.Thread(target=self.run, daemon=True).start()

    def run(self):
        while True:
            try:
                it = self.socket.accept()[0]
            except OSError:
                return
            if self.closes:
                it.close()
            else:
                self.kept.append(it)


def gone(checks, program, folder):
    """A desk that is not there, ends the connection, or says nothing."""
    for what, closes, port, status, name in (("a desk that is not there", None, free_port(), 502, "BadGateway"), ("a desk that ends", True, None, 502, "BadGateway"),
                                             ("a desk that says nothing", False, None, 504, "GatewayTimeout")):
        deaf = None if port else Deaf(closes)
        place = folder / f"gone{status}{closes}"
        place.mkdir(mode=0o755)
        with Proxy(place, port or deaf.port, PEOPLE, COMPANIES, DESK_KEYS, seconds=2) as proxy:
            found = proxy.ask("GET", "/ops/status", key=ALICE)
            checks.that(f"{what}: {status}", (found[0], found[2], found[1]["Retry-After"]), (status, error(name), "1"))


# ---- keys

def keys(checks, program, folder):
    with Bank(program, folder / "keys") as bank:
        proxy = bank.proxy
        checks.that("the lists are for root alone", [(mode_of(it), os.stat(it).st_uid) for it in sorted((proxy.folder / "keys").iterdir())], [("0o600", 0)] * 3)
        checks.that("the repository's lists have no key", [it.name for it in sorted((DEPLOY / "keys").iterdir()) if re.search(r"^[^#]", it.read_text(), re.M)], [])
        checks.that("a key is known", proxy.ask("GET", "/ops/status", key=ALICE)[0], 200)
        both = {**PEOPLE, "alice-key-2": "operator:alice"}
        slow = threading.Thread(target=held_request, args=(checks, proxy))
        slow.start()
        time.sleep(0.3)
        proxy.write_keys(both, COMPANIES, DESK_KEYS)
        proxy.process.send_signal(signal.SIGHUP)
        time.sleep(1)
        checks.that("with both keys in the list both are known", [proxy.ask("GET", "/ops/status", key=it)[0] for it in (ALICE, "alice-key-2")], [200, 200])
        slow.join()
        del both[ALICE]
        proxy.write_keys(both, COMPANIES, DESK_KEYS)
        proxy.reload()
        checks.that("the old key is shut by a reload", [proxy.ask("GET", "/ops/status", key=it)[0] for it in (ALICE, "alice-key-2")], [403, 200])
        proxy.write_keys(both, {"mill-key-2": "MILL01:payroll", "clash-key-1": "OPERATOR:somebody"}, {**DESK_KEYS, "OPERATOR": "another-key-1"})
        proxy.reload()
        checks.that("so is a company's", [proxy.ask("GET", "/c/MILL01/returns", key=it)[0] for it in (PAYROLL, "mill-key-2")], [403, 200])
        checks.that("a company that is named OPERATOR is a company", [proxy.ask("GET", it, key="clash-key-1")[0] for it in ("/c/OPERATOR/returns", "/ops/status")], [200, 403])
        checks.that("with one company's key in another case: 403", proxy.ask("GET", "/c/MILL01/returns", key="MILL-key-2")[0], 403)
        checks.that("the log keeps the holder's name", [LOGGED.fullmatch(it)["holder"] for it in proxy.logged() if '"GET /c/OPERATOR' in it], ["OPERATOR:somebody"])


def held_request(checks, proxy):
    """A request that is under way while the keys change: its body comes slowly."""
    body = b'{"day":"2025-01-08"}'
    with socket.create_connection((HOST, proxy.port), timeout=20) as plain, proxy.context().wrap_socket(plain, server_hostname=HOST) as it:
        it.sendall(f"POST /ops/day HTTP/1.1\r\nHost: desk\r\nX-Desk-Key: {ALICE}\r\nConnection: close\r\nContent-Length: {len(body)}\r\n\r\n".encode())
        time.sleep(2)
        it.sendall(body)
        came = b""
        while piece := it.recv(65_536):
            came += piece
    checks.that("a request that was under way is answered", came.rpartition(b"\r\n\r\n")[2], b'{"error":"DayNotLater","number":20}')


# ---- limits

def limits(checks, program, folder):
    companies = {f"company-key-{it}": f"{name}:erp" for it, name in enumerate(("MILL01", "BAKE01"))}
    with Bank(program, folder / "limits", companies=companies, desk={**DESK_KEYS, "BAKE01": "bakery-key"}) as bank:
        bank.proxy.ask("POST", "/ops/companies", MILL.replace("MILL01", "BAKE01").replace(MILL_KEY, "bakery-key"), ALICE)
        guesses(checks, bank)
        time.sleep(3)
        company_rate(checks, bank)
        time.sleep(3)
        hostile(checks, bank)


def many(bank, count, seconds, source, ask):
    """Statuses of what so many clients are answered, each asking again and again, by connections that are kept."""
    statuses, lock, until = {}, threading.Lock(), time.monotonic() + seconds

    def client(number):
        it = None
        while time.monotonic() < until:
            try:
                if it is None:
                    it = http.client.HTTPSConnection(HOST, bank.proxy.port, timeout=10, context=bank.proxy.context(), source_address=(source, 0))
                status = ask(it, number)
            except (OSError, http.client.HTTPException):
                it, status = None, "none"
            with lock:
                statuses[status] = statuses.get(status, 0) + 1

    threads = [threading.Thread(target=client, args=(number,)) for number in range(count)]
    for it in threads:
        it.start()
    for it in threads:
        it.join()
    return statuses


def asked(it, path, key, method="GET", body=None):
    it.request(method, path, body=body, headers={"X-Desk-Key": key})
    answer = it.getresponse()
    answer.read()
    return answer.status


def guesses(checks, bank):
    """How many keys a second can be guessed from one address."""
    seconds = 6
    found = many(bank, 8, seconds, "127.0.0.3", lambda it, number: asked(it, "/c/MILL01/returns", f"guess-{number}-{time.monotonic_ns()}"))
    rate = found.get(403, 0) / seconds
    print(f"        guesses of a key: {rate:.1f} a second are looked up, {found.get(429, 0) / seconds:.0f} a second are 429")
    checks.that("at most 3 guesses a second are looked up", rate <= 3 and found.get(429, 0) > 0)
    checks.that("none reached the desk", [it for it in bank.proxy.logged() if "127.0.0.3" in it and "desk=403" in it], [])
    checks.that("another address is answered meanwhile", bank.proxy.ask("GET", "/ops/status", key=ALICE)[0], 200)
    found = bank.proxy.ask("GET", "/c/MILL01/returns", key="guess-again-1", source="127.0.0.3")
    checks.that("a 429 says when to ask again", found[0] == 403 or (found[0], found[2], found[1]["Retry-After"]) == (429, error("TooManyRequests"), "1"))


def company_rate(checks, bank):
    """What one company can ask, from many addresses at once."""
    seconds = 5
    found = {}
    threads = []
    for part in range(4):
        source = f"127.0.1.{part + 1}"
        it = threading.Thread(target=lambda source=source: found.update({source: many(bank, 10, seconds, source, lambda it, number: asked(it, "/c/MILL01/returns", "company-key-0"))}))
        it.start()
        threads.append(it)
    for it in threads:
        it.join()
    answered = sum(it.get(200, 0) for it in found.values())
    print(f"        one company from four addresses: {answered / seconds:.0f} requests a second are answered, {sum(it.get(429, 0) for it in found.values()) / seconds:.0f} are 429")
    checks.that("a company has its rate from all addresses together", 15 * seconds <= answered <= 20 * seconds + 60)
    time.sleep(3)
    one = [bank.proxy.ask("GET", "/c/MILL01/returns", key="company-key-0")[0] for _ in range(40)]
    checks.that("who asks one thing after another is never refused", set(one), {200})


def hostile(checks, bank):
    """The latency of a polite company next to 300 hostile clients."""
    alone = latencies(bank, 40)
    attack = multiprocessing.get_context("fork").Process(target=attacked, args=(bank,), daemon=True)
    attack.start()
    time.sleep(3)
    beside = latencies(bank, 100)
    attack.kill()
    attack.join()
    told = {what: f"median {statistics.median(them) * 1e3:.0f} ms, worst {max(them) * 1e3:.0f} ms" for what, them in (("alone", alone), ("next to 300 hostile clients", beside))}
    print(f"        a polite client: {told}")
    checks.that("each request of the polite client is answered, in 5 seconds or in ten times its worst alone", (len(beside), max(beside) < max(5, 10 * max(alone))), (100, True))


def latencies(bank, count):
    """The seconds that each of some requests of a polite company takes, a connection for each."""
    found = []
    for number in range(count):
        begun = time.monotonic()
        status = bank.proxy.ask("GET", "/c/BAKE01/returns", key="company-key-1", source="127.0.2.1", seconds=30)[0]
        if status == 200:
            found.append(time.monotonic() - begun)
        time.sleep(0.1)
    return found


def attacked(bank):
    """Keeps 300 hostile clients at work, until it is killed."""
    clients = [threading.Thread(target=hostile_client, args=(bank, number)) for number in range(300)]
    for it in clients:
        it.start()
    for it in clients:
        it.join()


def hostile_client(bank, number):
    """One of a hundred that hold half a head, a hundred that guess keys, and a hundred that ask by a leaked key, from fifteen addresses."""
    context, source = bank.proxy.context(), (f"127.0.3.{number % 15 + 1}", 0)
    while True:
        try:
            with socket.create_connection((HOST, bank.proxy.port), timeout=10, source_address=source) as plain, context.wrap_socket(plain, server_hostname=HOST) as it:
                key = f"guess-{number}" if number % 3 == 1 else "company-key-0"
                head = f"GET /c/MILL01/returns HTTP/1.1\r\nHost: desk\r\nX-Desk-Key: {key}\r\n".encode()
                it.sendall(head if number % 3 == 0 else head + b"\r\n")
                while it.recv(65_536):
                    if number % 3:
                        it.sendall(head + b"\r\n")
        except OSError:
            time.sleep(0.05)


# ---- a second desk, and Debian's own nginx.conf

def blocks(heading):
    """The sh blocks of deploy/README.md below a heading."""
    part = re.search(rf"\n## {heading}\n(.*?)(?=\n## |\Z)", (DEPLOY / "README.md").read_text(), re.S)[1]
    return re.findall(r"```sh\n(.*?)```", part, re.S)


SITE_PARTS = {"nginx.conf": "sites-available/achdesk", "nginx-http.conf": "snippets/achdesk-http.conf", "nginx-server.conf": "snippets/achdesk-server.conf"}


def second(checks, program, folder):
    root = folder / "second"
    for name in ("etc/achdesk/keys", "etc/achdesk/tls", "etc/nginx/sites-available", "etc/nginx/snippets", "var/log/achdesk", "var/log/nginx", "var/lib/achdesk", "usr/share/achdesk"):
        (root / name).mkdir(parents=True)
    for name in ("people", "companies", "desk"):
        shutil.copy(DEPLOY / "keys" / f"{name}.map", root / "etc/achdesk/keys")
    shutil.copytree(DEPLOY / "keys", root / "usr/share/achdesk/keys")
    for name in ("achdesk.env", "operators.conf"):
        shutil.copy(DEPLOY / name, root / "etc/achdesk")
    for source, target in SITE_PARTS.items():
        shutil.copy(DEPLOY / source, root / "etc/nginx" / target)
    text = blocks("Several desks")[0].replace("-o achdesk -g achdesk ", "")
    printed, status = said("sh", "-ec", re.sub(r'(?<=[ ">])/(etc|var|usr)/(?=(achdesk|nginx|lib/achdesk|log/achdesk|share/achdesk)\b)', f"{root}/\\1/", text))
    checks.that("the README's commands for a second desk end well", (printed, status), ("", 0))
    checks.that("its port is another", (root / "etc/achdesk/two.env").read_text().count("881"), 1)
    for key in ("achdesk/tls", "achdesk/two/tls"):
        subprocess.run(["openssl", "req", "-x509", "-newkey", "ec", "-pkeyopt", "ec_paramgen_curve:prime256v1", "-nodes", "-subj", "/CN=desk", "-keyout", root / "etc" / key / "key.pem",
                        "-out", root / "etc" / key / "cert.pem"], check=True, stderr=subprocess.DEVNULL)
    texts = {name: {target: (root / "etc/nginx" / target.replace("achdesk", name)).read_text() for target in SITE_PARTS.values()} for name in ("achdesk", "two")}
    for name, parts in texts.items():
        for target, text in parts.items():
            (root / "etc/nginx" / target.replace("achdesk", name)).write_text(re.sub(r"(?<![\w.])/(etc|var|usr/share/achdesk)\b", f"{root}/\\1", text))
    debian = Path("/etc/nginx/nginx.conf").read_text()
    main = re.sub(r"/run/nginx.pid", f"{root}/pid", re.sub(r"/var/log/nginx", f"{root}/var/log", debian))
    sites = "".join(f"include {root}/etc/nginx/sites-available/{name}; " for name in texts)
    main = main.replace("include /etc/nginx/sites-enabled/*;", sites).replace("include /etc/nginx/modules-enabled/*.conf;", "")
    (root / "nginx.conf").write_text(main)
    printed, status = said(shutil.which("nginx", path=PATHS), "-t", "-q", "-e", root / "error.log", "-c", root / "nginx.conf")
    checks.that("both sites are taken in Debian's nginx.conf", (printed, status), ("", 0))
    one, two = ("\n".join(texts[name].values()) for name in ("achdesk", "two"))
    first, other = (set(re.findall(r"zone=?(\w+)|(?<=map \$)(\w+)|log_format (\w+)|shared:(\w+)", it)) for it in (one, two))
    checks.that("they share no zone, no variable and no log", [it for it in first & other if "achdesk" in str(it)], [])
    paths = [set(re.findall(r"(?m)^[^#\n]*?(/(?:etc|var)/[\w./-]+)", it)) for it in (one, two)]
    checks.that("nor a key, a certificate, a state or a log of requests", sorted(paths[0] & paths[1]), ["/var/log/nginx/error.log"])
    checks.that("each has the port of its desk", [re.findall(r"127\.0\.0\.1:(\d+)", it) for it in (one, two)], [["880"] * 2, ["881"] * 2])


# ---- the firewall

# In a network of its own: a server on port 443, and how many of 70 connections it takes of each of two addresses, then of
# two addresses of one IPv6 network and one of another; then who may connect to the desk's port.
CONNECTING = """
import encodings.idna, os, socket, subprocess, sys, time
subprocess.run(["ip", "link", "set", "lo", "up"], check=True)
for address in ("2001:db8:1::1", "2001:db8:1::2", "2001:db8:2::1"):
    subprocess.run(["ip", "-6", "address", "add", address + "/64", "dev", "lo", "nodad"], check=True)
subprocess.run(["nft", "-f", sys.argv[1]], check=True)
server, taken = socket.create_server(("127.0.0.1", 443), backlog=200), []
six = socket.create_server(("::1", 443), family=socket.AF_INET6, backlog=400)
desk = socket.create_server(("127.0.0.1", 880), backlog=200)
def opened(source, target="127.0.0.1", port=443):
    try:
        taken.append(socket.create_connection((target, port), timeout=5, source_address=(source, 0)))
        return True
    except OSError:
        return False
def as_user(user):
    child = os.fork()
    if child == 0:
        os.setgroups([]); os.setgid(user); os.setuid(user)
        os._exit(0 if opened("127.0.0.1", port=880) else 1)
    return os.waitpid(child, 0)[1] == 0
print([sum(opened(source) for _ in range(70)) for source in ("127.0.0.2", "127.0.0.3")])
for it in taken[:10]:
    it.close(); server.accept()[0].close()
time.sleep(0.5)
print(opened("127.0.0.2"))
print([sum(opened(source, "::1") for _ in range(40)) for source in ("2001:db8:1::1", "2001:db8:1::2", "2001:db8:2::1")])
print([as_user(user) for user in map(int, sys.argv[2:])])
"""


def firewall(checks, program, folder):
    text = (DEPLOY / "nftables.conf").read_text()
    callers = re.search(r"^define achdesk_callers = \{ (.*) \}$", text, re.M)[1].split(", ")
    made = set(re.findall(r"^u ([\w-]+)", (DEPLOY / "sysusers.conf").read_text(), re.M)) | {"root", "www-data"}
    checks.that("the users that may reach the desk are Debian's or made by the package", sorted(set(callers) - made), [])
    checks.that("the port is that of achdesk.env", re.search(r"achdesk_ports = \{ (\d+) \}", text)[1], re.search(r"DESK_PORT=(\d+)", (DEPLOY / "achdesk.env").read_text())[1])
    numbers = {"root": 0, "www-data": 33} | {name: USER + at for at, name in enumerate(it for it in callers if it not in ("root", "www-data"))}
    rules = folder / "rules"
    rules.write_text(text.replace(", ".join(callers), ", ".join(str(numbers[it]) for it in callers)))
    printed, status = said("unshare", "--net", sys.executable, "-c", CONNECTING, rules, *numbers.values(), USER + 100, 65_534, env=os.environ | {"PATH": PATHS})
    lines = printed.splitlines()
    checks.that("an address has 60 connections, and a new one when old ones end", (lines[:2], status), (["[60, 60]", "True"], 0))
    checks.that("so has an IPv6 network of 64 bits", lines[2:3], ["[40, 20, 40]"])
    checks.that("only nginx, achdesk-day, the guard and root reach the desk's port", lines[3:], [str([True] * len(numbers) + [False] * 2)])


# ---- the log

def log(checks, program, folder):
    with Bank(program, folder / "log") as bank:
        text = (DEPLOY / "logrotate").read_text().replace("/var/log/achdesk", str(bank.proxy.folder)).replace("/run/nginx.pid", str(bank.proxy.folder / "nginx.pid"))
        text = text.replace("www-data achdesk", "www-data adm")
        checks.that("it signals nginx", text.count(str(bank.proxy.folder / "nginx.pid")), 2)
        rotation, state = folder / "rotation", folder / "state"
        rotation.write_text(text)
        rotation.chmod(0o644)
        rotate = (shutil.which("logrotate", path=PATHS), "--state", state)
        printed, status = said(*rotate, "--debug", rotation)
        checks.that("logrotate's debug run finds no error", (status, "error" in printed.replace("error.log", ""), "considering log" in printed), (0, False, True))
        bank.proxy.ask("GET", "/ops/status", key=ALICE)
        bank.proxy.logged(1)
        checks.that("a rotation ends well", said(*rotate, "--force", rotation), ("", 0))
        for _ in range(100):
            if bank.proxy.log.exists() and all(not it for it in held(bank.proxy, "proxy.log-")):
                break
            time.sleep(0.05)
        bank.proxy.ask("GET", "/c/MILL01/returns", key=PAYROLL)
        old = [it for it in bank.proxy.folder.iterdir() if it.name.startswith("proxy.log-")]
        checks.that("the old log has the requests before it", [len(it.read_text().splitlines()) for it in old], [1])
        checks.that("the new one those after it", [LOGGED.fullmatch(it)["holder"] for it in bank.proxy.logged(1)], ["MILL01:payroll"])
        checks.that("for nginx and a group alone", mode_of(bank.proxy.log), "0o640")
    checks.that("Debian's rotation of nginx has other logs", "/var/log/achdesk" in Path("/etc/logrotate.d/nginx").read_text(), False)


def held(proxy, name):
    """The files of that name that each worker of nginx has open."""
    return [[it for it in Path(f"/proc/{worker}/fd").iterdir() if name in os.readlink(it)] for worker in proxy.workers()]


# ---- manual pages

def manual(checks, program, folder):
    for name, path in (("achdesk", program), ("achdesk-day", str(DEPLOY / "achdesk-day")), ("achdesk-company", str(TOP / "clients/achdesk-company"))):
        page = folder / f"{name}.1"
        with open(page, "w") as out:
            done = subprocess.run([sys.executable, DEPLOY / "manual.py", name, path], stdout=out, stderr=subprocess.PIPE, text=True)
        checks.that(f"{name}(1) is made", (done.stderr, done.returncode), ("", 0))
        printed = subprocess.run(["man", "--warnings", "-E", "UTF-8", "-l", "-Tutf8", "-Z", page], stdout=subprocess.DEVNULL, stderr=subprocess.PIPE, text=True,
                                 env=os.environ | {"LC_ALL": "C.UTF-8", "MANROFFSEQ": "", "MANWIDTH": "100"})
        checks.that(f"man takes {name}(1) without a warning", (printed.stderr, printed.returncode), ("", 0))
        text = page.read_text().replace("\\-", "-")
        helped = said(path, "--help")[0]
        options = set(re.findall(r"(?<!\S)--[a-z-]+", helped))
        checks.that(f"{name}(1) has each option of --help", sorted(it for it in options if it not in text), [])
        sections = ["NAME", "SYNOPSIS", "DESCRIPTION", *(["FILES"] if name != "achdesk-company" else [])]
        checks.that(f"{name}(1) has its sections", [it for it in sections if f".SH {it}" not in text], [])


# ---- the package

def snapshot(root, *folders):
    """The bytes, the mode and the owner of each file below some folders."""
    found = {}
    for name in folders:
        for path in sorted((root / name).rglob("*")):
            at = os.lstat(path)
            found[str(path.relative_to(root))] = (oct(at.st_mode), at.st_uid, path.read_bytes() if path.is_file() else None)
    return found


def company(root, *words):
    """What the installed achdesk-company says, with the modules of that root alone."""
    return said("/usr/bin/python3", root / "usr/bin/achdesk-company", *words, env={"PATH": PATHS, "PYTHONPATH": str(root / "usr/lib/python3/dist-packages")}, cwd="/")


def day_keys(checks, at, user, group):
    """The commands of docs/operate/install.md that issue a key to achdesk-day, which then reads it and no other file of the folder."""
    page = (TOP / "docs/operate/install.md").read_text().partition("\n## The day program\n")[2].partition("\n## ")[0]
    lines = [re.search(r"```sh\n(.*?)```", page, re.S)[1], *re.findall(r"^\$ sudo (ssh-keygen .*|chown .*)$", page, re.M)]
    text = "\n".join(lines).replace("/etc/achdesk", f"{at}/etc/achdesk").replace("achdesk-day:achdesk-day", f"{user}:{group}")
    checks.that("the page's commands make the keys of achdesk-day", said("sh", "-ec", text), ("", 0))
    checks.that("its line in people.map has the key", (at / "etc/achdesk/keys/people.map").read_text().count('"operator:day";'), 1)
    config = at / "day.conf"
    config.write_text(re.sub(r"(?m)^#?(state|identity) = (/.*)$", rf"\1 = {at}\2", (at / "etc/achdesk/day.conf").read_text().replace("key_file = day", f"key_file = {at}/etc/achdesk/keys/day").replace("desk.bank.example", f"127.0.0.1:{free_port()}")))
    config.chmod(0o644)
    for it in (at, *at.parents):
        if it != Path("/") and not os.stat(it).st_mode & 0o001:
            it.chmod(0o711)
    as_user = lambda *words: said("setpriv", f"--reuid={user}", f"--regid={group}", "--clear-groups", *words)
    printed, status = as_user("/usr/bin/python3", at / "usr/bin/achdesk-day", "--config", config, "metrics")
    checks.that("achdesk-day reads its key as the service's user, and finds no desk", (status, "achdesk_up 0" in printed and "cannot be reached" in printed), (0, True))
    keys = at / "etc/achdesk/keys"
    checks.that("and that of its sftp", as_user("cat", keys / "sftp")[1], 0)
    checks.that("the user reads no list of keys, and does not list the folder", [as_user(*words)[1] for words in (("cat", keys / "people.map"), ("ls", keys))], [1, 2])
    other = said("setpriv", f"--reuid={OTHER}", f"--regid={OTHER}", "--clear-groups", "cat", keys / "day")
    checks.that("another user does not read the key", (other[1], "Permission denied" in other[0]), (1, True))
    metrics_file(checks, at, group, config, as_user)


def metrics_file(checks, at, group, config, as_user):
    """The commands of docs/operate/monitoring.md, after which the service's user writes the metrics by the words of the unit."""
    folder = at / "var/lib/prometheus/node-exporter"
    folder.mkdir(parents=True)
    (folder / "other.prom").touch()
    config.write_text(re.sub(r"(?m)^#?(file) = (/.*)$", rf"\1 = {at}\2", config.read_text()))
    words = [it.replace("/usr/bin/achdesk-day", str(at / "usr/bin/achdesk-day")) for it in unit("achdesk-day-metrics.service")["ExecStart"][0].split()]
    write = ("/usr/bin/python3", words[0], "--config", config, *words[1:])
    printed, status = as_user(*write)
    checks.that("without the page's commands the metrics are not written", (status, "achdesk.prom cannot be written: Permission denied" in printed), (3, True))
    text = "\n".join(re.findall(r"^\$ sudo (chgrp .*|chmod .*)$", (TOP / "docs/operate/monitoring.md").read_text(), re.M))
    checks.that("the page's commands", said("sh", "-ec", text.replace("chgrp achdesk-day", f"chgrp {group}").replace("/var/lib", f"{at}/var/lib")), ("", 0))
    checks.that("the service's user writes the metrics", as_user(*write)[1], 0)
    checks.that("which every user may read", (mode_of(folder / "achdesk.prom"), "\nachdesk_up 0\n" in (folder / "achdesk.prom").read_text()), ("0o644", True))
    checks.that("and nothing else is there", sorted(it.name for it in folder.iterdir()), ["achdesk.prom", "other.prom"])
    checks.that("it cannot remove the files of others there", (as_user("rm", "-f", folder / "other.prom")[1], (folder / "other.prom").exists()), (1, True))
    checks.that("the unit may write that folder", unit("achdesk-day-metrics.service")["ReadWritePaths"], ["-/var/lib/prometheus/node-exporter"])


def installed(checks, program, folder):
    """`make install` and `make uninstall` below another root."""
    root = folder / "made"
    make = ["make", "--no-print-directory", "-C", TOP, f"DESTDIR={root}", f"PROGRAM={program}"]
    printed, status = said(*make, "install")
    checks.that("make install", status == 0 or printed)
    checks.that("the program is the one that was built", (root / "usr/bin/achdesk").read_bytes() == Path(program).read_bytes())
    checks.that("and has its help", said(root / "usr/bin/achdesk", "--help")[1], 0)
    checks.that("the company's program finds its module", company(root, "--help")[1], 0)
    for name in ("usr/bin/achdesk-day", "usr/lib/systemd/system/achdesk.service", "usr/lib/systemd/system/achdesk@.service", "usr/lib/systemd/system/achdesk-restart.timer",
                 "usr/lib/systemd/system/achdesk-day-metrics.service", "usr/lib/systemd/system/achdesk-day-metrics.timer",
                 "usr/bin/achdesk-alarm", "usr/bin/achdesk-guard", "usr/lib/python3/dist-packages/achdesk_alarm/cli.py", "usr/lib/systemd/system/achdesk-alarm.path",
                 "usr/lib/systemd/system/achdesk-alarm@.service", "usr/share/man/man1/achdesk-alarm.1.gz", "usr/share/man/man1/achdesk-guard.1.gz", "etc/achdesk/alarm.conf",
                 "usr/share/achdesk/console/index.html", "usr/share/achdesk/audit.sql", "usr/share/doc/achdesk/docs/audit.sql", "usr/bin/achdesk-company",
                 "usr/lib/python3/dist-packages/achdesk/__init__.py", "usr/share/man/man1/achdesk.1.gz", "usr/share/man/man1/achdesk-day.1.gz", "usr/share/man/man1/achdesk-company.1.gz", "etc/nginx/sites-available/achdesk",
                 "etc/nginx/snippets/achdesk-http.conf", "etc/nginx/snippets/achdesk-server.conf", "etc/logrotate.d/achdesk", "usr/share/achdesk/etc/nginx.conf"):
        checks.that(f"it installs {name}", (root / name).is_file())
    (root / "var/lib/achdesk").mkdir(parents=True)
    (root / "var/lib/achdesk/bank.db").write_text("a desk")
    (root / "etc/achdesk/keys/people.map").write_text("a key")
    (root / "etc/achdesk/operators.conf").write_text("an address")
    (root / "etc/achdesk/keys").chmod(0o710)
    os.chown(root / "etc/achdesk/keys", 0, OTHER)
    kept = snapshot(root, "var", "etc")
    said(*make, "install")
    checks.that("a second make install leaves the configuration", snapshot(root, "var", "etc"), kept)
    folder_of_keys = os.stat(root / "etc/achdesk/keys")
    checks.that("and the rights of the folder of keys", (oct(folder_of_keys.st_mode & 0o777), folder_of_keys.st_gid), ("0o710", OTHER))
    pages_installed(checks, root / "usr/share/doc/achdesk")
    checks.that("make uninstall", said(*make, "uninstall")[1], 0)
    checks.that("leaves no program", [str(it.relative_to(root)) for it in (root / "usr").rglob("*") if not it.is_dir()], [])
    checks.that("and all that the bank wrote", snapshot(root, "var", "etc"), kept)


def headings(text):
    """The anchors of a page's headings, as GitHub makes them."""
    return {re.sub(r"[^\w\- ]", "", it.lower()).replace(" ", "-") for it in re.findall(r"^#+ (.*)$", text, re.M)}


def pages_installed(checks, folder):
    """Each link of an installed page leads to an installed file, and to a heading of it."""
    dead, count = [], 0
    for page in sorted(folder.rglob("*.md")):
        text = re.sub(r"^```.*?^```$|`[^`\n]*`", "", page.read_text(), flags=re.M | re.S)
        for link, anchor in re.findall(r"\]\(([^)\s#]*)(?:#([^)\s]*))?\)", text):
            if re.match(r"[a-z]+:", link):
                continue
            count += 1
            target = (page.parent / link).resolve() if link else page
            if not target.exists() or not target.is_relative_to(folder.resolve()) or (anchor and target.suffix == ".md" and anchor not in headings(target.read_text())):
                dead.append(f"{page.relative_to(folder)}: {link}#{anchor}")
    checks.that(f"each of the {count} links of the installed pages leads to an installed page", (count > 100, dead), (True, []))


class Root:
    """A machine of Debian's package manager alone, in a folder."""

    def __init__(self, folder):
        self.folder = folder
        for name in ("info", "updates", "triggers"):
            (folder / "var/lib/dpkg" / name).mkdir(parents=True)
        for name in ("status", "available"):
            (folder / "var/lib/dpkg" / name).touch()
        (folder / "etc").mkdir()
        (folder / "etc/passwd").write_text("root:x:0:0:root:/root:/bin/bash\nwww-data:x:33:33:www-data:/var/www:/usr/sbin/nologin\n")
        (folder / "etc/group").write_text("root:x:0:\nwww-data:x:33:\n")

    def dpkg(self, *words):
        return said("dpkg", f"--root={self.folder}", "--force-script-chrootless", "--force-depends", f"--log={self.folder}/dpkg.log", *words,
                    env=os.environ | {"PATH": PATHS, "LC_ALL": "C", "DEBIAN_FRONTEND": "noninteractive"}, stdin=subprocess.DEVNULL)

    def status(self):
        shown = re.search(r"Package: achdesk\nStatus: (.*)\n", (self.folder / "var/lib/dpkg/status").read_text())
        return shown[1] if shown else None


# What every bank edits, and programs that the package needs.
EDITED = ("etc/achdesk/achdesk.env", "etc/achdesk/alarm.conf", "etc/achdesk/day.conf", "etc/achdesk/operators.conf", "etc/nginx/sites-available/achdesk")
NEEDED = ("libc6", "libgcc-s1", "logrotate", "nginx", "openssh-client", "python3", "rsync", "sqlite3", "systemd")


def changed(deb, folder):
    """The next version of a package, in which each file of a configuration has a new line."""
    made, target = folder / "changed", folder / "achdesk_next.deb"
    said("dpkg-deb", "--raw-extract", deb, made)
    for path in (*(made / "usr/share/achdesk/etc").iterdir(), *(made / "etc/achdesk").glob("*.*"), *(made / "etc/nginx").rglob("*")):
        if path.is_file():
            path.write_text(path.read_text() + "# a new setting\n")
    control = made / "DEBIAN/control"
    control.write_text(re.sub(r"(?m)^Version: .*$", "Version: 1.0.0+3", control.read_text()))
    said("dpkg-deb", "--root-owner-group", "-Zgzip", "-z1", "--build", made, target)
    return target


KEPT = ("var/lib/achdesk", "var/lib/achdesk-day", "var/lib/achdesk-backup", "var/log/achdesk", "etc/achdesk/keys", "etc/achdesk/tls")


def package(checks, program, folder):
    installed(checks, program, folder)
    debs = []
    for number in (1, 2):
        printed, status = said("make", "--no-print-directory", "-C", TOP, "deb", f"PROGRAM={program}", f"VERSION=1.0.0+{number}", f"PACKAGES={folder}",
                               "DPKG_DEB=dpkg-deb --root-owner-group -Zgzip -z1")
        debs += sorted(set(folder.glob("achdesk_*.deb")) - set(debs))
        checks.that(f"make deb {number}", (status == 0 or printed, len(debs)), (True, number))
    names = said("dpkg-deb", "--contents", debs[0])[0]
    checks.that("the package has no file of a desk, no key and no certificate", re.findall(r"\./(?:var|etc/achdesk/keys|etc/achdesk/tls)\S*", names), [])
    checks.that("all in it belongs to root", {line.split()[1] for line in names.splitlines()}, {"root/root"})
    printed = said("lintian", "--fail-on", "error", "--tag-display-limit", "0", debs[0])[0]
    checks.that("lintian reports no error", re.findall(r"^E: .*$", printed, re.M), [])
    print("".join(f"        {line}\n" for line in re.findall(r"^[WI]: .*$", printed, re.M)), end="")
    sums = said("dpkg-deb", "--ctrl-tarfile", debs[0], encoding="latin-1")[0].count("usr/bin/achdesk\n")
    checks.that("it has the sums of its files", sums, 1)
    needed = said("dpkg-deb", "--field", debs[0], "Depends")[0].split(", ")
    checks.that("what the programs need is depended on, with versions", [it for it in NEEDED if not any(re.match(rf"{re.escape(it)} \(>= [\d.:]+\)", one) for one in needed)], [])
    asked = set(said("dpkg-deb", "--info", debs[0], "conffiles")[0].split())
    checks.that("it has no file about whose changes an upgrade asks, but those that no bank edits", asked, {"/etc/logrotate.d/achdesk", *(f"/etc/nginx/{it}" for it in SITE_PARTS.values() if "snippets" in it)})
    debs.append(changed(debs[1], folder))
    root = Root(folder / "machine")
    at = root.folder
    printed, status = root.dpkg("--install", debs[0])
    checks.that("it is installed", (status == 0 or printed, root.status()), (True, "install ok installed"))
    users = {name: (int(uid), int(gid)) for name, uid, gid in re.findall(r"^(achdesk[a-z-]*):[^:]*:(\d+):(\d+):", (at / "etc/passwd").read_text(), re.M)}
    checks.that("the users are made", sorted(users), ["achdesk", "achdesk-alarm", "achdesk-backup", "achdesk-day", "achdesk-guard"])
    groups = {name: set(members.split(",")) for name, members in re.findall(r"^(achdesk[a-z-]*):[^:]*:\d+:(.*)$", (at / "etc/group").read_text(), re.M)}
    checks.that("the day and the backups read the desk's file and raise alarms", (groups["achdesk"], groups["achdesk-alarm"]), ({"achdesk-day", "achdesk-backup"},) * 2)
    user = (None, *users["achdesk-day"])
    checks.that("the folders are for those who need them", [(mode_of(at / it), os.stat(at / it).st_uid) for it in KEPT],
                [("0o750", users["achdesk"][0]), ("0o711", users["achdesk-day"][0]), ("0o750", users["achdesk-backup"][0]), ("0o755", 0), ("0o711", 0), ("0o700", 0)])
    log = os.stat(at / "var/log/achdesk/proxy.log")
    checks.that("the log is for nginx and achdesk-day", (oct(log.st_mode & 0o777), log.st_uid, log.st_gid), ("0o640", 33, users["achdesk"][1]))
    checks.that("the lists of keys are for root alone", [(mode_of(it), os.stat(it).st_uid) for it in sorted((at / "etc/achdesk/keys").iterdir())], [("0o600", 0)] * 3)
    day_keys(checks, at, int(user[1]), int(user[2]))
    checks.that("the company's program runs", company(at, "--help")[1], 0)
    checks.that("Python keeps its module compiled", (at / "usr/lib/python3/dist-packages/achdesk/__pycache__").is_dir(), True)
    make_desk(str(at / "usr/bin/achdesk"), at / "var/lib/achdesk/bank.db")
    for path in (at / "var/lib/achdesk").iterdir():
        os.chown(path, *users["achdesk"])
        path.chmod(0o640)  # as its unit does before each start, for the backups
    for name in ("var/lib/achdesk-day/2025-01-08-A.ach", "var/log/achdesk/proxy.log", "etc/achdesk/tls/key.pem"):
        (at / name).write_text(name)
    (at / "etc/achdesk/keys/people.map").write_text('"~^alice-key-1$" "operator:alice";\n')
    for name in EDITED:
        with open(at / name, "a") as file:
            file.write("# the bank's own\n")
    (at / "etc/nginx/sites-enabled").mkdir()
    (at / "etc/nginx/sites-enabled/achdesk").symlink_to("../sites-available/achdesk")
    kept, configured = snapshot(at, *KEPT), [(at / name).read_text() for name in EDITED]
    for deb in debs[1:]:
        printed, status = root.dpkg("--install", deb)
        checks.that(f"it is upgraded to {deb.name}, without a question", (status == 0 or printed, root.status()), (True, "install ok installed"))
        checks.that("and all files have their owners", "not all files have" in printed and printed, False)
        checks.that("nothing of the bank's is touched", (snapshot(at, *KEPT), [(at / name).read_text() for name in EDITED]), (kept, configured))
    checks.that("what is new in the configuration is next to it", all("a new setting" in (at / "usr/share/achdesk/etc" / Path(name).name).read_text() for name in EDITED[:-1]))
    checks.that("the snippets are the new ones", (at / "etc/nginx/snippets/achdesk-http.conf").read_text().endswith("# a new setting\n"))
    printed, status = root.dpkg("--remove", "achdesk")
    checks.that("it is removed", (status == 0 or printed, root.status(), (at / "usr/bin/achdesk").exists()), (True, "deinstall ok config-files", False))
    checks.that("no module is left", [*(at / "usr/lib/python3").rglob("achdesk*")], [])
    checks.that("nothing of the bank's is touched by that", (snapshot(at, *KEPT), [(at / name).read_text() for name in EDITED]), (kept, configured))
    checks.that("the site has still what it includes", [it for it in SITE_PARTS.values() if not (at / "etc/nginx" / it).exists()], [])
    archived = at / "var/lib/achdesk-day/2025-01-08-A.ach"
    os.chown(archived, *users["achdesk"])
    os.chown(at / "var/lib/achdesk/bank.db", 0, 0)
    printed, status = root.dpkg("--install", debs[1])
    checks.that("it is installed again, and a desk's file that is root's is reported", (status, bool(re.search("unsafe path transition.*bank.db", printed))), (0, True))
    checks.that("what achdesk-day wrote as the user achdesk is its own now", (os.stat(archived).st_uid, os.stat(archived).st_gid), users["achdesk-day"])
    os.chown(at / "var/lib/achdesk/bank.db", *users["achdesk"])
    os.chown(archived, 0, 0)
    checks.that("and the keys are those of before", snapshot(at, *KEPT), kept)
    printed, status = root.dpkg("--purge", "achdesk")
    checks.that("it is purged", (status == 0 or printed, root.status(), [it for it in EDITED if (at / it).exists()]), (True, None, []))
    checks.that("no file of a desk, of the archive, of the log or of the keys is touched by that either", snapshot(at, *KEPT), kept)
    checks.that("no link is left that keeps nginx from starting", os.path.lexists(at / "etc/nginx/sites-enabled/achdesk"), False)
    for name in ("postinst", "prerm", "postrm"):
        checks.that(f"sh takes {name}", said("sh", "-n", DEPLOY / "package" / name), ("", 0))


# ---- a whole Debian

class Debian:
    """A Debian 12 in a folder, made by debootstrap, whose programs run with processes of their own."""

    def __init__(self, folder):
        self.folder = folder
        done = said("debootstrap", "--variant=minbase", "--include=ca-certificates", "bookworm", folder, env=os.environ | {"PATH": PATHS})
        if done[1]:
            sys.exit(f"debootstrap made no Debian: {done[0][-500:]}")
        shutil.copy("/etc/resolv.conf", folder / "etc/resolv.conf")

    def run(self, command):
        """What a command of the shell prints there, and its status. Nobody answers a question."""
        known = {"PATH": "/usr/sbin:/usr/bin:/sbin:/bin", "LC_ALL": "C", "DEBIAN_FRONTEND": "noninteractive", "HOME": "/root"}
        return said("unshare", "--mount", "--pid", "--fork", f"--mount-proc={self.folder}/proc", "chroot", self.folder, "sh", "-ec", command, env=known, stdin=subprocess.DEVNULL)


def debian(checks, program, folder):
    for number in (1, 2):
        said("make", "--no-print-directory", "-C", TOP, "deb", f"PROGRAM={program}", f"VERSION=1.0.0+{number}", f"PACKAGES={folder}", "DPKG_DEB=dpkg-deb --root-owner-group -Zgzip -z1")
    debs = sorted(folder.glob("achdesk_*.deb"))
    debs.append(changed(debs[1], folder))
    machine = Debian(folder / "debian")
    for deb in debs:
        shutil.copy(deb, machine.folder / "root")
    install = "apt-get install -y --no-install-recommends /root/"
    printed, status = machine.run(f"apt-get update -q && {install}{debs[0].name}")
    checks.that("apt installs the package with all that it depends on", status == 0 or printed[-500:])
    checks.that("each of its programs prints its help there", [it for it in ("achdesk", "achdesk-day", "achdesk-company") if machine.run(f"{it} --help")[1]], [])
    page = (TOP / "docs/operate/install.md").read_text().partition("\n## The proxy\n")[2].partition("\n## ")[0]
    enabled = next(it for it in re.findall(r"```sh\n(.*?)```", page, re.S) if "sites-enabled" in it).replace("systemctl reload nginx\n", "")
    made = "openssl req -x509 -newkey rsa:2048 -nodes -subj /CN=desk -keyout /etc/achdesk/tls/key.pem -out /etc/achdesk/tls/cert.pem"
    printed, status = machine.run(f"{made} 2> /dev/null; {enabled}")
    checks.that("its nginx takes the site, by the page's commands", (status, "test is successful" in printed), (0, True))
    edit = "; ".join(f"echo '# the bank has its own' >> /{name}" for name in EDITED)
    machine.run(edit)
    for deb in debs[1:]:
        printed, status = machine.run(f"{install}{deb.name}; nginx -t -q")
        checks.that(f"apt upgrades it to {deb.name} without a question, and nginx takes the site", status == 0 or printed[-500:])
    checks.that("what the bank edited is as it was", [it for it in EDITED if "the bank has its own" not in (machine.folder / it).read_text()], [])
    for word in ("remove", "purge"):
        printed, status = machine.run(f"apt-get {word} -y achdesk; nginx -t -q")
        checks.that(f"apt-get {word}, and nginx starts without it", status == 0 or printed[-500:])


PARTS = {it.__name__: it for it in (units, start, proxy, keys, limits, second, firewall, log, manual, package, debian)}


def main():
    words = sys.argv[1:]
    program = program_of([it for it in words if it not in PARTS][:1])
    wrong = [it for it in words if it not in PARTS][1:]
    if wrong:
        print(f"there is no part {wrong[0]}: {' '.join(PARTS)}")
        return 2
    if missing() or os.geteuid():
        print(f"it needs {', '.join([*missing(), *(['root'] if os.geteuid() else [])])}")
        return 2
    checks = Checks()
    for name in [it for it in words if it in PARTS] or [it for it in PARTS if it != "debian"]:
        with tempfile.TemporaryDirectory(prefix=f"deploy-{name}-") as folder:
            print(f"---- {name}", flush=True)
            PARTS[name](checks, program, Path(folder))
    checks.end()


if __name__ == "__main__":
    sys.exit(main())
