"""The package installed under a real systemd: on the host `tree` makes what `make install` installs, and inside a virtual
machine of helpers/machine.py `install` puts it into place, and the rest asks systemd and the desk."""

import http.client
import json
import os
import shutil
import subprocess
import time
from pathlib import Path

from helpers.running import HOST, TOP

KEY, PORT = "the-desk-s-own-operator-key", 880
MILL = {"id": "MILL01", "name": "MILL STREET", "key": "mill-street-key", "entry_limit": 9_999_999_999, "credit_limit": 999_999_999_999_999, "debit_limit": 999_999_999_999_999}
DESK = Path("/var/lib/achdesk/bank.db")


def tree(folder, program):
    """What `make install` installs, below a folder of the host."""
    subprocess.run(["make", "--no-print-directory", "-C", str(TOP), "install", f"DESTDIR={folder}", f"PROGRAM={program}"], check=True, stdout=subprocess.DEVNULL)


def done(*words, given=None, check=False, user=None, seconds=600):
    """Runs a command, as another user if one is named, and returns its status, output and errors."""
    before = ["setpriv", f"--reuid={user}", f"--regid={user}", "--init-groups"] if user else []
    it = subprocess.run([*before, *(str(word) for word in words)], input=given, capture_output=True, text=True, timeout=seconds)
    if check and it.returncode:
        raise SystemExit(f"{' '.join(map(str, words))}: {it.returncode} {it.stdout} {it.stderr}")
    return it.returncode, it.stdout, it.stderr


def install(source=Path("/judge/tree")):
    """Installs as the pages say, with a key list of the desk's own key."""
    done("cp", "-a", f"{source}/.", "/", check=True)
    done("systemd-sysusers", "achdesk.conf", check=True)
    done("systemd-tmpfiles", "--create", "achdesk.conf", check=True)
    keys = Path("/etc/achdesk/keys")
    for name, text in (("desk.map", f'"~^operator$" "{KEY}";\n'), ("day", f"{KEY}\n"), ("repository", "the-repository-password\n")):
        with open(keys / name, "w", opener=lambda path, flags: os.open(path, flags, 0o600)) as file:
            file.write(text)
    done("systemctl", "daemon-reload", check=True)


def make_desk(path=DESK):
    done("achdesk", "init", path, "--odfi", "121042882", "--odfi-name", "OUR BANK", "--destination", "061000146", "--destination-name", "ACH OPERATOR", "--key", KEY,
         check=True, user="achdesk")


def ask(method, path, body=None, key=KEY, seconds=120, port=PORT):
    """Asks the desk, and returns the status and the body, or 0 and the fault."""
    link = http.client.HTTPConnection(HOST, port, timeout=seconds)
    try:
        link.request(method, path, json.dumps(body).encode() if body is not None else None, {"X-Desk-Key": key, "Connection": "close"})
        answer = link.getresponse()
        return answer.status, answer.read()
    except (OSError, http.client.HTTPException) as fault:
        return 0, str(fault).encode()
    finally:
        link.close()


def wait_for_desk(seconds=300, port=PORT):
    until = time.monotonic() + seconds
    while time.monotonic() < until:
        if ask("GET", "/ops/status", port=port)[0] == 200:
            return True
        time.sleep(0.3)
    return False


def status():
    return json.loads(ask("GET", "/ops/status")[1])


def submit(ref, entries=1, day="2025-01-15"):
    """Submits credits, and returns the status of the answer."""
    told = [{"routing": "091000019", "account": "123456789", "kind": "checking", "cents": 100 + at, "id": f"E{at}", "name": "ANN LEE"} for at in range(entries)]
    return ask("POST", "/c/MILL01/submissions", {"ref": ref, "sec": "PPD", "direction": "credit", "description": "PAYROLL", "day": day, "entries": told}, MILL["key"])[0]


def begin_bank():
    """Registers a company and sets the day."""
    return [ask("POST", "/ops/companies", MILL)[0], ask("POST", "/ops/day", {"day": "2025-01-08"})[0]]


def refs():
    """The references that the desk has, by stock SQLite, which reads a copy."""
    import sqlite3
    folder = Path("/tmp/copy")
    shutil.rmtree(folder, ignore_errors=True)
    folder.mkdir()
    for end in ("", "-wal"):
        if Path(f"{DESK}{end}").exists():
            shutil.copy(f"{DESK}{end}", folder)
    db = sqlite3.connect(folder / DESK.name)
    try:
        return {ref for (ref,) in db.execute("SELECT ref FROM submissions")}
    finally:
        db.close()


def ended(unit):
    """How a unit ended: its result and the exit status."""
    shown = done("systemctl", "show", unit, "--property=Result", "--property=ExecMainStatus", "--value")[1].split("\n")
    return shown[0], shown[1]
