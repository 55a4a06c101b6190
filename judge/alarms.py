#!/usr/bin/env python3
"""Tries the alarms of deploy/achdesk-alarm with real receivers: `python3 judge/alarms.py`.

- By mail, to Debian's aiosmtpd with STARTTLS and a password: a wrong password, a certificate that is not trusted and a server without
  STARTTLS or that is down keep the alarm, the right ones deliver it once.
- To Debian's Alertmanager: an alarm is there, lasts, and ends; while it is down the alarm waits.
- To both: one that is down does not keep the other from its alarm, and nothing is delivered twice.
- By mail, with a text that the server refuses for what it says: the other mails arrive, and one that says so.
- By a receiver that never answers; a delivery that is killed at any moment; a mail with control characters in the alarm's text.
- `achdesk-day` raises an alarm by the shipped command, with neither network nor password, and its unit does not raise it again.

The status is 1 if a check failed, and 2 if Debian packages are missing, which are named; that is not a pass.
"""

import email
import email.policy
import json
import os
import shutil
import signal
import socket
import subprocess
import sys
import tempfile
import time
import urllib.request
from pathlib import Path

from helpers.running import HOST, TOP, Checks, free_port

ALARM, DAY = TOP / "deploy" / "achdesk-alarm", TOP / "deploy" / "achdesk-day"
USER, PASSWORD = "achdesk", "the-mail-password"
PACKAGES = {"prometheus-alertmanager": "prometheus-alertmanager", "openssl": "openssl"}


def missing():
    found = [package for program, package in PACKAGES.items() if not shutil.which(program)]
    has_server = subprocess.run(["/usr/bin/python3", "-c", "import aiosmtpd"], capture_output=True).returncode == 0
    return found + ([] if has_server else ["python3-aiosmtpd"])


class Place:
    """The folders, the keys and the configuration of achdesk-alarm."""

    def __init__(self, folder):
        self.folder, self.state, self.second = folder, folder / "state", folder / "second"
        for path in (self.state / "waiting", self.state / "units", self.second, folder / "credentials", folder / "mails"):
            path.mkdir(parents=True)
        self.config = folder / "alarm.conf"
        self.certificate, self.key = folder / "cert.pem", folder / "key.pem"
        subprocess.run(["openssl", "req", "-x509", "-newkey", "rsa:2048", "-nodes", "-keyout", self.key, "-out", self.certificate, "-days", "2", "-subj", "/CN=localhost",
                        "-addext", "subjectAltName=DNS:localhost,IP:127.0.0.1"], check=True, capture_output=True)
        self.password(PASSWORD)

    def password(self, text):
        (self.folder / "credentials" / "alarm-mail").write_text(text + "\n")

    def configure(self, mail=None, alertmanager=None):
        """Writes the configuration."""
        lines = ["[alarm]", "host = desk-1"]
        for name, told in (("mail", mail), ("alertmanager", alertmanager)):
            lines += [f"[{name}]", *(f"{key} = {value}" for key, value in (told or {}).items())]
        self.config.write_text("\n".join(lines) + "\n")

    def words(self, *words):
        return [sys.executable, ALARM, "--config", self.config, "--state", self.state, "--second", self.second, *words]

    def run(self, *words, given="", **environment):
        done = subprocess.run(self.words(*words), input=given, text=True, capture_output=True, timeout=120,
                              env=os.environ | {"CREDENTIALS_DIRECTORY": str(self.folder / "credentials")} | environment)
        return done.returncode, done.stderr

    def waits(self):
        return len(list((self.state / "waiting").glob("[!.]*.json")))

    def mails(self):
        return [email.message_from_bytes(path.read_bytes(), policy=email.policy.default) for path in sorted((self.folder / "mails").iterdir())]

    def mail(self, port, **changes):
        return {"to": "ach@bank.example, night@bank.example", "server": "localhost", "port": port, "ca_file": self.certificate, "user": USER} | changes


class Server:
    """A program that listens, and is stopped at the end."""

    def __init__(self, words, port, **how):
        self.process = subprocess.Popen([str(it) for it in words], stdout=subprocess.DEVNULL, stderr=subprocess.DEVNULL, **how)
        for _ in range(600):
            try:
                socket.create_connection((HOST, port), 1).close()
                return
            except OSError:
                time.sleep(0.1)
        sys.exit(f"{words[0]} does not listen")

    def __enter__(self):
        return self

    def __exit__(self, *_):
        self.process.kill()
        self.process.wait()


def mail_server(place, port, with_tls=True):
    words = ["/usr/bin/python3", TOP / "judge/helpers/mail_server.py", port, place.folder / "mails", place.certificate if with_tls else "-", place.key, USER, PASSWORD]
    return Server(words, port)


def alertmanager(place, port):
    config = place.folder / "alertmanager.yml"
    config.write_text("route:\n  receiver: none\nreceivers:\n  - name: none\n")
    return Server(["prometheus-alertmanager", f"--config.file={config}", f"--storage.path={place.folder}/alertmanager", f"--web.listen-address={HOST}:{port}", "--cluster.listen-address="], port)


def alerts(port):
    with urllib.request.urlopen(f"http://{HOST}:{port}/api/v2/alerts", timeout=10) as answer:
        return json.load(answer)


def by_mail(checks, place):
    port = free_port()
    place.configure(place.mail(port))
    text = "the incoming file returns-1.ach was refused: BadRecord 3.\r\nBcc: everybody@example.com\x1b[2J"
    checks.that("an alarm is raised", place.run("raise", given=text)[0], 0)
    checks.that("while the server is down it waits", (place.run("deliver")[0], place.waits()), (3, 1))
    with mail_server(place, port):
        place.password("another")
        status, errors = place.run("deliver")
        checks.that("with a wrong password it waits", (status, "535" in errors, PASSWORD in errors, place.waits()), (3, True, False, 1))
        place.password(PASSWORD)
        place.configure(place.mail(port, ca_file=""))
        status, errors = place.run("deliver")
        checks.that("a server whose certificate is not trusted gets nothing", (status, "certificate verify failed" in errors, place.waits(), place.mails()), (3, True, 1, []))
        place.configure(place.mail(port, encryption="none"))
        checks.that("no password is sent without encryption", (place.run("deliver")[0], place.mails()), (3, []))
        place.configure(place.mail(port))
        checks.that("with all of it the mail is delivered", (place.run("deliver"), place.waits()), ((0, ""), 0))
        place.run("deliver")
        mails = place.mails()
        checks.that("once", len(mails), 1)
        checks.that("to each address", mails[0]["X-To"], "ach@bank.example,night@bank.example")
        checks.that("with the machine and the alarm in its subject", mails[0]["Subject"], "[desk-1] achdesk-day: the incoming file returns-1.ach was refused: BadRecord 3.?")
        checks.that("and the text, without what would be a head or a terminal's command", (mails[0]["Bcc"], "\x1b" in mails[0].get_content(), "BadRecord 3" in mails[0].get_content()),
                    (None, False, True))
        checks.that("a test is delivered", (place.run("test")[0], "This is a test" in place.mails()[-1].get_content()), (0, True))
    other = free_port()
    place.configure(place.mail(other))
    place.run("raise", given="second")
    with mail_server(place, other, with_tls=False):
        status, errors = place.run("deliver")
        checks.that("a server without STARTTLS gets nothing", (status, "STARTTLS" in errors, place.waits(), len(place.mails())), (3, True, 1, 2))
    return port


def refused_text(checks, place):
    port, before = free_port(), len(place.mails())
    place.configure(place.mail(port))
    place.run("deliver")
    for path in (place.state / "waiting").iterdir():
        path.unlink()
    with mail_server(place, port):
        for text in ("before it", "a log with EICAR in it", "after it"):
            place.run("raise", given=text)
        status, errors = place.run("deliver")
        texts = [it.get_content() for it in place.mails()[before:]]
        checks.that("a text that the server refuses keeps no other mail back", (status, place.waits(), [it for text in texts for it in ("before it", "was refused", "after it") if it in text]),
                    (0, 0, ["before it", "was refused", "after it"]))
        checks.that("and the log says what the server answered", "552 5.7.0 found EICAR" in errors)
        place.run("raise", given="the next one")
        checks.that("the next one is delivered", (place.run("deliver"), place.waits(), len(place.mails()) - before), ((0, ""), 0, 4))


def to_alertmanager(checks, place):
    port = free_port()
    place.configure(alertmanager={"url": f"http://{HOST}:{port}"})
    checks.that("while Alertmanager is down the alarm waits", (place.run("deliver")[0], place.waits()), (3, 1))
    with alertmanager(place, port):
        checks.that("and is delivered afterwards", (place.run("deliver"), place.waits()), ((0, ""), 0))
        found = alerts(port)
        checks.that("Alertmanager has it", [(it["labels"]["alertname"], it["labels"]["instance"], it["annotations"]["summary"], it["status"]["state"]) for it in found],
                    [("achdesk", "desk-1", "second", "active")])
        told = {"MONITOR_SERVICE_RESULT": "exit-code", "MONITOR_EXIT_STATUS": "2"}
        place.run("unit", "achdesk-backup@timer.service", **told)
        place.run("deliver")
        checks.that("and that of a unit", sorted(it["labels"]["source"] for it in alerts(port)), ["achdesk-backup@timer.service", "achdesk-day"])
        place.run("unit", "achdesk-backup@timer.service", MONITOR_SERVICE_RESULT="success")
        place.run("deliver")
        checks.that("which is over once the unit succeeds", [it["labels"]["source"] for it in alerts(port)], ["achdesk-day"])


def to_both(checks, place):
    port, mail_port = free_port(), free_port()
    place.configure(place.mail(mail_port), {"url": f"http://{HOST}:{port}"})
    before = len(place.mails())
    with mail_server(place, mail_port):
        place.run("raise", given="third")
        checks.that("Alertmanager is down, and the mail is sent", (place.run("deliver")[0], place.waits(), len(place.mails()) - before), (3, 1, 1))
        with alertmanager(place, port):
            checks.that("then Alertmanager gets it, and the mail is not sent again",
                        (place.run("deliver")[0], place.waits(), len(place.mails()) - before, len([it for it in alerts(port) if it["annotations"]["summary"] == "third"])), (0, 0, 1, 1))


def killed(checks, place):
    """Kills a delivery after more and more time: no alarm is lost, and each mail is whole."""
    port = free_port()
    place.configure(place.mail(port))
    with mail_server(place, port):
        for number in range(12):
            place.run("raise", given=f"killed {number}")
            process = subprocess.Popen([str(it) for it in place.words("deliver")], stderr=subprocess.DEVNULL, env=os.environ | {"CREDENTIALS_DIRECTORY": str(place.folder / "credentials")})
            time.sleep(0.05 * number)
            process.send_signal(signal.SIGKILL)
            process.wait()
        checks.that("what a killed delivery left is delivered", (place.run("deliver")[0], place.waits()), (0, 0))
        texts = "\n".join(it.get_content() for it in place.mails())
        checks.that("no alarm is lost", [it for it in range(12) if f"killed {it}" not in texts.split("\n") and f"killed {it}\r" not in texts.split("\n")], [])
    with socket.create_server((HOST, 0)) as silent:
        place.configure(place.mail(silent.getsockname()[1]))
        place.run("raise", given="a server that says nothing")
        began = time.monotonic()
        checks.that("a server that says nothing is given up", (place.run("deliver")[0], place.waits(), time.monotonic() - began < 60), (3, 1, True))


def by_the_day(checks, place):
    """achdesk-day raises an alarm by the command of the shipped day.conf, where it has neither network nor password."""
    for path in (place.state / "waiting").iterdir():
        path.unlink()
    command = next(line.partition("=")[2].strip() for line in (TOP / "deploy/day.conf").read_text().splitlines() if line.lstrip("#").startswith("command = "))
    words = " ".join(str(it) for it in place.words("raise"))
    checks.that("day.conf has the shipped command", command, "/usr/bin/achdesk-alarm raise")
    state = place.folder / "day"
    (state / "inbox").mkdir(parents=True, mode=0o700)
    key = place.folder / "key"
    key.touch(mode=0o600)
    key.write_text("a-key-of-the-day\n")
    config = place.folder / "day.conf"
    config.write_text(f"[desk]\nurl = http://{HOST}:{free_port()}\nkey_file = {key}\n[folders]\nstate = {state}\n[alarm]\ncommand = {words}\n")
    done = subprocess.run(["unshare", "--net", sys.executable, DAY, "--config", config, "open", "--day", "2099-01-01"], capture_output=True, text=True)
    checks.that("a refusal of achdesk-day waits as an alarm", (place.waits(), "ALARM" in done.stderr), (1, True))
    once_for_a_unit(checks, place, [sys.executable, DAY, "--config", config, "open", "--day"])


def once_for_a_unit(checks, place, words):
    """achdesk-day ends with status 1 in a unit, whose OnFailure= is told: one alarm, whether it is delivered before or after."""
    port, invocations = free_port(), ("1" * 32, "2" * 32)
    told = {"MONITOR_SERVICE_RESULT": "exit-code", "MONITOR_EXIT_STATUS": "1"}
    place.configure(place.mail(port))
    with mail_server(place, port):
        place.run("deliver")
        for number, invocation in enumerate(invocations):
            before = len(place.mails())
            ended = subprocess.run([*words, f"2099-01-0{2 + number}"], capture_output=True, env=os.environ | {"INVOCATION_ID": invocation}).returncode
            if number:
                place.run("deliver")
            place.run("unit", f"achdesk-day-open-{number}.service", MONITOR_INVOCATION_ID=invocation, **told)
            place.run("deliver")
            checks.that(f"status 1 in a unit is one mail, {'delivered before' if number else 'delivered after'} OnFailure= is told", (ended, len(place.mails()) - before), (1, 1))
        before = len(place.mails())
        place.run("unit", "achdesk-day-open-2.service", MONITOR_INVOCATION_ID="3" * 32, **told)
        place.run("deliver")
        checks.that("a unit whose program raised nothing is one mail", len(place.mails()) - before, 1)


def main():
    if sys.argv[1:2] in (["-h"], ["--help"]):
        print(__doc__)
        return
    if lacking := missing():
        print(f"not tried: it needs the Debian packages {' '.join(lacking)}")
        sys.exit(2)
    checks = Checks()
    with tempfile.TemporaryDirectory(prefix="judge-alarms-") as folder:
        place = Place(Path(folder))
        for part in (by_mail, to_alertmanager, to_both, refused_text, killed, by_the_day):
            part(checks, place)
    checks.end()


if __name__ == "__main__":
    main()
