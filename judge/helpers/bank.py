"""A bank's installation in a folder of its own, with the real parts on loopback: `achdesk serve`, which is started again
whenever it ends, nginx with the site of deploy/nginx.conf, an OpenSSH server for SFTP that is not root, and
deploy/achdesk_day with a configuration. It needs Debian's nginx, openssh-server, openssh-client, rsync, curl and openssl."""

import getpass
import hashlib
import json
import os
import re
import shutil
import subprocess
import sys
import threading
import time
from pathlib import Path

from helpers.running import HOST, TOP, connect, free_port, run

DAY = TOP / "judge" / "helpers" / "day_for_judges.py"
OPERATOR_KEY = "the-desk-s-own-operator-key"
DESK_KEYS = {"MILL01": "the-desk-s-own-mill-key", "BAKE01": "the-desk-s-own-bakery-key"}
PROGRAMS = {"nginx": "nginx", "sshd": "openssh-server", "sftp": "openssh-client", "ssh-keygen": "openssh-client", "rsync": "rsync",
            "curl": "curl", "openssl": "openssl"}
PATH = os.environ["PATH"] + ":/usr/sbin:/sbin"


def missing_packages():
    """The Debian packages that the parts need and that are not installed."""
    return sorted({package for program, package in PROGRAMS.items() if not shutil.which(program, path=PATH)})


def end_if_missing():
    if missing := missing_packages():
        print(f"not tried: it needs the Debian packages {' '.join(missing)}")
        sys.exit(2)


class SftpServer:
    """An OpenSSH server in a folder, which is not root and lets one user in. If the judge is root, the user is nobody,
    which has a shell in the server's own view of /etc/passwd: rsync needs one. Another key is that of a standby, which
    can only write into its folder, by the line of docs/operate/backup.md."""

    def __init__(self, folder):
        self.folder, self.port = Path(folder), free_port()
        self.user = "nobody" if os.geteuid() == 0 else getpass.getuser()
        self.inbox = self.folder / "inbox"
        self.standby = self.folder / "standby"
        for path in (self.inbox, self.standby):
            path.mkdir(parents=True)
        self.log = self.folder / "sshd.log"
        for name in ("host", "client", "copy"):
            subprocess.run(["ssh-keygen", "-q", "-t", "ed25519", "-N", "", "-f", self.folder / name], check=True)
        self.identity, self.known_hosts = self.folder / "client", self.folder / "known_hosts"
        self.known_hosts.write_text(f"[{HOST}]:{self.port} {(self.folder / 'host.pub').read_text()}")
        self.copy_identity = self.folder / "copy"
        line = next(it for it in (TOP / "docs/operate/backup.md").read_text().splitlines() if it.startswith('command="rrsync '))
        line = line.replace("/var/lib/achdesk-standby", str(self.standby)).replace("ssh-ed25519 AAAA.. achdesk-copy", (self.folder / "copy.pub").read_text())
        (self.folder / "authorized_keys").write_text((self.folder / "client.pub").read_text() + line)
        (self.folder / "sshd_config").write_text(
            f"ListenAddress {HOST}\nPort {self.port}\nHostKey {self.folder}/host\nPidFile none\nUsePAM yes\nStrictModes no\n"
            f"AuthorizedKeysFile {self.folder}/authorized_keys\nPasswordAuthentication no\nKbdInteractiveAuthentication no\n"
            f"MaxStartups 100\nSubsystem sftp internal-sftp\n")
        self.process = None
        self.start()

    def start(self):
        words = [shutil.which("sshd", path=PATH), "-D", "-f", str(self.folder / "sshd_config"), "-E", str(self.log)]
        if os.geteuid() == 0:
            for path in (self.folder / "host", self.inbox, self.standby, self.folder):
                shutil.chown(path, self.user)
            users = self.folder / "passwd"
            users.write_text(re.sub(r"(?m)^(nobody:.*:)[^:]*:[^:]*$", rf"\1{self.folder}:/bin/sh", Path("/etc/passwd").read_text()))
            words = ["unshare", "--mount", "sh", "-c", 'mount --bind "$0" /etc/passwd && exec "$@"', str(users),
                     "setpriv", f"--reuid={self.user}", "--regid=nogroup", "--clear-groups", *words]
        self.process = subprocess.Popen(words, stdout=subprocess.DEVNULL, stderr=subprocess.DEVNULL)
        for _ in range(1200):
            try:
                return connect(self.port).close()
            except OSError:
                time.sleep(0.05)
        sys.exit(f"sshd does not listen: {self.log.read_text() if self.log.exists() else ''}")

    def stop(self):
        self.process.terminate()
        self.process.wait()


class KeptDesk:
    """`achdesk serve` on one port, started again whenever it ends, as a unit of systemd does."""

    def __init__(self, program, path):
        self.program, self.path, self.port = program, path, free_port()
        self.process, self.is_kept, self.lock = None, False, threading.RLock()
        threading.Thread(target=self.keep, daemon=True).start()
        self.start()

    def keep(self):
        while True:
            with self.lock:
                if self.is_kept and self.process.poll() is not None:
                    self.serve()
            time.sleep(0.05)

    def serve(self):
        self.process = subprocess.Popen([self.program, "serve", str(self.path), str(self.port), "--connections", "1000000", "--patience", "5"],
                                        stdout=subprocess.DEVNULL, stderr=subprocess.DEVNULL)

    def start(self):
        with self.lock:
            self.serve()
            self.is_kept = True
        return self.wait()

    def wait(self):
        """Waits until it listens, and gives the seconds that this took."""
        began = time.monotonic()
        while time.monotonic() < began + 600:
            try:
                connect(self.port).close()
                return time.monotonic() - began
            except OSError:
                time.sleep(0.02)
        self.stop()
        sys.exit("the desk does not listen")

    def stop(self):
        with self.lock:
            self.is_kept = False
            self.process.kill()
            self.process.wait()


class Bank:
    """The installation: its folders, keys and configuration, and the programs that run."""

    def __init__(self, program, folder, proxied=True):
        from helpers.proxy import QUICK, Proxy
        self.program, self.folder, self.now = program, Path(folder), None
        self.settings = {}  # sections that are written into each configuration
        self.desk_file = self.folder / "desk" / "bank.db"
        self.state, self.backups = self.folder / "day", self.folder / "backups"
        for path in (self.desk_file.parent, self.state, self.backups, self.state / "inbox", self.folder / "keys", self.folder / "proxy"):
            path.mkdir(mode=0o700, parents=True)
        made = run(program, "init", self.desk_file, "--odfi", "121042882", "--odfi-name", "OUR BANK", "--destination", "061000146",
                   "--destination-name", "ACH OPERATOR", "--key", OPERATOR_KEY, seconds=300)
        if made != (b"created\n", 0):
            sys.exit(f"no desk was made: {made}")
        self.desk = KeptDesk(program, self.desk_file)
        self.sftp = SftpServer(self.folder / "operator")
        self.shown = {"day": "key-of-achdesk-day-1", "watcher": "key-of-the-watcher-1", "MILL01": "key-of-mill-erp-1", "BAKE01": "key-of-bakery-erp-1"}
        for name in self.shown:
            self.write_key(name)
        self.proxy = Proxy(self.folder / "proxy", self.desk.port, *self.key_maps(), changes=QUICK)
        self.config = self.folder / "day.conf"
        self.write_config()

    def key_maps(self):
        people = {self.shown["day"]: "operator:day", self.shown["watcher"]: "monitor:watcher"}
        companies = {self.shown[name]: f"{name}:erp" for name in DESK_KEYS}
        return people, companies, {"operator": OPERATOR_KEY} | DESK_KEYS

    def write_key(self, name):
        path = self.folder / "keys" / name
        path.touch(mode=0o600)
        path.write_text(f"X-Desk-Key: {self.shown[name]}\n")

    def rotate(self, *names):
        """Gives these callers new keys, at the proxy and in their key files."""
        for name in names:
            self.shown[name] = self.shown[name][:-1] + str(int(self.shown[name][-1]) + 1)
            self.write_key(name)
        self.proxy.write_keys(*self.key_maps())
        self.proxy.reload()

    def write_config(self, path=None, **changes):
        """Writes a configuration; `changes` are sections with settings."""
        sections = {
            "desk": {"url": f"https://{HOST}:{self.proxy.port}", "key_file": self.folder / "keys" / "day", "ca_file": self.proxy.certificate},
            "bank": {"cut_off": "16:30"},
            "folders": {"state": self.state, "backups": self.backups},
            "sftp": {"host": HOST, "port": self.sftp.port, "user": self.sftp.user, "folder": self.sftp.inbox, "identity": self.sftp.identity,
                     "known_hosts": self.sftp.known_hosts},
            "files": {"desk": self.desk_file, "program": self.program, "proxy_logs": f"{self.proxy.log}*"},
            "standby": {"to": f"{self.sftp.user}@{HOST}:/", "identity": self.sftp.copy_identity, "port": self.sftp.port,
                        "known_hosts": self.sftp.known_hosts},
            "alarm": {"command": f"sh -c 'cat >> {self.folder}/alarms'"},
            "clock": {"command": ""},
        }
        for section, settings in (*self.settings.items(), *changes.items()):
            sections[section] = sections.get(section, {}) | settings
        text = "".join(f"[{name}]\n" + "".join(f"{key} = {value}\n" for key, value in settings.items()) for name, settings in sections.items())
        (path or self.config).write_text(text)

    def begun_day(self, *words, config=None, given=None, **environment):
        """Starts achdesk-day, with a pipe to its standard input if a text is given, and returns its process."""
        known = os.environ | {"ACHDESK_DAY_NOW": self.now} | {key: str(value) for key, value in environment.items()}
        return subprocess.Popen([sys.executable, DAY, "--config", config or self.config, *words], env=known, stdout=subprocess.PIPE,
                                stdin=None if given is None else subprocess.PIPE, stderr=subprocess.PIPE, text=True)

    def day(self, *words, config=None, seconds=None, given=None, **environment):
        """Runs achdesk-day, with a text on its standard input if one is given; returns the status, what it printed, and its
        errors. It is killed after so many seconds."""
        it = self.begun_day(*words, config=config, given=given, **environment)
        if seconds is not None:
            try:
                it.wait(seconds)
            except subprocess.TimeoutExpired:
                it.kill()
        printed, errors = it.communicate(given, timeout=600)
        return it.returncode, printed, errors

    def curl(self, name, path, body=None, text=None):
        """What curl gets for a caller, by way of the proxy: the answer's object. It posts a body as JSON, or a text as it is."""
        words = ["curl", "--silent", "--show-error", "--cacert", self.proxy.certificate, "--header", f"@{self.folder}/keys/{name}"]
        given = json.dumps(body) if body is not None else text
        words += ["--data-binary", "@-"] if given is not None else []
        done = subprocess.run([*words, f"https://{HOST}:{self.proxy.port}{path}"], input=given, capture_output=True, text=True, check=True)
        return json.loads(done.stdout) if done.stdout.startswith("{") else done.stdout

    def archive(self):
        """The names and bytes of what was transmitted."""
        return bytes_of(self.state / "outgoing", ".ach")

    def received(self):
        return bytes_of(self.sftp.inbox)

    def alarms(self):
        path = self.folder / "alarms"
        return path.read_text().splitlines() if path.exists() else []

    def stop(self):
        self.desk.stop()
        self.proxy.stop()
        self.sftp.stop()

    def __enter__(self):
        return self

    def __exit__(self, *_):
        self.stop()


def bytes_of(folder, ending=""):
    return {path.name: path.read_bytes() for path in sorted(Path(folder).glob(f"*{ending}")) if path.is_file()}


def digest(text):
    return hashlib.sha256(text).hexdigest()
