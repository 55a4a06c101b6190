"""nginx in front of a desk, with the site of deploy/nginx.conf and the two files that it includes, in which only ports,
paths and what a judge names are replaced: shared by all judges that need a proxy. It needs nginx, and openssl for a
certificate of 127.0.0.1."""

import http.client
import os
import re
import shutil
import signal
import socket
import ssl
import subprocess
import sys
import time
from pathlib import Path

from helpers.running import HOST, MILL_KEY, OPERATOR_KEY, TOP, connect, found, free_port

SITE = TOP / "deploy" / "nginx.conf"
INCLUDE = re.compile(r"^ *include /etc/nginx/snippets/achdesk-(\w+)\.conf;$", re.M)
# What Debian's own nginx.conf has, in short. A worker must be able to read the folder of the judge.
MAIN = """user www-data; worker_processes auto; pid {folder}/nginx.pid; error_log {folder}/error.log;
events {{ worker_connections {connections}; }}
http {{ include /etc/nginx/mime.types; default_type application/octet-stream; sendfile on;
access_log {folder}/other.log; {temporary}
include {folder}/site.conf; }}
"""
# For judges that are not about limits, as `changes`: companies post as often as they read.
QUICK = (("achdesk_submitter_rate:1m rate=1r/s", "achdesk_submitter_rate:1m rate=1000r/s"), ("achdesk_company_open 2", "achdesk_company_open 20"))
TEMPORARY = ("client_body", "proxy", "fastcgi", "uwsgi", "scgi")

# For judges that are not about keys: people, companies and the desk's keys, each caller with the key that the desk knows.
SAME_KEYS = ({OPERATOR_KEY: "operator:operator"}, {MILL_KEY: "MILL01:mill", "bakery-key": "BAKE01:bakery"},
             {"operator": OPERATOR_KEY, "MILL01": MILL_KEY, "BAKE01": "bakery-key"})


def replaced(text, old, new):
    """The text with each `old` replaced; there must be one."""
    if old not in text:
        sys.exit(f"deploy/nginx.conf has no {old!r}")
    return text.replace(old, new)


def shipped():
    """The text of deploy/nginx.conf with the texts of the files that it includes."""
    return INCLUDE.sub(lambda found: (SITE.parent / f"nginx-{found[1]}.conf").read_text(), SITE.read_text())


def listens(port, tls):
    """The port on both loopback addresses, or on one where the machine has no IPv6."""
    lines = [f"listen {address}:{port}{' ssl' if tls else ''};" for address in (HOST, "[::1]")]
    return " ".join(lines if socket.has_ipv6 and Path("/proc/net/if_inet6").exists() else lines[:1])


def site(folder, port, desk_port, console=TOP, seconds=60, tls=True, changes=()):
    """The text of the site for a folder and two ports.

    `console` is the folder that has console/, and the desk is waited for so many seconds. `changes` are further texts with
    what replaces them. Without `tls` the site is plain HTTP, for a browser that would not trust the certificate."""
    text = re.sub(r"listen +443 ssl;\n *listen +\[::\]:443 ssl;", listens(port, tls), shipped())
    for old, new in (("127.0.0.1:880", f"{HOST}:{desk_port}"), ("proxy_read_timeout         60s", f"proxy_read_timeout {seconds}s"),
                     ("/etc/achdesk", str(folder)), ("/var/log/achdesk", str(folder)), ("/var/log/nginx", str(folder)), ("/usr/share/achdesk", str(console)),
                     ("/var/lib/achdesk-day/public", f"{folder}/public"), *changes):
        text = replaced(text, old, new)
    return text if tls else re.sub(r"\n *ssl_\w+ .*;", "", text)


def lines_of_keys(keys):
    return "".join(f'"~^{key}$" "{meaning}";\n' for key, meaning in keys.items())


class Proxy:
    """nginx in a folder of its own, and the keys that it knows.

    `people` and `companies` have for each key that is shown its `ROLE:NAME`; `desk` has for `operator` and for each
    company the key that the desk knows. The folder is made if it is not there; `changes` and the rest are as in `site`."""

    def __init__(self, folder, desk_port, people, companies, desk, port=None, connections=768, console=TOP, seconds=60, tls=True, changes=()):
        self.folder, self.port = Path(folder), port or free_port()
        self.folder.mkdir(exist_ok=True)
        self.folder.chmod(0o755)
        (self.folder / "keys").mkdir(mode=0o700)
        (self.folder / "tls").mkdir(mode=0o700)
        (self.folder / "public").mkdir(mode=0o755)
        self.log, self.errors = self.folder / "proxy.log", self.folder / "error.log"
        self.certificate = self.folder / "tls" / "cert.pem"
        self.make_certificate()
        self.write_keys(people, companies, desk)
        shutil.copy(TOP / "deploy" / "operators.conf", self.folder)
        if console == TOP:  # which nginx's workers may not reach: they are not root
            console = self.folder
            shutil.copytree(TOP / "console", console / "console")
        (self.folder / "site.conf").write_text(site(self.folder, self.port, desk_port, console, seconds, tls, changes))
        temporary = "".join(f"{it}_temp_path {self.folder}/{it};" for it in TEMPORARY)
        self.main = self.folder / "nginx.conf"
        self.main.write_text(MAIN.format(folder=self.folder, connections=connections, temporary=temporary))
        self.process = subprocess.Popen([*self.command(), "-g", "daemon off;"], stderr=subprocess.DEVNULL)
        self.wait()

    def command(self):
        return [found("nginx"), "-p", str(self.folder), "-e", str(self.errors), "-c", str(self.main)]

    def make_certificate(self):
        words = ["openssl", "req", "-x509", "-newkey", "ec", "-pkeyopt", "ec_paramgen_curve:prime256v1", "-nodes", "-days", "30", "-subj", "/CN=desk",
                 "-addext", f"subjectAltName=IP:{HOST},DNS:localhost", "-keyout", self.folder / "tls" / "key.pem", "-out", self.certificate]
        subprocess.run(words, check=True, stdout=subprocess.DEVNULL, stderr=subprocess.DEVNULL)

    def write_keys(self, people, companies, desk):
        named = {"people": people, "companies": companies, "desk": desk}
        for name, keys in named.items():
            path = self.folder / "keys" / f"{name}.map"
            with open(os.open(path, os.O_WRONLY | os.O_CREAT | os.O_TRUNC, 0o600), "w") as out:
                out.write(lines_of_keys(keys))

    def wait(self):
        for _ in range(200):
            try:
                return connect(self.port).close()
            except OSError:
                time.sleep(0.05)
        sys.exit(f"nginx does not listen: {self.errors.read_text() if self.errors.exists() else ''}")

    def reload(self):
        """Reads the configuration again, and waits until the old workers have gone."""
        old = self.workers()
        self.process.send_signal(signal.SIGHUP)
        for _ in range(200):
            if not old & self.workers() and self.workers():
                return
            time.sleep(0.05)
        sys.exit("nginx keeps its old workers")

    def reopen_log(self):
        self.process.send_signal(signal.SIGUSR1)

    def workers(self):
        children = Path(f"/proc/{self.process.pid}/task/{self.process.pid}/children")
        return set(children.read_text().split())

    def context(self):
        return ssl.create_default_context(cafile=self.certificate)

    def ask(self, method, path, body=None, key=None, headers=(), source=None, seconds=70):
        """The status, the headers and the body of a request that has a connection of its own."""
        it = http.client.HTTPSConnection(HOST, self.port, timeout=seconds, context=self.context(), source_address=source and (source, 0))
        try:
            it.request(method, path, body=body, headers={**({"X-Desk-Key": key} if key else {}), "Connection": "close", **dict(headers)})
            answer = it.getresponse()
            return answer.status, answer.headers, answer.read()
        finally:
            it.close()

    def logged(self, count=0):
        """The lines of the log, once there are so many: nginx writes a line after the answer."""
        for _ in range(100):
            lines = self.log.read_text().splitlines() if self.log.exists() else []
            if len(lines) >= count:
                break
            time.sleep(0.05)
        return lines

    def stop(self):
        self.process.send_signal(signal.SIGQUIT)
        try:
            self.process.wait(5)
        except subprocess.TimeoutExpired:
            self.process.terminate()
            self.process.wait()

    def __enter__(self):
        return self

    def __exit__(self, *_):
        self.stop()


LOGGED = re.compile(r'(?P<time>\S+) (?P<address>\S+) holder=(?P<holder>\S+) "(?P<request>(?:[^"\\]|\\.)*)" (?P<status>\d+) '
                    r'received=(?P<received>\d+) sent=(?P<sent>\d+) seconds=(?P<seconds>[\d.]+) desk=(?P<desk>.+) id=(?P<id>[0-9a-f]{32})')

