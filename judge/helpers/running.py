"""What the judges of a running desk share: the program, a sample bank's desk in a file, `achdesk serve` over it,
messages with their answers, and checks that are counted."""

import os
import select
import shutil
import socket
import sqlite3
import subprocess
import sys
import tempfile
import time
from pathlib import Path

TOP = Path(__file__).resolve().parents[2]
HOST = "127.0.0.1"
SECONDS = 120  # so long an answer, or the end of a program, is waited for: a busy machine takes ten times as long

OPERATOR_KEY = "operator-key"
MILL_KEY = "mill-street-key"
IDENTITY = ["--odfi", "121042882", "--odfi-name", "OUR BANK", "--destination", "061000146",
            "--destination-name", "ACH OPERATOR", "--key", OPERATOR_KEY]
MILL = ('{"id":"MILL01","name":"MILL STREET","key":"mill-street-key","entry_limit":9999999999,'
        '"credit_limit":999999999999999,"debit_limit":999999999999999}')
PHRASES = {200: "OK", 201: "Created", 400: "Bad Request", 403: "Forbidden", 404: "Not Found", 405: "Method Not Allowed",
           409: "Conflict", 411: "Length Required", 413: "Payload Too Large", 422: "Unprocessable Entity",
           503: "Service Unavailable"}


def program_of(words):
    """The program that is judged: the first word, else the built one. `--help` prints what the judge does, and ends it.

    The script ./achdesk stands for the built program too: judges copy the program out of its tree, or refuse it memory, neither
    of which may happen to a shell."""
    if words[:1] in (["-h"], ["--help"]):
        print(sys.modules["__main__"].__doc__)
        sys.exit()
    if not words or Path(words[0]).resolve() == TOP / "achdesk":
        return built_program()
    return os.path.abspath(words[0])


def built_program():
    """The program of ./achdesk, which is proved and built first if it is not there or older than a source."""
    if subprocess.run([TOP / "achdesk", "--version"], stdout=subprocess.DEVNULL).returncode:
        sys.exit("there is no program to judge: ./achdesk did not build it; --program or a first word names another one")
    return str(TOP / "crates" / "achdesk" / "out" / "achdesk")


def found(program):
    """The path of a program, also of one in /usr/sbin, or None."""
    return shutil.which(program, path=f"{os.environ.get('PATH', '')}:/usr/sbin")


def run(program, *words, given=b"", seconds=SECONDS):
    """What a run of the program prints, and its status."""
    done = subprocess.run([program, *map(str, words)], input=given, stdout=subprocess.PIPE, stderr=subprocess.PIPE, timeout=seconds)
    return done.stdout + done.stderr, done.returncode


def built(work, name, source, uses):
    """A program of one file that is proved and built beside a copy of the crates, in a folder."""
    for part in ("crates.txt", "HANDLES"):
        shutil.copy(TOP / part, work)
    shutil.copytree(TOP / "crates", work / "crates")
    (work / "crates" / name / "src").mkdir(parents=True)
    shutil.copy(source, work / "crates" / name / "src" / "main.rt")
    with open(work / "crates.txt", "a") as crates:
        crates.write(f"{name}: {uses}\n")
    subprocess.run(["rt", "run"], cwd=work / "crates" / name, input=b"", stdout=subprocess.DEVNULL, check=True)
    return work / "crates" / name / "out" / name


def make_desk(program, path):
    """A new desk of the sample bank in a file."""
    said = run(program, "init", path, *IDENTITY, seconds=5 * SECONDS)
    if said != (b"created\n", 0):
        sys.exit(f"no desk was made: {said}")


def copy_desk(source, target):
    """Copies a desk's file with its log, which no program has open."""
    for end in ("", "-wal"):
        if Path(f"{source}{end}").exists():
            shutil.copyfile(f"{source}{end}", f"{target}{end}")


def free_port():
    """A port that nobody listens on."""
    with socket.socket() as it:
        it.bind((HOST, 0))
        return it.getsockname()[1]


def connect(port):
    it = socket.create_connection((HOST, port), timeout=SECONDS)
    it.setsockopt(socket.IPPROTO_TCP, socket.TCP_NODELAY, 1)
    return it


class Serving:
    """`achdesk serve` over a file, on a port of its own."""

    def __init__(self, program, path, connections=None, port=None, patience=None, environment=None, options=(), under=()):
        """`under` has the words of a command that runs the program, if it does not run by itself."""
        self.port = port or free_port()
        limits = [] if connections is None else ["--connections", str(connections)]
        limits += [] if patience is None else ["--patience", str(patience)]
        self.process = subprocess.Popen([*under, program, "serve", str(path), str(self.port), *limits, *options], bufsize=0,
                                        env=os.environ | (environment or {}),
                                        stdin=subprocess.DEVNULL, stdout=subprocess.PIPE, stderr=subprocess.PIPE)
        self.line = b""

    def wait_for_line(self, seconds=SECONDS):
        """The first line that it prints, which is empty where it ended without one."""
        until = time.monotonic() + seconds
        while not self.line.endswith(b"\n") and time.monotonic() < until:
            if not select.select([self.process.stdout], [], [], until - time.monotonic())[0]:
                break
            piece = os.read(self.process.stdout.fileno(), 4096)
            if not piece:
                break
            self.line += piece
        return self.line

    def listen(self, seconds=SECONDS):
        """Waits until it listens."""
        if self.wait_for_line(seconds) != f"listening on {HOST}:{self.port}\n".encode():
            self.stop()
            sys.exit(f"it does not listen: {self.line} {self.process.stderr.read()}")
        return self

    def ended(self):
        """What it printed after its first line, and its status, once it has ended by itself."""
        rest, errors = self.process.communicate(timeout=SECONDS)
        return rest + errors, self.process.returncode

    def stop(self):
        """Kills it, as nothing can refuse, and waits for its end."""
        self.process.kill()
        self.process.wait()

    def is_running(self):
        return self.process.poll() is None

    def resident(self):
        """Its resident memory in KiB."""
        for line in Path(f"/proc/{self.process.pid}/status").read_text().splitlines():
            if line.startswith("VmRSS:"):
                return int(line.split()[1])
        return 0

    def worked(self):
        """The seconds that a processor has worked for it."""
        spent = Path(f"/proc/{self.process.pid}/stat").read_text().rpartition(")")[2].split()
        return (int(spent[11]) + int(spent[12])) / os.sysconf("SC_CLK_TCK")

    def __enter__(self):
        return self

    def __exit__(self, *_):
        self.stop()
        for pipe in (self.process.stdout, self.process.stderr):
            pipe.close()


def message(asks, body=None, key=OPERATOR_KEY, fields=()):
    """A message: its method and target, its key, more fields, and its body, where it has one."""
    if isinstance(body, str):
        body = body.encode()
    lines = [f"{asks} HTTP/1.1", f"Host: {HOST}", *([f"X-Desk-Key: {key}"] if key else []), *fields]
    if body is not None:
        lines.append(f"Content-Length: {len(body)}")
    return "\r\n".join(lines + ["", ""]).encode() + (body or b"")


def answer(status, body, closes=False, kind="application/json"):
    """The bytes of an answer, as the rules of the desk have them."""
    if isinstance(body, str):
        body = body.encode()
    return (f"HTTP/1.1 {status} {PHRASES[status]}\r\nContent-Type: {kind}\r\nContent-Length: {len(body)}\r\n"
            f"Connection: {'close' if closes else 'keep-alive'}\r\n\r\n").encode() + body


def read_answer(reader):
    """The bytes of the next answer of a connection's reader; fewer where the connection ends inside it."""
    head, size = b"", 0
    while not head.endswith(b"\r\n\r\n"):
        line = reader.readline()
        if not line:
            return head
        if line.lower().startswith(b"content-length:"):
            size = int(line.split(b":")[1])
        head += line
    return head + reader.read(size)


def rows_of(path):
    """All rows of a desk's file, by stock SQLite."""
    with tempfile.TemporaryDirectory() as folder:
        copy = Path(folder) / "copy.db"
        copy_desk(path, copy)
        db = sqlite3.connect(copy)
        tables = [name for (name,) in db.execute("SELECT name FROM sqlite_master WHERE type = 'table' ORDER BY name")]
        rows = {name: sorted(map(repr, db.execute(f"SELECT * FROM {name}"))) for name in tables}
        rows["integrity_check"] = db.execute("PRAGMA integrity_check").fetchall()
        db.close()
        return rows


def plain(text):
    """An answer without its `Connection`."""
    head, end, body = text.partition(b"\r\n\r\n")
    return b"\r\n".join(line for line in head.split(b"\r\n") if not line.startswith(b"Connection: ")) + end + body


def body_of(text):
    return text.partition(b"\r\n\r\n")[2]


def status_of(text):
    return int(text.split(b" ")[1]) if text.startswith(b"HTTP/1.1 ") else 0


class Checks:
    """Checks that are told one by one and counted."""

    def __init__(self):
        self.count = self.failed = 0

    def that(self, what, found, wanted=True):
        self.count += 1
        if found == wanted:
            print(f"ok      {what}", flush=True)
            return
        self.failed += 1
        print(f"FAILED  {what}\n        found  {shown(found)}\n        wanted {shown(wanted)}", flush=True)

    def end(self):
        print(f"{self.count} checks, {self.failed} failed")
        sys.exit(1 if self.failed else 0)


def shown(value):
    text = repr(value)
    return text if len(text) <= 600 else f"{text[:400]} .. {text[-150:]} ({len(text)} characters)"
