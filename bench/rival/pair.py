"""Two programs that answer the same messages over files of their own: the desk and its rival."""

import re
import subprocess
from collections import Counter

from helpers.running import copy_desk, make_desk, read_answer, rows_of

LONGEST_SESSION = 1000


def kind_of(answer):
    """The status of an answer, and the name of its refusal or fault."""
    if not answer:
        return "none"
    name = re.search(rb'"error":"([A-Za-z]+)"', answer[:400])
    return " ".join([answer[9:12].decode(), *([name[1].decode()] if name else [])])


class Session:
    """A program with a session on its standard input and output."""

    def __init__(self, command):
        self.process = subprocess.Popen(command, stdin=subprocess.PIPE, stdout=subprocess.PIPE, bufsize=1 << 16)

    def send(self, message):
        self.process.stdin.write(message)
        self.process.stdin.flush()

    def answer(self):
        return read_answer(self.process.stdout)

    def end(self):
        self.process.stdin.close()
        rest = self.process.stdout.read()
        return rest, self.process.wait()


class Pair:
    """The two programs. What they answer differently is kept."""

    def __init__(self, commands, folder, name, base=None):
        self.commands = commands
        self.paths = [folder / f"{name}-desk.db", folder / f"{name}-rival.db"]
        if base is None:
            make_desk(commands[0][0], self.paths[0])
        else:
            copy_desk(base, self.paths[0])
        copy_desk(self.paths[0], self.paths[1])
        self.answers = self.rows = 0
        self.differences = []
        self.kinds = Counter()
        self.sessions = None
        self.asked = 0

    def command(self, at, path=None):
        program, *words = self.commands[at]
        return [program, *(["stdio"] if at == 0 else []), str(path or self.paths[at]), *words]

    def start(self):
        self.sessions = [Session(self.command(at)) for at in (0, 1)]
        self.asked = 0

    def stop(self):
        """Ends both sessions between two messages."""
        if self.sessions is None:
            return
        ends = [session.end() for session in self.sessions]
        self.sessions = None
        if ends[0] != ends[1] or ends[0][1] != 0:
            self.differences.append(("the end of a session", *map(repr, ends)))

    def ask(self, message):
        """The answer of the desk."""
        if self.sessions is None:
            self.start()
        for session in self.sessions:
            session.send(message)
        desk, rival = (session.answer() for session in self.sessions)
        self.answers += 1
        self.kinds[kind_of(desk)] += 1
        self.asked += 1
        if desk != rival:
            self.differences.append((message, desk, rival))
        if desk == b"" or rival == b"":
            raise EOFError(f"a session ended at {message[:300]!r}: {desk[:300]!r} {rival[:300]!r}")
        if self.asked == LONGEST_SESSION:
            self.stop()
        return desk

    def ask_alone(self, sent):
        """A session of its own, of which all bytes and the status are compared."""
        self.stop()
        done = [subprocess.run(self.command(at), input=sent, stdout=subprocess.PIPE) for at in (0, 1)]
        self.answers += 1
        self.kinds[kind_of(done[0].stdout)] += 1
        if (done[0].stdout, done[0].returncode) != (done[1].stdout, done[1].returncode):
            self.differences.append((sent, *(f"{it.stdout!r} status {it.returncode}" for it in done)))
        return done[0].stdout

    def compare_rows(self):
        """All rows of all tables, read by Python's sqlite3."""
        self.stop()
        desk, rival = map(rows_of, self.paths)
        for table in sorted({*desk, *rival}):
            ours, theirs = desk.get(table, []), rival.get(table, [])
            self.rows += len(ours)
            if ours != theirs:
                first = next((pair for pair in zip(ours, theirs) if pair[0] != pair[1]), (len(ours), len(theirs)))
                self.differences.append((f"rows of {table}", *map(repr, first)))
