"""Instructions and CPU time of both programs for the same calls over copies of the same file."""

import datetime
import os
import re
import threading
from pathlib import Path

from histories import FULL, OPERATOR, incoming, item, text_of
from pair import Session
from helpers.desk_messages import keyed
from helpers.instructions import Callgrind, wait_until_idle
from helpers.running import copy_desk, make_desk

KEY = "a-company-key"
FIRST, SECOND, THIRD, FOURTH = (datetime.date(2025, 1, day) for day in (8, 9, 10, 13))
FAR = datetime.date(2025, 3, 3)
SIZE = 1000
RETURNS = 2000
HELD = 20_000
MORE = 300
ENTRY = {"routing": "091000019", "account": "123456789", "kind": "checking", "cents": 2500, "id": "E1", "name": "ANN LEE"}


def operator(what, body=b""):
    method, path = what.split(" ")
    return keyed(method, path, OPERATOR, body if isinstance(body, bytes) else text_of(body).encode())


def company(name, what, body=b""):
    method, path = what.split(" ")
    return keyed(method, f"/c/{name}/{path}", KEY, body if isinstance(body, bytes) else text_of(body).encode())


def submission(name, ref, entries, debit, asked):
    return company(name, "POST submissions", {"ref": ref, "sec": "PPD", "direction": "debit" if debit else "credit", "description": "DUES", "day": str(asked),
                                              "entries": [ENTRY] * entries})


def set_day(day):
    return operator("POST /ops/day", {"day": str(day)})


def returns(number, first, count):
    """A file that returns so many debits, from a sequence on."""
    sent = {"savings": False, "debit": True, "cents": 2500, "dfi": "09100001", "sec": "PPD"}
    items = [item(sent | {"trace": f"12104288{first + at:07}"}) for at in range(count)]
    return operator("POST /ops/returns", "".join(f"{record}\n" for record in incoming(number, items)).encode())


def base(open_entries):
    """The messages of the file in which all is measured. OPEN has so many open entries, debits that were sent; of DUE and EACH some are
    due, in submissions of 1,000 and of 1."""
    made = [set_day(FIRST)]
    made += [registered(name) for name in ("DUE", "EACH", "NONE", "OPEN")]
    made += [submission("OPEN", f"D{at}", SIZE, True, SECOND) for at in range(max(open_entries, 2 * RETURNS) // SIZE)]
    made += [operator("POST /ops/cut")]
    made += [submission("DUE", f"S{at}", SIZE, True, SECOND) for at in range(10)]
    made += [submission("EACH", f"S{at}", 1, True, SECOND) for at in range(100)]
    return made


def registered(name):
    return operator("POST /ops/companies", {"id": name, "name": "MILL STREET", "key": KEY} | FULL)


def one_more(name):
    """A company with an open entry."""
    return [registered(name), submission(name, "M", 1, True, FAR)]


def exposure(name):
    return company(name, "GET exposure")


STATUS = f"GET status, more than {HELD:,} entries held"
CUT_OF_ALL = "cut, an entry of submissions of 1,000 and of 1"
CUT_OF_ONE = f"cut of 1 entry, more than {HELD:,} others held"
# How many times the rival's instructions a call may take.
MOST = {STATUS: 2, CUT_OF_ALL: 4.43, CUT_OF_ONE: 3}


# What is measured, in the order in which it is asked: a name, messages, and in how many parts their cost is divided. Without a name the
# messages are sent and not measured.
def calls():
    first = lambda event: (f"first exposure after {event}, of many open entries", [exposure("OPEN")], 1)
    next_one = lambda number, event: (f"first submission of 1 after {event}, of many open entries", [submission("OPEN", f"N{number}", 1, True, FAR)], 1)
    # Where the log is copied into the file, with the commit that fills it or with the next one, differs: this takes it.
    other = lambda number: submission("NONE", f"P{number}", 1, True, FAR)
    return [
        ("first exposure after a start, of many open entries", [exposure("OPEN")], 1),
        (None, [exposure("NONE")], 1),
        ("GET exposure", [exposure("OPEN")] * 100, 100),
        (CUT_OF_ALL, [operator("POST /ops/cut")], 10 * SIZE + 100),
        first("a cut"),
        ("submission of 1,000 entries", [submission("OPEN", f"L{at}", SIZE, False, FAR) for at in range(5)], 5),
        ("submission of 1", [submission("OPEN", f"O{at}", 1, False, FAR) for at in range(100)], 100),
        ("submission of 1, of a company with nothing open", [submission("NONE", "O", 1, False, FAR)], 1),
        (None, [set_day(SECOND)], 1),
        first("a new day"),
        ("item of a returns file", [returns(1, 1, RETURNS)], RETURNS),
        first("a returns file"),
        (None, [operator("POST /ops/holidays", b"2025-02-17\n")], 1),
        first("a holiday list"),
        (None, [submission("EACH", "X", 1, True, THIRD), operator("POST /ops/cut"), other(1)], 1),
        next_one(1, "a cut"),
        (None, [set_day(THIRD), other(2)], 1),
        next_one(2, "a new day"),
        (None, [returns(2, RETURNS + 1, RETURNS), other(3)], 1),
        next_one(3, "a returns file"),
        (None, [operator("POST /ops/holidays", b"2025-02-17\n2025-05-26\n"), other(4)], 1),
        next_one(4, "a holiday list"),
        (f"GET returns, {2 * RETURNS:,} rows", [company("OPEN", "GET returns")] * 3, 3),
        (None, [submission("NONE", f"H{at}", SIZE, False, FAR) for at in range(HELD // SIZE)] + [submission("EACH", "Y", 1, True, FOURTH)], 1),
        (f"first GET status, more than {HELD:,} entries held", [operator("GET /ops/status")], 1),
        (STATUS, [operator("GET /ops/status")] * 3, 3),
        (CUT_OF_ONE, [operator("POST /ops/cut")], 1),
        (None, [message for at in range(MORE) for message in one_more(f"MORE{at:03}")] + [operator("GET /ops/companies")], 1),
        (f"GET companies, one of {MORE}", [operator("GET /ops/companies")] * 3, 3 * MORE),
    ]


OPENING = "opening the file, to the first answer"


class Measured(Session):
    """A session of which the cost of each part is told, by the way of its kind."""

    def ask_all(self, messages):
        """All messages at once, and then all answers."""
        sender = threading.Thread(target=lambda: self.send(b"".join(messages)))
        sender.start()
        answers = [self.answer() for _ in messages]
        sender.join()
        for message, answer in zip(messages, answers):
            if answer[9:11] != b"20":
                raise SystemExit(f"{message[:300]!r} was answered {answer[:300]!r}")
        return answers


class Timed(Measured):
    """CPU time in seconds, with the system's."""

    def __init__(self, command):
        self.worked = 0.0
        super().__init__(command)

    def cost(self):
        wait_until_idle(self.process)
        before, self.worked = self.worked, int(Path(f"/proc/{self.process.pid}/schedstat").read_text().split()[0]) / 1e9
        return self.worked - before

    def peak(self):
        """Its most resident memory, in KiB."""
        return int(re.search(r"VmHWM:\s+(\d+)", Path(f"/proc/{self.process.pid}/status").read_text())[1])


class Counted(Measured):
    """Instructions of user code, by callgrind, which counts anew after each part."""

    def __init__(self, command):
        self.callgrind = Callgrind()
        super().__init__([*self.callgrind.words, *command])

    def cost(self):
        return self.callgrind.part(self.process)


def run(kind, command):
    """The cost of each call, of a session over a file."""
    session = kind(command)
    costs = {}
    session.ask_all([operator("GET /ops/settlement")])
    costs[OPENING] = session.cost()
    answers = []
    for name, messages, parts in calls():
        answers += session.ask_all(messages)
        cost = session.cost()
        if name is not None:
            costs[name] = cost / parts
    if kind is Timed:
        costs["peak memory"] = session.peak()
    session.end()
    return costs, answers


class Figures:
    """The figures of both programs."""

    def __init__(self, commands, folder, open_entries, rounds):
        self.commands, self.folder, self.rounds = commands, folder, rounds
        self.base = folder / "base.db"
        self.make_base(open_entries)

    def make_base(self, open_entries):
        make_desk(self.commands[0][0], self.base)
        session = Measured([self.commands[0][0], "stdio", str(self.base)])
        session.ask_all(base(open_entries))
        session.end()

    def fresh(self, at):
        path = self.folder / f"measured-{at}.db"
        copy_desk(self.base, path)
        os.sync()
        program, *words = self.commands[at]
        return [program, *(["stdio"] if at == 0 else []), str(path), *words]

    def both(self, kind):
        costs, answers = zip(*(run(kind, self.fresh(at)) for at in (0, 1)))
        if answers[0] != answers[1]:
            raise SystemExit("the two programs answered differently while they were measured")
        return costs

    def times(self):
        """The least of the rounds."""
        best = [{}, {}]
        for _ in range(self.rounds):
            for at, costs in enumerate(self.both(Timed)):
                for name, cost in costs.items():
                    best[at][name] = min(cost, best[at].get(name, cost))
        return best

    def instructions(self):
        return self.both(Counted)


def beyond(instructions):
    """A line for each call that takes more than it may."""
    ratios = {name: instructions[0][name] / instructions[1][name] for name in MOST}
    return [f"NOT WITHIN: {name}, {ratios[name]:.2f} times the rival's instructions, at most {most}" for name, most in MOST.items() if ratios[name] > most]


def seconds(value):
    if value >= 1:
        return f"{value:.2f} s"
    return f"{value * 1e3:.3g} ms" if value >= 1e-3 else f"{value * 1e6:.3g} µs"


def count(value):
    return f"{value:,.0f}"


def ratio(ours, theirs):
    return f"{ours / theirs:.1f}" if ours > 0.1 * theirs else f"{ours / theirs:.3f}"


def table(instructions, times):
    """The figures as a table of Markdown."""
    rows = ["| Call | Instructions | C++ | Ratio | CPU time | C++ | Ratio |", "|---|---|---|---|---|---|---|"]
    for name in times[0]:
        ours, theirs = times[0][name], times[1][name]
        if name == "peak memory":
            rows.append(f"| {name} | | | | {ours / 1024:.0f} MB | {theirs / 1024:.0f} MB | {ours / theirs:.1f} |")
            continue
        counted = ["", "", ""]
        if instructions:
            one, other = instructions[0][name], instructions[1][name]
            counted = [count(one), count(other), ratio(one, other)]
        rows.append(f"| {name} | {' | '.join(counted)} | {seconds(ours)} | {seconds(theirs)} | {ratio(ours, theirs)} |")
    return "\n".join(rows)
