#!/usr/bin/env python3
"""Bounds what calls cost if much is open or old: `python3 judge/costs.py [PROGRAM] [PART]`.

PROGRAM is the built program. A PART above 1 divides the sizes by it, for a first try.

The judge asks `achdesk serve` over a file by HTTP. A figure is the instructions of user code of one call, counted by callgrind, so a
busy or slow machine gives the same ones. There are six desks:

- one has a company with 100,000 open credits and one with 100,000 open debits, in submissions of 1,000, and one with 5,000 open
  debits in submissions of 1. A cut, a new day, a holiday list or a returns file comes before each first exposure and each first
  submission that is measured, and the desk is started again before others;
- one has 1,000,000 old debits of a company, of which 20,000 were returned, and 10,000 in the window of the return rates;
- one is asked for its status after 1,000 sent entries, after 100,000 more, and with 20,000 items in suspense;
- one is asked for its status with 20,000 held entries, and again after a submission;
- one has 1,000 companies of 100 open entries, which the operator asks for in one call;
- one has a company with 201,000 open submissions, more than the desk keeps one by one. A cut and a returns file name it.

A bound is a number of instructions, or a ratio to the same call of a company with nothing open or old.

It prints a table with a line for each figure. The status is 1 if a figure is not within its bound, and 2 if Debian's valgrind is
missing. A run takes half an hour.
"""

import datetime
import json
import shutil
import sys
import tempfile
import time
from pathlib import Path

from helpers.instructions import Callgrind
from helpers.returned import file_of_returns
from helpers.running import Serving, body_of, connect, make_desk, message, program_of, read_answer, status_of

KEY = "a-company-key"
SIZE = 1_000
OPEN, EACH = 100, 5_000  # submissions of 1,000 entries, and of 1
RETURNED = 2_000  # entries of a company in a returns file
WEEKS, WEEKLY, RECENT, BACK = 50, 20, 10, 20_000  # weeks, submissions of 1,000 in each, those in the window, returned entries
STRAYS, NEVER_SENT = 20_000, 5_000_001  # items that match no entry, and the first sequence that they name
HELD = 20  # held submissions of 1,000
COMPANIES, OF_EACH = 1_000, 100  # companies of one desk, and the open entries of each
OVER = 201_000  # submissions of one company: more than are kept one by one
ENTRY = '{"routing":"091000019","account":"123456789","kind":"checking","cents":100,"id":"E1","name":"ANN LEE"}'
LIMITS = {"entry_limit": 9_999_999_999, "credit_limit": 999_999_999_999_999, "debit_limit": 999_999_999_999_999}
LAST = 5  # submissions of 1,000 that are measured together
CALLS = 20  # short calls of one kind that are measured together
AGAIN = 2  # how often an event and the first call after it are measured: a commit may copy the log into the file, but not two in a row
FIRST_DAY, ASKED, LAST_DAY = datetime.date(2025, 1, 8), datetime.date(2025, 3, 3), datetime.date(2025, 2, 28)
HOLIDAYS = [datetime.date(2099, 1, 1) + datetime.timedelta(at) for at in range(300)]  # they change no settlement of this desk
KINDS = {"PAY": "credits", "DUES": "debits", "EACH": "single debits"}


def next_day(day):
    day += datetime.timedelta(1)
    while day.weekday() >= 5:
        day += datetime.timedelta(1)
    return day


def submission(company, reference, entries, debit, asked):
    body = (f'{{"ref":"{reference}","sec":"PPD","direction":"{"debit" if debit else "credit"}","description":"DUES","day":"{asked}",'
            f'"entries":[{",".join([ENTRY] * entries)}]}}')
    return message(f"POST /c/{company}/submissions", body, KEY)


class Desk:
    """A served desk, its client, and the cost of calls. Calls are counted after `restart`: until then the program runs by itself,
    which is faster."""

    def __init__(self, program, path):
        make_desk(program, path)
        self.program, self.path = program, path
        self.day, self.count, self.references, self.companies, self.lists, self.files = None, 0, 0, 0, 0, 0
        self.serving = Serving(program, path, 1_000_000).listen()
        self.open()

    def open(self):
        self.socket = connect(self.serving.port)
        self.socket.settimeout(3_600)
        self.reader, self.count = self.socket.makefile("rb"), 0

    def close(self):
        self.reader.close()
        self.socket.close()

    def end(self):
        self.close()
        with self.serving:
            pass

    def restart(self):
        """Serves the desk anew, by callgrind."""
        self.end()
        self.callgrind = Callgrind(is_off=True)
        self.serving = Serving(self.program, self.path, 1_000_000, under=self.callgrind.words).listen(3_600)
        self.open()

    def ask(self, *messages):
        """Returns the body of the last answer. Each status must be 200 or 201."""
        if self.count + len(messages) > 900:
            self.close()
            self.open()
        self.count += len(messages)
        came = b""
        for sent in messages:
            self.socket.sendall(sent)
            came = read_answer(self.reader)
            if status_of(came) not in (200, 201):
                sys.exit(f"{sent[:200]} was answered {came[:300]}")
        return body_of(came)

    def cost(self, *messages):
        """Returns the instructions of one of these messages, which go over one connection."""
        self.ask(message("GET /ops/suspense"))
        self.callgrind.begin(self.serving.process)
        self.ask(*messages)
        return self.callgrind.end(self.serving.process) / len(messages)

    def set_day(self, day):
        self.day = day
        self.ask(message("POST /ops/day", json.dumps({"day": str(day)})))

    def cut(self):
        return json.loads(self.ask(message("POST /ops/cut", "")))

    def company(self, name=None):
        self.companies += 1
        name = name or f"NEW{self.companies}"
        self.ask(message("POST /ops/companies", json.dumps({"id": name, "name": "MILL STREET", "key": KEY} | LIMITS)))
        return name

    def submissions(self, count, company, entries, debit, asked=ASKED):
        self.references += count
        return [submission(company, f"R{self.references - at}", entries, debit, asked) for at in range(count)]

    # ---- events

    def cut_some(self):
        """Cuts one small submission of each company with much open."""
        for company in KINDS:
            self.ask(*self.submissions(1, company, 1, company != "PAY", next_day(self.day)))
        self.cut()

    def turn_day(self):
        self.set_day(next_day(self.day))

    def list_holidays(self):
        """Sets a list with one day more or less. No settlement that was closed counts again."""
        self.lists += 1
        self.ask(message("POST /ops/holidays", "".join(f"{day}\n" for day in HOLIDAYS[self.lists % 2:])))

    def give_back(self, *ranges):
        """Takes a file that returns entries: of each range the direction, the first sequence and how many."""
        self.files += 1
        items = [dict(debit=debit, savings=False, account="123456789", cents=100, ident="E1", name="ANN LEE", code="R01",
                      trace=f"12104288{sequence:07}", dfi="09100001") for debit, first, count in ranges for sequence in range(first, first + count)]
        self.ask(message("POST /ops/returns", file_of_returns(self.files, "PPD", items)))


class Figures:
    """The least of each figure, and the lines of the table."""

    def __init__(self):
        self.best, self.lines, self.failed = {}, [], 0

    def keep(self, what, instructions):
        self.best[what] = min(instructions, self.best.get(what, instructions))

    def report(self, what, without, found, bound, is_within):
        self.failed += not is_within
        self.lines.append(f"| {what} | {without} | {found:,.0f} | {bound} | {'within' if is_within else 'NOT WITHIN'} |")

    def times(self, what, without, found, most):
        """Bounds the ratio of two figures."""
        ratio = self.best[found] / self.best[without]
        self.report(what, f"{self.best[without]:,.0f}", self.best[found], f"{ratio:.2f} times, at most {most}", ratio <= most)

    def at_most(self, what, found, most, parts=1):
        """Bounds a figure, or one part of it."""
        each = self.best[found] / parts
        self.report(what, "", self.best[found], f"{f'{each:,.0f} each, ' if parts > 1 else ''}at most {most:,}", each <= most)


def exposure(company):
    return message(f"GET /c/{company}/exposure", key=KEY)


def rates(company):
    return message(f"GET /c/{company}/rates", key=KEY)


# ---- much that is open

def filled(program, folder, figures, part):
    """Returns a desk with much that is open, and measures the last submissions of 1,000 of the first company."""
    desk = Desk(program, folder / "open.db")
    desk.set_day(FIRST_DAY)
    for company in ("PAY", "DUES", "EACH", "IDLE"):
        desk.company(company)
    desk.ask(*desk.submissions(OPEN // part, "DUES", SIZE, True))
    for _ in range(EACH // part // 100):
        desk.ask(*desk.submissions(100, "EACH", 1, True))
    desk.ask(*desk.submissions(OPEN // part - LAST, "PAY", SIZE, False))
    desk.restart()
    desk.ask(exposure("PAY"))
    figures.keep("submissions of 1,000", desk.cost(*desk.submissions(LAST, "PAY", SIZE, False)))
    return desk


def first_calls(desk, figures, event, happen, asked=ASKED):
    """Measures the first exposure and the first submission of each company after an event, and those of companies with nothing open."""
    for company in ("IDLE", *KINDS):
        for _ in range(AGAIN):
            desk.ask(exposure(company))
            happen()
            figures.keep(f"exposure of {company} after {event}", desk.cost(exposure(company)))
    for company in KINDS:
        entries, debit = 1 if company == "EACH" else SIZE, company != "PAY"
        for _ in range(AGAIN):
            for what, name in ((f"of {company}", company), (f"next to {company}", desk.company())):
                desk.ask(exposure(name))
                happen()
                figures.keep(f"submission {what} after {event}", desk.cost(*desk.submissions(1, name, entries, debit, asked)))


def starts(desk, figures):
    """Measures the first exposure of each company after a start, and the same one again."""
    for company in ("IDLE", *KINDS):
        desk.restart()
        desk.ask(message("GET /c/IDLE/returns", key=KEY))
        figures.keep(f"exposure of {company} after a start", desk.cost(exposure(company)))
        figures.keep(f"exposure of {company}", desk.cost(*[exposure(company)] * CALLS))


def steady(desk, figures):
    """Measures submissions of companies with much open, and of new ones."""
    for company in KINDS:
        entries, debit, count = (1, True, CALLS) if company == "EACH" else (SIZE, company == "DUES", 3)
        for _ in range(AGAIN):
            figures.keep(f"submission of {company}", desk.cost(*desk.submissions(count, company, entries, debit)))
            new = [desk.submissions(1, desk.company(), entries, debit)[0] for _ in range(count)]
            figures.keep(f"submission next to {company}", desk.cost(*new))


def send_all(desk, part):
    """Cuts all that is held. Returns the first sequence of the credits and of the debits with much open."""
    desk.set_day(LAST_DAY)
    before = json.loads(desk.ask(message("GET /ops/status")))["sent"]
    sent = desk.cut()["entries"]
    print(f"the last cut sent {sent:,} entries", flush=True)
    return {"DUES": before + 1, "PAY": before + sent - OPEN // part * SIZE + 1}


def measure_open(program, folder, figures, part):
    desk = filled(program, folder, figures, part)
    starts(desk, figures)
    first_calls(desk, figures, "a cut", desk.cut_some)
    first_calls(desk, figures, "a holiday list", desk.list_holidays)
    steady(desk, figures)
    first_calls(desk, figures, "a new day", desk.turn_day)
    first = send_all(desk, part)
    count = RETURNED // part

    def returned():
        desk.give_back((True, first["DUES"], count), (False, first["PAY"], count))
        first.update({company: sequence + count for company, sequence in first.items()})

    first_calls(desk, figures, "a returns file", returned, next_day(ASKED))
    desk.end()


# ---- much that is old

def aged(program, path, part):
    """Returns a desk of which one company has many old entries, and as many in the window as another."""
    desk, weekly = Desk(program, path), max(WEEKLY // part, 1)
    desk.company("AGED")
    desk.company("YOUNG")
    desk.set_day(datetime.date(2024, 1, 8))
    for week in range(WEEKS):
        desk.ask(*desk.submissions(weekly, "AGED", SIZE, True, next_day(desk.day)))
        desk.cut()
        desk.set_day(desk.day + datetime.timedelta(7))
        if week == 0:
            desk.give_back((True, 1, min(BACK, weekly * SIZE)))
    old = WEEKS * weekly * SIZE
    desk.set_day(desk.day + datetime.timedelta(63))
    for company in ("AGED", "YOUNG"):
        desk.ask(*desk.submissions(RECENT, company, SIZE, True, next_day(desk.day)))
    desk.cut()
    desk.set_day(desk.day + datetime.timedelta(7))
    for first in (old + 1, old + RECENT * SIZE + 1):
        desk.give_back((True, first, 200))
    return desk


def measure_old(program, folder, figures, part):
    start = time.monotonic()
    desk = aged(program, folder / "old.db", part)
    desk.restart()
    print(f"the desk with old entries was made in {time.monotonic() - start:.0f} s", flush=True)
    desk.set_day(next_day(desk.day))
    for company in ("AGED", "YOUNG"):
        figures.keep(f"first rates of {company}", desk.cost(rates(company)))
        figures.keep(f"rates of {company}", desk.cost(*[rates(company)] * CALLS))
        for event, happen in [("a cut", desk.cut), ("a holiday list", desk.list_holidays)]:
            happen()
            figures.keep(f"rates of {company} after {event}", desk.cost(rates(company)))
    if desk.ask(rates("AGED")) != desk.ask(rates("YOUNG")):
            sys.exit("the two companies have other rates")
    print(f"rates over all codes: {json.loads(desk.ask(rates('AGED')))['overall']}", flush=True)
    desk.end()


# ---- the operator's reads

def measure_status(program, folder, figures, part):
    """Measures the status after 1,000 sent entries, after 100,000 more, and with items in suspense. As much is held each time."""
    desk = Desk(program, folder / "status.db")
    desk.set_day(FIRST_DAY)
    desk.company("SENT")
    desk.company("HELD")
    desk.ask(*desk.submissions(20, "HELD", 1, True, LAST_DAY))
    desk.restart()
    for what, count in [("1,000 sent", 1), ("100,000 more sent", 100 // part)]:
        desk.ask(*desk.submissions(count, "SENT", SIZE, False, next_day(desk.day)))
        desk.cut()
        desk.set_day(next_day(desk.day))
        ask_status(desk, figures, what, 0)
    desk.give_back((True, NEVER_SENT, STRAYS // part))
    ask_status(desk, figures, "with suspense", STRAYS // part)
    desk.end()


def ask_status(desk, figures, what, suspense):
    """Measures the status, which must count these items in suspense."""
    figures.keep(f"status, {what}", desk.cost(*[message("GET /ops/status")] * CALLS))
    told = json.loads(desk.ask(message("GET /ops/status")))["suspense"]
    if told != suspense:
        sys.exit(f"{told} items in suspense were reported, and {suspense} were taken")


def measure_held(program, folder, figures, part):
    """Measures the status over held submissions of 1,000 entries, and the first one after a submission."""
    desk, asks = Desk(program, folder / "held.db"), message("GET /ops/status")
    desk.set_day(FIRST_DAY)
    desk.company("HELD")
    desk.ask(*desk.submissions(max(HELD // part, 1), "HELD", SIZE, True, LAST_DAY))
    desk.restart()
    desk.ask(asks)
    figures.keep("status, many held", desk.cost(*[asks] * CALLS))
    desk.ask(*desk.submissions(1, "HELD", 1, True, LAST_DAY))
    figures.keep("status after a submission", desk.cost(asks))
    desk.end()


def measure_companies(program, folder, figures, part):
    """Measures the operator's call for 1,000 companies with open entries, and the first one after each event."""
    desk, asks = Desk(program, folder / "companies.db"), message("GET /ops/companies")
    desk.set_day(FIRST_DAY)
    names = [desk.company() for _ in range(COMPANIES // part)]
    for at, name in enumerate(names):
        desk.ask(*desk.submissions(1, name, OF_EACH, at % 2 == 0))
    desk.restart()
    figures.keep("companies after a start", desk.cost(asks))
    for event, happen in [("a cut", desk.cut), ("a holiday list", desk.list_holidays), ("a new day", desk.turn_day)]:
        happen()
        figures.keep(f"companies after {event}", desk.cost(asks))
        figures.keep("companies", desk.cost(*[asks] * 3))
    desk.restart()
    figures.keep("their own calls", desk.cost(*[ask(name) for name in names[:400] for ask in (exposure, rates)]) * 2 * len(names))
    if len(json.loads(desk.ask(asks))["companies"]) != len(names):
        sys.exit("companies are missing")
    desk.end()


# ---- more than is kept one by one

def measure_large(program, folder, figures, part):
    """Measures calls of a company with more open submissions than are kept one by one, and of one with few."""
    desk, asks = Desk(program, folder / "large.db"), message("GET /ops/companies")
    desk.set_day(FIRST_DAY)
    for company in ("FEW", "LARGE"):
        desk.company(company)
        desk.ask(*desk.submissions(2, company, 1, True, next_day(desk.day)))
    desk.cut()
    for _ in range(OVER // part // 100):
        desk.ask(*desk.submissions(100, "LARGE", 1, False))
    desk.restart()
    first = {"FEW": 1, "LARGE": 3}
    desk.ask(exposure("FEW"), exposure("LARGE"))

    def cut_both():
        for company in first:
            desk.ask(*desk.submissions(1, company, 1, False, next_day(desk.day)))
        desk.cut()

    def give_both_back():
        desk.give_back(*[(True, sequence, 1) for sequence in first.values()])
        first.update({company: sequence + 1 for company, sequence in first.items()})

    for event, happen in [("a submission", lambda: desk.ask(*desk.submissions(1, "LARGE", 1, False))), ("a cut", cut_both), ("a returns file", give_both_back)]:
        for _ in range(AGAIN):
            happen()
            figures.keep(f"few and large after {event}", desk.cost(asks))
            for company in first:
                figures.keep(f"exposure of {company} after {event}", desk.cost(exposure(company)))
                figures.keep(f"submission of {company} after {event}", desk.cost(*desk.submissions(1, company, 1, False)))
    desk.end()


# ---- the table

def report_open(figures, part):
    large, each = OPEN // part * SIZE, EACH // part // 100 * 100
    sizes = {"PAY": f"1,000 credits, {large:,} open", "DUES": f"1,000 debits, {large:,} open", "EACH": f"one debit, {each:,} open"}
    figures.at_most("an entry of submissions of 1,000", "submissions of 1,000", 85_000, SIZE)
    for company, what in sizes.items():
        figures.times(f"a submission of {what}", f"submission next to {company}", f"submission of {company}", 1.2)
    for company, kind in KINDS.items():
        count, most = (each, 60_000) if company == "EACH" else (large, 7_500)
        figures.at_most(f"exposure, {count:,} open {kind}", f"exposure of {company}", 25_000)
        figures.times(f"exposure, {count:,} open {kind}", "exposure of IDLE", f"exposure of {company}", 1.2)
        figures.at_most(f"the first exposure after a start, {count:,} open {kind}", f"exposure of {company} after a start", most, count)
    for event in ("a cut", "a new day", "a holiday list", "a returns file"):
        for company, what in sizes.items():
            figures.times(f"the first exposure after {event}, {KINDS[company]}", f"exposure of IDLE after {event}", f"exposure of {company} after {event}", 1.2)
            figures.at_most(f"the first exposure after {event}, {KINDS[company]}", f"exposure of {company} after {event}", 40_000)
            figures.times(f"the first submission after {event}, {what}", f"submission next to {company} after {event}", f"submission of {company} after {event}", 1.2)


def report_others(figures, part):
    old = WEEKS * max(WEEKLY // part, 1) * SIZE
    figures.times(f"the first rates of a day, {old:,} older entries", "first rates of YOUNG", "first rates of AGED", 1.2)
    figures.times(f"rates, {old:,} older entries", "rates of YOUNG", "rates of AGED", 1.2)
    for event in ("a cut", "a holiday list"):
        figures.times(f"the first rates after {event}", "rates of AGED", f"rates of AGED after {event}", 1.2)
    figures.times("the status, 1,000 and 100,000 entries sent", "status, 1,000 sent", "status, 100,000 more sent", 1.2)
    figures.times(f"the status, no and {STRAYS // part:,} items in suspense", "status, 100,000 more sent", "status, with suspense", 1.2)
    figures.times(f"the status after a submission, {max(HELD // part, 1) * SIZE:,} held entries", "status, many held", "status after a submission", 1.5)
    count = COMPANIES // part
    figures.at_most(f"all {count:,} companies", "companies", 8_000, count)
    for event in ("a cut", "a holiday list"):
        figures.at_most(f"all {count:,} companies, the first time after {event}", f"companies after {event}", 8_000, count)
    for event in ("a new day", "a start"):
        figures.times(f"all {count:,} companies, the first time after {event}, next to their own calls", "their own calls", f"companies after {event}", 1.0)


def report_large(figures, part):
    for event in ("a submission", "a cut", "a returns file"):
        for what in ("exposure", "submission"):
            figures.times(f"{what} after {event}, {OVER // part:,} open submissions", f"{what} of FEW after {event}", f"{what} of LARGE after {event}", 1.5)
        figures.at_most(f"all companies after {event}, one with {OVER // part:,} open submissions", f"few and large after {event}", 100_000)


def main():
    program = program_of(sys.argv[1:])
    part = int(sys.argv[2]) if len(sys.argv) > 2 else 1
    if not shutil.which("valgrind"):
        print("missing: valgrind", file=sys.stderr)
        sys.exit(2)
    figures = Figures()
    with tempfile.TemporaryDirectory() as name:
        for measure in (measure_open, measure_old, measure_status, measure_held, measure_companies, measure_large):
            measure(program, Path(name), figures, part)
    report_open(figures, part)
    report_others(figures, part)
    report_large(figures, part)
    print("| What | Without | With | Bound | |\n|---|---|---|---|---|")
    print("\n".join(figures.lines))
    print(f"{len(figures.lines)} figures, {figures.failed} not within their bounds")
    sys.exit(1 if figures.failed else 0)


main()
