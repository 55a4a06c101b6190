#!/usr/bin/env python3
"""Clicks a bank's days through the operator's page: `python3 judge/console.py [PROGRAM] [PICTURE]`.

PROGRAM is ./achdesk if it is left out. It serves a desk behind nginx with deploy/nginx.conf, but without TLS. Chromium
without a window opens console/index.html there, types the operator's key, replaces the holidays, registers companies, sets
days, cuts, fetches files and posts files of returns, with refusals of each kind on the way. After each step what the page
shows is compared with what the calls answer. Limits are edited in their table: well, badly, after somebody else changed
them, and with a lost answer. A company's name has `<script>` in it and must stay text, and a script that is put into the
page must not run. Everything is reachable at 360 pixels and by keyboard, the page shows when the desk is gone, and locks
after fifteen minutes without use. The day program marks a file and takes files of returns next to it: the page shows what it publishes of each file, asks
before a transmitted one is saved, and knows the direction of its items in suspense. At 390 pixels the page with five
companies is less than 3,000 pixels long, has no empty tile, and breaks no date. PICTURE is where a picture is written,
and one at 390 pixels next to it; the company then has a plain name.

It takes Debian's packages chromium, chromium-driver and nginx: if one is missing it says so and ends with status 2, which
is not a pass. The last line counts the checks; the status is 1 if one failed.
"""

import datetime
import http.client
import json
import os
import re
import shutil
import subprocess
import sys
import tempfile
import time
from pathlib import Path

from helpers.browser import Browser, missing
from helpers.cutting_proxy import CuttingProxy
from helpers.bank import DAY
from helpers.proxy import QUICK, SAME_KEYS, Proxy
from helpers.refusals import CALENDAR_FAULTS, FILE_FAULTS, MESSAGE_FAULTS, PROXY_FAULTS, REFUSALS
from helpers.returned import file_of_returns
from helpers.running import HOST, MILL_KEY, OPERATOR_KEY, TOP, Checks, Serving, make_desk, program_of
from seal_console import sealed

PAGE = (TOP / "console" / "index.html").read_text()
BAKERY = "CITY BAKERY" if sys.argv[2:] else "<script>hit=1//"
NAMES = {"BAKE01": BAKERY, "MILL01": "MILL STREET"}
KEYS = {"BAKE01": "bakery-key", "MILL01": MILL_KEY}
LEVELS = {"unauthorized": 0.5, "administrative": 3, "overall": 15}  # in percent
LIMITS = ("entry_limit", "credit_limit", "debit_limit")
REASONS = {"NoTrace": "No sent entry has this trace number.", "AlreadyReturned": "The entry was returned before."}
FILES = 36
OWN_KEY = "Then issue the company a key of its own in companies.map: through the proxy, the desk’s key gets 403."


# ---- the bank

class Bank:
    """A desk behind the proxy, and the page that is opened there. `spoils` stands between the two."""

    def __init__(self, checks, browser, proxy, spoils, folder, program):
        self.checks, self.browser, self.proxy, self.spoils, self.folder, self.program = checks, browser, proxy, spoils, folder, program
        self.served = {}  # debit or credit of the items in suspense whose file the day program has taken
        self.directions = {}  # the same, of those and of the items whose file the page has read

    def ask(self, method, path, body=None, key=OPERATOR_KEY):
        """The status and the body of a call by way of the proxy."""
        it = http.client.HTTPConnection(HOST, self.proxy.port)
        it.request(method, path, body=body, headers={"X-Desk-Key": key})
        answer = it.getresponse()
        came = answer.status, answer.read()
        it.close()
        return came

    def told(self, path, key=OPERATOR_KEY):
        return json.loads(self.ask("GET", path, key=key)[1])

    def hand_in(self, company, what, **body):
        status, said = self.ask("POST", f"/c/{company}/{what}", json.dumps(body), KEYS[company])
        if status != 201:
            sys.exit(f"{body} was refused: {said}")

    def submit(self, company, ref, direction, day, cents):
        entry = {"routing": "091000019", "account": "123456789", "kind": "checking", "cents": cents, "id": "E1", "name": "ANN LEE"}
        self.hand_in(company, "submissions", ref=ref, sec="PPD", direction=direction, description="PAYROLL", day=day, entries=[entry])

    # what is done on the page

    def settled(self):
        """Waits until the page has done what it does."""
        return self.browser.wait("return document.body.getAttribute('aria-busy') !== 'true'")

    def said(self, form):
        """What is said beneath a form, once the page is done."""
        self.settled()
        return self.browser.run("return document.querySelector(arguments[0]).innerText", f"#{form} .said").replace("\xa0", " ")

    def do(self, form, **fields):
        """Fills in a form, sends it, and gives what is said."""
        self.browser.run("document.querySelectorAll('details').forEach(it => { it.open = true; })")
        for name, text in fields.items():
            self.browser.type(f"#{form} [name={name}]", text)
        self.browser.click(f"#{form} button")
        return self.said(form)

    def file(self, name, text):
        path = self.folder / name
        path.write_bytes(text if isinstance(text, bytes) else text.encode())
        return str(path)

    def set_day(self, day=None, answer="yes"):
        """Sets a day, or the one that is offered, and answers the question if there is one. Gives what is said and asked."""
        if day is not None:
            self.browser.type("#set-day [name=day]", f"{day[5:7]}{day[8:]}{day[:4]}")
        self.browser.click("#set-day button")
        self.browser.wait("return document.querySelector('dialog[open]') !== null || document.body.getAttribute('aria-busy') !== 'true'")
        asked = []
        if self.browser.run("return document.querySelector('dialog[open]') !== null"):
            asked = [it for lines in self.lines("#question-title, #question-body p") for it in lines]
            self.browser.click(f"#question-{answer}")
        return self.said("set-day"), asked

    def clock(self, moment, is_used=True):
        """Stops the browser's clock at a moment of its own time. The page is used then, or would lock itself after a leap."""
        self.browser.run("""window.RealDate ??= Date; const at = new RealDate(arguments[0]);
            Date = class extends RealDate { constructor(...given) { super(...(given.length ? given : [at])); } static now() { return at.getTime(); } };
            if (arguments[1]) document.dispatchEvent(new Event("keydown"));""", moment, is_used)

    def open(self, path="/console/"):
        """Opens the page, and the desk with the operator's key."""
        self.browser.go(f"http://{HOST}:{self.proxy.port}{path}")
        return self.unlock()

    def unlock(self):
        self.directions = dict(self.served)  # a locked page forgets what it has read
        self.browser.type("#open [name=key]", OPERATOR_KEY)
        self.browser.press("Enter")
        return self.browser.wait("return !document.getElementById('desk').hidden")

    def begin_cut(self):
        self.browser.click("#cut button")
        return self.is_asked()

    def is_asked(self):
        """Waits for a question."""
        return self.browser.wait("return document.querySelector('dialog[open]') !== null")

    def cut(self):
        self.begin_cut()
        self.browser.click("#question-yes")
        return self.said("cut")

    def day(self, *words, given="", status=0):
        """Runs a command of the day program on this desk, at noon of the desk's first day."""
        state, config = self.proxy.folder, self.folder / "day.conf"
        key = self.folder / "operator.key"
        key.touch(mode=0o600)
        key.write_text(OPERATOR_KEY)
        config.write_text(f"[desk]\nurl = http://{HOST}:{self.spoils.port}\nkey_file = {key}\n[folders]\nstate = {state}\n"
                          f"[files]\ndesk = {self.folder}/bank.db\nprogram = {self.program}\n[standby]\nto = none\n")
        done = subprocess.run([sys.executable, str(DAY), "--config", str(config), *words], input=given, text=True, capture_output=True,
                              env={**os.environ, "ACHDESK_DAY_NOW": "2025-01-08T12:00:00-05:00"})
        self.checks.that(f"achdesk-day {' '.join(words)}", (done.returncode, done.returncode != status and done.stderr), (status, False))

    def state(self):
        """What the day program has published, or None."""
        path = self.proxy.folder / "public" / "state.json"
        return json.loads(path.read_text()) if path.exists() else None

    def answer(self, yes):
        """Answers a question."""
        self.browser.click("#question-yes" if yes else "#question-no")

    def refresh(self):
        self.browser.click("#refresh")
        return self.settled()

    # what is seen on the page

    def lines(self, selector):
        """The lines of text that are seen of each element."""
        return self.browser.run("return [...document.querySelectorAll(arguments[0])].map(it => it.innerText.replaceAll('\\xa0', ' ').split(/\\n+/).map(x => x.trim()).filter(x => x))", selector)

    def rows(self, place, part="tbody"):
        """The cells of each row of a table, each with its lines."""
        return self.browser.run("""return [...document.querySelectorAll(`${arguments[0]} ${arguments[1]} tr`)].map(row => [...row.cells].map(it =>
            it.innerText.replaceAll('\\xa0', ' ').split(/\\n+/).map(x => x.trim()).filter(x => x).join('|')))""", place, part)


# ---- how things are shown

def dollars(cents):
    cents = int(cents)
    return f"{'−' if cents < 0 else ''}${abs(cents) // 100:,}.{abs(cents) % 100:02}"


def short_day(day):
    on = datetime.date.fromisoformat(day)
    return f"{on:%a} {on.day} {on:%b %Y}"


def long_day(day):
    on = datetime.date.fromisoformat(day)
    return f"{on:%A}, {on.day} {on:%B %Y}"


def many(number, one, more=None):
    return f"{number:,} {one if number == 1 else more or one + 's'}"


def records(number):
    return f"{many(number, 'record')} of entries and addenda"


def held_cell(held):
    return f"{dollars(held['cents'])}|{many(held['submissions'], 'submission')}" if held["submissions"] else "none"


def due_cell(company):
    lines = []
    for due in company["due"]:
        lines.append(f"settles {short_day(due['day'])}")
        for way in ("credits", "debits"):
            if due[way]["submissions"]:
                lines.append(f"{dollars(due[way]['cents'])} {way} in {many(due[way]['submissions'], 'submission')}")
    if company["lapsing"]:
        lines.append(f"{many(company['lapsing'], 'retry', 'retries')} would lapse")
    return "|".join(lines) or "nothing"


def sums(status, way):
    due = [it[way] for company in status["companies"] for it in company["due"]]
    return sum(int(it["cents"]) for it in due), sum(it["submissions"] for it in due)


# ---- comparisons

def is_over(company):
    return any(it["over"] for it in company["rates"].values())


def companies_of(bank):
    """The companies as the page lists them: those over a level first. There are none before the first day."""
    told = bank.told("/ops/companies")
    return sorted(told["companies"], key=is_over, reverse=True) if "companies" in told else []


def compare_status(bank, what):
    status, over = bank.told("/ops/status"), sum(map(is_over, companies_of(bank)))
    bank.checks.that(f"{what}: the day", bank.lines("#day"), [[long_day(status["day"]) if status["day"] else "No day is set"]])
    held = {way: sum(int(it["held"][way]["cents"]) for it in status["companies"]) for way in ("credits", "debits")}
    tiles = [["Credits due", dollars(sums(status, "credits")[0]), f"of {dollars(held['credits'])} held"],
             ["Debits due", dollars(sums(status, "debits")[0]), f"of {dollars(held['debits'])} held"],
             ["Files today", str(len(status["files"])), "; ".join([*([" ".join(status["files"])] if status["files"] else []), f"{FILES - len(status['files'])} left"])],
             ["In suspense", str(status["suspense"]), "check each" if status["suspense"] else "none"],
             ["Over a level", str(over), "check their return rates" if over else "no company"],
             ["Entries sent", f"{status['sent']:,}", "put into files so far"],
             ["Holidays", str(status["holidays"]), "in the list" if status["holidays"] else "no list yet"]]
    bank.checks.that(f"{what}: the sums", bank.lines("#tiles > div"), tiles)
    rows = [[f"{it['name']}|{it['id']}", held_cell(it["held"]["credits"]), held_cell(it["held"]["debits"]), due_cell(it)] for it in status["companies"]]
    bank.checks.that(f"{what}: the companies", bank.rows("#companies"), rows)
    bank.checks.that(f"{what}: the files", [it[0] for it in bank.lines("#files li")], [f"File {it}" for it in status["files"]] or ["No file was made on this day."])
    bank.checks.that(f"{what}: what is known of each", [", ".join(it[1:-2]) for it in bank.lines("#files li")] if status["files"] else [],
                     [fate(bank, f"{status['day']}-{it}") for it in status["files"]])
    is_off = status["day"] is None or not any(it["due"] or it["lapsing"] for it in status["companies"])
    bank.checks.that(f"{what}: a cut is {'off' if is_off else 'on'}", bank.browser.run("return document.querySelector('#cut button').disabled"), is_off)
    due = sum(sums(status, way)[1] for way in ("credits", "debits"))
    makes = f"A cut makes {many(status['due_files'], 'file')} with {records(status['due_records'])}" if "due_files" in status else "Needs at least 1 file"
    needed = [f"{makes}; {FILES - len(status['files'])} of 36 are left today."] if 0 < due <= 1000 else []
    held = [f"Held: {records(status['held_records'])}."] if status.get("held_records") else []
    bank.checks.that(f"{what}: how many files a cut makes, and what is held", bank.lines("#due p")[1:], [needed, held])
    compare_risks(bank, what)
    return status


def fate(bank, name):
    """What the page says of a file's transmission, by what the day program has published."""
    state = bank.state()
    if state is None:
        return "not known whether it is transmitted"
    it = state["files"].get(name)
    if it is None:
        return "not transmitted" if state["since"] and name[:10] >= state["since"] else "not known whether it is transmitted"
    if it["state"] == "undecided":
        return "undecided: achdesk-day send says why"
    told = f"{it['state']}{' by hand' if it['by_hand'] and it['state'] == 'transmitted' else ''} {short_time(it['at'])}"
    if it["state"] == "withheld":
        return told
    return f"{told}, acknowledged {short_time(it['acknowledged'])}" if it["acknowledged"] else f"{told}, not acknowledged"


def short_time(time):
    at = datetime.datetime.fromisoformat(time.replace("Z", "+00:00")).astimezone()
    return f"{at.day} {at:%b}, {at:%H:%M}"


def compare_risks(bank, what):
    companies = companies_of(bank)
    rows = [[f"{it['name']}|{it['id']}", dollars(it["entry_limit"]), *(exposure_cell(it, way)[0] for way in ("credit", "debit")),
             *(rate_cell(it, kind)[0] for kind in LEVELS), "Edit limits"] for it in companies]
    bank.checks.that(f"{what}: limits, exposures and return rates", bank.rows("#risks"), rows)
    bars = [cell(it, name)[1] for it in companies for cell, name in ((exposure_cell, "credit"), (exposure_cell, "debit"), *((rate_cell, kind) for kind in LEVELS))]
    found = bank.browser.run("return [...document.querySelectorAll('#risks .gauge i')].map(it => parseFloat(it.style.width))")
    bank.checks.that(f"{what}: their bars", [round(it, 1) for it in found], bars)
    marked = bank.browser.run("return [...document.querySelectorAll('#risks td > span > .over')].map(it => it.innerText.split('\\n')[0])")
    bank.checks.that(f"{what}: what is marked as over", sorted(marked), sorted(it.split("|")[0] for row in rows for it in row if "over" in it))


def exposure_cell(company, way):
    """What is shown of an exposure, and how long its bar is, in percent of the limit."""
    cents, limit = int(company[way]), company[f"{way}_limit"]
    if cents > limit:
        return f"{dollars(cents)}|over the limit of {dollars(limit)}", 100
    percent = cents * 1000 // limit / 10 if limit else 0
    return f"{dollars(cents)}|{percent:g}% of {dollars(limit)}", percent


def rate_cell(company, kind):
    """What is shown of a return rate, and how long its bar is, of which the level is the middle."""
    n, d, over = (company["rates"][kind][it] for it in ("n", "d", "over"))
    shown = f"{n * 100 / d:.3f}%" if d else "no debits"
    return f"{shown}|{n:,} of {d:,}{', over' if over else ''}", round(min(100, n * 100 / d / LEVELS[kind] * 50), 1) if d else 100 if n else 0


def compare_money(bank, what):
    settlement, items = bank.told("/ops/settlement"), bank.told("/ops/suspense")["items"]
    bank.checks.that(f"{what}: the balance", bank.lines("#balance"), [[f"Balance on {short_day(settlement['day'])}: {dollars(settlement['balance'])}"]])
    rows = [[short_day(it["day"]), dollars(it["cents"]), *(["to come"] if it["day"] > settlement["day"] else [])] for it in reversed(settlement["days"])]
    bank.checks.that(f"{what}: the settlement", bank.lines("#settlement li"), rows)
    most = max((abs(int(it["cents"])) for it in settlement["days"]), default=1)
    bars = [["in" if int(it["cents"]) < 0 else "out", round(abs(int(it["cents"])) * 50 / most)] for it in reversed(settlement["days"])]
    found_bars = bank.browser.run("return [...document.querySelectorAll('#settlement i')].map(it => [it.className, parseFloat(it.style.width)])")
    bank.checks.that(f"{what}: the bars", [[side, round(wide)] for side, wide in found_bars], bars)
    rows = [[short_day(it["day"]), f"{REASONS[it['why']]}|{it['why']}", it["code"], f"{it['trace']}|item {it['item']} of {it['file'].strip()}",
             f"{dollars(it['cents'])}|{bank.directions.get((it['file'], it['item']), 'see its file')}"] for it in reversed(items)]
    bank.checks.that(f"{what}: suspense", bank.rows("#suspense"), rows)


def compare_company(bank, company):
    bank.checks.that(f"{company}: nothing is said against its key", bank.do("look", id=company, key=KEYS[company]), "")
    statement = bank.told(f"/c/{company}/statement", KEYS[company])
    bank.checks.that(f"{company}: its name", bank.lines("#company h3"), [[f"{NAMES[company]} ({company})"]])
    bank.checks.that(f"{company}: its balance", bank.lines("#company .balance"), [[f"Balance on {short_day(statement['day'])}: {dollars(statement['balance'])}"]])
    lines = [[short_day(it["day"]), "Sent" if it["cause"] == "cut" else f"Return of entry {it['index']}", it["ref"], dollars(it["cents"])] for it in reversed(statement["lines"])]
    bank.checks.that(f"{company}: the newest of its statement", bank.rows("#company"), lines[:12])
    if len(lines) > 12:
        bank.browser.click("#company table + button")
        bank.checks.that(f"{company}: all of its statement", bank.rows("#company"), lines)
    bank.checks.that(f"{company}: its key is gone from the field", bank.browser.run("return document.querySelector('#look [name=key]').value"), "")


def compare_file(bank, day, letter):
    text = bank.ask("GET", f"/ops/files/{day}/{letter}")[1]
    bank.browser.click(f"[aria-label='View file {letter}']")
    bank.browser.wait("return document.getElementById('paper').open")
    bank.checks.that(f"file {letter} of {day} is shown", bank.browser.run("return document.getElementById('paper-text').textContent").encode(), text)
    control = [it for it in text.decode().split("\n") if it.startswith("9") and it.strip("9")][-1]
    sums = f"{many(int(control[1:7]), 'batch', 'batches')}, {many(int(control[13:21]), 'record')} of entries and addenda, " \
           f"{dollars(control[43:55])} of credits, {dollars(control[31:43])} of debits"
    bank.checks.that("and what is known of it", bank.lines("#paper-fate"), [[fate(bank, f"{day}-{letter}")]])
    bank.checks.that("its sums are those of its control", bank.lines("#paper-sums"), [[sums]])
    bank.browser.press("Escape")
    bank.browser.click(f"[aria-label='Save file {letter}']")
    mark = f", and then run achdesk-day mark {day}-{letter} --transmitted" if bank.state() else "."
    bank.checks.that("it is saved", bank.said("fetch"), f"{day}-{letter}.ach is saved, not transmitted: {sums}. Transmit it unchanged{mark}")
    bank.checks.that("to the byte", taken_of(bank, f"{day}-{letter}.ach"), text)


def taken_of(bank, name):
    """The bytes of a file that the browser has saved, which is removed, or None."""
    saved = bank.folder / name
    for _ in range(100):
        if saved.exists():
            text = saved.read_bytes()
            saved.unlink()
            return text
        time.sleep(0.05)
    return None


# ---- the days

def opening(bank):
    checks, browser = bank.checks, bank.browser
    browser.go(f"http://{HOST}:{bank.proxy.port}/console/")
    for what, key in (("a key that is none", "short"), ("a wrong key", "wrong-key")):
        browser.type("#open [name=key]", key)
        browser.press("Enter")
        browser.wait("return document.querySelector('#open .said').innerText !== ''")
        checks.that(f"{what}: Denied", (bank.said("open"), browser.run("return document.getElementById('desk').hidden")), ("This key is not accepted, or not from this machine. Denied", True))
    checks.that("the key opens the desk", bank.unlock())
    checks.that("and is gone from the field", browser.run("return document.querySelector('#open [name=key]').value"), "")


def before_any_day(bank):
    checks = bank.checks
    compare_status(bank, "before any day")
    checks.that("a bad list of holidays", bank.do("holidays", file=bank.file("bad.csv", "2025-01-20\n2025-01-20\n")),
                "This is not a list of holidays. The present list is unchanged. A row’s day is not after that of the row before. Row 2. BadCalendar NotAscending")
    checks.that("a good one", bank.do("holidays", file=bank.file("good.csv", "2025-01-20\n2025-05-26\n")), "The list has 2 days.")
    limits = {"entry_limit": "99,999,999.99", "credit_limit": "200000", "debit_limit": "50000.50"}
    checks.that("a company with a short key", bank.do("register", id="MILL01", name="MILL STREET", key="mill", **limits),
                "The key must have 8 to 64 characters from ! to ~. BadField key")
    checks.that("one with a limit that is no amount", bank.do("register", id="MILL01", name="MILL STREET", key=MILL_KEY, **{**limits, "entry_limit": "much"}),
                "The limit for one entry must be 0 to 99,999,999.99 dollars. BadField entry_limit")
    for company, name in NAMES.items():
        checks.that(f"{company} is registered", bank.do("register", id=company, name=name, key=KEYS[company], **limits).splitlines(),
                    [f"{company} is registered.", "Add its key to the proxy’s desk.map.", OWN_KEY])
    checks.that("it is registered once", bank.do("register", id="MILL01", name="MILL STREET", key=MILL_KEY, **limits), "A company with this identification is registered already. CompanyExists")
    new_keys(bank, limits)
    exposure = bank.told("/c/MILL01/exposure", MILL_KEY)
    checks.that("before a day nobody has an exposure", exposure, {"error": "NoDay", "number": 1})
    checks.that("nor a statement", bank.do("look", id="MILL01", key=MILL_KEY), "No desk day is set yet. Set the day first. NoDay")
    checks.that("and the page says that no day is set", bank.lines("#risks"), [["No day is set yet."]])
    compare_status(bank, "with three companies")


def new_keys(bank, limits):
    """A key is proposed at random, is never seen while it is typed, and is shown once."""
    checks, browser = bank.checks, bank.browser
    field = "return document.querySelector('#register [name=key]')"
    browser.click("#lock")
    bank.unlock()
    key = browser.run(f"{field}.value")
    checks.that("a key of 32 letters and digits is proposed", bool(re.fullmatch("[A-Za-z0-9]{32}", key)))
    checks.that("keys are masked", [browser.run(f"return document.querySelector('#{form} [name=key]').type") for form in ("open", "register", "look")], ["password"] * 3)
    fields = {"id": "OAK01", "name": "OAK LIBRARY", **limits}
    without_timers(bank)
    bank.spoils.plans.append(("cut", 0))
    checks.that("a registration whose answer is lost", bank.do("register", **fields), "No answer came. The desk may have done it nevertheless: refresh and look before you do it again.")
    said = bank.do("register", **fields).splitlines()
    checks.that("is refused when it is sent again, and its key is shown", (said[0], f'"~^OAK01$" "{key}";' in said),
                ("A company with this identification is registered already. CompanyExists It may have been registered by the request whose answer was lost.", True))
    checks.that("another company cannot be registered under it", bank.do("register", id="OAK01", name="OTHER", key="another-key", **limits),
                "A company with this identification is registered already. CompanyExists")
    browser.click("#lock")
    checks.that("a locked page has no key", browser.run(f"{field}.value"), "")
    bank.unlock()
    again = browser.run(f"{field}.value")
    said = bank.do("register", id="ELM01", name="ELM FARM", **limits).splitlines()
    checks.that("the next one has another key, which is shown once it is registered", (said, again != key),
                (["ELM01 is registered.", "Add this line to the proxy’s desk.map; it is shown this once:", f'"~^ELM01$" "{again}";', "Copy", OWN_KEY], True))
    checks.that("then a third one is proposed", browser.run(f"{field}.value") in (key, again, ""), False)
    bank.do("register", id="ELM01", name="ELM FARM", key="another-key", **limits)
    checks.that("and the key is gone from the page", again in browser.run("return document.body.innerText + [...document.querySelectorAll('input')].map(it => it.value).join(' ')"), False)
    status, _ = bank.ask("GET", "/c/ELM01/returns", key=again)
    checks.that("the proxy does not know the new key", status, 403)


def first_day(bank):
    checks, browser = bank.checks, bank.browser
    today = f"By the clock of this machine, today is {long_day(datetime.date.today().isoformat())}."
    last = "A desk day cannot be taken back."
    checks.that("a Saturday", bank.set_day("2025-01-04"), ("The new day is a Saturday, a Sunday or a holiday. NotBankingDay", ["Set the day to Saturday, 4 January 2025?", today, last]))
    checks.that("a day that is not today is asked about", bank.set_day("2025-01-08", "no"), ("", ["Set the day to Wednesday, 8 January 2025?", today, last]))
    checks.that("and is not set", bank.told("/ops/status")["day"], None)
    checks.that("the first day", bank.set_day("2025-01-08")[0], "The day is Wednesday, 8 January 2025.")
    checks.that("the limits are in cents", [bank.told("/c/MILL01/exposure", MILL_KEY)[it] for it in ("entry_limit", "credit_limit", "debit_limit")], [9999999999, 20000000, 5000050])
    bank.submit("MILL01", "PAY-1", "credit", "2025-01-10", 150000)
    bank.submit("MILL01", "PAY-2", "debit", "2025-01-10", 2500)
    for number in range(1, 15):
        bank.submit("BAKE01", f"DUES-{number}", "debit", "2025-01-09", 100000 + number)
    bank.refresh()
    before = compare_status(bank, "held and due")
    browser.run("document.querySelector('#cut button').focus()")
    browser.press("Enter")
    checks.that("Enter asks the question", bank.is_asked())
    checks.that("the question names the day", bank.lines("#question-title"), [["Cut on Wednesday, 8 January 2025?"]])
    checks.that("and what is due", bank.rows("#question-body"), [[f"{BAKERY}|BAKE01", "Thu 9 Jan 2025", "none", f"{dollars(1400105)}|14 submissions"],
                                                                  ["MILL STREET|MILL01", "Fri 10 Jan 2025", "$1,500.00|1 submission", "none"]])
    checks.that("and how much that is", bank.rows("#question-body", "tfoot"), [["In all", "", "$1,500.00|1 submission", f"{dollars(1400105)}|14 submissions"]])
    browser.press("Escape")
    checks.that("Escape leaves all as it was", (bank.said("cut"), bank.told("/ops/status")), ("", before))
    browser.press("Enter")
    checks.that("the focus is where it was", bank.is_asked())
    browser.press("Enter")
    checks.that("so does `Not now`, on which the focus stands", (bank.said("cut"), bank.told("/ops/status")), ("", before))
    browser.press("Enter")
    checks.that("a third time it asks", bank.is_asked())
    checks.that("and the button says what it does", browser.text("#question-yes"), "Create files")
    checks.that("and the question what it does not do", bank.lines("#question-body > p"),
                [["A cut puts this into files, which cannot be taken back. It transmits nothing."], ["A cut makes 1 file with 15 records of entries and addenda; 36 of 36 are left today."]])
    browser.press("Tab", "Enter")
    checks.that("the next button cuts", bank.said("cut"), "File A created with 15 entries, not transmitted: save it and transmit it.")
    compare_status(bank, "after the cut")
    compare_money(bank, "after the cut")
    compare_file(bank, "2025-01-08", "A")
    checks.that("a file that no cut made", bank.do("fetch", day="01082025", letter="b"), "No cut made this file. NoFile")


SAVE = "document.querySelector(\"[aria-label='Save file A']\").click()"  # at once: the page draws its files again by itself


def transmission(bank):
    """What the day program knows of a file is shown, and a question comes before a file is saved that may be transmitted."""
    checks, browser, name = bank.checks, bank.browser, "2025-01-08-A"
    bank.day("begin", "2025-01-08")
    bank.refresh()
    compare_status(bank, "with a day program")
    compare_file(bank, "2025-01-08", "A")
    bank.day("mark", name, "--transmitted")
    bank.refresh()
    compare_status(bank, "with a transmitted file")
    control = [it for it in bank.ask("GET", "/ops/files/2025-01-08/A")[1].decode().split("\n") if it.startswith("9") and it.strip("9")][-1]
    bank.day("ack", "-", given=f"file,batches,entries,debits,credits\n{name},{','.join(str(int(control[a:b])) for a, b in ((1, 7), (13, 21), (31, 43), (43, 55)))}\n")
    published = bank.state()
    other = lambda **changes: {**published, "files": {name: {**published["files"][name], **changes}}}
    pays = "If it is transmitted again, it pays twice."
    for what, state, doubt in (("a transmitted file", published, [pays]), ("a withheld one", other(state="withheld"), ["The bank decided not to transmit it."]),
                               ("an undecided one", other(state="undecided"), [f"It may be transmitted already. {pays}"]),
                               ("one with other bytes", other(sha256="0" * 64), [pays, "The desk’s file has other bytes than that one."])):
        (bank.proxy.folder / "public" / "state.json").write_text(json.dumps(state))
        browser.run(SAVE)
        bank.is_asked()
        checks.that(f"{what} is asked about", [it for lines in bank.lines("#question-title, #question-body p") for it in lines],
                    [f"Save {name} all the same?", f"{name}: {fate(bank, name)}.", *doubt])
        bank.answer(False)
        checks.that("and not saved without a yes", (bank.said("fetch"), (bank.folder / f"{name}.ach").exists()), ("", False))
        compare_status(bank, what)
    (bank.proxy.folder / "public" / "state.json").write_text(json.dumps({**published, "unconfirmed": True}))
    browser.run(SAVE)
    bank.is_asked()
    bank.answer(True)
    checks.that("but with one", (bank.said("fetch").split(":")[0], taken_of(bank, f"{name}.ach")), (f"{name}.ach is saved", bank.ask("GET", "/ops/files/2025-01-08/A")[1]))
    checks.that("a restored desk has to be confirmed", bank.lines("#unconfirmed"), [["The desk was restored or taken over: run achdesk-day confirm first."]])
    taken_on_the_server(bank)


def taken_on_the_server(bank):
    """The page knows what is in quarantine, and the direction of items that the day program took."""
    item = {"savings": False, "account": "55", "ident": "E9", "name": "NOBODY", "dfi": "09100001", "code": "R03", "trace": "121042880000777"}
    text = file_of_returns(5, "PPD", [{**item, "debit": True, "cents": 100}, {**item, "debit": False, "cents": 200}])
    inbox = bank.proxy.folder / "inbox"
    inbox.mkdir(exist_ok=True)
    (inbox / "r.ach").write_text(text)
    (inbox / "s.ach").write_bytes((TOP / "examples" / "spoiled.ach").read_bytes())
    bank.day("returns", status=1)
    bank.served = {(text[13:34], 1): "debit", (text[13:34], 2): "credit"}
    bank.directions = dict(bank.served)
    bank.refresh()
    compare_money(bank, "with items that the day program took")
    bank.checks.that("nothing asks for their file", bank.browser.run("return document.getElementById('directions').hidden"))
    bank.browser.click("#quarantined summary")
    refused = bank.state()["quarantined"][0]["refused"]
    bank.checks.that("the quarantine is shown", (bank.lines("#quarantined"), "BadTotal" in refused), ([["1 file in quarantine on the server", f"s.ach: {refused}"]], True))


def next_days(bank):
    checks = bank.checks
    checks.that("the next weekday is offered", bank.browser.run("return document.querySelector('#set-day [name=day]').value"), "2025-01-09")
    bank.clock("2025-01-09T23:59:00")
    told = f"By the clock of this machine, today is {long_day(datetime.date.today().isoformat())}."
    checks.that("a desk day that is not today is warned of", bank.lines("#wrong-day"), [[f"The desk day is Wednesday, 8 January 2025. {told}"]])
    checks.that("and set without a question if it is today", bank.set_day(), ("The day is Thursday, 9 January 2025.", []))
    checks.that("then nothing warns", bank.browser.run("return document.getElementById('wrong-day').hidden"))
    checks.that("an earlier day", bank.set_day("2025-01-08")[0], "The new day is not after the desk day. If an answer was lost before, the day is set already. DayNotLater")
    checks.that("the second cut", bank.cut(), "File A created with 1 entry, not transmitted: save it and transmit it.")
    compare_status(bank, "with nothing due")
    bank.clock("2025-01-17T00:01:00")
    checks.that("a day eight days ahead is asked about, even if it is today", bank.set_day("2025-01-17", "no"),
                ("", ["Set the day to Friday, 17 January 2025?", "It is 8 days after the desk day, Thursday, 9 January 2025.", "A desk day cannot be taken back."]))
    bank.clock("2025-01-15T12:00:00")
    checks.that("one seven days ahead that is not today is asked about for that alone", bank.set_day("2025-01-16", "no")[1][1:-1], ["By the clock of this machine, today is Wednesday, 15 January 2025."])
    bank.set_day("2025-01-14")
    item = {"debit": True, "savings": False, "account": "123456789", "ident": "E1", "name": "ANN LEE", "dfi": "09100001"}
    items = [{**item, "cents": 2500, "code": "R01", "trace": "121042880000016"}, {**item, "cents": 2500, "code": "R10", "trace": "121042880000016"},
             {**item, "cents": 4900, "code": "R02", "trace": "121042880000099"}, {**item, "cents": 100001, "code": "R10", "trace": "121042880000001"},
             {**item, "debit": False, "cents": 7700, "code": "R03", "trace": "121042880000098"}]
    text = file_of_returns(1, "PPD", items)
    taken = bank.file("returns.ach", text)
    checks.that("a file of returns", bank.do("returns", file=taken), "Posted: 2 returns, 0 changes, 3 in suspense.")
    checks.that("the same again", bank.do("returns", file=taken), "Posted: 2 returns, 0 changes, 3 in suspense.")
    directions = {(text[13:34], n): "debit" if it["debit"] else "credit" for n, it in enumerate(items, 1)}
    directions |= bank.served
    bank.directions = bank.in_files = directions
    compare_money(bank, "after the file")
    bank.open()
    compare_money(bank, "on a page that has not read the file")
    checks.that("a file with none of the items", bank.do("directions", file=bank.file("none.ach", file_of_returns(9, "PPD", items))), "None of the items in suspense is from this file.")
    checks.that("a text that is not a file", bank.do("directions", file=bank.file("none.txt", "a letter")), "None of the items in suspense is from this file.")
    checks.that("the file itself", bank.do("directions", file=taken), "The file has 3 items in suspense.")
    checks.that("which is all that was to be known", bank.browser.run("return document.getElementById('directions').hidden"))
    bank.directions = directions
    compare_money(bank, "once the page has read the file")
    checks.that("another under its key", bank.do("returns", file=bank.file("other.ach", file_of_returns(1, "PPD", items[:1]))),
                "Another file with the same origin, date, time and modifier was taken before. Nothing of this file was posted. FileKeyReused")
    checks.that("a file with a fault", bank.do("returns", file=str(TOP / "examples" / "spoiled.ach")),
                "This is not a file of returns and changes. Nothing of it was posted. A control has the wrong total. Record 7. BadFile BadTotal")
    checks.that("a file that is too large", bank.do("returns", file=bank.file("large", b" " * 4194305)), "The file has more than 4,194,304 bytes. TooLarge")
    bank.submit("MILL01", "PAY-3", "credit", "2025-01-16", 12520050)
    bank.submit("MILL01", "PAY-4", "credit", "2025-01-15", 4812000)
    bank.submit("BAKE01", "DUES-20", "debit", "2025-01-15", 990000)
    bank.submit("BAKE01", "DUES-21", "debit", "2025-01-21", 310000)
    bank.refresh()
    compare_status(bank, "on the day of returns")
    compare_money(bank, "on the day of returns")
    checks.that("a company's wrong key", bank.do("look", id="MILL01", key="wrong-key"), "This key is not accepted, or not from this machine. Denied")
    compare_company(bank, "BAKE01")
    compare_company(bank, "MILL01")


def limits(bank):
    """Limits are edited in their table, with the present ones in the fields."""
    checks, browser = bank.checks, bank.browser
    present = lambda: next(tuple(it[name] for name in LIMITS) for it in companies_of(bank) if it["id"] == "MILL01")
    fields = lambda: browser.run("return [...document.querySelectorAll('.limits input')].map(it => it.value)")
    wanted = [9999999999, 20000000, 5000050]
    without_timers(bank)
    checks.that("the companies over a level are first", [row[0].split("|")[1] for row in bank.rows("#risks")], ["BAKE01", "MILL01", "ELM01", "OAK01"])
    begin_edit(bank)
    checks.that("the fields have the present limits", fields(), [dollars(it)[1:] for it in wanted])
    checks.that("and the first one has the focus", browser.run("return document.activeElement.name"), "entry_limit")
    checks.that("the form is in the row below its company", [len(row) for row in bank.rows("#risks")], [8, 8, 1, 8, 8])
    checks.that("a limit that is no amount", save_limits(bank, credit_limit="much"), "The limit of credit exposure must be 0 to 9,999,999,999,999.99 dollars. BadField credit_limit")
    checks.that("a limit that is too high", save_limits(bank, credit_limit="200,000", entry_limit="100000000"), "The limit for one entry must be 0 to 99,999,999.99 dollars. BadField entry_limit")
    checks.that("nothing is changed", list(present()), wanted)
    browser.type(".limits [name=entry_limit]", "5000")
    bank.refresh()
    checks.that("what is typed stays when the page is drawn again", fields(), ["5000", "200,000", "50,000.50"])
    checks.that("one limit is changed", (save_limits(bank), bank.said("limits")), (None, "The limits of MILL01 are $5,000.00 for one entry, $200,000.00 of credits and $50,000.50 of debits."))
    wanted[0] = 500000
    checks.that("and no other", list(present()), wanted)
    compare_status(bank, "with another limit")
    begin_edit(bank)
    bank.ask("POST", "/ops/limits", json.dumps({"id": "MILL01", **dict(zip(LIMITS, (500000, 20000000, 6000000)))}))
    checks.that("limits that somebody else has changed", save_limits(bank, entry_limit="6000"), "Nothing was saved: somebody changed the limits in the meantime. The fields now have the present ones.")
    checks.that("are then in the fields", fields(), ["5,000.00", "200,000.00", "60,000.00"])
    checks.that("and can be changed", (save_limits(bank, credit_limit="100"), present()), (None, (500000, 10000, 6000000)))
    compare_status(bank, "with a limit below the exposure")
    begin_edit(bank)
    bank.spoils.plans.extend([("pass",), ("cut", 0)])
    checks.that("limits whose answer is lost", save_limits(bank, credit_limit="200000"), "No answer came. The desk may have done it nevertheless: refresh and look before you do it again.")
    checks.that("may be changed, and saved again", (present(), save_limits(bank)), ((500000, 20000000, 6000000), "Nothing was saved: somebody changed the limits in the meantime. The fields now have the present ones."))
    browser.click(".limits button[type=button]")
    checks.that("`Cancel` closes the form", fields(), [])
    bank.ask("POST", "/ops/limits", json.dumps({"id": "MILL01", **dict(zip(LIMITS, (9999999999, 20000000, 5000050)))}))
    begin_edit(bank)
    browser.click("#lock")
    checks.that("a locked page has no form of limits", fields(), [])
    bank.unlock()
    checks.that("nor after it is opened again", fields(), [])


def begin_edit(bank, company="MILL01"):
    bank.browser.click(f"[aria-label='Edit limits of {company}']")
    bank.settled()


def save_limits(bank, **limits):
    """Types limits and saves them; gives what is said in the form, or None if it is closed."""
    for name, text in limits.items():
        bank.browser.type(f".limits [name={name}]", text)
    bank.browser.click(".limits .deed")
    bank.settled()
    return bank.browser.run("return document.querySelector('.limits .said')?.innerText ?? null")


def lapse(bank):
    checks = bank.checks
    bank.set_day("2025-07-01")
    bank.hand_in("MILL01", "retries", ref="RT-1", of="PAY-2", index=1, day="2025-07-09")
    bank.set_day("2025-07-09")
    compare_status(bank, "with a retry that would lapse")
    bank.begin_cut()
    told = [it for lines in bank.lines("#question-body > p") for it in lines]
    checks.that("the question says so", told[-1], "1 retry would lapse, since it would settle too late.")
    bank.browser.click("#question-yes")
    checks.that("and it lapses", bank.said("cut"), "File A created with 4 entries, not transmitted: save it and transmit it. 1 retry lapsed.")
    compare_status(bank, "after it lapsed")
    compare_money(bank, "after it lapsed")


# ---- what holds throughout

def text_and_memory(bank):
    checks, browser = bank.checks, bank.browser
    shown = [BAKERY in browser.text(it) for it in ("#companies", "#risks")]
    checks.that("the company's name is text", (browser.run("return typeof hit"), browser.run("return document.scripts.length"), shown), ("undefined", 1, [True, True]))
    kept = browser.run("return [localStorage.length, sessionStorage.length, document.cookie]")
    checks.that("nothing is kept outside of the page", kept, [0, 0, ""])
    asked = {line.split('"')[1].split()[1] for line in bank.proxy.log.read_text().splitlines() if "Chrome" in line}
    checks.that("the page asks for itself and for the desk's paths", sorted(it for it in asked if not it.startswith(("/ops/", "/c/"))), ["/console/", "/console/state.json"])


def without_timers(bank):
    """Stops what the page asks for by itself, until it is opened again: answers that are lost or made up are those of clicks."""
    bank.browser.run("for (let it = setInterval(() => {}, 1e9); it > 0; it--) clearInterval(it)")


def too_many_files(bank):
    """A status with more due than the day's files hold, which is made up here."""
    bank.open()
    without_timers(bank)
    tally = lambda submissions, cents: {"submissions": submissions, "cents": str(cents)}
    for what, credits, debits, files, more, wanted, held in (
            ("a thousand and one submissions", (600, 1), (401, 1), 0, (), "Needs at least 2 files; 36 of 36 are left today.", []),
            ("a cent over the total of one file", (1, 10**12), (0, 0), 1, (), "Needs at least 2 files; 35 of 36 are left today.", []),
            ("as much as all files hold", (1, 0), (36_000 - 1, 36 * (10**12 - 1)), 0, (), "Needs at least 36 files; 36 of 36 are left today.", []),
            ("a submission more", (1, 0), (36_000, 5), 0, (), "Needs at least 37 files; 36 of 36 are left today. A cut would be refused.", []),
            ("a submission, and the desk counts its records", (1, 5), (0, 0), 0, (1, 1, 1), "A cut makes 1 file with 1 record of entries and addenda; 36 of 36 are left today.",
             ["Held: 1 record of entries and addenda."]),
            ("more records than one file holds", (150, 5), (0, 0), 3, (2, 150_000, 151_234),
             "A cut makes 2 files with 150,000 records of entries and addenda; 33 of 36 are left today.", ["Held: 151,234 records of entries and addenda."]),
            ("more files than are left, as the desk counts them", (9, 5), (0, 0), 3, (34, 9_000, 9_000),
             "A cut makes 34 files with 9,000 records of entries and addenda; 33 of 36 are left today. A cut would be refused.", ["Held: 9,000 records of entries and addenda."])):
        due = {"credits": tally(*credits), "day": "2025-07-10", "debits": tally(*debits)}
        company = {"due": [due], "held": {"credits": tally(*credits), "debits": tally(*debits)}, "id": "MILL01", "lapsing": 0, "name": "MILL STREET"}
        status = {"companies": [company], "day": "2025-07-09", "files": list("ABC"[:files]), "holidays": 0, "sent": 0, "suspense": 0,
                  **dict(zip(("due_files", "due_records", "held_records"), more))}
        bank.spoils.plans.append(("answer", answer_of(status)))
        bank.refresh()
        bank.checks.that(f"{what} due: {wanted}", bank.lines("#due p")[1:], [[wanted], held])
    bank.refresh()


def many_companies(bank):
    """A list of forty companies, of which two are over a level, which is made up here."""
    checks, browser = bank.checks, bank.browser
    rate = lambda n: {"d": 10, "n": n, "over": n > 1}

    def told(exposure):
        companies = [{"credit": str(exposure), "credit_limit": 100, "debit": "0", "debit_limit": 0, "entry_limit": 1, "id": f"C{number}", "name": f"COMPANY {number}",
                      "rates": {"administrative": rate(0), "overall": rate(5 if number in (33, 44) else 1), "unauthorized": rate(0)}} for number in range(10, 50)]
        bank.spoils.plans.extend([("pass",), ("answer", answer_of({"companies": companies, "day": "2025-07-09"}))])
        bank.refresh()
        return [row[0].split("|")[1] for row in bank.rows("#risks")]

    others = [f"C{number}" for number in range(10, 50) if number not in (33, 44)]
    checks.that("the first twelve companies are shown, with those over a level first", told(1), ["C33", "C44", *others[:10]])
    browser.click("#risks table + button")
    checks.that("and all on demand", len(bank.rows("#risks")), 40)
    checks.that("also when the table is drawn again", told(99), ["C33", "C44", *others])
    bank.refresh()
    compare_risks(bank, "after the made-up list")


def answer_of(value):
    """The bytes of an answer of the desk."""
    body = json.dumps(value).encode()
    return f"HTTP/1.1 200 OK\r\nContent-Type: application/json\r\nContent-Length: {len(body)}\r\nConnection: close\r\n\r\n".encode() + body


def without_use(bank):
    """The page locks itself, and a question that is open is answered with no."""
    checks, browser = bank.checks, bank.browser
    bank.submit("MILL01", "PAY-9", "credit", "2025-07-10", 100)
    for what, is_asked in (("with a question open", True), ("with a company shown", False)):
        bank.open()
        bank.do("look", id="MILL01", key=MILL_KEY)
        cuts = len(bank.told("/ops/status")["files"])
        if is_asked:
            bank.begin_cut()
        now = int(time.time() * 1000)
        bank.clock(now, is_used=False)
        browser.press("Shift")
        bank.clock(now + 14 * 60_000, is_used=False)
        time.sleep(3)
        checks.that(f"after fourteen minutes {what} it is open", browser.run("return document.getElementById('desk').hidden"), False)
        bank.clock(now + 16 * 60_000, is_used=False)
        browser.wait("return document.getElementById('desk').hidden")
        checks.that(f"after fifteen minutes {what} it is locked", (bank.said("open"), browser.run("return document.getElementById('question').open")), ("The page was locked after fifteen minutes without use.", False))
        text = browser.run("return document.body.innerText + [...document.querySelectorAll('input')].map(it => it.value).join(' ')")
        checks.that("and shows nothing of the desk", [it for it in (BAKERY, "MILL", "$", "2025", OPERATOR_KEY, MILL_KEY) if it in text], [])
        checks.that("and made no file", len(bank.told("/ops/status")["files"]), cuts)
    bank.open()
    now = int(time.time() * 1000)
    bank.clock(now + 14 * 60_000, is_used=False)
    browser.press("Shift")
    bank.clock(now + 16 * 60_000, is_used=False)
    time.sleep(3)
    checks.that("a key that was pressed two minutes before keeps it open", browser.run("return document.getElementById('desk').hidden"), False)


INJECTED = ("<script>window.hit = 1</script><img src=x onerror='window.hit = 2'><svg onload='window.hit = 3'></svg>"
            "<a id=link href='javascript:window.hit = 4'>link</a><p id=styled style='color: rgb(1, 2, 3)'>text</p>")


def injected(bank):
    """What is put into the page as HTML does not run; in a page without a policy it does."""
    checks, browser = bank.checks, bank.browser
    policy = re.search(r"<meta http-equiv=\"Content-Security-Policy\".*?>", PAGE, re.S)[0]
    folder = bank.folder / "share" / "console"
    (folder / "injected.html").write_text(PAGE.replace("</main>", f"</main>{INJECTED}"))
    (folder / "open.html").write_text(PAGE.replace("</main>", f"</main>{INJECTED}").replace(policy, ""))
    later = "const it = document.createElement('script'); it.textContent = 'window.hit = 5'; document.body.append(it);"
    for page, wanted in (("open", (5, "rgb(1, 2, 3)")), ("injected", (None, "other"))):
        browser.go(f"http://{HOST}:{bank.proxy.port}/console/{page}.html")
        browser.click("#link")
        browser.run(f"try {{ {later} }} catch {{}}")
        found = browser.run("return [window.hit ?? null, getComputedStyle(document.getElementById('styled')).color]")
        checks.that(f"a script that is put into {'a page without a policy runs' if page == 'open' else 'the page does not run'}",
                    (found[0], found[1] if found[1] == "rgb(1, 2, 3)" else "other"), wanted)
    checks.that("and the page itself works", bank.unlock())
    checks.that("the policy has the hashes of the page's script and style", PAGE == sealed(PAGE))
    checks.that("and allows no other", "unsafe" in policy, False)


MONTHS = "January|February|March|April|May|June|July|August|September|October|November|December|Jan|Feb|Mar|Apr|Jun|Jul|Aug|Sept?|Oct|Nov|Dec"
BROKEN = """const found = [], dates = /(?:\\w+day,|Mon|Tue|Wed|Thu|Fri|Sat|Sun)?[ \\xa0]?\\d{1,2}[ \\xa0](?:%s)(?:[ \\xa0]\\d{4})?/g;
const walk = document.createTreeWalker(document.body, NodeFilter.SHOW_TEXT);
while (walk.nextNode()) for (const it of walk.currentNode.data.matchAll(dates)) {
  const range = document.createRange();
  range.setStart(walk.currentNode, it.index + it[0].search(/[^ \\xa0]/));
  range.setEnd(walk.currentNode, it.index + it[0].length);
  const tops = new Set([...range.getClientRects()].map(box => Math.round(box.top)));
  found.push([it[0], tops.size]);
}
return found;""" % MONTHS
TILES = """const rows = new Map(), all = document.getElementById('tiles');
for (const it of all.children) { const box = it.getBoundingClientRect(); rows.set(Math.round(box.top), (rows.get(Math.round(box.top)) ?? -1) + box.width + 1); }
return [...rows.values()].map(it => Math.abs(it - all.clientWidth) < 1.5);"""


def on_a_phone(bank):
    """The page of five companies at 390 pixels."""
    checks, browser = bank.checks, bank.browser
    limits = {"entry_limit": "10", "credit_limit": "10", "debit_limit": "10"}
    bank.do("register", id="FIR01", name="FIR BOOKS", key="fir-books-key", **limits)
    for width in (390, 700, 900, 1100):
        browser.size(width, 800)
        checks.that(f"at {width} pixels no tile is empty", set(browser.run(TILES)), {True})
    browser.size(390, 800)
    bank.open()
    high = browser.run("return document.documentElement.scrollHeight")
    checks.that(f"five companies take less than 3,000 pixels: {high}", (high < 3000, len(bank.told("/ops/status")["companies"])), (True, 5))
    checks.that("its sections are folded", browser.run("return [...document.querySelectorAll('.fold')].map(it => it.open)"), [False] * 5)
    browser.click("[aria-labelledby=companies-title] summary")
    browser.click("[aria-label='Statement of MILL01']")
    checks.that("the form of a statement opens when it is needed", browser.run("return [document.activeElement.name, document.activeElement.form.getAttribute('id')]"), ["key", "look"])
    browser.run("document.querySelectorAll('details').forEach(it => { it.open = true; })")
    dates = browser.run(BROKEN)
    checks.that("no date wraps", (len(dates) > 8, [it for it, lines in dates if lines != 1]), (True, []))
    browser.size(1280, 900)
    bank.open()


def narrow(bank):
    begin_edit(bank)
    for width in (360, 640, 1000, 1280):
        bank.browser.size(width, 800)
        bank.checks.that(f"at {width} pixels nothing stands beyond the edge", bank.browser.run("return document.documentElement.scrollWidth"), width)
    bank.browser.size(360, 800)
    bank.begin_cut()
    box = bank.browser.run("const it = document.querySelector('dialog').getBoundingClientRect(); return it.left >= 0 && it.right <= 360 && document.querySelector('dialog').scrollWidth <= 360")
    bank.checks.that("nor does the question", box)
    beyond = "return [...document.querySelectorAll('.limits input, .limits button')].filter(it => it.getBoundingClientRect().right > 360).length"
    bank.checks.that("nor a field of limits", bank.browser.run(beyond), 0)
    bank.browser.press("Escape")
    bank.settled()
    bank.browser.size(1280, 900)


def by_keyboard(bank):
    """Each field and button has its turn with Tab."""
    mine = "[...document.querySelectorAll('a[href], button:enabled, input, summary, pre[tabindex]')].filter(it => it.checkVisibility({visibilityProperty: true}))"
    count = bank.browser.run(f"document.activeElement.blur(); window.scrollTo(0, 0); window.seen = new Set(); return {mine}.length")
    bank.browser.run("document.addEventListener('focusin', it => window.seen.add(it.target))")
    bank.browser.press(*["Tab"] * (count * 3))
    left = bank.browser.run(f"return {mine}.filter(it => !window.seen.has(it)).map(it => it.outerHTML.slice(0, 80))")
    bank.checks.that(f"Tab comes to all {count} fields and buttons", (count > 20, left), (True, []))
    bank.browser.click(".limits button[type=button]")


def without_a_desk(bank, serving, program, path):
    checks, browser = bank.checks, bank.browser
    serving.stop()
    bank.refresh()
    checks.that("the page says that the desk is gone", browser.text("#trouble").split("\n")[0].startswith("The desk does not answer. Its last answer came at "))
    checks.that("and beside the day", browser.text("#state"), "No answer")
    checks.that("a day that is set without an answer", bank.set_day()[0], "No answer came. The desk may have done it nevertheless: refresh and look before you do it again.")
    with Serving(program, path, port=serving.port).listen():
        browser.click("#trouble button")
        bank.settled()
        checks.that("once it answers again the page says so", (browser.run("return document.getElementById('trouble').hidden"), browser.text("#state")[:17]), (True, "The desk answers,"))
        compare_status(bank, "after the desk was started again")
        browser.click("#lock")
        text = browser.run("return document.body.innerText + [...document.querySelectorAll('input')].map(it => it.value).join(' ')")
        checks.that("locked, the page shows nothing of the desk", [it for it in (BAKERY, "MILL", "$", "2025", OPERATOR_KEY, MILL_KEY) if it in text], [])


def photograph(bank, path):
    """A picture of the whole page, opened again, with a company's statement and a form of limits, and one at 390 pixels."""
    browser = bank.browser
    bank.open()
    bank.do("directions", file=str(bank.folder / "returns.ach"))
    bank.directions = bank.in_files
    say_nothing = "document.querySelectorAll('.said').forEach(it => { it.textContent = ''; });"
    bank.do("look", id="MILL01", key=MILL_KEY)
    begin_edit(bank)
    browser.run(say_nothing)
    browser.run("document.querySelectorAll('details:not(.fold)').forEach(it => { it.open = false; }); document.activeElement.blur(); window.scrollTo(0, 0)")
    browser.size(1280, browser.run("return document.documentElement.scrollHeight"))
    browser.picture(path)
    browser.size(390, 900)
    bank.open()
    browser.size(390, browser.run("return document.documentElement.scrollHeight"))
    browser.picture(path.with_name(f"{path.stem}-390{path.suffix}"))
    browser.size(1280, 900)
    bank.open()


def sentences(checks):
    """Each refusal, fault of a message and fault of a file has a sentence on the page, and nothing is put in as HTML."""
    names = {name for name, _ in REFUSALS.values()} | {*MESSAGE_FAULTS, *FILE_FAULTS, *CALENDAR_FAULTS} | PROXY_FAULTS.keys()
    names -= {"BadGateway", "GatewayTimeout"}  # these are no answer
    told = set(re.findall(r"^  ([A-Z]\w+): \"", PAGE, re.M))
    checks.that(f"each of {len(names)} names has a sentence", (len(names) > 40, sorted(names - told)), (True, []))
    checks.that("the page puts nothing in as HTML and runs no text", re.findall(r"innerHTML|outerHTML|insertAdjacentHTML|document\.write|eval\(|new Function|srcdoc", PAGE), [])


def main():
    if missing():
        print(f"not tried, since these packages are missing: {', '.join(missing())}")
        sys.exit(2)
    program, checks = program_of(sys.argv[1:]), Checks()
    sentences(checks)
    with tempfile.TemporaryDirectory() as name:
        folder = Path(name)
        path = folder / "bank.db"
        make_desk(program, path)
        shutil.copytree(TOP / "console", folder / "share" / "console")
        with Serving(program, path, 100_000).listen() as serving, CuttingProxy(serving.port) as spoils:
            folder.chmod(0o711)  # nginx's workers are another user
            every = [("achdesk_log if=$achdesk_is_logged", "combined"), *QUICK]
            with Proxy(folder / "proxy", spoils.port, *SAME_KEYS, console=folder / "share", tls=False, changes=every) as proxy, Browser(folder) as browser:
                bank = Bank(checks, browser, proxy, spoils, folder, program)
                browser.size(1280, 900)
                for step in (opening, before_any_day, first_day, transmission, next_days):
                    step(bank)
                if sys.argv[2:]:
                    photograph(bank, Path(sys.argv[2]))
                for step in (limits, lapse, text_and_memory, too_many_files, many_companies, without_use, injected, on_a_phone, narrow, by_keyboard):
                    step(bank)
                without_a_desk(bank, serving, program, path)
    checks.end()


main()
