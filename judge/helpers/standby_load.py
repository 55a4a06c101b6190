"""Clients of a desk that may be at one of several addresses, and what they hold at the end: receipts and files."""

import datetime
import http.client
import json
import random
import sqlite3
import threading
import time
from pathlib import Path

from helpers.running import HOST, OPERATOR_KEY, TOP

COMPANIES = {"BAKE01": "bakery-key", "MILL01": "mill-street-key", "SHOP01": "corner-shop-key"}
COMPANY = {"entry_limit": 9_999_999_999, "credit_limit": 999_999_999_999_999, "debit_limit": 999_999_999_999_999}
FIRST_DAY = datetime.date(2025, 1, 8)
MOST_FILES = 30  # of a day, before the operator sets the next one


class Wrong(Exception):
    """What is not as it must be."""


def must(what, found, wanted=True):
    if found != wanted:
        raise Wrong(f"{what}: found {str(found)[:600]}, wanted {str(wanted)[:600]}")


def next_day(day):
    """Returns the next banking day of a calendar without holidays."""
    day += datetime.timedelta(1)
    while day.weekday() >= 5:
        day += datetime.timedelta(1)
    return day


def once(port, method, target, body, key, seconds):
    """Sends one request over a connection of its own. Returns the status and the body, or None if no whole answer came."""
    link = http.client.HTTPConnection(HOST, port, timeout=seconds)
    try:
        link.request(method, target, body, {"X-Desk-Key": key, "Connection": "close"})
        answer = link.getresponse()
        came = answer.status, answer.read()
        return None if came[0] in (502, 503, 504) else came
    except (OSError, http.client.HTTPException):
        return None
    finally:
        link.close()


class Load:
    """Companies that submit and an operator who cuts, until they are stopped. Each asks again, at every address in turn.

    `receipts` has the answers to submissions, by company and reference; `files` the texts of the files that were fetched;
    `answers` when each write was answered, by the clock and by the address.
    """

    def __init__(self, ports, seed, clients=3, patience=20):
        self.ports, self.patience, self.random = list(ports), patience, random.Random(seed)
        self.receipts, self.files, self.refused, self.answers = {}, {}, 0, []
        self.asked = {}  # the body of each submission that was ever sent
        self.cut_entries, self.lost_cuts, self.day, self.count = 0, 0, FIRST_DAY, 0
        self.lock, self.over, self.failure = threading.Lock(), threading.Event(), None
        self.threads = [threading.Thread(target=self.guarded, args=(work,), daemon=True) for work in [self.operate] + [self.submit] * clients]

    # ---- asking

    def once(self, port, method, target, body, key, seconds):
        return once(port, method, target, body, key, seconds)

    def ask(self, method, target, body, key, seconds=None):
        """Asks at one address after the other until there is an answer; None once the load is stopped."""
        at = self.random.randrange(len(self.ports))
        while not self.over.is_set():
            port = self.ports[at % len(self.ports)]
            came = self.once(port, method, target, body, key, seconds or self.patience)
            if came is not None:
                if method == "POST":
                    self.answers.append((time.monotonic(), port, came[0]))
                return came
            at += 1
            time.sleep(0.05)
        return None

    def register(self):
        """Registers the companies and sets the first day."""
        for name, key in COMPANIES.items():
            status, said = self.ask("POST", "/ops/companies", json.dumps({"id": name, "name": name, "key": key, **COMPANY}), OPERATOR_KEY)
            must(f"the company {name}", status in (201, 409) or said)
        self.set_day(self.day)

    def begin(self):
        self.over.clear()
        self.register()
        for thread in self.threads:
            thread.start()

    def guarded(self, work):
        try:
            while not self.over.is_set():
                work()
        except BaseException as failure:
            self.failure = failure
            raise

    def stop(self):
        self.over.set()
        for thread in self.threads:
            thread.join()
        if self.failure:
            raise self.failure

    # ---- a company

    def submission(self):
        with self.lock:
            self.count += 1
            number, chance = self.count, random.Random(self.random.random())
        company, ref = chance.choice(list(COMPANIES)), f"REF-{number}"
        entries = [{"routing": "091000019", "account": str(chance.randint(1, 10**9)), "kind": "checking", "cents": chance.randint(1, 500_000),
                    "id": f"E{number}-{at}", "name": f"RECEIVER {number}"} for at in range(1, chance.randint(1, 3) + 1)]
        body = {"ref": ref, "sec": "PPD", "direction": chance.choice(["credit", "debit"]), "description": "PAYROLL",
                "day": str(self.day + datetime.timedelta(chance.randint(1, 5))), "entries": entries}
        return company, ref, body

    def submit(self):
        company, ref, body = self.submission()
        self.asked[company, ref] = body
        came = self.ask("POST", f"/c/{company}/submissions", json.dumps(body), COMPANIES[company])
        if came is None:
            return
        if came[0] == 201:
            self.receipts[company, ref] = came[1]
        else:
            must(f"{ref} is refused for its day alone", json.loads(came[1])["error"], "DateRange")
            self.refused += 1

    # ---- the operator

    def set_day(self, day):
        came = self.ask("POST", "/ops/day", json.dumps({"day": str(day)}), OPERATOR_KEY)
        if came:
            must(f"the day {day}", came[0] == 200 or json.loads(came[1])["error"] == "DayNotLater")
            self.day = day

    def operate(self):
        """Cuts; after a lost answer looks at the status and does not cut again. Fetches each file, and moves on by a day."""
        port = self.ports[self.random.randrange(len(self.ports))]
        came = self.once(port, "POST", "/ops/cut", "", OPERATOR_KEY, 60)
        if came is None:
            self.lost_cuts += 1
        else:
            must("a cut", came[0], 200)
            self.answers.append((time.monotonic(), port, 200))
            self.cut_entries += json.loads(came[1])["entries"]
        came = self.ask("GET", "/ops/status", None, OPERATOR_KEY)
        if came is None:
            return
        status = json.loads(came[1])
        for modifier in status["files"]:
            if (status["day"], modifier) not in self.files:
                text = self.ask("GET", f"/ops/files/{status['day']}/{modifier}", None, OPERATOR_KEY)
                if text:
                    must(f"the file {modifier} is there", text[0], 200)
                    self.files[status["day"], modifier] = text[1]
        if len(status["files"]) >= MOST_FILES:
            self.set_day(next_day(self.day))
        self.over.wait(self.random.uniform(0.2, 1.5))

    # ---- what is compared

    def look_again(self, port, receipts, files):
        """Sends submissions again and fetches files again: the answers must be those of the first time."""
        for company, ref in receipts:
            came = None
            while came is None:
                came = self.once(port, "POST", f"/c/{company}/submissions", json.dumps(self.asked[company, ref]), COMPANIES[company], self.patience)
            must(f"the receipt of {ref}", came, (201, self.receipts[company, ref]))
        for day, modifier in files:
            came = None
            while came is None:
                came = self.once(port, "GET", f"/ops/files/{day}/{modifier}", None, OPERATOR_KEY, self.patience)
            must(f"the file {day} {modifier}", came, (200, self.files[day, modifier]))

    def check_file(self, path):
        """Compares a copy of the desk's file, read by stock SQLite, with all that was answered. Returns what it holds."""
        db = sqlite3.connect(path)
        must("integrity_check", db.execute("PRAGMA integrity_check").fetchall(), [("ok",)])
        rows = {(company, ref): (order, entries, cents) for company, ref, order, entries, cents in db.execute(
            "SELECT s.company, s.ref, s.ord, count(*), sum(e.cents) FROM submissions s JOIN entries e ON e.company = s.company AND e.ord = s.ord GROUP BY 1, 2, 3")}
        must("references that are in the file twice", db.execute("SELECT company, ref FROM submissions GROUP BY 1, 2 HAVING count(*) > 1").fetchall(), [])
        missing = [it for it in self.receipts if it not in rows]
        must("submissions that have a receipt and are not in the file", missing, [])
        for key, receipt in self.receipts.items():
            order, entries, cents = rows[key]
            must(f"the receipt of {key[1]}", receipt.decode(), f'{{"cents":{cents},"entries":{entries},"order":{order},"ref":"{key[1]}"}}')
            must(f"the entries of {key[1]}", (entries, cents), (len(self.asked[key]["entries"]), sum(it["cents"] for it in self.asked[key]["entries"])))
        must("submissions that nobody sent", [it for it in rows if it not in self.asked], [])
        held = {(str(datetime.date(1970, 1, 1) + datetime.timedelta(day)), modifier): bytes(text)
                for day, modifier, text in db.execute("SELECT day, modifier, text FROM files")}
        for key, text in self.files.items():
            must(f"the file {key}", held.get(key) == text)
        printed = [line[39:54].strip() for text in held.values() for line in text.split(b"\n") if line.startswith(b"6")]
        must("entries that are in files twice", len(printed), len(set(printed)))
        sent = db.execute("SELECT count(*) FROM entries WHERE seq IS NOT NULL").fetchone()[0]
        must("entries of the files", len(printed), sent)
        must("entries of the cuts that were answered are at most those that were sent", self.cut_entries <= sent)
        if not self.lost_cuts:
            must("entries of the cuts that were answered", self.cut_entries, sent)
        self.check_views(db)
        db.close()
        return {"submissions": len(rows), "files": len(held), "sent": sent}

    def check_views(self, db):
        db.executescript(Path(TOP / "docs/audit.sql").read_text())
        must("the checks of the views", db.execute("SELECT * FROM audit_checks WHERE wrong <> 0").fetchall(), [])
