"""A random history of a bank: what its companies and its operator ask, one event after another."""

import datetime
import json
import random
import re
from collections import Counter

from helpers.returned import file_of_returns
from helpers.running import OPERATOR_KEY, body_of, message, status_of

COMPANIES = ("MILL01", "BAKE01", "COAL01")
FIRST_DAY = datetime.date(2025, 1, 8)
WIDE = {"entry_limit": 9_999_999_999, "credit_limit": 999_999_999_999_999, "debit_limit": 999_999_999_999_999}
NARROW = {"entry_limit": 200_000, "credit_limit": 3_000_000, "debit_limit": 2_000_000}
CODES = ["R01"] * 4 + ["R09", "R08", "R02", "R05", "R07", "R10", "R29", "R68"]
# How often each event happens, in proportion to the others.
EVENTS = {"submit": 30, "repeat": 3, "retry": 8, "cut": 9, "take": 10, "take_late": 4, "next_day": 6, "later_day": 1, "set_holidays": 3, "bring_back": 3, "set_limits": 2,
          "register_again": 1, "let_lapse": 1}


def banking_day(day, steps=1):
    """The weekday this many weekdays after a day."""
    for _ in range(steps):
        day += datetime.timedelta(1)
        while day.weekday() >= 5:
            day += datetime.timedelta(1)
    return day


class History:
    """A history: `ask` sends a message to the desks and returns their answer. `counts` says what happened."""

    def __init__(self, ask, seed):
        self.ask, self.chance = ask, random.Random(seed)
        self.counts = Counter()
        self.day, self.holidays = FIRST_DAY, set()
        self.references = self.files = 0
        self.accepted = {it: [] for it in COMPANIES}  # bodies of submissions
        self.sent = []  # entries of cuts, as their files have them
        self.returned = {it: [] for it in COMPANIES}  # (reference, index) of debits that may be retried

    def begin(self):
        for name in COMPANIES:
            limits = self.chance.choice([WIDE, WIDE, NARROW])
            self.operator("POST /ops/companies", {"id": name, "name": f"{name} INC", "key": f"key-of-{name}"} | limits)
        self.set_day()

    def event(self):
        getattr(self, self.chance.choices(list(EVENTS), list(EVENTS.values()))[0])()

    def questions(self):
        """One question for each company: most of them for its exposures."""
        kind = lambda: self.chance.choices(["exposure", "rates", "returns", "changes"], [12, 2, 1, 1])[0]
        return [message(f"GET /c/{name}/{kind()}", key=f"key-of-{name}") for name in COMPANIES]

    # ---- messages

    def operator(self, asks, body=""):
        return self.ask(message(asks, body if isinstance(body, str) else json.dumps(body), OPERATOR_KEY))

    def company(self, name, asks, body):
        return self.ask(message(asks, json.dumps(body), f"key-of-{name}"))

    def set_day(self):
        while self.day.weekday() >= 5 or self.day in self.holidays:
            self.day += datetime.timedelta(1)
        self.counts["days"] += status_of(self.operator("POST /ops/day", {"day": str(self.day)})) == 200

    # ---- what companies do

    def wanted_day(self):
        if self.chance.random() < 0.1:
            return self.day + datetime.timedelta(self.chance.randint(-2, 5))
        return banking_day(self.day, self.chance.choice([1, 1, 1, 2, 2, 3, 5]))

    def submit(self):
        name = self.chance.choice(COMPANIES)
        self.references += 1
        reference = f"S{self.references}"
        cents = [self.chance.choice([0, 1, 2_500, self.chance.randint(1, 150_000)]) for _ in range(self.chance.randint(1, 8))]
        entries = [{"routing": "091000019", "account": str(at), "kind": self.chance.choice(["checking", "savings"]), "cents": it, "prenote": it == 0, "id": f"{reference}.{at}",
                    "name": "ANN LEE"} for at, it in enumerate(cents, 1)]
        body = {"ref": reference, "sec": self.chance.choice(["PPD", "CCD"]), "direction": self.chance.choice(["credit", "debit", "debit"]), "description": "DUES",
                "day": str(self.wanted_day()), "entries": entries}
        if status_of(self.company(name, f"POST /c/{name}/submissions", body)) == 201:
            self.accepted[name].append(body)
            self.counts["accepted"] += 1
        else:
            self.counts["refused"] += 1

    def repeat(self):
        """The same submission again, or another one under its reference."""
        name = self.chance.choice(COMPANIES)
        if self.accepted[name]:
            body = self.chance.choice(self.accepted[name])
            self.company(name, f"POST /c/{name}/submissions", self.chance.choice([body, body | {"description": "OTHER"}]))
            self.counts["repeated"] += 1

    def retry(self, names=COMPANIES):
        name = self.chance.choice(names)
        if self.returned[name]:
            self.references += 1
            of, index = self.chance.choice(self.returned[name][-20:])
            body = {"ref": f"T{self.references}", "of": of, "index": index, "day": str(banking_day(self.day, self.chance.choice([1, 1, 2, 3])))}
            if self.chance.random() < 0.5:
                body["authorized"] = str(self.day)
            self.counts["retried"] += status_of(self.company(name, f"POST /c/{name}/retries", body)) == 201

    # ---- what the operator does

    def cut(self):
        made = json.loads(body_of(self.operator("POST /ops/cut")))
        for modifier in made.get("files", []):
            self.read_file(body_of(self.operator(f"GET /ops/files/{self.day}/{modifier}")).decode())
        self.counts["cuts"] += "files" in made
        self.counts["lapsed"] += made.get("lapsed", 0)

    def read_file(self, text):
        for record in text.splitlines():
            if record[0] == "5":
                company, sec = record[40:50].strip(), record[50:53]
            if record[0] == "6":
                self.sent.append({"company": company, "sec": sec, "debit": record[2] in "78", "savings": record[1] == "3", "account": record[12:29].strip(), "cents": int(record[29:39]),
                                  "ident": record[39:54].strip(), "name": "ANN LEE", "trace": record[79:94], "dfi": record[3:11]})

    def take(self):
        self.take_some(self.sent[-60:])

    def take_late(self):
        self.take_some(self.sent[:-40])

    def take_some(self, among):
        """A file of returns, or of changes, of some of these entries, with an item of an unknown trace now and then."""
        if not among:
            return
        self.files += 1
        some = self.chance.sample(among, min(len(among), self.chance.choice([1, 1, 2, 4, 12])))
        some = [it for it in some if it["sec"] == some[0]["sec"]]
        items = [self.changed(it) for it in some] if self.chance.random() < 0.15 else [it | {"code": self.chance.choice(CODES)} for it in some]
        if self.chance.random() < 0.1:
            items.append(items[0])
        if self.chance.random() < 0.1:
            items[-1] = items[-1] | {"trace": "121042889999999"}
        answer = self.operator("POST /ops/returns", file_of_returns(self.files, "COR" if "text" in items[0] else some[0]["sec"], items))
        self.count_taken(answer, items)

    def changed(self, entry):
        return entry | {"code": "C01", "text": "7654321", "cents": 0}

    def count_taken(self, answer, items):
        if status_of(answer) != 200:
            self.counts["refused files"] += 1
            return
        for what in ("returns", "late", "changes", "suspense"):
            self.counts[what] += json.loads(body_of(answer)).get(what, 0)
        for item in items:
            if item["code"] in ("R01", "R09", "R08") and item["debit"] and re.fullmatch(r"S\d+\.\d+", item["ident"]):
                reference, index = item["ident"].split(".")
                self.returned[item["company"]].append((reference, int(index)))

    def next_day(self):
        self.day = banking_day(self.day)
        self.set_day()

    def later_day(self):
        self.day = banking_day(self.day, self.chance.choice([2, 3, 5, 8, 25]))
        self.set_day()

    def let_lapse(self):
        """Retries that wait until they would settle more than 180 days after their originals lapse at the next cut."""
        for name in COMPANIES:
            self.retry([name])
        self.day += datetime.timedelta(self.chance.randint(182, 200))
        self.set_day()
        self.cut()

    def near(self, sign):
        days = (self.day + sign * datetime.timedelta(it) for it in range(1, 12))
        return [it for it in days if it.weekday() < 5]

    def put_holidays(self, days):
        self.holidays = set(days)
        text = "".join(f"{it}\n" for it in sorted(self.holidays))
        self.counts["holiday lists"] += status_of(self.operator("POST /ops/holidays", text)) == 200

    def set_holidays(self):
        self.put_holidays(self.chance.sample(self.near(-1), self.chance.randint(0, 5)) + self.chance.sample(self.near(1), self.chance.randint(0, 3)))

    def bring_back(self):
        """Holidays before the desk day alone: the more they are, the more settlements may still come back."""
        self.put_holidays(self.chance.sample(self.near(-1), self.chance.randint(0, len(self.near(-1)))))

    def set_limits(self):
        limits = {"entry_limit": self.chance.choice([150_000, 9_999_999_999]), "credit_limit": self.chance.choice([0, 3_000_000, 999_999_999_999_999]),
                  "debit_limit": self.chance.choice([0, 2_000_000, 999_999_999_999_999])}
        self.operator("POST /ops/limits", {"id": self.chance.choice(COMPANIES)} | limits)
        self.counts["limits"] += 1

    def register_again(self):
        name = self.chance.choice(COMPANIES)
        self.operator("POST /ops/companies", {"id": name, "name": f"{name} INC", "key": f"key-of-{name}"} | WIDE)
