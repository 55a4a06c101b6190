#!/usr/bin/env python3
"""Runs a bank's week by deploy/achdesk-day, against the real parts on loopback: `python3 judge/day.py [PROGRAM] [EVERY] [PART ..]
[--kept FOLDER [--from DAY] [--to DAY]]`.

PROGRAM is ./achdesk if it is left out. EVERY is 1 if it is left out: with 5 only each fifth step of a command is tried,
which is quicker with a program that was built without proofs and takes seconds to open a file. The parts are `achdesk
serve`, nginx with deploy/nginx.conf and TLS, an OpenSSH server for SFTP that is not root, and two companies that use
curl. The week has returns and changes, refused files, a company's and the bank's key rotated on Thursday, a holiday, and a restore of the desk on Friday. On Wednesday
each command is killed at each of its steps, and so is the desk, from the same state each time; the command is run again
as a person would, and everything has to be as if nothing had been killed. On the Tuesday after it files are transmitted by
hand, one of them without a wrong payroll, and one is withheld; these commands are killed as well. At the end the archive
has each transmitted file once, byte for byte as the desk has it, the ACH operator has each once, and the reports have the
figures that are worked out by hand below. On the last two days a file is left untransmitted, for which an alarm of
docs/operate/monitoring.md has to hold, the ACH operator rejects a file and a batch of another, and the desk day is set
too late. In a bank of its own a desk is restored that makes a withheld file again. In another one the
commands of an afternoon are killed at each of their steps and a standby takes over each time, with the newest backup and with an
older one: no payment is transmitted twice, and none is left out without an alarm. A machine that is put back with its journal
transmits nothing twice either.

With --kept the week's state before each day is kept in FOLDER, and --from goes on there from a day that an earlier run came to,
as `--from thursday`; --to ends after a day. So several runs cover a week with each step.

The status is 1 if a check failed, and 2 if Debian packages are missing, which are named; that is not a pass.
"""

import csv
import io
import json
import os
import re
import resource
import shutil
import signal
import subprocess
import sys
import tempfile
import threading
import time
from pathlib import Path

from helpers.bank import DESK_KEYS, Bank, bytes_of, digest, end_if_missing
from helpers.returned import file_of_returns
from helpers.running import TOP, Checks, program_of

MON, TUE, WED, THU, FRI, HOLIDAY, NEXT, AFTER, LAST = (f"2025-01-{day}" for day in (13, 14, 15, 16, 17, 20, 21, 22, 23))
DFI = "09100001"

# What is worked out by hand, for each day: its files (batches, records, debits, credits), returns and changes by code
# (count, debits, credits), late returns (code, debits, credits, entry), items in suspense, the return rates over a level
# (company, rate, returns, debits that settled), the settlement by value day, and the balances at its end: the ACH
# operator's, suspense, BAKE01's and MILL01's.
# Traces are numbered in the order of cuts, and in a cut by company and order: Monday BAKE01 1, MILL01 PAY-1 2 to 4,
# DUES-1 5 to 7, then DUES-2 8; Tuesday 9 and 10; Wednesday 11 and 12; Thursday 13; Friday 14; on the Tuesday after it
# BAKE01 15, MILL01 PAY-3 16 and 17, PAY-4 18, then BAKE01 19, then MILL01 20. PAY-4 and PAY-5, 18 and 20, are wrong. On the
# Wednesday after it BAKE01 21, MILL01 PAY-6 22 and 23, then PAY-7 24.
FIGURES = {
    MON: dict(over=[],
              files={"A": (3, 7, 2500 + 4900 + 3100, 99999 + 150000 + 120000 + 80050), "B": (1, 1, 7700, 0)}, codes={}, late=[], suspense=[],
              settlement={TUE: 99999 - 10500 - 7700, WED: 350050}, balances=(0, 0, 0, 0)),
    TUE: dict(over=[("MILL01", "overall", 1, 4)],
              files={"A": (1, 2, 40000 + 21000, 0)}, codes={"R01": (1, 2500, 0), "C01": (1, 0, 0)}, late=[], suspense=[],
              settlement={TUE: 81799 + 2500, WED: 350050 - 61000}, balances=(84299, 0, -99999, 10500 + 7700 - 2500)),
    WED: dict(over=[("BAKE01", "administrative", 1, 2), ("BAKE01", "overall", 1, 2), ("MILL01", "overall", 1, 4)],
              files={"A": (1, 1, 0, 200000), "B": (1, 1, 0, 33300)}, codes={"R03": (1, 21000, 0)}, late=[], suspense=[("R01", 500, 0)],
              settlement={WED: 289050 + 21000 + 500, THU: 33300, FRI: 200000},
              balances=(84299 + 310550, -500, -99999 + 61000 - 21000, 15700 - 350050)),
    THU: dict(over=[("BAKE01", "administrative", 1, 2), ("BAKE01", "overall", 1, 2), ("MILL01", "overall", 1, 4)],
              files={"A": (1, 1, 2500, 0)}, codes={}, late=[], suspense=[], settlement={THU: 33300, FRI: 200000 - 2500},
              balances=(394849 + 33300, -500, -59999 - 33300, -334350)),
    FRI: dict(over=[("BAKE01", "administrative", 1, 2), ("BAKE01", "overall", 1, 2), ("MILL01", "unauthorized", 1, 5), ("MILL01", "overall", 3, 5)],
              files={"A": (1, 1, 5000, 0)}, codes={"R01": (1, 4900, 0), "R10": (1, 3100, 0)}, suspense=[],
              late=[("R01", 4900, 0, "MILL01 DUES-1 entry 2, trace 121042880000006, settled 2025-01-14")],
              settlement={FRI: 197500 + 4900 + 3100, NEXT: -5000}, balances=(428149 + 205500, -500, -93299, -334350 - 197500 - 8000)),
    NEXT: dict(over=[("BAKE01", "administrative", 1, 3), ("BAKE01", "overall", 1, 3), ("MILL01", "unauthorized", 1, 5), ("MILL01", "overall", 3, 5)],
               files={"A": (3, 4, 0, 5000 + 100000 + 10000), "B": (1, 1, 0, 7000), "C": (1, 1, 0, 900)}, codes={"R06": (2, 0, 10900)}, late=[], suspense=[],
               settlement={NEXT: -5000 - 10900, AFTER: 115000 + 7000 + 900}, balances=(633649 - 5000 - 10900, -500, -93299 + 5000, -539850 + 10900)),
    AFTER: dict(over=[("BAKE01", "administrative", 1, 3), ("BAKE01", "overall", 1, 3), ("MILL01", "unauthorized", 1, 5), ("MILL01", "overall", 3, 5)],
                files={"A": (2, 3, 0, 30000 + 20000 + 15000), "B": (1, 1, 0, 12500)}, codes={}, late=[], suspense=[],
                settlement={AFTER: 122900, LAST: 65000 + 12500}, balances=(617749 + 122900, -500, -88299 - 12000, -528950 - 110900)),
    LAST: dict(over=[("BAKE01", "administrative", 1, 3), ("BAKE01", "overall", 1, 3), ("MILL01", "unauthorized", 1, 5), ("MILL01", "overall", 3, 5)],
               files={}, codes={"R06": (3, 0, 35000 + 12500)}, late=[], suspense=[],
               settlement={LAST: 77500 - 47500}, balances=(740649 + 30000, -500, -100299 - 30000, -639850 - 47500 + 47500)),
}
CORRECTED = (2, 3, 0, 105000)  # what was transmitted in place of the file A of NEXT
WITHHELD = f"{NEXT}-C"
NAMES = {"MILL01": "MILL STREET", "BAKE01": "BAKERY"}
LEVELS = {"unauthorized": "0.5", "administrative": "3", "overall": "15"}

# On Thursday evening, by company: the exposures (credits, debits), the debits that settled, and of these the returned ones
# (unauthorized, administrative, overall). PAY-1 has settled; PAY-2 settles on Friday, or on this day. Of the debits that
# settled on Tuesday, 4900, 3100 and 7700 still count, since Thursday is the second banking day after it, and 2500 was
# returned; it is collected again on Friday. BAKE01's 40000 settled on Wednesday, and 21000 was returned.
RISKS = {"BAKE01": ((33300, 40000), 2, (0, 1, 1)), "MILL01": ((200000, 4900 + 3100 + 7700 + 2500), 4, (0, 0, 1))}
LIMITS = {"entry_limit": 9999999999, "credit_limit": 999999999999, "debit_limit": 999999999998}


# ---- submissions, returns and changes ----

def entry(cents, ident, name, account="123456789"):
    return {"routing": "091000019", "account": account, "kind": "checking", "cents": cents, "id": ident, "name": name}


def submission(ref, direction, day, *entries):
    return {"ref": ref, "sec": "PPD", "direction": direction, "description": "PAYROLL" if direction == "credit" else "DUES", "day": day,
            "entries": [entry(cents, f"E{at}", f"RECEIVER {at}") for at, cents in enumerate(entries, 1)]}


def returned(code, sequence, index, cents, debit=True, **more):
    return {"code": code, "trace": f"12104288{sequence:07}", "cents": cents, "debit": debit, "savings": False, "account": "123456789",
            "ident": f"E{index}", "name": f"RECEIVER {index}", "dfi": DFI, **more}


def with_change(text, number, item):
    """A file of returns with a second batch, in which a change is."""
    changes = file_of_returns(number, "COR", [item]).splitlines()
    records = [it for it in text.splitlines() if it != "9" * 94]
    body = [*records[1:-1], *changes[1:5]]
    counted = [it for it in body if it[0] == "8"]
    sums = [sum(int(it[at:end]) for it in counted) for at, end in ((4, 10), (10, 20), (20, 32), (32, 44))]
    blocks = -(-(len(body) + 2) // 10)
    whole = [records[0], *body, f"9{len(counted):06}{blocks:06}{sums[0]:08}{sums[1] % 10 ** 10:010}{sums[2]:012}{sums[3]:012}{' ' * 39}"]
    return "".join(f"{it}\n" for it in whole + ["9" * 94] * (-len(whole) % 10))


def without_batch(text, number):
    """A file without one of its batches, as another tool writes it: with a new control record and new fillers."""
    header, *body, control = [it for it in text.splitlines() if it != "9" * 94]
    kept, batch = [], []
    for record in body:
        batch.append(record)
        if record[0] == "8":
            kept, batch = kept + (batch if int(record[87:94]) != number else []), []
    counted = [it for it in kept if it[0] == "8"]
    sums = [sum(int(it[at:end]) for it in counted) for at, end in ((4, 10), (10, 20), (20, 32), (32, 44))]
    control = f"9{len(counted):06}{-(-(len(kept) + 2) // 10):06}{sums[0]:08}{sums[1] % 10 ** 10:010}{sums[2]:012}{sums[3]:012}{' ' * 39}"
    whole = [header, *kept, control]
    return "".join(f"{it}\n" for it in whole + ["9" * 94] * (-len(whole) % 10))


class Operator:
    """The ACH operator: takes each file out of the SFTP folder as soon as it has its name, if it is quick."""

    def __init__(self, bank):
        self.inbox, self.taken, self.is_quick, self.lock = bank.sftp.inbox, bank.folder / "operator" / "taken", False, threading.Lock()
        self.taken.mkdir()
        threading.Thread(target=self.work, daemon=True).start()

    def by_portal(self, name, text):
        """Takes a file that the bank uploads by hand."""
        (self.taken / f"{len(list(self.taken.iterdir())):04}-{name}.ach").write_text(text)

    def work(self):
        while True:
            with self.lock:
                for path in self.inbox.glob("*.ach") if self.is_quick else ():
                    path.rename(self.taken / f"{len(list(self.taken.iterdir())):04}-{path.name}")
            time.sleep(0.002)

    def received(self):
        """The files that were received, by name: the bytes of each time."""
        files = {}
        for path in [*sorted(self.taken.iterdir()), *sorted(self.inbox.glob("*.ach"))]:
            files.setdefault(path.name[-16:], []).append(path.read_bytes())
        return files


class Week:
    """The bank, its checks, and what is done with both."""

    def __init__(self, bank, checks, every):
        self.bank, self.checks, self.operator, self.every = bank, checks, Operator(bank), every
        self.kills = self.asked_again = 0

    def at(self, day, hour="09:00"):
        self.bank.now = f"{day}T{hour}:00-05:00"

    def run(self, *words, status=0, says="", **more):
        """Runs achdesk-day, and checks how it ended and what it said."""
        ended, printed, errors = self.bank.day(*words, **more)
        if ended != status or says not in printed + errors:
            self.checks.that(f"achdesk-day {' '.join(map(str, words))}", (ended, printed + errors), (status, says))
        else:
            self.checks.that(f"{self.bank.now[:10]} achdesk-day {' '.join(map(str, words))}: {says or status}", True)
        return printed

    def submit(self, company, body, path="submissions"):
        told = self.bank.curl(company, f"/c/{company}/{path}", body)
        self.checks.that(f"{self.bank.now[:10]} {company} submits {body['ref']}", told.get("ref"), body["ref"])

    def arrive(self, name, text):
        (self.bank.state / "inbox" / name).write_text(text)

    def ack_of(self, names):
        """An acknowledgement of these files, by the figures worked out by hand."""
        path = self.bank.folder / "ack.csv"
        rows = [f"{name},{','.join(map(str, FIGURES[name[:10]]['files'][name[11]]))}" for name in names]
        path.write_text("".join(f"{it}\n" for it in ["file,batches,entries,debits,credits", *rows]))
        return path

    def confirmed(self):
        """Asks the ACH operator about each file, as a person does after a restore or a takeover, and tells achdesk-day."""
        there = {name.removesuffix(".ach") for name in self.operator.received()}
        for line in (it for it in self.run("confirm").splitlines() if it.startswith("  ")):
            name = line.split()[0]
            self.run("confirm", name, "--transmitted" if name in there else "--not-transmitted", "--by", "ANN", says="confirmed")
        self.run("confirm", "--no-other", "--by", "ANN", says="cut and send go on")

    # -- the state that kills must not change --

    def state(self):
        """What the desk answers, what is in the folders, and what the ACH operator has."""
        ask = lambda path: self.bank.curl("day", path)
        status = ask("/ops/status")
        folders = {name: {str(path.relative_to(self.bank.state)): digest(path.read_bytes()) for path in sorted((self.bank.state / name).rglob("*"))
                          if path.is_file()} for name in ("outgoing", "sending", "withheld", "by_hand", "incoming", "quarantine", "inbox")}
        files = {it: digest(ask(f"/ops/files/{status['day']}/{it}").encode()) for it in status["files"]}
        return {"status": status, "settlement": ask("/ops/settlement"), "suspense": ask("/ops/suspense"), "files": files, **folders,
                "received": {name: [digest(it) for it in texts] for name, texts in self.operator.received().items()},
                "parts": sorted(path.name for path in self.bank.sftp.inbox.glob("*.part"))}

    def desk_says(self):
        return [self.bank.curl("day", f"/ops/{it}") for it in ("status", "settlement", "suspense")]

    def keep(self, name):
        """Keeps the present state under a name."""
        self.bank.desk.stop()
        copied(self.bank.folder, self.bank.folder / name)
        self.bank.desk.start()
        self.kept = self.desk_says()

    def bring_back(self, name):
        """Brings a state back. The desk is not started again if it is as it was."""
        is_same_desk = self.desk_says() == self.kept
        with self.operator.lock:
            if not is_same_desk:
                self.bank.desk.stop()
            copied(self.bank.folder / name, self.bank.folder, but="desk" if is_same_desk else "")
            if not is_same_desk:
                self.bank.desk.start()

    def finish(self, *words):
        """Runs a command until it is done, as a person does who follows what it says."""
        for _ in range(20):
            status, printed, errors = self.bank.day(*words)
            if status == 3:
                time.sleep(0.2)
            elif status == 1 and "cut --again" in errors:
                self.asked_again += 1
                status = self.bank.day("cut", "--again")[0]
                if status == 0:
                    return ""
            elif status == 1 and (unclear := re.search(r"send --again (\S+)", errors)):
                self.asked_again += 1
                name = unclear[1]
                if f"{name}.ach" in self.operator.received():
                    self.bank.day("ack", self.ack_of([name]))
                else:
                    self.bank.day("send", "--again", name)
            else:
                return errors
        return "it did not come to an end"

    def killed_at_each_step(self, *words, victim="achdesk-day"):
        """Kills the command, or the desk, at each step of the command; each time from the same state."""
        self.keep("before")
        undisturbed_errors = self.finish(*words)
        self.undisturbed, steps, failed = self.state(), 1, []
        while True:
            self.bring_back("before")
            whom = {} if victim == "achdesk-day" else {"ACHDESK_DAY_KILL": self.bank.desk.process.pid}
            status = self.bank.day(*words, ACHDESK_DAY_KILL_AT=steps, **whom)[0]
            if not (self.was_killed(whom["ACHDESK_DAY_KILL"]) if whom else status == -9):
                break
            failed += self.differences(words, f"step {steps}")
            steps += self.every
        self.checks.that(f"{self.bank.now[:10]} {victim} is killed at the steps of {' '.join(words)}, up to step {steps - 1}", failed, [])
        self.checks.that("and there were steps", steps > 1)
        return undisturbed_errors

    def sent_after_a_kill(self, name, *words):
        """Kills `mark` at each step, after which the timer's `send` runs: once the mark is recorded nothing is uploaded."""
        step, failed = 1, []
        while True:
            self.bring_back("before")
            if self.bank.day(*words, ACHDESK_DAY_KILL_AT=step)[0] != -9:
                break
            is_marked = f'"did": "marking", "file": "{name}"' in (self.bank.state / "day.journal").read_text()
            status = self.bank.day("send")[0]
            if (status, (self.bank.sftp.inbox / f"{name}.ach").exists()) != (0, not is_marked):
                failed.append((step, status, is_marked))
            self.kills, step = self.kills + 1, step + self.every
        self.checks.that(f"{self.bank.now[:10]} {' '.join(words[:3])} is killed at its steps, up to step {step - 1}, and send runs", failed, [])
        self.bring_back("before")
        self.finish(*words)

    def was_killed(self, process):
        """Whether the desk with this process number has ended."""
        time.sleep(0.1)
        return self.bank.desk.process.pid != process or self.bank.desk.process.poll() is not None

    def killed_at_random(self, *words, times):
        """Kills the command at moments of its run, also while sftp works, which goes on by itself."""
        self.bring_back("before")
        began = time.monotonic()
        self.finish(*words)
        longest, failed = time.monotonic() - began, []
        for at in range(times):
            self.bring_back("before")
            self.bank.day(*words, seconds=longest * (at + 0.5) / times)
            failed += self.differences(words, f"after {longest * (at + 0.5) / times:.2f} s")
        self.checks.that(f"{self.bank.now[:10]} {' '.join(words)} is killed at {times} moments", failed, [])

    def differences(self, words, when):
        """Runs a command that was killed again, and gives how the state differs from that of an undisturbed run."""
        self.kills += 1
        self.bank.desk.wait()
        errors, found, wanted = self.finish(*words), self.state(), self.undisturbed
        differs = {key: (found[key], wanted[key]) for key in found if found[key] != wanted[key]}
        return [(when, differs, errors)] if differs else []

    # -- reports --

    def reported(self, day):
        """Compares the report of a day with the figures that are worked out by hand."""
        self.run("report", day)
        rows = list(csv.DictReader(io.StringIO((self.bank.state / "reports" / f"{day}.csv").read_text())))
        number = lambda row, *columns: tuple(int(row[it]) for it in columns)
        of = lambda section: [row for row in rows if row["section"] == section]
        found = dict(
            files={row["name"][11]: (int(row["note"].split()[0]), *number(row, "count", "debits", "credits")) for row in of("file")},
            codes={row["name"]: number(row, "count", "debits", "credits") for row in of("return") + of("change")},
            late=[(row["name"], *number(row, "debits", "credits"), row["note"].rpartition(", ")[0]) for row in of("late return")],
            suspense=[(row["name"], *number(row, "debits", "credits")) for row in of("suspense")],
            over=[self.rate_over(row) for row in of("return rates over a level") if row["count"] != "0"],
            settlement={row["day"]: int(row["net"]) for row in of("settlement")},
            balances=tuple(number(row, "net")[0] for name in ("ACH operator", "suspense", "BAKE01", "MILL01")
                           for row in of("balance") if row["name"] == name))
        self.checks.that(f"{day} the report has the figures worked out by hand", found, FIGURES[day])
        desk_day = self.bank.curl("day", "/ops/status")["day"]
        self.checks.that(f"{day} the report has the rates of the desk day", {row["day"] for row in of("return rates over a level")}, {desk_day})
        self.checks.that(f"{day} it counts the late returns, and the balances sum to zero",
                         (int(of("late returns")[0]["count"]), number(of("all balances")[0], "count", "net")), (len(FIGURES[day]["late"]), (4, 0)))
        pays = {True: "the bank pays the ACH operator", False: "the ACH operator pays the bank"}
        self.checks.that(f"{day} the report says who pays", [row["note"] for row in of("settlement")], [pays[int(row["net"]) > 0] for row in of("settlement")])
        text = (self.bank.state / "reports" / f"{day}.txt").read_text()
        lines = [f"{desk_day} {company} {n} {NAMES[company]}, {kind}: {n} of {d} debits, level {LEVELS[kind]} percent" for company, kind, n, d in FIGURES[day]["over"]]
        shown = [" ".join(it.split()) for it in text.partition("\nReturn rates over a level\n")[2].partition("\n\n")[0].split("\n")]
        self.checks.that(f"{day} the report names the companies over a level, below headings", shown,
                         ["desk day company returns note", *lines] if lines else ["desk day companies", f"{desk_day} 0"])
        cut = {letter for row in of("cut") for letter in re.search("files ([A-Z0-9 ]+|none)", row["note"])[1].split() if letter != "none"}
        self.checks.that(f"{day} each file has its cut, and the submissions of all files are listed",
                         (cut, tuple(sum(int(row[it]) for row in of("sent")) for it in ("debits", "credits"))),
                         (set(FIGURES[day]["files"]), tuple(sum(it[at] for it in FIGURES[day]["files"].values()) for at in (2, 3))))
        self.checks.that(f"{day} the archive and the desk have the same incoming files, and each count says what it counts",
                         ([row["section"] for row in rows if row["section"].startswith("incoming file that")], [row for row in rows if bool(row["count"]) != bool(row["counted"])]), ([], []))
        self.checks.that(f"{day} the report says that nothing is left", "NOT TRANSMITTED" in text, False)

    # -- metrics and the alarms of docs/operate/monitoring.md --

    def untransmitted(self, wanted):
        """Compares the metric of files that are not transmitted with the numbers by day, and the page's alarm with them."""
        printed = self.run("metrics", "--key-file", self.bank.folder / "keys" / "watcher", says="achdesk_up 1")
        found = {day: int(value) for day, value in re.findall(r'^achdesk_untransmitted_files\{day="(.*?)"\} (\d+)$', printed, re.M)}
        self.checks.that(f"{self.bank.now[:10]} the metric has the files that are not transmitted", found, wanted)
        self.checks.that("the page has an alarm for them, which holds if there are any", "achdesk_untransmitted_files > 0" in alarms_for(printed), any(wanted.values()))

    @staticmethod
    def rate_over(row):
        company, kind, n, d = row["name"], *re.fullmatch(r"[A-Z ]+, (\w+): (\d+) of (\d+) debits, level [\d.]+ percent", row["note"]).groups()
        return (company, kind, int(n), int(d)) if n == row["count"] else row

    # -- metrics --

    def measured(self):
        """Compares the metrics of companies with what is worked out by hand, and the form of all with Prometheus's."""
        printed = self.run("metrics", says="achdesk_up 1")
        metrics = {}
        for part in re.split(r"(?m)^(?=# HELP )", printed)[1:]:
            head = re.match(r"# HELP (\w+) [A-Z].*\.\n# TYPE \1 (gauge|counter)\n", part)
            samples = re.findall(r"(?m)^(\w+)(?:\{(.*)\})? (-?\d+)$", part)
            is_whole = head and {it[0] for it in samples} == {head[1]} and len(samples) == len(part.splitlines()) - 2
            self.checks.that(f"{part.split()[2]} has its help, its type and then its values", bool(is_whole))
            metrics.update({(name, labels): int(value) for name, labels, value in samples})
        wanted = {}
        for company, (exposures, debits, returned) in RISKS.items():
            for way, cents in zip(("credit", "debit"), exposures):
                wanted["exposure_cents", f'company="{company}",direction="{way}s"'] = cents
                wanted["exposure_limit_cents", f'company="{company}",direction="{way}s"'] = LIMITS[f"{way}_limit"]
            wanted["entry_limit_cents", f'company="{company}"'] = LIMITS["entry_limit"]
            wanted["return_rate_debits", f'company="{company}"'] = debits
            for kind, count in zip(LEVELS, returned):
                wanted["return_rate_returns", f'company="{company}",rate="{kind}"'] = count
                wanted["return_rate_over_level", f'company="{company}",rate="{kind}"'] = int(count > 0)
        found = {(name.removeprefix("achdesk_"), labels): value for (name, labels), value in metrics.items()}
        names = {name for name, _ in wanted}
        self.checks.that("the metrics have the exposures, limits and rates worked out by hand", {it: value for it, value in found.items() if it[0] in names}, wanted)
        single = {"files_today": 1, "files_left": 35, "suspense_items": 1, "entries_sent_total": 13, "up": 1, "day_age_days": 0}
        self.checks.that("and the counts of the day", {name: found.get((name, "")) for name in single}, single)


def alarms_for(printed):
    """The alarms of docs/operate/monitoring.md, of those that compare a metric with a number, that hold for these metrics."""
    page = (TOP / "docs/operate/monitoring.md").read_text()
    holds = {">": lambda it, number: it > number, "<": lambda it, number: it < number, "==": lambda it, number: it == number}
    values = re.findall(r"^(achdesk_\w+)(?:\{.*\})? (-?\d+)$", printed, re.M)
    return [f"{name} {sign} {number}" for name, sign, number in re.findall(r"^\| `(achdesk_\w+) (>|<|==) (\d+)`", page, re.M)
            if any(it == name and holds[sign](int(value), int(number)) for it, value in values)]


def copied(source, target, but=""):
    """Copies the folders of the desk, of achdesk-day, of the ACH operator and of the standby, but one."""
    target.mkdir(exist_ok=True)
    for name in ("desk", "day", "backups", "operator/inbox", "operator/taken", "operator/standby"):
        if name == but or not (source / name).exists():
            if name == "operator/standby":
                shutil.rmtree(target / name, ignore_errors=True)
            continue
        (target / name).parent.mkdir(exist_ok=True)
        (target / name).mkdir(exist_ok=True)
        subprocess.run(["rsync", "--archive", "--delete", "--checksum", f"{source / name}/", f"{target / name}/"], check=True)


# ---- the days ----

def monday(week):
    week.at(MON)
    week.run("open", status=1, says="the journal does not know the desk's list of holidays")
    week.run("holidays", "2025", "2026", says="21 holidays")
    week.run("open", says="2025-01-13")
    for company, name in NAMES.items():
        week.bank.curl("day", "/ops/companies", {"id": company, "name": name, "key": DESK_KEYS[company], **LIMITS})
    week.submit("MILL01", submission("PAY-1", "credit", WED, 150000, 120000, 80050))
    week.submit("MILL01", submission("DUES-1", "debit", TUE, 2500, 4900, 3100))
    week.submit("BAKE01", submission("PAY-1", "credit", TUE, 99999))
    week.at(MON, "15:00")
    week.run("cut", "--dry-run", says="3,500.50")
    week.untransmitted({MON: 0})
    week.run("cut", says="7 entries in files A")
    week.untransmitted({MON: 1})
    week.run("send", says="sent 2025-01-13-A: 3 batches, 7 records, debits 105.00, credits 4,500.49")
    week.untransmitted({MON: 0})
    week.submit("MILL01", submission("DUES-2", "debit", TUE, 7700))
    week.at(MON, "16:30")
    week.run("cut", status=1, says="past the cut-off time 16:30")
    week.run("cut", "--late", says="1 entries in files B")
    week.run("cut", "--late", says="nothing is due")


def tuesday(week):
    bank = week.bank
    week.at(TUE)
    week.run("open", status=1, says="not transmitted: 2025-01-13-B")
    week.run("send", says="sent 2025-01-13-B")
    week.run("send", says="nothing")
    week.reported(MON)
    week.run("open", "--day", WED, status=1, says="is after today")
    week.at(TUE, "00:30")  # it is Tuesday in New York from 05:00 UTC on
    bank.now = "2025-01-14T04:59:00+00:00"
    week.run("open", says="2025-01-13 already")
    week.at(TUE)
    week.run("open", says="the desk day is 2025-01-14")
    week.run("open", says="already")
    week.run("ack", week.ack_of(["2025-01-13-A"]), status=1, says="not acknowledged: 2025-01-13-B")
    path = week.ack_of(["2025-01-13-B"])
    path.write_text(path.read_text().replace("7700", "7701") + "2025-01-10-A,1,1,1,1\n")
    week.run("ack", path, status=1, says="2025-01-13-B was transmitted with")
    week.run("ack", path, status=1, says="has 2025-01-10-A, which was not transmitted")
    week.run("ack", week.ack_of(["2025-01-13-B"]), says="acknowledged 2025-01-13-B")
    shorter = bank.folder / "holidays.csv"
    shorter.write_text("2025-02-17\n2025-05-26\n")
    week.run("holidays", shorter, status=1, says="drops days within 60 days of today: 2025-01-01 2025-01-20")
    week.run("holidays", "-", given=shorter.read_text(), status=1, says="drops days within 60 days of today: 2025-01-01 2025-01-20")
    bank.curl("day", "/ops/status")
    subprocess.run(["curl", "-s", "--cacert", bank.proxy.certificate, "-H", f"@{bank.folder}/keys/day", "--data-binary", f"@{shorter}",
                    f"https://127.0.0.1:{bank.proxy.port}/ops/holidays"], check=True, stdout=subprocess.DEVNULL)
    week.run("holidays", "2025", "2026", status=1, says="the desk has 2 holidays")
    week.run("holidays", "2025", "2026", "--replace-unknown", says="21 holidays")
    text = file_of_returns(1, "PPD", [returned("R01", 5, 1, 2500)])
    week.arrive("tuesday.ach", with_change(text, 2, returned("C01", 3, 2, 0, debit=False, text="987654321")))
    week.arrive("spoiled.ach", text.replace("0000002500E1", "0000002600E1"))
    week.arrive("still-arriving.ach.part", text[:300])
    week.run("returns", status=1, says="spoiled.ach was refused: BadTotal")
    week.checks.that("the spoiled file is in quarantine, with the reason",
                     [json.loads(it.read_text())["refused"] for it in (bank.state / "quarantine").glob("*.json")], ["BadTotal at record 5"])
    week.arrive("tuesday-again.ach", with_change(text, 2, returned("C01", 3, 2, 0, debit=False, text="987654321")))
    week.run("returns", says="1 returns, 1 changes, 0 late, 0 suspense; first taken on 2025-01-14")
    week.submit("BAKE01", submission("DUES-1", "debit", WED, 40000, 21000))
    week.run("cut", says="2 entries in files A")
    week.run("send", says="sent 2025-01-14-A")
    week.reported(TUE)


def wednesday(week):
    """The day on which everything is killed."""
    week.at(WED)
    week.killed_at_each_step("open", victim="desk")
    week.bring_back("before")
    week.killed_at_each_step("open")
    week.killed_at_each_step("holidays", "2025", "2027")
    week.arrive("wednesday.ach", file_of_returns(3, "PPD", [returned("R03", 10, 2, 21000), returned("R01", 9999999, 1, 500)]))
    week.arrive("forward.ach", file_of_returns(4, "PPD", [returned("R01", 9, 1, 40000)]).replace("\n626", "\n627", 1))
    week.killed_at_each_step("returns", victim="desk")
    week.bring_back("before")
    errors = week.killed_at_each_step("returns")
    week.checks.that("an alarm says that a file has forward entries", "It has forward entries" in errors)
    week.submit("MILL01", submission("PAY-2", "credit", FRI, 200000))
    week.killed_at_each_step("cut")
    week.killed_at_each_step("cut", victim="desk")
    week.submit("BAKE01", submission("PAY-2", "credit", THU, 33300))
    week.run("cut", says="1 entries in files B")
    week.killed_at_each_step("send", victim="desk")
    week.bring_back("before")
    week.killed_at_each_step("send")
    week.bring_back("before")
    week.operator.is_quick = True
    week.killed_at_each_step("send")
    week.killed_at_random("send", times=max(1, 20 // week.every))
    week.operator.is_quick = False
    week.killed_at_each_step("ack", str(week.ack_of(["2025-01-15-A", "2025-01-15-B"])))
    week.killed_at_each_step("report")
    week.reported(WED)
    print(f"        {week.kills} kills; a person had to decide {week.asked_again} times", flush=True)


def thursday(week):
    bank = week.bank
    week.at(THU)
    old = bank.shown["MILL01"], bank.shown["day"]
    bank.rotate("MILL01", "day")
    for key, path in zip(old, ("/c/MILL01/exposure", "/ops/status")):
        week.checks.that(f"the old key opens {path} no more", bank.proxy.ask("GET", path, key=key)[0], 403)
    lines_before, began, worked = len(bank.proxy.logged()), time.monotonic(), cpu_of_children()
    week.run("open")
    week.submit("MILL01", {"ref": "RT-1", "of": "DUES-1", "index": 1, "day": FRI}, "retries")
    week.run("returns", says="the inbox is empty")
    week.run("cut", says="1 entries in files A")
    week.run("backup", says="backed up")
    week.run("send", says="sent 2025-01-16-A")
    week.reported(THU)
    seconds, worked = time.monotonic() - began, cpu_of_children() - worked
    asked = sum("holder=operator:day" in line for line in bank.proxy.logged()[lines_before:])
    print(f"        a day (open, returns, cut, backup, send, report) took {seconds:.1f} s, {worked:.1f} s of CPU and {asked} requests", flush=True)
    bank.write_key("watcher")
    week.run("metrics", "--key-file", bank.folder / "keys" / "watcher", says="achdesk_up 1")
    week.measured()
    metrics_in_a_file(week)
    week.run("cut", "--key-file", bank.folder / "keys" / "MILL01", status=2, says="is not accepted")
    (bank.folder / "keys" / "day").chmod(0o644)
    week.run("send", status=2, says="can be read by others")
    (bank.folder / "keys" / "day").chmod(0o600)
    restored_elsewhere(week)


def metrics_in_a_file(week):
    """The metrics as the unit of the timer writes them. Whoever reads the file finds whole metrics, also while the command
    is killed at its steps and while several write at once."""
    bank, path = week.bank, week.bank.folder / "textfile" / "achdesk.prom"
    path.parent.mkdir()
    bank.write_config(metrics={"file": path})
    words = re.search(r"(?m)^ExecStart=/usr/bin/achdesk-day (.*)$", (TOP / "deploy/achdesk-day-metrics.service").read_text())[1].split()
    week.run(*words)
    wrong, is_on, step = [], [True], 1

    def read():
        while is_on[0]:
            with open(path) as file:
                mode, text = os.fstat(file.fileno()).st_mode & 0o777, file.read()
            if mode != 0o644 or not (text.startswith("# HELP achdesk_up ") and re.search(r"\nachdesk_quarantined_files \d+\n$", text)):
                wrong.append((oct(mode), text[-80:]))

    reader = threading.Thread(target=read, daemon=True)
    reader.start()
    while bank.day(*words, ACHDESK_DAY_KILL_AT=step)[0] == -9:
        step += 1
    ends = [it.wait() for it in [bank.begun_day(*words) for _ in range(6)]]
    is_on[0] = False
    reader.join()
    week.checks.that(f"the metrics in a file are whole, with the command killed at each of {step - 1} steps", wrong[:2], [])
    week.checks.that("and there were steps", step > 5)
    week.checks.that("several commands write them at once, and leave nothing else", (ends, [it.name for it in path.parent.iterdir()]), ([0] * 6, [path.name]))
    bank.desk.stop()
    week.run(*words, says="502")
    bank.desk.start()
    week.checks.that("if the desk is down, the file says so", "\nachdesk_up 0\n" in path.read_text())
    week.run("metrics", "--output", bank.folder / "nowhere" / "achdesk.prom", status=3, says="cannot be written")
    bank.write_config()


def cpu_of_children():
    """The CPU time of the commands that have ended, with curl's and sftp's; the desk and nginx have not."""
    used = resource.getrusage(resource.RUSAGE_CHILDREN)
    return used.ru_utime + used.ru_stime


def restored_elsewhere(week):
    """Restores the backup into another folder, and compares the desk that is served from there."""
    bank = week.bank
    other = bank.folder / "elsewhere" / "other.db"
    other.parent.mkdir()
    week.run("restore", "newest", "--to", other, says="restored")
    week.checks.that("a desk is served from the restored file", is_same_desk(week, other))
    week.run("restore", "newest", status=1, says="a desk is running")


def is_same_desk(week, path):
    told = []
    for file in (path, week.bank.desk_file):
        folder = tempfile.mkdtemp(dir=week.bank.folder)
        for name in (file, file.with_name(file.name + "-wal")):
            shutil.copy(name, Path(folder) / name.name)
        asked = "".join(f"GET {it} HTTP/1.1\r\nHost: h\r\nX-Desk-Key: the-desk-s-own-operator-key\r\n\r\n"
                        for it in ("/ops/status", "/ops/settlement", "/ops/suspense", f"/ops/files/{THU}/A"))
        told.append(subprocess.run([week.bank.program, "stdio", Path(folder) / file.name], input=asked.encode(), capture_output=True).stdout)
    return told[0] == told[1] and b"HTTP/1.1 200 OK" in told[0]


def friday(week):
    """A day after which the desk is lost and Thursday's backup is restored."""
    bank = week.bank
    week.at(FRI)
    week.run("open")
    week.arrive("friday.ach", file_of_returns(5, "PPD", [returned("R01", 6, 2, 4900), returned("R10", 7, 3, 3100)]))
    week.run("returns", status=1, says="ALARM: late return: MILL01 DUES-1 entry 2, R01, debit 49.00, taken on 2025-01-17. The bank decides by 2025-01-27")
    week.submit("BAKE01", submission("DUES-2", "debit", HOLIDAY, 5000))
    week.run("cut", says="1 entries in files A")
    week.run("send", says="sent 2025-01-17-A")
    week.reported(FRI)
    wanted = bank.curl("day", "/ops/settlement")
    bank.desk.stop()
    week.run("metrics", says="achdesk_up 0")
    printed = week.run("restore", "newest", says="the files that were there are in")
    bank.desk.start()
    week.checks.that("the restore lists the cut and the file that was sent since",
                     all(f"{it} 2025-01-17" in printed.replace("sent 2025-01-17-A", "sent 2025-01-17") for it in ("cut", "sent", "opened")))
    listed = next((bank.state / "reports").glob("restored-2025-01-17*.txt")).read_text()
    week.checks.that("and what came by way of the proxy", 'POST /c/BAKE01/submissions" 201' in listed and "POST /ops/cut" in listed)
    week.run("open", says="the desk day is 2025-01-17")
    week.run("cut", status=1, says="the desk was restored")
    week.run("send", status=1, says="2025-01-17-A")
    week.confirmed()
    week.run("cut", status=1, says="would pay twice")
    for path in (bank.state / "incoming" / FRI).glob("*.ach"):
        path.rename(bank.state / "inbox" / "friday.ach")
    week.run("returns", says="2 returns, 0 changes, 1 late, 0 suspense")
    week.run("watch", status=1, says="late return: MILL01 DUES-1 entry 2, R01, debit 49.00, taken on 2025-01-17. The bank decides by 2025-01-27")
    week.submit("BAKE01", submission("DUES-2", "debit", HOLIDAY, 5000))
    week.run("cut", "--remake", says="byte for byte; it is not sent again")
    week.run("send", says="nothing")
    week.checks.that("the restored desk is as it was", bank.curl("day", "/ops/settlement"), wanted)


def holiday_and_after(week):
    week.at(HOLIDAY)
    week.run("open", says="is not a banking day")
    week.run("cut", says="is not a banking day; nothing is cut")
    week.at(NEXT)
    week.run("cut", status=1, says="Run achdesk-day open")
    week.run("open", says="the desk day is 2025-01-21")
    week.run("cut", says="nothing is due")
    week.run("send", says="nothing")
    week.run("ack", week.ack_of(["2025-01-16-A", "2025-01-17-A"]), status=1, says="not acknowledged: 2025-01-14-A")


def by_hand(week):
    """Files that are transmitted by hand, one of them without a wrong payroll, and one that is withheld."""
    bank, copy = week.bank, week.bank.folder / "corrected.ach"
    desk_file = lambda letter: bank.curl("day", f"/ops/files/{NEXT}/{letter}")
    week.submit("BAKE01", submission("PAY-3", "credit", AFTER, 5000))
    week.submit("MILL01", submission("PAY-3", "credit", AFTER, 60000, 40000))
    week.submit("MILL01", submission("PAY-4", "credit", AFTER, 10000))
    week.run("cut", says="4 entries in files A")
    copy.write_text(without_batch(desk_file("A"), 3))
    week.operator.by_portal(f"{NEXT}-A", copy.read_text())
    week.run("correct", f"{NEXT}-A", status=1, says="is neither transmitted nor withheld")
    spoiled = bank.folder / "spoiled.ach"
    spoiled.write_text(copy.read_text().replace("0000060000", "0000060001", 1))
    week.run("mark", f"{NEXT}-A", "--transmitted-as", spoiled, status=1, says="a batch control")
    words = ("mark", f"{NEXT}-A", "--transmitted-as", str(copy), "--why", "without PAY-4")
    week.killed_at_each_step(*words)
    week.sent_after_a_kill(f"{NEXT}-A", *words)
    week.run(*words, says="already")
    week.run("mark", f"{NEXT}-A", "--transmitted-as", "-", given=copy.read_text(), says="already")
    week.untransmitted({NEXT: 0})
    week.run("mark", f"{NEXT}-A", "--withheld", status=1, says="it was transmitted")
    week.run("send", says="nothing")
    week.run("send", "--again", f"{NEXT}-A", status=1, says="another file was transmitted in its place")
    week.killed_at_each_step("correct", f"{NEXT}-A")
    week.run("correct", f"{NEXT}-A", "--trace", "121042880000018", says="1 entries, debits 0.00, credits 100.00")
    week.run("correct", f"{NEXT}-A", "--all", status=1, says="were corrected before, the first with trace 121042880000018")
    week.run("returns", says="1 returns, 0 changes, 0 late, 0 suspense")
    week.run("correct", f"{NEXT}-A", says="credits 100.00")
    week.run("returns", says="1 returns, 0 changes, 0 late, 0 suspense")
    week.submit("BAKE01", submission("PAY-4", "credit", AFTER, 7000))
    week.run("cut", says="1 entries in files B")
    week.operator.by_portal(f"{NEXT}-B", desk_file("B"))
    words = ("mark", f"{NEXT}-B", "--transmitted")
    week.killed_at_each_step(*words)
    week.sent_after_a_kill(f"{NEXT}-B", *words)
    week.submit("MILL01", submission("PAY-5", "credit", AFTER, 900))
    week.run("cut", says="1 entries in files C")
    week.untransmitted({NEXT: 1})
    words = ("mark", f"{NEXT}-C", "--withheld")
    week.killed_at_each_step(*words)
    week.sent_after_a_kill(f"{NEXT}-C", *words)
    week.untransmitted({NEXT: 0})
    week.run("send", says="nothing")
    week.run("correct", f"{NEXT}-C", says="1 entries, debits 0.00, credits 9.00")
    week.killed_at_each_step("returns")
    week.reported(NEXT)
    found = [bank.curl("MILL01", f"/c/MILL01/submissions/{ref}")["entries"] for ref in ("PAY-3", "PAY-4", "PAY-5")]
    week.checks.that("the companies see what was not transmitted as returned", [[(it["state"], it.get("code")) for it in entries] for entries in found],
                     [[("sent", None), ("sent", None)], [("returned", "R06")], [("returned", "R06")]])
    path = week.ack_of([f"{NEXT}-B"])
    rows = path.read_text()
    path.write_text(rows + f"{NEXT}-A,{','.join(map(str, CORRECTED))}\n")
    week.run("ack", path, status=1, says=f"acknowledged {NEXT}-A: 2 batches, 3 records, debits 0.00, credits 1,050.00")
    path.write_text(rows + f"{WITHHELD},1,1,0,900\n")
    week.run("ack", path, status=1, says=f"has {WITHHELD}, which was withheld")


def left_untransmitted(week):
    """A file that is left untransmitted past the end of its day."""
    week.at(AFTER)
    week.run("open", says="the desk day is 2025-01-22")
    week.submit("BAKE01", submission("PAY-6", "credit", LAST, 30000))
    week.submit("MILL01", submission("PAY-6", "credit", LAST, 20000, 15000))
    week.run("cut", says="3 entries in files A")
    week.run("send", says="sent 2025-01-22-A")
    week.submit("MILL01", submission("PAY-7", "credit", LAST, 12500))
    week.run("cut", says="1 entries in files B")
    week.untransmitted({AFTER: 1})
    week.at(LAST)
    week.run("open", status=1, says="not transmitted: 2025-01-22-B")
    week.run("open", "--leave-unsent", says="the desk day is 2025-01-23")
    week.run("open", status=1, says="not transmitted: 2025-01-22-B")
    week.untransmitted({AFTER: 1, LAST: 0})
    week.run("send", says="sent 2025-01-22-B")
    week.untransmitted({LAST: 0})
    week.run("open", says="the desk day is 2025-01-23 already")
    week.reported(AFTER)


def rejected(week):
    """A file and a batch that the ACH operator rejects, and a file that is transmitted a second time."""
    bank, path = week.bank, week.bank.folder / "ack.csv"
    rows = lambda *them: path.write_text("\n".join(["file,batches,entries,debits,credits", *them, ""]))
    week.run("ack", "-", given=week.ack_of([f"{TUE}-A"]).read_text(), says="acknowledged 2025-01-14-A")
    rows(f"{AFTER}-A,1,1,0,30000")
    week.run("ack", path, status=1, says="was transmitted with 2 batches, 3 records, debits 0.00, credits 650.00, and acknowledged with 1 batches, 1 records")
    week.run("correct", f"{AFTER}-A", "--batch", "2", says="2 entries, debits 0.00, credits 350.00")
    week.run("ack", path, status=1, says=f"not acknowledged: {AFTER}-B")
    week.checks.that("a file is acknowledged without its corrected batch", f'"did": "acknowledged", "file": "{AFTER}-A"' in (bank.state / "day.journal").read_text())
    rows(f"{AFTER}-A,1,1,0,20000")
    week.run("ack", path, status=1, says=f"{AFTER}-A was transmitted with")
    week.run("ack", week.ack_of([f"{AFTER}-A"]), status=1, says=f"not acknowledged: {AFTER}-B")
    week.run("correct", f"{AFTER}-B", "--all", says="1 entries, debits 0.00, credits 125.00")
    week.run("ack", week.ack_of([f"{AFTER}-A"]), says=f"acknowledged {AFTER}-A")
    week.run("ack", week.ack_of([f"{AFTER}-B"]), status=1, says=f"the acknowledgement has {AFTER}-B, of which achdesk-day correct has returned every entry")
    week.killed_at_each_step("returns")
    week.reported(LAST)
    week.run("report", AFTER)
    text = (bank.state / "reports" / f"{AFTER}.txt").read_text()
    week.checks.that("the report says what was corrected, and misses no acknowledgement of it",
                     (f"{AFTER}-A" in text, "2 entries corrected, acknowledged" in text, "1 entries corrected\n" in text, "not acknowledged" in text), (True, True, True, False))
    (bank.sftp.inbox / f"{THU}-A.ach").unlink()
    week.run("send", "--again", f"{THU}-A", status=1, says="the ACH operator acknowledged")
    week.run("send", "--again", f"{THU}-A", "--though-acknowledged", says=f"sent {THU}-A")
    week.run("ack", week.ack_of([f"{AFTER}-A"]), status=1, says=f"not acknowledged: {THU}-A")
    week.run("ack", week.ack_of([f"{THU}-A"]), says=f"acknowledged {THU}-A")


def too_late(week):
    """A desk day that was set too late, by hand."""
    wrong = "2025-01-24"
    week.bank.curl("day", "/ops/day", {"day": wrong})
    week.run("open", status=1, says=f"the desk day is {wrong}, which is after today, {LAST}")
    week.run("open", "--day", AFTER, status=1, says=f"the desk day is {wrong}, which is after {AFTER}")
    week.run("cut", status=1, says="A desk day cannot be taken back")
    printed = week.run("metrics", says="achdesk_day_age_days -1")
    week.checks.that("the page has an alarm for it", "achdesk_day_age_days < 0" in alarms_for(printed))
    week.at(wrong)
    week.run("open", says=f"the desk day is {wrong} already")


# ---- a withheld file, and a desk that is restored to a backup from before it ----

def withheld_and_restored(checks, program, folder, _):
    """A file is withheld, and a desk that was restored makes it again: byte for byte, and with other bytes. Nothing of it may be
    transmitted until a person says so."""
    with Bank(program, folder) as bank:
        week = Week(bank, checks, 1)
        week.at(MON)
        week.run("holidays", "2025", "2026", says="21 holidays")
        week.run("open", says=MON)
        for company, name in NAMES.items():
            bank.curl("day", "/ops/companies", {"id": company, "name": name, "key": DESK_KEYS[company], **LIMITS})
        week.run("backup", says="backed up")
        pay(week, "MILL01", PAY_1=1000, PAY_2=2000)
        week.run("cut", says="2 entries in files A")
        week.run("mark", f"{MON}-A", "--withheld", "--why", "PAY-2 is wrong", says=f"withheld {MON}-A")
        first = returned_by_correct(week, f"{MON}-A", "debits 0.00, credits 30.00")
        made_again_alike(week)
        made_again_and_withheld(week, first)
        made_again_and_transmitted(week)


def pay(week, company, **cents):
    for ref, amount in cents.items():
        week.submit(company, submission(ref.replace("_", "-"), "credit", WED, amount))


def restored_newest(week):
    week.bank.desk.stop()
    week.run("restore", "newest", says="restored")
    week.bank.desk.start()
    week.run("send", status=1, says="the desk was restored")
    week.confirmed()


def returned_by_correct(week, name, says):
    """Corrects all entries of a file, posts the returns, and gives the name of their file."""
    printed = week.run("correct", name, says=says)
    week.run("returns", says="2 returns, 0 changes, 0 late, 0 suspense")
    return re.search(r"R06-[\w-]+\.ach", printed)[0]


def move_archived(week, folder):
    """Moves the incoming files of Monday out of the archive."""
    folder.mkdir(exist_ok=True)
    for path in (week.bank.state / "incoming" / MON).glob("*.ach"):
        path.rename(folder / path.name[17:])
        path.with_name(f"{path.name}.json").unlink()


def made_again_alike(week):
    restored_newest(week)
    pay(week, "MILL01", PAY_1=1000, PAY_2=2000)
    week.run("cut", says=f"{MON}-A is the file that was withheld, byte for byte; send leaves it out")
    week.run("send", says="to transmit: nothing")
    week.untransmitted({MON: 0})
    move_archived(week, week.bank.state / "inbox")
    week.run("returns", says="2 returns, 0 changes, 0 late, 0 suspense")


def made_again_and_withheld(week, first):
    bank, name = week.bank, f"{MON}-A"
    restored_newest(week)
    pay(week, "MILL01", PAY_1=1000, PAY_3=3000)
    week.run("cut", status=1, says=f"ALARM: {name} was withheld, and made again with other bytes")
    week.checks.that("the alarm command is told of a withheld file that was made again", any(f"{name} was withheld, and made again" in it for it in bank.alarms()))
    week.untransmitted({MON: 1})
    week.run("send", "--dry-run", status=1, says=f"{name} was withheld, and made again with other bytes")
    step = 1
    while bank.day("send", ACHDESK_DAY_KILL_AT=step)[0] == -9:
        step += 1
    week.checks.that(f"send is killed at its steps, up to step {step - 1}, and there were some", step > 3)
    pay(week, "BAKE01", PAY_1=500)
    week.run("cut", says="1 entries in files B")
    week.run("send", status=1, says=f"achdesk-day send --again {name}, or achdesk-day mark {name} --withheld")
    week.checks.that("it keeps back itself, and no file after it", [it.name for it in bank.sftp.inbox.iterdir()], [f"{MON}-B.ach"])
    week.run("correct", name, status=1, says="is neither transmitted nor withheld")
    move_archived(week, bank.folder / "elsewhere")
    week.run("report")
    text = (bank.state / "reports" / f"{MON}.txt").read_text()
    week.checks.that("the report says of the file that it is not transmitted", text.count("NOT TRANSMITTED"), 1)
    week.at(TUE)
    week.run("open", status=1, says=f"not transmitted: {name}")
    week.at(MON)
    week.run("mark", name, "--withheld", says=f"withheld {name}")
    week.run("mark", name, "--withheld", says="already")
    week.untransmitted({MON: 0})
    week.run("send", says="to transmit: nothing")
    week.checks.that("both files that were withheld are kept", len(list((bank.state / "withheld").iterdir())), 2)
    second = returned_by_correct(week, name, "debits 0.00, credits 40.00")
    week.checks.that("the returns of other entries are another file", second != first)


def made_again_and_transmitted(week):
    bank, name = week.bank, f"{MON}-A"
    restored_newest(week)
    pay(week, "MILL01", PAY_1=1000, PAY_4=4000)
    week.run("cut", status=1, says="would pay twice")
    week.run("cut", "--remake", status=1, says="; now 2 submissions, credits 50.00, debits 0.00 are due. Let companies send what they had sent before it")
    week.checks.that("and nothing was cut", bank.curl("day", "/ops/status")["files"], [])
    week.run("cut", "--remake", "--again", status=1, says=f"ALARM: {name} was withheld, and made again with other bytes")
    week.run("send", status=1, says="transmitting would pay twice")
    pay(week, "BAKE01", PAY_1=500)
    week.run("cut", "--remake", says=f"{MON}-B is the file that was transmitted, byte for byte; it is not sent again")
    week.run("send", status=1, says=f"{name} was withheld, and made again with other bytes")
    week.run("send", "--again", name, says=f"sent {name}: 2 batches, 2 records, debits 0.00, credits 50.00")
    week.run("send", says="to transmit: nothing")
    week.untransmitted({MON: 0})
    desk = {f"{MON}-{it}.ach": bank.curl("day", f"/ops/files/{MON}/{it}").encode() for it in "AB"}
    week.checks.that("the ACH operator has each file once, as the desk has it", week.operator.received(), {it: [text] for it, text in desk.items()})
    week.run("ack", "-", given=f"file,batches,entries,debits,credits\n{name},2,2,0,5000\n{MON}-B,1,1,0,500\n", says=f"acknowledged {name}: 2 batches, 2 records")


# ---- a standby that takes over, after a kill at each step of an afternoon ----

PAYMENTS = {"PAY-1": 11100, "PAY-2": 22200}  # each with amounts of its own, by which it is known in what was transmitted


def taken_over(checks, program, folder, every):
    """The machine is lost at each step of cut, backup, copy and send, and the standby takes over with what has left it."""
    with Bank(program, folder) as bank:
        bank.write_config(bank={"cut_off": ""})
        week = Week(bank, checks, every)
        week.operator.is_quick = True
        week.at(MON)
        week.run("holidays", "2025", "2026", says="21 holidays")
        week.run("open", says=MON)
        bank.curl("day", "/ops/companies", {"id": "MILL01", "name": "MILL STREET", "key": DESK_KEYS["MILL01"], **LIMITS})
        week.run("backup", says="backed up")
        week.run("copy")
        only_writes(checks, bank)
        pay(week, "MILL01", **{"PAY_1": PAYMENTS["PAY-1"]})
        week.keep("afternoon")
        week.at(MON, "15:00")  # a backup's name is the second in which it began: without a later one there would be the first alone
        afternoon = [("cut",), ("backup",), ("copy",), ("send",)]
        for at, words in enumerate(afternoon):
            step, is_over, failed = 1, False, []
            while not is_over:
                back_to_afternoon(week, afternoon[:at])
                is_over = bank.day(*words, ACHDESK_DAY_KILL_AT=step)[0] != -9
                failed += standby_goes_on(week, f"{words[0]} at step {step}", is_older=bool(step % 2))
                step += every
                week.kills += 1
            checks.that(f"{words[0]} is killed at its steps, up to step {step - 1}, and a standby takes over: {failed}", failed, [])


def only_writes(checks, bank):
    """What the key that leaves the journal at the standby may do there: add and replace, and neither read, remove nor run."""
    sftp, words = bank.sftp, ["-F", "none", "-o", "BatchMode=yes", "-o", "IdentitiesOnly=yes", "-o", f"UserKnownHostsFile={bank.sftp.known_hosts}", "-i", str(bank.sftp.copy_identity)]
    there, shell = f"{sftp.user}@127.0.0.1", f"ssh -p {sftp.port} {' '.join(words)}"
    before = bytes_of(sftp.standby / "state")
    checks.that("the journal is at the standby", before.get("day.journal"), (bank.state / "day.journal").read_bytes())
    empty, taken = bank.folder / "empty", bank.folder / "taken"
    empty.mkdir()
    for what, command in (("reads", ["rsync", "-a", "-e", shell, f"{there}:/state/", taken]), ("removes", ["rsync", "-a", "--delete", "-e", shell, f"{empty}/", f"{there}:/state/"]),
                          ("moves", ["rsync", "-a", "--remove-source-files", "-e", shell, f"{there}:/state/", taken]),
                          ("leaves its folder", ["rsync", "-a", "-e", shell, bank.config, f"{there}:/../inbox/"]), ("runs a command", ["ssh", "-p", sftp.port, *words, there, "id"]),
                          ("opens SFTP", ["sftp", "-b", "/dev/null", "-P", sftp.port, *words, there])):
        done = subprocess.run([str(it) for it in command], capture_output=True, text=True, stdin=subprocess.DEVNULL)
        checks.that(f"nobody {what} with the key of the standby", (done.returncode != 0, bytes_of(sftp.standby / "state") == before, taken.exists() and any(taken.iterdir())), (True, True, False))


def back_to_afternoon(week, done):
    """Brings the afternoon back, and makes these commands of it."""
    bank = week.bank
    with week.operator.lock:
        bank.desk.stop()
        copied(bank.folder / "afternoon", bank.folder)
        (bank.folder / "alarms").unlink(missing_ok=True)
        bank.desk.start()
    for words in done:
        bank.day(*words)


def own_of(sftp, folder):
    """Gives a folder to the user of the SFTP server, who is not root."""
    if os.geteuid() == 0:
        for path in (folder, *folder.rglob("*")):
            shutil.chown(path, sftp.user)


def standby_goes_on(week, when, is_older):
    """What a person does at the standby, by the page, whose desk has the newest backup or the first one. Returns what is wrong."""
    bank, machine = week.bank, {"ACHDESK_DAY_MACHINE": "standby"}
    bank.desk.stop()
    subprocess.run(["rsync", "--archive", "--delete", f"{bank.folder}/operator/standby/state/", f"{bank.state}/"], check=True)
    if os.geteuid() == 0:
        subprocess.run(["chown", "-R", "root:root", bank.state], check=True)
    names = sorted(it.parent.name for it in bank.backups.glob("*/backup.json"))
    bank.day("restore", names[0] if is_older else names[-1], **machine)
    bank.desk.start()
    wrong = [f"{when}: {words} does not refuse" for words in ("cut", "send") if bank.day(words, **machine)[0] != 1]
    status = bank.curl("day", "/ops/status")
    if not any(it["held"]["credits"]["submissions"] for it in status["companies"]) and not status["files"]:
        pay(week, "MILL01", **{"PAY_1": PAYMENTS["PAY-1"]})  # what was answered since the backup is submitted again
    there = {name.removesuffix(".ach") for name in week.operator.received()}
    for line in (it for it in bank.day("confirm", **machine)[1].splitlines() if it.startswith("  ")):
        name = line.split()[0]
        bank.day("confirm", name, "--transmitted" if name in there else "--not-transmitted", "--by", "ANN", **machine)
    bank.day("confirm", "--no-other", "--by", "ANN", **machine)
    refusals = len(bank.alarms())
    bank.day("cut", "--remake", **machine)
    bank.day("send", **machine)
    pay(week, "MILL01", **{"PAY_2": PAYMENTS["PAY-2"]})
    ended = [bank.day(words, **machine) for words in ("cut", "send")]
    received = b"".join(text for texts in week.operator.received().values() for text in texts)
    times = [received.count(f"{cents:010}E1".encode()) for cents in PAYMENTS.values()]
    if max(times) > 1 or times != [1, 1] and len(bank.alarms()) == refusals:
        wrong.append(f"{when}, {'older' if is_older else 'newest'}: transmitted {times}: {ended}")
    return wrong


# ---- a machine that is put back ----

def put_back(checks, program, folder, _):
    """A machine is put back to before a transmission, with its journal. It transmitted while the standby was down at first: the
    standby knows all the same, and nothing is transmitted twice."""
    with Bank(program, folder) as bank:
        week, name, kept = Week(bank, checks, 1), f"{MON}-A", bank.folder / "kept"
        week.operator.is_quick = True
        week.at(MON)
        week.run("holidays", "2025", "2026", says="21 holidays")
        week.run("open", says=MON)
        bank.curl("day", "/ops/companies", {"id": "MILL01", "name": "MILL STREET", "key": DESK_KEYS["MILL01"], **LIMITS})
        pay(week, "MILL01", PAY_1=1000)
        week.run("cut", says="in files A")
        shutil.copytree(bank.state, kept)
        bank.write_config(standby={"port": 1})
        for _ in range(2):
            week.run("send", status=3, says=f"{name} was not transmitted")
        bank.write_config()
        week.run("send", says=f"sent {name}")
        shutil.rmtree(bank.state)
        kept.rename(bank.state)
        week.run("send", status=1, says="the standby knows of a transmission that this journal does not have")
        week.run("send", status=1, says="whether it has any other file is not confirmed")
        week.run("confirm", name, "--transmitted", "--by", "ANN", says="confirmed")
        week.run("confirm", "--no-other", "--by", "ANN", says="cut and send go on")
        week.run("send", says="to transmit: nothing")
        desk = bank.curl("day", f"/ops/files/{MON}/A").encode()
        checks.that("the ACH operator has the file once, and so has the archive", (week.operator.received(), bank.archive()), ({f"{name}.ach": [desk]}, {f"{name}.ach": desk}))


# ---- files that are fetched, and what is late ----

def fetched_and_watched(checks, program, folder, _):
    """Files of returns on the real SFTP server: fetched once, whatever the server has next to them; and what is late."""
    with Bank(program, folder) as bank:
        there = bank.folder / "operator" / "returns"
        there.mkdir()
        own_of(bank.sftp, there)
        bank.write_config(fetch={"folder": there, "names": "*.ach", "then": "delete"}, alarm={"received": "10:00"}, sftp={"window": "17:00"})
        week = Week(bank, checks, 1)
        week.at(MON)
        week.run("holidays", "2025", "2026", says="21 holidays")
        week.run("open", says=MON)
        for name, text in (("r1.ach", file_of_returns(1, "PPD", [returned("R01", 9999999, 1, 500)])), ("r2.ach.part", "1"), ("b" * 200 + ".ach", "1")):
            (there / name).write_text(text)
        os.truncate(os.open(there / "large.ach", os.O_CREAT | os.O_RDWR, 0o644), 30 << 30)
        own_of(bank.sftp, there)
        week.at(MON, "10:30")
        week.run("watch", status=1, says="no incoming file until 10:00")
        step = 1
        while bank.day("fetch", ACHDESK_DAY_KILL_AT=step)[0] == -9:
            step += 1
        checks.that(f"fetch is killed at its steps, up to step {step - 1}", step > 5)
        week.run("fetch", status=1, says="large.ach of the SFTP server is not fetched")
        checks.that("a file is fetched once, and the server's is deleted", sorted(it.name[:8] for it in there.iterdir()), ["bbbbbbbb", "large.ac", "r2.ach.p"])
        week.run("returns", says="taken r1.ach: 0 returns, 0 changes, 0 late, 1 suspense")
        week.run("fetch", status=1)
        week.run("returns", says="the inbox is empty")
        week.run("watch", says="nothing is late")
        bank.curl("day", "/ops/companies", {"id": "MILL01", "name": "MILL STREET", "key": DESK_KEYS["MILL01"], **LIMITS})
        pay(week, "MILL01", PAY_1=100)
        week.at(MON, "16:00")
        week.run("cut", says="in files A")
        bank.sftp.stop()
        week.run("send", status=3)
        week.at(MON, "17:01")
        week.run("send", "--retry", status=1, says="until the ACH operator's window closed at 17:00")
        week.run("watch", status=1, says=f"closed at 17:00: {MON}-A")
        bank.sftp.start()
        subprocess.run(["ssh-keygen", "-q", "-t", "ed25519", "-N", "", "-f", bank.folder / "other"], check=True)
        right = bank.sftp.known_hosts.read_text()
        bank.sftp.known_hosts.write_text(f"{right.split()[0]} {(bank.folder / 'other.pub').read_text()}")
        bank.write_config(standby={"to": "none"})
        week.run("send", status=2, says="does not let achdesk-day in, or is another one")
        checks.that("a changed host key is an alarm at once", any("achdesk-day send cannot run" in it for it in bank.alarms()))
        bank.sftp.known_hosts.write_text(right)
        week.run("send", says=f"sent {MON}-A")


# ---- what the console did, and everyday questions ----

def by_other_means(checks, program, folder, _):
    """A day on which curl, as the console, cuts and posts a file of returns: the report has both, and says what the archive lacks.
    Held submissions, entries, items in suspense and late returns are listed, and the bank's decisions kept."""
    with Bank(program, folder) as bank:
        week = Week(bank, checks, 1)
        week.at(MON)
        week.run("holidays", "2025", "2026", says="21 holidays")
        week.run("open", says=MON)
        for company, name in NAMES.items():
            bank.curl("day", "/ops/companies", {"id": company, "name": name, "key": DESK_KEYS[company], **LIMITS})
        week.submit("MILL01", submission("DUES-1", "debit", TUE, 2500, 4900, 3100))
        week.run("held", "--csv", says=f"MILL01,DUES-1,submission,debit,3,10500,{TUE}\n")
        bank.curl("day", "/ops/cut", text="")
        pay(week, "BAKE01", PAY_1=99999)
        week.run("cut", says="1 entries in files B")
        week.run("send", says=f"sent {MON}-B")
        week.submit("MILL01", submission("DUES-3", "debit", FRI, 700))
        week.at(FRI)
        week.run("open")
        text = file_of_returns(5, "PPD", [returned("R01", 2, 2, 4900), returned("R01", 9999, 1, 500)])
        told = bank.curl("day", "/ops/returns", text=text)
        checks.that("curl posts a late return and an item that goes to suspense", (told["returns"], told["late"], told["suspense"]), (1, 1, 1))
        reports_of_other_means(week)
        questions(week)
        decisions(week, text)


def report_rows(week, day, section):
    return [row for row in csv.DictReader(io.StringIO((week.bank.state / "reports" / f"{day}.csv").read_text())) if row["section"] == section]


def reports_of_other_means(week):
    week.run("report", MON, status=1, says="by other means")
    found = [(row["name"] == "by other means", row["count"], row["note"].partition("files ")[2][:1]) for row in report_rows(week, MON, "cut")]
    week.checks.that("the report shows the cut of curl by its files, and the program's own", found, [(False, "1", "B"), (True, "3", "A")])
    week.checks.that("a late return is an alarm once it is found", [it for it in week.bank.alarms() if "late return: MILL01 DUES-1 entry 2" in it] != [])
    week.run("metrics", says="\nachdesk_late_returns 1\n")
    week.run("report", FRI)
    found = [[(row["name"], row["count"]) for row in report_rows(week, FRI, it)] for it in ("return", "incoming files", "incoming file that the archive lacks")]
    week.checks.that("the report has the returns that curl posted, and names the file that the archive lacks", found,
                     [[("R01", "1")], [("", "1")], [("0610001462501140000F", "2")]])


def questions(week):
    rows = {it["company"]: it for it in json.loads(week.run("companies", "--json"))}
    wanted = {it["id"]: it for it in week.bank.curl("day", "/ops/companies")["companies"]}
    week.checks.that("companies has what the desk answers", {it: (row["credit"], row["debit"], row["debits"], row["overall"]) for it, row in rows.items()},
                     {it: (int(row["credit"]), int(row["debit"]), row["rates"]["overall"]["d"], row["rates"]["overall"]["n"]) for it, row in wanted.items()})
    for words, entries in ((("--amount", "49.00"), ["DUES-1/2"]), (("--name", "receiver 3"), ["DUES-1/3"]), (("--ref", "dues-3"), ["DUES-3/1"]),
                           (("--trace", "121042880000001"), ["DUES-1/1"]), (("--account", "6789", "--company", "BAKE01"), ["PAY-1/1"])):
        printed = week.run("find", *words, "--json")
        week.checks.that(f"find {' '.join(words)}", ([f"{it['ref']}/{it['entry']}" for it in json.loads(printed)], "123456789" in printed), (entries, False))
    week.run("find", "--account", "-", "--accounts", given="123456789\n", says="123456789")


def decisions(week, text):
    week.run("suspense", says="121042880009999  debit")
    week.run("suspense", "--close", "1", "--note", "dishonored, R61", says="closed item 1")
    week.run("watch", status=1, says="late return: MILL01 DUES-1 entry 2")
    week.run("late", "--close", "1", "--note", "accepted", says="closed item 1")
    week.run("watch", says="nothing is late")
    week.run("metrics", says="\nachdesk_late_returns 0\n")
    week.arrive("late.ach", text)
    week.run("returns", says=f"taken late.ach: 1 returns, 0 changes, 1 late, 1 suspense; first taken on {FRI}")
    week.run("report", says="closed 2025-01-17: accepted")
    week.checks.that("the file is in the archive now, and nothing is open",
                     [report_rows(week, FRI, it) for it in ("incoming file that the archive lacks", "open in suspense")], [[], []])


def at_the_end(week):
    """Each file once in the archive and once at the ACH operator, byte for byte as the desk has it."""
    bank = week.bank
    names = [f"{day}-{letter}" for day in FIGURES for letter in FIGURES[day]["files"]]
    desk = {f"{name}.ach": bank.curl("day", f"/ops/files/{name[:10]}/{name[11]}").encode() for name in names}
    withheld = desk.pop(f"{WITHHELD}.ach")
    week.checks.that("the archive has each transmitted file once, byte for byte as the desk has it", bank.archive(), desk)
    week.checks.that("and the one that was withheld elsewhere", list(bytes_of(bank.state / "withheld").values()), [withheld])
    copy = (bank.folder / "corrected.ach").read_bytes()
    week.checks.that("and the one that was transmitted in place of another", list(bytes_of(bank.state / "by_hand").values()), [copy])
    week.checks.that("the ACH operator has each file once, byte for byte", week.operator.received(), {name: [text] for name, text in (desk | {f"{NEXT}-A.ach": copy}).items()})
    week.checks.that("nothing is left half-way", [bytes_of(bank.state / "sending"), bytes_of(bank.sftp.inbox, ".part")], [{}, {}])
    alarms = [json.loads(line)["text"] for line in (bank.state / "day.journal").read_text().splitlines() if '"did": "alarm"' in line]
    week.checks.that("each alarm of the journal was given to the alarm command", set(alarms) <= set(bank.alarms()))


DAYS = (monday, tuesday, wednesday, thursday, friday, holiday_and_after, by_hand, left_untransmitted, rejected, too_late, at_the_end)
NAMES_OF_DAYS = [it.__name__ for it in DAYS]
OTHER_FILES = ("alarms", "corrected.ach")  # of the bank's folder, which later days look at


def whole_week(checks, program, folder, every, kept="", first="", last=""):
    """All days, or those from a first one on, whose state an earlier run kept, to a last one."""
    begin, end = (NAMES_OF_DAYS.index(it or other) for it, other in ((first, NAMES_OF_DAYS[0]), (last, NAMES_OF_DAYS[-1])))
    with Bank(program, folder) as bank:
        week = Week(bank, checks, every)
        if first:
            go_on(week, Path(kept) / first)
        for day in DAYS[begin:end + 1]:
            print(f"---- {day.__name__}", flush=True)
            if kept:
                keep_for_later(week, Path(kept) / day.__name__)
            day(week)


def keep_for_later(week, target):
    """Keeps the state before a day for another run."""
    target.mkdir(parents=True, exist_ok=True)
    with week.operator.lock:
        week.bank.desk.stop()
        copied(week.bank.folder, target)
        week.bank.desk.start()
    for path in (week.bank.folder / it for it in OTHER_FILES if (week.bank.folder / it).exists()):
        shutil.copy(path, target)
    (target / "week.json").write_text(json.dumps({"shown": week.bank.shown, "is_quick": week.operator.is_quick, "now": week.bank.now}))


def go_on(week, source):
    """Brings back what another run kept, with the keys of that day."""
    bank, told = week.bank, json.loads((source / "week.json").read_text())
    with week.operator.lock:
        bank.desk.stop()
        copied(source, bank.folder)
        bank.desk.start()
    for path in (source / it for it in OTHER_FILES if (source / it).exists()):
        shutil.copy(path, bank.folder)
    bank.shown, week.operator.is_quick, bank.now = told["shown"], told["is_quick"], told["now"]
    for name in bank.shown:
        bank.write_key(name)
    bank.rotate()


PARTS = {it.__name__: it for it in (whole_week, withheld_and_restored, taken_over, put_back, fetched_and_watched, by_other_means)}


def options_of(words):
    """Takes --kept, --from and --to out of the words, and returns them as the arguments of `whole_week`."""
    found = {}
    for option, name in (("--kept", "kept"), ("--from", "first"), ("--to", "last")):
        if option in words:
            at = words.index(option)
            found[name] = "".join(words[at + 1:at + 2])
            del words[at:at + 2]
    if not {found.get("first", ""), found.get("last", "")} <= {"", *NAMES_OF_DAYS} or "first" in found and "kept" not in found:
        sys.exit(f"--from needs --kept, and the days are {' '.join(NAMES_OF_DAYS)}")
    return found


def main():
    end_if_missing()
    signal.signal(signal.SIGTERM, lambda *_: sys.exit(1))  # ends the parts too
    given = sys.argv[1:]
    options = options_of(given)
    parts, words = [it for it in given if it in PARTS], [it for it in given if it not in PARTS]
    program, checks, began, every = program_of(words), Checks(), time.monotonic(), int((words[1:] or ["1"])[0])
    with tempfile.TemporaryDirectory(prefix="judge-day-") as folder:
        Path(folder).chmod(0o755)
        for name in parts or PARTS:
            print(f"---- {name}", flush=True)
            (Path(folder) / name).mkdir()
            PARTS[name](checks, program, Path(folder) / name, every, **(options if name == "whole_week" else {}))
    print(f"        {time.monotonic() - began:.0f} s in all", flush=True)
    checks.end()


if __name__ == "__main__":
    main()
