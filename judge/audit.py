#!/usr/bin/env python3
"""Reads a desk's file by the views of docs/audit.sql: `python3 judge/audit.py [PROGRAM]`, the built program if it is left out.

A desk in a file works through some days of a bank: two companies, credits and debits, prenotes, a holiday, returns, a
change, items in suspense, a retry that is sent and one that lapses. After each day stock SQLite opens a copy of the file
and of its log, without the right to write, and the rows of the views are compared with the desk's answers to its calls;
days and sums that no call returns were found by hand, and so were the results of the queries of docs/audit/views.md. Then
rows of the last copy are spoiled one by one, and the check that is named next to each has to report it. The last line
counts the checks; the exit status is 1 if one failed.
"""

import io
import json
import re
import shutil
import sqlite3
import sys
import tempfile
from pathlib import Path

from helpers.returned import file_of_returns
from helpers.running import IDENTITY, MILL_KEY, OPERATOR_KEY, TOP, Checks, body_of, make_desk, message, program_of, read_answer, run, status_of

VIEWS = (TOP / "docs" / "audit.sql").read_text()
QUERIES = re.findall(r"^```sql\n(.*?)^```", (TOP / "docs" / "audit" / "views.md").read_text(), re.M | re.S)
KEYS = {"BAKE01": "bakery-key", "MILL01": MILL_KEY}
NAMES = {"BAKE01": "BAKERY", "MILL01": "MILL STREET"}
LIMITS = {"entry_limit": 9999999999, "credit_limit": 999999999999999, "debit_limit": 20000005}
DEPOSIT = {"routing": "091000019", "account": "123456789", "kind": "checking", "cents": 150000, "id": "E1", "name": "ANN LEE"}


# ---- what is sent

def submission(ref, direction, day, *entries):
    body = {"ref": ref, "sec": "PPD", "direction": direction, "description": "PAYROLL", "day": day, "entries": [{**DEPOSIT, **it} for it in entries]}
    return "submissions", body


def retry(ref, of, day):
    return "retries", {"ref": ref, "of": of, "index": 1, "day": day}


def set_day(day):
    return message("POST /ops/day", json.dumps({"day": day}))


def submitted(company, what):
    return message(f"POST /c/{company}/{what[0]}", json.dumps(what[1]), KEYS[company])


def registered(company):
    body = {"id": company, "name": NAMES[company], "key": KEYS[company], **LIMITS}
    return message("POST /ops/companies", json.dumps(body))


CUT = message("POST /ops/cut", "")


def item(trace, code, **other):
    """Returns an item of an incoming file: the entry of `DEPOSIT`, or another one."""
    entry = {"debit": True, "savings": False, "account": DEPOSIT["account"], "cents": 2500, "ident": "E1", "name": "ANN LEE"}
    return {**entry, "code": code, "trace": f"12104288{trace:07}", "dfi": "09100001", **other}


def returns(number, *items):
    return message("POST /ops/returns", file_of_returns(number, "PPD", items))


def change(number, changed, text):
    """Returns a message with a file of one notification of change: its addenda has another type, and the corrected data."""
    file = file_of_returns(number, "COR", [{**changed, "cents": 0}])
    head = f"799{changed['code']}{changed['trace']}{' ' * 6}{changed['dfi']}"
    return message("POST /ops/returns", file.replace(head + " " * 29, f"798{head[3:]}{text:29}"))


# Each day with its messages. Sequences are given by company, then by order: on the 8th BAKE01's two and then MILL01's
# one; on the 9th BAKE01's DUES-1 and then MILL01's PAY-2.
DAYS = [
    ("before any day", [message("POST /ops/holidays", "2025-01-20\n2025-05-26\n"), registered("MILL01"), registered("BAKE01")]),
    ("held", [set_day("2025-01-08"), submitted("MILL01", submission("PAY-1", "credit", "2025-01-10", {})),
              submitted("MILL01", submission("PAY-2", "debit", "2025-01-10", {"cents": 2500})),
              submitted("BAKE01", submission("PAY-1", "credit", "2025-01-10", {"cents": 7}, {"cents": 0, "prenote": True, "kind": "savings", "info": "TRY 1"})),
              submitted("BAKE01", submission("DUES-1", "debit", "2025-01-10", {"cents": 9900, "account": "5550017"}))]),
    ("a first cut", [CUT]),
    ("a second cut", [set_day("2025-01-09"), CUT]),
    ("returns and a change", [set_day("2025-01-14"),
                        returns(1, item(5, "R01"), item(5, "R01"), item(77, "R02"), item(4, "R01", account="5550017", cents=9900)),
                        change(2, item(2, "C01", debit=False, savings=True), "987654321")]),
    ("retries and a debit before a holiday", [submitted("MILL01", retry("RT-1", "PAY-2", "2025-01-16")),
                                              submitted("MILL01", submission("PAY-3", "debit", "2025-01-17", {"cents": 100}, {"cents": 1}))]),
    ("they are sent", [set_day("2025-01-15"), CUT, set_day("2025-01-16"), CUT]),
    ("a credit is returned before it settles", [submitted("BAKE01", submission("PAY-4", "credit", "2025-01-21", {"cents": 30})), set_day("2025-01-17"), CUT,
                                               returns(3, item(9, "R03", debit=False, cents=30))]),
    ("the last day on which a debit counts", [set_day("2025-01-22")]),
    ("the day after", [set_day("2025-01-23"), returns(4, item(7, "R01", cents=100))]),
    ("returns with other deadlines", [set_day("2025-01-24"), returns(5, item(8, "R10", cents=1), item(1, "R06", debit=False, cents=7)),
                                      returns(6, item(99, "R01", debit=False, cents=40)), change(7, item(98, "C01"), "1")]),
    ("a retry that waits", [set_day("2025-07-01"), submitted("BAKE01", retry("RT-1", "DUES-1", "2025-07-09"))]),
    ("a retry that lapses", [set_day("2025-07-09"), CUT]),
]

# What no call returns, by hand: the banking days after each day on which debits settled. 2025-01-20 is a holiday.
DEBIT_DAYS = [("2025-01-10", "2025-01-13", "2025-01-14", None), ("2025-01-16", "2025-01-17", "2025-01-21", "2025-01-20"),
              ("2025-01-17", "2025-01-21", "2025-01-22", "2025-01-20")]

# The items in suspense: of the two with money one is a debit that was returned a second time, the other has an unknown
# trace; both have the transaction code of a returned debit.
UNMATCHED = [("debit", 2500, "AlreadyReturned"), ("debit", 2500, "NoTrace"), ("credit", 40, "NoTrace"), (None, 0, "NoTrace")]

# Each return with its deadline: the second banking day after settlement, or the first one after sixty days; none for R06.
RETURNED = [
    ("MILL01", "PAY-2", "R01", "2025-01-10", "2025-01-14", "2025-01-14", "in time"),
    ("BAKE01", "DUES-1", "R01", "2025-01-10", "2025-01-14", "2025-01-14", "in time"),
    ("BAKE01", "PAY-4", "R03", "2025-01-21", "2025-01-23", "2025-01-17", "in time"),
    ("MILL01", "PAY-3", "R01", "2025-01-17", "2025-01-22", "2025-01-23", "late"),
    ("MILL01", "PAY-3", "R10", "2025-01-17", "2025-03-19", "2025-01-24", "in time"),
    ("BAKE01", "PAY-1", "R06", "2025-01-10", None, "2025-01-24", "in time"),
]

# The rows of each query of the page, after the last day: 60 days without debits; the second entry of the first cut; the
# returns of MILL01; a credit to the account that the change had corrected.
ANSWERS = [
    [("BAKE01", "BAKERY", 0, 0, 0, 0, 0, 0, 0), ("MILL01", "MILL STREET", 0, 0, 0, 0, 0, 0, 0)],
    [("BAKE01", "PAY-1", 2, "sent", "2025-01-10", None)],
    [("PAY-2", 1, "R01", "2025-01-10", "2025-01-14", "2025-01-14", "in time"), ("PAY-3", 1, "R01", "2025-01-17", "2025-01-22", "2025-01-23", "late"),
     ("PAY-3", 2, "R10", "2025-01-17", "2025-03-19", "2025-01-24", "in time")],
    [("BAKE01", "PAY-1", 2, "C01", "123456789", f"{'987654321':29}", "PAY-4", "2025-01-17")],
]

# Each statement spoils one thing, and the check reports it.
SPOILED = [
    ("UPDATE postings SET value_day = value_day + 1 WHERE no = 1", "on each day the lines of all accounts sum to zero"),
    ("UPDATE postings SET cents = cents - 1 WHERE no = 1", "the balances of all accounts on the desk day sum to zero"),
    ("UPDATE postings SET idx = 3 WHERE no = 2", "each line of a company or of suspense has the operator's opposite next after it"),
    ("UPDATE balances SET cents = '1' WHERE account = 'S'", "each stored sum of a day is the sum of its lines"),
    ("DELETE FROM balances WHERE account = 'S'", "each stored sum of a day is the sum of its lines"),
    ("UPDATE entries SET cents = cents + 1 WHERE seq = 1", "the cut lines of companies are the sent submissions with money"),
    ("DELETE FROM returns WHERE no = 1", "the return lines of companies are the returns of entries with money"),
    ("UPDATE suspense SET cents = 1 WHERE no = 2", "the lines of suspense are its items with money, in their order"),
    ("UPDATE entries SET seq = 2 WHERE seq = 1", "the places of sent entries are 1, 2, 3 and so on"),
    ("UPDATE entries SET seq = NULL WHERE seq = 1", "an entry has a place if and only if its submission was sent"),
    ("UPDATE numbers SET nth = 99 WHERE sequence = 1", "each sequence belongs to a sent entry"),
    ("UPDATE returns SET idx = 9 WHERE no = 1", "each returned entry was sent"),
    ("DELETE FROM changes", "the taken files count as many returns, changes and items in suspense as there are"),
    ("UPDATE submissions SET modifier = 'B' WHERE file_day = 20096 AND company = 'MILL01'", "the control record of each file agrees with the tables"),
]


# ---- what is read

class Desk:
    """A desk in a file, asked by one session after another, so that its file is free between them."""

    def __init__(self, program, path):
        self.program, self.path = program, path

    def ask(self, messages):
        """Returns the statuses and bodies of the answers."""
        said, status = run(self.program, "stdio", self.path, given=b"".join(messages))
        if status != 0:
            sys.exit(f"a session ended with status {status}: {said[-300:]}")
        reader = io.BytesIO(said)
        came = [read_answer(reader) for _ in messages]
        return [(status_of(it), body_of(it)) for it in came]

    def get(self, paths):
        """Returns the bodies of the answers to the operator or a company, by path; None for a refusal."""
        asked = [message(f"GET {path}", key=KEYS[path.split("/")[2]] if path.startswith("/c/") else OPERATOR_KEY) for path in paths]
        return {path: body if status == 200 else None for path, (status, body) in zip(paths, self.ask(asked))}


class Audit:
    """The views over a copy of a desk's file."""

    def __init__(self, folder, path):
        self.copy = Path(folder) / "copy.db"
        for end in ("", "-wal"):
            shutil.copyfile(f"{path}{end}", f"{self.copy}{end}")
        self.before = self.bytes()
        self.db = sqlite3.connect(f"file:{self.copy}?mode=ro", uri=True)
        self.db.row_factory = sqlite3.Row
        self.db.executescript(VIEWS)

    def bytes(self):
        return [Path(f"{self.copy}{end}").read_bytes() for end in ("", "-wal")]

    def rows(self, columns, view, where="1", *values):
        return [tuple(row) for row in self.db.execute(f"SELECT {columns} FROM {view} WHERE {where}", values)]

    def wrong(self):
        return [row for row in self.rows("must_hold, wrong", "audit_checks") if row[1] != 0]

    def close(self):
        """Closes the copy, and returns whether its files are as they were."""
        self.db.close()
        return self.bytes() == self.before


def money(cents):
    """Returns an amount with two decimals."""
    return f"{'-' if cents < 0 else ''}{abs(cents) // 100}.{abs(cents) % 100:02}"


def entry_of(row):
    """Returns an entry as a look-up has it."""
    index, cents, state, settled, code, returned, late = row
    answered = {"cents": cents, "index": index, "state": state}
    if state in ("sent", "returned"):
        answered["settled"] = settled
    if state == "returned":
        answered.update(code=code, returned=returned, late=late == "late")
    return answered


def look_up_of(audit, row):
    """Returns a submission as a look-up has it."""
    company, number, ref, sec, direction, asked, cents, of, index = row
    entries = audit.rows("entry, cents, state, settled, code, returned, late", "audit_entries", "company = ? AND number = ?", company, number)
    answered = {"cents": cents, "day": asked, "direction": direction, "entries": [entry_of(it) for it in entries], "order": number, "ref": ref, "sec": sec}
    return {**answered, **({} if of is None else {"of": of, "of_index": index})}


def lists_of(audit, company):
    """Returns the returns, changes and lines of a company, as its calls have them."""
    returned = audit.rows("code, taken, entry, info, late, ref", "audit_returns", "company = ?", company)
    changed = audit.rows("code, taken, entry, ref, text", "audit_changes", "company = ?", company)
    lines = audit.rows("cause, cents, day, entry, ref", "audit_lines", "company = ?", company)
    return {"returns": [dict(code=a, day=b, index=c, info=d, late=e == "late", ref=f) for a, b, c, d, e, f in returned],
            "changes": [dict(code=a, day=b, index=c, ref=d, text=e) for a, b, c, d, e in changed],
            "lines": [dict(cause=a, cents=b, day=c, index=d, ref=e) for a, b, c, d, e in lines]}


def records_of(text):
    """Returns account, cents and trace of each entry of a file's text."""
    return [(line[12:29].strip(), int(line[29:39]), line[79:94]) for line in text.decode().splitlines() if line.startswith("6")]


# ---- comparisons

def compare_company(checks, audit, desk, company, day):
    heads = audit.rows("company, number, ref, sec, direction, asked, cents, of_ref, of_index", "audit_submissions", "company = ?", company)
    base = f"/c/{company}"
    paths = [f"{base}/submissions/{row[2]}" for row in heads]
    answered = desk.get([*paths, *(f"{base}/{what}" for what in ("returns", "changes", "statement", "exposure", "rates"))])
    checks.that(f"{company}: submissions and entries", [look_up_of(audit, row) for row in heads], [json.loads(answered[path]) for path in paths])
    lists = lists_of(audit, company)
    for what in ("returns", "changes"):
        checks.that(f"{company}: {what}", lists[what], json.loads(answered[f"{base}/{what}"])[what])
    if day is None:
        return
    statement, exposure = json.loads(answered[f"{base}/statement"]), json.loads(answered[f"{base}/exposure"])
    checks.that(f"{company}: lines", lists["lines"], statement["lines"])
    checks.that(f"{company}: balance", audit.rows("name, cents, balance", "audit_balances", "company = ?", company),
                [(NAMES[company], int(statement["balance"]), money(int(statement["balance"])))])
    checks.that(f"{company}: exposures and limits",
                audit.rows("credit_cents, credit, credit_limit, debit_cents, debit, debit_limit", "audit_exposures", "company = ?", company),
                [(int(exposure["credit"]), money(int(exposure["credit"])), money(exposure["credit_limit"]),
                  int(exposure["debit"]), money(int(exposure["debit"])), money(exposure["debit_limit"]))])
    rates = json.loads(answered[f"{base}/rates"])
    checks.that(f"{company}: return rates",
                audit.rows("debits, unauthorized, unauthorized_over, administrative, administrative_over, overall, overall_over",
                           "audit_rates", "company = ?", company),
                [(rates["overall"]["d"], *(value for kind in ("unauthorized", "administrative", "overall")
                                           for value in (rates[kind]["n"], int(rates[kind]["over"]))))])


def risk_of(company):
    """Returns a company of `GET /ops/companies` as a row of the view."""
    cents = [company["entry_limit"], int(company["credit"]), company["credit_limit"], int(company["debit"]), company["debit_limit"]]
    rates = [company["rates"][kind] for kind in ("unauthorized", "administrative", "overall")]
    (debits,) = {it["d"] for it in rates}  # of all three the same
    return (company["id"], company["name"], *(value for it in cents for value in (it, money(it))), debits,
            *(value for it in rates for value in (it["n"], int(it["over"]))))


def compare_companies(checks, audit, desk):
    answered = json.loads(desk.get(["/ops/companies"])["/ops/companies"])["companies"]
    checks.that("all companies: limits, exposures and return rates", audit.rows("*", "audit_risks"), [risk_of(it) for it in answered])


def compare_bank(checks, audit, desk, day):
    files = audit.rows("day, file, text", "audit_files")
    paths = [f"/ops/files/{on}/{letter}" for on, letter, _ in files]
    answered = desk.get([*paths, "/ops/suspense", "/ops/settlement"])
    checks.that("the bank and its day", audit.rows("routing, bank, operator_routing, operator, day", "audit_desk"), [(*IDENTITY[1:8:2], day)])
    checks.that("suspense", audit.rows("cents, code, taken, file, item, trace, why", "audit_unmatched"),
                [tuple(it[name] for name in ("cents", "code", "day", "file", "item", "trace", "why")) for it in json.loads(answered["/ops/suspense"])["items"]])
    checks.that("the texts of files", [text.encode() for _, _, text in files], [answered[path] for path in paths])
    for on, letter, text in files:
        sent = audit.rows("e.account, e.cents, e.trace", "audit_entries e JOIN audit_submissions s USING (company, number)",
                          "s.cut_on = ? AND s.file = ? ORDER BY s.batch, e.entry", on, letter)
        checks.that(f"the traces of file {letter} of {on}", sent, records_of(text.encode()))
    checks.that("each sent entry has a trace, and no other has one", audit.rows("ref, entry", "audit_entries", "(trace IS NULL) = (place IS NOT NULL)"), [])
    if day is None:
        return
    compare_companies(checks, audit, desk)
    settlement = json.loads(answered["/ops/settlement"])
    checks.that("the operator's balance", audit.rows("cents", "audit_balances", "account = 'operator'"), [(int(settlement["balance"]),)])
    checks.that("the operator's days", audit.rows("day, cents, amount", "audit_daily_sums", "account = 'operator'"),
                [(it["day"], int(it["cents"]), money(int(it["cents"]))) for it in settlement["days"]])


def compare(checks, folder, desk, what, day):
    print(f"-- {what}")
    audit = Audit(folder, desk.path)
    for company in KEYS:
        compare_company(checks, audit, desk, company, day)
    compare_bank(checks, audit, desk, day)
    checks.that("each check has nothing wrong", audit.wrong(), [])
    checks.that("the copy is as it was", audit.close())


def compare_by_hand(checks, folder, desk):
    """Compares what no call returns, after the last day."""
    print("-- by hand")
    audit = Audit(folder, desk.path)
    checks.that("banking days after debits settled", audit.rows("settled, first, until, closed", "audit_debit_days"), DEBIT_DAYS)
    checks.that("holidays", audit.rows("day, weekday", "audit_holidays"), [("2025-01-20", "Mon"), ("2025-05-26", "Mon")])
    checks.that("states of submissions", audit.rows("company, ref, kind, state, cut_on, file, batch, returned", "audit_submissions"), [
        ("BAKE01", "PAY-1", "submission", "sent", "2025-01-08", "A", 1, 1), ("BAKE01", "DUES-1", "submission", "sent", "2025-01-09", "A", 1, 1),
        ("BAKE01", "PAY-4", "submission", "sent", "2025-01-17", "A", 1, 1), ("BAKE01", "RT-1", "retry", "lapsed", None, None, None, 0),
        ("MILL01", "PAY-1", "submission", "sent", "2025-01-08", "A", 2, 0), ("MILL01", "PAY-2", "submission", "sent", "2025-01-09", "A", 2, 1),
        ("MILL01", "RT-1", "retry", "sent", "2025-01-15", "A", 1, 0), ("MILL01", "PAY-3", "submission", "sent", "2025-01-16", "A", 1, 2)])
    checks.that("suspense by days", audit.rows("day, lines, amount, balance", "audit_daily_sums", "account = 'suspense'"), [("2025-01-14", 2, "-50.00", "-50.00"), ("2025-01-24", 1, "0.40", "-49.60")])
    checks.that("whether unmatched items are debits or credits", audit.rows("direction, cents, why", "audit_unmatched"), UNMATCHED)
    checks.that("deadlines of returns", audit.rows("company, ref, code, settled, deadline, taken, late", "audit_returns"), RETURNED)
    checks.that("a correction next to what was sent",
                audit.rows("company, ref, entry, code, old_routing, old_account, old_kind, trim(text)", "audit_changes"),
                [("BAKE01", "PAY-1", 2, "C01", "091000019", "123456789", "savings", "987654321")])
    checks.that("taken files", audit.rows("taken, returns, late, changes, suspense", "audit_taken"),
                [("2025-01-14", 2, 0, 0, 2), ("2025-01-14", 0, 0, 1, 0), ("2025-01-17", 1, 0, 0, 0), ("2025-01-23", 1, 1, 0, 0),
                 ("2025-01-24", 2, 0, 0, 0), ("2025-01-24", 0, 0, 0, 1), ("2025-01-24", 0, 0, 0, 1)])
    checks.that("the queries of the page", [[tuple(row) for row in audit.db.execute(query)] for query in QUERIES], ANSWERS)
    checks.that("each check is spoiled", {row[0] for row in audit.rows("must_hold", "audit_checks")} - {check for _, check in SPOILED}, set())
    audit.close()


def spoil(checks, folder, desk):
    print("-- spoiled copies")
    for statement, check in SPOILED:
        copy = Path(folder) / "spoiled.db"
        for end in ("", "-wal"):
            shutil.copyfile(f"{desk.path}{end}", f"{copy}{end}")
        db = sqlite3.connect(copy)
        changed = db.execute(statement).rowcount
        db.executescript(VIEWS)
        answered = [must for must, wrong in db.execute("SELECT must_hold, wrong FROM audit_checks") if wrong != 0]
        db.close()
        checks.that(f"{statement}: {check}", changed > 0 and check in answered)


def main():
    program, checks, day = program_of(sys.argv[1:]), Checks(), None
    with tempfile.TemporaryDirectory() as folder:
        desk = Desk(program, Path(folder) / "bank.db")
        make_desk(program, desk.path)
        for what, messages in DAYS:
            statuses = {status for status, _ in desk.ask(messages)}
            if not statuses <= {200, 201}:
                sys.exit(f"{what}: a message was refused: {desk.ask(messages)}")
            days = [json.loads(body_of(it))["day"] for it in messages if it.startswith(b"POST /ops/day")]
            day = days[-1] if days else day
            compare(checks, folder, desk, what, day)
        compare_by_hand(checks, folder, desk)
        spoil(checks, folder, desk)
    checks.end()


main()
