#!/usr/bin/env python3
"""Tries the client library and the client program against a served desk: `python3 judge/clients_kit.py [PROGRAM]`.

PROGRAM is ./achdesk if it is left out. The library of clients/python makes every call of a bank's days, directly and through
nginx with TLS, while answers are lost at each byte, requests are dropped, 429, 502, 503 and 504 come, the desk is killed
and started again, and kept connections are closed. What the calls return, and the rows of the desk's file as stock SQLite
reads them, must be those of a desk whose every answer came: every request takes effect exactly once. The lists that
`entries_of_csv` takes and refuses are compared with `achdesk submit`, and the faults of fields with the desk's. Then
clients/achdesk-company is run: each command in each form, each exit status, `--new` and `--split` with kills in between,
and what a person reads of faults and refusals. A cut that is still on its way when its client gives up is made once.

It takes Debian's packages nginx and openssl: if one is missing it says so and ends with status 2, which is not a pass.
The last line counts the checks; the status is 1 if one failed.
"""

import datetime
import sys
import threading
import time

from helpers.kit_bank import (
    ANN,
    BOB,
    Bank,
    CHANGE,
    DUES,
    ITEM,
    LIST,
    MILL,
    PAY,
    RETURN,
    day,
    error_of,
    error_page,
    named,
    page,
)
from helpers.kit_lists import fields, lists
from helpers.kit_parts import parts
from helpers.kit_program import commands, exit_statuses, installed, messages, new_items
from helpers.returned import file_of_returns
from helpers.running import HOST, MILL_KEY, OPERATOR_KEY, TOP, Checks, found, program_of, rows_of

import achdesk
from achdesk import Company, Entry, Operator, Settings, caller
from achdesk.csv_list import LARGEST_LIST

# ---- a bank's days by every call


def days(bank, before=lambda: None):
    """Makes every call of both classes, after `before`, and gives what each returned. `cut` is never spoiled."""
    op, mill, told = bank.operator, bank.mill, {}

    def call(name, make):
        before()
        told[name] = make()

    call("new status", op.status)
    call("holidays", lambda: op.set_holidays([day("01-20"), day("05-26")]))
    call("company", lambda: op.add_company(**MILL))
    call(
        "limits", lambda: op.set_limits(id="MILL01", entry_limit=9999999999, credit_limit=30000000, debit_limit=5000000)
    )
    call("day", lambda: op.set_day(day("01-08")))
    call("pay", lambda: mill.submit_csv(LIST, ref="PAY-1", day=day("01-10"), **PAY))
    call("pay again", lambda: mill.submit([ANN], ref="PAY-1", day=day("01-10"), **PAY))
    call("held", lambda: mill.look_up("PAY-1"))
    call("exposure", mill.exposure)
    call("companies with a held payroll", op.companies)
    told["cut"] = op.cut()
    call("file", lambda: op.file(day("01-08"), "A"))
    call("dues", lambda: mill.submit([BOB], ref="PAY-2", day=day("01-10"), **DUES))
    call("next day", lambda: op.set_day(day("01-09")))
    told["next cut"] = op.cut()
    call("later day", lambda: op.set_day(day("01-14")))
    call("return taken", lambda: op.take_returns(RETURN))
    call("return again", lambda: op.take_returns(RETURN))
    call("change taken", lambda: op.take_returns(CHANGE))
    call("returned", lambda: mill.look_up("PAY-2"))
    call("returns", mill.returns)
    call("changes", mill.changes)
    call("statement", mill.statement)
    call("rates", mill.rates)
    call("companies after a return", op.companies)
    call("retry", lambda: mill.retry(ref="RT-1", of="PAY-2", index=1, day=day("01-16"), authorized=day("01-14")))
    call("retry again", lambda: mill.retry(ref="RT-1", of="PAY-2", index=1, day=day("01-16"), authorized=day("01-14")))
    call("settlement", op.settlement)
    call("suspense", op.suspense)
    call("status", op.status)
    return told


def companies_of(on, credit, debits, returned):
    """The only company, with its credit exposure and how many of its debits settled and were returned (R01)."""
    none, overall = achdesk.Rate(0, debits, False), achdesk.Rate(returned, debits, returned > 0)
    rates = achdesk.CompanyRates(unauthorized=none, administrative=none, overall=overall)
    row = achdesk.CompanyRisk("MILL01", "MILL STREET", credit, 30000000, 0, 5000000, 9999999999, rates)
    return achdesk.Companies(on, (row,))


def worked(checks, told):
    """What a bank's days come to, worked out by hand."""
    none = achdesk.Tally(0, 0)
    held = achdesk.Held(none, achdesk.Tally(1, 2500))
    on = day("01-14")
    for name, wanted in {
        "new status": achdesk.Status(None, (), (), 0, 0, 0, held_records=0, due_records=0, due_files=0),
        "holidays": 2,
        "company": None,
        "limits": None,
        "day": day("01-08"),
        "next day": day("01-09"),
        "later day": on,
        "pay": achdesk.Accepted("PAY-1", 1, 1, 150000),
        "pay again": achdesk.Accepted("PAY-1", 1, 1, 150000),
        "dues": achdesk.Accepted("PAY-2", 2, 1, 2500),
        "retry": achdesk.Accepted("RT-1", 3, 1, 2500),
        "retry again": achdesk.Accepted("RT-1", 3, 1, 2500),
        "held": achdesk.Found(
            "PAY-1",
            1,
            "PPD",
            "credit",
            day("01-10"),
            150000,
            (achdesk.FoundEntry(1, 150000, "held", None, None, None, None),),
            None,
            None,
        ),
        "returned": achdesk.Found(
            "PAY-2",
            2,
            "PPD",
            "debit",
            day("01-10"),
            2500,
            (achdesk.FoundEntry(1, 2500, "returned", day("01-10"), on, "R01", False),),
            None,
            None,
        ),
        "exposure": achdesk.Exposure(day("01-08"), 150000, 30000000, 0, 5000000, 9999999999),
        "cut": achdesk.CutMade(day("01-08"), 1, ("A",), 0),
        "next cut": achdesk.CutMade(day("01-09"), 1, ("A",), 0),
        "return taken": achdesk.ReturnsTaken(on, 1, 0, 0, 0),
        "return again": achdesk.ReturnsTaken(on, 1, 0, 0, 0),
        "change taken": achdesk.ReturnsTaken(on, 0, 1, 0, 0),
        "returns": (achdesk.Return("PAY-2", 1, "R01", on, False, ""),),
        "changes": (achdesk.Change("PAY-2", 1, "C01", on, "987654321" + " " * 20),),
        "statement": achdesk.Statement(
            on,
            -150000,
            (
                achdesk.Line(day("01-10"), "cut", "PAY-1", 0, -150000),
                achdesk.Line(day("01-10"), "cut", "PAY-2", 0, 2500),
                achdesk.Line(on, "return", "PAY-2", 1, -2500),
            ),
        ),
        "rates": achdesk.Rates(on, achdesk.Rate(0, 1, False), achdesk.Rate(0, 1, False), achdesk.Rate(1, 1, True)),
        "companies with a held payroll": companies_of(day("01-08"), 150000, 0, 0),
        "companies after a return": companies_of(on, 0, 1, 1),
        "settlement": achdesk.Settlement(on, 150000, (achdesk.DaySum(day("01-10"), 147500), achdesk.DaySum(on, 2500))),
        "suspense": (),
        "status": achdesk.Status(
            on,
            (achdesk.CompanyStatus("MILL01", "MILL STREET", held, (), 0),),
            (),
            2,
            2,
            0,
            held_records=1,
            due_records=0,
            due_files=0,
        ),
    }.items():
        checks.that(f"{name}: as worked out by hand", told[name], wanted)
    file = told["file"].decode().splitlines()
    checks.that(
        "the file has ten records, with the entry and its amount",
        (len(file), file[2][:39]),
        (10, "622091000019123456789        0000150000"),
    )


SPOILED = {
    **{f"each answer is cut after {n} bytes": ("cut", n) for n in (0, 1, 12, 17, 40, 64, 75, 90, 110, -1)},
    "each request is dropped once": ("drop",),
    "429 of the proxy comes first": ("answer", page(429, fields="Retry-After: 0\r\n")),
    "503 of the desk comes first": ("answer", error_page(503, "Unavailable")),
    "502 of the proxy comes first": ("answer", page(502)),
    "504 of the proxy comes first": ("answer", error_page(504, "GatewayTimeout")),
}


def spoiled(checks, program, way, twin, rows):
    """The days once more, each request spoiled once, in every way."""
    for what, plan in SPOILED.items():
        with Bank(program, way) as bank:
            told = days(bank, lambda: bank.spoils.plans.append(plan))
            checks.that(f"{way}, {what}: every call returns the same", told, twin)
            bank.desk.stop()
            checks.that(f"{way}, {what}: and the file has the same rows", rows_of(bank.path) == rows)


def lost_behind_tls(checks, program, way, twin, rows):
    """The days once more, with answers that nginx had and the client did not get."""
    with Bank(program, way) as bank:

        def lose():
            bank.relay.loses = 1

        told = days(bank, lose)
        checks.that(f"{way}, each answer is lost behind nginx: every call returns the same", told, twin)
        bank.desk.stop()
        checks.that(
            f"{way}, each answer is lost behind nginx: and the file has the same rows", rows_of(bank.path) == rows
        )


def cut_at_each_byte(checks, program, way):
    """A submission whose answer is cut at each of its bytes."""
    with Bank(program, way) as bank:
        bank.open()
        bank.operator.set_limits(id="MILL01", entry_limit=9999999999, credit_limit=99999999999, debit_limit=0)
        whole = 170
        orders = []
        for n in range(whole):
            bank.spoils.plans.append(("cut", n))
            orders.append(bank.mill.submit([ANN], ref=f"BYTE-{n}", day=day("01-10"), **PAY).order)
        checks.that(
            f"{way}, the answer to a submission is cut at each byte: each is taken once",
            orders,
            list(range(1, whole + 1)),
        )


# ---- what is repeated, and for how long


def repeats(checks, program):
    with Bank(program, "directly") as bank:
        bank.open()
        op, mill, spoils = bank.operator, bank.mill, bank.spoils
        spoils.requests.clear()
        spoils.plans.append(("cut", 0))
        error = error_of(op.cut)
        checks.that(
            "a cut whose answer is lost is not repeated",
            (named(error), error.may_have_acted, error.attempts, spoils.requests),
            (("NoAnswer",), True, 1, ["POST /ops/cut HTTP/1.1"]),
        )
        mill.submit([ANN], ref="PAY-1", day=day("01-10"), **PAY)
        spoils.plans.append(("cut", 30))
        checks.that("so it is with one that made a file", named(error_of(op.cut)), ("NoAnswer",))
        checks.that("the status shows the file", (op.status().files, op.status().sent), (("A",), 1))
        for status, name, may_have_acted in (
            (429, "TooManyRequests", False),
            (502, "BadGateway", True),
            (503, "Unavailable", False),
            (504, "GatewayTimeout", True),
        ):
            spoils.plans.append(("answer", error_page(status, name)))
            error = error_of(op.cut)
            checks.that(
                f"a cut that is answered {status} is not repeated",
                (named(error), error.may_have_acted, error.status, error.attempts),
                (("Refused", name), may_have_acted, status, 1),
            )

        spoils.plans.append(("cut", 0))
        checks.that("a day whose answer is lost is set", op.set_day(day("01-09")), day("01-09"))
        checks.that(
            "a day that is set before is refused",
            named(error_of(lambda: op.set_day(day("01-09")))),
            ("Refused", "DayNotLater"),
        )
        spoils.plans.append(("drop",))
        checks.that(
            "so it is after a request that was lost, if the status shows another day",
            named(error_of(lambda: op.set_day(day("01-08")))),
            ("Refused", "DayNotLater"),
        )
        for status, name in ((429, "TooManyRequests"), (503, "Unavailable")):
            spoils.plans.append(("answer", error_page(status, name)))
            error = error_of(lambda: op.set_day(day("01-09")))
            checks.that(
                f"a day that is refused after {status} was not set by this call: nothing was lost",
                (named(error), error.attempts, error.may_have_acted),
                (("Refused", "DayNotLater"), 2, False),
            )
        for status, name in ((502, "BadGateway"), (504, "GatewayTimeout")):
            spoils.plans.append(("answer", error_page(status, name)))
            checks.that(f"after {status} it may have been, and the status shows it", op.set_day(day("01-09")), day("01-09"))
        spoils.plans.extend([("cut", 0), ("pass",), ("answer", error_page(404, "NotFound"))])
        error = error_of(lambda: op.set_day(day("01-10")))
        checks.that(
            "if the status is not answered, the refusal is raised",
            (named(error), error.may_have_acted, named(error.__cause__)),
            (("Refused", "DayNotLater"), True, ("Refused", "NotFound")),
        )
        spoils.plans.append(("cut", 0))
        bake = {**MILL, "id": "BAKE01", "name": "BAKERY", "key": "bakery-key"}
        checks.that("a company whose answer is lost is registered", op.add_company(**bake), None)
        checks.that(
            "a company that exists is refused",
            named(error_of(lambda: op.add_company(**bake))),
            ("Refused", "CompanyExists"),
        )
        spoils.plans.append(("drop",))
        other = {**bake, "name": "BREAD"}
        checks.that(
            "so it is after a request that was lost, if the status shows another name",
            named(error_of(lambda: op.add_company(**other))),
            ("Refused", "CompanyExists"),
        )

        short = bank.make_mill(total_seconds=3)
        began = time.monotonic()
        spoils.plans.extend([("answer", error_page(503, "Unavailable"))] * 1000)
        error = error_of(short.exposure)
        spent = time.monotonic() - began
        spoils.plans.clear()
        checks.that(
            "the total time bounds the attempts",
            (named(error), error.attempts > 3, spent < 9),
            (("Refused", "Unavailable"), True, True),
        )
        spoils.requests.clear()
        error = error_of(bank.make_mill(total_seconds=0).exposure) or error_of(
            lambda: bank.make_mill(total_seconds=0).look_up("NONE")
        )
        checks.that(
            "with no total time each call is sent once",
            (named(error), len(spoils.requests)),
            (("Refused", "NoReference"), 2),
        )
        spoils.plans.append(
            ("answer", error_page(503, "Unavailable").replace(b"Connection", b"Retry-After: 1\r\nConnection"))
        )
        began = time.monotonic()
        mill.exposure()
        checks.that("Retry-After is waited for", 1 <= time.monotonic() - began < 10)
        spoils.plans.append(("answer", page(429, "application/json", b'{"error":"TooManyRequests"}', "Retry-After: 500\r\n")))
        began = time.monotonic()
        error = error_of(mill.exposure)
        checks.that(
            "if it is longer than the time that is left, the error is raised at once",
            (named(error), error.attempts, error.retry_after, time.monotonic() - began < 10),
            (("Refused", "TooManyRequests"), 1, 500.0, True),
        )
        waits(checks, bank)
        pauses = []
        told = bank.make_mill(on_retry=lambda error, pause: pauses.append((named(error), pause >= 0)))
        spoils.plans.extend([("drop",), ("answer", page(502))])
        told.exposure()
        checks.that("each further attempt is told of", pauses, [(("NoAnswer",), True), (("ForeignAnswer",), True)])
        growing(checks)


def waits(checks, bank):
    """Timeouts, and how many connections are opened."""
    spoils = bank.spoils
    spoils.plans.append(("wait", 8))
    began = time.monotonic()
    error = error_of(bank.make_mill(total_seconds=0, timeout=1).exposure)
    checks.that(
        "an answer is waited for no longer than the timeout",
        (named(error), error.may_have_acted, error.is_temporary, time.monotonic() - began < 7),
        (("NoAnswer",), True, True, True),
    )
    spoils.plans.append(("wait", 2))
    checks.that("which is not cut short if a call is sent once", bank.make_mill(total_seconds=0).exposure(), bank.mill.exposure())
    time.sleep(8)  # the request that was given up is passed on
    for keeps, wanted in ((False, 3), (True, 1)):
        before = spoils.connections
        with bank.make_mill(keeps_connection=keeps) as it:
            for _ in range(3):
                it.exposure()
        what = "on a kept connection" if keeps else "as they are by default"
        checks.that(f"three calls {what}: connections opened", spoils.connections - before, wanted)


def growing(checks):
    """The pauses as they are outside of this judge."""
    first, caller.FIRST_PAUSE = caller.FIRST_PAUSE, 0.5
    pauses = [caller.pause_after(n) for n in range(1, 12)]
    caller.FIRST_PAUSE = first
    fits = [min(30, 0.5 * 2**n) / 2 <= it <= min(30, 0.5 * 2**n) for n, it in enumerate(pauses)]
    checks.that("pauses grow from half a second to 30", fits, [True] * 11)


def no_desk(checks, program):
    with Bank(program, "directly") as bank:
        bank.spoils.plans.extend([("answer", page(200))])
        error = error_of(bank.mill.exposure)
        checks.that(
            "a page with status 200 is not an answer of the desk",
            (named(error), error.status, error.content_type, error.attempts),
            (("ForeignAnswer",), 200, "text/html", 1),
        )
        for status in (302, 401, 403, 404, 413, 500):
            bank.spoils.plans.append(("answer", page(status)))
            error = error_of(bank.mill.exposure)
            checks.that(
                f"nor is a page with status {status}",
                (named(error), error.status, error.attempts, error.may_have_acted),
                (("ForeignAnswer",), status, 1, status in (302, 500)),
            )
        for body in (
            b"[]",
            b"{}",
            b'{"day":"2025-01-08"}',
            b'{"day":"2025-13-08","credit":"0","credit_limit":1,"debit":"0","debit_limit":1,"entry_limit":1}',
            b'{"day":"2025-01-08","credit":"x","credit_limit":1,"debit":"0","debit_limit":1,"entry_limit":1}',
            b'{"day":"2025-01-08","credit":"0","credit_limit":true,"debit":"0","debit_limit":1,"entry_limit":1}',
            b'{"credit":"' + b"9" * 5000 + b'","day":"2025-01-08","credit_limit":1,"debit":"0","debit_limit":1,"entry_limit":1}',
        ):
            bank.spoils.plans.append(("answer", page(200, "application/json", body)))
            checks.that(f"nor is {body.decode()[:110]}", named(error_of(bank.mill.exposure)), ("ForeignAnswer",))
        bank.spoils.plans.append(
            (
                "answer",
                page(
                    200,
                    "application/json",
                    b'{"day":"2025-01-08","credit":"9007199254740993","credit_limit":1,"debit":"0","debit_limit":1,'
                    b'"entry_limit":1,"later":[1]}',
                ),
            )
        )
        checks.that(
            "an answer may have further members, and a balance past 2^53 is exact",
            bank.mill.exposure().credit,
            9007199254740993,
        )
        bank.spoils.plans.append(
            ("answer", page(201, "application/json", b'{"cents":1,"entries":1,"order":1,"ref":"OTHER"}'))
        )
        checks.that(
            "nor is the answer to another reference",
            named(error_of(lambda: bank.mill.submit([ANN], ref="PAY-1", day=day("01-10"), **PAY))),
            ("ForeignAnswer",),
        )
        bank.spoils.plans.append(("answer", b"HTTP/1.1 200 OK\r\nContent-Type: application/json\r\n\r\n{}"))
        checks.that(
            "an answer without a length may be cut off, so the call is repeated",
            named(error_of(bank.mill.exposure)),
            ("Refused", "Denied"),
        )
        bank.spoils.plans.append(("answer", page(200)))
        checks.that(
            "a page in place of a file",
            named(error_of(lambda: bank.operator.file(day("01-08"), "A"))),
            ("ForeignAnswer",),
        )
        checks.that(
            "a file that no cut made",
            named(error_of(lambda: bank.operator.file(day("01-08"), "A"))),
            ("Refused", "NoFile"),
        )
        port = bank.desk.port
    error = error_of(Company(f"http://{HOST}:{port}", "MILL01", MILL_KEY, Settings(total_seconds=3)).exposure)
    checks.that(
        "nobody listens", (named(error), error.may_have_acted, error.attempts > 3), (("NoAnswer",), False, True)
    )


def late_cut(checks, program, way):
    """A cut that a slow proxy passes on after its client has given up."""
    with Bank(program, way) as bank:
        bank.open()
        bank.mill.submit([ANN], ref="PAY-1", day=day("01-10"), **PAY)
        hasty = bank.make_operator(timeout=1, total_seconds=0, queue_seconds=10)
        bank.spoils.plans.append(("wait", 6))
        error = error_of(hasty.cut)
        checks.that(f"{way}, the client gives up a cut that waits", (named(error), error.may_have_acted), (("NoAnswer",), True))
        checks.that("a status that is read at once does not show it", bank.operator.status().files, ())
        checks.that("the error says that it may still come", 6 < error.settles_in <= 10)
        time.sleep(error.settles_in)
        checks.that("after so many seconds the status shows it", bank.operator.status().files, ("A",))
        checks.that("and it was made once", bank.spoils.requests.count("POST /ops/cut HTTP/1.0" if bank.tls else "POST /ops/cut HTTP/1.1"), 1)
    it = Settings()
    checks.that("by default the client waits longer than the proxy keeps a request", it.timeout > it.queue_seconds)


def explained(checks, program):
    """What the library says of refusals, with the desk's own day and limits."""
    with Bank(program, "directly") as bank:
        bank.open()
        op, mill = bank.operator, bank.mill
        op.set_limits(id="MILL01", entry_limit=500000, credit_limit=700000, debit_limit=5000000)

        def told(call):
            error = error_of(call)
            return f"{error.name}: {mill.explain(error)}"

        def pay(*entries, ref="PAY-1", asked=day("01-10"), **more):
            return lambda: mill.submit(entries, ref=ref, day=asked, **{**PAY, **more})

        rich = Entry("091000019", "5", "checking", 500001, "", "B")
        late = "The day asked for, 2026-11-30, is not 1 to 60 days after the desk day, 2025-01-08: ask for 2025-01-09 to 2025-03-09."
        for what, call, wanted in (
            ("a day", pay(ANN, asked=day("01-10").replace(year=2026, month=11, day=30)), f"DateRange: {late}"),
            ("an amount", pay(ANN, rich), "EntryLimit: entry 2: $5,000.01 is over the company's limit for one entry, $5,000.00."),
            ("a total", pay(*[ANN] * 5), "CreditLimit: The total, $7,500.00, is over what is left of the credit limit, $7,000.00: "
                                         "the exposure is $0.00 of $7,000.00."),
            ("a field", pay(ANN, Entry("091000019", "1" * 18, "checking", 1, "", "B")),
             'BadField: entry 2, column account: "111111111111111111" has 18 characters; it takes 1 to 17 characters.'),
            ("a description", pay(ANN, description="RETRY PYMT"),
             'BadField: description: "RETRY PYMT" is refused; it takes 1 to 10 characters of ASCII without a blank at either end, '
             "but not RETRY PYMT or REVERSAL."),
        ):
            checks.that(f"what the client says of {what}", told(call), wanted)
        for last, asked in ((9, "2025-01-09"), (9, "2025-03-09")):
            checks.that(f"the day {asked} of that sentence is taken", named(error_of(pay(ANN, ref=asked, asked=datetime.date.fromisoformat(asked)))), ("NoneType",))
        mill.submit([ANN], ref="PAY-1", day=day("01-10"), **PAY)
        checks.that("what it says of a reference", told(pay(BOB)), (
            "RefReused: PAY-1 is order 3, a PPD credit with entries: 1, of $1,500.00 asked for 2025-01-10. Other content takes another "
            "reference."))
        mill.submit([BOB], ref="PAY-2", day=day("01-10"), **DUES)
        retry = lambda **more: lambda: mill.retry(**{"ref": "RT-1", "of": "PAY-2", "index": 1, "day": day("01-16"), **more})
        checks.that("of a retry too early", told(retry()), "NotReturned: Entry 1 of PAY-2 is held, and has not been returned.")
        checks.that("of a retry of a credit", told(retry(of="PAY-1")), "NoEntry: PAY-1 is a credit, and only a debit is collected again.")
        checks.that("of a retry of nothing", told(retry(of="PAY-9")), "NoEntry: The company has no submission PAY-9.")
        op.set_day(day("01-09"))
        op.cut()
        op.set_day(day("01-14"))
        trace = next(it[79:] for it in op.file(day("01-09"), "A").decode().splitlines() if "BOB RAY" in it)
        item = {**ITEM, "cents": 2500, "code": "R08", "trace": trace}
        op.take_returns(file_of_returns(1, "PPD", [item]).encode())
        checks.that("of a stopped payment", told(retry()),
                    "NotRetryable: It was returned R08 (payment stopped). Give the day of a new authorization: --authorized.")
        checks.that("of an authorization that is too old", told(retry(authorized=day("01-13"))),
                    "NotRetryable: It was returned R08 (payment stopped). The new authorization, 2025-01-13, must be from the day of the "
                    "return up to the desk day, 2025-01-14.")
        op.set_day(day("07-01"))
        checks.that("of a retry that is too late", told(retry(day=day("07-10"), authorized=day("01-14"))),
                    "RetryTooLate: The original settled on 2025-01-10. The retry must settle by 2025-07-09, 180 days later, and 2025-07-10 "
                    "is too late for that.")


REFUSALS = (
    (dict(ref="PAY 1"), ("BadField", 422, 2, "ref", 0)),
    (dict(sec="WEB"), ("BadField", 422, 2, "sec", 0)),
    (dict(day=day("01-08")), ("DateRange", 422, 6, None, None)),
    (dict(entries=[ANN, Entry("091000018", "1", "checking", 1, "", "B")]), ("BadField", 422, 2, "routing", 2)),
    (dict(entries=[ANN] * 1001), ("TooManyEntries", 422, 4, None, None)),
    (dict(entries=[Entry("091000019", "1", "checking", 20000001, "", "A")]), ("CreditLimit", 409, 8, None, None)),
)


def refusals(checks, program):
    with Bank(program, "directly") as bank:
        op, mill = bank.operator, bank.mill
        error = error_of(mill.exposure)
        checks.that(
            "an unknown company is denied",
            (named(error), error.status, error.number, error.may_have_acted),
            (("Refused", "Denied"), 403, None, False),
        )
        bank.open()
        for more, wanted in REFUSALS:
            given = {"entries": [ANN], "ref": "PAY-1", "day": day("01-10"), **PAY, **more}
            error = error_of(lambda: mill.submit(given.pop("entries"), **given))
            checks.that(
                f"{wanted[0]}: status, number, field and index, and it is not repeated",
                (error.name, error.status, error.number, error.field, error.index, error.attempts),
                (*wanted, 1),
            )
        error = error_of(lambda: op.take_returns((TOP / "examples" / "spoiled.ach").read_bytes()))
        checks.that(
            "BadFile: fault and record",
            (error.name, error.number, error.fault, error.record),
            ("BadFile", 27, "BadTotal", 7),
        )
        error = error_of(lambda: op.set_holidays(b"2025-01-20\n2025-01-20\n"))
        checks.that(
            "BadCalendar: fault and row",
            (error.name, error.number, error.fault, error.row),
            ("BadCalendar", 28, "NotAscending", 2),
        )
        mill.submit([BOB], ref="PAY-1", day=day("01-10"), **DUES)
        op.set_day(day("01-09"))
        op.cut()
        op.set_day(day("01-14"))
        op.take_returns(
            file_of_returns(1, "PPD", [{**ITEM, "cents": 2500, "code": "R02", "trace": "121042880000001"}]).encode()
        )
        error = error_of(lambda: mill.retry(ref="RT-1", of="PAY-1", index=1, day=day("01-16")))
        checks.that(
            "NotRetryable: code",
            (error.name, error.number, error.code, str(error)),
            ("NotRetryable", 12, "R02", "NotRetryable (refusal 12), status 409, code R02"),
        )
        error = error_of(lambda: op.take_returns(b" " * (LARGEST_LIST + 1)))
        checks.that(
            "a body that is too large: 413, though the desk does not read it",
            (named(error), error.status),
            (("Refused", "TooLarge"), 413),
        )
    for what, make in {
        "bad company": lambda: Company("https://desk", "mill01", MILL_KEY),
        "bad key": lambda: Company("https://desk", "MILL01", "short"),
        "bad ref": lambda: Company("https://desk", "MILL01", MILL_KEY).look_up("A/B"),
        "bad modifier": lambda: Operator("https://desk", OPERATOR_KEY).file(day("01-08"), "a"),
        "bad url": lambda: Operator("desk.bank.example", OPERATOR_KEY),
        "bad url ": lambda: Operator("http://desk.bank.example", OPERATOR_KEY),
        "bad url  ": lambda: Operator("https://desk/?x", OPERATOR_KEY),
        "bad key ": lambda: Operator("https://desk", "line\nline-line"),
        "bad timeout": lambda: Settings(timeout=0),
        "bad timeout ": lambda: Settings(timeout=float("inf")),
        "bad total_seconds": lambda: Settings(total_seconds=-1),
        "bad text": lambda: Company("https://desk", "MILL01", MILL_KEY).submit([ANN], ref="\udcff", day=day("01-10"), **PAY),
    }.items():
        checks.that(f"{what.strip()}: nothing is sent", str(error_of(make)).partition(":")[0], what.strip())


# ---- kept connections, restarts, certificates


def kept(checks, program, way):
    with Bank(program, way, keeps_connection=True, patience=1) as bank:
        bank.open()
        port = bank.desk.port
        direct = bank.make_mill() if bank.tls else Company(f"http://{HOST}:{port}", "MILL01", MILL_KEY, bank.given({}))
        first = direct.submit([ANN], ref="KEPT-1", day=day("01-10"), **PAY)
        kept_one = direct._kept
        direct.exposure()
        checks.that(f"{way}, a connection is kept", kept_one is not None and direct._kept is kept_one)
        time.sleep(2.5)
        second = direct.submit([ANN], ref="KEPT-2", day=day("01-10"), **PAY)
        checks.that(f"{way}, a kept connection that the desk closed meanwhile", (first.order, second.order), (1, 2))
        many = 60 if bank.tls else 1003  # nginx limits how often one company calls
        for _ in range(many):
            direct.exposure()
        checks.that(
            f"{way}, {many} calls on kept connections",
            direct.submit([ANN], ref="KEPT-2", day=day("01-10"), **PAY).order,
            2,
        )
        direct.close()
        spoiled_one = bank.make_operator()
        spoiled_one.status()
        bank.spoils.plans.append(("cut", 0))
        checks.that(
            f"{way}, a day whose answer is lost on a kept connection is set",
            spoiled_one.set_day(day("01-09")),
            day("01-09"),
        )
        bank.spoils.requests.clear()
        made = spoiled_one.cut()
        checks.that(
            f"{way}, a cut opens a connection of its own",
            (made.entries, bank.spoils.requests),
            (2, ["POST /ops/cut HTTP/1.0" if bank.tls else "POST /ops/cut HTTP/1.1"]),
        )
        spoiled_one.close()


def restarts(checks, program, way):
    """Four companies' programs submit while the desk is killed and started again."""
    with Bank(program, way) as bank:
        bank.open()
        bank.operator.set_limits(id="MILL01", entry_limit=9999999999, credit_limit=999999999999, debit_limit=0)
        orders, errors, count = [], [], 40

        def submit_many(name):
            mill = bank.make_mill(total_seconds=300)
            for n in range(count):
                try:
                    orders.append(mill.submit([ANN], ref=f"{name}-{n}", day=day("01-10"), **PAY).order)
                except achdesk.DeskError as error:
                    errors.append(error)

        threads = [threading.Thread(target=submit_many, args=(name,)) for name in "ABCD"]
        for it in threads:
            it.start()
        kills = 0
        while any(it.is_alive() for it in threads) and kills < 4:
            time.sleep(0.5)
            bank.restart(0.1)
            kills += 1
        for it in threads:
            it.join()
        checks.that(
            f"{way}, {4 * count} submissions while the desk is killed {kills} times: each is taken once",
            (errors, sorted(orders)),
            ([], list(range(1, 4 * count + 1))),
        )
        held = bank.operator.status().companies[0].held.credits
        checks.that(f"{way}, and the desk holds each once", held, achdesk.Tally(4 * count, 4 * count * 150000))


def certificates(checks, program):
    with Bank(program, "through nginx with TLS") as bank:
        error = error_of(Company(bank.url, "MILL01", MILL_KEY, Settings(total_seconds=20)).exposure)
        checks.that(
            "a certificate of an unknown authority: at once, and nothing was sent",
            (named(error), error.attempts, error.may_have_acted, bank.spoils.requests),
            (("NoAnswer",), 1, False, []),
        )
        bank.open()
        big = b" " * (LARGEST_LIST + 1)
        error = error_of(lambda: bank.operator.take_returns(big))
        checks.that(
            "a body that is too large is refused by the proxy",
            (type(error).__name__ in ("ForeignAnswer", "Refused"), getattr(error, "status", None)),
            (True, 413),
        )
        bank.desk.stop()
        error = error_of(bank.make_mill(total_seconds=8).exposure)
        checks.that(
            "without a desk the proxy's 502 is told after some attempts",
            (named(error), error.status, error.attempts > 2, error.may_have_acted),
            (("Refused", "BadGateway"), 502, True, True),
        )


def main():
    lacking = [package for package, name in (("nginx", "nginx"), ("openssl", "openssl")) if not found(name)]
    if lacking:
        print(f"not tried, since these packages are missing: {', '.join(lacking)}")
        sys.exit(2)
    program, checks = program_of(sys.argv[1:]), Checks()
    caller.FIRST_PAUSE = 0.02
    lists(checks, program)
    fields(checks, program)
    with Bank(program, "directly") as bank:
        twin = days(bank)
        bank.desk.stop()
        rows = rows_of(bank.path)
    worked(checks, twin)
    for check in (repeats, no_desk, refusals, certificates, exit_statuses, new_items, messages, explained):
        check(checks, program)
    installed(checks)
    for way in ("directly", "through nginx with TLS"):
        for check in (cut_at_each_byte, kept, restarts, commands):
            check(checks, program, way)
    late_cut(checks, program, "through nginx with TLS")
    parts(checks, program, "through nginx with TLS")
    lost_behind_tls(checks, program, "through nginx with TLS", twin, rows)
    for way in ("directly", "through nginx with TLS"):
        spoiled(checks, program, way, twin, rows)
    checks.end()


main()
