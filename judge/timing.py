#!/usr/bin/env python3
"""Tries whether refusals tell which companies a desk has: `python3 judge/timing.py [PROGRAM] [TRIALS]`.

PROGRAM is ./achdesk if it is left out, and TRIALS is 1,000. Whoever has no key for a company gets 403, whether the desk has
the company or not. Neither the bytes of the two answers nor the time that they take may say which it is:

- Instructions, by callgrind over `achdesk stdio`: a refusal for an unknown company and one for a known company with a wrong
  key differ by at most 2 percent, on a desk with few companies and on one with many, for a GET and for a POST.
- Guesses by time: requests for known and for unknown companies in random order, each of which a guesser takes for known or
  unknown by whether it took longer than the median; the better of both readings is right in at most 60 percent. Requests go
  to the desk directly, through nginx with the site of deploy/nginx.conf by a company that asks for others with its own key,
  and through nginx by a stranger, whose key nginx refuses before it asks the desk.

The program has to be the built one: callgrind does not run what `rt try` builds. The status is 1 if a check failed, and 2 if
Debian packages are missing, which are named; that is not a pass.
"""

import http.client
import json
import random
import shutil
import statistics
import subprocess
import sys
import tempfile
import time
from pathlib import Path

from helpers.instructions import Callgrind
from helpers.proxy import Proxy
from helpers.running import HOST, OPERATOR_KEY, Checks, Serving, connect, found, make_desk, message, program_of, read_answer, run, status_of

PACKAGES = {"nginx": "nginx", "openssl": "openssl", "valgrind": "valgrind"}
MOST_DIFFERENCE, MOST_RIGHT = 0.02, 0.60
FEW, MANY = 3, 300  # companies of a desk
SHORT, LONG = 100, 500  # refusals in the two sessions whose instructions are compared
OWN_KEY, WRONG_KEYS = "a-company-s-own-key", ("a-wrong-key-of-any-", "wrong-key", "a-wrong-key-that-is-longer-than-any-right-one")
PACE = 0.055  # seconds between two requests of a company, so that the proxy's rate never makes one wait
OF_AN_ADDRESS = 5  # requests of a stranger that the proxy takes at once
BODY = json.dumps({"ref": "PAY-1", "sec": "PPD", "direction": "credit", "description": "PAYROLL", "day": "2025-01-10", "entries": [
    {"routing": "091000019", "account": "123456789", "kind": "checking", "cents": 100, "id": "E1", "name": "ANN LEE"}]})


def known(number):
    """A company of the desk. An unknown one lies between each two of them, and has as many characters."""
    return f"CO{2 * number:06}"


def unknown(number):
    return f"CO{2 * number + 1:06}"


def desk_of(program, path, count):
    """Makes a desk with so many companies."""
    made = [message("POST /ops/day", '{"day":"2025-01-08"}')]
    for number in range(count):
        made.append(message("POST /ops/companies", json.dumps({"id": known(number), "name": "A COMPANY", "key": OWN_KEY if number == 0 else f"{OWN_KEY}-{number}",
                                                               "entry_limit": 1000, "credit_limit": 1000, "debit_limit": 1000})))
    make_desk(program, path)
    said, status = run(program, "stdio", path, given=b"".join(made))
    if status or said.count(b"HTTP/1.1 201 ") != count:
        sys.exit(f"no desk was made: {said[-200:]}")


def asked(company, kind, key):
    """A request for a company, as a GET or as a POST."""
    return message(f"GET /c/{company}/exposure", key=key) if kind == "GET" else message(f"POST /c/{company}/submissions", BODY, key)


# ---- instructions ----

def instructions(program, desk, given):
    """The instructions of a session over a copy of a desk, and what it answered."""
    with tempfile.TemporaryDirectory() as folder:
        for path in (desk, desk.with_name(desk.name + "-wal")):
            shutil.copy(path, folder)
        callgrind = Callgrind()
        done = subprocess.run([*callgrind.words, program, "stdio", Path(folder) / desk.name], input=given, stdout=subprocess.PIPE, stderr=subprocess.PIPE)
        if (count := callgrind.whole()) is None or done.returncode:
            sys.exit(f"callgrind does not run the program: {done.stderr[-300:].decode(errors='replace')}")
        return count, done.stdout


def cost_of_refusal(program, desk, companies, kind):
    """The instructions of a refusal, on average over these companies and the wrong keys, once the desk remembers companies."""
    first = message("GET /ops/status") + message(f"GET /c/{known(0)}/exposure", key=OWN_KEY)
    refused = [asked(companies[at % len(companies)], kind, WRONG_KEYS[at % len(WRONG_KEYS)]) for at in range(LONG)]
    (short, _), (long, said) = (instructions(program, desk, first + b"".join(refused[:count])) for count in (SHORT, LONG))
    if said.count(b"HTTP/1.1 403 ") != LONG:
        sys.exit(f"not each request was refused: {said[-300:]}")
    return (long - short) / (LONG - SHORT), said


def check_instructions(checks, program, desk, count):
    for kind in ("GET", "POST"):
        order = random.Random(count).sample(range(count), min(count, 50))
        (strange, one), (wrong, other) = (cost_of_refusal(program, desk, [name(at) for at in order], kind) for name in (unknown, known))
        checks.that(f"{count} companies: both refusals of a {kind} have the same bytes", one, other)
        difference = abs(strange - wrong) / min(strange, wrong)
        checks.that(f"{count} companies: the instructions of a refused {kind} differ by at most 2 %: unknown company {strange:,.0f}, wrong key {wrong:,.0f}, {difference:.1%}",
                    difference <= MOST_DIFFERENCE)


# ---- guesses by time ----

def right_guesses(times):
    """The share of trials that a guesser by time gets right, who has the median and takes the better of both readings. A trial
    is whether the company is known, and the seconds that its refusal took."""
    median = statistics.median(seconds for _, seconds in times)
    right = sum((seconds > median) == is_known for is_known, seconds in times) / len(times)
    return max(right, 1 - right)


def timed(trials, ask):
    """Asks for known and unknown companies in random order."""
    order = [at % 2 == 0 for at in range(trials)]
    random.shuffle(order)
    times = []
    for is_known in order:
        number = random.randrange(1, MANY)
        times.append((is_known, ask(known(number) if is_known else unknown(number))))
    return times


class Directly:
    """A caller of the desk itself, by a connection that is kept."""

    def __init__(self, port):
        self.port, self.count, self.link = port, 0, None

    def ask(self, company):
        if self.count % 900 == 0:
            if self.link:
                self.link.close()
            self.link = connect(self.port)
            self.reader = self.link.makefile("rb")
        self.count += 1
        sent = asked(company, "GET", WRONG_KEYS[0])
        began = time.perf_counter()
        self.link.sendall(sent)
        answer = read_answer(self.reader)
        seconds = time.perf_counter() - began
        if status_of(answer) != 403:
            sys.exit(f"a request was not refused: {answer}")
        return seconds


class Proxied:
    """A caller by way of nginx, by a connection that is kept; a stranger comes from another address after some requests."""

    def __init__(self, proxy, key, is_stranger):
        self.proxy, self.key, self.is_stranger, self.count, self.link, self.next = proxy, key, is_stranger, 0, None, 0.0

    def ask(self, company):
        if self.count % (OF_AN_ADDRESS if self.is_stranger else 500) == 0:
            if self.link:
                self.link.close()
            address = self.count // OF_AN_ADDRESS if self.is_stranger else 0
            self.link = http.client.HTTPSConnection(HOST, self.proxy.port, timeout=60, context=self.proxy.context(),
                                                    source_address=(f"127.0.{10 + address // 250}.{1 + address % 250}", 0))
            self.link.connect()
        self.count += 1
        if not self.is_stranger:
            time.sleep(max(0.0, self.next - time.monotonic()))
            self.next = time.monotonic() + PACE
        began = time.perf_counter()
        self.link.request("GET", f"/c/{company}/exposure", headers={"X-Desk-Key": self.key})
        answer = self.link.getresponse()
        body = answer.read()
        seconds = time.perf_counter() - began
        if (answer.status, body) != (403, b'{"error":"Denied"}'):
            sys.exit(f"a request was not refused: {answer.status} {body}")
        return seconds


def check_guesses(checks, program, desk, folder, trials):
    checks.that("a guesser by times that differ is right, and by times that do not in half of the trials",
                [right_guesses([(at % 2 == 0, 1.0 + at % 2 * by) for at in range(100)]) for by in (0.1, 0.0)], [1.0, 0.5])
    with Serving(program, desk, connections=3 * trials).listen() as serving:  # nginx connects for each request
        companies = {"own-key-at-the-proxy": f"{known(0)}:erp"}
        every = [("achdesk_unknown_rates:32k rate=2r/s", "achdesk_unknown_rates:32k rate=1000r/s")]  # one stranger is many addresses here
        with Proxy(folder, serving.port, {}, companies, {"operator": OPERATOR_KEY, known(0): OWN_KEY}, changes=every) as proxy:
            serving_directly = Directly(serving.port)
            timed(100, serving_directly.ask)
            direct = timed(trials, serving_directly.ask)
            serving_directly.link.close()  # the desk serves one connection after another
            ways = [("directly", direct)]
            for what, key, is_stranger in (("through nginx, by a company with its own key", "own-key-at-the-proxy", False), ("through nginx, by a stranger", "a-guessed-key", True)):
                ways.append((what, timed(trials, Proxied(proxy, key, is_stranger).ask)))
            asked_desk = sum("desk=403" in line for line in proxy.logged())
    for what, times in ways:
        right = right_guesses(times)
        medians = [statistics.median(seconds for is_known, seconds in times if is_known == it) * 1e6 for it in (True, False)]
        checks.that(f"{what}: a guesser by time is right in at most 60 % of {trials} trials: {right:.1%} (medians {medians[0]:.1f} µs known, {medians[1]:.1f} µs unknown)",
                    right <= MOST_RIGHT)
    checks.that("the company's requests reached the desk, and the stranger's did not", asked_desk, trials)


def main():
    if missing := sorted({package for program, package in PACKAGES.items() if not found(program)}):
        print(f"not tried: it needs the Debian packages {' '.join(missing)}")
        sys.exit(2)
    program, checks, trials = program_of(sys.argv[1:]), Checks(), int((sys.argv[2:] or ["1000"])[0])
    with tempfile.TemporaryDirectory(prefix="judge-timing-") as folder:
        Path(folder).chmod(0o755)
        for count in (FEW, MANY):
            desk_of(program, Path(folder) / f"{count}.db", count)
            check_instructions(checks, program, Path(folder) / f"{count}.db", count)
        check_guesses(checks, program, Path(folder) / f"{MANY}.db", Path(folder) / "proxy", trials)
    checks.end()


if __name__ == "__main__":
    main()
