#!/usr/bin/env python3
"""One `achdesk serve` answers many messages: `python3 judge/soak.py [PROGRAM] [MESSAGES] [SEED]`.

PROGRAM is the built program, MESSAGES 100000 and SEED 1 where they are left out. The messages come over connections of 1 to 40
messages each. The first tenth builds a bank's days: companies, submissions, cuts, files of returns. The rest leaves as
many rows as it finds, though some of it writes: submissions and files that are sent again, limits and a holiday list that
are set again, GETs of all kinds, refusals, wrong keys, unknown paths, bodies that are no JSON. So resident memory has
to stay as it is after the first tenth.

No answer may differ from that of `achdesk stdio` over a second file, which gets the same messages in sessions of up to
1,000: what one process, many connections and a long run do may show in no byte but those of `Connection`. The messages
of the first session are also answered by `achdesk stdio` over lists. Then both files are read by stock SQLite, and must
have the same rows. The last line counts the checks; the status is 1 where one failed.
"""

import datetime
import json
import random
import sys
import tempfile
import time
from pathlib import Path

from helpers.returned import file_of_returns
from helpers.running import MILL, MILL_KEY, OPERATOR_KEY, Checks, Serving, connect, make_desk, message, plain, program_of, read_answer, rows_of, run

SESSION = 1_000
KEYS = {"MILL01": MILL_KEY, "BAKE01": "bakery-key"}
FIRST_DAY = datetime.date(2025, 1, 8)
SLACK = 2_048  # KiB that resident memory may differ by


class Messages:
    """Messages of a bank: first those that build its days, then those that leave as many rows as they find."""

    def __init__(self, seed, count):
        self.chance = random.Random(seed)
        self.building, self.count = count // 10, count
        self.day, self.references, self.files = FIRST_DAY, 0, 0
        self.kept = []  # what is sent again
        self.cuts = []

    def all(self):
        opening = [self.company(name) for name in KEYS] + [self.set_day()]
        yield from opening
        for number in range(len(opening), self.count):
            yield self.built(number) if number < self.building else self.asked()

    def company(self, name):
        return message("POST /ops/companies", MILL.replace("MILL01", name).replace(MILL_KEY, KEYS[name]))

    def set_day(self):
        return message("POST /ops/day", json.dumps({"day": str(self.day)}))

    def built(self, number):
        """A message of the bank's days: a cut, a next day and a file of returns in each hundred, else a submission or a GET."""
        place = number % 100
        if place == 96:
            self.cuts.append(self.day)
            return message("POST /ops/cut", "")
        if place == 97:
            self.day += datetime.timedelta(3 if self.day.weekday() == 4 else 1)
            return self.set_day()
        if place == 98:
            return self.keep(message("POST /ops/returns", self.file()))
        return self.keep(self.submission()) if self.chance.random() < 0.15 else self.asked()

    def keep(self, sent):
        self.kept.append(sent)
        return sent

    def submission(self):
        self.references += 1
        company = self.chance.choice(list(KEYS))
        entries = [{"routing": "091000019", "account": str(self.chance.randint(1, 10**9)), "kind": self.chance.choice(["checking", "savings"]),
                    "cents": self.chance.randint(1, 500_000), "id": f"E{index}", "name": "ANN LEE"} for index in range(self.chance.randint(1, 5))]
        body = {"ref": f"REF-{self.references}", "sec": self.chance.choice(["PPD", "CCD"]), "direction": self.chance.choice(["credit", "debit"]),
                "description": "PAYROLL", "day": str(self.day + datetime.timedelta(self.chance.randint(1, 9))), "entries": entries}
        return message(f"POST /c/{company}/submissions", json.dumps(body), KEYS[company])

    def file(self):
        """A file of returns whose traces name what may have been sent: what differs there stands in suspense."""
        self.files += 1
        items = [dict(debit=self.chance.random() < 0.5, savings=False, account="1", cents=self.chance.randint(1, 500_000), ident="", name="ANN LEE",
                      code=self.chance.choice(["R01", "R10", "R31"]), trace=f"12104288{self.chance.randint(1, 300):07}", dfi="09100001") for _ in range(3)]
        return file_of_returns(self.files, "PPD", items)

    def asked(self):
        """A message that leaves as many rows as it finds."""
        company = self.chance.choice(list(KEYS))
        key, chance = KEYS[company], self.chance
        kind = chance.randrange(20)
        if kind < 4 and self.kept:
            return chance.choice(self.kept)
        if kind == 4:
            return message("POST /ops/limits", MILL.replace("MILL01", company))
        if kind == 5:
            return message("POST /ops/holidays", "2099-01-02\n")
        if kind == 6:
            return message(chance.choice(["GET /ops/settlement", "GET /ops/suspense", "GET /ops/companies"]))
        if kind == 7:
            return message(f"GET /ops/files/{chance.choice(self.cuts or [self.day])}/{chance.choice('AB')}")
        if kind == 8:
            return message(chance.choice(["GET /nowhere", "DELETE /ops/day", "HEAD /ops/day", "POST /c/X/Y/Z"]), "")
        if kind == 9:
            return message(f"GET /c/{company}/statement", key=chance.choice(["", "a-wrong-key", OPERATOR_KEY]))
        if kind == 10:
            return message(f"POST /c/{company}/submissions", chance.choice(["", "[]", "{", '{"ref":"A B"}', '{"ref":"A","sec":"WEB"}', " " * 5_000]), key)
        if kind == 11:
            return message(chance.choice(["POST /ops/day", "POST /ops/companies", "POST /ops/limits", "POST /ops/returns"]), chance.choice(["{}", "x", "[1]"]))
        if kind == 12:
            return message(f"POST /c/{company}/retries", json.dumps({"ref": "RT-1", "of": f"REF-{chance.randint(1, 50)}", "index": 9, "day": str(self.day + datetime.timedelta(1))}), key)
        if kind == 13:
            return message("POST /ops/companies", MILL)
        return message(f"GET /c/{company}/{chance.choice(['returns', 'changes', 'statement', 'rates', 'exposure', f'submissions/REF-{chance.randint(1, 900)}'])}", key=key)


def answers_of(said):
    """The answers that stand one after another in the output of a session."""
    came = []
    while said:
        head, _, rest = said.partition(b"\r\n\r\n")
        size = next(int(line.split(b":")[1]) for line in head.split(b"\r\n") if line.startswith(b"Content-Length:"))
        came.append(plain(head + b"\r\n\r\n" + rest[:size]))
        said = rest[size:]
    return came


def sessions_of(program, messages, *path):
    """The answers of `stdio` to the messages, in sessions of up to 1,000."""
    came = []
    for at in range(0, len(messages), SESSION):
        said, status = run(program, "stdio", *path, given=b"".join(messages[at:at + SESSION]), seconds=600)
        if status != 0:
            sys.exit(f"a session ended with status {status}")
        came += answers_of(said)
    return came


def served(desk, messages, chance, watch):
    """The answers of the desk to the messages, over connections of 1 to 40 messages each, and how many connections it took."""
    came, connections = [], 0
    while len(came) < len(messages):
        connections += 1
        with connect(desk.port) as it, it.makefile("rb") as reader:
            for sent in messages[len(came):len(came) + chance.randint(1, 40)]:
                it.sendall(sent)
                came.append(plain(read_answer(reader)))
                watch(len(came))
    return came, connections


def size_of(path):
    return [Path(f"{path}{end}").stat().st_size if Path(f"{path}{end}").exists() else 0 for end in ("", "-wal")]


def main():
    program = program_of(sys.argv[1:])
    count = int(sys.argv[2]) if len(sys.argv) > 2 else 100_000
    seed = int(sys.argv[3]) if len(sys.argv) > 3 else 1
    messages = list(Messages(seed, count).all())
    checks, memory, sizes = Checks(), [], []
    with tempfile.TemporaryDirectory() as folder:
        first, second = Path(folder) / "served.db", Path(folder) / "sessions.db"
        make_desk(program, first)
        make_desk(program, second)
        with Serving(program, first, 1_000_000).listen() as desk:
            def watch(number):
                if number % (count // 20) == 0 and number > count // 10:
                    memory.append(desk.resident())
                    sizes.append(size_of(first))
            start = time.monotonic()
            came, connections = served(desk, messages, random.Random(seed), watch)
            took = time.monotonic() - start
            print(f"{count} messages over {connections} connections in {took:.0f} seconds: {count / took:.0f} a second")
            print(f"resident memory after the first tenth and then each twentieth, in KiB: {' '.join(map(str, memory))}")
            print(f"bytes of the file and of its log, the same: first {sizes[0]}, last {sizes[-1]}")
            checks.that("resident memory stays as it was after the first tenth", abs(memory[-1] - memory[0]) <= SLACK)
            checks.that("the desk runs on", desk.is_running())
        kinds = {}
        for text in came:
            kinds[text[9:12].decode()] = kinds.get(text[9:12].decode(), 0) + 1
        print(f"answers by status: {dict(sorted(kinds.items()))}")
        checks.that("no answer is 503", "503" in kinds, False)
        wanted = sessions_of(program, messages, second)
        unlike = [at for at, (a, b) in enumerate(zip(came, wanted)) if a != b]
        checks.that("answers that differ from those of sessions over a second file", (len(came), len(unlike), unlike[:3]), (len(wanted), 0, []))
        listed = sessions_of(program, messages[:SESSION])
        checks.that("answers of the first 1,000 that differ from those over lists", sum(a != b for a, b in zip(came, listed)), 0)
        checks.that("both files have the same rows", rows_of(first) == rows_of(second))
        checks.that("and SQLite finds them whole", rows_of(first)["integrity_check"], [("ok",)])
    checks.end()


main()
