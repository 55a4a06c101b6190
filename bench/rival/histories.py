"""Messages to both programs: each route with its refusals, heads of every kind, and a bank's random days."""

import datetime
import json
import random
import re
import sqlite3

from helpers.desk_messages import keyed
from helpers.first_version import write_copy

OPERATOR = "operator-key"
ODFI = "12104288"
FULL = {"entry_limit": 9_999_999_999, "credit_limit": 999_999_999_999_999, "debit_limit": 999_999_999_999_999}
ROUTINGS = ["091000019", "021000021", "061000146", "121042882"]
NAMES = ["ANN LEE", "BOB RAY", 'O"NEIL \\ SONS', "X", "ABCDEFGHIJKLMNOPQRSTUV"]
CODES = [f"R{n:02}" for n in range(1, 30)] + ["R01"] * 20 + ["R09"] * 8 + ["R08"] * 8 + ["R31", "R00", "X01", "R1A", "   "]
CHANGES = [f"C{n:02}" for n in range(1, 15)] + ["C00", "C15", "R01", "C0A"]
FIRST_DAY = datetime.date(2025, 1, 8)


def text_of(value):
    return json.dumps(value, separators=(",", ":"), ensure_ascii=False)


def wide(text, width):
    return text.ljust(width)[:width]


def entry(rng, number, index, prenote=False):
    made = {"routing": rng.choice(ROUTINGS), "account": str(rng.randrange(1, 10**rng.randrange(1, 17))), "kind": rng.choice(["checking", "savings"]),
            "cents": 0 if prenote else rng.choice([1, 2500, 9_999, rng.randrange(1, 200_000)]), "id": f"{number}.{index}", "name": rng.choice(NAMES)}
    if prenote or rng.random() < 0.1:
        made["prenote"] = prenote
    if rng.random() < 0.15:
        made["info"] = rng.choice(["JANUARY", "A" * 80, 'INVOICE "7" \\ 8'])
    return made


def submission(rng, number, entries, asked, debit=None):
    return {"ref": f"S-{number}", "sec": rng.choice(["PPD", "CCD"]), "direction": "debit" if (rng.random() < 0.6 if debit is None else debit) else "credit",
            "description": rng.choice(["PAYROLL", "DUES", "A B"]), "day": str(asked),
            "entries": [entry(rng, number, at + 1, rng.random() < 0.04) for at in range(entries)]}


def item(it, **changed):
    """The fields of a returned or changed entry, as the receiving bank gives them."""
    code = f"{3 if it['savings'] else 2}{6 if it['debit'] else 1}"
    return {"transaction": code, "cents": it["cents"], "trace": it["trace"], "dfi": it["dfi"], "sec": it["sec"], "code": "R01", "text": ""} | changed


def incoming(number, items, date="250114"):
    """A file of items, in a batch for each run of one entry class. Its key is made of its number."""
    records = [f"101 {ODFI}2 061000146{date}{number // 26 % 10_000:04}{chr(65 + number % 26)}094101{wide('OUR BANK', 23)}{wide('ACH OPERATOR', 23)}{' ' * 8}"]
    sums = {"batches": 0, "count": 0, "hash": 0, "debits": 0, "credits": 0}
    at = 0
    while at < len(items):
        end = at
        while end < len(items) and items[end]["sec"] == items[at]["sec"]:
            end += 1
        add_batch(records, sums, items[at:end], at)
        at = end
    lines = len(records) + 1
    records.append(f"9{sums['batches']:06}{(lines + 9) // 10:06}{sums['count']:08}{sums['hash'] % 10**10:010}{sums['debits']:012}{sums['credits']:012}{' ' * 39}")
    records += ["9" * 94] * (-len(records) % 10)
    return records


def add_batch(records, sums, items, first):
    sums["batches"] += 1
    records.append(f"5200{wide('MILL STREET', 16)}{' ' * 20}{wide('MILL01', 10)}{items[0]['sec']}{wide('DUES', 10)}{' ' * 6}250114014109100001{sums['batches']:07}")
    debits = credits = hashed = 0
    for number, it in enumerate(items, first + 1):
        trace = f"09100001{number % 10**7:07}"
        records.append(f"6{it['transaction']}{ODFI}2{wide('123', 17)}{it['cents']:010}{wide('E', 15)}{wide('BOB RAY', 22)}  1{trace}")
        kind, width = ("99", 44) if it["code"][:1] != "C" and it["sec"] != "COR" else ("98", 29)
        records.append(f"7{kind}{it['code']}{it['trace']}{' ' * 6}{it['dfi']}{wide(it['text'], width)}{' ' * (44 - width)}{trace}")
        is_debit = it["transaction"][1] in "56789"
        debits, credits = debits + it["cents"] * is_debit, credits + it["cents"] * (not is_debit)
        hashed += int(ODFI)
    count = 2 * len(items)
    records.append(f"8200{count:06}{hashed % 10**10:010}{debits:012}{credits:012}{wide('MILL01', 10)}{' ' * 25}09100001{sums['batches']:07}")
    for key, more in [("count", count), ("hash", hashed % 10**10), ("debits", debits), ("credits", credits)]:
        sums[key] += more


def lines(records, end="\n"):
    return "".join(record + end for record in records).encode()


class Bank:
    """A bank's desk and its companies, as a script sees them."""

    def __init__(self, pair, rng):
        self.pair, self.rng = pair, rng
        self.keys = {}
        self.day = None
        self.number = self.files = 0
        self.accepted = []  # (company, body)
        self.sent, self.returned = [], []
        self.taken = []

    def operator(self, what, body=b""):
        method, path = what.split(" ")
        return self.pair.ask(keyed(method, path, OPERATOR, body if isinstance(body, bytes) else text_of(body).encode()))

    def company(self, name, what, body=b"", key=None):
        method, path = what.split(" ")
        body = body if isinstance(body, bytes) else text_of(body).encode()
        return self.pair.ask(keyed(method, f"/c/{name}/{path}", key or self.keys.get(name, "no-key-at-all"), body))

    def register(self, name, **limits):
        self.keys[name] = f"key-of-{name}"
        return self.operator("POST /ops/companies", {"id": name, "name": f"{name} INC", "key": self.keys[name]} | FULL | limits)

    def set_day(self, day):
        answer = self.operator("POST /ops/day", {"day": str(day)})
        if b"200 OK" in answer[:20]:
            self.day = day
        return answer

    def submit(self, name, body):
        answer = self.company(name, "POST submissions", body)
        if b"201 Created" in answer[:24]:
            self.accepted.append((name, body))
        return answer

    def cut(self):
        """A cut, and what its files say was sent."""
        answer = self.operator("POST /ops/cut")
        made = re.search(rb'"day":"([^"]*)".*"files":\[([^\]]*)\]', answer)
        for modifier in (made[2].decode().replace('"', "").split(",") if made and made[2] else []):
            self.read_file(self.operator(f"GET /ops/files/{made[1].decode()}/{modifier}").partition(b"\r\n\r\n")[2].decode())
        return answer

    def read_file(self, text):
        for record in text.splitlines():
            if record[0] == "5":
                company, sec = record[40:50].strip(), record[50:53]
            if record[0] == "6":
                self.sent.append({"company": company, "sec": sec, "savings": record[1] == "3", "debit": record[2] in "78", "dfi": record[3:11],
                                  "cents": int(record[29:39]), "ident": record[39:54].strip(), "trace": record[79:94]})

    def take(self, records, end="\n"):
        body = lines(records, end)
        answer = self.operator("POST /ops/returns", body)
        if b"200 OK" in answer[:20]:
            self.taken.append(records)
        return answer

    def look_at_all(self, refs=20):
        for name in self.keys:
            for what in ("returns", "changes", "statement", "rates", "exposure"):
                self.company(name, f"GET {what}")
        for name, body in self.rng.sample(self.accepted, min(refs, len(self.accepted))):
            self.company(name, f"GET submissions/{body['ref']}")
        for what in ("settlement", "suspense", "status", "companies"):
            self.operator(f"GET /ops/{what}")


# Wrong values of fields: whatever the kind, they are texts of JSON.
WRONG = ["null", "true", "false", "0", "-0", "-1", "1", "1.0", "1e2", "10000000000", "18446744073709551615", "18446744073709551616", "1e400", "1e-400", '""', '" "',
         '"a b"', '" a"', '"a "', '"\\u0041"', '"\\ud800"', '"\\udc00"', '"\\ud83d\\ude00"', '"\xe9"', '"2025-02-30"', '"2025-1-09"', '"2100-01-01"', '"1999-12-31"', '"2097-01-01"',
         '"credit"', '"PPD"', '"savings"', '"091000018"', '"09100001"', '"0910000190"', '"A' + "B" * 90 + '"', '"RETRY PYMT"', '"REVERSAL"', "[]", "[1]", "{}", '"\\n"', '"~!"', '"MILL01"', '"mill"', '"1234567"', "01", "+1", '"\x7f"', '"\\u0000"']


def spoiled(rng, body):
    """The JSON of a body of which something is wrong, or only said in another way."""
    members = [(json.dumps(key), text_of(value)) for key, value in body.items()]
    at = rng.randrange(len(members))
    key, value = members[at]
    way = rng.randrange(8)
    if way == 0:
        del members[at]
    elif way <= 3:
        members[at] = (key, rng.choice(WRONG))
    elif way == 4:
        members.insert(rng.randrange(len(members) + 1), (key, rng.choice(WRONG)))
    elif way == 5:
        members.insert(rng.randrange(len(members) + 1), (rng.choice(['"more"', '"r\\u0065f"', '"Ref"', '""']), rng.choice(WRONG)))
    elif way == 6:
        rng.shuffle(members)
    space = rng.choice(["", "", " ", "\n\t\r "])
    text = space + "{" + ",".join(f"{space}{key}{space}:{space}{value}{space}" for key, value in members) + "}" + space
    if way == 7 and rng.random() < 0.7:
        cut = rng.randrange(len(text) + 1)
        text = rng.choice([text[:cut], text + "x", text + "{}", text[:cut] + rng.choice(['"', ",", "\\", "\x01", "]"]) + text[cut:]])
    data = text.encode()
    if way == 7 and rng.random() < 0.3:
        cut = rng.randrange(len(data) + 1)
        data = data[:cut] + rng.choice([b"\xff", b"\x00", b"\xc0\x80", b"\xed\xa0\x80", b"\xf5\x80\x80\x80", b"\xe9"]) + data[cut:]
    return data


def spoiled_submission(rng, body):
    if rng.random() < 0.5 or not body["entries"]:
        return spoiled(rng, body)
    body = dict(body)
    entries = [text_of(it).encode() for it in body.pop("entries")]
    at = rng.randrange(len(entries))
    entries[at] = rng.choice([b"1", b"null", b"[]"]) if rng.random() < 0.1 else spoiled(rng, json.loads(entries[at]))
    return text_of(body).encode()[:-1] + b',"entries":[' + b",".join(entries) + b"]}"


def spoiled_file(rng, records):
    """The bytes of a file of which something is wrong, or only written in another way."""
    records = list(records)
    way = rng.randrange(9)
    at = rng.randrange(len(records))
    if way == 0:
        del records[at]
    elif way == 1:
        records.insert(at, rng.choice(records))
    elif way in (2, 3):
        place = rng.randrange(94)
        records[at] = records[at][:place] + rng.choice("0123456789A ~") + records[at][place + 1:]
    elif way == 4:
        place = rng.randrange(94)
        records[at] = records[at][:place] + rng.choice(["\n", "\r", "\t", "\x7f", "\x1f", "\xe9"]) + records[at][place + 1:]
    elif way == 5:
        first, other = sorted(rng.choices(range(len(records)), k=2))
        records[first], records[other] = records[other], records[first]
    end = rng.choice(["\n", "\n", "\r\n", "", "\r", "\n\n"])
    data = "".join(record + end for record in records).encode("latin-1")
    if way == 6:
        data = data[: rng.randrange(len(data) + 1)]
    if way == 7:
        data = b"".join(line + rng.choice([b"\n", b"\r\n", b""]) for line in data.replace(b"\r\n", b"\n").replace(b"\r", b"\n").split(b"\n"))
    if way == 8:
        data += rng.choice([b"\n\n\r\n", b"\r", b"x", b"\n \n", b"9" * 94, b"9" * 93])
    return data


def heads(pair):
    """Heads of every kind, each in a session of its own, over a desk with a company and a day."""
    bank = Bank(pair, random.Random(1))
    bank.register("MILL01")
    bank.set_day(FIRST_DAY)
    key = f"X-Desk-Key: {bank.keys['MILL01']}"
    get = lambda *fields, line="GET /c/MILL01/exposure HTTP/1.1": ("\r\n".join([line, *fields]) + "\r\n\r\n").encode()
    sessions = [b"", b"\r\n\r\n", b"\n\n" + get(key), get(key), get(key) + get(key), get(key).replace(b"\r\n", b"\n"), get(f"x-desk-KEY:   {bank.keys['MILL01']} \t"),
             get(key, "Connection: close") + get(key), get(key, "connection: CLOSE"), get(key, "Connection: keep-alive", "Connection: close") + get(key),
             get(key, "Connection: close, x") + get(key), get(key, line="GET /c/MILL01/exposure HTTP/1.0") + get(key), get(key, line="GET /c/MILL01/exposure HTTP/2.0"),
             get(key, line="GET  /c/MILL01/exposure HTTP/1.1"), get(key, line="GET /c/MILL01/exposure"), get(key, line=" GET /c/MILL01/exposure HTTP/1.1"),
             get(key, line="G@T /c/MILL01/exposure HTTP/1.1"), get(key, line="get /c/MILL01/exposure HTTP/1.1"), get(key, "Bad Name: x"), get(key, "NoColon"), get(key, ": x"),
             get(key, " folded: x"), get(key, "X: a\x01b"), get(key, "X:"), get(key, *[f"X-{n}: 1" for n in range(31)]) + get(key), get(key, *[f"X-{n}: 1" for n in range(32)]) + get(key),
             get(key, "X: " + "a" * 16_000) + get(key), get(key, "X: " + "a" * 16_400) + get(key), get(key, "Content-Length: 3") + b"abc" + get(key),
             get(key, "Content-Length: 3") + b"ab", get(key, "Content-Length: 0"), get(key, "Content-Length: "), get(key, "Content-Length: x"), get(key, "Content-Length: -1"), get(key, "Content-Length: +1") + b"a",
             get(key, "Content-Length: 000") + get(key), get(key, "Content-Length: 0", "Content-Length: 0"), get(key, "Content-Length: 4194305") + get(key),
             get(key, "Content-Length: 99999999999999999999999") + get(key), get(key, "Transfer-Encoding: chunked") + get(key),
             get(key, "Transfer-Encoding: x", "Content-Length: 4194305") + get(key), get(key, "Transfer-Encoding: x", "Content-Length: x") + get(key),
             get(key, "Expect: 100-continue"), get(key)[:-2], get(key)[:10], get(key, line="POST /c/MILL01/retries HTTP/1.1"), get(key, line="POST /nowhere HTTP/1.1"),
             get(key, "Content-Length: 2", line="POST /c/MILL01/retries HTTP/1.1") + b"{}", get(key, line="GET /c/MILL01/exposure?a=b?c HTTP/1.1"),
             get("X-Desk-Key: wrong", key), get("X-Desk-Key:"), get(), get(key) * 1001]
    for path in ("/", "*", "//", "/c", "/c/", "/c/MILL01", "/c/MILL01/", "/c//exposure", "/c/MILL01/exposure/", "/c/mill01/exposure", "/c/MILL01/exposure/x", "/C/MILL01/exposure", "/ops",
                 "/ops/", "/ops/day", "/ops/day/", "/ops/files", "/ops/files/2025-01-08", "/ops/files/2025-01-08/A", "/ops/files/2025-01-08/A/", "/ops/files/2025-01-08/AB",
                 "/ops/files/x/A", "/c/MILL01/submissions", "/c/MILL01/submissions/", "/c/MILL01/submissions/PAY$1", "/c/MILL01/submissions/" + "A" * 21, "/c/MILL01/submissions/a/b",
                 "/c/MILL01/%65xposure", "http://127.0.0.1/ops/status", "/c/UNKNOWN/exposure", "/c/TOOLONGTOBEANID/exposure", "/ops/status", "/ops/statu\xe9"):
        for method in ("GET", "POST", "PUT"):
            for who in (key, f"X-Desk-Key: {OPERATOR}"):
                sessions.append((f"{method} {path} HTTP/1.1\r\n{who}\r\nContent-Length: 2\r\n\r\n" + "{}").encode())
    for sent in sessions:
        pair.ask_alone(sent)
    large = b"{" + b" " * 4_194_302 + b"}"
    pair.ask_alone(keyed("POST", "/c/MILL01/submissions", bank.keys["MILL01"], large))
    for levels in (126, 127, 128, 1000):
        pair.ask_alone(keyed("POST", "/c/MILL01/submissions", bank.keys["MILL01"], b'{"x":' + b"[" * levels + b"]" * levels + b"}"))
    pair.compare_rows()


def refusals(pair, seed, spoils):
    """Each route with what it accepts and refuses, in what order and at the bounds; and so many spoiled bodies of each."""
    rng = random.Random(seed)
    bank = Bank(pair, rng)
    pay = submission(rng, 1, 2, FIRST_DAY + datetime.timedelta(2), debit=False)
    bank.register("MILL01")
    for what in ("returns", "changes", "statement", "rates", "exposure", "submissions/PAY-1"):
        bank.company("MILL01", f"GET {what}")
    for what in ("POST /ops/cut", "GET /ops/settlement", "GET /ops/suspense", "GET /ops/status", "GET /ops/companies", "PUT /ops/companies", "DELETE /ops/limits"):
        bank.operator(what)
    bank.submit("MILL01", pay)
    bank.submit("MILL01", {"ref": 1})
    bank.company("MILL01", "POST retries", {"ref": "R"})
    bank.operator("POST /ops/returns", b"x")
    for text in ("", "2025-01-20\n", "2025-01-20\r\n2025-05-26", '"2025-01-20"\n\n\n"2025-05-26"\n', "2025-01-20\n2025-02-30\n", "2025-01-20\n2025-01-20\n", "x", "2025-01-20,\n",
                 "2025-01-20,2025-01-21\n", "2025-01-20\r2025-05-26\r", '""', " 2025-01-20", '"2025-01-20', '2025-01-20"', '"2025-01-20"x', "2099-12-31", "2100-01-01", "1999-12-31", "2000-01-01",
                 '"2025-""01-20"', "2025-05-26\n2025-01-20\n", ","):
        bank.operator("POST /ops/holidays", text.encode())
    days = [datetime.date(2030, 1, 1) + datetime.timedelta(n) for n in range(402)]
    for count in (400, 401, 402):
        bank.operator("POST /ops/holidays", "".join(f"{day}\n" for day in days[:count]).encode())
    bank.operator("POST /ops/holidays", ("".join(f"{day}\n" for day in days[:400]) + "2030-01-01\n").encode())
    bank.operator("POST /ops/holidays", b"2025-01-20\n")
    for day in ("2025-01-11", "2025-01-20", "2097-01-01", "2025-13-01", FIRST_DAY, FIRST_DAY, "2025-01-07", "2025-01-12"):
        bank.set_day(day)
    bank.day = FIRST_DAY
    company = {"id": "BAKE01", "name": "BAKERY", "key": "bakery-key"} | FULL
    for spoil in range(spoils):
        bank.operator("POST /ops/companies", spoiled(rng, company | {"id": f"B{spoil}"}))
        bank.operator("POST /ops/limits", spoiled(rng, {"id": "MILL01"} | FULL))
        bank.operator("POST /ops/day", spoiled(rng, {"day": "2025-01-08"}))
    bank.operator("POST /ops/companies", company)
    bank.operator("POST /ops/companies", company)
    bank.operator("POST /ops/limits", {"id": "NOBODY"} | FULL)
    bank.operator("POST /ops/limits", {"id": "MILL01"} | FULL)
    for ref in range(2 * spoils):
        body = submission(rng, 2, 3, FIRST_DAY + datetime.timedelta(rng.choice([0, 1, 5, 60, 61])))
        bank.company("MILL01", "POST submissions", spoiled_submission(rng, body | {"ref": f"X-{ref}"}))
        bank.company("MILL01", "POST retries", spoiled(rng, {"ref": f"Y-{ref}", "of": "S-1", "index": 1, "day": "2025-01-10", "authorized": "2025-01-08"}))
    bank.submit("MILL01", pay)
    bank.submit("MILL01", pay)
    for key, value in (("sec", "CCD" if pay["sec"] == "PPD" else "PPD"), ("direction", "debit"), ("description", "OTHER"), ("day", "2025-01-13"), ("entries", pay["entries"][:1]),
                       ("entries", pay["entries"] + pay["entries"][:1])):
        bank.submit("MILL01", pay | {key: value})
    for key, value in (("routing", "021000021"), ("account", "7"), ("kind", "savings"), ("kind", "checking"), ("cents", 7), ("id", ""), ("name", "Q"), ("info", "NEW"), ("prenote", False)):
        bank.submit("MILL01", pay | {"entries": [pay["entries"][0] | {key: value}, pay["entries"][1]]})
    bank.company("MILL01", "POST retries", {"ref": pay["ref"], "of": "S-1", "index": 1, "day": "2025-01-10"})
    one = pay["entries"][0] | {"cents": 9_999_999_999}
    one.pop("prenote", None)
    for count, last in ((100, 99), (100, 100), (1000, 1), (1001, 1), (4, 0)):
        bank.submit("MILL01", pay | {"ref": f"L-{count}-{last}", "entries": [one | ({"cents": 1} if count > 999 else {})] * count + ([one | {"cents": last}] if last else [])})
    for number, (limit, cents) in enumerate([({"entry_limit": 100}, 101), ({"entry_limit": 100}, 100), ({"credit_limit": 0}, 1), ({"debit_limit": 0}, 1)]):
        bank.operator("POST /ops/limits", {"id": "BAKE01"} | FULL | limit)
        bank.keys["BAKE01"] = "bakery-key"
        for debit in (False, True):
            body = submission(rng, 900 + number, 1, FIRST_DAY + datetime.timedelta(2), debit=debit)
            bank.submit("BAKE01", body | {"ref": f"N-{number}-{debit}", "entries": [pay["entries"][0] | {"cents": cents, "prenote": False}]})
    bank.company("MILL01", "GET exposure", key="a-wrong-key")
    bank.company("NOBODY", "GET exposure")
    bank.company("MILL01", "GET exposure", key=OPERATOR)
    bank.cut()
    bank.look_at_all()
    pair.compare_rows()


def spent_modifiers(pair):
    """36 files of a day, and then no more."""
    rng = random.Random(3)
    bank = Bank(pair, rng)
    bank.register("MILL01")
    bank.set_day(FIRST_DAY)
    for number in range(38):
        bank.submit("MILL01", submission(rng, number, 1, FIRST_DAY + datetime.timedelta(1)))
        bank.cut()
        bank.operator("GET /ops/status")
    bank.set_day(FIRST_DAY + datetime.timedelta(1))
    bank.cut()
    bank.look_at_all()
    pair.compare_rows()


def full_files(pair):
    """Files that are full: of money, and of batches."""
    rng = random.Random(4)
    bank = Bank(pair, rng)
    bank.register("MILL01")
    bank.register("BAKE01")
    bank.set_day(FIRST_DAY)
    one = entry(rng, 1, 1) | {"cents": 9_999_999_999, "prenote": False}
    for number, (last, debit) in enumerate([(99, False), (1, True), (1, False), (99, True), (1, True)]):
        body = submission(rng, number, 1, FIRST_DAY + datetime.timedelta(1), debit=debit)
        count = 100 if last == 99 else 0
        bank.submit("MILL01", body | {"entries": [one] * count + [one | {"cents": last}]})
    bank.cut()
    for number in range(1010):
        bank.submit("BAKE01", submission(rng, 10_000 + number, 1, FIRST_DAY + datetime.timedelta(1)))
    bank.cut()
    bank.look_at_all()
    pair.compare_rows()


def lapses(pair):
    """Retries up to their bounds: 180 days, two retries, new authorizations, and those that lapse."""
    rng = random.Random(5)
    bank = Bank(pair, rng)
    bank.register("MILL01")
    bank.operator("POST /ops/holidays", b"2025-01-20\n2025-07-04\n")
    bank.set_day(FIRST_DAY)
    body = submission(rng, 1, 6, FIRST_DAY + datetime.timedelta(2), debit=True)
    bank.submit("MILL01", body | {"entries": [it | {"prenote": False, "cents": 2500} for it in body["entries"][:5]] + [body["entries"][5] | {"prenote": True, "cents": 0}]})
    bank.submit("MILL01", submission(rng, 2, 2, FIRST_DAY + datetime.timedelta(2), debit=False))
    retry = lambda ref, index, day, **more: bank.company("MILL01", "POST retries", {"ref": ref, "of": "S-1", "index": index, "day": str(day)} | more)
    exposures = lambda: (bank.company("MILL01", "GET exposure"), bank.operator("GET /ops/status"), bank.operator("GET /ops/companies"))
    bank.set_day("2025-01-09")
    bank.cut()
    bank.set_day("2025-01-14")
    debits = [it for it in bank.sent if it["debit"]]
    codes = ["R01", "R09", "R08", "R02", "R01", "R01"]
    bank.take(incoming(1, [item(it, code=code) for it, code in zip(debits, codes)]))
    exposures()
    for index in range(1, 8):
        retry(f"A-{index}", index, "2025-01-16")
        for authorized in ("2025-01-13", "2025-01-14", "2025-01-15", "2026-01-01"):
            retry(f"B-{index}-{authorized}", index, "2025-01-22", authorized=authorized)
        retry(f"A-{index}", index, "2025-01-16")
        retry(f"A-{index}", index, "2025-01-17")
        exposures()
    retry("C-1", 1, "2025-01-16")
    bank.company("MILL01", "POST retries", {"ref": "C-2", "of": "A-1", "index": 1, "day": "2025-01-16"})
    bank.company("MILL01", "POST retries", {"ref": "C-3", "of": "S-2", "index": 1, "day": "2025-01-16"})
    bank.company("MILL01", "POST retries", {"ref": "C-4", "of": "NONE", "index": 1, "day": "2025-01-16"})
    for number, day in enumerate(("2025-01-15", "2025-01-17", "2025-01-22", "2025-01-24", "2025-01-28")):
        bank.set_day(day)
        bank.cut()
        fresh = bank.sent[len(debits) + 2:]
        bank.take(incoming(10 + number, [item(it, code=rng.choice(["R01", "R09"])) for it in fresh if it["debit"]]))
        exposures()
        for index in (1, 2, 5):
            retry(f"D-{number}-{index}", index, datetime.date.fromisoformat(day) + datetime.timedelta(2))
        exposures()
    for day in ("2025-05-14", "2025-07-01"):
        bank.set_day(day)
        for index in (1, 2, 3, 5):
            for asked in ("2025-07-03", "2025-07-04", "2025-07-05", "2025-07-08", "2025-07-09", "2025-07-10"):
                retry(f"E-{day}-{index}-{asked}", index, asked)
        exposures()
    bank.set_day("2025-07-09")
    exposures()
    bank.cut()
    exposures()
    bank.look_at_all(50)
    for index in (1, 2, 3, 5):
        retry(f"F-{index}", index, "2025-07-10")
    for number in range(12):
        bank.company("MILL01", f"GET submissions/E-2025-07-01-{number % 6}-2025-07-09")
    pair.compare_rows()


def late_returns(pair):
    """Returns at and after their deadlines, of all codes, and returns that come long after."""
    rng = random.Random(6)
    bank = Bank(pair, rng)
    bank.register("MILL01")
    bank.operator("POST /ops/holidays", b"2025-01-20\n2025-03-12\n")
    bank.set_day(FIRST_DAY)
    for debit in (True, False):
        body = submission(rng, 1 + debit, 400, FIRST_DAY + datetime.timedelta(1), debit=debit)
        bank.submit("MILL01", body)
    bank.cut()
    left = list(bank.sent)
    for number, day in enumerate(("2025-01-09", "2025-01-13", "2025-01-14", "2025-03-10", "2025-03-11", "2025-03-13", "2025-09-01")):
        bank.set_day(day)
        for debit in (True, False):
            some = [it for it in left if it["debit"] == debit][:29]
            bank.take(incoming(2 * number + debit, [item(it, code=f"R{at + 1:02}", text="INFO " * (at % 3)) for at, it in enumerate(some)]))
            left = [it for it in left if it not in some]
        for what in ("exposure", "rates", "returns", "statement"):
            bank.company("MILL01", f"GET {what}")
        if number == 1:
            bank.operator("POST /ops/holidays", b"")
    bank.look_at_all()
    pair.compare_rows()


class Days:
    """Random days of a bank."""

    def __init__(self, pair, rng, most_entries):
        self.rng, self.most_entries = rng, most_entries
        self.bank = Bank(pair, rng)
        self.refs = 0
        self.holidays = set()

    def run(self, days):
        bank = self.bank
        for number in range(3):
            bank.register(f"CO{number}")
        bank.register("SMALL", credit_limit=300_000, debit_limit=400_000, entry_limit=150_000)
        bank.set_day(FIRST_DAY)
        for _ in range(days):
            for _ in range(self.rng.randrange(3, 12)):
                self.event()
                self.look()
            self.next_day()
            self.look()
            if self.rng.random() < 0.1:
                bank.look_at_all()
        bank.look_at_all(100)

    def look(self):
        """What is remembered, asked between every two events; of some companies only now and then."""
        bank = self.bank
        for name in bank.keys:
            if name != "CO2" or self.rng.random() < 0.1:
                bank.company(name, "GET exposure")
        if self.rng.random() < 0.3:
            name = self.rng.choice(list(bank.keys))
            bank.company(name, f"GET {self.rng.choice(['returns', 'changes', 'statement', 'rates'])}")
        if self.rng.random() < 0.2:
            bank.operator(f"GET /ops/{self.rng.choice(['settlement', 'suspense', 'status', 'status', 'companies', 'companies'])}")
        if bank.accepted and self.rng.random() < 0.2:
            name, body = self.rng.choice(bank.accepted)
            bank.company(name, f"GET submissions/{body['ref']}")

    def event(self):
        events = {self.submit: 10, self.submit_again: 2, self.submit_wrong: 2, self.retry: 5, self.cut: 3, self.take: 3, self.take_again: 1, self.take_wrong: 1,
                  self.set_limits: 1, self.restart: 1, self.add_company: 0.3}
        self.rng.choices(list(events), list(events.values()))[0]()

    def submit(self):
        self.refs += 1
        sizes = [1, 1, 2, 3, 5, 20, self.rng.choice([self.most_entries, 40])]
        asked = self.bank.day + datetime.timedelta(self.rng.choice([0, 1, 1, 2, 2, 3, 4, 7, 30, 60, 61]))
        self.bank.submit(self.rng.choice(list(self.bank.keys)), submission(self.rng, self.refs, self.rng.choice(sizes), asked))

    def submit_again(self):
        if self.bank.accepted:
            name, body = self.rng.choice(self.bank.accepted)
            if self.rng.random() < 0.5:
                key = self.rng.choice(list(body))
                body = body | {key: submission(self.rng, 0, len(body.get("entries", [1])), self.bank.day).get(key, body[key])}
            self.bank.company(name, "POST submissions", body)

    def submit_wrong(self):
        self.refs += 1
        asked = self.bank.day + datetime.timedelta(self.rng.choice([1, 2, 61]))
        name = self.rng.choice(list(self.bank.keys))
        self.bank.company(name, "POST submissions", spoiled_submission(self.rng, submission(self.rng, self.refs, self.rng.choice([1, 2, 5]), asked)))

    def retry(self):
        bank = self.bank
        known = bank.returned[-60:] if self.rng.random() < 0.8 else bank.sent[-200:]
        if not known:
            return
        it = self.rng.choice(known)
        number, _, index = it["ident"].partition(".")
        self.refs += 1
        body = {"ref": f"R-{self.refs}", "of": f"S-{number}", "index": int(index), "day": str(bank.day + datetime.timedelta(self.rng.choice([0, 1, 2, 3, 30, 60, 61])))}
        if self.rng.random() < 0.4:
            body["authorized"] = str(bank.day - datetime.timedelta(self.rng.choice([-1, 0, 0, 1, 3])))
        for _ in range(self.rng.choice([1, 1, 2])):
            bank.company(it["company"], "POST retries", body)

    def cut(self):
        self.bank.cut()

    def take(self):
        bank, rng = self.bank, self.rng
        items = []
        for _ in range(rng.choice([0, 1, 1, 3, 10, 40])):
            if not bank.sent:
                break
            it = rng.choice(bank.sent[-rng.choice([20, 200, 5000]):])
            if rng.random() < 0.2:
                items.append(item(it, code=rng.choice(CHANGES[:14]), sec="COR", cents=0, text=rng.choice(["987654321", 'A "B" \\C'])))
            else:
                items.append(item(it, code=rng.choice(CODES), text=rng.choice(["", "STOPPED", '"\\'])))
                if items[-1]["code"] in ("R01", "R08", "R09") and it["debit"]:
                    bank.returned.append(it)
            wrong = {"cents": it["cents"] + 1, "trace": rng.choice([f"{ODFI}9999999", "121042890000001", f"{ODFI}0000000", "12104288 000001", "ABCDEFGHIJKLMNO"]),
                     "dfi": "02100002", "sec": rng.choice(["PPD", "CCD", "COR", "WEB"]), "transaction": rng.choice(["21", "26", "31", "36", "41", "56"])}
            for key, value in wrong.items():
                if rng.random() < 0.04 and not (items[-1]["sec"] == "COR" and key in ("cents", "sec")):
                    items[-1][key] = value
            if items[-1]["sec"] == "COR":
                items[-1]["cents"] = 0
            if rng.random() < 0.05:
                items.append(dict(items[-1]))
        if rng.random() < 0.5:
            items.sort(key=lambda it: it["sec"])
        bank.files += 1
        bank.take(incoming(bank.files, items), rng.choice(["\n", "\r\n", ""]))

    def take_again(self):
        if self.bank.taken:
            self.bank.take(self.rng.choice(self.bank.taken), self.rng.choice(["\n", "\r\n"]))

    def take_wrong(self):
        if self.bank.taken:
            for _ in range(3):
                self.bank.operator("POST /ops/returns", spoiled_file(self.rng, self.rng.choice(self.bank.taken)))

    def set_limits(self):
        name = self.rng.choice(list(self.bank.keys))
        limits = FULL if self.rng.random() < 0.7 else {"entry_limit": 100_000, "credit_limit": self.rng.randrange(10**7), "debit_limit": self.rng.randrange(10**7)}
        self.bank.operator("POST /ops/limits", {"id": name} | limits)

    def restart(self):
        self.bank.pair.stop()

    def add_company(self):
        if len(self.bank.keys) < 8:
            self.bank.register(f"NEW{len(self.bank.keys)}")

    def next_day(self):
        bank, rng = self.bank, self.rng
        if rng.random() < 0.15:
            self.holidays = {day for day in self.holidays if rng.random() < 0.7}
            self.holidays |= {bank.day + datetime.timedelta(rng.randrange(-6, 20)) for _ in range(rng.randrange(4))}
            bank.operator("POST /ops/holidays", "".join(f"{day}\n" for day in sorted(self.holidays)).encode())
            self.look()
        before = bank.day
        step = rng.choice([1, 1, 1, 1, 1, 1, 2, 3, 5, 20]) if rng.random() < 0.97 else 130
        for more in range(step, step + 30):
            if bank.set_day(before + datetime.timedelta(more))[9:12] == b"200":
                break
        if rng.random() < 0.1:
            bank.set_day(before)


def random_days(pair, seed, days):
    Days(pair, random.Random(seed), 1000).run(days)
    pair.compare_rows()


def reused_sequences(pair_of):
    """Sequences that went around: the numbers of sent entries are moved to the end of their range, as if so many had been sent."""
    rng = random.Random(7)
    first = pair_of("before", None)
    bank = Bank(first, rng)
    bank.register("MILL01")
    bank.set_day(FIRST_DAY)
    bank.submit("MILL01", submission(rng, 1, 5, FIRST_DAY + datetime.timedelta(1), debit=True))
    bank.cut()
    first.compare_rows()
    moved = first.paths[0].with_name("moved.db")
    write_copy(first.paths[0], moved)
    db = sqlite3.connect(moved)
    db.execute("UPDATE numbers SET sequence = 9999990 + nth - 2 WHERE nth > 2")
    db.commit()
    db.close()
    pair = pair_of("after", moved)
    again = Bank(pair, rng)
    again.keys = bank.keys
    for number, day in enumerate(("2025-01-09", "2025-01-10", "2026-01-09", "2026-01-12")):
        again.set_day(day)
        again.submit("MILL01", submission(rng, 10 + number, 4, datetime.date.fromisoformat(day) + datetime.timedelta(1), debit=True))
        again.submit("MILL01", submission(rng, 20 + number, 3, datetime.date.fromisoformat(day) + datetime.timedelta(1), debit=True))
        again.cut()
        again.cut()
        again.take(incoming(number, [item(it) for it in again.sent[-3:]] + [item(bank.sent[0])]))
        again.look_at_all()
    pair.compare_rows()
    return [first, pair]
