"""What a large GET and a hostile body take of memory: `python3 judge/peaks.py [PROGRAM] [MEGABYTES]`.

PROGRAM is the built program and MEGABYTES 50 if they are left out. Linux alone tells it.

A desk in a file gets a company and a submission, which is cut. Then stock SQLite writes a file of the same rows, and as many
more into one table as make a body of so many megabytes: lines of the company's account, returns, changes, items in suspense,
or the text of a file. Each of these files is served by a new process, which is asked for that body twice. Its peak is the most
memory that was resident while it answered (VmHWM, which /proc/PID/clear_refs sets back), without what was resident before.

The desk is started with the environment of the unit deploy/achdesk.service: without it the C library may keep a list
of up to 32 MB that the desk gave back. At the first answer the engine also takes the memory that it keeps for later queries, as
copies of a text. The second answer shows what a GET takes each time. The text of a file is then there three times: in the engine's
row, in the row that a query returns, and in the answer.

Then new processes are sent bodies of the largest size, almost all of one piece: that which takes the most memory for each byte of
its kind. A value of JSON takes 32 bytes, a list of one value 48 with the allocator's own, so a body of `[` and `]` takes 24 times
its size, and its text is there twice. MOST leaves half as much again for an allocator that does not give memory back at once.

It prints a line for each answer: the size of its body, or of the body that was sent, the peak, and how many times the body that is.
The status is 1 where a body is not of the size that its rows have, where a hostile one is not refused, or where a peak is past its
bound.
"""

import re
import sqlite3
import sys
import tempfile
from contextlib import closing
from pathlib import Path

from helpers.first_version import write_copy
from helpers.running import MILL, MILL_KEY, OPERATOR_KEY, Serving, connect, make_desk, message, program_of, read_answer, status_of

# The most that an answer may take, in bodies: the first one, and each later one
BOUNDS = {"statement": (1.2, 1.2), "returns": (1.2, 1.2), "changes": (1.2, 1.2), "suspense": (1.2, 1.2), "file": (6.1, 3.1)}
MOST, SENT = 40, 4_194_304  # of a hostile body: the most that it may take, in bodies, and its size
ENVIRONMENT = {"MALLOC_MMAP_THRESHOLD_": "1048576"}
ENTRY = '{"routing":"091000019","account":"123456789","kind":"checking","cents":100,"id":"E1","name":"ANN LEE"}'
PAY = f'{{"ref":"PAY-1","sec":"PPD","direction":"credit","description":"PAYROLL","day":"2025-01-10","entries":[{ENTRY}]}}'
SETUP = [
    message("POST /ops/companies", MILL),
    message("POST /ops/day", '{"day":"2025-01-08"}'),
    message("POST /c/MILL01/submissions", PAY, MILL_KEY),
    message("POST /ops/cut", ""),
]
RECORD = b"6" + b"2" * 92 + b"\n"
INFO = "INFORMATION OF THE BANK THAT SENT IT BACK"
MOST_ENTRIES = 1_000  # of a submission


def nested(inner, front, back, depth=120):
    return front * depth + inner + back * depth


# What comes before, the piece that is repeated, and what comes after
HOSTILE = {
    "numbers for entries": ('{"entries":[', "0", "]}"),
    "empty entries": ('{"entries":[', "{}", "]}"),
    "entries of one number": ('{"entries":[', '{"":0}', "]}"),
    "entries of one text": ('{"entries":[', '{"routing":""}', "]}"),
    "lists": ('{"a":[', "[0]", "]}"),
    "nested lists": ('{"a":[', nested("0", "[", "]"), "]}"),
    "nested lists of two": ('{"a":[', nested("0", "[", ",0]"), "]}"),
    "nested lists of three": ('{"a":[', nested("0", "[", ",0,0]"), "]}"),
    "nested objects": ('{"a":[', nested("0", '{"":', "}"), "]}"),
    "members": ("{", '"":0', "}"),
    "texts": ('{"a":[', '""', "]}"),
    "escapes": ('{"a":[', r'"\n"', "]}"),
}


def hostile_body(front, piece, back):
    return front + ",".join([piece] * ((SENT - len(front) - len(back) + 1) // (len(piece) + 1))) + back


def place(n):
    """The entry with a number among those of full submissions."""
    return {"ord": 1 + (n - 1) // MOST_ENTRIES, "idx": 1 + (n - 1) % MOST_ENTRIES}


# What is asked, the table, a row with its number in it, and an object of the body
ROWS = {
    "statement": ("GET /c/MILL01/statement", MILL_KEY, "postings",
                  lambda n, day: {"no": 1_000 + n, "account": "C:MILL01", "value_day": day, "cents": -100, "cause": "cut",
                                  "ref": f"PAYROLL-{n:07}", "idx": 0},
                  '{"cause":"cut","cents":-100,"day":"2025-01-08","index":0,"ref":"PAYROLL-0000001"},'),
    "returns": ("GET /c/MILL01/returns", MILL_KEY, "returns",
                lambda n, day: {"no": n, "company": "MILL01", **place(n), "code": "R01", "day": day, "late": 0, "info": INFO.ljust(44)},
                f'{{"code":"R01","day":"2025-01-08","index":100,"info":"{INFO}","late":false,"ref":"PAY-100"}},'),
    "changes": ("GET /c/MILL01/changes", MILL_KEY, "changes",
                lambda n, day: {"no": n, "company": "MILL01", **place(n), "code": "C01", "day": day, "text": "1234567890".ljust(29)},
                '{"code":"C01","day":"2025-01-08","index":100,"ref":"PAY-100","text":"1234567890                   "},'),
    "suspense": ("GET /ops/suspense", OPERATOR_KEY, "suspense",
                 lambda n, day: {"no": n, "file_key": "250108081500A06100014", "item": n, "why": "NoTrace", "code": "R01",
                                 "trace": "091000010000007", "cents": 100, "day": day},
                 '{"cents":100,"code":"R01","day":"2025-01-08","file":"250108081500A06100014","item":100000,'
                 '"trace":"091000010000007","why":"NoTrace"},'),
}


def asked(serving, sent):
    """The answer to a message on a connection of its own."""
    with connect(serving.port) as it, it.makefile("rb") as reader:
        it.sendall(sent)
        return read_answer(reader)


def resident(serving, what):
    """The memory that is resident, or the most that was, in megabytes."""
    status = Path(f"/proc/{serving.process.pid}/status").read_text()
    return int(re.search(rf"{what}:\s+(\d+)", status)[1]) * 1024 / 1e6


def desk_in(program, path):
    first = path.with_suffix(".first")
    make_desk(program, first)
    with Serving(program, first).listen() as serving:
        for sent in SETUP:
            if status_of(asked(serving, sent)) not in (200, 201):
                sys.exit(f"the desk was not made: {sent}")
    write_copy(first, path)


def write_rows(db, table, rows):
    """Writes rows that are dictionaries."""
    columns = [column for _, column, *_ in db.execute(f"PRAGMA table_info({table})")]
    values = (tuple(row[column] for column in columns) for row in rows)
    db.executemany(f"INSERT INTO {table} VALUES ({', '.join('?' * len(columns))})", values)


def write_submissions(db, last):
    """Writes the submission again, under more references."""
    columns = [column for _, column, *_ in db.execute("PRAGMA table_info(submissions)")]
    first = dict(zip(columns, db.execute("SELECT * FROM submissions").fetchone()))
    write_rows(db, "submissions", ({**first, "ord": n, "ref": f"PAY-{n}"} for n in range(2, last + 1)))


def filled(path, name, size):
    """Writes the rows, and gives what is asked then."""
    with closing(sqlite3.connect(path, isolation_level=None)) as db:
        day = db.execute("SELECT day FROM desk").fetchone()[0]
        db.execute("BEGIN")
        if name == "file":
            db.execute("UPDATE files SET text = ?", (RECORD * (size // len(RECORD)),))
            asks = message("GET /ops/files/2025-01-08/A")
        else:
            what, key, table, row, line = ROWS[name]
            count = size // len(line)
            write_submissions(db, 1 + count // MOST_ENTRIES)
            write_rows(db, table, (row(n, day) for n in range(1, count + 1)))
            asks = message(what, key=key)
        db.execute("COMMIT")
    return asks


def peak_of(serving, asks):
    """The answer, and the most memory that it took."""
    Path(f"/proc/{serving.process.pid}/clear_refs").write_text("5")
    before = resident(serving, "VmRSS")
    came = asked(serving, asks)
    return came, resident(serving, "VmHWM") - before


def measured(program, work, name, size):
    """Asks twice for one large body; says whether it was whole and small enough."""
    path = work / f"{name}.db"
    desk_in(program, path)
    asks = filled(path, name, size)
    passed = True
    with Serving(program, path, environment=ENVIRONMENT).listen() as serving:
        for time, bound in zip(("first", "second"), BOUNDS[name]):
            came, peak = peak_of(serving, asks)
            body = len(came) / 1e6
            print(f"{name}, {time} answer: a body of {body:.1f} MB, a peak of {peak:.1f} MB more, {peak / body:.2f} times", flush=True)
            passed &= status_of(came) == 200 and body > 0.9 * size / 1e6 and peak <= bound * body
    return passed


def survived(program, work, name):
    """Sends one hostile body; says whether it was refused and took little enough."""
    path = work / "hostile.db"
    if not path.exists():
        desk_in(program, path)
    sent = message("POST /c/MILL01/submissions", hostile_body(*HOSTILE[name]), MILL_KEY)
    with Serving(program, path, environment=ENVIRONMENT).listen() as serving:
        came, peak = peak_of(serving, sent)
    size = len(sent) / 1e6
    print(f"{name}: {size:.1f} MB sent, answered {status_of(came)}, a peak of {peak:.1f} MB more, {peak / size:.1f} times", flush=True)
    return status_of(came) == 422 and peak <= MOST * size


def main():
    program = program_of(sys.argv[1:])
    size = int(sys.argv[2] if len(sys.argv) > 2 else 50) * 1_000_000
    with tempfile.TemporaryDirectory() as work:
        done = [measured(program, Path(work), name, size) for name in BOUNDS]
        done += [survived(program, Path(work), name) for name in HOSTILE]
    sys.exit(0 if all(done) else 1)


main()
