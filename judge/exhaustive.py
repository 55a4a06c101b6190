"""Compares a program with the oracle on whole families of small files: `python3 exhaustive.py PROGRAM [FOLDER]`.

The families: each kind of record behind each other, with each line end between; each short run of
odd bytes behind a record; each set of faults in one record; each front of a file; each place at
which a file may grow too large. Files that disagree are kept in FOLDER.
"""

import itertools
import multiprocessing
import os
import sys
import tempfile

from helpers.files import FILLER, batch_control, blanks, control_file, digits, entry, file_control, put
from helpers.grammar import DIGIT_FIELDS, MOST_BYTES, WIDTH, kind
from judge import JOBS, compared

MONEY, NOTHING = ("26", "12104288", 2500), ("21", "09100001", 0)
HEADER, BATCH = blanks(b"101"), blanks(b"5225")
RETURN, CHANGE = blanks(b"799R01"), blanks(b"798C01")


def entry_of(facts):
    return entry(None, *facts, True)


def control_of(entries):
    return batch_control(None, 2 * len(entries), entries, True)


def end_of(batches, entries, records):
    return file_control(None, batches, 2 * len(entries), entries, records, True)


# Good fronts of files, each ending in another state of the order.
OPEN = [HEADER, BATCH, entry_of(MONEY), RETURN]
CLOSED = OPEN + [control_of([MONEY])]
DONE = CLOSED + [end_of(1, [MONEY], 6)]
FRONTS = [
    [],
    [HEADER],
    [HEADER, BATCH],
    OPEN[:3],
    OPEN,
    [HEADER, BATCH, entry_of(NOTHING)],
    [HEADER, BATCH, entry_of(NOTHING), CHANGE],
    CLOSED,
    [HEADER, BATCH, control_of([])],
    DONE,
    DONE + [FILLER],
]


def nexts(front):
    """A record of each kind, right and wrong, to stand behind a front."""
    entries = [MONEY if number == b"0000002500" else NOTHING for number in (r[29:39] for r in front if kind(r) == "entry")]
    batches = sum(kind(record) == "batch header" for record in front)
    yield from (HEADER, BATCH, RETURN, CHANGE, FILLER, b" " * WIDTH, blanks(b"2"), b"8" * WIDTH, FILLER[:-1] + b"8")
    yield from (blanks(b"705"), blanks(b"705")[:83] + b"00010000001", blanks(b"797"), blanks(b"7"), b"9" + b"0" * 93)
    for code in ("26", "21", "22", "27", "96", "x6", "2x", "20"):
        yield entry_of((code, "12104288", 1))
    yield put(entry_of(MONEY), 30, b" ")
    yield control_of(entries)
    yield control_of(entries + [MONEY])
    yield end_of(batches, entries, len(front) + 1)
    yield end_of(batches, entries, len(front) + 11)
    yield end_of(batches + 1, entries, len(front) + 1)


def behind_each_other():
    ends = [b"", b"\n", b"\r\n", b"\r", b"\n\n", b"\r\n\r\n", b"\n\r", b"\r\r\n", b" "]
    for front in FRONTS:
        start = b"".join(record + b"\n" for record in front[:-1]) + (front[-1] if front else b"")
        for end in ends if front else [b"", b"\n", b"\r", b"\r\n"]:
            yield start + end
            for record in nexts(front):
                yield start + end + record
                yield start + end + record + b"\r\n" + FILLER


def odd_bytes():
    for front in (FRONTS[0], FRONTS[1], CLOSED, DONE, DONE + [FILLER]):
        start = b"\r\n".join(front)
        for length in range(5):
            for run_of in itertools.product(b"\n\r \x7f9", repeat=length):
                yield start + bytes(run_of)
                if length < 4:
                    yield start + bytes(run_of) + FILLER


def subsets(items):
    return itertools.chain.from_iterable(itertools.combinations(items, n) for n in range(len(items) + 1))


def faults_together():
    """Each set of fields of a record off by one, or with a character that is no digit."""
    seconds = [("22", 1), ("26", 1)]
    records = [
        (CLOSED[:-1], CLOSED[-1]),
        (DONE[:-1], DONE[-1]),
        (OPEN[:3], control_of([MONEY])),
        (OPEN[:3], end_of(1, [MONEY], 4)),
        (OPEN, end_of(1, [MONEY], 5)),
        ([HEADER], control_of([])),
    ]
    records += [(front, entry_of((code, "12104288", cents))) for front in FRONTS for code, cents in seconds]
    for front, record in records:
        for fields in subsets(DIGIT_FIELDS[kind(record)]):
            for odd in (None, *fields):
                spoiled = record
                for first, last in fields:
                    old = int(record[first - 1 : last])
                    text = digits(old + 1, last - first + 1)
                    spoiled = put(spoiled, first, b"x" + text[1:] if (first, last) == odd else text)
                yield b"\n".join(front + [spoiled])


def fronts_of_files():
    data = control_file([[MONEY, MONEY], []])
    for end in (b"\n", b"\r\n", b"", b"\r"):
        whole = data.replace(b"\n", end)
        for length in range(len(whole) + 1):
            yield whole[:length]


def too_large():
    """The byte past the limit at each kind of place: in a record, at its ends, in line ends, in the tail."""
    start = b"".join(record + b"\n" for record in DONE)
    for end in (b"\n", b"\r\n", b""):
        # A few records with another line end, so that so many bytes are left behind whole records.
        other = FILLER + (b"" if end == b"\n" else b"\n")
        unit = FILLER + end
        for short in (0, 1, 2, 93, 94, 95):
            rest = MOST_BYTES - short - len(start)
            few = next(n for n in range(100) if (rest - len(other) * n) % len(unit) == 0)
            body = start + other * few + unit * ((rest - len(other) * few) // len(unit))
            for tail in (FILLER + end + FILLER + end, FILLER + b"\r" + FILLER, b"\n" * 200, b"\r\n" * 100):
                yield (body + tail)[: MOST_BYTES + 1]


FAMILIES = [behind_each_other, odd_bytes, faults_together, fronts_of_files, too_large]


def judge(task):
    program, scratch, folder, name, data = task
    wanted, said = compared(program, scratch, folder, name, data)
    return None if said is None else f"{folder}/{name}.ach: wanted {wanted!r}, got {said}"


def main():
    if len(sys.argv) not in (2, 3):
        sys.exit(__doc__)
    program, wrong = os.path.abspath(sys.argv[1]), 0
    folder = sys.argv[2] if len(sys.argv) > 2 else "disagreements"
    with tempfile.TemporaryDirectory() as scratch, multiprocessing.Pool(JOBS) as pool:
        for family in FAMILIES:
            tasks = ((program, scratch, folder, f"{family.__name__}-{i}", data) for i, data in enumerate(family()))
            files = 0
            for said in pool.imap_unordered(judge, tasks, chunksize=16):
                files += 1
                if said is not None:
                    wrong += 1
                    print(said, flush=True)
            print(f"{family.__name__}: {files} files", flush=True)
    print(f"{wrong} disagreements")
    sys.exit(wrong != 0)


if __name__ == "__main__":
    main()
