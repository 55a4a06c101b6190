"""The oracle on files whose answers are known: `python3 samples.py` says nothing where all agree."""

import sys

from helpers.grammar import MOST_BYTES, answer, check

NINES = "9" * 94

# A blank is shown as `.`.
ENTRY_FILE = [
    "101.061000146.121042882250108....A094101ACH.OPERATOR...........OUR.BANK.......................",
    "5220MILL.STREET.........................MILL01....PPDPAYROLL.........250110...1121042880000001",
    "622091000019123456789........0000150000E1.............ANN.LEE.................0121042880000001",
    "82200000010009100001000000000000000000150000MILL01.............................121042880000001",
    "9000001000001000000010009100001000000000000000000150000.......................................",
]
RETURN_FILE = [
    "101.121042882.0610001462501140930A094101OUR.BANK...............ACH.OPERATOR...................",
    "5225MILL.STREET.........................MILL01....PPDDUES............2501140141091000010000001",
    "626121042882123456789........0000002500E2.............BOB.RAY.................1091000010000007",
    "799R01121042880000001......09100001............................................091000010000007",
    "82250000020012104288000000002500000000000000MILL01.............................091000010000001",
    "9000001000001000000020012104288000000002500000000000000.......................................",
]


def records(lines, fillers):
    return [line.replace(".", " ").encode() for line in lines] + [NINES.encode()] * fillers


def text(records, end=b"\n"):
    return b"".join(record + end for record in records)


ENTRIES = records(ENTRY_FILE, 5)
RETURNS = records(RETURN_FILE, 4)


def with_record(index, old, new):
    """The file of returns, with a text changed in the record of this number."""
    changed = list(RETURNS)
    assert changed[index - 1].count(old) == 1, (index, old)
    changed[index - 1] = changed[index - 1].replace(old, new)
    return text(changed)


def empty_file(blocks):
    header = RETURNS[0]
    return text([header, b"9" + b"0" * 6 + blocks + b"0" * 42 + b" " * 39])


def samples():
    good = "ok 1 returns 0 changes"
    sample = text(RETURNS)
    yield sample, good
    yield text(RETURNS, b"\r\n"), good
    yield text(RETURNS, b""), good
    yield text(RETURNS[:6]), good
    yield sample[: 2 * 95 + 40], "BadLength at record 3"
    yield sample[: 3 * 95], "BadOrder at record 4"
    yield with_record(5, b"0012104288", b"0012104289"), "BadHash at record 5"
    yield text(ENTRIES), "ForwardEntry at record 3"
    yield b"", "BadOrder at record 1"
    yield empty_file(b"000001"), "ok 0 returns 0 changes"
    yield empty_file(b"000002"), "BadBlock at record 2"
    yield with_record(5, b"000000002500", b"000000002501"), "BadTotal at record 5"
    yield with_record(4, b"R01", b"R\x7f1"), "BadByte at record 4"
    yield b" " * (MOST_BYTES + 1), "BadOrder at record 1"
    yield sample + b"\n" * (MOST_BYTES - len(sample)), good
    yield sample + b"\n" * (MOST_BYTES + 1 - len(sample)), "TooLarge at record 10"


def prefixes():
    """Each front of the file of returns, with its answer."""
    sample = text(RETURNS)
    assert len(sample) == 950
    accepted = {569, 570, 664, 665, 759, 760, 854, 855, 949, 950}
    missing = {0: 1}
    for k in range(1, 6):
        missing[95 * k - 1] = missing[95 * k] = k + 1
    for length in range(951):
        if length in accepted:
            wanted = "ok 1 returns 0 changes"
        elif length in missing:
            wanted = f"BadOrder at record {missing[length]}"
        else:
            wanted = f"BadLength at record {length // 95 + 1}"
        yield sample[:length], wanted


def hashes():
    """Entries to two banks, and a hash that is cut to its low ten digits."""
    from helpers.files import control_file

    two = control_file([[("21", "09100001", 0), ("21", "02100002", 0)]])
    assert b"0011200003" in two, "the hash of two banks"
    yield two, "ok 2 returns 0 changes"
    many = control_file([[("26", "12104288", 1)] * 1000])
    assert b"2104288000" in many and many.count(b"8225002000" + b"2104288000") == 1
    yield many, "ok 1000 returns 0 changes"


def main():
    failed = 0
    for cases in (samples(), prefixes(), hashes()):
        for data, wanted in cases:
            told = answer(data)
            if told != wanted:
                failed += 1
                print(f"{len(data)} bytes: {told}, wanted {wanted}")
    counts = {}
    for data, _ in prefixes():
        counts[check(data)[0]] = counts.get(check(data)[0], 0) + 1
    if counts != {"ok": 10, "BadOrder": 11, "BadLength": 930}:
        failed += 1
        print(counts)
    sys.exit(failed != 0)


if __name__ == "__main__":
    main()
