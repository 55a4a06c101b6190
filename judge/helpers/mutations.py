"""Changes to a good file, each of which spoils one thing and leaves as much as it can in order.

A mutation takes a random generator and a `File` and changes it; one that finds nothing to change
leaves the file as it is. `spoiled` gives the bytes of a file after some of them.
"""

from helpers.files import FILLER, WIDTH, digits, dfi, good_file, line_ends, noise, put, sums
from helpers.grammar import ADDENDA, DIGIT_FIELDS, MOST_BYTES, kind

ODD_BYTES = [0x0A, 0x0D, 0x00, 0x1F, 0x7F, 0x80, 0xFF, 0x09, 0x1A]
KEY_BYTES = list(b"0123456789 ~A")


def places(file, *kinds):
    """Where records of these kinds stand; of any kind without one."""
    return [i for i, r in enumerate(file.records) if len(r) == WIDTH and (not kinds or kind(r) in kinds)]


def some(rng, items):
    return rng.choice(items) if items else None


def set_field(file, index, first, text):
    file.records[index] = put(file.records[index], first, text)


def number(record, first, last):
    text = record[first - 1 : last]
    return int(text) if text.isdigit() else 0


# Bytes.


def change_byte(rng, file):
    index = some(rng, places(file))
    if index is not None:
        byte = rng.choice(ODD_BYTES + KEY_BYTES * 2)
        at = rng.choice([0, 1, 2, 92, 93, rng.randrange(WIDTH)])
        set_field(file, index, at + 1, bytes([byte]))


def insert_byte(rng, file):
    index = some(rng, places(file))
    if index is not None:
        at = rng.choice([0, WIDTH, rng.randrange(WIDTH)])
        record = file.records[index]
        file.records[index] = record[:at] + bytes([rng.choice(ODD_BYTES + KEY_BYTES)]) + record[at:]


def drop_byte(rng, file):
    index = some(rng, places(file))
    if index is not None:
        at = rng.choice([0, WIDTH - 1, rng.randrange(WIDTH)])
        record = file.records[index]
        file.records[index] = record[:at] + record[at + 1 :]


# Records.


def drop_record(rng, file):
    index = some(rng, range(len(file.records)))
    if index is not None:
        del file.records[index]
        file.ends = file.ends[: len(file.records)]


def double_record(rng, file):
    index = some(rng, range(len(file.records)))
    if index is not None:
        file.records.insert(index, file.records[index])
        file.ends.insert(index, some(rng, file.ends) or b"")


def swap_records(rng, file):
    if len(file.records) > 1:
        a = rng.randrange(len(file.records) - 1)
        b = rng.choice([a + 1, rng.randrange(len(file.records))])
        file.records[a], file.records[b] = file.records[b], file.records[a]


def new_record(rng):
    first = rng.choice([b"1", b"5", b"6", b"705", b"798", b"799", b"7", b"8", b"9", b"2", b"0", b" "])
    record = rng.choice([FILLER, noise(rng, first), noise(rng, first)])
    if first == b"705" and rng.random() < 0.5:
        record = put(record, 84, b"00010000001")
    return record


def insert_record(rng, file):
    index = rng.randrange(len(file.records) + 1)
    file.records.insert(index, new_record(rng))
    file.ends.insert(index, some(rng, file.ends) or b"")


def move_records(rng, file):
    """A run of records moved or doubled, as a whole batch may be."""
    if file.records:
        start = rng.randrange(len(file.records))
        run = file.records[start : start + rng.randrange(1, 7)]
        if rng.random() < 0.5:
            del file.records[start : start + len(run)]
        at = rng.randrange(len(file.records) + 1)
        file.records[at:at] = run
        file.ends = line_ends(rng, len(file.records)) if rng.random() < 0.3 else file.ends


def change_kind(rng, file):
    index = some(rng, places(file))
    if index is not None:
        set_field(file, index, 1, rng.choice([b"1", b"5", b"6", b"7", b"8", b"9", b"0", b"A"]))


def change_addenda(rng, file):
    """Another type of addenda, with or without the digits that an addenda 05 has."""
    index = some(rng, places(file, "change", "return"))
    if index is not None:
        set_field(file, index, 2, rng.choice([b"05", b"05", b"98", b"99", b"97", b"9 ", b"00"]))
        if rng.random() < 0.5:
            set_field(file, index, 84, digits(rng.randrange(10**11), 11))


# Numbers.


def change_digit(rng, file):
    """A digit field gets another digit, or a character that is none."""
    index = some(rng, [i for i in places(file) if kind(file.records[i]) in DIGIT_FIELDS])
    if index is not None:
        first, last = rng.choice(DIGIT_FIELDS[kind(file.records[index])])
        text = rng.choice([b"0", b"1", b"9", b" ", b"/", b":", digits(rng.randrange(10), 1)])
        set_field(file, index, rng.randint(first, last), text)


def add_one(rng, file):
    """A field of a control gets one more or one less, or a unit at another digit."""
    index = some(rng, places(file, "batch control", "file control"))
    if index is not None:
        first, last = rng.choice(DIGIT_FIELDS[kind(file.records[index])])
        step = rng.choice([1, 1, 1, -1, 10, 10 ** (last - first)])
        old = number(file.records[index], first, last)
        set_field(file, index, first, digits(old + step, last - first + 1))


def same_in_both(rng, file):
    """One step in the last batch control and in the file control, so that these two agree."""
    batch, whole = some(rng, places(file, "batch control")), some(rng, places(file, "file control"))
    if batch is None or whole is None:
        return
    ours, theirs, width = rng.choice([(5, 14, 6), (11, 22, 10), (21, 32, 12), (33, 44, 12)])
    step = rng.choice([1, -1, 2, 100])
    for index, first, size in ((batch, ours, width), (whole, theirs, 8 if width == 6 else width)):
        old = number(file.records[index], first, first + size - 1)
        set_field(file, index, first, digits(old + step, size))


def swap_totals(rng, file):
    """Debits in the place of credits, in one control or in all."""
    controls = places(file, "batch control", "file control")
    one = some(rng, controls)
    for index in controls if rng.random() < 0.5 else [one] * (one is not None):
        record = file.records[index]
        first = 21 if kind(record) == "batch control" else 32
        both = record[first + 11 : first + 23] + record[first - 1 : first + 11]
        set_field(file, index, first, both)


def other_hash(rng, file):
    """A hash of nine digits, of the high ten, or of the check digits too."""
    index = some(rng, places(file, "batch control", "file control"))
    if index is not None:
        first = 11 if kind(file.records[index]) == "batch control" else 22
        entries = [file.records[i] for i in places(file, "entry")]
        way = rng.randrange(3)
        total = sum(number(e, 4, 12 if way == 2 else 11) for e in entries)
        text = digits(total % 10**9, 10) if way == 0 else str(total).ljust(10, "0")[:10].encode()
        set_field(file, index, first, text)


def change_entry(rng, file):
    """Another code, bank or amount in an entry; the controls say the old one, or the new one too."""
    index = some(rng, places(file, "entry"))
    if index is None:
        return
    way = rng.randrange(4)
    if way == 0:
        set_field(file, index, 2, rng.choice([b"21", b"26", b"22", b"27", b"20", b"96", b"01", b"2 "]))
    elif way == 1:
        text = dfi(rng)
        set_field(file, index, 4, text.encode())
    else:
        set_field(file, index, 30, digits(rng.choice([0, 1, rng.randrange(10**10)]), 10))
    if rng.random() < 0.6:
        right_controls(rng, file)


def money_with_a_change(rng, file):
    pairs = [i for i in places(file, "change") if i and kind(file.records[i - 1]) == "entry"]
    index = some(rng, pairs)
    if index is not None:
        set_field(file, index - 1, 30, digits(rng.choice([1, rng.randrange(10**10)]), 10))
        right_controls(rng, file)


def right_controls(rng, file):
    """Every control as its records want it, but for one field at times."""
    batch, whole, batches, count, all_count = [], [], 0, 0, 0
    for index in places(file):
        record = file.records[index]
        this = kind(record)
        if this == "batch header":
            batch, batches, count = [], batches + 1, 0
        elif this == "entry" and all(t.isdigit() for t in (record[1:3], record[3:11], record[29:39])):
            batch.append((record[1:3].decode(), record[3:11].decode(), number(record, 30, 39)))
            count, all_count = count + 1, all_count + 1
        elif this in ADDENDA:
            count, all_count = count + 1, all_count + 1
        elif this == "batch control":
            set_field(file, index, 5, digits(count, 6) + sums(batch))
            whole += batch
        elif this == "file control":
            blocks = (index + 10) // 10
            numbers = digits(batches, 6) + digits(blocks, 6) + digits(all_count, 8)
            set_field(file, index, 2, numbers + sums(whole))
    if rng.random() < 0.3:
        add_one(rng, file)


def other_blocks(rng, file):
    """A block count of the records before the control, of all records, or rounded down."""
    index = some(rng, places(file, "file control"))
    if index is not None:
        through = index + 1
        count = rng.choice([through // 10, (through + 8) // 10, (len(file.records) + 9) // 10, through // 10 + 1])
        set_field(file, index, 8, digits(count, 6))


def two_faults(rng, file):
    """An entry without its addenda, and a second fault in the record behind it."""
    index = some(rng, places(file, "change", "return"))
    if index is None or index + 1 >= len(file.records):
        return
    del file.records[index]
    file.ends = file.ends[: len(file.records)]
    fields = DIGIT_FIELDS.get(kind(file.records[index]), [(3, 3)])
    first, last = rng.choice(fields + [(3, 3)])
    set_field(file, index, rng.randint(first, last), rng.choice([b"2", b"7", b"x", b" ", b"0"]))


def repaired(rng, file):
    """Records moved about, with controls that agree with what is there now."""
    rng.choice([drop_record, double_record, swap_records, move_records])(rng, file)
    right_controls(rng, file)


# Line ends, fillers, tails and ends.


def change_ends(rng, file):
    file.ends = line_ends(rng, len(file.records))


def odd_end(rng, file):
    index = some(rng, range(len(file.ends)))
    if index is not None:
        file.ends[index] = rng.choice([b"\r", b"\n\n", b"\r\n\n", b"\n\r\n", b"\r\r", b"\n\r", b"\r\r\n", b" ", b"\n ", b""])


def change_fillers(rng, file):
    count = rng.choice([-1, 1, 1, rng.randrange(-12, 12)])
    if count < 0:
        for _ in range(-count):
            if file.records and file.records[-1] == FILLER:
                file.records.pop()
                file.ends = file.ends[: len(file.records)]
    else:
        file.records += [FILLER] * count
        file.ends += [some(rng, file.ends) or b""] * count


def spoil_filler(rng, file):
    index = some(rng, places(file, "filler"))
    if index is not None:
        at = rng.choice([1, WIDTH, rng.randrange(1, WIDTH + 1)])
        set_field(file, index, at, rng.choice([b"8", b" ", b"0", b"\n", b"\x7f"]))


def filler_inside(rng, file):
    index = rng.randrange(len(file.records) + 1)
    if rng.random() < 0.5 and index < len(file.records):
        file.records[index] = FILLER
    else:
        file.records.insert(index, FILLER)
        file.ends.insert(index, some(rng, file.ends) or b"")


def append_tail(rng, file):
    choices = [b"\n", b"\r", b"\r\n", b" ", b"9", b"1", b"\x00", b"\x7f", FILLER, FILLER + b"\n", noise(rng, b"9"), noise(rng, b"5")]
    file.tail += b"".join(rng.choice(choices) for _ in range(rng.randrange(1, 5)))


MUTATIONS = [
    change_byte, change_byte, insert_byte, drop_byte,
    drop_record, double_record, swap_records, insert_record, move_records, change_kind, change_addenda, change_addenda,
    change_digit, change_digit, add_one, add_one, add_one, same_in_both, swap_totals, other_hash,
    other_blocks, two_faults, change_entry, change_entry, money_with_a_change, repaired, repaired,
    change_ends, odd_end, odd_end, change_fillers, spoil_filler, filler_inside, append_tail,
]


def cut(rng, data):
    """A front of the bytes, often cut at a record's end or beside it."""
    near = [WIDTH, WIDTH + 1, WIDTH + 2]
    at = rng.randrange(len(data) + 1)
    if rng.random() < 0.5:
        at = rng.choice(near) * rng.randrange(12) + rng.randrange(-1, 2)
    return data[: max(0, min(at, len(data)))]


def at_the_limit(rng, file):
    """A file of about as many bytes as one may have."""
    data = file.bytes()
    size = MOST_BYTES + rng.choice([-1, 0, 0, 1, 1, 2, 95, rng.randrange(-200, 200)])
    if rng.random() < 0.5:
        return (data + rng.choice([b"\n", b"\r", b"\r\n"]) * size)[:size]
    filler = FILLER + rng.choice([b"\n", b"\r\n", b""])
    return (data + filler * (size // len(filler) + 1))[:size]


def spoiled(rng):
    """The bytes of a file: good, or with some things changed, or none at all."""
    file = good_file(rng)
    if rng.random() < 0.002:
        return at_the_limit(rng, file)
    for _ in range(rng.choice([0, 1, 1, 1, 1, 1, 2, 2, 3])):
        rng.choice(MUTATIONS)(rng, file)
    data = file.bytes()
    if rng.random() < 0.08:
        data = cut(rng, data)
    return data
