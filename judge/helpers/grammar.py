"""What a file of ACH returns and notifications of change is, and the first fault of any other bytes.

This is a second reading of the file rules, written apart from the program so that the two can be
compared. It prefers plain sentences over speed: each question is asked of the records that stand
before the one in question.

A place is a byte of the input, or its end. A fault is told at the first place at which it can be
told, from the bytes up to that place alone, and names the record, from 1, in which the place stands.
"""

MOST_BYTES = 4_194_304
WIDTH = 94
FILLER = b"9" * WIDTH
LF, CR = 0x0A, 0x0D

# The digit fields of each kind of record: first and last position, from 1.
DIGIT_FIELDS = {
    "entry": [(2, 3), (4, 11), (30, 39)],
    "payment": [(84, 87), (88, 94)],
    "batch control": [(5, 10), (11, 20), (21, 32), (33, 44)],
    "file control": [(2, 7), (8, 13), (14, 21), (22, 31), (32, 43), (44, 55)],
}


def field(record, first, last):
    """The text at these positions, from 1, both included."""
    return record[first - 1 : last]


def number(record, first, last):
    return int(field(record, first, last))


def is_digits(text):
    return all(0x30 <= byte <= 0x39 for byte in text)


def kind(record):
    """What a record is by its first characters; None where nothing begins so."""
    if record == FILLER:
        return "filler"
    first = record[:1]
    if first == b"7":
        types = {b"05": "payment", b"98": "change", b"99": "return"}
        return types.get(field(record, 2, 3), "other addenda")
    kinds = {
        b"1": "file header",
        b"5": "batch header",
        b"6": "entry",
        b"8": "batch control",
        b"9": "file control",
    }
    return kinds.get(first)


ADDENDA = ("payment", "change", "return", "other addenda")


def wanted_after(kinds):
    """The kinds that the order of a file allows after records of these kinds."""
    if not kinds:
        return ("file header",)
    last = kinds[-1]
    if last in ("file control", "filler"):
        return ("filler",)
    if last in ("file header", "batch control"):
        return ("batch header", "file control")
    if last in ("batch header", "change", "return"):
        return ("entry", "batch control")
    assert last == "entry"
    return ("change", "return")


def is_bad_addenda(record, before, kinds):
    """An entry without its addenda, a second addenda, one of another type, or money with a change."""
    this = kind(record)
    last = kinds[-1] if kinds else None
    if this in ("entry", "batch control") and last == "entry":
        return True
    if this in ADDENDA and last in ADDENDA:
        return True
    if this in ("payment", "other addenda"):
        return True
    return this == "change" and last == "entry" and number(before[-1], 30, 39) != 0


def is_bad_order(record, before, kinds):
    return kind(record) not in wanted_after(kinds) and not is_bad_addenda(record, before, kinds)


def has_bad_number(record):
    fields = DIGIT_FIELDS.get(kind(record), [])
    return any(not is_digits(field(record, first, last)) for first, last in fields)


def is_forward(record):
    return kind(record) == "entry" and field(record, 3, 3) not in (b"1", b"6")


def entries_of(records):
    return [record for record in records if kind(record) == "entry"]


def count(records):
    """How many entries and addenda there are."""
    return sum(kind(record) == "entry" or kind(record) in ADDENDA for record in records)


def entry_hash(records):
    return sum(number(entry, 4, 11) for entry in entries_of(records)) % 10**10


def debits(records):
    return sum(number(e, 30, 39) for e in entries_of(records) if field(e, 3, 3) in b"56789")


def credits(records):
    return sum(number(e, 30, 39) for e in entries_of(records) if field(e, 3, 3) in b"1234")


def batches_of(records):
    """The records of each batch, header and control included."""
    batches = []
    for record in records:
        if kind(record) == "batch header":
            batches.append([])
        if kind(record) not in ("file header", "file control", "filler"):
            batches[-1].append(record)
    return batches


def batch_fault(control, before):
    batch = batches_of(before)[-1]
    if number(control, 5, 10) != count(batch):
        return "BadCount"
    if number(control, 11, 20) != entry_hash(batch):
        return "BadHash"
    if number(control, 21, 32) != debits(batch) or number(control, 33, 44) != credits(batch):
        return "BadTotal"
    return None


def file_fault(control, before):
    batches = batches_of(before)
    if number(control, 2, 7) != len(batches) or number(control, 14, 21) != count(before):
        return "BadCount"
    if number(control, 22, 31) != sum(entry_hash(batch) for batch in batches) % 10**10:
        return "BadHash"
    if number(control, 32, 43) != debits(before) or number(control, 44, 55) != credits(before):
        return "BadTotal"
    if number(control, 8, 13) != (len(before) + 1 + 9) // 10:
        return "BadBlock"
    return None


def record_fault(record, before, kinds):
    """The first fault that can be told at the last byte of a record, behind records without any."""
    if is_bad_order(record, before, kinds):
        return "BadOrder"
    if has_bad_number(record):
        return "BadNumber"
    if is_forward(record):
        return "ForwardEntry"
    if is_bad_addenda(record, before, kinds):
        return "BadAddenda"
    if kind(record) == "batch control":
        return batch_fault(record, before)
    if kind(record) == "file control":
        return file_fault(record, before)
    return None


def layout(data):
    """Where the records begin, the last of them perhaps cut short, and where the tail begins.

    Behind a record one LF or one CR LF is skipped if it is there; a CR or LF that follows then begins
    the tail, which goes to the end. Without a tail, its place is the end.
    """
    starts, at = [], 0
    while at < len(data):
        starts.append(at)
        at += WIDTH
        if data[at : at + 1] == b"\n":
            at += 1
        elif data[at : at + 2] == b"\r\n":
            at += 2
        if data[at : at + 1] in (b"\n", b"\r"):
            return starts, at
    return starts, len(data)


def first_fault(data):
    """The first bad place but for the size: (place, fault, record), or None; and the good records."""
    starts, tail = layout(data)
    before, kinds = [], []
    for index, start in enumerate(starts):
        record = data[start : start + WIDTH]
        for offset, byte in enumerate(record):
            if byte in (LF, CR):
                return (start + offset, "BadLength", index + 1), before
            if not 0x20 <= byte <= 0x7E:
                return (start + offset, "BadByte", index + 1), before
        if len(record) < WIDTH:
            return (len(data), "BadLength", index + 1), before
        fault = record_fault(record, before, kinds)
        if fault is not None:
            return (start + WIDTH - 1, fault, index + 1), before
        before.append(record)
        kinds.append(kind(record))
    for place in range(tail, len(data)):
        if data[place] not in (LF, CR):
            return (place, "BadLength", len(starts)), before
    if "file control" not in kinds:
        return (len(data), "BadOrder", len(starts) + 1), before
    return None, before


def record_at(data, place):
    """The record in which a byte stands: line ends and the tail stand in the record before them."""
    starts, _ = layout(data)
    return sum(start <= place for start in starts)


def check(data):
    """("ok", returns, changes), or (fault, record)."""
    fault, records = first_fault(data[:MOST_BYTES] if len(data) > MOST_BYTES else data)
    if len(data) > MOST_BYTES and (fault is None or fault[0] >= MOST_BYTES):
        return "TooLarge", record_at(data[: MOST_BYTES + 1], MOST_BYTES)
    if fault is not None:
        return fault[1], fault[2]
    kinds = [kind(record) for record in records]
    return "ok", kinds.count("return"), kinds.count("change")


def answer(data):
    """The line that is printed for these bytes."""
    told = check(data)
    if told[0] == "ok":
        return f"ok {told[1]} returns {told[2]} changes"
    return f"{told[0]} at record {told[1]}"
