"""Files of returns and notifications of change that are right in every respect.

A `File` is a list of records with the line end behind each, so that a mutation can change one and
leave the others.
"""

from dataclasses import dataclass, field as default

PRINTABLE = bytes(range(0x20, 0x7F))
WIDTH = 94
FILLER = b"9" * WIDTH


@dataclass
class File:
    records: list
    ends: list = default(default_factory=list)
    tail: bytes = b""

    def bytes(self):
        ends = self.ends + [b""] * (len(self.records) - len(self.ends))
        return b"".join(r + e for r, e in zip(self.records, ends)) + self.tail

    def copy(self):
        return File(list(self.records), list(self.ends), self.tail)


def put(record, first, text):
    """The record with a text from this position, from 1."""
    return record[: first - 1] + text + record[first - 1 + len(text) :]


def digits(number, width):
    """The low digits of a number."""
    return str(number % 10**width).zfill(width).encode()


def noise(rng, first):
    """A record of any text behind its first characters."""
    return first + bytes(rng.choices(PRINTABLE, k=WIDTH - len(first)))


def blanks(first):
    return first + b" " * (WIDTH - len(first))


def body(rng, first, plain):
    return blanks(first) if plain else noise(rng, first)


def entry(rng, code, dfi, cents, plain):
    record = put(body(rng, b"6", plain), 2, code.encode())
    record = put(record, 4, dfi.encode())
    return put(record, 30, digits(cents, 10))


def batch_control(rng, count, entries, plain):
    """The control of a batch with entries (code, bank, cents)."""
    record = body(rng, b"8", plain)
    record = put(record, 5, digits(count, 6))
    return put(record, 11, sums(entries))


def sums(entries):
    """Hash, debits and credits of entries, as controls write them."""
    hash_ = sum(int(dfi) for _, dfi, _ in entries)
    debits = sum(cents for code, _, cents in entries if code[1] in "56789")
    credits = sum(cents for code, _, cents in entries if code[1] in "1234")
    return digits(hash_, 10) + digits(debits, 12) + digits(credits, 12)


def file_control(rng, batches, count, entries, records, plain):
    record = body(rng, b"9", plain)
    record = put(record, 2, digits(batches, 6))
    record = put(record, 8, digits((records + 9) // 10, 6))
    record = put(record, 14, digits(count, 8))
    return put(record, 22, sums(entries))


def control_file(batches):
    """A plain file of returns of these entries (code, bank, cents), with line feeds."""
    records = [blanks(b"101")]
    for entries in batches:
        records.append(blanks(b"5225"))
        for code, dfi, cents in entries:
            records += [entry(None, code, dfi, cents, True), blanks(b"799R01")]
        records.append(put(batch_control(None, 2 * len(entries), entries, True), 2, b"225"))
    entries = [e for batch in batches for e in batch]
    records.append(file_control(None, len(batches), 2 * len(entries), entries, len(records) + 1, True))
    records += [FILLER] * (-len(records) % 10)
    return b"".join(record + b"\n" for record in records)


def dfi(rng):
    return rng.choice(["09100001", "12104288", "99999999", "00000000", "", ""]) or digits(rng.randrange(10**8), 8).decode()


def cents(rng):
    return rng.choice([0, 1, 2500, 9_999_999_999, rng.randrange(10**10), rng.randrange(10**4)])


def code(rng):
    return rng.choice("0123456789") + rng.choice("16") if rng.random() < 0.3 else rng.choice(["21", "26", "31", "36"])


def line_ends(rng, many):
    """What stands behind each record: the same behind all, or any mixture."""
    style = rng.randrange(5)
    if style < 3:
        return [(b"\n", b"\r\n", b"")[style]] * many
    choices = [b"\n", b"\r\n", b""]
    if style == 3:
        weights = [rng.random() for _ in choices]
        return rng.choices(choices, weights, k=many)
    return [b"\n"] * (many - 1) + [b""]


def sizes(rng):
    """How many entries each batch has."""
    shape = rng.random()
    if shape < 0.08:
        return []
    if shape < 0.12:
        return [0] * rng.randrange(1, 12)
    if shape < 0.15:
        return [rng.randrange(95, 140)]
    if shape < 0.20:
        return [rng.randrange(3, 30) for _ in range(rng.randrange(1, 4))]
    if shape < 0.21:
        return [rng.randrange(180, 400)]
    if shape < 0.2105:
        return [rng.randrange(15_000, 22_300)]
    return [rng.randrange(0, 4) for _ in range(rng.randrange(1, 5))]


def batch(rng, size, plain, large):
    """The records of a batch, and its entries (code, bank, cents)."""
    records, entries = [body(rng, b"5", plain)], []
    for _ in range(size):
        change = not large and rng.random() < 0.3
        this = ("26", dfi(rng), 9_999_999_999) if large else (code(rng), dfi(rng), 0 if change else cents(rng))
        entries.append(this)
        records.append(entry(rng, *this, plain))
        records.append(body(rng, b"798" if change else b"799", plain))
    records.append(batch_control(rng, 2 * size, entries, plain))
    return records, entries


def good_file(rng):
    """A file without a fault, or, where its totals have too many digits, one whose totals are cut."""
    plain = rng.random() < 0.3
    large = rng.random() < 0.01
    records, all_entries = [body(rng, b"1", plain)], []
    batches = [rng.randrange(98, 104)] if large else sizes(rng)
    for size in batches:
        more, entries = batch(rng, size, plain, large)
        records += more
        all_entries += entries
    count = 2 * len(all_entries)
    records.append(file_control(rng, len(batches), count, all_entries, len(records) + 1, plain))
    fillers = rng.choice([-len(records) % 10, -len(records) % 10, 0, rng.randrange(25)])
    records += [FILLER] * fillers
    tail = b""
    if rng.random() < 0.15:
        tail = bytes(rng.choices(b"\r\n", k=rng.randrange(1, 6)))
    return File(records, line_ends(rng, len(records)), tail)
