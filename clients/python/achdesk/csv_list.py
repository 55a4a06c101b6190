"""Lists of entries in CSV."""

from __future__ import annotations

import re
from dataclasses import dataclass
from typing import Iterator, List, Optional, Pattern, Sequence, Tuple

from .entries import COLUMNS, Entry, quoted
from .errors import InputFault, shown

LARGEST_LIST = 4_194_304
HEADER = ",".join(COLUMNS)


@dataclass(frozen=True)
class Fault:
    """A fault of a list.

    `name` is what `achdesk submit` prints for it, such as `bad cents`, or `bad field` for a value
    that only the desk checks. `row` counts rows from 1 after the header, and `line` the lines of
    the file from 1 with the header. `column` is empty if the whole row is at fault.
    """

    name: str
    row: int
    line: int
    column: str
    why: str

    def __str__(self) -> str:
        place = f"line {self.line}, column {self.column}" if self.column else f"line {self.line}"
        return f"{place}: {self.why}"


class ListFault(InputFault):
    """A list has faults. `faults` has all of them, and the text of the error has a line for each.

    `name` is that of the first one, and `row` its row, or None if the list as a whole is at fault.
    """

    def __init__(self, faults: Sequence[Fault]) -> None:
        super().__init__(faults[0].name, "\n".join(str(it) for it in faults))
        self.faults = tuple(faults)
        self.row: Optional[int] = faults[0].row or None


@dataclass(frozen=True)
class EntryList:
    """The entries of a list, and the line of the file on which each begins."""

    entries: Tuple[Entry, ...]
    lines: Tuple[int, ...]


def entries_of_csv(data: bytes) -> List[Entry]:
    """Returns the entries of a list in CSV, by the rules of `achdesk submit`.

    The first row is `routing,account,kind,prenote,cents,id,name,info`. Each other row is an entry;
    its prenote is `yes` or empty, and its info may be empty. Empty lines are not rows, a field may
    be quoted, and a byte order mark at the start is dropped. All other fields are checked by the
    desk, and before by `checked_list`.

    Raises `ListFault` with every fault: `too large` (more than 4,194,304 bytes), `bad header`,
    `bad row` (not eight fields, or not UTF-8), `bad cents` (not 1 to 18 digits) or `bad prenote`.
    """
    found = [(_entry(it), list(_faults_of_form(it))) for it in _rows_of(data)]
    _raise([fault for _, faults in found for fault in faults])
    return [entry for entry, _ in found]


def checked_list(data: bytes) -> EntryList:
    """Returns the entries of a list in CSV with their lines, if the desk would take each field.

    Raises `ListFault` with the faults that `entries_of_csv` reports and with `bad field` for values
    that the desk refuses.
    """
    entries, lines, faults = [], [], []
    for row in _rows_of(data):
        entry, of_form = _entry(row), list(_faults_of_form(row))
        faults += of_form
        # A row whose columns are not known has no fields, and one fault of an amount is enough.
        if all(it.name != "bad row" for it in of_form):
            faults += [Fault("bad field", row.number, row.line, column, why)
                       for column, why in entry.faults() if not (of_form and column == "cents")]
        entries.append(entry)
        lines.append(row.line)
    _raise(faults)
    return EntryList(tuple(entries), tuple(lines))


def _raise(faults: Sequence[Fault]) -> None:
    if faults:
        raise ListFault(faults)


@dataclass(frozen=True)
class _Row:
    number: int
    line: int
    fields: List[bytes]


def _rows_of(data: bytes) -> Iterator[_Row]:
    """Returns the rows after the header."""
    if len(data) > LARGEST_LIST:
        why = f"the list has {len(data):,} bytes; it takes at most {LARGEST_LIST:,}"
        raise ListFault([Fault("too large", 0, 1, "", why)])
    rows = _rows(data)
    line, header = next(rows, (1, []))
    if header != [name.encode() for name in COLUMNS]:
        given = shown(b",".join(header).decode(errors="replace"), 120)
        why = f'the first row is "{given}"; it must be {HEADER}'
        raise ListFault([Fault("bad header", 0, line, "", why)])
    for number, (line, fields) in enumerate(rows, 1):
        yield _Row(number, line, fields)


# A field in quotes, with what follows the closing quote, or a plain field.
FIELD = re.compile(rb'"([^"]*(?:""[^"]*)*)"?([^,\r\n]*)|([^,\r\n]*)')
CENTS = re.compile(b"[0-9]{1,18}")
LINE_ENDS = re.compile(rb"[\r\n]*")
LINE_END = re.compile(rb"\r\n|\r|\n")


def _rows(data: bytes) -> Iterator[Tuple[int, List[bytes]]]:
    """Returns each row with the line on which it begins."""
    # The csv module is not used: it works on text, and one limit of it holds for a whole process.
    place = 3 if data.startswith(b"\xef\xbb\xbf") else 0
    line, counted = 1, 0
    while True:
        place = _end(LINE_ENDS, data, place)
        if place == len(data):
            return
        line, counted = line + len(LINE_END.findall(data, counted, place)), place
        row = []
        while True:
            end = _end(FIELD, data, place)
            row.append(_field(data[place:end]))
            place = end + 1
            if data[end:place] != b",":
                break
        place = end
        yield line, row


def _end(pattern: Pattern[bytes], data: bytes, place: int) -> int:
    found = pattern.match(data, place)
    return place if found is None else found.end()


def _field(text: bytes) -> bytes:
    found = FIELD.fullmatch(text)
    if found is None or found[1] is None:
        return text
    return found[1].replace(b'""', b'"') + found[2]


def _faults_of_form(row: _Row) -> Iterator[Fault]:
    """Returns the faults that `achdesk submit` reports: the first of them is the one it prints."""

    def fault(name: str, column: str, why: str) -> Fault:
        return Fault(name, row.number, row.line, column, why)

    if len(row.fields) != len(COLUMNS):
        why = f"it has {len(row.fields)} columns; a row has {len(COLUMNS)}: {HEADER}"
        yield fault("bad row", "", why)
        return
    for column, field in zip(COLUMNS, row.fields):
        if not _is_text(field):
            why = f"{quoted(field.decode(errors='replace'))} is not UTF-8"
            yield fault("bad row", column, why)
    cents, prenote = (row.fields[COLUMNS.index(it)] for it in ("cents", "prenote"))
    if _is_text(cents) and not CENTS.fullmatch(cents):
        why = f"{quoted(cents.decode())} is not a number of cents, such as 150000"
        yield fault("bad cents", "cents", why)
    if _is_text(prenote) and prenote not in (b"", b"yes"):
        why = f"{quoted(prenote.decode())} is neither yes nor empty"
        yield fault("bad prenote", "prenote", why)


def _is_text(field: bytes) -> bool:
    try:
        field.decode()
    except ValueError:
        return False
    return True


def _entry(row: _Row) -> Entry:
    """Returns the entry of a row, which has faults if the row has."""
    fields = [it.decode(errors="replace") for it in row.fields] + [""] * len(COLUMNS)
    routing, account, kind, prenote, cents, id, name, info = fields[:len(COLUMNS)]
    amount = int(cents) if CENTS.fullmatch(cents.encode()) else 0
    return Entry(routing, account, kind, amount, id, name, prenote == "yes", info or None)
