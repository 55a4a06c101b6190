"""What a command prints: a table, CSV or JSON."""

from __future__ import annotations

import argparse
import contextlib
import csv
import dataclasses
import datetime
import json
import os
import re
import sys
from typing import Any, Dict, List, Tuple

from ..errors import shown
from ..money import dollars
from .failure import LOCAL, Failure

Row = Dict[str, Any]
# A spreadsheet computes a cell that begins so; with other settings a semicolon ends a cell.
FORMULA = re.compile("(^|;)(?= *[=+\\-@\uff1d\uff0b\uff0d\uff20])")


@dataclasses.dataclass(frozen=True)
class Output:
    """What a command prints: the whole for JSON, a title for a table, and rows with columns.

    Columns that are named in `money` hold cents.
    """

    whole: Any
    title: str
    columns: Tuple[str, ...]
    rows: List[Row]
    money: Tuple[str, ...] = ("cents",)


def plain(value: Any) -> Any:
    """Returns a value as JSON has it: a dataclass as an object, a date as text."""
    if dataclasses.is_dataclass(value):
        return {it.name: plain(getattr(value, it.name)) for it in dataclasses.fields(value)}
    if isinstance(value, (list, tuple)):
        return [plain(it) for it in value]
    if isinstance(value, dict):
        return {name: plain(it) for name, it in value.items()}
    return value.isoformat() if isinstance(value, datetime.date) else value


def row_of(value: Any, **more: Any) -> Row:
    """Returns a dataclass as a row, with further columns."""
    return {**more, **plain(value)}


def cell(value: Any) -> str:
    """Returns a value as text, without characters that a terminal obeys."""
    if isinstance(value, bool):
        return "yes" if value else "no"
    return "" if value is None else shown(str(value), LONGEST_CELL)


def csv_cell(value: Any) -> str:
    """Returns a value as a cell of CSV. A text that a spreadsheet would compute gets a `'`."""
    return FORMULA.sub(r"\1'", cell(value)) if isinstance(value, str) else cell(value)


def table_cell(output: Output, column: str, value: Any) -> str:
    """Returns a value as a cell of a table."""
    return dollars(value) if column in output.money and value is not None else cell(value)


LONGEST_CELL = 10_000


def print_table(output: Output) -> None:
    """Prints the title and a table."""
    if output.title:
        print(shown(output.title))
    if not output.rows:
        return
    cells = [[table_cell(output, name, row.get(name)) for name in output.columns]
             for row in output.rows]
    heads = [name.replace("_", " ") for name in output.columns]
    widths = [max(len(row[at]) for row in [heads, *cells]) for at in range(len(heads))]
    numbers = [all(type(row.get(name)) in (int, type(None)) for row in output.rows)
               for name in output.columns]
    for line in [heads, *cells]:
        padded = (text.rjust(width) if is_number else text.ljust(width)
                  for text, width, is_number in zip(line, widths, numbers))
        print("  ".join(padded).rstrip())


def print_csv(output: Output, has_header: bool) -> None:
    """Prints CSV."""
    writer = csv.writer(sys.stdout, lineterminator="\n")
    if has_header:
        writer.writerow(output.columns)
    for row in output.rows:
        writer.writerow([csv_cell(row.get(name)) for name in output.columns])


def show(arguments: argparse.Namespace, output: Output) -> None:
    """Prints in the wanted form, and returns once it is out of this process."""
    try:
        if arguments.form == "json":
            print(json.dumps(plain(output.whole)).replace("\x7f", "\\u007f"))
        elif arguments.form == "csv":
            print_csv(output, not arguments.no_header)
        else:
            print_table(output)
        sys.stdout.flush()
        with contextlib.suppress(OSError):  # a pipe or a terminal cannot be synced
            os.fsync(sys.stdout.fileno())
    except OSError as error:
        # What is left in the buffer must not fail once more when the interpreter ends.
        os.dup2(os.open(os.devnull, os.O_WRONLY), 1)
        raise Failure(LOCAL, f"standard output: {error.strerror}") from None
