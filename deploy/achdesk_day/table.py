"""Answers as a table for a person, or as CSV or JSON for a program."""

from __future__ import annotations

import csv
import io
import json
from collections.abc import Iterable, Mapping, Sequence
from dataclasses import dataclass
from typing import Any

from achdesk_day.run import Run
from achdesk_day.values import money


@dataclass(frozen=True)
class Column:
    """A column: its key in CSV and JSON, its heading, and what its values are: text, a number, or cents."""

    key: str
    heading: str = ""
    kind: str = "text"

    @property
    def shown(self) -> str:
        return self.heading or self.key

    def cell(self, value: Any) -> str:
        return "" if value is None or value == "" else money(value) if self.kind == "cents" else str(value)


def laid_out(columns: Sequence[Column], rows: Iterable[Sequence[str]]) -> list[str]:
    """Lays rows out below their headings. Numbers end at one place, and no line ends with blanks."""
    lines = [[it.shown for it in columns], *rows]
    widths = [max(map(len, cells)) for cells in zip(*lines)]
    return ["  ".join(cell.rjust(width) if it.kind != "text" else cell.ljust(width)
                      for it, cell, width in zip(columns, line, widths)).rstrip() for line in lines]


def show(run: Run, columns: Sequence[Column], rows: Sequence[Mapping[str, Any]]) -> None:
    """Prints rows as `--csv`, `--json` or neither says. In CSV and JSON amounts are whole cents."""
    keys = [it.key for it in columns]
    if run.words.json:
        run.say(json.dumps([{key: row[key] for key in keys} for row in rows], indent=1))
    elif run.words.csv:
        sheet = io.StringIO()
        writer = csv.writer(sheet, lineterminator="\n")
        writer.writerow(keys)
        writer.writerows([row[key] for key in keys] for row in rows)
        run.say(sheet.getvalue().removesuffix("\n"))
    else:
        run.say("\n".join(laid_out(columns, [[it.cell(row[it.key]) for it in columns] for row in rows])))
