"""The commands, each as a function of its arguments and of the company's calls."""

from __future__ import annotations

import argparse
import contextlib
import sys
from pathlib import Path
from typing import Any, Callable, Dict, List, Sequence, Tuple

from ..company import Company
from ..company_answers import Accepted, Change, Rate
from ..money import dollars
from .failure import LOCAL, Failure
from .printing import Output, Row, row_of, show
from .seen import Seen

# Nacha's levels in percent.
LEVELS = {"unauthorized": "0.5", "administrative": "3", "overall": "15"}


def submit(arguments: argparse.Namespace, company: Company) -> None:
    """Submits a list."""
    data = input_of(arguments.file)
    given: Dict[str, Any] = {
        name: getattr(arguments, name)
        for name in ("ref", "sec", "direction", "description", "day")
    }
    if arguments.split:
        parts = company.submit_in_parts(data, **given)
        show(arguments, output_of_accepted({"parts": parts}, parts))
    else:
        accepted = company.submit_csv(data, **given)
        show(arguments, output_of_accepted(accepted, [accepted]))


def retry(arguments: argparse.Namespace, company: Company) -> None:
    """Collects a returned debit again."""
    accepted = company.retry(ref=arguments.ref, of=arguments.of, index=arguments.index,
                             day=arguments.day, authorized=arguments.authorized)
    show(arguments, output_of_accepted(accepted, [accepted]))


def output_of_accepted(whole: Any, accepted: Sequence[Accepted]) -> Output:
    """Returns the output for what the desk has accepted."""
    columns = ("ref", "order", "entries", "cents")
    return Output(whole, "Accepted.", columns, [row_of(it) for it in accepted])


def look(arguments: argparse.Namespace, company: Company) -> None:
    """Looks up a submission or retry."""
    it = company.look_up(arguments.ref)
    of = f", retry of {it.of} entry {it.of_index}" if it.of is not None else ""
    title = (f"{it.ref}: {it.sec} {it.direction} of {dollars(it.cents)} asked for {it.day}, "
             f"order {it.order}{of}")
    columns = ("ref", "index", "cents", "state", "settled", "returned", "code", "late")
    show(arguments, Output(it, title, columns, [row_of(one, ref=it.ref) for one in it.entries]))


def returns(arguments: argparse.Namespace, company: Company) -> None:
    """Lists returns."""
    columns = ("ref", "index", "code", "day", "late", "info")
    show_list(arguments, company.returns, "returns", columns)


def changes(arguments: argparse.Namespace, company: Company) -> None:
    """Lists notifications of change."""
    columns = ("ref", "index", "code", "day", "text", "correction")
    show_list(arguments, company.changes, "changes", columns)


def show_list(
    arguments: argparse.Namespace,
    fetch: Callable[[], Sequence[Any]],
    name: str,
    columns: Tuple[str, ...],
) -> None:
    """Prints the items of a list, or those that no run with --new has printed."""
    if not arguments.new:
        return show_items(arguments, fetch(), name, columns)
    # The state is written after printing: a run that is killed in between prints the items again.
    try:
        known = Seen(arguments.state_dir, arguments.url, arguments.company)
        with contextlib.closing(known) as seen:
            items = fetch()
            count = 0 if arguments.forget else seen.count(name, items)
            show_items(arguments, items[count:], name, columns)
            seen.remember(name, items)
    except OSError as error:
        place = error.filename or arguments.state_dir
        raise Failure(LOCAL, f"{place}: {error.strerror}") from None


def show_items(
    arguments: argparse.Namespace, items: Sequence[Any], name: str, columns: Tuple[str, ...]
) -> None:
    """Prints items."""
    title = "" if items else f"No {'new ' if arguments.new else ''}{name}."
    rows = [row_of(it, correction=correction_of(it)) for it in items]
    show(arguments, Output({name: items}, title, columns, rows))


def correction_of(item: Any) -> str:
    """Returns what a change corrects, such as `account 987654321`."""
    if not isinstance(item, Change):
        return ""
    return ", ".join(f"{column} {value}" for column, value in item.correction().items())


def statement(arguments: argparse.Namespace, company: Company) -> None:
    """Shows the company's account."""
    it = company.statement()
    title = f"Balance on {it.day}: {dollars(it.balance)}"
    columns = ("day", "cause", "ref", "index", "cents")
    show(arguments, Output(it, title, columns, [row_of(line) for line in it.lines]))


def rates(arguments: argparse.Namespace, company: Company) -> None:
    """Shows the return rates."""
    it = company.rates()
    rows = []
    for name, level in LEVELS.items():
        rate: Rate = getattr(it, name)
        percent = f"{rate.n * 100 / rate.d:.3f}" if rate.d else ""
        rows.append({"rate": name, "returns": rate.n, "debits": rate.d, "percent": percent,
                     "level": level, "over": rate.over})
    title = f"Returns of the 60 days that end on {it.day}"
    columns = ("rate", "returns", "debits", "percent", "level", "over")
    show(arguments, Output(it, title, columns, rows))


def exposure(arguments: argparse.Namespace, company: Company) -> None:
    """Shows exposures and limits."""
    it = company.exposure()
    rows: List[Row] = [
        {"of": name, "exposure": used, "limit": limit, "left": limit - used}
        for name, used, limit in (("credits", it.credit, it.credit_limit),
                                  ("debits", it.debit, it.debit_limit))
    ]
    rows.append({"of": "one entry", "exposure": None, "limit": it.entry_limit, "left": None})
    columns = ("of", "exposure", "limit", "left")
    show(arguments, Output(it, f"Exposure on {it.day}", columns, rows, columns[1:]))


def input_of(path: str) -> bytes:
    """Returns the bytes of a file, or of standard input."""
    try:
        return sys.stdin.buffer.read() if path == "-" else Path(path).read_bytes()
    except OSError as error:
        raise Failure(LOCAL, f"{path}: {error.strerror}") from None
