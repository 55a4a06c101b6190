#!/usr/bin/env python3
"""Writes docs/integrate/codes.md from the tables of the client library: `python3 judge/codes_page.py [--check]`.

With `--check` it writes nothing, and exits with status 1 if the page is not what it would write; `.ci/run` calls it that
way. It needs nothing but Python's standard library.
"""

import argparse
import sys
from pathlib import Path

TOP = Path(__file__).resolve().parents[1]
SOURCE = TOP / "clients" / "python"
PAGE = TOP / "docs" / "integrate" / "codes.md"
sys.path.insert(0, str(SOURCE))
from achdesk import CHANGE_CODES, RETURN_CODES  # noqa: E402

TEXT = """# Return codes and change codes

<!-- Written by judge/codes_page.py from clients/python/achdesk/codes.py. -->

For anyone who acts on a company's [returns](api.md#list-the-companys-returns) and [notifications of change](api.md#list-the-companys-notifications-of-change). The meanings are those of the Nacha rules, in short.

## Returns

A returned entry is booked back. Correct the cause before the next entry to that receiver, and submit it under a new reference; R01, R09 and R08 allow a [retry](api.md#collect-a-returned-debit-again) instead.

{returns}

R05, R07, R10, R11 and R29 count as [unauthorized](api.md#get-the-companys-return-rates), and R02, R03 and R04 as administrative. R05, R07, R10 and R11 may come up to 60 days after settlement.

## Notifications of change

The entry was posted; only the next one needs the change. Nacha expects the correction within six banking days or before the next entry, if that is later. `text` has 29 characters, padded with blanks. `account` and the other names are columns of a [list](csv.md#lists-of-entries):

{changes}

A transaction code that begins with 2 means `checking`, with 3 `savings`. `achdesk-company changes` shows the values as `correction`; the Python library returns them:

```python
import datetime
from achdesk import Change

change = Change("PAY-1", 1, "C03", datetime.date(2025, 1, 14), "091000019   987654321        ")
assert change.correction() == {{"routing": "091000019", "account": "987654321"}}
```
"""
RETURNS = ("Code", "Meaning", "Next step")
CHANGES = ("Code", "Meaning", "Positions of `text`, from 1", "Next step")


def table(heads, rows):
    """Returns a table in Markdown."""
    lines = [heads, ["---"] * len(heads), *rows]
    return "\n".join(f"| {' | '.join(it)} |" for it in lines).replace("| --- ", "|---").replace("--- |", "---|")


def capital(text):
    return text[0].upper() + text[1:]


def column(name):
    """Returns a column of a list, in code, or the transaction code."""
    return name if " " in name else f"`{name}`"


def next_step(it):
    """Returns what a company corrects. A transaction code says which `kind` an account has."""
    names = [column("kind" if " " in name else name) for name, _, _ in it.places]
    return it.next_step or f"Correct {' and '.join(filter(None, [', '.join(names[:-1]), names[-1]]))}."


def page():
    """Returns the text of the page."""
    returns = [(f"`{code}`", capital(it.meaning), it.next_step) for code, it in RETURN_CODES.items()]
    changes = [(f"`{code}`", capital(it.meaning), "; ".join(f"{column(name)} {first} to {last}" for name, first, last in it.places) or "none",
                next_step(it)) for code, it in CHANGE_CODES.items()]
    return TEXT.format(returns=table(RETURNS, returns), changes=table(CHANGES, changes))


def main():
    parser = argparse.ArgumentParser(description=__doc__, formatter_class=argparse.RawDescriptionHelpFormatter)
    parser.add_argument("--check", action="store_true", help="compare the page with what would be written")
    if not parser.parse_args().check:
        PAGE.write_text(page())
    elif not PAGE.exists() or PAGE.read_text() != page():
        print("docs/integrate/codes.md is not generated from the client: run python3 judge/codes_page.py", file=sys.stderr)
        return 1
    return 0


if __name__ == "__main__":
    sys.exit(main())
