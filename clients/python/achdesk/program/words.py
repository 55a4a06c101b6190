"""The commands and options that the program has."""

from __future__ import annotations

import argparse
import datetime
import os
import re
from pathlib import Path
from typing import Any

from ..entries import COLUMNS
from ..settings import Settings
from ..version import __version__
from .commands import changes, exposure, look, rates, retry, returns, statement, submit

SUMMARY = "Submits a company's entries to the bank's ACH desk, and shows what became of them."
EPILOG = """\
settings, each an option of every command or a variable of the environment:
  --url URL          ACHDESK_URL        the desk, such as https://desk.bank.example
  --company ID       ACHDESK_COMPANY    the company's identification
  --key-file FILE    ACHDESK_KEY_FILE   a file with the company's key and nothing else, or with
                                        the header for curl, X-Desk-Key: and the key
                     ACHDESK_KEY        the key itself, if there is no key file
  --ca-file FILE     ACHDESK_CA_FILE    the authority that signed the desk's certificate,
                                        if the system does not know it
  --state-dir DIR    ACHDESK_STATE_DIR  where --new remembers what it has printed;
                                        ~/.local/state/achdesk by default

example:
  export ACHDESK_URL=https://desk.bank.example ACHDESK_COMPANY=MILL01
  export ACHDESK_KEY_FILE=$HOME/.achdesk-key
  achdesk-company submit pay.csv --ref PAY-1 --sec PPD --direction credit \\
      --description PAYROLL --day 2025-01-10
  achdesk-company look PAY-1
  achdesk-company returns --new --csv --no-header >> returns.csv

A submission has at most 1,000 entries. With --split a longer list is submitted in parts, under
REF.1, REF.2 and so on. The same command again submits the parts that are left.

Every command can be repeated. A submission that is repeated under the same reference with the same
content is answered as it was the first time and is not taken twice. If no answer arrives, the
command repeats its request with growing pauses, up to --total-seconds.

Amounts are in dollars in a table, and in cents in CSV and JSON. In CSV a text that a spreadsheet
would compute as a formula begins with an apostrophe; JSON has it as it is. "sent" means that the
bank has put an entry into a file for the ACH operator.

exit status:
  0  done
  1  the desk refused the call, or the list of entries has a fault; nothing was taken, except
     the parts of --split that are reported as accepted
  2  usage: a wrong option, or no address, company or key
  3  no answer arrived, or the desk is not available: run the same command again
  4  something other than the desk answered, such as a proxy with an error page, or its
     certificate is not trusted
  5  --new: the desk was restored from a backup; nothing was printed
  6  a file of this machine, or standard output, could not be read or written
  130  interrupted
"""


def day_of(text: str) -> datetime.date:
    """Returns the day that an option names."""
    if not re.fullmatch("[0-9]{4}-[0-9]{2}-[0-9]{2}", text):
        raise argparse.ArgumentTypeError(f"{text!r} is not a day such as 2025-01-10")
    try:
        return datetime.date.fromisoformat(text)
    except ValueError:
        raise argparse.ArgumentTypeError(f"{text} is not a day of the calendar") from None


def settings() -> argparse.ArgumentParser:
    """The options of every command."""
    it = argparse.ArgumentParser(add_help=False)
    group = it.add_argument_group("settings")
    group.add_argument("--url", default=os.environ.get("ACHDESK_URL"), metavar="URL",
                       help="the desk's address (ACHDESK_URL)")
    group.add_argument("--company", default=os.environ.get("ACHDESK_COMPANY"), metavar="ID",
                       help="the company's identification (ACHDESK_COMPANY)")
    group.add_argument("--key-file", default=os.environ.get("ACHDESK_KEY_FILE"), metavar="FILE",
                       help="the file with the company's key (ACHDESK_KEY_FILE, or ACHDESK_KEY for "
                            "the key itself)")
    group.add_argument("--ca-file", default=os.environ.get("ACHDESK_CA_FILE"), metavar="FILE",
                       help="the authority of the desk's certificate (ACHDESK_CA_FILE)")
    group.add_argument("--total-seconds", type=float, metavar="N", default=Settings.total_seconds,
                       help="how long a call is repeated if no answer arrives (%(default)g)")
    group.add_argument("--timeout", type=float, default=Settings.timeout, metavar="N",
                       help="how long one attempt waits for the network, in seconds (%(default)g)")
    group.add_argument("--largest-answer", type=int, metavar="N", default=Settings.largest_answer,
                       help="how many bytes an answer may have (%(default)s)")
    group.add_argument("--quiet", action="store_true", help="do not report repeated attempts")
    form = group.add_mutually_exclusive_group()
    form.add_argument("--csv", dest="form", action="store_const", const="csv",
                      help="print CSV, with amounts in cents")
    form.add_argument("--json", dest="form", action="store_const", const="json",
                      help="print JSON, with amounts in cents")
    it.add_argument("--no-header", action="store_true", help="print CSV without its first row")
    return it


def parser() -> argparse.ArgumentParser:
    """Returns the parser of the command line."""
    top = argparse.ArgumentParser(
        prog="achdesk-company", description=SUMMARY, epilog=EPILOG,
        formatter_class=lambda prog: argparse.RawDescriptionHelpFormatter(
            prog, max_help_position=30))
    top.add_argument("--version", action="version", version=f"achdesk-company {__version__}")
    found = top.add_subparsers(title="commands", metavar="COMMAND", required=True)
    common = settings()

    def command(run: Any, name: str, text: str) -> argparse.ArgumentParser:
        it = found.add_parser(name, help=text, description=f"{text[0].upper()}{text[1:]}.",
                                 parents=[common])
        it.set_defaults(run=run)
        return it

    it = command(submit, "submit", "submit a list of entries in CSV")
    it.add_argument("file", metavar="FILE", help=(
        "the list, or - for standard input; its first row is " + ",".join(COLUMNS)))
    it.add_argument("--ref", required=True, help="a reference of the company's own")
    it.add_argument("--sec", required=True, choices=["PPD", "CCD"],
                    help="PPD for accounts of persons, CCD for accounts of companies")
    it.add_argument("--direction", required=True, choices=["credit", "debit"],
                    help="credit to pay, debit to collect")
    it.add_argument("--description", required=True, metavar="TEXT",
                    help="what receivers read, such as PAYROLL, at most 10 characters")
    it.add_argument("--day", required=True, type=day_of, help="the day asked for, YYYY-MM-DD")
    it.add_argument("--split", action="store_true", help=(
        "submit 1,000 entries under each of REF.1, REF.2 and so on"))

    it = command(retry, "retry", "collect a returned debit again")
    it.add_argument("--ref", required=True, help="a new reference of the company's own")
    it.add_argument("--of", required=True, metavar="REF", help="the submission with the entry")
    it.add_argument("--index", required=True, type=int, help="the entry's number there, from 1")
    it.add_argument("--day", required=True, type=day_of, help="the day asked for, YYYY-MM-DD")
    it.add_argument("--authorized", type=day_of, metavar="DAY",
                    help="the day of a new authorization, for a stopped payment (R08)")

    it = command(look, "look", "look up a submission or retry with the state of its entries")
    it.add_argument("ref", metavar="REF")

    for run, name, text in ((returns, "returns", "list returns, oldest first"),
                            (changes, "changes", "list notifications of change, oldest first")):
        it = command(run, name, text)
        it.add_argument("--new", action="store_true",
                        help="print those that no run with --new has printed before")
        it.add_argument("--forget", action="store_true",
                        help="with --new: print all, and remember them")
        it.add_argument("--state-dir", type=Path, default=default_state_dir(), metavar="DIR",
                        help="where --new remembers what it has printed (ACHDESK_STATE_DIR)")

    command(statement, "statement", "show the company's account and its balance")
    command(rates, "rates", "show the company's return rates and Nacha's levels")
    command(exposure, "exposure", "show the company's exposures and limits")
    return top


def default_state_dir() -> Path:
    """Returns where --new remembers what it has printed."""
    if named := os.environ.get("ACHDESK_STATE_DIR"):
        return Path(named)
    state = os.environ.get("XDG_STATE_HOME")
    return (Path(state) if state else Path.home() / ".local" / "state") / "achdesk"
