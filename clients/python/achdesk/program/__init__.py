"""The command-line program for a company."""

from __future__ import annotations

import argparse
import os
import ssl
from pathlib import Path

from ..company import Company
from ..errors import DeskError, InputFault
from ..settings import Settings
from .failure import LOCAL, USAGE, Failure, failure_of, report, report_retry
from .words import parser

__all__ = ["main"]


def key_of(arguments: argparse.Namespace) -> str:
    """Returns the company's key, from a file or from the environment."""
    if arguments.key_file is None:
        key = os.environ.get("ACHDESK_KEY")
        if key is None:
            raise Failure(USAGE, "no key: give --key-file, or set ACHDESK_KEY_FILE or ACHDESK_KEY")
        return key
    try:
        path = Path(arguments.key_file)
        if path.stat().st_mode & 0o077 and path.is_file():
            report(f"warning: other users may read {path}; run: chmod 600 {path}")
        # A key has no blanks, so this is the header that curl reads from a file.
        return path.read_text().strip().removeprefix("X-Desk-Key:").strip()
    except (OSError, ValueError) as error:
        why = error.strerror if isinstance(error, OSError) else "it is not text"
        raise Failure(LOCAL, f"{arguments.key_file}: {why}") from None


def company_of(arguments: argparse.Namespace) -> Company:
    """Returns the calls of the company that the settings name."""
    for name in ("url", "company"):
        if not getattr(arguments, name):
            raise Failure(USAGE, f"no {name}: give --{name}, or set ACHDESK_{name.upper()}")
    tls = None
    if arguments.ca_file is not None:
        try:
            tls = ssl.create_default_context(cafile=arguments.ca_file)
        except OSError as error:
            raise Failure(LOCAL, f"{arguments.ca_file}: {error}") from None
    try:
        given = Settings(
            timeout=arguments.timeout, total_seconds=arguments.total_seconds, tls=tls,
            largest_answer=arguments.largest_answer,
            on_retry=None if arguments.quiet else report_retry)
        return Company(arguments.url, arguments.company, key_of(arguments), given)
    except InputFault as fault:
        raise Failure(USAGE, str(fault)) from None


def main() -> int:
    """Carries out the command of the command line, and returns the exit status."""
    arguments = parser().parse_args()
    try:
        if getattr(arguments, "forget", False) and not arguments.new:
            raise Failure(USAGE, "--forget needs --new")
        company = company_of(arguments)
        try:
            arguments.run(arguments, company)
        except DeskError as error:
            raise failure_of(error, company) from None
    except Failure as failure:
        report(str(failure))
        return failure.status
    except KeyboardInterrupt:
        return 130
    return 0
