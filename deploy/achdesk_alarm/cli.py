"""Runs a command."""

from __future__ import annotations

import argparse
import os
import sys
from pathlib import Path
from typing import Any

import achdesk_alarm
from achdesk_alarm.faults import Misused, Undelivered, now, plain
from achdesk_alarm.receivers import deliver
from achdesk_alarm.settings import Settings
from achdesk_alarm.units import ended, raise_due
from achdesk_alarm.waiting import Alarm, put

CONFIGURATION = "/etc/achdesk/alarm.conf"
STATE, SECOND = Path("/var/lib/achdesk-alarm"), Path("/run/achdesk-alarm")
STATUSES = """exit status:
  0  done
  2  usage or the configuration is wrong
  3  an alarm could not be written or delivered; it is kept, and deliver tries again
"""


def parser_of_words() -> argparse.ArgumentParser:
    shape: dict[str, Any] = {"formatter_class": argparse.RawDescriptionHelpFormatter, "epilog": STATUSES}
    parser = argparse.ArgumentParser("achdesk-alarm", description=achdesk_alarm.__doc__, **shape)
    parser.add_argument("--config", metavar="FILE", default=CONFIGURATION, help=f"the configuration [{CONFIGURATION}]")
    parser.add_argument("--state", metavar="FOLDER", type=Path, default=STATE, help=f"where alarms wait [{STATE}]")
    parser.add_argument("--second", metavar="FOLDER", type=Path, default=SECOND, help=f"where they wait if that disk is full [{SECOND}]")
    commands = parser.add_subparsers(dest="command", required=True, title="commands")
    command = commands.add_parser("raise", help="raise an alarm", description="Raises an alarm with the text on standard input.", **shape)
    command.add_argument("--source", default="achdesk-day", help="what raises it [achdesk-day]")
    command = commands.add_parser("unit", help="record how a unit ended", description="Records how UNIT ended, by the variables MONITOR_* of systemd. Status 3 is an "
                                  "alarm after the time of [patience], any other failure at once.", **shape)
    command.add_argument("unit", metavar="UNIT")
    commands.add_parser("deliver", help="deliver what waits", description="Raises the alarms of units whose time is up, and gives each receiver the alarms that wait.", **shape)
    commands.add_parser("test", help="deliver a test", description="Raises an alarm that is a test, and delivers it.", **shape)
    return parser


def run(words: argparse.Namespace) -> None:
    state, second = words.state, words.second
    if words.command == "raise":
        invocation = os.environ.get("INVOCATION_ID", "")
        put(Alarm(now().isoformat(), words.source, plain(sys.stdin.read()).strip(), invocation=invocation), state, second)
        return
    settings = Settings(words.config)
    if words.command == "unit":
        ended(settings, words.unit, state, second, dict(os.environ))
        return
    if words.command == "test":
        put(Alarm(now().isoformat(), "achdesk-alarm", "This is a test. Nothing is wrong."), state, second)
    raise_due(settings, state, second)
    deliver(settings, state, second)


def main() -> int:
    try:
        run(parser_of_words().parse_args())
        return 0
    except Misused as fault:
        print(f"achdesk-alarm: {fault}", file=sys.stderr)
        return 2
    except (Undelivered, OSError) as fault:
        print(f"achdesk-alarm: {fault}", file=sys.stderr)
        return 3
