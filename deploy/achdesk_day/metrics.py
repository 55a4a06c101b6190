"""The command metrics."""

from __future__ import annotations

import collections
import contextlib
import datetime
import shutil
import sys
from collections.abc import Iterable
from pathlib import Path
from typing import Protocol

from achdesk import CompanyRisk, Status, Tally

from achdesk_day.backup import finished_backups, log_of
from achdesk_day.cut import files_left
from achdesk_day.day import Day
from achdesk_day.durable import write_synced
from achdesk_day.failures import failing_since
from achdesk_day.holidays import is_closed, known_lists
from achdesk_day.hooks import now
from achdesk_day.incoming import arrived
from achdesk_day.late import undecided
from achdesk_day.locks import Lock
from achdesk_day.rows import LEVELS, rate_of
from achdesk_day.stops import Refused, Unavailable
from achdesk_day.takeover import open_mark
from achdesk_day.values import time_of
from achdesk_day.watch import INCOMING, unacknowledged


class Put(Protocol):
    """Adds a value of a metric."""

    def __call__(self, name: str, value: int, **labels: str) -> None:
        ...


# The metrics in the order in which they are printed, each with its type and its help.
METRICS = {
    "up": ("gauge", "Whether the desk answers (1) or not (0)."),
    "day_timestamp_seconds": ("gauge", "The desk day, as the Unix time of its midnight in UTC."),
    "day_age_days": ("gauge", "The days from the desk day to today; negative if the desk day is later."),
    "banking_day": ("gauge", "Whether today is a banking day, by the journal (1) or not (0)."),
    "held_submissions": ("gauge", "Submissions and retries that are accepted and not yet sent."),
    "held_cents": ("gauge", "The sum of held submissions and retries, in cents."),
    "due_submissions": ("gauge", "Submissions and retries that a cut would send now."),
    "due_cents": ("gauge", "The sum of what a cut would send now, in cents."),
    "exposure_cents": ("gauge", "The exposure on the desk day, in cents."),
    "exposure_limit_cents": ("gauge", "The limit of the exposure, in cents."),
    "entry_limit_cents": ("gauge", "The limit for one entry, in cents."),
    "return_rate_debits": ("gauge", "Debits that settled in the 60 days that end on the desk day."),
    "return_rate_returns": ("gauge", "Debits whose return was taken in the 60 days that end on the desk day."),
    "return_rate_over_level": ("gauge", "Whether the return rate is over Nacha's level (1) or not (0)."),
    "files_today": ("gauge", "Files that cuts made on the desk day."),
    "files_left": ("gauge", "Files that cuts can still make on the desk day."),
    "due_files": ("gauge", "Files that a cut would make now."),
    "held_records": ("gauge", "Entry and addenda records of held submissions and retries."),
    "due_records": ("gauge", "Entry and addenda records that a cut would send now."),
    "suspense_items": ("gauge", "Items in suspense."),
    "entries_sent_total": ("counter", "Entries that were ever sent."),
    "holidays": ("gauge", "Days in the holiday list."),
    "holidays_end_timestamp_seconds": ("gauge", "The last day of the holiday list, as the Unix time of its midnight in UTC."),
    "untransmitted_files": ("gauge", "Files of a day that are neither in the archive nor withheld."),
    "file_bytes": ("gauge", "The size of the desk's file."),
    "log_bytes": ("gauge", "The size of the log of the desk's file."),
    "free_bytes": ("gauge", "The free space of the disk with the desk's file."),
    "backup_timestamp_seconds": ("gauge", "The Unix time at which the newest backup began."),
    "backup_age_seconds": ("gauge", "The seconds since the newest backup began."),
    "open_uploads": ("gauge", "Uploads that were begun and not finished."),
    "unclear_files": ("gauge", "Files of which the journal says something else than the archive."),
    "lost_files": ("gauge", "Transmitted files that the desk does not have, or has with other bytes."),
    "unconfirmed": ("gauge", "Whether the desk was restored or taken over and not all files are confirmed (1) or not (0)."),
    "unacknowledged_files": ("gauge", "Files whose acknowledgement is overdue."),
    "inbox_files": ("gauge", "Files in the inbox."),
    "inbox_oldest_seconds": ("gauge", "The seconds since the oldest file of the inbox was written."),
    "received_timestamp_seconds": ("gauge", "The Unix time at which an incoming file was fetched or taken last."),
    "failing_commands": ("gauge", "Commands that ended with status 3 when they ran last."),
    "late_returns": ("gauge", "Late returns of which the bank can still decide and has not."),
    "quarantined_files": ("gauge", "Incoming files in quarantine."),
}


class Samples:
    """The values of metrics. A metric without a value is not printed."""

    def __init__(self) -> None:
        self.lines: dict[str, list[str]] = {name: [] for name in METRICS}

    def put(self, name: str, value: int, **labels: str) -> None:
        told = ",".join(f'{key}="{text}"' for key, text in labels.items())
        self.lines[name].append(f"achdesk_{name}{'{' + told + '}' if told else ''} {value}")

    def text(self) -> str:
        """Writes them in Prometheus's text format, the values of a metric next to each other."""
        found = []
        for name, lines in self.lines.items():
            kind, meaning = METRICS[name]
            found += [f"# HELP achdesk_{name} {meaning}", f"# TYPE achdesk_{name} {kind}", *lines] if lines else []
        return "\n".join(found) + "\n"


def metrics(day: Day) -> None:
    """Prints or writes metrics as Prometheus text. If the desk does not answer, achdesk_up is 0, and the rest is this
    machine's."""
    samples = Samples()
    try:
        status = day.desk_status()
        companies = day.desk.companies().companies if status.day else ()
        status_metrics(samples.put, status, day.local_now().date())
        calendar_metrics(samples.put, day, status)
        risk_metrics(samples.put, companies)
        transmission_metrics(samples.put, day, status)
        samples.put("up", 1)
    except (Unavailable, Refused) as fault:
        print(f"achdesk-day: {fault}", file=sys.stderr)
        samples.put("up", 0)
    machine_metrics(samples.put, day)
    if day.words.output is not None and not day.dry:
        write_metrics(day, Path(day.words.output or day.settings.needed("metrics", "file")), samples.text())
    else:
        print(samples.text(), end="")


def write_metrics(day: Day, path: Path, text: str) -> None:
    """Puts the metrics into a file that the node exporter may read at any moment: it has the old ones or the new ones. One
    command at a time writes it, since all use the same temporary name, which the exporter leaves out."""
    with contextlib.closing(Lock(day.state / "metrics.lock")):
        try:
            write_synced(path, text.encode(), 0o644)
        except OSError as fault:
            raise Unavailable(f"{path} cannot be written: {fault.strerror}") from None


def status_metrics(put: Put, status: Status, today: datetime.date) -> None:
    """The metrics that the desk's status gives."""
    if status.day:
        put("day_timestamp_seconds", midnight(str(status.day)))
        put("day_age_days", (today - status.day).days)
    for company in status.companies:
        for way in ("credits", "debits"):
            labels = {"company": company.id, "direction": way}
            held: Tally = getattr(company.held, way)
            due: list[Tally] = [getattr(it, way) for it in company.due]
            put("held_submissions", held.submissions, **labels)
            put("held_cents", held.cents, **labels)
            put("due_submissions", sum(it.submissions for it in due), **labels)
            put("due_cents", sum(it.cents for it in due), **labels)
    put("files_today", len(status.files))
    put("files_left", files_left(status))
    for name, count in (("due_files", status.due_files), ("held_records", status.held_records), ("due_records", status.due_records)):
        if count is not None:  # an older desk does not report them
            put(name, count)
    put("suspense_items", status.suspense)
    put("entries_sent_total", status.sent)
    put("holidays", status.holidays)


def midnight(day: str) -> int:
    return int(datetime.datetime.fromisoformat(f"{day}T00:00+00:00").timestamp())


def calendar_metrics(put: Put, day: Day, status: Status) -> None:
    """The metrics of today and of the holiday list, if the journal has the list that the desk has."""
    today = day.local_now().date()
    lists = [it for it in known_lists(day) if len(it) == status.holidays]
    put("banking_day", int(today.weekday() < 5 and not is_closed(day, status, today) and all(str(today) not in it for it in lists)))
    if ends := [it[-1] for it in lists if it]:
        put("holidays_end_timestamp_seconds", midnight(min(ends)))


def risk_metrics(put: Put, companies: Iterable[CompanyRisk]) -> None:
    """Each company's exposures, limits and return rates, which the desk has from its first day on."""
    for company in companies:
        name = company.id
        put("exposure_cents", company.credit, company=name, direction="credits")
        put("exposure_cents", company.debit, company=name, direction="debits")
        put("exposure_limit_cents", company.credit_limit, company=name, direction="credits")
        put("exposure_limit_cents", company.debit_limit, company=name, direction="debits")
        put("entry_limit_cents", company.entry_limit, company=name)
        put("return_rate_debits", company.rates.overall.d, company=name)
        for kind in LEVELS:
            rate = rate_of(company, kind)
            put("return_rate_returns", rate.n, company=name, rate=kind)
            put("return_rate_over_level", int(rate.over), company=name, rate=kind)


def transmission_metrics(put: Put, day: Day, status: Status) -> None:
    """The number of files that are not transmitted: of the desk day, also if there is none, and of each earlier day that has
    one. It needs no request, so that a monitoring key is enough."""
    if not status.day:
        return
    try:
        days = collections.Counter(name[:10] for name in day.untransmitted(status))
    except Refused as fault:  # the journal has no beginning
        print(f"achdesk-day: {fault}", file=sys.stderr)
        return
    for told in sorted({str(status.day), *days}):
        put("untransmitted_files", days[told], day=told)


def machine_metrics(put: Put, day: Day) -> None:
    """The metrics of the desk's files, of the backups, and of uploads that wait for a person."""
    for name, path in (("file_bytes", day.desk_file()), ("log_bytes", log_of(day.desk_file()))):
        if path.exists():
            put(name, path.stat().st_size)
    if day.desk_file().parent.is_dir():
        put("free_bytes", shutil.disk_usage(day.desk_file().parent).free)
    if names := finished_backups(day.backups):
        began = datetime.datetime.strptime(names[-1] + "+0000", "%Y-%m-%dT%H%M%SZ%z").timestamp()
        put("backup_timestamp_seconds", int(began))
        put("backup_age_seconds", int(now().timestamp() - began))
    put("open_uploads", len(day.open_uploads()))
    put("unclear_files", len(day.unclear()))
    lost = day.journal.last("lost")
    put("lost_files", len(lost["files"]) if lost else 0)
    put("unconfirmed", int(open_mark(day) is not None))
    put("unacknowledged_files", len(unacknowledged(day)))
    inbox_metrics(put, day)
    put("failing_commands", len(failing_since(day.state)))
    put("late_returns", len(undecided(day)))
    put("quarantined_files", sum(1 for it in day.quarantine.glob("*.json")))


def inbox_metrics(put: Put, day: Day) -> None:
    """The metrics of files that wait in the inbox, and of the last one that came."""
    files = arrived(day.inbox) if day.inbox.is_dir() else []
    put("inbox_files", len(files))
    if files:
        put("inbox_oldest_seconds", int(now().timestamp() - min(it.written for it in files)))
    if came := [line for line in day.journal.lines if line["did"] in INCOMING]:
        put("received_timestamp_seconds", int(time_of(came[-1]["at"]).timestamp()))
