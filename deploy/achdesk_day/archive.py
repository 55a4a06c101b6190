"""The archive of what was transmitted, and of what was not."""

from __future__ import annotations

from pathlib import Path
from typing import Any

from achdesk_day.day import Day
from achdesk_day.durable import move, sha256, sha256_of_file, write_synced
from achdesk_day.journal import Line
from achdesk_day.nacha import Totals, check_outgoing, totals_without
from achdesk_day.stops import Refused


def fetched(day: Day, name: str) -> tuple[Path, Totals]:
    """Returns the path and the totals of a file that is to be transmitted: of the archive, of an upload that was begun,
    or fetched, checked and synced."""
    path = day.outgoing / f"{name}.ach"
    if not path.exists():
        path = day.sending / f"{name}.ach"
    if path.exists() and (day.archived(name) or name in day.open_uploads() or name in day.open_marks()):
        return path, check_outgoing(name, path.read_bytes())
    text = day.desk.file(name)
    if text is None:
        raise Refused(f"the desk has no file {name}")
    totals = check_outgoing(name, text)
    write_synced(path, text)
    return path, totals


def archive(day: Day, path: Path, name: str, totals: Totals, **facts: Any) -> None:
    (day.sending / f".{name}.back").unlink(missing_ok=True)
    if path.parent == day.sending:
        move(path, day.outgoing / path.name)
    day.record("sent", file=name, sha256=sha256_of_file(day.outgoing / path.name), **totals.facts(), **facts)
    day.say(f"sent {name}: {totals}")


def withheld_path(day: Day, line: Line) -> Path:
    return day.withheld / f"{line['file']}-{line['sha256'][:16]}.ach"


def copy_path(day: Day, name: str, line: Line) -> Path:
    return day.by_hand / f"{name}-{line['copy_sha256'][:16]}.ach"


def copy_totals(line: Line) -> Totals | None:
    """Returns the totals of the file that was transmitted in place of the desk's, or None."""
    return Totals(**line["copy"]) if "copy" in line else None


def found_remade(day: Day, name: str) -> str:
    """Records that a restored desk has another file under the name of one that was withheld, for the metrics, and returns the
    text of the alarm."""
    line, digest = day.states()[name], sha256(day.desk.file(name) or b"")
    if (line["did"], line["sha256"]) != ("remade", digest):
        day.record("remade", file=name, sha256=digest)
    kept = withheld_path(day, day.journal.last("withheld", file=name) or line)
    return (f"{name} was withheld, and made again with other bytes. The file that was withheld is {kept}. send does "
            f"not transmit it until a person has compared both and run achdesk-day send --again {name}, or achdesk-day mark {name} "
            "--withheld, --transmitted or --transmitted-as COPY")


def accepted_totals(day: Day, name: str) -> Totals | None:
    """Returns the totals of what was transmitted without the entries that were corrected, or None if all were."""
    line, file = day.states().get(name, {}), day.archived_bytes(name)
    text = copy_path(day, name, line).read_bytes() if "copy" in line else file
    return totals_without(text, day.corrected(name, file))
