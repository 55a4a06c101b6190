"""The command mark."""

from __future__ import annotations

from achdesk_day.archive import copy_path, copy_totals, fetched, withheld_path
from achdesk_day.day import Day
from achdesk_day.durable import given_bytes, move, sha256, sha256_of_file, write_synced
from achdesk_day.journal import Line
from achdesk_day.nacha import check_records, records_of
from achdesk_day.stops import Misused, Refused
from achdesk_day.values import file_name

HOWS = ("transmitted", "transmitted_as", "withheld")


def mark(day: Day) -> None:
    """Records what became of a file outside this program: transmitted by other means, transmitted as another file, or
    withheld. The intent is recorded first, and `send` finishes a mark that was interrupted."""
    name, how = file_name(day.words.file), next(it for it in HOWS if getattr(day.words, it))
    text, facts = read_copy(day.words.transmitted_as) if how == "transmitted_as" else (b"", {})
    if not day.dry and (begun := day.open_marks().get(name)):
        finish_mark(day, begun)
    state = day.states().get(name, {})
    is_sent = state.get("did") == "sent"
    if is_sent and how == "transmitted" and not day.archived(name) and not day.dry:
        archive_again(day, name)
    if (is_sent and how == "transmitted" or is_sent and facts and state.get("copy_sha256") == facts["copy_sha256"]
            or how == "withheld" and day.is_withheld(name)):
        day.say(f"{name} was {'withheld' if how == 'withheld' else 'transmitted'} on {state['at']} already")
        return
    if how == "withheld" and (day.archived(name) or state.get("did") == "uploaded"):
        raise Refused(f"{name} cannot be withheld: it was transmitted")
    if day.dry:
        day.say(f"would mark {name} as {how.replace('_', ' ')}")
        return
    path, totals = fetched(day, name)
    if facts:
        write_synced(copy_path(day, name, facts), text)
    day.record("marking", file=name, sha256=sha256_of_file(path), **totals.facts(), how=how, **facts,
               why=day.words.why or "")
    finish_mark(day, day.open_marks()[name])


def archive_again(day: Day, name: str) -> None:
    """Puts a file that was transmitted back into the archive, if the desk still has these bytes."""
    text = day.desk.file(name)
    if text is None or sha256(text) != day.sent_digest(name):
        raise Refused(f"{name} was transmitted, and the desk does not have its bytes: put {name}.ach back into {day.outgoing} "
                      "from a backup")
    write_synced(day.outgoing / f"{name}.ach", text)
    day.record("archived", file=name, sha256=sha256(text))
    day.say(f"{name} is in the archive again, as the desk has it")


def read_copy(path: str) -> tuple[bytes, Line]:
    """Returns the bytes of a file that was transmitted in place of the desk's, and what the journal has of it."""
    try:
        text = given_bytes(path)
    except OSError as fault:
        raise Misused(f"the file that was transmitted cannot be read: {fault}") from None
    return text, {"copy_sha256": sha256(text), "copy": check_records(str(path), records_of(text)).facts()}


def finish_mark(day: Day, line: Line) -> None:
    """Archives the desk's file of a mark, byte for byte, and records the mark. It can be repeated."""
    name, path = line["file"], day.sending / f"{line['file']}.ach"
    facts = {key: value for key, value in line.items() if key not in ("at", "by", "did")}
    if line["how"] == "withheld":
        if path.exists():
            move(path, withheld_path(day, line))
        day.record("withheld", **facts)
        day.say(f"withheld {name}: send leaves it out")
        return
    if not day.archived(name):
        move(path, day.outgoing / path.name)
    day.record("sent", **facts)
    day.say(f"marked {name} as transmitted by hand" + (f": {own}" if (own := copy_totals(line)) else ""))
