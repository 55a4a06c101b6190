"""A desk that was restored or taken over: nothing is cut or transmitted until a person has asked the ACH operator."""

from __future__ import annotations

import datetime

from achdesk import Status

from achdesk_day import hooks
from achdesk_day.archive import archive
from achdesk_day.day import Day
from achdesk_day.durable import move, sha256_of_file
from achdesk_day.journal import Line
from achdesk_day.nacha import check_outgoing
from achdesk_day.stops import Misused, Refused
from achdesk_day.values import date_of, file_name, time_of

# Lines of the journal after which files have to be confirmed, and the one that ends it.
MARKS = ("restoring", "taken-over", "went-back", "rolled-back")
WHY = {"restoring": "the desk was restored", "taken-over": "the journal is another machine's",
       "went-back": "the desk has sent fewer entries than the journal knows",
       "rolled-back": "the standby knows of a transmission that this journal does not have"}


def note_machine(day: Day) -> None:
    """Records the machine of this journal, and marks a journal that was another machine's."""
    here, last = hooks.machine(), day.journal.last("runs-on")
    if last is None or last["machine"] != here:
        if last is not None:
            day.record("taken-over", machine=here, before=last["machine"])
        day.record("runs-on", machine=here)


def note_entries(day: Day, status: Status) -> None:
    """Marks a desk that has sent fewer entries than the cuts of the journal."""
    known = before = 0
    for line in day.journal.lines:
        if line["did"] == "cutting":
            before = line["sent"]
        elif line["did"] == "cut":
            known = before + line["entries"]
        elif line["did"] in ("confirmed-all", *MARKS):
            known = 0
    if status.sent < known:
        day.record("went-back", sent=status.sent, known=known)


def open_mark(day: Day) -> Line | None:
    """Returns the newest mark that no person has settled, or None."""
    line = day.journal.last(*MARKS, "confirmed-all")
    return line if line and line["did"] != "confirmed-all" else None


def unconfirmed(day: Day) -> list[str]:
    """Lists the files that a person has to confirm since the first mark that is not settled, oldest first."""
    lines: list[Line] = []
    for line in day.journal.lines:
        if line["did"] == "confirmed-all":
            lines = []
        elif lines or line["did"] in MARKS:
            lines.append(line)
    if not lines:
        return []
    began = min(time_of(it.get("began", it["at"])) for it in lines if it["did"] in MARKS)
    first = began - datetime.timedelta(day.settings.number("confirm", "days"))
    done = {line["file"] for line in lines if line["did"] == "confirmed"}
    return [name for name in day.sent_names() if name[:10] >= str(first.date()) and name not in done]


def refuse_unconfirmed(day: Day, status: Status) -> None:
    """Refuses while a file of the last days is not confirmed."""
    note_entries(day, status)
    marked = open_mark(day)
    if marked is None:
        return
    names = unconfirmed(day)
    left = f"not confirmed: {' '.join(names)}" if names else "whether it has any other file is not confirmed"
    raise Refused(f"{WHY[marked['did']]} ({marked['at']}). Ask the ACH operator which files of the last days it has, and tell "
                  f"achdesk-day confirm; {left}. See achdesk-day confirm --help")


def confirm(day: Day) -> None:
    """Records what the ACH operator has, by the word of a person."""
    words = day.words
    if not words.file and not words.no_other:
        show(day)
        return
    if not words.by:
        raise Misused("--by NAME is needed: who told it for the ACH operator")
    if words.file and not (words.transmitted or words.not_transmitted):
        raise Misused("--transmitted or --not-transmitted is needed")
    if open_mark(day) is None:
        day.say("there is nothing to confirm: the desk was neither restored nor taken over since")
    elif words.no_other:
        confirm_all(day)
    else:
        confirm_file(day, file_name(words.file))


def show(day: Day) -> None:
    marked, names, states = open_mark(day), unconfirmed(day), day.states()
    if marked is None:
        day.say("there is nothing to confirm")
        return
    day.say(f"{WHY[marked['did']]} ({marked['at']}). Ask the ACH operator which of these files it has:")
    for name in names:
        line = states.get(name, {})
        # What was transmitted in place of the desk's file is what the ACH operator may have.
        told, digest = line.get("copy", line), line.get("copy_sha256") or day.sent_digest(name)
        amounts = ", ".join(f"{told[it]} {it}" for it in ("batches", "entries", "debits", "credits") if it in told)
        day.say(f"  {name}  {line.get('did', 'archived')} {line.get('at', '')}  {amounts}  SHA-256 {digest}{transmitted_before(day, name)}")
    day.say("and whether it has any other file of these days: achdesk-day confirm --no-other --by NAME")


def transmitted_before(day: Day, name: str) -> str:
    """Says of a file whose upload was begun that it was transmitted before."""
    if name not in day.second_uploads():
        return ""
    sent = day.journal.last("sent", file=name)
    when = f", on {sent['at']}" if sent else ""
    return f"  transmitted before{when}: ask whether the ACH operator has it once or twice"


def confirm_all(day: Day) -> None:
    if names := unconfirmed(day):
        raise Refused(f"not confirmed yet: {' '.join(names)}")
    day.record("confirmed-all", who=day.words.by)
    day.say("all files are confirmed: cut and send go on")


def confirm_file(day: Day, name: str) -> None:
    """Records whether the ACH operator has a file, and what follows for its state."""
    is_there = bool(day.words.transmitted)
    if is_there and day.was_withheld(name):
        raise Refused(f"{name} was withheld on {day.states()[name]['at']}. If the ACH operator has it all the same, run achdesk-day mark "
                      f"{name} --transmitted, and see how it got there")
    if not is_there and name in day.acknowledged():
        raise Refused(f"the ACH operator acknowledged {name} on {day.acknowledged()[name]}: ask it again")
    if day.dry:
        day.say(f"would confirm {name} as {'transmitted' if is_there else 'not transmitted'}")
        return
    if is_there and (name in day.open_uploads() or not day.is_transmitted(name)):
        archive_confirmed(day, name)
    elif not is_there:
        if day.archived(name):
            move(day.outgoing / f"{name}.ach", day.sending / f"{name}.ach")
        day.record("not-sent", file=name, why=f"the ACH operator does not have it, by {day.words.by}")
    day.record("confirmed", file=name, transmitted=is_there, who=day.words.by)
    day.say(f"confirmed {name} as {'transmitted' if is_there else 'not transmitted'}")


def archive_confirmed(day: Day, name: str) -> None:
    """Records a file that the ACH operator has as transmitted, and archives its bytes if this machine has them."""
    line, path = day.journal.last("sending", "renaming", "marking", "sent", file=name) or {}, day.sending / f"{name}.ach"
    if path.exists() and sha256_of_file(path) == line.get("sha256"):
        archive(day, path, name, check_outgoing(name, path.read_bytes()), by_confirmation=True)
        return
    facts = {key: line[key] for key in ("sha256", "batches", "entries", "debits", "credits") if key in line}
    day.record("sent", file=name, **facts, by_confirmation=True)
