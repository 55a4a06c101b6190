"""Dual control: a cut or a transmission needs two persons, if the configuration says so."""

from __future__ import annotations

from achdesk import Status

from achdesk_day import hooks
from achdesk_day.day import Day
from achdesk_day.durable import sha256
from achdesk_day.nacha import check_outgoing
from achdesk_day.stops import Misused, Refused
from achdesk_day.values import due_sums, file_name, money


def approve(day: Day) -> None:
    """Records that a person approves the next cut, or the transmission of a file."""
    who = hooks.person()
    if who is None:
        raise Misused("only a person approves: log in, and run it by sudo -u achdesk")
    if day.words.what == "cut":
        status = day.desk_status()
        submissions, credits, debits = due_sums(status)
        day.record("approved", what="cut", day=str(status.day), submissions=submissions, credits=credits, debits=debits)
        day.say(f"{who} approves a cut on {status.day} of at most {submissions} submissions, credits {money(credits)}, "
                f"debits {money(debits)}")
        return
    name = file_name(day.words.what)
    text = day.desk.file(name)
    if text is None:
        raise Refused(f"the desk has no file {name}")
    totals = check_outgoing(name, text)
    day.record("approved", what="send", file=name, sha256=sha256(text), **totals.facts())
    day.say(f"{who} approves the transmission of {name}: {totals}")


def approvers_of_cut(day: Day, status: Status) -> list[str]:
    """Returns the persons of a cut. Refuses if two are needed and there are fewer: an approval is of one cut on one desk
    day, and of no more than was due when it was given."""
    people: set[str] = set()
    for line in day.journal.lines:
        if line["did"] == "cutting":
            people = set()
        elif line["did"] == "approved" and line["what"] == "cut" and line["day"] == str(status.day):
            approved = (line["submissions"], line["credits"], line["debits"])
            if all(now <= then for now, then in zip(due_sums(status), approved)):
                people.add(line["by"])
    return enough(day, "cut", people, "the cut", "cut")


def approvers_of(day: Day, name: str, digest: str) -> list[str]:
    """Returns the persons of the transmission of a file with these bytes."""
    people = {line["by"] for line in day.journal.lines if line["did"] == "approved" and line["what"] == "send"
              and (line["file"], line["sha256"]) == (name, digest)}
    return enough(day, "send", people, f"the transmission of {name}", name)


def enough(day: Day, kind: str, people: set[str], what: str, word: str) -> list[str]:
    if person := hooks.person():
        people = people | {person}
    if day.settings.is_on("approval", kind) and len(people) < 2:
        so_far = f" So far: {' '.join(sorted(people))}." if people else ""
        raise Refused(f"{what} needs two persons.{so_far} Another one runs achdesk-day approve {word}")
    return sorted(people)
