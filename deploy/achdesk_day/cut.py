"""The command cut."""

from __future__ import annotations

import dataclasses
import time
from typing import Any

from achdesk import CutMade, Status, Tally

from achdesk_day.approval import approvers_of_cut
from achdesk_day.archive import found_remade
from achdesk_day.day import OTHER_BYTES, Day
from achdesk_day.durable import sha256
from achdesk_day.holidays import is_closed
from achdesk_day.journal import Line
from achdesk_day.opening import AHEAD
from achdesk_day.stops import Misused, NoAnswer, Refused, Rejected, Unavailable
from achdesk_day.takeover import refuse_unconfirmed
from achdesk_day.values import MODIFIERS, date_of, due_sums, money

NOTHING_DUE = "nothing-due"  # a line of the journal: a cut of this day found nothing
OLDER_DESK = "the desk, an older one, does not report how many files a cut makes"


def cut(day: Day) -> None:
    """Cuts what is due."""
    status = day.desk_status()
    refuse_unconfirmed(day, status)
    if settle_earlier_cut(day, status):
        return
    day.say(shown_due(status))
    alarm_if_crowded(day, status)
    today, lost = day.local_now(), day.not_on_desk()
    if status.day != today.date() and not day.words.other_day:
        if is_closed(day, status, today.date()):
            day.say(f"{today.date()} is not a banking day; nothing is cut")
            return
        advice = AHEAD if status.day and status.day > today.date() else "Run achdesk-day open, or cut by --other-day"
        raise Refused(f"the desk day is {status.day} and today is {today.date()}. {advice}")
    cut_off = day.settings.time("bank", "cut_off")
    if cut_off and status.day == today.date() and today.time() >= cut_off and not day.words.late:
        raise Refused(f"it is {today:%H:%M}, past the cut-off time {cut_off:%H:%M}; --late cuts all the same")
    if lost and not (day.words.remake and makes_again(day, status, lost)):
        day.refuse_lost(lost, "a cut")
    for name in (name for name, why in lost if why == OTHER_BYTES):
        if not day.dry:
            compare_with_archive(day, name)
    if day.words.remake:
        compare_with_earlier_cut(day, status)
    if not any(it.due or it.lapsing for it in status.companies):
        day.say("nothing is due")
        day.record(NOTHING_DUE, day=str(status.day))
    elif not day.dry:
        send_cut(day, status)


def makes_again(day: Day, status: Status, lost: list[tuple[str, str]]) -> bool:
    """Whether a cut now can make a lost file again, or one of the desk day that was cut and not transmitted, as a withheld
    one: without it the next lost file would get its entries too."""
    made = {name for line in day.journal.lines if line["did"] == "cut" and line["day"] == str(status.day) for name in line["files"]}
    return lost[0][0][:10] == str(status.day) or not made <= set(status.files)


def compare_with_earlier_cut(day: Day, status: Status) -> None:
    """Refuses to make a cut again while more or less is due than was due for it: its files would have other bytes."""
    earlier = earlier_cut(day, status)
    if not earlier:
        return
    then, now = (earlier["submissions"], earlier["credits"], earlier["debits"]), due_sums(status)
    compared = f"the cut of {earlier['at']} had {shown_sums(*then)}"
    if then == now:
        day.say(f"{compared}, as are due now")
    elif day.dry:
        day.say(f"{compared}; now {shown_sums(*now)} are due")
    elif not day.words.again:
        raise Refused(f"{compared}; now {shown_sums(*now)} are due. Let companies send what they had sent before it. If "
                      "they have sent more, restore again. --again cuts all the same")


def earlier_cut(day: Day, status: Status) -> Line | None:
    """Returns the journal's line of the cut that made files on the desk day after those that the desk has now. After several
    restores there may be more: the last one whose files were transmitted or withheld counts, or else the first."""
    begun: Line = {}
    made: Line = {}
    found: Line | None = None
    names: set[str] = set()
    for line in day.journal.lines:
        if line["did"] == "cutting":
            begun = line
        elif line["did"] == "cut" and line["files"] and (begun.get("day"), begun.get("files")) == (str(status.day), list(status.files)):
            made, names = begun, {f"{status.day}-{letter}" for letter in line["files"]}
            found = found or made
        elif line["did"] == "differs":
            names.discard(line["file"])
        elif line["did"] in ("sent", "withheld") and line["file"] in names:
            found = made
    return found


def shown_sums(submissions: int, credits: int, debits: int) -> str:
    return f"{submissions:,} submissions, credits {money(credits)}, debits {money(debits)}"


def shown_due(status: Status) -> str:
    """Writes what is due by company and settlement day, and how many records and files that takes."""
    lines = [f"desk day {status.day}; files so far: {' '.join(status.files) or 'none'}"]
    for company in status.companies:
        for due, way in ((due, way) for due in company.due for way in ("credits", "debits")):
            tally: Tally = getattr(due, way)
            if tally.submissions:
                lines.append(f"  due {company.id:10} settles {due.day}  {way:7} "
                             f"{tally.submissions:7,} submissions {money(tally.cents):>20}")
        if company.lapsing:
            lines.append(f"  {company.id:10} {company.lapsing} retries would lapse")
    lines.append(f"files left today: {files_left(status)}; {due_files_of(status)}")
    return "\n".join(lines)


def files_left(status: Status) -> int:
    return len(MODIFIERS) - len(status.files)


def due_files_of(status: Status) -> str:
    """Says how many files a cut would make now, by the desk's own division, which an older desk does not report."""
    if status.due_files is None:
        return OLDER_DESK
    records = "" if status.due_records is None else f", with {status.due_records:,} entry and addenda records"
    return f"a cut makes {status.due_files} now{records}"


def alarm_if_crowded(day: Day, status: Status) -> None:
    """Raises an alarm if what is due takes a quarter of the day's files, or more than are left."""
    files, left = status.due_files, files_left(status)
    if files is not None and (4 * files >= len(MODIFIERS) or files > left):
        day.alarm(f"a cut would make {files} files now; {left} of the day's {len(MODIFIERS)} are left: see A company floods the desk in "
                  "/usr/share/doc/achdesk/docs/operate/troubleshooting.md", f"crowded on {status.day}")


def send_cut(day: Day, status: Status) -> None:
    """Records the cut and asks for it once. A lost answer is looked up, and the cut is not sent again."""
    day.begin(day.first_day(status))
    people = approvers_of_cut(day, status)
    submissions, credits, debits = due_sums(status)
    lapsing = sum(it.lapsing for it in status.companies)
    day.record("cutting", day=str(status.day), files=list(status.files), sent=status.sent, lapsing=lapsing,
               submissions=submissions, credits=credits, debits=debits, people=people)
    try:
        made = day.desk.cut()
    except NoAnswer as fault:
        look_for_cut(day, fault)
        return
    except Rejected as stop:
        day.record("not-cut", why=stop.refusal)
        raise Refused(f"the cut was refused: {stop.refusal}") from None
    except (Unavailable, Misused):
        day.record("not-cut", why="the desk was not reached, or changed nothing")
        raise
    record_cut(day, made)


def look_for_cut(day: Day, fault: NoAnswer) -> None:
    """Looks in the status for a cut without an answer, for as long as it may wait for its turn."""
    for wait in (1, 2, 4, 8):
        time.sleep(wait)
        try:
            if settle_earlier_cut(day, day.desk_status()):
                return
        except Refused:
            continue
    raise Refused(f"{fault}, and the status has no file of it yet. Run achdesk-day cut again later, which looks for it")


def settle_earlier_cut(day: Day, status: Status) -> bool:
    """Looks up a cut that had no answer. Returns whether it was made, in which case nothing is cut now."""
    begun = day.journal.unfinished("cutting", "cut", "not-cut", "restored", "confirmed-all")
    if not begun:
        return False
    names = day.files_of_day(date_of(begun["day"]), status)
    files = [name[11] for name in names][len(begun["files"]):]
    lapsing = sum(it.lapsing for it in status.companies)
    if files or status.sent > begun["sent"] or str(status.day) == begun["day"] and lapsing < begun["lapsing"]:
        day.say(f"the cut of {begun['at']} was made. What was submitted since is not cut: run achdesk-day cut again")
        entries, lapsed = status.sent - begun["sent"], max(0, begun["lapsing"] - lapsing)
        record_cut(day, CutMade(date_of(begun["day"]), entries, tuple(files), lapsed), found=True)
        return True
    if str(status.day) == begun["day"] and not day.words.again:
        raise Refused(f"the cut of {begun['at']} had no answer, and the status has no file of it. A request that waits "
                      "in the proxy may still make it: look again in some minutes. achdesk-day cut --again cuts now, "
                      "with all that came since")
    day.record("not-cut", why="the status has no file of it")
    return False


def record_cut(day: Day, made: CutMade, **facts: Any) -> None:
    day.record("cut", **dataclasses.asdict(made) | {"day": str(made.day), "files": list(made.files)}, **facts)
    day.say(f"cut on {made.day}: {made.entries} entries in files {' '.join(made.files) or 'none'}, "
            f"{made.lapsed} retries lapsed")
    for name in (f"{made.day}-{it}" for it in made.files):
        if day.is_transmitted(name):
            compare_with_archive(day, name)
        elif day.is_withheld(name):
            day.say(f"{name} is the file that was withheld, byte for byte; send leaves it out")
        elif day.was_withheld(name):
            day.alarm(found_remade(day, name))


def compare_with_archive(day: Day, name: str) -> None:
    """Compares a file that was made again with the one that was transmitted."""
    digest, kept = sha256(day.desk.file(name) or b""), day.sent_digest(name)
    if digest == kept:
        day.say(f"{name} is the file that was transmitted, byte for byte; it is not sent again")
    else:
        day.record("differs", file=name, desk=digest, archive=kept)
        day.alarm(f"{name} was made again with other bytes. The archive has what was transmitted; what is only in "
                  "the new file was not transmitted, and send will not transmit it")
