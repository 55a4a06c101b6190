"""The command send."""

from __future__ import annotations

import datetime
import time
from pathlib import Path

from achdesk_day.approval import approvers_of
from achdesk_day.archive import archive, fetched, found_remade
from achdesk_day.day import Day
from achdesk_day.durable import sha256
from achdesk_day.journal import Line
from achdesk_day.leave import has_standby, is_first, leave
from achdesk_day.mark import finish_mark
from achdesk_day.nacha import Totals
from achdesk_day.stops import Refused, Unavailable
from achdesk_day.takeover import open_mark, refuse_unconfirmed
from achdesk_day.transfer import Server
from achdesk_day.values import file_name


def send(day: Day) -> None:
    """Transmits each file that was not transmitted, or one file again. With --retry it tries again until the window of
    the ACH operator closes."""
    if day.words.again:
        send_again(day, file_name(day.words.again))
        return
    while True:
        try:
            send_all(day)
            return
        except Unavailable as stop:
            pause = day.settings.number("sftp", "retry")
            if not day.words.retry:
                raise
            if not is_window_open(day, pause):
                end = day.settings["sftp"]["window"]
                raise Refused(f"not everything was transmitted until the ACH operator's window closed at {end}: {stop}") from None
            day.say(f"{stop}; the next attempt is in {pause} seconds")
        day.end_run()
        time.sleep(pause)
        day.begin_run()


def is_window_open(day: Day, seconds: int) -> bool:
    """Whether the ACH operator still takes files in so many seconds."""
    day.settings.needed("sftp", "window")
    end, then = day.settings.time("sftp", "window"), day.local_now() + datetime.timedelta(seconds=seconds)
    return end is not None and then.time() < end and then.date() == day.local_now().date()


def send_all(day: Day) -> None:
    status = day.desk_status()
    refuse_unconfirmed(day, status)
    first, waiting = day.first_day(status), day.not_transmitted(status)
    day.begin(first)
    for name, why in day.unclear():
        day.alarm(f"{name} {why}. It is not transmitted. Compare both, and see A file that the archive or the journal "
                  "lacks in /usr/share/doc/achdesk/docs/operate/troubleshooting.md")
    if lost := day.not_on_desk():
        day.refuse_lost(lost, "transmitting")
    remade = [name for name in waiting if day.was_withheld(name)]
    for name in remade:
        day.alarm(found_remade(day, name))
    waiting = [name for name in waiting if name not in remade]
    if day.dry or not waiting:
        day.say(f"to transmit: {' '.join(waiting) or 'nothing'}")
    if not day.dry:
        transmit_all(day, waiting)
    if first and not day.status and status.day and first < status.day:
        day.record("closed", **{"from": str(status.day)})


def transmit_all(day: Day, names: list[str]) -> None:
    """Transmits files. One that is refused holds back itself; if two in a row fail, the server is taken to be down."""
    failed: list[Unavailable] = []
    server = day.server() if names else None
    for name in names:
        try:
            if server:
                transmit(day, server, name)
                failed = failed[:1]
        except Refused as stop:
            day.alarm(str(stop))
            if open_mark(day):
                break
        except Unavailable as stop:
            failed.append(stop)
            if len(failed) > 1:
                break
    if failed:
        raise failed[0]
    leave(day, *(f"outgoing/{name}.ach" for name in names if day.archived(name)))


def send_again(day: Day, name: str) -> None:
    """Transmits a file for which a person has decided so, unless what is in it was paid or given back by other means."""
    refuse_unconfirmed(day, day.desk_status())
    text = day.archived_bytes(name) if day.archived(name) else day.desk.file(name)
    if "copy" in day.states().get(name, {}) or text and day.corrected(name, text):
        raise Refused(f"{name} is not transmitted: another file was transmitted in its place, or its entries were "
                      "given back by achdesk-day correct")
    if (at := day.acknowledged().get(name)) and not day.words.though_acknowledged:
        raise Refused(f"the ACH operator acknowledged {name} on {at}, and may process it twice. Ask it first; "
                      "--though-acknowledged transmits it all the same")
    if not day.dry:
        transmit(day, day.server(), name, is_again=True)
        leave(day)


def transmit(day: Day, server: Server, name: str, is_again: bool = False) -> None:
    """Uploads a file unless the server has it, and archives it. An unclear upload is left to a person."""
    if mark := day.open_marks().get(name):
        finish_mark(day, mark)
        return
    state = day.open_uploads().get(name)
    again = {"again": True} if is_again or state and "again" in state else {}
    path, totals = fetched(day, name)
    if not state or state["did"] != "uploaded" or is_again:
        there, final = server.names(), server.name(name)
        if final in there:
            if server.text(final, day.sending / f".{name}.back", 2 * path.stat().st_size) != path.read_bytes():
                day.alarm(f"{name} is not transmitted: the SFTP server has another file with the name {final}")
                return
            if is_again:
                raise Refused(f"the SFTP server has {final} already; it has to be taken away first")
            day.say(f"{name} is on the SFTP server")
        elif state and state["did"] == "renaming" and not is_again and final + ".part" not in there:
            day.alarm(unclear_upload(name, state, name in day.second_uploads()))
            return
        else:
            upload(day, server, path, name, totals, **again)
        day.record("uploaded", file=name, **again)
    archive(day, path, name, totals)


def unclear_upload(name: str, state: Line, is_second: bool) -> str:
    times, by_list = (" a second time", "") if is_second else ("", "achdesk-day ack or ")
    return (f"it is unclear whether {name} was transmitted{times}: the upload of {state['at']} was interrupted, and neither name is on "
            f"the SFTP server. Ask the ACH operator; then run {by_list}achdesk-day mark {name} --transmitted if it arrived, or "
            f"achdesk-day send --again {name}")


def upload(day: Day, server: Server, path: Path, name: str, totals: Totals, **again: bool) -> None:
    """Uploads a file under a temporary name, and gives it its name. The intent is on the standby before the server has
    anything of the file, and says if a person had it transmitted again."""
    text = path.read_bytes()
    people = approvers_of(day, name, sha256(text))
    has_standby(day.settings)
    day.record("sending", file=name, sha256=sha256(text), bytes=len(text), **totals.facts(), people=people, **again)
    try:
        if not is_first(day):
            day.record("not-sent", file=name, why="the standby knows of this transmission")
            day.record("rolled-back")
            raise Refused(f"{name} is not transmitted: the standby knows of a transmission that this journal does not have")
        leave(day, f"{path.parent.name}/{path.name}")
        server.put(path, server.name(name))
    except Unavailable as stop:
        day.record("not-sent", file=name, why=str(stop))
        raise Unavailable(f"{name} was not transmitted: {stop}") from None
    day.record("renaming", file=name, sha256=sha256(text), bytes=len(text), **totals.facts(), **again)
    try:
        server.rename(server.name(name))
    except Unavailable as stop:
        raise Unavailable(f"{name} was uploaded and perhaps not renamed: {stop}. Run achdesk-day send again, which "
                          "looks") from None
