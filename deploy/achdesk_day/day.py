"""Which files there are, and what became of them."""

from __future__ import annotations

import datetime
from typing import NoReturn

from achdesk import Status

from achdesk_day.durable import sha256
from achdesk_day.journal import Line
from achdesk_day.run import Run
from achdesk_day.stops import Refused
from achdesk_day.values import FILE_NAME, MODIFIERS, ONE_DAY, date_of, order_of

# Lines of the journal that say what became of a file. `renaming` follows `sending`, right before the file gets its name at
# the ACH operator: an upload that was interrupted before it has not been transmitted.
STATES = ("sending", "renaming", "not-sent", "uploaded", "marking", "sent", "withheld", "remade")
OPEN = ("sending", "renaming", "uploaded")
MEMORY = datetime.timedelta(60)
OTHER_BYTES = "has other bytes on the desk"


class Day(Run):
    """A command's run, with what the desk, the journal and the archive know of files.

    A file counts as transmitted if the journal or the archive says so: if one of them does not, `unclear` lists it."""

    def first_day(self, status: Status) -> datetime.date | None:
        """Returns the first day whose files this program has to transmit, or None before the first desk day. It is no
        later than the desk day, also if the desk was restored from an older backup."""
        line, day = self.journal.last("closed", "begun"), status.day
        if line:
            return min(date_of(line["from"]), day or datetime.date.max)
        if status.sent == 0:
            return day
        raise Refused(f"the desk has sent {status.sent} entries, and the journal does not say from which day on "
                      "achdesk-day transmits files: see achdesk-day begin --help")

    def files_of_day(self, day: datetime.date, status: Status) -> list[str]:
        """Lists the names of a day's files: from the status, or by asking until there is none."""
        if day == status.day:
            return [f"{day}-{modifier}" for modifier in status.files]
        names = []
        for modifier in MODIFIERS:
            name = f"{day}-{modifier}"
            if not self.archived(name) and self.desk.file(name) is None:
                break
            names.append(name)
        return names

    def files_since(self, first: datetime.date | None, status: Status) -> list[str]:
        """Lists all files from a day to the desk day, in the order in which they were made."""
        names: list[str] = []
        day = first
        while day and status.day and day <= status.day:
            names += self.files_of_day(day, status)
            day += ONE_DAY
        return names

    def begin(self, day: datetime.date | None) -> None:
        """Records the first day whose files this program transmits, unless the journal has one."""
        if day and not self.journal.last("closed", "begun"):
            self.record("begun", **{"from": str(day)})

    def archived(self, name: str) -> bool:
        return (self.outgoing / f"{name}.ach").exists()

    def states(self) -> dict[str, Line]:
        """Returns for each file the newest line of the journal that says what became of it."""
        return {line["file"]: line for line in self.journal.lines if line["did"] in STATES}

    def is_transmitted(self, name: str) -> bool:
        """Whether the archive or the journal says that a file of this name was transmitted."""
        return self.archived(name) or self.states().get(name, {}).get("did") == "sent"

    def unclear(self) -> list[tuple[str, str]]:
        """Lists files of the last `MEMORY` days of which the journal says something else than the archive, as (name, why)."""
        states, since = self.states(), str(self.local_now().date() - MEMORY)
        lines = {line["file"]: line for line in self.journal.lines if line["did"] == "sent" and line["file"] >= since}
        lacks = [(name, "was transmitted by the journal, and the archive lacks it") for name in lines
                 if states[name]["did"] == "sent" and not self.archived(name)]
        more = [(path.stem, "is in the archive, and the journal does not say that it was transmitted")
                for path in sorted(self.outgoing.glob("*.ach")) if path.stem >= since and path.stem not in lines
                and states.get(path.stem, {}).get("did") not in (*OPEN, "marking")]
        return lacks + more

    def open_uploads(self) -> dict[str, Line]:
        """Returns the uploads that are not finished: for each file its newest line, of those in `OPEN`."""
        return {name: line for name, line in self.states().items() if line["did"] in OPEN}

    def second_uploads(self) -> dict[str, Line]:
        """Returns those of `send --again` that are not finished, of files that were transmitted before."""
        return {name: line for name, line in self.open_uploads().items()
                if "again" in line and (self.archived(name) or self.journal.last("sent", file=name))}

    def open_marks(self) -> dict[str, Line]:
        """Returns the marks that are not finished: for each file its line `marking`."""
        return {name: line for name, line in self.states().items() if line["did"] == "marking"}

    def was_withheld(self, name: str) -> bool:
        """Whether the bank withheld a file of this name, and has decided nothing else since."""
        return self.states().get(name, {}).get("did") in ("withheld", "remade")

    def is_withheld(self, name: str) -> bool:
        """Whether the bank withheld the file that the desk has under this name. A restored desk may make another one."""
        return (self.was_withheld(name)
                and self.journal.last("withheld", file=name, sha256=sha256(self.desk.file(name) or b"")) is not None)

    def not_transmitted(self, status: Status) -> list[str]:
        """Lists the files that are neither transmitted nor withheld, or whose upload or mark is not finished, oldest
        first."""
        names = [name for name in self.files_since(self.first_day(status), status)
                 if not self.is_transmitted(name) and not self.is_withheld(name)]
        return sorted({*names, *self.open_uploads(), *self.open_marks()}, key=order_of)

    def known_files(self, status: Status) -> list[str]:
        """Lists the files that are known without asking the desk for any: those of the desk day by the status, and those of
        earlier days by the journal, which has each cut of this program and each file that `open` found untransmitted.
        Cuts that a restore took back do not count."""
        names: set[str] = set()
        restored_to = "9"
        for line in reversed(self.journal.lines):
            if line["did"] == "restored":
                restored_to = min(restored_to, line["began"])
            elif line["did"] == "cut" and line["at"] < restored_to:
                names |= {f"{line['day']}-{letter}" for letter in line["files"]}
            elif line["did"] == "unsent" and line["at"] < restored_to:
                names |= {*line["files"]}
        first = str(self.first_day(status))
        return [*(name for name in names if first <= name[:10] < str(status.day)),
                *(f"{status.day}-{letter}" for letter in status.files)]

    def untransmitted(self, status: Status) -> set[str]:
        """Lists the known files that are neither transmitted nor withheld, or whose upload or mark is not finished."""
        states = self.states()
        names = {name for name in self.known_files(status)
                 if not self.is_transmitted(name) and states.get(name, {}).get("did") != "withheld"}
        return names | {*self.open_uploads(), *self.open_marks()}

    def sent_names(self) -> list[str]:
        """Lists the files that were transmitted or whose upload was begun, oldest first."""
        marks = {name for name, line in self.open_marks().items() if line["how"] != "withheld"}
        sent = {name for name, line in self.states().items() if line["did"] == "sent"}
        names = {path.stem for path in self.outgoing.glob("*.ach")} | set(self.open_uploads()) | marks | sent
        return sorted((name for name in names if FILE_NAME.fullmatch(name)), key=order_of)

    def acknowledged(self) -> dict[str, str]:
        """Returns when each file was acknowledged since it was transmitted last, by name."""
        found: dict[str, str] = {}
        for line in self.journal.lines:
            if line["did"] == "acknowledged":
                found[line["file"]] = line["at"]
            elif line["did"] == "sent":
                found.pop(line["file"], None)
        return found

    def corrected(self, name: str, text: bytes) -> set[str]:
        """Returns the traces of entries of which `correct` has written returns, for the file with these bytes. A restored
        desk may have another one under its name."""
        digest = sha256(text)
        return {trace for line in self.journal.lines if line["did"] == "correcting"
                and (line["file"], line["sha256"]) == (name, digest) for trace in line["traces"]}

    def archived_bytes(self, name: str) -> bytes:
        path = self.outgoing / f"{name}.ach"
        return (path if path.exists() else self.sending / f"{name}.ach").read_bytes()

    def sent_digest(self, name: str) -> str | None:
        """Returns the SHA-256 of the desk's file that was transmitted, by the journal, or by the archive if the journal
        has none, or None if neither has it."""
        line = self.journal.last("sending", "marking", "sent", file=name)
        digest: str | None = line.get("sha256") if line else None
        if digest is None and self.archived(name):
            return sha256(self.archived_bytes(name))
        return digest

    def not_on_desk(self) -> list[tuple[str, str]]:
        """Lists, oldest first, sent files that the desk does not have, or has with other bytes, as (name, why).
        Cuts make files in order, so the newest file that the desk has with its bytes ends the search."""
        lost: list[tuple[str, str]] = []
        for name in reversed(self.sent_names()):
            text = self.desk.file(name)
            if text is not None and sha256(text) == self.sent_digest(name):
                break
            if text is None:
                lost.append((name, "is not on the desk"))
            elif not self.journal.last("differs", file=name, desk=sha256(text)):
                lost.append((name, OTHER_BYTES))
        self.note_lost([name for name, _ in lost])
        return lost[::-1]

    def note_lost(self, names: list[str]) -> None:
        """Records which sent files the desk lacks, for the metrics, if that has changed."""
        last = self.journal.last("lost")
        if sorted(names) != (last["files"] if last else []):
            self.record("lost", files=sorted(names))

    def refuse_lost(self, lost: list[tuple[str, str]], what: str) -> NoReturn:
        listed = ", ".join(f"{name} {why}" for name, why in lost)
        raise Refused(f"{what} would pay twice: the archive has files that were transmitted, but {listed}. "
                      "The desk was restored from an older backup: see achdesk-day restore --help")
