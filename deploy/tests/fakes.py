"""A desk and an SFTP server that are fakes of this process."""

from __future__ import annotations

import datetime
from pathlib import Path

import achdesk

from achdesk_day import hooks
from achdesk_day.nacha import summed
from achdesk_day.stops import NoAnswer, Rejected, Stop, Unavailable
from achdesk_day.transfer import Listed

MON, TUE, WED = (datetime.date(2025, 1, it) for it in (13, 14, 15))


def file_of(name: str, *cents: int, company: str = "MILL01") -> bytes:
    """A file as a cut makes it: one batch of credits."""
    date = name[2:10].replace("-", "")
    entries = [f"622091000019123456789        {it:010}{f'E{at}':15}{f'RECEIVER {at}':22}  012104288{at:07}" for at, it in enumerate(cents, 1)]
    count, hashed, debits, credits = summed(entries)
    sums = f"{hashed:010}{debits:012}{credits:012}"
    header = f"101 061000146 121042882{date}0930{name[11]}094101{'ACH OPERATOR':23}{'OUR BANK':23}{' ' * 8}"
    batch = f"5220{'MILL STREET':16}{' ' * 20}{company:10}PPD{'PAYROLL':10}{date}{date}   1121042880000001"
    control = f"8220{count:06}{sums}{company:10}{' ' * 25}121042880000001"
    records = [header, batch, *entries, control]
    records.append(f"9000001{-(-(len(records) + 1) // 10):06}{count:08}{sums}{' ' * 39}")
    records += ["9" * 94] * (-len(records) % 10)
    assert {len(it) for it in records} == {94}, sorted({len(it) for it in records})
    return "".join(f"{it}\n" for it in records).encode()


class FakeDesk:
    """A desk with one company, whose cut puts each due submission into one file."""

    def __init__(self) -> None:
        self.day: datetime.date | None = None
        self.due: list[int] = []
        self.files: dict[str, bytes] = {}
        self.sent = self.holidays = 0
        self.lists: list[list[datetime.date]] = []
        self.taken: list[bytes] = []
        self.closed: set[datetime.date] = set()
        self.fails: dict[str, list[Stop]] = {}
        self.asked: list[str] = []
        self.many_files: int | None = None  # that a cut would make, in place of one
        self.is_older = False

    def __call__(self, *_: object) -> FakeDesk:
        return self

    def ask(self, what: str) -> None:
        hooks.step()
        self.asked.append(what)
        if self.fails.get(what):
            raise self.fails[what].pop(0)

    def status(self) -> achdesk.Status:
        self.ask("status")
        tally = achdesk.Tally(len(self.due), sum(self.due))
        none = achdesk.Tally(0, 0)
        due = (achdesk.DueDay(self.day or MON, tally, none),) if self.due else ()
        company = achdesk.CompanyStatus("MILL01", "MILL STREET", achdesk.Held(tally, none), due, 0)
        modifiers = tuple(name[11] for name in sorted(self.files) if name[:10] == str(self.day))
        sizes = (None, None, None) if self.is_older else (len(self.due), len(self.due), self.many_files or min(1, len(self.due)))
        return achdesk.Status(self.day, (company,), modifiers, self.holidays, self.sent, 0, *sizes)

    def file(self, name: str) -> bytes | None:
        self.ask("file")
        return self.files.get(name)

    def set_day(self, day: datetime.date) -> None:
        self.ask("set_day")
        if day in self.closed:
            raise Rejected("NotBankingDay", "NotBankingDay", "NotBankingDay")
        self.day = day

    def set_holidays(self, days: list[datetime.date]) -> None:
        self.ask("set_holidays")
        self.lists.append(days)
        self.holidays = len(days)

    def cut(self) -> achdesk.CutMade:
        is_lost = any(isinstance(it, NoAnswer) for it in self.fails.get("cut", []))
        if not is_lost:
            self.ask("cut")
        assert self.day
        modifier = "ABCDEFGH"[sum(name[:10] == str(self.day) for name in self.files)]
        made = achdesk.CutMade(self.day, len(self.due), (modifier,) if self.due else (), 0)
        if self.due:
            self.files[f"{self.day}-{modifier}"] = file_of(f"{self.day}-{modifier}", *self.due)
        self.sent, self.due = self.sent + len(self.due), []
        if is_lost:
            self.ask("cut")
        hooks.step()
        return made

    def take_returns(self, text: bytes) -> achdesk.ReturnsTaken:
        self.ask("take_returns")
        assert self.day
        if text not in self.taken:
            self.taken.append(text)
        return achdesk.ReturnsTaken(self.day, 1, 0, 0, 0)

    def companies(self) -> achdesk.Companies:
        return achdesk.Companies(self.day or MON, ())

    def suspense(self) -> tuple[achdesk.SuspenseItem, ...]:
        return ()

    def settlement(self) -> achdesk.Settlement:
        return achdesk.Settlement(self.day or MON, 0, ())


class FakeServer:
    """The ACH operator's SFTP server: its folder, and all that ever got a name there."""

    def __init__(self) -> None:
        self.folder: dict[str, bytes] = {}
        self.received: list[tuple[str, bytes]] = []
        self.is_quick = False
        self.fails: dict[str, list[Stop]] = {}
        self.stores = 1.0
        self.settled: list[tuple[str, str]] = []

    def __call__(self, *_: object) -> FakeServer:
        return self

    def ask(self, what: str) -> None:
        hooks.step()
        if self.fails.get(what):
            raise self.fails[what].pop(0)

    def name(self, file: str) -> str:
        return f"{file}.ach"

    def path(self, name: str) -> str:
        return name

    def names(self) -> set[str]:
        self.ask("names")
        return set(self.folder)

    def listed(self, path: str | None = None) -> list[Listed]:
        self.ask("listed")
        return [Listed(name, len(text), "Jan 14 09:00") for name, text in sorted(self.folder.items()) if path in (None, name)]

    def text(self, name: str, scratch: Path, most: int) -> bytes:
        self.ask("text")
        return self.folder[name]

    def put(self, source: Path, name: str) -> None:
        self.ask("put")
        text = source.read_bytes()
        self.folder[f"{name}.part"] = text[:int(len(text) * self.stores)]
        hooks.step()
        if self.stores < 1:
            raise Unavailable(f"the SFTP server has {int(len(text) * self.stores)} bytes of {name}.part")

    def rename(self, name: str) -> None:
        self.ask("rename")
        if name in self.folder:
            raise Unavailable("Failure")
        text = self.folder.pop(f"{name}.part")
        self.received.append((name, text))
        if not self.is_quick:
            self.folder[name] = text
        hooks.step()

    def settle(self, name: str, then: str, moved: str) -> None:
        self.settled.append((name, then))
        if then != "keep":
            del self.folder[name]
