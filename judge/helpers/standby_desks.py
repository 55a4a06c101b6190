"""A desk on the disk that two machines replicate, under load: it is moved from one to the other, and what it holds is compared."""

import importlib.machinery
import importlib.util
import random
import sys
import threading
import time
from collections.abc import Callable
from dataclasses import dataclass
from pathlib import Path
from types import ModuleType
from typing import Any, TypeVar

from helpers.running import TOP
from helpers.standby_load import Load, Wrong, must
from helpers.standby_machine import Gone, Machine, Pair, dump

M = TypeVar("M", bound=Machine)
NEWEST, SOME = 200, 50  # receipts that are asked for again after each takeover, and older ones; the end compares all
SERVE = "achdesk serve /srv/achdesk/desk/bank.db 8080 --connections 1000000 < /dev/null > /dev/console 2>&1 &"
LISTENS = "until grep -q ':1F90 00000000:0000 0A' /proc/net/tcp; do pidof achdesk > /dev/null || sleep 1; sleep 0.05; done"
UP = "until drbdadm up achdesk; do drbdadm down achdesk; sleep 1; done"  # on a busy host it gives up after five seconds
PRIMARY = "until drbdadm primary achdesk 2> /dev/null; do sleep 0.1; done"


def shipped_check() -> ModuleType:
    """`achdesk-standby`, as a module."""
    loader = importlib.machinery.SourceFileLoader("achdesk_standby", str(TOP / "deploy/standby/achdesk-standby"))
    spec = importlib.util.spec_from_loader("achdesk_standby", loader)
    assert spec
    module = importlib.util.module_from_spec(spec)
    sys.modules["achdesk_standby"] = module
    loader.exec_module(module)
    return module


@dataclass(frozen=True)
class Takeover:
    """Seconds from the loss of a machine until the other one was writable, mounted, served, and answered a client's write."""

    writable: float
    mounted: float
    served: float
    answered: float

    def __str__(self) -> str:
        return f"writable after {self.writable:.1f} s, served after {self.served:.1f} s, a write answered after {self.answered:.1f} s"


class Desks:
    def __init__(self, work: Path, program: str, seed: int, size: int, files: Path, ping_timeout: int | None = None):
        self.work, self.random = work, random.Random(seed)
        self.pair = Pair(work, program, size, files, ping_timeout)
        self.serving, self.other = self.pair.machines
        self.load: Any = Load([it.port for it in self.pair.machines], seed, patience=60)
        self.check, self.looked, self.surprises = shipped_check(), set[Any](), 0

    # ---- from nothing

    def set_up(self) -> None:
        """The steps of the page: the disk, the file system, the desk's files."""
        both(lambda it: it.start(), self.pair.machines)
        both(lambda it: it.run(f"drbdadm create-md achdesk; {UP}"), self.pair.machines)
        self.wait_for("the machines are connected", lambda device: device.connection == "Connected", self.serving)
        self.serving.run("drbdadm primary --force achdesk && mkfs.ext4 -q /dev/drbd0 && mount -o noatime /dev/drbd0 /srv/achdesk && mkdir /srv/achdesk/desk")
        self.serving.run("mkdir /files && mount -t ext4 -o ro /dev/vdb /files && cp /files/bank.db* /srv/achdesk/desk/ && sync && umount /files", 900)
        self.wait_until_whole()
        self.serve()
        self.load.begin()

    # ---- the state of the disks

    def device(self, machine: Machine) -> Any:
        return self.check.device_of(machine.proc_drbd(), 0)

    def wait_for(self, what: str, holds: Callable[[Any], bool], machine: Machine) -> None:
        until = time.monotonic() + 600
        while not holds(self.device(machine)):
            must(f"{what}: {machine.proc_drbd()}", time.monotonic() < until)
            time.sleep(0.5)

    def wait_until_whole(self) -> None:
        """Waits until `achdesk-standby` says that both disks have all writes. A machine that was switched off is started."""
        until = time.monotonic() + 900
        while not self.device(self.serving).is_whole:
            must(f"both disks have all writes: {self.serving.proc_drbd()}", time.monotonic() < until)
            if self.other.process is None:
                self.surprises += 1
                self.start(self.other)
            time.sleep(0.5)

    # ---- what a cluster would do

    def serve(self) -> None:
        self.serving.run(SERVE)
        self.serving.run(LISTENS, 900)
        self.serving.run("pidof nginx > /dev/null || nginx -c /etc/proxy.conf -e stderr > /dev/console 2>&1")

    def take_over(self, lost_at: float) -> Takeover:
        """The other machine becomes the one that serves.

        On a busy host an emulated machine may be taken for lost, and be switched off, at any time. If that happened to the other
        one right now, the one that is lost has what it lacks, and comes back."""
        lost = self.serving
        self.serving, self.other = self.other, self.serving
        try:
            self.serving.run(PRIMARY)
        except Gone:
            self.surprises += 1
            self.serving, self.other = lost, self.serving
            self.start(lost)
            self.serving.run(PRIMARY)
        writable = time.monotonic()
        self.serving.run("mount -o noatime /dev/drbd0 /srv/achdesk")
        mounted = time.monotonic()
        self.serve()
        served = time.monotonic()
        answered = self.wait_for_answer(lost_at)
        return Takeover(*(it - lost_at for it in (writable, mounted, served, answered)))

    def answers(self, machine: Machine, since: float) -> list[float]:
        """When the machine answered a write well since an instant."""
        return [at for at, port, status in list(self.load.answers) if port == machine.port and at > since and status < 300]

    def wait_for_answer(self, since: float, seconds: float = 300) -> float:
        """When the machine that serves first answered a write since an instant."""
        until = time.monotonic() + seconds
        while not (came := self.answers(self.serving, since)):
            must(f"{self.serving.name} answers", time.monotonic() < until and not self.load.failure)
            time.sleep(0.05)
        return came[0]

    def start(self, machine: Machine) -> None:
        machine.start()
        machine.run(UP)

    def come_back(self) -> float:
        """Starts the machine that was lost, and waits for its disk. Returns the seconds that both took."""
        began = time.monotonic()
        self.start(self.other)
        self.wait_until_whole()
        return time.monotonic() - began

    # ---- what is compared

    def look(self) -> int:
        """Sends submissions again and fetches files again, the newest and some older ones."""
        receipts, files = list(self.load.receipts), list(self.load.files)
        new = [it for it in receipts + files if it not in self.looked][-NEWEST:]
        old = [it for it in receipts + files if it in self.looked]
        some = new + self.random.sample(old, min(SOME, len(old)))
        self.load.look_again(self.serving.port, [it for it in some if it in self.load.receipts], [it for it in some if it in self.load.files])
        self.looked.update(new)
        return len(some)

    def end(self) -> dict[str, int]:
        """Stops everything in order, and compares the files of both disks with all that was answered."""
        self.load.stop()
        self.wait_until_whole()
        self.serving.run("kill $(pidof achdesk); while pidof achdesk > /dev/null; do sleep 0.1; done; umount /srv/achdesk && drbdadm secondary achdesk")
        both(lambda it: it.run("drbdadm down achdesk && sync"), self.pair.machines)
        both(lambda it: it.lose_power(), self.pair.machines)
        copies = [self.copy(it) for it in self.pair.machines]
        for name in ("bank.db", "bank.db-wal"):
            one, two = ((it / name).read_bytes() for it in copies)
            must(f"{name} is the same on both disks", one == two)
        return dict(self.load.check_file(copies[0] / "bank.db"))

    def copy(self, machine: Machine) -> Path:
        folder = self.work / f"copy{machine.number}"
        folder.mkdir()
        dump(machine.disk, {f"/desk/{name}": folder / name for name in ("bank.db", "bank.db-wal")})
        return folder

    def close(self) -> None:
        self.load.over.set()
        self.pair.close()


def both(work: Callable[[M], object], machines: list[M]) -> None:
    """Does something with both machines at once."""
    faults: list[BaseException] = []

    def guarded(machine: M) -> None:
        try:
            work(machine)
        except BaseException as fault:
            faults.append(fault)

    threads = [threading.Thread(target=guarded, args=(it,)) for it in machines]
    for it in threads:
        it.start()
    for it in threads:
        it.join()
    if faults:
        raise faults[0] if isinstance(faults[0], Wrong) else Wrong(repr(faults[0]))
