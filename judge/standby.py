#!/usr/bin/env python3
"""Kills the machine that serves a desk on a disk that two machines replicate:
`python3 judge/standby.py [PROGRAM] [--kills N] [--entries N] [--seed S]`. PROGRAM is the built program if it is left out.

Two machines run in qemu with emulated processors, Debian's kernel and its DRBD, and `deploy/standby/achdesk.res`. Companies and an
operator ask again until they are answered. The machine that serves is killed at random instants, and what its system kept in
memory is lost; the other one takes over. Also: the other one is away and comes back, and the one that serves is killed as
soon as both disks have all writes again, or earlier, when the other one must refuse to serve; the cable between both is cut,
and either goes on; both are killed at once. After each, receipts and files are asked for again. At the end the files of both
disks must be equal, and stock SQLite finds each receipt and each file there, and nothing twice.

A stand-in of the judge switches machines off and decides which one serves, as Pacemaker and its fencing do: they are not tried.
`--entries N` fills the desk with N sent entries first. The status is 1 if something is wrong, and 2 if something is missing,
which is named: qemu-system-x86, busybox-static, drbd-utils, e2fsprogs, nginx and a kernel of Debian (judge/helpers/machine.py
says how it is found without installing it).
"""

import argparse
import contextlib
import signal
import statistics
import sys
import tempfile
import time
from collections.abc import Callable
from pathlib import Path

from helpers import standby_root
from helpers.running import program_of
from helpers.standby_desks import Desks, Takeover, both
from helpers.standby_filled import filled
from helpers.standby_load import Wrong, must
from helpers.standby_machine import Gone

GRACE = 2  # seconds in which an answer that was on its way when the cable was cut may still arrive
SIZE = 48 << 20
SIZE_OF_ENTRIES = 640  # bytes of the file and its log for each, see bench/RESULTS.md
TIMES = {"a kill after the other machine was away": 2, "a kill while the other machine's disk is behind": 1, "a cut, the one that serves goes on": 2,
         "a cut, the other one goes on": 3, "both killed at once": 2}


class Judge:
    def __init__(self, desks: Desks):
        self.desks, self.random, self.takeovers, self.counts = desks, desks.random, list[Takeover](), dict[str, int]()

    def wait(self, longest: float = 2.5) -> None:
        """The load goes on."""
        time.sleep(self.random.uniform(0.2, longest))

    def kill(self) -> float:
        """The machine that serves loses its power, and when."""
        lost_at = time.monotonic()
        self.desks.serving.lose_power()
        return lost_at

    def taken_over(self, lost_at: float) -> str:
        takeover = self.desks.take_over(lost_at)
        self.takeovers.append(takeover)
        return f"{takeover}, {self.desks.look()} looked at"

    # ---- what happens; each leaves both machines with all writes

    def killed(self) -> str:
        self.wait()
        said = self.taken_over(self.kill())
        return f"{said}, both disks whole after {self.desks.come_back():.0f} s"

    def away_and_back(self) -> str:
        """The other machine is lost and comes back; once it has all writes, the one that serves is killed."""
        self.lose_other()
        self.wait(5)
        device = self.desks.device(self.desks.serving)
        must("achdesk-standby reports one copy", (device.is_whole, device.metrics()["achdesk_standby_peer_up_to_date"], device.metrics()["achdesk_standby_serving"]), (False, 0, 1))
        must("what was written meanwhile is known", device.behind > 0)
        self.desks.come_back()
        return f"{device.behind} bytes copied; {self.killed()}"

    def behind(self) -> str:
        """The other machine comes back, and the one that serves is killed before the copy is whole: nobody may serve without it."""
        desks = self.desks
        self.lose_other()
        desks.serving.run("dd if=/dev/urandom of=/srv/achdesk/more bs=1M count=16 2> /dev/null && sync")
        desks.start(desks.other)
        desks.wait_for("the copy has begun", lambda device: device.connection == "SyncTarget", desks.other)
        desks.serving.lose_power()
        desks.wait_for("the loss is noticed", lambda device: not device.is_connected, desks.other)
        status, said = desks.other.tries("drbdadm primary achdesk")
        must("a disk that is behind is not made writable", (status != 0, "Need access to UpToDate data" in said), (True, True))
        lost_at = time.monotonic()
        desks.start(desks.serving)
        desks.serving, desks.other = desks.other, desks.serving
        said = self.taken_over(lost_at)
        desks.wait_until_whole()
        desks.serving.run("rm /srv/achdesk/more")
        return f"refused; the one with all writes came back: {said}"

    def cut_and_goes_on(self) -> str:
        """The cable is cut. The one that serves answers no write until the other one is off."""
        desks = self.desks
        self.wait()
        cut_at = self.cut()
        first = desks.wait_for_answer(cut_at + GRACE)
        off_at = desks.pair.switch.off_at.get(desks.other.name, 0)
        must("the other machine is off before a write is answered", cut_at < off_at < first)
        looked = desks.look()
        self.mend()
        desks.come_back()
        return f"the other one off after {off_at - cut_at:.1f} s, the next write answered after {first - cut_at:.1f} s, {looked} looked at"

    def cut_and_fenced(self) -> str:
        """The cable is cut, and the cluster decides for the other machine. The one that served answers nothing any more."""
        desks, loser = self.desks, self.desks.serving
        self.wait()
        desks.pair.switch.winner = desks.other.name
        cut_at = self.cut()
        time.sleep(self.random.uniform(0, 8))
        said = self.taken_over(cut_at)
        off_at = desks.pair.switch.off_at[loser.name]
        must("the loser is off before the other one is writable", cut_at < off_at <= cut_at + self.takeovers[-1].writable)
        must("writes that the loser answered after the cut", desks.answers(loser, cut_at + GRACE), [])
        desks.pair.switch.winner = None
        self.mend()
        desks.come_back()
        return f"off after {off_at - cut_at:.1f} s, nothing answered by it; {said}"

    def both_killed(self) -> str:
        """Both lose their power at once and start again. Either may serve."""
        desks = self.desks
        self.wait()
        lost_at = time.monotonic()
        both(lambda it: it.lose_power(), desks.pair.machines)
        both(desks.start, desks.pair.machines)
        desks.wait_until_whole()
        if self.random.random() < 0.5:
            desks.serving, desks.other = desks.other, desks.serving
        return self.taken_over(lost_at)

    # ---- parts of them

    def lose_other(self) -> None:
        """The other machine loses its power, and the one that serves goes on alone."""
        self.wait()
        lost_at = time.monotonic()
        self.desks.other.lose_power()
        self.desks.wait_for_answer(lost_at + GRACE)

    def cut(self) -> float:
        self.desks.wait_until_whole()
        self.random.choice(self.desks.pair.machines).plug(False)
        return time.monotonic()

    def mend(self) -> None:
        """Puts the cable in again, at the end of the machine that lives."""
        self.desks.serving.plug(True)

    def run(self, what: str, work: Callable[[], str], times: int) -> None:
        for number in range(1, times + 1):
            self.desks.wait_until_whole()
            before = len(self.desks.load.receipts)
            said = work()
            must("the load goes on", self.desks.load.failure, None)
            self.counts[what] = number
            print(f"ok      {what}, {number}: {before} acknowledged before; {said}", flush=True)


def spread(takeovers: list[Takeover]) -> str:
    """Median and longest seconds of takeovers until they served."""
    served = [it.served for it in takeovers]
    return f"median {statistics.median(served):.1f} s, longest {max(served):.1f} s"


def judged(desks: Desks, kills: int, is_alone: bool) -> None:
    judge = Judge(desks)
    judge.run("a kill of the machine that serves", judge.killed, kills)
    of_kills = list(judge.takeovers)
    works = (judge.away_and_back, judge.behind, judge.cut_and_goes_on, judge.cut_and_fenced, judge.both_killed)
    for (what, times), work in zip(TIMES.items(), works):
        judge.run(what, work, 0 if is_alone else times)
    held = desks.end()
    print(f"ok      both files: {held['submissions']} submissions, {held['files']} files, {held['sent']} entries sent, each once")
    print(f"takeovers after a kill: {spread(of_kills)}; machines that were taken for lost and lived: {desks.surprises}")
    print(f"{sum(judge.counts.values())} disturbances ({kills} kills alone), {len(desks.load.receipts)} receipts and {len(desks.load.files)} files compared, 0 lost, 0 twice")


def main() -> None:
    parser = argparse.ArgumentParser(description=__doc__, formatter_class=argparse.RawDescriptionHelpFormatter)
    parser.add_argument("program", nargs="?")
    parser.add_argument("--kills", type=int, default=20)
    parser.add_argument("--kills-alone", action="store_true", help="leaves out everything but the kills")
    parser.add_argument("--entries", type=int, default=0, help="sent entries that the desk has first")
    parser.add_argument("--ping-timeout", type=int, metavar="SECONDS", help="in place of the second of the shipped resource, on a host so busy that a machine that lives does not answer in time")
    parser.add_argument("--seed", type=int, default=int(time.time()))
    given = parser.parse_args()
    signal.signal(signal.SIGTERM, lambda *_: sys.exit(1))  # ends the machines too
    if lacking := standby_root.missing():
        print(f"not tried: it needs {', '.join(lacking)}")
        sys.exit(2)
    program = program_of([given.program] if given.program else [])
    print(f"seed {given.seed}", flush=True)
    with tempfile.TemporaryDirectory(prefix="standby-", dir="/var/tmp") as folder, contextlib.ExitStack() as stack:
        size = SIZE + 2 * SIZE_OF_ENTRIES * given.entries
        image = Path(folder) / "files"
        desks = Desks(Path(folder), program, given.seed, size, image, given.ping_timeout)
        stack.callback(desks.close)
        try:
            filled(program, desks.load, given.entries, image)
            desks.set_up()
            judged(desks, given.kills, given.kills_alone)
        except (Wrong, Gone) as fault:
            print(f"FAILED  {fault}\n{desks.pair.consoles()}", flush=True)
            sys.exit(1)


if __name__ == "__main__":
    main()
