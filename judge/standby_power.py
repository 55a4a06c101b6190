#!/usr/bin/env python3
"""Takes the power from the disk of a desk under load: `python3 judge/standby_power.py [PROGRAM] [--kills N] [--seed S]`.

PROGRAM is the built program if it is left out, N 20. No second machine and no DRBD takes part: the disk plays a replicated one.
Companies and an operator ask again until they are answered. At a random instant the disk loses its power: nothing more
reaches it, and what the system still kept in memory is lost. The desk is killed, and a new one serves what is on the disk, at
another port. At the end stock SQLite reads the file: each receipt and each file must be there, and nothing twice.

The disk is a file behind qemu's storage daemon, FUSE and a loop device, which is killed. It needs qemu-system-common, root and
/dev/fuse.
"""

import argparse
import contextlib
import random
import shutil
import subprocess
import sys
import tempfile
import time
from pathlib import Path

from helpers.running import Serving, make_desk, program_of
from helpers.standby_load import Load, Wrong, must

SIZE = 96 << 20
SOME = 50  # older receipts that are looked at again after each loss


def call(*words, is_needed=True):
    done = subprocess.run(list(map(str, words)), stdout=subprocess.PIPE, stderr=subprocess.STDOUT, text=True)
    if done.returncode and is_needed:
        raise Wrong(f"{words[0]}: status {done.returncode}: {done.stdout.strip()}")
    return done.stdout.strip()


class Disk:
    """A file system on a disk that can lose its power."""

    def __init__(self, work):
        self.work, self.content, self.device, self.place = work, work / "disk", work / "device", work / "mounted"
        with open(self.content, "wb") as file:
            file.truncate(SIZE)
        self.place.mkdir()
        self.daemon = self.loop = None

    def switch_on(self):
        self.device.touch()
        words = ["qemu-storage-daemon", "--blockdev", f"driver=file,node-name=disk,filename={self.content},cache.direct=on",
                 "--export", f"type=fuse,id=export,node-name=disk,mountpoint={self.device},writable=on"]
        self.daemon = subprocess.Popen(words, stdin=subprocess.DEVNULL, stdout=subprocess.DEVNULL)
        until = time.monotonic() + 60
        while str(self.device) not in Path("/proc/mounts").read_text():
            must("the disk is there", time.monotonic() < until and self.daemon.poll() is None)
            time.sleep(0.02)
        self.loop = call("losetup", "--find", "--show", self.device)

    def mount(self):
        call("mount", "-t", "ext4", "-o", "nodiscard", self.loop, self.place)

    def lose_power(self):
        """Nothing reaches the disk any more."""
        self.daemon.kill()
        self.daemon.wait()

    def take_apart(self):
        """Drops what the system kept of the disk."""
        call("umount", self.place, is_needed=False)
        if self.loop:
            call("losetup", "--detach", self.loop, is_needed=False)
        call("umount", "-l", self.device, is_needed=False)
        self.loop = None


class Judge:
    def __init__(self, work, program, seed):
        self.program, self.random, self.disk = program, random.Random(seed), Disk(work)
        self.path, self.desk, self.load, self.seed, self.looked = self.disk.place / "bank.db", None, None, seed, set()

    def begin(self):
        call("mkfs.ext4", "-q", "-F", "-b", 4096, self.disk.content)
        self.disk.switch_on()
        self.disk.mount()
        make_desk(self.program, self.path)
        self.serve()
        spare = Serving(self.program, "/nonexistent", 1)  # its port is the other one
        spare.stop()
        self.ports = [self.desk.port, spare.port]
        self.load = Load(self.ports, self.seed)
        self.load.begin()

    def serve(self, port=None):
        self.desk = Serving(self.program, self.path, 1_000_000, **({"port": port} if port else {})).listen()

    def lose(self):
        """The disk loses its power under load, and a new desk serves what is on it."""
        time.sleep(self.random.uniform(0.2, 2.5))
        before = len(self.load.receipts)
        self.disk.lose_power()
        at = time.monotonic()
        time.sleep(self.random.choice((0, 0, 0.1)))
        self.desk.stop()
        self.disk.take_apart()
        self.disk.switch_on()
        self.disk.mount()
        self.ports.reverse()
        self.serve(self.ports[0])
        return f"{before} acknowledged before, {self.look()} looked at, served again after {time.monotonic() - at:.1f} s"

    def look(self):
        receipts, files = list(self.load.receipts), list(self.load.files)
        new = [it for it in receipts + files if it not in self.looked]
        old = [it for it in receipts + files if it in self.looked]
        some = new + self.random.sample(old, min(SOME, len(old)))
        self.load.look_again(self.desk.port, [it for it in some if it in self.load.receipts], [it for it in some if it in self.load.files])
        self.looked.update(new)
        return len(some)

    def end(self):
        self.load.stop()
        self.desk.stop()
        copy = self.disk.work / "copy"
        copy.mkdir()
        for name in ("bank.db", "bank.db-wal"):
            shutil.copyfile(self.disk.place / name, copy / name)
        return self.load.check_file(copy / "bank.db")

    def close(self):
        if self.load:
            self.load.over.set()
        if self.desk:
            self.desk.stop()
        if self.disk.daemon:
            self.disk.lose_power()
        self.disk.take_apart()


def main():
    parser = argparse.ArgumentParser(description=__doc__, formatter_class=argparse.RawDescriptionHelpFormatter)
    parser.add_argument("program", nargs="?")
    parser.add_argument("--kills", type=int, default=20)
    parser.add_argument("--seed", type=int, default=int(time.time()))
    given = parser.parse_args()
    program = program_of([given.program] if given.program else [])
    print(f"seed {given.seed}", flush=True)
    with tempfile.TemporaryDirectory(prefix="standby-power-", dir="/var/tmp") as folder, contextlib.ExitStack() as stack:
        judge = Judge(Path(folder), program, given.seed)
        stack.callback(judge.close)
        try:
            judge.begin()
            for number in range(1, given.kills + 1):
                print(f"ok      loss {number}: {judge.lose()}", flush=True)
            held = judge.end()
        except Wrong as fault:
            print(f"FAILED  {fault}", flush=True)
            sys.exit(1)
    print(f"ok      the file: {held['submissions']} submissions, {held['files']} files, {held['sent']} entries sent, each once")
    print(f"{given.kills} losses of power, {len(judge.load.receipts)} receipts and {len(judge.load.files)} files compared, 0 lost, 0 twice")


if __name__ == "__main__":
    main()
