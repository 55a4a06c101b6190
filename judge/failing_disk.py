#!/usr/bin/env python3
"""Tries a disk that fails a sync and then loses power: `python3 judge/failing_disk.py [PROGRAM]`.

The desk's file is on an ext4 of its own, on a device whose image is in a small tmpfs. While that tmpfs is full the device refuses to
write new blocks, and a sync of the desk fails; then the tmpfs grows, and the device is well. The power goes when the image is copied:
the copy has what the device had taken, and is mounted and opened. Between the loop device and the image is qemu's storage daemon by FUSE:
without it Linux's loop device reports a write of which the tmpfs took a part as a whole one, and a sync that lost data succeeds.

- shipped: the desk answers 503 until it is started again, and `achdesk-guard ask` finds it. As the unit does, `achdesk-guard reread` reads
  both files again before the start. No 201 is lost.
- guarded: the same, but an LD_PRELOAD takes the desk's own posix_fadvise away. No 201 is lost by what the guard does alone.
- alone: without the guard the desk drops these pages itself when it opens its files, by posix_fadvise. No 201 is lost.
- cached: with neither, 201s that were answered after the restart are lost. If none is, the try does not show anything.

Each is tried with both options of --sync. With `once` the device refuses zeros that are written ahead of the log, so that the guard finds
no byte that differs; without it later writes to these pages are lost all the same. With `twice` it finds bytes that do.

It needs root, a loop device, /dev/fuse, a C compiler and Debian's e2fsprogs, mount and qemu-system-common. judge/failed_sync.py tries the same with the installed units and the
device mapper in a virtual machine. PROGRAM is the built program if it is left out. The status is 1 if a check failed, and 2 if
something is missing, which is named.
"""

import http.client
import itertools
import json
import os
import shutil
import subprocess
import sys
import tempfile
import time
from pathlib import Path

from helpers.running import HOST, IDENTITY, MILL, MILL_KEY, OPERATOR_KEY, TOP, Checks, Serving, program_of

GUARD = TOP / "deploy" / "achdesk-guard"
MIB = 1 << 20
IMAGE, LATER, MOST = 96 * MIB, 10, 12  # bytes of the file system, submissions after the restart, and while the disk fails
NO_ADVICE = "int posix_fadvise(int f, long o, long n, int a) { return 0; }\n"


def run(*words):
    return subprocess.run([str(it) for it in words], capture_output=True, text=True, check=True).stdout


def ask(port, method, path, body=None, key=OPERATOR_KEY):
    """The status of an answer, or 0 without one."""
    link = http.client.HTTPConnection(HOST, port, timeout=120)
    try:
        link.request(method, path, body, {"X-Desk-Key": key, "Connection": "close"})
        answer = link.getresponse()
        answer.read()
        return answer.status
    except (OSError, http.client.HTTPException):
        return 0
    finally:
        link.close()


def submit(port, ref):
    entries = [{"routing": "091000019", "account": "123456789", "kind": "checking", "cents": 100 + at, "id": f"E{at}", "name": "ANN LEE"} for at in range(40)]
    told = {"ref": ref, "sec": "PPD", "direction": "credit", "description": "PAYROLL", "day": "2025-01-15", "entries": entries}
    return ask(port, "POST", "/c/MILL01/submissions", json.dumps(told), MILL_KEY)


def exported(image, device):
    """Offers an image as another file, whose writes fail as a whole or not at all."""
    device.touch()
    it = subprocess.Popen(["qemu-storage-daemon", "--blockdev", f"driver=file,node-name=disk,filename={image}", "--export",
                           f"type=fuse,id=export,node-name=disk,mountpoint={device},writable=on"], stdin=subprocess.DEVNULL, stdout=subprocess.DEVNULL)
    until = time.monotonic() + 60
    while str(device) not in Path("/proc/mounts").read_text():
        if time.monotonic() > until or it.poll() is not None:
            sys.exit("the device is not there")
        time.sleep(0.05)
    return it


class Disk:
    """A file system on a device whose image is in a tmpfs."""

    def __init__(self, folder):
        self.below, self.mounted, self.after = folder / "below", folder / "mounted", folder / "after"
        for path in (self.below, self.mounted, self.after):
            path.mkdir()
        run("mount", "-t", "tmpfs", "-o", f"size={IMAGE * 2}", "none", self.below)
        self.image, self.filler, self.journal = self.below / "image", self.below / "filler", folder / "journal"
        for path, size in ((self.image, IMAGE), (self.journal, 8 * MIB)):
            with open(path, "wb") as file:
                file.truncate(size)
        self.device = folder / "device"
        self.daemon = exported(self.image, self.device)
        self.loops = [run("losetup", "--find", "--show", path).strip() for path in (self.journal, self.device)]
        run("mkfs.ext4", "-q", "-F", "-b", "4096", "-O", "journal_dev", self.loops[0])
        run("mkfs.ext4", "-q", "-F", "-b", "4096", "-m", "0", "-J", f"device={self.loops[0]}", "-E", "lazy_itable_init=0,nodiscard", self.loops[1])
        run("mount", "-o", "commit=300", self.loops[1], self.mounted)
        self.file = self.mounted / "bank.db"

    def fail(self):
        """From here on the device refuses each block that was never written. The journal is on another device."""
        run("sync", "-f", self.mounted)
        size = int(os.statvfs(self.below).f_bfree) * os.statvfs(self.below).f_bsize
        with open(self.filler, "wb") as file:
            os.posix_fallocate(file.fileno(), 0, size)

    def heal(self):
        self.filler.unlink()

    def lose_power(self):
        """Returns the desk's file as the device had it, on a copy of the image."""
        loops = []
        for path in (self.journal, self.image):
            shutil.copyfile(path, self.after / path.name)
            loops.append(run("losetup", "--find", "--show", self.after / path.name).strip())
        self.loops += loops
        there = self.after / "mounted"
        there.mkdir()
        run("mount", "-o", f"journal_path={loops[0]}", loops[1], there)
        copy = self.after / "copy"
        copy.mkdir()
        for path in there.glob("bank.db*"):
            shutil.copy(path, copy)
        run("umount", there)
        return copy / "bank.db"

    def end(self):
        for path in (self.mounted, self.below):
            subprocess.run(["umount", "-l", str(path)], capture_output=True)
        for loop in self.loops:
            subprocess.run(["losetup", "--detach", loop], capture_output=True)
        self.daemon.terminate()
        self.daemon.wait()


def begun(program, disk, options):
    """A desk on the disk with a company, a day and some submissions."""
    made = subprocess.run([program, "init", str(disk.file), *IDENTITY], capture_output=True)
    if made.stdout != b"created\n":
        sys.exit(f"no desk was made: {made}")
    desk = Serving(program, disk.file, 1_000_000, patience=5, options=options).listen(600)
    ask(desk.port, "POST", "/ops/companies", MILL)
    ask(desk.port, "POST", "/ops/day", '{"day":"2025-01-08"}')
    return desk, [ref for ref in (f"BEFORE-{number}" for number in range(6)) if submit(desk.port, ref) == 201]


def opened(program, path):
    """What an opened desk has: the references that the company asks for, or None if it does not open."""
    with Serving(program, path, 1_000_000, patience=5) as desk:
        if not desk.wait_for_line(600).startswith(b"listening"):
            return None
        return {ref for ref in NAMES if ask(desk.port, "GET", f"/c/MILL01/submissions/{ref}", key=MILL_KEY) == 200}


NAMES = [f"{kind}-{number}" for kind in ("BEFORE", "DURING", "HEALED", "AFTER") for number in range(12)]


def tried(program, checks, folder, kind, option, dropped):
    """A failure, a restart, submissions, and the power. Returns the 201s of each time, and which are found. `dropped` takes whether the guard
    found bytes in memory that the device does not have."""
    what, environment = f"{kind}, --sync {option}", {"LD_PRELOAD": str(folder / "no_advice.so")} if kind in ("cached", "guarded") else {}
    keys, answered = folder / "desk.map", {}
    keys.write_text(f'"~^operator$" "{OPERATOR_KEY}";\n')
    subprocess.run(["cc", "-shared", "-fPIC", "-x", "c", "-", "-o", folder / "no_advice.so"], input=NO_ADVICE, text=True, check=True)
    disk = Disk(folder)
    try:
        desk, answered["before"] = begun(program, disk, ["--sync", option])
        guarded = [sys.executable, GUARD, "ask", str(desk.port), "--keys", keys]
        disk.fail()
        during = [submit(desk.port, f"DURING-{number}") for number in range(MOST)]
        answered["during"] = [f"DURING-{number}" for number, status in enumerate(during) if status == 201]
        disk.heal()
        healed = [submit(desk.port, f"HEALED-{number}") for number in range(2)]
        checks.that(f"{what}: a failed sync is 503, and so is each call after it, though the disk is well again", (len(answered["before"]), sorted(during) == during, during[-2:], healed), (6, True, [503] * 2, [503] * 2))
        checks.that(f"{what}: the guard finds it", subprocess.run(guarded, capture_output=True).returncode, 4)
        desk.stop()
        if kind in ("shipped", "guarded"):
            done = subprocess.run([sys.executable, GUARD, "reread", disk.file], capture_output=True, text=True)
            checks.that(f"{what}: the guard reads both files again", (done.returncode, done.stdout.count("is as its disk has it")), (0, 2))
            dropped.append("are dropped" in done.stdout)
            print("        " + done.stdout.strip().replace("\n", "\n        "), flush=True)
        with Serving(program, disk.file, 1_000_000, patience=5, options=["--sync", option], environment=environment).listen(600) as desk:
            checks.that(f"{what}: the guard finds nothing after the restart", subprocess.run([*guarded[:3], str(desk.port), *guarded[4:]]).returncode, 0)
            answered["after"] = [ref for ref in (f"AFTER-{number}" for number in range(LATER)) if submit(desk.port, ref) == 201]
            path = disk.lose_power()
        return answered, opened(program, path)
    finally:
        disk.end()


def main():
    lacking = [package for name, package in (("mkfs.ext4", "e2fsprogs"), ("losetup", "mount"), ("qemu-storage-daemon", "qemu-system-common"), ("cc", "gcc"))
               if not shutil.which(name, path=os.environ["PATH"] + ":/usr/sbin:/sbin")]
    lacking += [] if os.geteuid() == 0 and Path("/dev/loop-control").exists() and Path("/dev/fuse").exists() else ["root, a loop device and /dev/fuse"]
    program, checks, lost_cached, dropped = program_of(sys.argv[1:]), Checks(), [], []
    if lacking:
        print(f"not tried: it needs {', '.join(lacking)}")
        sys.exit(2)
    for kind, option in itertools.product(("cached", "alone", "guarded", "shipped"), ("once", "twice")):
        with tempfile.TemporaryDirectory(prefix="judge-failing-disk-") as folder:
            answered, found = tried(program, checks, Path(folder), kind, option, dropped)
        lost = [ref for refs in answered.values() for ref in refs if ref not in (found or set())]
        print(f"        {kind}, --sync {option}: {len(answered['during'])} answered 201 while the disk failed; lost: {' '.join(lost) or 'none'}", flush=True)
        if kind == "cached":
            lost_cached += [it for it in lost if it.startswith("AFTER")]
        else:
            checks.that(f"{kind}, --sync {option}: no 201 is lost", (len(answered["before"]), len(answered["after"]), found is not None, lost), (6, LATER, True, []))
    checks.that("if nobody reads again from the disk, 201s from after the restart are lost", bool(lost_cached))
    checks.that("the guard found bytes that the disk does not have, and dropped them", any(dropped))
    checks.end()


if __name__ == "__main__":
    main()
