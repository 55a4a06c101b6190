#!/usr/bin/env python3
"""Tries a disk that fails a sync and then loses power: `python3 judge/failed_sync.py [--user-mode] [PROGRAM] [PART ..]`.

In a virtual machine with systemd, or with --user-mode in one whose kernel is a program of this machine, the desk's file is on a
device of the device mapper. While submissions come in, the device refuses to write the log's blocks (dm-flakey, error_writes) for a
moment. The desk then answers 503 until it is started again. After the restart submissions are answered 201; then the power goes: no
write reaches the device any more, and the file system is mounted again.

Each with both options of --sync:

- cached: nobody reads again from the device. The restart has neither achdesk-guard, nor the desk's own posix_fadvise, by which it
  drops the pages of its files whenever it opens them (an LD_PRELOAD takes it away). With --sync once 201s that were answered after
  it are lost. If none is, the try does not show anything.
- alone: the desk is restarted without achdesk-guard. It drops the pages itself, and no 201 is lost.
- shipped: achdesk-guard.service finds the desk, raises an alarm, and restarts it, which compares both files with the device and drops
  what differs. No 201 is lost, neither one from before the failure nor one from after the restart.
- guarded: as shipped, but the desk does not drop the pages itself.
- nightly: the nightly restart does so too.

It needs a C compiler, dmsetup, and what judge/helpers/machine.py or user_mode.py lists. PROGRAM is the built program if it is left out. The status
is 1 if a check failed, and 2 if something is missing, which is named; that is not a pass.
"""

import itertools
import os
import re
import shutil
import subprocess
import sys
import tempfile
import time
from pathlib import Path

from helpers.running import Checks, program_of

DEVICE = "/dev/vda" if Path("/dev/vda").exists() else "/dev/ubda"  # of a virtual machine, or of one in user mode
MAPPED, LIBRARY, WAITING = "/dev/mapper/desk", "/usr/lib/judge-no-advice.so", Path("/var/lib/achdesk-alarm/waiting")
WARMING, LATER = 400, 12  # submissions before the failure, so that the log begins again, and after the restart
# The desk's own posix_fadvise does nothing; the guard's, in the same unit, does.
WITHOUT_ADVICE = f"ExecStart=\nExecStart=/usr/bin/env LD_PRELOAD={LIBRARY} /usr/bin/achdesk serve /var/lib/achdesk/bank.db $DESK_PORT $DESK_OPTIONS\n"
NO_ADVICE = "int posix_fadvise(int f, long o, long n, int a) { return 0; }\nint posix_fadvise64(int f, long o, long n, int a) { return 0; }\n"


# ---- inside the machine

def sectors(installed):
    return int(installed.done("blockdev", "--getsz", DEVICE, check=True)[1])


def lines_of(extents, size, target):
    """A table of the device mapper: linear, but for these extents (first sector, sectors), which have another target."""
    lines, at = [], 0
    for first, count in sorted(extents):
        if first > at:
            lines.append(f"{at} {first - at} linear {DEVICE} {at}")
        lines.append(f"{first} {count} " + target.format(first=first))
        at = first + count
    if at < size:
        lines.append(f"{at} {size - at} linear {DEVICE} {at}")
    return "\n".join(lines)


def load(installed, table):
    """Puts a table into the place of the present one, without writing anything."""
    installed.done("dmsetup", "suspend", "--nolockfs", "--noflush", "desk", check=True)
    installed.done("dmsetup", "load", "desk", given=table, check=True)
    installed.done("dmsetup", "resume", "desk", check=True)


def extents_of(installed, path):
    """The sectors of a file."""
    printed = installed.done("filefrag", "-v", "-b512", path, check=True)[1]
    return [(int(first), int(count)) for first, count in re.findall(r"^\s*\d+:\s+\d+\.\.\s*\d+:\s+(\d+)\.\.\s*\d+:\s+(\d+):", printed, re.M)]


def mount(installed):
    installed.done("mount", "-o", "errors=remount-ro,commit=300", MAPPED, "/var/lib/achdesk", check=True)


def new_file_system(installed):
    """A file system on the device with a new desk that is served, whose log has begun again."""
    installed.done("systemctl", "stop", "achdesk")
    installed.done("umount", "/var/lib/achdesk")
    installed.done("dmsetup", "remove", "desk")
    size = sectors(installed)
    installed.done("dmsetup", "create", "desk", given=f"0 {size} linear {DEVICE} 0", check=True)
    installed.done("mkfs.ext4", "-q", "-F", "-E", "lazy_itable_init=0,lazy_journal_init=0", MAPPED, check=True)
    mount(installed)
    installed.done("chown", "achdesk:achdesk", "/var/lib/achdesk", check=True)
    installed.done("chmod", "750", "/var/lib/achdesk", check=True)
    installed.make_desk()
    installed.done("systemctl", "start", "achdesk", check=True)
    installed.wait_for_desk()
    installed.begin_bank()
    head, again = b"", 0
    log, answered = Path(f"{installed.DESK}-wal"), []
    for number in range(WARMING):
        if installed.submit(f"BEFORE-{number}", 30) == 201:
            answered.append(f"BEFORE-{number}")
        now = log.read_bytes()[16:24]
        again += now != head
        head = now
        if again >= 3 and number % 7 == 3:
            break
    print(f"        {len(answered)} submissions, the log began {again} times, it has {log.stat().st_size} bytes", flush=True)
    return size, answered


def fail_a_sync(installed, size):
    """Lets the device refuse the log's blocks until a submission was answered 503, and heals it."""
    os.sync()
    load(installed, lines_of(extents_of(installed, f"{installed.DESK}-wal"), size, f"flakey {DEVICE} {{first}} 0 3600 1 error_writes"))
    first = [installed.submit(f"DURING-{number}") for number in range(3)]
    load(installed, f"0 {size} linear {DEVICE} 0")
    after = [installed.submit(f"HEALED-{number}") for number in range(2)]
    return first + after


def lose_power(installed, size):
    """From here on no write reaches the device. What it has is mounted anew."""
    load(installed, f"0 {size} error")
    installed.done("systemctl", "kill", "--signal=KILL", "achdesk")
    installed.done("systemctl", "stop", "achdesk")
    installed.done("umount", "/var/lib/achdesk")
    installed.done("umount", "-l", "/var/lib/achdesk")
    installed.done("dmsetup", "remove", "--force", "--retry", "desk")
    installed.done("dmsetup", "create", "desk", given=f"0 {size} linear {DEVICE} 0")
    mount(installed)


def after_power(installed):
    """Starts the desk after the power went, and returns the references that it has."""
    installed.done("systemctl", "start", "achdesk")
    return installed.refs() if installed.wait_for_desk() else None


def with_drop_in(installed, text):
    folder = Path("/etc/systemd/system/achdesk.service.d")
    shutil.rmtree(folder, ignore_errors=True)
    if text:
        folder.mkdir()
        (folder / "judge.conf").write_text(text)
    installed.done("systemctl", "daemon-reload", check=True)


def later(installed, name):
    """Submits after the restart, and returns what was answered 201."""
    return [ref for ref in (f"{name}-{number}" for number in range(LATER)) if installed.submit(ref) == 201]


def found_after_power(installed, size):
    lose_power(installed, size)
    return after_power(installed)


def cached(installed, checks, option):
    """What the guard and the desk's open are for."""
    with_drop_in(installed, f"[Service]\nExecStartPre=\n{WITHOUT_ADVICE}")
    size, before = new_file_system(installed)
    checks.that("a failed sync is 503, and so is each call after it", set(fail_a_sync(installed, size)), {503})
    installed.done("systemctl", "restart", "achdesk")
    installed.wait_for_desk()
    answered = later(installed, "CACHED")
    lost = sorted({*before, *answered} - (found_after_power(installed, size) or set()))
    print(f"        read from memory: {len(answered)} answered after the restart, lost: {' '.join(lost) or 'none'}", flush=True)
    checks.that("the desk went on", len(answered), LATER)
    if option == "once":
        checks.that("if nobody reads again from the device, 201s from after the restart are lost", any(it.startswith("CACHED") for it in lost))
    with_drop_in(installed, "")


def alone(installed, checks, option):
    with_drop_in(installed, "[Service]\nExecStartPre=\n")
    size, before = new_file_system(installed)
    checks.that("without the guard a failed sync is 503, and so is each call after it", set(fail_a_sync(installed, size)), {503})
    installed.done("systemctl", "restart", "achdesk")
    installed.wait_for_desk()
    answered = later(installed, "ALONE")
    found = found_after_power(installed, size) or set()
    checks.that(f"the desk that opens its files drops their pages: none of {len(before) + len(answered)} 201s is lost", (len(answered), sorted({*before, *answered} - found)[:3]), (LATER, []))
    with_drop_in(installed, "")


def guarded(installed, checks, option):
    with_drop_in(installed, f"[Service]\n{WITHOUT_ADVICE}")
    shipped(installed, checks, option)
    with_drop_in(installed, "")


def shipped(installed, checks, option):
    for path in WAITING.glob("*.json"):  # of an earlier part
        path.unlink()
    began = int(time.time())
    size, before = new_file_system(installed)
    checks.that("a failed sync is 503, and so is each call after it", set(fail_a_sync(installed, size)), {503})
    installed.done("systemctl", "start", "achdesk-guard.service")
    checks.that("the guard finds the desk", installed.ended("achdesk-guard.service"), ("exit-code", "4"))
    checks.that("and has restarted it", installed.wait_for_desk())
    printed = installed.done("journalctl", "-u", "achdesk", "--since", f"@{began}", "-o", "cat", "--no-pager")[1]
    checks.that("which has dropped what the device did not take", bool(re.search(r"bank.db-wal.*bytes in memory were not those of its disk, and are dropped", printed)))
    for _ in range(60):
        alarms = [path.read_text() for path in WAITING.glob("*.json")]
        if alarms:
            break
        time.sleep(0.5)
    checks.that("an alarm waits", [("achdesk-guard.service" in it, "answers 503 to a call that needs its file" in it) for it in alarms], [(True, True)])
    answered = later(installed, "AFTER")
    installed.done("systemctl", "start", "achdesk-guard.service")
    checks.that("the guard finds nothing now", installed.ended("achdesk-guard.service"), ("success", "0"))
    found = found_after_power(installed, size)
    checks.that(f"none of {len(before)} 201s from before the failure is lost", found is not None and sorted(set(before) - found)[:3], [])
    checks.that(f"none of {len(answered)} 201s from after the restart is lost", (len(answered), sorted(set(answered) - (found or set()))), (LATER, []))


def nightly(installed, checks, option):
    size, before = new_file_system(installed)
    fail_a_sync(installed, size)
    installed.done("systemctl", "start", "achdesk-restart.service")
    installed.wait_for_desk()
    answered = later(installed, "NIGHT")
    found = found_after_power(installed, size) or set()
    checks.that(f"after the nightly restart none of {len(before) + len(answered)} 201s is lost", (len(answered), sorted({*before, *answered} - found)[:3]), (LATER, []))


PARTS = {it.__name__: it for it in (cached, alone, guarded, shipped, nightly)}


def inside(words):
    from helpers import installed
    os.environ["DM_DISABLE_UDEV"] = "1"  # no udev makes the names of devices
    installed.install()
    installed.done("install", "-m", "755", "/judge/no_advice.so", LIBRARY, check=True)  # only root gets into /judge
    checks = Checks()
    options = Path("/etc/achdesk/achdesk.env")
    shipped_options = options.read_text()
    for name, option in itertools.product(words or PARTS, ("once", "twice")):
        print(f"---- {name}, --sync {option}", flush=True)
        options.write_text(re.sub(r"(?m)^DESK_OPTIONS=.*", rf"\g<0> --sync {option}", shipped_options))
        PARTS[name](installed, checks, option)
    if checks.failed:
        print(installed.done("journalctl", "--no-pager", "-o", "short-monotonic", "-u", "achdesk*")[1][-8_000:])
        print(installed.done("dmesg")[1][-4_000:])
    print(f"{checks.count} checks, {checks.failed} failed", flush=True)
    sys.exit(1 if checks.failed else 0)


# ---- on the host

def main():
    from helpers import installed, machine, user_mode
    kind, made = (user_mode, user_mode.UserMode) if "--user-mode" in sys.argv[1:] else (machine, machine.Machine)
    told = [it for it in sys.argv[1:] if it != "--user-mode"]
    lacking = kind.missing() + [package for name, package in (("dmsetup", "dmsetup"), ("mkfs.ext4", "e2fsprogs"), ("filefrag", "e2fsprogs"), ("make", "make"), ("cc", "gcc")) if not shutil.which(name, path=os.environ["PATH"] + ":/usr/sbin:/sbin")]
    if lacking:
        print(f"not tried: it needs {', '.join(lacking)}")
        sys.exit(2)
    words = [it for it in told if it in PARTS]
    program = program_of([it for it in told if it not in PARTS])
    with tempfile.TemporaryDirectory(prefix="judge-failed-sync-") as folder:
        installed.tree(Path(folder) / "tree", program)
        subprocess.run(["cc", "-shared", "-fPIC", "-x", "c", "-", "-o", f"{folder}/no_advice.so"], input=NO_ADVICE, text=True, check=True)
        disk = Path(folder) / "disk"
        with open(disk, "wb") as file:
            file.truncate(192 << 20)
        with made(folder, modules=("dm_flakey", "ext4")) as it:
            printed, status = it.run(f"cd {Path(__file__).resolve().parent} && exec /usr/bin/python3 failed_sync.py --inside {' '.join(words)}\n", 3600, disks=[disk])
        print(printed, end="")
        if status is None:
            print("the machine did not end:", (Path(folder) / "console").read_text(errors="replace")[-2000:])
        sys.exit(0 if status == 0 else 1)


if __name__ == "__main__":
    inside(sys.argv[2:]) if sys.argv[1:2] == ["--inside"] else main()
