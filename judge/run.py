"""Runs the judges against a program: `python3 judge/run.py [--program PROGRAM] [--list] [WORD ..]`.

PROGRAM is the built program if it is left out: ./achdesk proves and builds it first. Without words all judges run that need
nothing but Python and the program; with words those run whose names have one of the words. One line reports how each judge
ended and how long it took; what a judge prints that failed follows its line. The last line counts. The status is 0 if all
passed, 1 if one failed, and 2 if no judge has one of the words or one lacks something that it needs, which is named: a judge
that did not run has not passed. judge/README.md says what each judge tries.
"""

import argparse
import importlib.util
import os
import shutil
import subprocess
import sys
import tempfile
import time
from dataclasses import dataclass
from pathlib import Path

from helpers.running import program_of

HERE = Path(__file__).resolve().parent
PATHS = f"{os.environ.get('PATH', '')}:/usr/sbin:/sbin"
# What judges need, and what has it: Debian's packages, but for the toolchain. A module of Python is named with a dot.
NEEDS = {"busybox": "busybox-static", "chromedriver": "chromium-driver", "chromium": "chromium", "curl": "curl", "debugfs": "e2fsprogs", "dmsetup": "dmsetup", "drbdadm": "drbd-utils", "gcc": "gcc", "ip": "iproute2", "lintian": "lintian", "linux.uml": "user-mode-linux",
         "logrotate": "logrotate", "losetup": "mount", "make": "make", "man": "man-db", "mkfs.ext4": "e2fsprogs", "mtail": "mtail", "mypy": "mypy", "nft": "nftables", "nginx": "nginx", "openssl": "openssl", "prometheus-alertmanager": "prometheus-alertmanager",
         "promtool": "prometheus", "qemu-storage-daemon": "qemu-system-common", "qemu-system-x86_64": "qemu-system-x86", "rclone": "rclone", "restic": "restic", "rsync": "rsync", "rt": "the Rattle toolchain", "sftp": "openssh-client", "sqlite3": "sqlite3", "ss": "iproute2", "sshd": "openssh-server",
         "strace": "strace", "valgrind": "valgrind", ".yaml": "python3-yaml"}


@dataclass(frozen=True)
class Judge:
    """A judge: its name, the words after the program's path, what it needs, and whether it runs if nobody asks for it by name."""

    name: str
    words: tuple = ()
    needs: tuple = ()
    is_long: bool = False
    takes_program: bool = True

    def is_asked(self):
        return self.is_long or bool(self.needs)

    def missing(self):
        """What it needs and this machine does not have."""
        return [NEEDS[it] for it in self.needs if not (importlib.util.find_spec(it[1:]) if it.startswith(".") else shutil.which(it, path=PATHS))]


JUDGES = (
    Judge("samples", takes_program=False),
    Judge("judge", ("15000",)),
    Judge("exhaustive"),
    Judge("migrated"),
    Judge("kill_nine", ("200",)),
    Judge("soak"),
    Judge("histories"),
    Judge("next_cut"),
    Judge("audit"),
    Judge("patience"),
    Judge("facts"),
    Judge("private_files"),
    Judge("left_unread"),
    Judge("statuses"),
    Judge("standby_states", takes_program=False),
    Judge("texts", takes_program=False),
    Judge("house_counts", ("--check",), takes_program=False),
    Judge("first_use", takes_program=False),
    Judge("clients", (), ("curl",)),
    Judge("sent_first", (), ("curl",)),
    Judge("pages", (), ("curl", "ss", "openssl", "sqlite3", "sftp")),
    Judge("growths_in_files", ("20",), ("gcc",)),
    Judge("deploy", (), ("nginx", "openssl", "lintian", "logrotate", "nft", "ip", "man", "make", "strace")),
    Judge("proxy", (), ("nginx", "openssl", "ip")),
    Judge("syncs", (), ("strace",)),
    Judge("day", (), ("nginx", "openssl", "sshd", "sftp", "curl", "rsync")),
    Judge("alarms", (), ("prometheus-alertmanager", "openssl"), takes_program=False),
    Judge("prometheus", (), ("promtool", "mtail"), takes_program=False),
    Judge("backups", (), ("nginx", "openssl", "sshd", "sftp", "curl", "rsync", "restic", "rclone")),
    Judge("units", ("--user-mode",), ("linux.uml", "busybox", "restic", "openssl", "make")),
    Judge("failing_disk", (), ("mkfs.ext4", "losetup")),
    Judge("failed_sync", ("--user-mode",), ("linux.uml", "busybox", "dmsetup", "make")),
    Judge("standby", ("--kills", "5"), ("qemu-system-x86_64", "busybox", "drbdadm", "mkfs.ext4", "debugfs", "nginx")),
    Judge("standby_power", ("--kills", "5"), ("qemu-storage-daemon", "losetup", "mkfs.ext4")),
    Judge("timing", (), ("nginx", "openssl", "valgrind")),
    Judge("clients_kit", (), ("nginx", "openssl")),
    Judge("typed", (), ("mypy",), takes_program=False),
    Judge("console", (), ("chromium", "chromedriver", "nginx")),
    Judge("openapi", (), (".yaml",)),
    Judge("benches", (), ("rt",), takes_program=False),
    Judge("growths", (), ("rt", "gcc"), takes_program=False),
    Judge("refused", (), ("rt",), takes_program=False),
    Judge("big_day", (), ("rt",)),
    Judge("costs", (), ("valgrind",), is_long=True),
    Judge("peaks", is_long=True),
    Judge("opening", is_long=True),
)


def chosen(words):
    """The judges whose names have one of the words; without words those that need nothing else."""
    if not words:
        return [it for it in JUDGES if not it.is_asked()]
    return [it for it in JUDGES if any(word in it.name for word in words)]


def ended(judge, program, folder):
    """Runs a judge in a folder of its own, and gives its status, what it printed, and the seconds that it took."""
    words = [program, *judge.words] if judge.takes_program else list(judge.words)
    start = time.monotonic()
    done = subprocess.run([sys.executable, str(HERE / f"{judge.name}.py"), *words], cwd=folder,
                          stdout=subprocess.PIPE, stderr=subprocess.STDOUT, text=True)
    return done.returncode, done.stdout, time.monotonic() - start


def run(judge, program):
    """Runs a judge, reports how it ended, and returns its status."""
    if judge.missing():
        print(f"{judge.name}: NOT RUN, it needs {', '.join(judge.missing())}", flush=True)
        return 2
    with tempfile.TemporaryDirectory(prefix="judge-") as folder:
        status, printed, seconds = ended(judge, program, folder)
    last = (printed.strip().splitlines() or [""])[-1]
    print(f"{judge.name}: {'passed' if status == 0 else f'FAILED, status {status}'}, {seconds:.0f} s: {last}", flush=True)
    if status:
        print(printed, end="" if printed.endswith("\n") else "\n", flush=True)
    return 1 if status else 0


def main():
    parser = argparse.ArgumentParser(description=__doc__, formatter_class=argparse.RawDescriptionHelpFormatter)
    parser.add_argument("--program")
    parser.add_argument("--list", action="store_true", help="prints the names of the judges that would run")
    parser.add_argument("words", nargs="*", metavar="WORD")
    given = parser.parse_args()
    judges = chosen(given.words)
    if not judges:
        print("no judge has one of these words; judge/README.md lists them")
        return 2
    if given.list:
        print("\n".join(it.name for it in judges))
        return 0
    program = program_of([given.program] if given.program else []) if any(it.takes_program for it in judges) else None
    statuses = [run(it, program) for it in judges]
    others = "" if given.words else f"; these run if they are named: {' '.join(it.name for it in JUDGES if it.is_asked())}"
    print(f"{len(judges)} judges, {statuses.count(1)} failed, {statuses.count(2)} not run{others}")
    return 1 if 1 in statuses else max(statuses)


if __name__ == "__main__":
    sys.exit(main())
