#!/usr/bin/env python3
"""Follows `docs/operate/standby.md` on two Debian machines: `python3 judge/standby_page.py --image IMAGE [PROGRAM] [--kills N]`.

PROGRAM is the built program if it is left out. Both machines run Debian 12 with systemd in qemu, with emulated processors. The
commands of the page are run on them as printed, in their order, with the files that the package installs: DRBD, Pacemaker with
Corosync, the desk behind nginx at the address of the page. A management controller of the judge stands in for real ones: the
shipped `fence_redfish` asks it, and it kills the machine or starts it. Under load of companies and an operator the desk is
moved on purpose, and back to a machine on which the proxy's first start fails; the machine that serves is killed, and its
networks are cut; Pacemaker alone decides who serves. At the end stock SQLite finds each receipt and each file in the file of
both disks, and nothing twice.

IMAGE is an ext4 file system with Debian's packages that the page installs, which `--make-image` makes by debootstrap first, in
some minutes, from the mirror of this machine. `--patience N` is for emulated machines on a busy host: it multiplies the timeouts
and intervals of the installed files and the pauses of the companies by N, and the timers that run every few minutes run once a day.
The status is 1 if something is wrong, and 2 if something is missing, which is named. It needs root, and what judge/standby.py
needs, debootstrap, iproute2, openssl and qemu-utils.
"""

import argparse
import os
import shutil
import signal
import subprocess
import sys
import tempfile
import time
from pathlib import Path

from helpers import cluster_machine, standby_root
from helpers.cluster_image import make_image
from helpers.cluster_trial import Trial
from helpers.running import TOP, program_of
from helpers.standby_load import Wrong
from helpers.standby_machine import Gone

NEEDED = {"debootstrap": "debootstrap", "ip": "iproute2", "openssl": "openssl", "qemu-img": "qemu-utils", "make": "make"}


def missing() -> list[str]:
    lacking = standby_root.missing()
    return lacking + [package for program, package in NEEDED.items() if not shutil.which(program, path=f"{os.environ['PATH']}:/usr/sbin")]


def package(program: str, folder: Path) -> Path:
    """The Debian package with this program."""
    words = ["make", "--no-print-directory", "-C", str(TOP), "deb", f"PROGRAM={program}", f"PACKAGES={folder}"]
    done = subprocess.run(words, stdout=subprocess.PIPE, stderr=subprocess.STDOUT, text=True)
    if done.returncode:
        raise Wrong(f"make deb: {done.stdout}")
    return next(folder.glob("*.deb"))


def tried(trial: Trial, kills: int) -> None:
    trial.set_up()
    trial.begin_load()
    trial.move()
    trial.move_with_a_failed_start()
    for _ in range(kills):
        trial.kill()
    trial.cut_networks()
    trial.end()


def main() -> None:
    parser = argparse.ArgumentParser(description=__doc__, formatter_class=argparse.RawDescriptionHelpFormatter)
    parser.add_argument("program", nargs="?")
    parser.add_argument("--image", required=True, type=Path)
    parser.add_argument("--make-image", action="store_true")
    parser.add_argument("--kills", type=int, default=2)
    parser.add_argument("--patience", type=int, default=1, metavar="N", help="1: the shipped files as they are")
    parser.add_argument("--seed", type=int, default=int(time.time()))
    parser.add_argument("--keep", action="store_true", help="keeps the folder with the consoles of both machines")
    given = parser.parse_args()
    signal.signal(signal.SIGTERM, lambda *_: sys.exit(1))  # ends the machines too
    if lacking := missing():
        print(f"not tried: it needs {', '.join(lacking)}")
        sys.exit(2)
    if "STANDBY_PAGE" not in os.environ:  # from here on in a network of its own
        program = program_of([given.program] if given.program else [])
        if given.make_image:
            make_image(given.image)
        words = [it for it in sys.argv[1:] if it not in (given.program, "--make-image")]
        os.execvpe("unshare", ["unshare", "--net", sys.executable, __file__, program, *words], os.environ | {"STANDBY_PAGE": "1"})
    print(f"seed {given.seed}", flush=True)
    folder = Path(tempfile.mkdtemp(prefix="standby-page-", dir="/var/tmp"))
    trial = None
    try:
        cluster_machine.connect_networks()
        trial = Trial(folder, given.image.resolve(), package(given.program, folder), given.seed, given.patience)
        tried(trial, given.kills)
    except (Wrong, Gone) as fault:
        print(f"FAILED  {fault}", flush=True)
        if trial:
            print(trial.state(), flush=True)
        sys.exit(1)
    finally:
        if trial:
            trial.close()
        if not given.keep:
            shutil.rmtree(folder)


if __name__ == "__main__":
    main()
