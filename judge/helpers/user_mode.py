"""A machine with systemd as its first process whose kernel is a program of this machine, over this machine's own files: `UserMode(folder).run(script)`.

The kernel is Debian's package user-mode-linux. It has a clock, a device mapper and users of its own as the virtual machine of helpers/machine.py has,
and its programs run at the speed of this machine, also without KVM. It needs busybox-static too. Its memory is a file in TMPDIR.
Debian 12's does not start on a processor with AMX, whose registers it has no room for (`ptrace set fp regs failed`).
"""

import os
import re
import shutil
import signal
import subprocess
from pathlib import Path

from helpers.machine import INIT, Machine, module_files

MODULES = Path("/usr/lib/uml/modules")
PACKAGES = {"linux.uml": "user-mode-linux", "busybox": "busybox-static"}
MOUNTS = {"root /lower": "-t hostfs -o ro,/", "judge /root/judge": "-t hostfs -o @FOLDER@", "modules /root/lib/modules": f"-t hostfs -o ro,{MODULES}"}


def missing():
    """What is needed and is not there, by the names of Debian's packages."""
    return sorted({package for program, package in PACKAGES.items() if not shutil.which(program)})


class UserMode(Machine):
    """A machine that runs one script after it has started, as root, and then turns itself off."""

    def __init__(self, folder, memory="1G", modules=()):
        self.folder, self.memory, self.process = Path(folder), memory, None
        self.loaded = ("overlay", "ipv6", *modules)

    def start(self, script, disks=(), clock=None):
        """Starts it with a script in sh, with disks as /dev/ubda and so on, each the path of an image, and with a time of its clock, in UTC."""
        init = re.sub(r"-t 9p -o \S+ (\S+ \S+)", lambda it: f"{MOUNTS[it[1]]} {it[1]}", INIT).replace("@FOLDER@", str(self.folder))
        init = init.replace("exec ", f"/bin/busybox date -u -s {clock.replace('T', ' ')!r}\nexec ") if clock else init
        initial = self.prepare(script, init, module_files(next(MODULES.iterdir()), self.loaded))
        command = ["linux.uml", f"mem={self.memory}", f"initrd={initial}", "con=null", "con0=null,fd:1", "ssl=null", "quiet", "panic=1", "systemd.unit=judge.target", "systemd.show_status=false",
                   *(f"ubd{'abcdefgh'[at]}={disk}" for at, disk in enumerate(disks))]
        with open(self.folder / "console", "wb") as console:
            self.process = subprocess.Popen(command, stdin=subprocess.DEVNULL, stdout=console, stderr=console, env=os.environ | {"HOME": str(self.folder)}, start_new_session=True)
        return self

    def stop(self):
        """Takes its power away: the kernel and the processes that it runs programs in."""
        if self.process and self.process.poll() is None:
            os.killpg(self.process.pid, signal.SIGKILL)
            self.process.wait()
