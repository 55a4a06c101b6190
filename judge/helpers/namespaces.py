"""A systemd as the first process of namespaces on this machine, over this machine's own files: `Namespaces(folder).run(script)`.

Its root is this machine's root below a layer in memory, so that every installed program is there and nothing that happens inside is
left. It has a network of its own, no kernel settings to change, and neither the right to set the clock nor to load modules. It starts
in seconds, where the virtual machine of helpers/machine.py takes a minute without KVM; what needs a kernel or a clock of its own needs that one.
"""

import os
import shutil
import subprocess
import textwrap
from pathlib import Path

from helpers.machine import TARGET, UNIT

CGROUPS = [Path("/sys/fs/cgroup/unified"), Path("/sys/fs/cgroup")]
NEEDED = {"unshare": "util-linux", "setpriv": "util-linux", "/lib/systemd/systemd": "systemd"}
INIT = """\
set -e
mount --make-rprivate /
mkdir -p @FOLDER@/layer
mount -t tmpfs -o mode=755 layer @FOLDER@/layer
cd @FOLDER@/layer
mkdir files work root
mount -t overlay -o lowerdir=/,upperdir=files,workdir=work none root
mkdir -p root/judge root/etc/systemd/system
mount --bind @FOLDER@ root/judge
mount -t proc proc root/proc
mount --bind root/proc/sys root/proc/sys
mount -o remount,bind,ro root/proc/sys
mount -t sysfs -o ro sysfs root/sys
mount -t cgroup2 none root/sys/fs/cgroup
mount -t tmpfs -o mode=755 dev root/dev
for it in null:3 zero:5 full:7 random:8 urandom:9; do mknod -m 666 root/dev/${it%:*} c 1 ${it#*:}; done
mknod -m 666 root/dev/tty c 5 0
mkdir root/dev/pts root/dev/shm
mount -t devpts -o newinstance,ptmxmode=0666,mode=620,gid=5 devpts root/dev/pts
ln -s pts/ptmx root/dev/ptmx
for name in tmp var/tmp run; do mount -t tmpfs -o mode=1777 $name root/$name; done
chmod 755 root/run
: > root/etc/fstab
rm -f root/etc/systemd/system/*.wants/systemd-timesyncd.service
cp @FOLDER@/judge.service @FOLDER@/judge.target root/etc/systemd/system/
hostname judge
cd root
pivot_root . mnt
umount -l /mnt
mount --make-rshared /
exec setpriv --bounding-set=-sys_time,-sys_module,-sys_rawio,-syslog env -i container=judge PATH=/usr/sbin:/usr/bin:/sbin:/bin /lib/systemd/systemd --unit=judge.target --log-target=journal
"""


def missing():
    """What is needed and is not there, by the names of Debian's packages."""
    lacking = sorted({package for name, package in NEEDED.items() if not shutil.which(name)})
    return lacking + ([] if os.geteuid() == 0 else ["root"]) + ([] if hierarchy() else ["a hierarchy of cgroup2"])


def hierarchy():
    return next((it for it in CGROUPS if (it / "cgroup.procs").exists() and (it / "cgroup.controllers").exists()), None)


class Namespaces:
    """Namespaces in which systemd runs one script after it has started, as root, and then ends."""

    def __init__(self, folder):
        """`folder` is /judge inside, where the script, its output and what the judge puts there are."""
        self.folder, self.group, self.process = Path(folder), hierarchy() / f"judge-{os.getpid()}", None

    def run(self, script, seconds=300, **_):
        """Runs a script and returns what it printed, and its status; None if it did not end."""
        for name, text in (("script", "#!/bin/sh\n" + textwrap.dedent(script)), ("judge.service", UNIT), ("judge.target", TARGET), ("init", INIT.replace("@FOLDER@", str(self.folder)))):
            (self.folder / name).write_text(text)
        (self.folder / "script").chmod(0o755)
        self.group.mkdir(exist_ok=True)
        enter = f'echo $$ > {self.group}/cgroup.procs; exec unshare --mount --uts --ipc --net --cgroup --pid --fork --kill-child sh {self.folder}/init'
        with open(self.folder / "console", "w") as console:
            self.process = subprocess.Popen(["sh", "-c", enter], stdin=subprocess.DEVNULL, stdout=console, stderr=console)
        try:
            self.process.wait(seconds)
        except subprocess.TimeoutExpired:
            self.stop()
        return self.text("output"), int(self.text("status")) if self.text("status").strip().isdigit() else None

    def text(self, name):
        path = self.folder / name
        return path.read_text(errors="replace") if path.exists() else ""

    def stop(self):
        """Kills all that runs in it."""
        if self.process and self.process.poll() is None:
            (self.group / "cgroup.kill").write_text("1")
            self.process.wait()

    def __enter__(self):
        return self

    def __exit__(self, *_):
        self.stop()
        for path in (*sorted(self.group.rglob("*"), reverse=True), self.group):
            if path.is_dir():
                try:
                    path.rmdir()
                except OSError:
                    pass
