"""A virtual machine with systemd as its first process, over this machine's own files: `Machine(folder).run(script)`.

Its root is this machine's root, read-only below a layer in memory, so that every installed program is there and nothing
that happens inside is left. The kernel is Debian's, installed or unpacked: `apt-get download linux-image-VERSION-amd64`
and `dpkg -x` into the folder that KERNEL names. It needs Debian's packages qemu-system-x86 and busybox-static. ACCEL=kvm makes
it faster on a machine that has it.
"""

import os
import re
import shutil
import subprocess
import textwrap
from pathlib import Path

MODULES = ("9p", "9pnet_virtio", "virtio_pci", "virtio_blk", "virtio_rng", "overlay")
PACKAGES = {"qemu-system-x86_64": "qemu-system-x86", "busybox": "busybox-static"}

INIT = """\
#!/bin/busybox sh
/bin/busybox mkdir -p /proc /sys /dev /lower /upper /root
/bin/busybox mount -t proc proc /proc
/bin/busybox mount -t sysfs sysfs /sys
/bin/busybox mount -t devtmpfs dev /dev
for file in @MODULES@; do /bin/busybox insmod /$file || echo "$file is not loaded"; done
/bin/busybox mount -t 9p -o trans=virtio,version=9p2000.L,ro,cache=loose,msize=262144 root /lower
/bin/busybox mount -t tmpfs -o mode=755 upper /upper
/bin/busybox mkdir /upper/files /upper/work
/bin/busybox mount -t overlay -o lowerdir=/lower,upperdir=/upper/files,workdir=/upper/work none /root
/bin/busybox mkdir -p /root/judge /root/lib/modules /root/etc/systemd/system
/bin/busybox mount -t 9p -o trans=virtio,version=9p2000.L,msize=262144 judge /root/judge
/bin/busybox mount -t 9p -o trans=virtio,version=9p2000.L,ro,cache=loose,msize=262144 modules /root/lib/modules
for folder in tmp var/tmp run; do /bin/busybox mount -t tmpfs -o mode=1777 $folder /root/$folder; done
/bin/busybox rm -f /root/.dockerenv  # systemd would take it for a container
: > /root/etc/fstab
/bin/busybox cp /judge.service /judge.target /root/etc/systemd/system/
exec /bin/busybox switch_root /root /lib/systemd/systemd --unit=judge.target
"""
TARGET = """\
[Unit]
Requires=basic.target
Wants=judge.service
AllowIsolate=yes
"""
UNIT = """\
[Unit]
After=basic.target

[Service]
Type=oneshot
ExecStart=/judge/script
StandardOutput=append:/judge/output
StandardError=inherit
ExecStopPost=sh -c 'echo $EXIT_STATUS > /judge/status; sync; systemctl poweroff --force --force >/dev/null 2>&1'
TimeoutStartSec=infinity
"""


def kernel():
    """The path of a Debian kernel and the folder of its modules, or None."""
    for root in filter(None, (os.environ.get("KERNEL"), "/")):
        for image in sorted(Path(root, "boot").glob("vmlinuz-*"), reverse=True):
            modules = Path(root, "lib/modules", image.name.removeprefix("vmlinuz-"))
            if (modules / "kernel/fs/9p").is_dir():
                return image, modules
    return None


def missing():
    """What is needed and is not there, by the names of Debian's packages."""
    lacking = [package for program, package in PACKAGES.items() if not shutil.which(program)]
    lacking += [] if kernel() else ["linux-image-amd64 (see KERNEL in judge/helpers/machine.py)"]
    return lacking


def module_files(folder, names):
    """The files of modules and of those that they need, each after what it needs."""
    paths = {path.stem.replace("-", "_"): path for path in (folder / "kernel").rglob("*.ko")}
    found = []

    def add(name):
        path = paths.get(name.replace("-", "_"))
        if path is None or path in found:
            return
        needs = re.search(rb"\0depends=([^\0]*)\0", path.read_bytes())
        for need in filter(None, needs[1].decode().split(",") if needs else ()):
            add(need)
        found.append(path)

    for name in names:
        add(name)
    return found


def archive(entries):
    """The bytes of a cpio archive (newc) of (name, mode, bytes)."""
    made = bytearray()
    for number, (name, mode, text) in enumerate([*entries, ("TRAILER!!!", 0, b"")], 1):
        fields = (number, mode, 0, 0, 1, 0, len(text), 0, 0, 0, 0, len(name) + 1, 0)
        made += b"070701" + "".join(f"{it:08x}" for it in fields).encode() + name.encode() + b"\0"
        made += b"\0" * (-len(made) % 4) + text
        made += b"\0" * (-len(made) % 4)
    return bytes(made)


class Machine:
    """A virtual machine that runs one script after it has started, as root, and then turns itself off."""

    def __init__(self, folder, memory="1G", processors=2, modules=()):
        """`folder` is /judge inside, where the script, its output and what the judge puts there are. `modules` of the kernel
        are loaded besides those that it needs itself."""
        self.folder, self.memory, self.processors = Path(folder), memory, processors
        self.image, self.modules = kernel()
        self.loaded = (*MODULES, *modules)
        self.process = None

    def start(self, script, disks=(), words="", clock=None):
        """Starts it with a script in sh, with disks as /dev/vda and so on, each the path of an image, and with a time of its
        clock, in UTC."""
        files = module_files(self.modules, self.loaded)
        initial = self.prepare(script, INIT, files)
        share = "local,multidevs=remap,security_model=none"
        command = ["qemu-system-x86_64", "-machine", "q35", "-accel", os.environ.get("ACCEL", "tcg"), "-cpu", "max", "-m", self.memory, "-smp", str(self.processors),
                   "-nodefaults", "-display", "none", "-no-reboot", "-serial", f"file:{self.folder}/console", "-device", "virtio-rng-pci",
                   "-kernel", str(self.image), "-initrd", str(initial),
                   "-append", f"console=ttyS0 quiet no_timer_check panic=1 systemd.unit=judge.target systemd.show_status=false {words}",
                   "-virtfs", f"{share},path=/,mount_tag=root,readonly=on", "-virtfs", f"{share},path={self.folder},mount_tag=judge",
                   "-virtfs", f"{share},path={self.modules.parent},mount_tag=modules,readonly=on"]
        command += ["-rtc", f"base={clock},clock=vm"] if clock else []
        for disk in disks:
            command += ["-drive", f"file={disk},format=raw,if=virtio,cache=none,aio=threads"]
        self.process = subprocess.Popen(command, stdout=subprocess.DEVNULL, stderr=subprocess.PIPE, text=True)
        return self

    def prepare(self, script, init, files):
        """Writes the script and the first file system, with what it does and the files of modules, and returns that one's path."""
        path = self.folder / "script"
        path.write_text("#!/bin/sh\n" + textwrap.dedent(script))
        path.chmod(0o755)
        for name in ("output", "status"):
            (self.folder / name).unlink(missing_ok=True)
        entries = [("bin", 0o040755, b""), ("bin/busybox", 0o100755, Path(shutil.which("busybox")).read_bytes()),
                   ("init", 0o100755, init.replace("@MODULES@", " ".join(it.name for it in files)).encode()),
                   ("judge.service", 0o100644, UNIT.encode()), ("judge.target", 0o100644, TARGET.encode()),
                   *((it.name, 0o100644, it.read_bytes()) for it in files)]
        initial = self.folder / "initramfs"
        initial.write_bytes(archive(entries))
        return initial

    def run(self, script, seconds=300, **how):
        """Runs a script and returns what it printed, and its status; None if it did not end."""
        self.start(script, **how)
        try:
            self.process.wait(seconds)
        except subprocess.TimeoutExpired:
            self.stop()
        return self.output(), self.status()

    def output(self):
        path = self.folder / "output"
        return path.read_text(errors="replace") if path.exists() else ""

    def status(self):
        path = self.folder / "status"
        text = path.read_text().strip() if path.exists() else ""
        return int(text) if text.isdigit() else None

    def stop(self):
        """Takes its power away."""
        if self.process:
            self.process.kill()
            self.process.wait()

    def __enter__(self):
        return self

    def __exit__(self, *_):
        self.stop()
