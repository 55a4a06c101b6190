"""The image from which both machines of the trial start: Debian with the packages that the page installs."""

import shutil
import subprocess
import tempfile
from pathlib import Path

from helpers import cluster_machine, machine
from helpers.cluster_machine import call

SIZE = 5 << 30
MIRROR = "http://deb.debian.org/debian"
BASE = "systemd,systemd-sysv,udev,dbus,kmod,iproute2,e2fsprogs,python3,procps,curl,netbase"
# What the page installs, and what the package of the desk needs: an emulated processor would take long.
PACKAGES = ("nginx", "drbd-utils", "pacemaker", "corosync", "crmsh", "resource-agents", "fence-agents", "logrotate", "openssh-client", "rsync", "restic", "sqlite3", "tzdata", "man-db", "nftables")
MODULES = ("drbd", "virtio_blk", "virtio_net", "virtio_rng", "ext4", "crc32c_generic", "softdog", "loop", "ipv6", "autofs4", "configfs", "fuse")


def make_image(image: Path) -> None:
    with tempfile.TemporaryDirectory(dir=image.resolve().parent) as folder:
        root = Path(folder) / "root"
        call("debootstrap", "--variant=minbase", f"--include={BASE}", "bookworm", root, MIRROR)
        install(root)
        copy_modules(root)
        cluster_machine.prepare(root)
        with open(image, "wb") as file:
            file.truncate(SIZE)
        call("mkfs.ext4", "-q", "-F", "-d", root, image)


def install(root: Path) -> None:
    """Installs the packages; nothing of them is started."""
    policy = root / "usr/sbin/policy-rc.d"
    policy.write_text("#!/bin/sh\nexit 101\n")
    policy.chmod(0o755)
    command = f"mount -t proc proc {root}/proc && DEBIAN_FRONTEND=noninteractive chroot {root} sh -c 'apt-get -q -y install {' '.join(PACKAGES)} && apt-get clean'"
    done = subprocess.run(["unshare", "--mount", "sh", "-c", command], stdout=subprocess.PIPE, stderr=subprocess.STDOUT, text=True)
    if done.returncode:
        raise SystemExit(f"the packages are not installed: {done.stdout[-2000:]}")
    policy.unlink()


def copy_modules(root: Path) -> None:
    """Copies the modules of the kernel that the machines need."""
    _, modules = machine.kernel()
    target = root / "lib/modules" / modules.name
    for path in machine.module_files(modules, MODULES):
        place = target / path.relative_to(modules)
        place.parent.mkdir(parents=True, exist_ok=True)
        shutil.copy(path, place)
    for name in ("modules.builtin", "modules.builtin.modinfo", "modules.order"):
        shutil.copy(modules / name, target)
    call("chroot", root, "depmod", modules.name)
