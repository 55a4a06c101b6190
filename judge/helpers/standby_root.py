"""What a machine of the standby's judge starts from: a root in memory with Debian's drbd-utils and nginx, the desk and the shipped
resource, as an archive for the kernel.

The machine has the disk that is replicated as /dev/vda, the network that it shares with the judge as eth0, and the cable to
the other machine as eth1. Its init reads commands from a serial line and answers each with what it printed and its status.
"""

import lzma
import re
import shutil
import subprocess
from pathlib import Path

from helpers import machine
from helpers.running import TOP, found

MODULES = ("virtio_pci", "virtio_blk", "virtio_net", "crc32c_generic", "ext4", "drbd")
PROGRAMS = ("drbdadm", "drbdsetup", "drbdmeta", "mkfs.ext4", "nginx")
PACKAGES = {"drbdadm": "drbd-utils", "mkfs.ext4": "e2fsprogs", "debugfs": "e2fsprogs", "nginx": "nginx"}
OLDER = ("/lib/drbd/drbdadm-84", "/lib/drbd/drbdsetup-84")  # what drbdadm runs with the DRBD of Debian's kernel
CONFIGURED = ("/etc/drbd.conf", "/etc/drbd.d/global_common.conf")
LINKED = ("bin", "sbin", "lib", "lib64")
HANDLER = "/usr/lib/drbd/crm-fence-peer.sh"
HANDLER_AFTER = "/usr/lib/drbd/crm-unfence-peer.sh"
GATEWAY = "10.0.2.2"  # under this address qemu leads to the judge

INIT = """\
#!/usr/bin/busybox sh
/usr/bin/busybox mkdir -p /proc /sys /dev /run/lock /tmp /var/lib/drbd /var/lib/nginx /var/log/nginx /srv/achdesk
/usr/bin/busybox --install -s /usr/bin
export PATH=/usr/sbin:/usr/bin
ln -s /run /var/run
ln -s /run/lock /var/lock
mount -t proc proc /proc
mount -t sysfs sysfs /sys
mount -t devtmpfs dev /dev
for file in @MODULES@; do insmod /$file || echo "$file is not loaded"; done
number=$(sed 's/.*desk=\\([12]\\).*/\\1/' /proc/cmdline)
hostname desk$number
ip link set lo up
ip addr add 10.0.2.15/24 dev eth0
ip link set eth0 up
ip addr add 10.88.0.$number/24 dev eth1
ip link set eth1 up
stty -F /dev/ttyS1 raw -echo
exec < /dev/ttyS1 > /dev/ttyS1 2>&1
printf '\\nSTATUS 0\\n'
while read -r line; do
    eval "$line"
    printf '\\nSTATUS %s\\n' $?
done
poweroff -f
"""
# 7 says: the peer was switched off. Every other answer leaves the writes waiting.
STAND_IN = f"""\
#!/bin/sh
# A stand-in for Pacemaker and its fencing: the judge switches the other machine off.
[ "$(hostname)" = desk1 ] && other=desk2 || other=desk1
[ "$(echo "$other" | nc {GATEWAY} $(sed 's/.*switch=\\([0-9]*\\).*/\\1/' /proc/cmdline))" = off ] && exit 7
exit 1
"""
PROXY = """\
user root;
worker_processes 1;
pid /run/nginx.pid;
error_log /dev/null;
events { worker_connections 128; }
http {
    access_log off;
    server {
        listen 80;
        client_max_body_size 8m;
        location / { proxy_pass http://127.0.0.1:8080; proxy_read_timeout 120s; }
    }
}
"""


def missing() -> list[str]:
    """What is needed and is not there, by the names of Debian's packages."""
    lacking = machine.missing()
    lacking += sorted({package for program, package in PACKAGES.items() if not found(program)})
    return lacking


def kernel_image() -> bytes:
    """The kernel as it runs, which starts sooner than one that an emulated processor must first unpack."""
    path, _ = machine.kernel()
    packed = path.read_bytes()
    for at in (it.start() for it in re.finditer(b"\xfd7zXZ\0", packed)):
        try:
            text = lzma.LZMADecompressor().decompress(packed[at:])
        except lzma.LZMAError:
            continue
        if text.startswith(b"\x7fELF"):
            return text
    return bytes(packed)


def resource(ping_timeout: int | None) -> str:
    """The shipped resource, with the disk of these machines as the page says, and with other seconds for an answer if some are given."""
    text = (TOP / "deploy/standby/achdesk.res").read_text().replace("/dev/achdesk/data", "/dev/vda")
    return text if ping_timeout is None else re.sub(r"ping-timeout \d+;", f"ping-timeout {10 * ping_timeout};", text)


def libraries(program: Path) -> list[Path]:
    """The libraries that a program loads, and its loader."""
    said = subprocess.run(["ldd", str(program)], stdout=subprocess.PIPE, stderr=subprocess.DEVNULL, text=True).stdout
    return [Path(it) for it in re.findall(r"(/\S+) \(", said)]


def place(path: Path | str) -> str:
    """The name of a path of this machine in the archive, in which /bin, /sbin and /lib are in /usr."""
    name = str(path).lstrip("/")
    return f"usr/{name}" if name.split("/")[0] in LINKED else name


def contents(program: str, modules: list[Path], ping_timeout: int | None) -> dict[str, tuple[int, bytes]]:
    """Each file of the root, with its mode."""
    files: dict[str, tuple[int, bytes]] = {}
    programs = [Path(str(found(it))) for it in PROGRAMS] + [Path(it) for it in OLDER]
    for path in programs:
        files[place(path)] = 0o100755, path.read_bytes()
    files["usr/sbin/achdesk"] = 0o100755, Path(program).read_bytes()
    for library in {it for path in [*programs, Path(program)] for it in libraries(path)}:
        files[place(library)] = 0o100755, library.read_bytes()
    for name in CONFIGURED:
        files[place(name)] = 0o100644, Path(name).read_bytes()
    for path in modules:
        files[path.name] = 0o100644, path.read_bytes()
    scripts = {HANDLER: STAND_IN, HANDLER_AFTER: "#!/bin/sh\n", "/init": INIT.replace("@MODULES@", " ".join(it.name for it in modules))}
    texts = {"/etc/drbd.d/achdesk.res": resource(ping_timeout), "/etc/proxy.conf": PROXY, "/etc/passwd": "root:x:0:0::/:/bin/sh\n", "/etc/group": "root:x:0:\n"}
    files |= {place(name): (0o100755, text.encode()) for name, text in scripts.items()}
    files |= {place(name): (0o100644, text.encode()) for name, text in texts.items()}
    files["usr/bin/busybox"] = 0o100755, Path(str(shutil.which("busybox"))).read_bytes()
    return files


def archive(program: str, ping_timeout: int | None) -> bytes:
    """The root as the kernel unpacks it."""
    _, folder = machine.kernel()
    files = contents(program, machine.module_files(folder, MODULES), ping_timeout)
    folders = sorted({str(parent) for name in files for parent in Path(name).parents if str(parent) != "."})
    entries = [(name, 0o040755, b"") for name in folders]
    entries += [(name, 0o120777, f"usr/{name}".encode()) for name in LINKED]
    entries += [(name, mode, text) for name, (mode, text) in files.items()]
    return bytes(machine.archive(entries))
