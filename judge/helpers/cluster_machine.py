"""Two Debian machines in qemu with systemd, on two networks with the judge, and management controllers that switch them off.

The judge runs in a network namespace of its own (`unshare --net`). Both machines start from one image, whose changes each
keeps on a disk of its own; their disks stay while their power comes and goes.
"""

import base64
import http.server
import json
import shutil
import ssl
import subprocess
import threading
import time
from pathlib import Path

from helpers import machine, standby_root
from helpers.standby_load import must
from helpers.standby_machine import Machine

MEMORY = "768M"
NETWORKS = {"bank": ("192.0.2.254/24", "192.0.2.201/32", "192.0.2.202/32"), "cable": ("10.88.0.254/24",)}
MODULES = ("virtio_pci", "virtio_blk", "virtio_net", "crc32c_generic", "ext4")
INIT = """\
#!/usr/bin/busybox sh
/usr/bin/busybox mkdir -p /proc /sys /dev /root
/usr/bin/busybox --install -s /usr/bin
export PATH=/usr/bin
mount -t proc proc /proc
mount -t sysfs sysfs /sys
mount -t devtmpfs dev /dev
for file in @MODULES@; do insmod /$file || echo "$file is not loaded"; done
number=$(sed 's/.*desk=\\([12]\\).*/\\1/' /proc/cmdline)
ip link set lo up
ip addr add 192.0.2.$number/24 dev eth0
ip link set eth0 up
ip addr add 10.88.0.$number/24 dev eth1
ip link set eth1 up
mount -t ext4 /dev/vda /root
echo desk$number > /root/etc/hostname
exec switch_root /root /lib/systemd/systemd
"""
SHELL = """\
#!/bin/bash
export HOME=/root PATH=/usr/local/sbin:/usr/local/bin:/usr/sbin:/usr/bin DEBIAN_FRONTEND=noninteractive
cd /root
stty -F /dev/ttyS1 raw -echo
exec < /dev/ttyS1 > /dev/ttyS1 2>&1
printf '\\nSTATUS 0\\n'
while read -r line; do
    eval "$line"
    printf '\\nSTATUS %s\\n' $?
done
"""
UNIT = """\
[Unit]
After=basic.target
[Service]
ExecStart=/usr/local/sbin/judge-shell
StandardOutput=null
Restart=always
[Install]
WantedBy=multi-user.target
"""
QUIET = ("serial-getty@ttyS0.service", "getty@tty1.service", "apt-daily.timer", "apt-daily-upgrade.timer", "e2scrub_all.timer", "fstrim.timer",
         "exim4.service", "exim4-base.timer", "ssh.service", "man-db.timer", "dpkg-db-backup.timer")


def archive() -> bytes:
    """What the machines start from: it mounts the image and goes on with systemd."""
    _, folder = machine.kernel()
    modules = machine.module_files(folder, MODULES)
    init = INIT.replace("@MODULES@", " ".join(it.name for it in modules))
    entries = [(name, 0o040755, b"") for name in ("usr", "usr/bin")]
    entries += [("usr/bin/busybox", 0o100755, Path(str(shutil.which("busybox"))).read_bytes()), ("init", 0o100755, init.encode())]
    entries += [(it.name, 0o100644, it.read_bytes()) for it in modules]
    return bytes(machine.archive(entries))


def prepare(root: Path) -> None:
    """Puts what the judge needs into the root of the machines."""
    shell = root / "usr/local/sbin/judge-shell"
    shell.write_text(SHELL)
    shell.chmod(0o755)
    units = root / "etc/systemd/system"
    (units / "judge-shell.service").write_text(UNIT)
    wanted = units / "multi-user.target.wants"
    wanted.mkdir(exist_ok=True)
    links = {wanted / "judge-shell.service": "/etc/systemd/system/judge-shell.service", **{units / it: "/dev/null" for it in QUIET}}
    for link, target in links.items():
        link.unlink(missing_ok=True)
        link.symlink_to(target)
    (root / "etc/apt/apt.conf.d/90judge").write_text('APT::Get::Assume-Yes "true";\n')
    (root / "etc/fstab").write_text("")
    (root / "etc/hosts").write_text("127.0.0.1 localhost\n192.0.2.1 desk1\n192.0.2.2 desk2\n192.0.2.10 desk.bank.example\n")


def connect_networks() -> None:
    """Two switches, each with a wire to each machine, in the judge's own network namespace."""
    call("ip", "link", "set", "lo", "up")
    for name, addresses in NETWORKS.items():
        call("ip", "link", "add", name, "type", "bridge")
        for address in addresses:
            call("ip", "addr", "add", address, "dev", name)
        call("ip", "link", "set", name, "up")
        for number in (1, 2):
            call("ip", "tuntap", "add", f"{name}{number}", "mode", "tap")
            call("ip", "link", "set", f"{name}{number}", "master", name, "up")


def call(*words: object) -> str:
    done = subprocess.run([str(it) for it in words], stdout=subprocess.PIPE, stderr=subprocess.STDOUT, text=True)
    must(f"{' '.join(map(str, words))}: {done.stdout}", done.returncode, 0)
    return done.stdout


class ClusterMachine(Machine):
    """One of both, with a root of its own below its disk."""

    def __init__(self, work: Path, number: int, image: Path, size: int):
        super().__init__(work, number, (0, 0), 0, None)
        self.root, self.keeps_state = work / f"root{number}", False
        if not self.root.exists():
            call("qemu-img", "create", "-q", "-f", "qcow2", "-b", image, "-F", "raw", self.root)
            with open(self.disk, "wb") as disk:
                disk.truncate(size)

    def command(self) -> list[str]:
        words = ["qemu-system-x86_64", "-accel", "tcg", "-cpu", "max", "-m", MEMORY, "-smp", "2", "-nodefaults", "-display", "none", "-no-reboot",
                 "-serial", f"file:{self.console}", "-serial", "stdio", "-device", "virtio-rng-pci",
                 "-kernel", str(self.work / "kernel"), "-initrd", str(self.work / "start"),
                 "-append", f"console=ttyS0 quiet systemd.show_status=true panic=-1 no_timer_check net.ifnames=0 desk={self.number}",
                 "-drive", f"file={self.root},format=qcow2,if=virtio,cache=writeback", "-drive", f"file={self.disk},format=raw,if=virtio,cache=none,aio=threads"]
        for at, name in enumerate(NETWORKS):
            words += ["-netdev", f"tap,id={name},ifname={name}{self.number},script=no,downscript=no",
                      "-device", f"virtio-net-pci,netdev={name},mac=52:54:00:00:0{at}:0{self.number},romfile="]
        return words

    def start(self) -> None:
        """Gives it power. Until it obeys, whoever asks it waits: its first answer is not one of theirs."""
        with self.asking:
            super().start()

    def script(self, text: str, seconds: float = 900) -> str:
        """Runs a script of several lines, as a person would type it; it ends at the first command that fails."""
        coded = base64.b64encode(text.encode()).decode()
        return self.run(f"cd /root; echo {coded} | base64 -d > /tmp/script; bash -e /tmp/script < /dev/null", seconds)

    def plug(self, is_in: bool, networks: tuple[str, ...] = tuple(NETWORKS)) -> None:
        for name in networks:
            call("ip", "link", "set", f"{name}{self.number}", "up" if is_in else "down")


class Controller:
    """The management controller of a machine: as much of Redfish as `fence_redfish` asks for, a stand-in for a real one."""

    def __init__(self, its: ClusterMachine, address: str, certificate: Path):
        self.machine, self.fenced_at = its, list[float]()
        outer = self

        class Handler(http.server.BaseHTTPRequestHandler):
            def say(self, answer: object) -> None:
                text = json.dumps(answer).encode()
                self.send_response(200)
                self.send_header("Content-Length", str(len(text)))
                self.end_headers()
                self.wfile.write(text)

            def do_GET(self) -> None:
                answers: dict[str, object] = {
                    "/redfish/v1": {"Systems": {"@odata.id": "/redfish/v1/Systems"}},
                    "/redfish/v1/Systems": {"Members": [{"@odata.id": "/redfish/v1/Systems/1"}]},
                    "/redfish/v1/Systems/1": {"PowerState": "Off" if outer.machine.process is None else "On",
                                              "Actions": {"#ComputerSystem.Reset": {"target": "/redfish/v1/Systems/1/Reset"}}}}
                self.say(answers.get(self.path.rstrip("/"), {}))

            def do_POST(self) -> None:
                asked = json.loads(self.rfile.read(int(self.headers["Content-Length"])))["ResetType"]
                outer.reset(asked)
                self.say({})

            def log_message(self, *_: object) -> None:
                pass

        self.server = http.server.ThreadingHTTPServer((address, 443), Handler)
        context = ssl.SSLContext(ssl.PROTOCOL_TLS_SERVER)
        context.load_cert_chain(certificate)
        self.server.socket = context.wrap_socket(self.server.socket, server_side=True)
        threading.Thread(target=self.server.serve_forever, daemon=True).start()

    def reset(self, asked: str) -> None:
        if asked in ("ForceOff", "ForceRestart"):
            self.machine.lose_power()
        if self.machine.process is None:  # now, or before: then the agent asks for power alone
            self.fenced_at.append(time.monotonic())
        if asked in ("On", "ForceRestart") and self.machine.process is None:
            threading.Thread(target=self.machine.start, daemon=True).start()
