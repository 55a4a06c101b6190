"""Two machines in qemu that replicate a disk over a cable, what switches one of them off, and a judge that commands both."""

import json
import os
import re
import select
import socket
import socketserver
import subprocess
import threading
import time
from collections.abc import Callable
from pathlib import Path
from typing import Any

from helpers import standby_root
from helpers.running import HOST, found, free_port
from helpers.standby_load import Wrong, must

MEMORY = "320M"
ANSWERED = re.compile(rb"\nSTATUS \d+\n\Z")
BOOT = 600  # seconds; a machine that nobody slows down takes some


class Gone(Exception):
    """A machine that was asked has lost its power."""


class Switch:
    """The power switch of both machines, asked over the network: a stand-in for a management controller.

    A request against `winner` waits: the cluster has decided that this machine goes on, and the one that asks is switched off.
    """

    def __init__(self, switch_off: Callable[[str], None]):
        self.off_at: dict[str, float] = {}
        self.winner: str | None = None
        outer = self

        class Handler(socketserver.StreamRequestHandler):
            def handle(self) -> None:
                name = self.rfile.readline().decode().strip()
                if name == outer.winner:
                    time.sleep(BOOT)  # its asker has no power long before
                elif name in ("desk1", "desk2"):
                    switch_off(name)
                    outer.off_at[name] = time.monotonic()
                    self.wfile.write(b"off\n")

        class Server(socketserver.ThreadingTCPServer):
            daemon_threads, block_on_close = True, False

        self.server = Server((HOST, 0), Handler)
        self.port = self.server.server_address[1]
        threading.Thread(target=self.server.serve_forever, daemon=True).start()

    def close(self) -> None:
        self.server.shutdown()
        self.server.server_close()


class Machine:
    """One of both: desk1 or desk2. Its disk is a file, which stays while its power comes and goes."""

    def __init__(self, work: Path, number: int, ends: tuple[int, int], switch: int, files: Path | None):
        """`ends` are the ports of the cable's ends, its own one first; `files` is an image that it has as a second disk."""
        self.name, self.work, self.number, self.ends, self.switch, self.files = f"desk{number}", work, number, ends, switch, files
        self.disk, self.port = work / f"disk{number}", free_port()
        self.process: subprocess.Popen[bytes] | None = None
        self.asking, self.switching = threading.Lock(), threading.Lock()
        self.booted, self.keeps_state = work / f"{self.name}.booted", True

    @property
    def console(self) -> Path:
        return self.work / f"{self.name}.console"

    def command(self) -> list[str]:
        own, other = self.ends
        words = ["qemu-system-x86_64", "-accel", os.environ.get("ACCEL", "tcg"), "-cpu", "max", "-m", MEMORY, "-smp", "1", "-nodefaults",
                 "-display", "none", "-device", "vmgenid,guid=auto", "-no-reboot", "-serial", f"file:{self.console}", "-serial", "stdio",
                 "-qmp", f"unix:{self.work}/{self.name}.qmp,server=on,wait=off", "-kernel", str(self.work / "kernel"), "-initrd", str(self.work / "root"),
                 "-append", f"console=ttyS0 loglevel=7 panic=-1 no_timer_check desk={self.number} switch={self.switch}",
                 "-drive", f"file={self.disk},format=raw,if=virtio,cache=none,aio=threads",
                 "-netdev", f"user,id=bank,hostfwd=tcp:{HOST}:{self.port}-:80", "-device", "virtio-net-pci,netdev=bank,romfile=",
                 "-netdev", f"dgram,id=cable,local.type=inet,local.host={HOST},local.port={own},remote.type=inet,remote.host={HOST},remote.port={other}",
                 "-device", f"virtio-net-pci,netdev=cable,mac=52:54:00:00:01:0{self.number},romfile="]
        return words + ["-drive", f"file={self.files},format=raw,if=virtio,readonly=on"]

    def start(self) -> None:
        """Gives it power, and waits until it obeys. From the second time on it starts from the state that it had after its first
        start, which an emulated processor reaches sooner; `vmgenid` has its kernel take new random numbers then."""
        must(f"{self.name} is off", self.process is None)
        is_known = self.booted.exists()
        words = self.command() + (["-incoming", f"exec:cat {self.booted}"] if is_known else [])
        self.process = subprocess.Popen(words, stdin=subprocess.PIPE, stdout=subprocess.PIPE, stderr=subprocess.STDOUT)
        if is_known:
            self.wait_until_it_runs()
            self.run("blockdev --flushbufs /dev/vda")  # the kernel read some of the disk when it started first
            return
        text = self.read(BOOT)
        must(f"{self.name} starts", text.endswith(b"STATUS 0\n") or text[-600:])
        if self.keeps_state:
            self.keep_state()

    def wait_until_it_runs(self) -> None:
        """Waits until its state is loaded: its serial line would lose what is written before."""
        until = time.monotonic() + BOOT
        while True:
            must(f"{self.name} runs", time.monotonic() < until)
            try:
                if self.ask_qemu("query-status")["status"] == "running":
                    return
            except (OSError, ValueError):  # it does not listen yet
                pass
            time.sleep(0.05)

    def keep_state(self) -> None:
        """Keeps the state of the machine for its next starts."""
        part = self.work / f"{self.name}.part"
        self.ask_qemu("migrate", uri=f"exec:cat > {part}")
        while (said := self.ask_qemu("query-migrate"))["status"] != "completed":
            must(f"the state of {self.name} is kept: {said}", said["status"] != "failed")
            time.sleep(0.1)
        part.rename(self.booted)
        self.ask_qemu("cont")

    def read(self, seconds: float) -> bytes:
        """What it prints until it has answered a command."""
        process = self.process
        if process is None or process.stdout is None:
            raise Gone(f"{self.name} has no power")
        until, text = time.monotonic() + seconds, b""
        while not ANSWERED.search(text):
            if not select.select([process.stdout], [], [], max(0, until - time.monotonic()))[0]:
                raise Wrong(f"{self.name} did not answer within {seconds} s: {text[-600:]!r}")
            piece = os.read(process.stdout.fileno(), 65536)
            if not piece:
                raise Gone(f"{self.name} has no power: {text[-600:]!r}")
            text += piece.replace(b"\r", b"")
        return text

    def tries(self, command: str, seconds: float = 300) -> tuple[int, str]:
        """Runs a command of one line, and returns its status and what it printed."""
        with self.asking:
            process = self.process
            if process is None or process.stdin is None:
                raise Gone(f"{self.name} has no power")
            try:
                process.stdin.write(command.encode() + b"\n")
                process.stdin.flush()
            except BrokenPipeError:
                raise Gone(f"{self.name} has no power") from None
            printed, _, status = self.read(seconds).rstrip(b"\n").rpartition(b"\nSTATUS ")
        return int(status), printed.decode(errors="replace").strip()

    def run(self, command: str, seconds: float = 300) -> str:
        status, printed = self.tries(command, seconds)
        must(f"{self.name}: {command[:200]}: {printed[-1500:]}: status", status, 0)
        return printed

    def plug(self, is_in: bool) -> None:
        """Puts the cable in or pulls it out, at this end."""
        self.ask_qemu("set_link", name="cable", up=is_in)

    def ask_qemu(self, command: str, **words: object) -> Any:
        """Asks the emulator of the machine, and returns its answer."""
        with socket.socket(socket.AF_UNIX) as link:
            link.settimeout(60)
            link.connect(f"{self.work}/{self.name}.qmp")
            lines = link.makefile("rwb")
            lines.readline()
            for asked in ({"execute": "qmp_capabilities"}, {"execute": command, "arguments": words}):
                lines.write(json.dumps(asked).encode() + b"\n")
                lines.flush()
                answer = json.loads(lines.readline())
                while "event" in answer:
                    answer = json.loads(lines.readline())
                must(f"{self.name}: {command}: {answer}", "return" in answer)
        return answer["return"]

    def lose_power(self) -> None:
        """Kills it. What its system kept in memory is lost."""
        with self.switching:  # a second one who asks returns once it is off, and not before
            if self.process:
                self.process.kill()
                self.process.wait()
                self.process = None

    def proc_drbd(self) -> str:
        return self.run("cat /proc/drbd")


class Pair:
    """Both machines, their switch and the cable between them."""

    def __init__(self, work: Path, program: str, size: int, files: Path, ping_timeout: int | None):
        """`size` are the bytes of each disk."""
        (work / "root").write_bytes(standby_root.archive(program, ping_timeout))
        (work / "kernel").write_bytes(standby_root.kernel_image())
        self.switch = Switch(self.switch_off)
        ends = udp_ports()
        self.machines = [Machine(work, number, ends if number == 1 else (ends[1], ends[0]), self.switch.port, files) for number in (1, 2)]
        for it in self.machines:
            with open(it.disk, "wb") as disk:
                disk.truncate(size)

    def switch_off(self, name: str) -> None:
        self.machines[int(name[-1]) - 1].lose_power()

    def consoles(self) -> str:
        """The last lines of both consoles, for a person who looks for what went wrong."""
        texts = [(it.name, it.console.read_text(errors="replace").splitlines()[-25:]) for it in self.machines if it.console.exists()]
        return "\n".join(f"{name}: {line}" for name, lines in texts for line in lines)

    def close(self) -> None:
        self.switch.close()
        for it in self.machines:
            it.lose_power()


def udp_ports() -> tuple[int, int]:
    """Two ports for the ends of a cable."""
    with socket.socket(socket.AF_INET, socket.SOCK_DGRAM) as one, socket.socket(socket.AF_INET, socket.SOCK_DGRAM) as two:
        one.bind((HOST, 0))
        two.bind((HOST, 0))
        return one.getsockname()[1], two.getsockname()[1]


def dump(disk: Path, names: dict[str, Path]) -> None:
    """Copies files out of the file system of a disk that no machine has open."""
    for name, target in names.items():
        subprocess.run([str(found("debugfs")), "-R", f"dump {name} {target}", str(disk)], stdout=subprocess.DEVNULL, stderr=subprocess.DEVNULL, check=True)
