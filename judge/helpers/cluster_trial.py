"""The page about a standby, followed on two machines: its commands as printed, then what it promises, under load."""

import base64
import functools
import http.server
import re
import subprocess
import threading
import time
from dataclasses import dataclass
from pathlib import Path
from typing import Any

from helpers import cluster_machine, standby_root
from helpers.cluster_load import Desk
from helpers.cluster_machine import ClusterMachine, Controller, call
from helpers.running import TOP
from helpers.standby_desks import both, shipped_check
from helpers.standby_load import Wrong, must
from helpers.standby_machine import Gone, dump

PAGE = TOP / "docs" / "operate" / "standby.md"
BLOCK = re.compile(r"^```bash (both|desk1)\n(.*?)^```$", re.M | re.S)
DISK = 256 << 20
ADDRESS, GATE = "192.0.2.10", "192.0.2.254"
# What an operator does in step 4, as docs/operate/install.md says, without a person's choices.
DESK = """\
umask 077
printf '"~^operator$" "operator-key";\\n' >> /etc/achdesk/keys/desk.map
runuser -u achdesk -- achdesk init /var/lib/achdesk/bank.db --odfi 121042882 --odfi-name 'OUR BANK' --destination 061000146 --destination-name 'ACH OPERATOR' --key operator-key
chmod 640 /var/lib/achdesk/bank.db /var/lib/achdesk/bank.db-wal
echo 'allow 192.0.2.0/24;' >> /etc/achdesk/operators.conf
"""
SITE = """\
rm -f /etc/nginx/sites-enabled/default
ln -s /etc/nginx/sites-available/achdesk /etc/nginx/sites-enabled/achdesk
"""


# A start of the proxy that fails once.
FAILS_ONCE = """\
mkdir -p /run/systemd/system/nginx.service.d
printf '[Service]\\nExecStartPre=/bin/sh -c "test -e /run/failed-once || ! touch /run/failed-once"\\n' > /run/systemd/system/nginx.service.d/judge.conf
systemctl daemon-reload
"""
SHIPPED = Path("/usr/share/achdesk/standby")
# What --patience multiplies in each shipped file: timeouts, and the intervals at which resources are looked at, which cost an
# emulated processor much. DRBD accepts no `timeout` above its own intervals.
SECONDS = {"cluster.crm": r"(?:timeout|priority-fencing-delay|monitor interval)=(\d+)s", "corosync.conf": r"\btoken: (\d+)", "achdesk.res": r"\b(?:timeout|ping-int|ping-timeout|connect-int) +(\d+);"}
# With --patience the timers that run often, and start Python each time, run once a day.
OFTEN = ("achdesk-alarm", "achdesk-backup", "achdesk-day-fetch", "achdesk-day-metrics", "achdesk-day-returns", "achdesk-day-watch", "achdesk-guard", "achdesk-standby")
DAILY = f"""\
for name in {" ".join(OFTEN)}; do
    mkdir -p /etc/systemd/system/$name.timer.d
    printf '[Timer]\\nOnCalendar=\\nOnCalendar=daily\\n' > /etc/systemd/system/$name.timer.d/judge.conf
done
systemctl daemon-reload
"""


@dataclass(frozen=True)
class Block:
    """Commands of the page, on both machines or on desk1, and the heading below which they are."""

    where: str
    text: str
    heading: str


class Quiet(http.server.SimpleHTTPRequestHandler):
    """Gives the package to the machines."""

    def log_message(self, *_: object) -> None:
        pass


def blocks() -> list[Block]:
    found, heading = [], ""
    for part in re.split(r"^(## .*)$", PAGE.read_text(), flags=re.M):
        heading = part[3:] if part.startswith("## ") else heading
        found += [Block(it[1], it[2], heading) for it in BLOCK.finditer(part)]
    return found


def lengthened(name: str, factor: int) -> str:
    """A shipped file with so many times its seconds."""
    text = (TOP / "deploy" / "standby" / name).read_text()
    return re.sub(SECONDS[name], lambda it: it[0].replace(it[1], str(factor * int(it[1]))), text)


def say(text: str) -> None:
    print(f"ok      {text}", flush=True)


class Trial:
    def __init__(self, work: Path, image: Path, package: Path, seed: int, patience: int = 1):
        self.work, self.package, self.patience = work, package, patience
        (work / "kernel").write_bytes(standby_root.kernel_image())
        (work / "start").write_bytes(cluster_machine.archive())
        self.machines = [ClusterMachine(work, number, image, DISK) for number in (1, 2)]
        self.certificate = self.make_certificate()
        self.controllers = [Controller(it, f"192.0.2.20{it.number}", self.certificate) for it in self.machines]
        self.check, self.desk = shipped_check(), Desk(ADDRESS, self.certificate, seed, patience)
        self.blocks = blocks()
        handler = functools.partial(Quiet, directory=str(package.parent))
        self.server = http.server.ThreadingHTTPServer((GATE, 8000), handler)
        threading.Thread(target=self.server.serve_forever, daemon=True).start()

    def make_certificate(self) -> Path:
        path = self.work / "certificate.pem"
        words = ["openssl", "req", "-x509", "-newkey", "ec", "-pkeyopt", "ec_paramgen_curve:prime256v1", "-nodes", "-days", "30", "-subj", "/CN=desk",
                 "-addext", f"subjectAltName=IP:{ADDRESS},DNS:desk.bank.example", "-keyout", str(path) + ".key", "-out", str(path)]
        subprocess.run(words, check=True, stderr=subprocess.DEVNULL)
        path.write_text(path.read_text() + Path(f"{path}.key").read_text())
        return path

    # ---- the page

    def put(self, machine: ClusterMachine, path: str, text: bytes, mode: int = 0o600) -> None:
        """Copies a file to a machine, in pieces that its line takes."""
        coded = base64.b64encode(text).decode()
        machine.run(f": > {path}; chmod {mode:o} {path}")
        for at in range(0, len(coded), 3000):
            machine.run(f"echo {coded[at:at + 3000]} | base64 -d >> {path}")

    def step(self, heading: str, start: str, seconds: float = 1800) -> None:
        """Runs the block of the page below a heading that begins with these words, and forgets it."""
        found = [it for it in self.blocks if it.heading == heading and it.text.startswith(start)]
        must(f"the page has {start!r} below {heading!r}", len(found) >= 1)
        block = found[0]
        self.blocks.remove(block)
        began = time.monotonic()
        if block.where == "both":
            both(lambda it: it.script(block.text, seconds), self.machines)
        else:
            self.machines[0].script(block.text, seconds)
        say(f"{heading}: {start} .. ({block.where}, {time.monotonic() - began:.0f} s)")

    def set_up(self) -> None:
        one, two = self.machines
        began = time.monotonic()
        both(lambda it: it.start(), self.machines)
        both(lambda it: it.tries("systemctl is-system-running --wait", 900), self.machines)
        say(f"both machines run systemd after {time.monotonic() - began:.0f} s")
        name = self.package.name
        both(lambda it: self.fetch(it, name), self.machines)
        self.step("Set up", "number=880")
        both(self.lengthen, self.machines)
        self.step("Set up", "sed 's|/dev/achdesk/data|")
        self.step("Set up", "drbdadm primary --force")
        self.create_desk()
        self.step("Set up", "umount")
        self.step("Set up", "corosync-keygen")
        key = one.run("base64 -w0 /etc/corosync/authkey")
        self.put(two, "/etc/corosync/authkey", base64.b64decode(key), 0o400)
        self.step("Set up", "install -m 644 /usr/share/achdesk/standby/corosync.conf")
        self.wait_for(one, "crm_mon -1 | grep -q 'Online: .*desk1 desk2'", 300)
        self.step("Set up", "install -m 600 /usr/share/achdesk/standby/cluster.crm")
        self.step("Set up", "crm configure load")
        self.desk.wait(1800)
        say(f"the desk answers at its address, {time.monotonic() - began:.0f} s after both machines were switched on")
        self.step("Alarms", "systemctl enable")

    def fetch(self, machine: ClusterMachine, name: str) -> None:
        """Gets the package from a web server of the judge."""
        machine.script(f"curl -sS -o /root/{name} http://{GATE}:8000/{name}")

    def lengthen(self, machine: ClusterMachine) -> None:
        """Gives the machine more time in the files that the package has installed."""
        if self.patience > 1:
            for name in SECONDS:
                self.put(machine, str(SHIPPED / name), lengthened(name, self.patience).encode(), 0o644)
            machine.script(DAILY)

    def create_desk(self) -> None:
        """Step 4, as the page about the installation says."""
        one = self.machines[0]
        one.script(DESK)
        self.put(one, "/etc/achdesk/tls/cert.pem", self.certificate.read_bytes())
        one.script("cp /etc/achdesk/tls/cert.pem /etc/achdesk/tls/key.pem")
        for name, lines in self.desk.key_lists().items():
            self.put(one, f"/root/{name}", lines.encode())
            one.script(f"cat /root/{name} >> /etc/achdesk/keys/{name}")
        both(lambda it: it.script(SITE), self.machines)

    def wait_for(self, machine: ClusterMachine, command: str, seconds: float) -> None:
        until = time.monotonic() + seconds
        while machine.tries(command)[0]:
            must(f"{machine.name}: {command}: {machine.tries('crm_mon -1r')[1]}", time.monotonic() < until)
            time.sleep(1)

    # ---- what it promises

    def serving(self) -> ClusterMachine:
        """The machine on which the group runs."""
        for it in self.machines:
            if "ro:Primary" in self.proc_drbd(it):
                return it
        raise Wrong("no machine serves")

    def proc_drbd(self, machine: ClusterMachine) -> str:
        """What a machine says of its disk: nothing if it is off, or is switched off meanwhile."""
        try:
            return machine.tries("cat /proc/drbd")[1] if machine.process else ""
        except Gone:
            return ""

    def are_online(self) -> bool:
        try:
            return self.machines[0].tries("crm_mon -1 | grep -q 'Online: .*desk1 desk2'")[0] == 0
        except Gone:
            return False

    def wait_until_whole(self, seconds: float = 900) -> None:
        until = time.monotonic() + seconds
        while True:
            devices = [self.check.device_of(self.proc_drbd(it), 0) for it in self.machines]
            if all(it.is_whole for it in devices) and self.are_online():
                return
            must(f"both disks have all writes: {devices}", time.monotonic() < until)
            time.sleep(5)

    def begin_load(self) -> None:
        self.wait_until_whole()
        self.desk.load.begin()

    def move(self) -> None:
        """The desk is moved by the commands of the page, from the machine that serves to the other one."""
        self.wait_until_whole()
        before, began = self.serving(), time.monotonic()
        target = self.other_than(before)
        block = next(it for it in self.blocks if it.heading == "Move the desk")
        before.script(block.text.replace("desk2", target.name), 1800)
        must("the desk has moved", self.serving() is target)
        moved = time.monotonic()
        self.desk.wait_for_answer(moved, began)
        say(f"moved to {target.name} after {moved - began:.0f} s: no write answered for {self.desk.silence(began):.0f} s; {self.desk.look()} looked at")

    def other_than(self, machine: ClusterMachine) -> ClusterMachine:
        return next(it for it in self.machines if it is not machine)

    def move_with_a_failed_start(self) -> None:
        """The first start of the proxy fails on the machine to which the desk moves: it is started again there."""
        target = self.other_than(self.serving())
        target.script(FAILS_ONCE)
        must("start-failure-is-fatal", target.run("crm_attribute --query --name start-failure-is-fatal --quiet"), "false")
        self.move()
        target.run("test -e /run/failed-once")
        count = target.run(f"crm_failcount --query --resource proxy --node {target.name} --quiet || true")
        must("one failure of the proxy is counted", count, "1")
        target.run("rm /run/systemd/system/nginx.service.d/judge.conf; systemctl daemon-reload; crm_resource --cleanup --resource proxy")
        say(f"a first start that failed on {target.name} did not forbid it")

    def fenced(self, machine: ClusterMachine, since: float) -> float:
        """Seconds from an instant until the cluster first asked the machine's controller to switch it."""
        came = [at for at in self.controllers[machine.number - 1].fenced_at if at > since]
        must(f"{machine.name} is fenced", bool(came))
        return came[0] - since

    def kill(self) -> None:
        self.wait_until_whole()
        lost = self.serving()
        time.sleep(self.desk.random.uniform(1, 5))
        began = time.monotonic()
        lost.lose_power()
        answered = self.desk.wait_for_answer(began + 1, began)
        must("the other machine serves", self.serving() is not lost)
        say(f"{lost.name} was killed: {answered}; {self.desk.look()} looked at; fenced after {self.fenced(lost, began):.0f} s")
        self.wait_until_whole()
        say(f"{lost.name} came back by itself: both disks have all writes after {time.monotonic() - began:.0f} s")

    def cut_networks(self) -> None:
        """The machine that serves loses both networks."""
        self.wait_until_whole()
        lost = self.serving()
        began = time.monotonic()
        lost.plug(False)
        answered = self.desk.wait_for_answer(began + 2, began)
        say(f"{lost.name} was cut off: {answered}; {self.desk.look()} looked at; fenced after {self.fenced(lost, began):.0f} s")
        lost.plug(True)
        self.wait_until_whole()

    def end(self) -> None:
        self.desk.load.stop()
        self.wait_until_whole()
        one = self.machines[0]
        one.script("crm --wait resource stop bank; crm --wait resource stop disks", 600)
        both(lambda it: it.run("sync"), self.machines)
        both(lambda it: it.lose_power(), self.machines)
        copies = []
        for it in self.machines:
            folder = self.work / f"copy{it.number}"
            folder.mkdir()
            dump(it.disk, {f"/desk/{name}": folder / name for name in ("bank.db", "bank.db-wal")})
            copies.append(folder)
        for name in ("bank.db", "bank.db-wal"):
            must(f"{name} is the same on both disks", (copies[0] / name).read_bytes() == (copies[1] / name).read_bytes())
        held: Any = self.desk.load.check_file(copies[0] / "bank.db")
        say(f"both files: {held['submissions']} submissions, {held['files']} files, {held['sent']} entries sent, each once")
        print(f"{len(self.desk.load.receipts)} receipts and {len(self.desk.load.files)} files compared, 0 lost, 0 twice")

    def state(self) -> str:
        """What both machines say of the cluster, for a person who looks for what went wrong."""
        asks = "crm_mon -1rf; cat /proc/drbd; journalctl -q -b -p warning -n 60 --no-pager"
        return "\n".join(f"{it.name}: {it.tries(asks)[1] if it.process else 'off'}" for it in self.machines)

    def close(self) -> None:
        self.desk.load.over.set()
        for controller in self.controllers:
            controller.server.shutdown()
        for it in self.machines:
            it.lose_power()
