"""Instructions of user code, counted by callgrind. It needs Debian's valgrind."""

import re
import subprocess
import sys
import tempfile
import time
from pathlib import Path


def wait_until_idle(process):
    """Waits until a process waits for something."""
    while Path(f"/proc/{process.pid}/stat").read_text().rpartition(")")[2].split()[0] != "S":
        time.sleep(0.000_2)


def count_in(path):
    """The instructions that a file of callgrind reports, or None."""
    counts = re.findall(r"^(?:totals|summary): (\d+)", path.read_text() if path.exists() else "", re.M)
    return int(counts[-1]) if counts else None


class Callgrind:
    """Counts the instructions of one program, whose command goes after `words`. `process` is that of the whole command.

    If `is_off`, the program runs uncounted, some five times slower than by itself, and only what comes between `begin` and
    `end` is counted, which is some fifty times slower."""

    def __init__(self, is_off=False):
        self.folder, self.parts = tempfile.TemporaryDirectory(prefix="callgrind-"), 0
        self.out = Path(self.folder.name) / "out"
        self.words = ["valgrind", "--quiet", "--tool=callgrind", f"--callgrind-out-file={self.out}", *(["--instr-atstart=no"] if is_off else [])]

    def command(self, process, *commands):
        words = [word for it in commands for word in ("-c", it)]
        subprocess.run(["vgdb", f"--pid={process.pid}", *words], stdout=subprocess.PIPE, stderr=subprocess.STDOUT)

    def part(self, process, *after):
        """The instructions since the last part. Commands may follow."""
        wait_until_idle(process)
        self.parts += 1
        for _ in range(5):
            self.command(process, "dump", *after)
            if (count := count_in(Path(f"{self.out}.{self.parts}"))) is not None:
                return count
        sys.exit("callgrind gave no counts")

    def begin(self, process):
        wait_until_idle(process)
        self.command(process, "zero", "instrumentation on")

    def end(self, process):
        """The instructions since `begin`."""
        return self.part(process, "instrumentation off")

    def whole(self):
        """The instructions of a process that has ended, or None."""
        return count_in(self.out)
