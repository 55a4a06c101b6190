"""Tests what `./achdesk` prints while it proves and builds the program: `python3 judge/first_use.py`.

A copy of the repository is built by a toolchain of which the prover sleeps and writes an empty library, so that a first use
takes seconds. In a pipe there must be a line for each crate, on a terminal one line that is drawn again; an interrupt and a
crate that fails must say what is kept, and the next run must prove only the rest. The arithmetic is tried apart, on machines
of several paces: after a tenth of the time what is announced must be within a third of what the rest then takes, always if
crates take as long as expected, and in 19 of 20 cases if each takes 0.6 to 1.6 times as long. The last line counts the
checks; the status is 1 where one failed. It takes a minute.
"""

import os
import pty
import random
import re
import shutil
import signal
import subprocess
import sys
import tempfile
import time
from pathlib import Path

from helpers.running import TOP, Checks

sys.path.insert(0, str(TOP / ".ci"))
import build_program as build  # noqa: E402
from progress import Progress, speed_of, time_text  # noqa: E402

# Sleeps as long as the crate's sources are large, writes what it is told to write, and keeps a list of what it was asked.
RATTLE = """#!/bin/sh
name=$3
[ "$1" = build ] || exit 1
echo "$name" >> "$(dirname "$0")/asked"
! [ "$name" = "$FAILS" ] || exit 1
sleep $(cat src/*.rt | wc -l | awk '{ print $1 / 4000 }')
while [ "$1" != -o ]; do shift; done
echo "$name" > "$2"
"""
LINK = """#!/bin/sh
while [ "$1" != -o ]; do shift; done
printf '#!/bin/sh\\necho proved\\n' > "$2"
chmod 755 "$2"
"""
LINE = re.compile(r"achdesk: (\d+) of (\d+) crates, (\d+) % of the work, about (\d+|a) minutes? left: (\w+) took \d+ seconds")
DRAWN = re.compile(r"\r\x1b\[Kachdesk: (\d+) % of the work, about (\d+|a) minutes? left; (\d+) of (\d+) crates; now ")
KEPT = re.compile(r"(\d+) of (\d+) crates are proved and kept, (\d+) % of the work")


class Copy:
    """A copy of the repository, and the toolchain that builds it."""

    def __init__(self, folder):
        self.top, self.kit = folder / "achdesk", folder / "kit"
        self.top.mkdir()
        for name in ("achdesk", "crates.txt"):
            shutil.copy(TOP / name, self.top)
        shutil.copytree(TOP / ".ci", self.top / ".ci", ignore=shutil.ignore_patterns("__pycache__"))
        shutil.copytree(TOP / "crates", self.top / "crates", ignore=shutil.ignore_patterns("out"))
        (self.kit / "bin").mkdir(parents=True)
        (self.kit / "KIT-ID").write_text("a toolchain that sleeps\n")
        for name, text in (("rattle", RATTLE), ("rattle-link", LINK)):
            (self.kit / "bin" / name).write_text(text)
            (self.kit / "bin" / name).chmod(0o755)
        self.total = len(build.crates_below(build.uses_of_crates(), build.PROGRAM))

    def environment(self, fails="", jobs=""):
        return {**os.environ, "PATH": f"{self.kit}/bin:{os.environ['PATH']}", "FAILS": fails, "RT_JOBS": jobs, "TERM": "xterm", "COLUMNS": "120"}

    def begin(self, fails="", errors=subprocess.PIPE, jobs=""):
        (self.kit / "bin" / "asked").write_text("")
        return subprocess.Popen([self.top / "achdesk", "--version"], env=self.environment(fails, jobs), stdin=subprocess.DEVNULL, stdout=subprocess.PIPE, stderr=errors,
                                text=True, start_new_session=True)

    def run(self, fails="", jobs=""):
        """What it prints, on standard output and on standard error, and its status."""
        process = self.begin(fails, jobs=jobs)
        printed, errors = process.communicate(timeout=300)
        return printed, errors, process.returncode

    def asked(self):
        return sorted((self.kit / "bin" / "asked").read_text().split())


def in_a_pipe(checks, copy):
    printed, errors, status = copy.run()
    checks.that("a first use ends with the program's answer", (printed, status), ("proved\n", 0))
    lines = [it for line in errors.splitlines() if (it := LINE.fullmatch(line))]
    checks.that("there is a line for each crate", sorted(it[5] for it in lines), copy.asked())
    checks.that("each crate is proved once", len(lines), copy.total)
    checks.that("the count rises by one", [int(it[1]) for it in lines], list(range(1, copy.total + 1)))
    shares = [int(it[3]) for it in lines]
    checks.that("the share rises to 100 %", (shares == sorted(shares), shares[-1]), (True, 100))
    checks.that("nothing is drawn again", "\r" in errors, False)
    checks.that("a second use proves nothing", (copy.run(), copy.asked()), (("proved\n", "", 0), []))


def interrupted(checks, copy):
    """An interrupt, as from a terminal: to all processes of the group."""
    touch(copy, "desk_rules")
    touch(copy, "ach_fields")
    process = copy.begin()
    for line in process.stderr:
        if LINE.match(line) and int(LINE.match(line)[1]) >= 8:
            break
    os.killpg(process.pid, signal.SIGINT)
    rest = process.communicate(timeout=60)[1]
    told = KEPT.search(rest)
    checks.that("an interrupt says what is kept", (bool(told), rest.count("Traceback")), (True, 0))
    printed, errors, status = copy.run()
    again = KEPT.search(errors)
    checks.that("the next run says so too", again and again.groups(), told and told.groups())
    checks.that("and proves only the rest", (printed, status, len(copy.asked())), ("proved\n", 0, copy.total - int(told[1]) if told else None))


def touch(copy, crate):
    """Changes a crate, and so all that use it."""
    with open(copy.top / "crates" / crate / "src/lib.rt", "a") as out:
        out.write("// changed\n")


def failed(checks, copy):
    touch(copy, "http_routes")
    printed, errors, status = copy.run(fails="desk_http")
    checks.that("a crate that fails is named with its log", (f"achdesk: desk_http is not done: see {copy.top}/crates/achdesk/out/desk_http.log" in errors, printed, status), (True, "", 3))
    checks.that("and what is kept is told", KEPT.search(errors) is not None)


def with_jobs(checks, copy):
    """RT_JOBS is the number of cores."""
    touch(copy, "http_routes")
    printed, errors, status = copy.run(jobs="two")
    checks.that("RT_JOBS that is no number is refused", ("achdesk: RT_JOBS is a number of cores, and not 'two'" in errors, printed, status), (True, "", 3))
    printed, errors, status = copy.run(jobs="1")
    checks.that("with RT_JOBS=1 one core is used", (" on 1 core; about " in errors, printed, status), (True, "proved\n", 0))
    kept = dict(it.split() for it in (copy.top / "crates/achdesk/out/seconds.txt").read_text().splitlines())
    checks.that("the seconds of each crate are kept for the next table", len(kept), copy.total)


def on_a_terminal(checks, copy):
    touch(copy, "ach_fields")
    ours, theirs = pty.openpty()
    process = copy.begin(errors=theirs)
    os.close(theirs)
    text = b""
    try:
        while piece := os.read(ours, 65_536):
            text += piece
    except OSError:
        pass
    process.wait(60)
    drawn = DRAWN.findall(text.decode())
    shares = [int(it[0]) for it in drawn]
    checks.that("on a terminal a line is drawn again", (len(drawn) > 10, shares == sorted(shares)), (True, True))
    checks.that("and no line stays for a crate", LINE.search(text.decode()), None)
    widest = max(len(it) for it in re.sub(r"\x1b\[K", "", text.decode()).replace("\r\n", "\r").split("\r"))
    checks.that("the line is no wider than the terminal", widest <= 160)


def errors_of(work, below, chains, pace, cores, spread, chance):
    """How far what is announced is off on one machine, at each end of a crate between a tenth and nine tenths of the time, and
    the minutes that all take. Each crate takes between `spread` times as long as expected."""
    progress, announced, now, running = Progress(work, below, chains, cores), {}, 0, {}
    while progress.left:
        for crate, jobs, _ in progress.beginning(progress.left.keys(), running):
            running[crate] = now + work[crate] / pace / speed_of(jobs) * chance.uniform(*spread)
            progress.begin(crate, jobs, now)
        crate = min(running, key=running.get)
        now = running.pop(crate)
        progress.end(crate, True, now)
        announced[now] = progress.seconds_left(now)
    return [abs(left - (now - at)) / (now - at) for at, left in announced.items() if 0.1 < at / now < 0.9], now / 60


def paces(checks):
    """On machines of several paces the time that is announced is about what the rest then takes."""
    uses = build.uses_of_crates()
    below = build.crates_below(uses, build.PROGRAM)
    work = {it: build.work_of(it, below[it], uses) for it in below}
    known = work, below, build.chains_above(below, uses)
    for pace, cores in ((0.5, 1), (0.5, 2), (0.5, 4), (1.75, 2), (6, 4)):
        errors, minutes = errors_of(*known, pace, cores, (1, 1), random.Random(1))
        checks.that(f"pace {pace}, {cores} cores, {minutes:.0f} minutes: {max(errors):.0%} off at most", max(errors) < 1 / 3)
    for pace, cores in ((1.75, 1), (1.75, 4), (6, 2)):
        errors = [it for seed in range(20) for it in errors_of(*known, pace, cores, (0.6, 1.6), random.Random(seed))[0]]
        right = sum(it < 1 / 3 for it in errors) / len(errors)
        checks.that(f"pace {pace}, {cores} cores, crates take 0.6 to 1.6 times as long, 20 times: {right:.1%} of what is announced is within a third", right > 0.95)
    checks.that("times in words", [time_text(it) for it in (0, 59, 60, 61, 120, 121, 3_600)],
                ["about a minute", "about a minute", "about a minute", "about 2 minutes", "about 2 minutes", "about 3 minutes", "about 60 minutes"])
    progress = Progress({"a": 100, "b": 300}, {"a": set(), "b": {"a"}}, {"a": 400, "b": 300}, 1, {"a"})
    checks.that("what is kept counts as done", (progress.share(0), progress.kept()), (0.25, "1 of 2 crates are proved and kept, 25 % of the work"))
    progress.begin("b", 1, 0)
    checks.that("a crate that takes long is almost done", round(progress.share(1e9), 4), 1 - 0.75 * 0.05)


def main():
    checks = Checks()
    paces(checks)
    with tempfile.TemporaryDirectory(prefix="first-use-") as folder:
        copy = Copy(Path(folder))
        in_a_pipe(checks, copy)
        interrupted(checks, copy)
        failed(checks, copy)
        with_jobs(checks, copy)
        on_a_terminal(checks, copy)
    checks.end()


if __name__ == "__main__":
    main()
