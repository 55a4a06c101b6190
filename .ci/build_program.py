#!/usr/bin/env python3
"""Proves the crates that the desk's program uses, builds it, and reports its progress on standard error.

Crates that do not use each other are proved at the same time, each on one core, since a proof that is divided
among cores takes half as much again of a processor. The longer the chain of crates above one, the sooner it
begins; if cores are left over it uses them too, and the others give way to it. The library that is made of a
proved crate holds its statements alone, which the crates above read in less time than its proofs. What is proved
stays in out/ of the program's crate, also if a run is interrupted: the next run proves what is left, what
changed and what uses that.

Progress is the share of the expected work that is done, and the time for the rest at the pace of this machine:
one line that is drawn again on a terminal, and a line for each crate in a pipe. Expected are the seconds that each
crate took when they were measured; a whole run measures them again, and this keeps them:

    cp crates/achdesk/out/seconds.txt .ci/seconds.txt

RT_JOBS is the number of cores that are used, by default all.
"""

import hashlib
import os
import shutil
import subprocess
import sys
import time
from concurrent.futures import FIRST_COMPLETED, ThreadPoolExecutor, wait
from pathlib import Path

from progress import Progress, Screen, speed_of, time_text

TOP = Path(__file__).resolve().parent.parent
CRATES = TOP / "crates"
PROGRAM = "achdesk"
OUT = CRATES / PROGRAM / "out"
LIBRARIES = OUT / "libraries"
# Of each crate the seconds that one core takes for its proof and its library: those that are expected, and those of the
# last run here.
EXPECTED, MEASURED = TOP / ".ci" / "seconds.txt", OUT / "seconds.txt"
# The Rattle toolchain lies where its command does.
KIT = Path(shutil.which("rattle") or "no toolchain/bin/rattle").resolve().parent.parent


SCREEN = Screen(PROGRAM)
say = SCREEN.say


def uses_of_crates():
    """Returns for each crate of the list of crates the libraries that its line names."""
    lines = [it.partition("#")[0] for it in (TOP / "crates.txt").read_text().splitlines()]
    return {it.partition(":")[0].split()[0]: it.partition(":")[2].split() for it in lines if ":" in it}


def crates_below(uses, *tops):
    """Returns the crates of this repository that these use, themselves last, each with those below it."""
    found = {}

    def visit(name):
        if name in found or name not in uses:
            return found.get(name, set())
        below = set()
        for it in uses[name]:
            below |= visit(it) | ({it} & uses.keys())
        found[name] = below
        return below

    for it in tops:
        visit(it)
    return found


def chains_above(below, uses):
    """Returns of each crate how much work the longest chain of crates has that leads from it to the program."""
    chains = {}
    for crate in reversed(below):
        above = (chains[it] for it in chains if crate in below[it])
        chains[crate] = work_of(crate, below[crate], uses) + max(above, default=0)
    return chains


def work_of(crate, below, uses):
    """Returns how many seconds a crate is expected to take. One that was never measured is guessed by its lines and by what
    it loads of the toolchain."""
    if (seconds := seconds_in(EXPECTED).get(crate)) is not None:
        return seconds
    lines = sum(it.read_bytes().count(b"\n") for it in (CRATES / crate / "src").rglob("*.rt"))
    loaded = {it for name in (crate, *below) for it in uses[name]} - uses.keys()
    return lines / 10 + 3 * len(loaded)


def seconds_in(table):
    """Returns the seconds of each crate that a file has."""
    lines = table.read_text().splitlines() if table.is_file() else []
    return {name: int(seconds) for name, seconds in (it.split() for it in lines)}


def keep_seconds(crate, seconds):
    """Keeps how many seconds of one core a crate took."""
    kept = seconds_in(MEASURED) | {crate: max(round(seconds), 1)}
    MEASURED.write_text("".join(f"{name} {it}\n" for name, it in sorted(kept.items())))


def sum_of(crate, below, uses):
    """Returns a sum over what a crate's proof reads: the toolchain, and each crate at or below it."""
    total = hashlib.sha256((KIT / "KIT-ID").read_bytes())
    for name in (crate, *sorted(below)):
        total.update(f"{name}: {uses[name]} ".encode())
        for part in ("src", "specs", "proofs"):
            for file in sorted((CRATES / name / part).rglob("*.*")):
                text = file.read_bytes()
                total.update(f"{file.relative_to(CRATES)} {len(text)} ".encode() + text)
    return total.hexdigest()


def sources_of(crate, uses):
    """Returns the words that tell rattle a crate's root, the libraries that it uses and the logic."""
    root = "src/main.rt" if crate == PROGRAM else "src/lib.rt"
    words = ["--crate-name", crate, root, "--links", f"{crate}="]
    for it in ("std", *uses[crate]):
        words += ["--extern", f"{it}={LIBRARIES if it in uses else KIT / 'rlibs'}/{it}.rlib"]
    words += ["-L", f"dependency={LIBRARIES}", "-L", f"dependency={KIT}/rlibs"]
    return [*words, "--antt-project", KIT / "rattle/logic/antt-project.json", "--logic-built", KIT / "logic_built"]


def commands_of(crate, uses, jobs):
    """Returns the commands that prove a crate and make its library, or the program."""
    words = [KIT / "bin/rattle", "build", *sources_of(crate, uses), "--jobs", jobs]
    if crate != PROGRAM:
        return [[*words, "--statements", "-o", made_of(crate)]]
    tools, part = ["--toolchain", KIT / "toolchain"], OUT / f"{PROGRAM}.o"
    link = [KIT / "bin/rattle-link", "--target", "x86_64-unknown-linux-gnu", *tools, "-o", made_of(crate), part]
    # The program is up to a fifth slower than by clang, which took two minutes at the end, on one core.
    return [[*words, *tools, "--backend", "rattle", "-o", part], [*link, KIT / "c/libos_c.a", KIT / "c/liblibc_c.a"]]


def made_of(crate):
    return OUT / PROGRAM if crate == PROGRAM else LIBRARIES / f"{crate}.rlib"


def proof_of(crate):
    """Returns the file that says of which text a crate was proved."""
    return LIBRARIES / f"{crate}.sum"


def is_kept(crate, below, uses):
    """Returns whether an earlier run has proved and built the crate as it is now."""
    proof = proof_of(crate)
    return made_of(crate).exists() and proof.is_file() and proof.read_text() == sum_of(crate, below, uses)


def make(crate, below, uses, jobs, rank):
    """Proves and builds a crate, and returns how many seconds of one core that took, or None if it is not done. It gives way
    to those of lower rank."""
    total, spent = sum_of(crate, below, uses), 0
    proof_of(crate).unlink(missing_ok=True)
    for command in commands_of(crate, uses, jobs):
        seconds = run(["nice", "-n", 5 * rank, *command], crate)
        if seconds is None:
            return None
        spent += seconds
    # What changed while it was proved is proved again by the next run.
    if total != sum_of(crate, below, uses):
        return None
    proof_of(crate).write_text(total)
    return spent * speed_of(jobs) / jobs


def log_of(crate):
    return OUT / f"{crate}.log"


def run(words, crate):
    """Returns how many seconds processors worked for a command, or None if it fails. It keeps the lock of this run, so that
    no other begins while it still works."""
    with open(log_of(crate), "w") as out:
        how = {"cwd": CRATES / crate, "stdin": subprocess.DEVNULL, "stdout": out, "stderr": out, "close_fds": False}
        process = subprocess.Popen([str(it) for it in words], **how)
        _, status, used = os.wait4(process.pid, 0)
    process.returncode = os.waitstatus_to_exitcode(status)
    return None if process.returncode else used.ru_utime + used.ru_stime


def progress_of(below, uses, cores):
    """Returns the progress of a run that has proved nothing yet, with what earlier runs have proved."""
    kept = {it for it in below if is_kept(it, below[it], uses)}
    work = {it: work_of(it, below[it], uses) for it in below}
    return Progress(work, below, chains_above(below, uses), cores, kept)


def told(progress, crate, is_done, seconds):
    """Reports how a crate ended, and returns whether it is done."""
    if not is_done:
        say(f"{crate} is not done: see {log_of(crate)}")
    elif not SCREEN.is_terminal:
        say(f"{progress.count()} of {len(progress.work)} crates, {progress.text(time.monotonic())}: {crate} took {seconds:.0f} seconds")
    return is_done


def draw(progress):
    names = ", ".join(sorted(progress.running))
    SCREEN.draw(f"{progress.text(time.monotonic())}; {progress.count()} of {len(progress.work)} crates; now {names}")


def prove_all(below, uses, cores, progress=None):
    """Proves and builds crates, each once those below it are, and returns whether all are done."""
    progress, running, is_fine = progress or progress_of(below, uses, cores), {}, True
    with ThreadPoolExecutor(cores) as pool:
        while running or (progress.left and is_fine):
            for crate, jobs, rank in progress.beginning(progress.left.keys(), progress.running) if is_fine else ():
                progress.begin(crate, jobs, time.monotonic())
                running[pool.submit(make, crate, below[crate], uses, jobs, rank)] = crate
            draw(progress)
            for ended in wait(running, timeout=1, return_when=FIRST_COMPLETED).done:
                is_fine = end(progress, running.pop(ended), ended.result()) and is_fine
    return is_fine


def end(progress, crate, spent):
    """Counts a crate that has ended, reports it, and returns whether it is done: then it has spent seconds."""
    now = time.monotonic()
    seconds = now - progress.running[crate][0]
    progress.end(crate, spent is not None, now)
    if spent is not None:
        keep_seconds(crate, spent)
    return told(progress, crate, spent is not None, seconds)


def cores_to_use():
    """Returns how many cores are used, by RT_JOBS if it is set; None if that is not a number of cores."""
    cores, told = len(os.sched_getaffinity(0)), os.environ.get("RT_JOBS", "")
    if not told:
        return cores
    return min(int(told), cores) if told.isascii() and told.isdigit() and int(told) else None


def main():
    start, cores, uses = time.monotonic(), cores_to_use(), uses_of_crates()
    below = crates_below(uses, PROGRAM)
    if cores is None:
        say(f"RT_JOBS is a number of cores, and not '{os.environ['RT_JOBS']}'")
        return 1
    if not (KIT / "KIT-ID").is_file():
        say("it is proved and built first, and that needs the Rattle toolchain: its command rattle is not on the PATH")
        return 1
    LIBRARIES.mkdir(parents=True, exist_ok=True)
    progress = progress_of(below, uses, cores)
    say(f"{len(below)} crates are proved and the program is built first, on {cores} core{'s' if cores > 1 else ''}; {time_text(progress.seconds_left(start))} if this machine "
        "is as fast as the one where that was measured")
    say("./try runs any command that does not open a desk file sooner, with nothing proved")
    if progress.count():
        say(progress.kept())
    try:
        if not prove_all(below, uses, cores, progress):
            say(progress.kept())
            return 1
    except KeyboardInterrupt:
        # It is counted again, with the crates that ended meanwhile.
        say(f"interrupted; {progress_of(below, uses, cores).kept()}: the next run proves the rest")
        return 130
    # It is newer now than each source, also if no crate of its own had changed.
    os.utime(made_of(PROGRAM))
    say(f"done in {time.monotonic() - start:.0f} seconds")
    return 0


if __name__ == "__main__":
    sys.exit(main())
