"""Tries wrong bodies: `python3 judge/refused.py [--jobs N] [--why] [--alone] [CRATE ..]`.

Each edit in `crates/CRATE/must-fail/` and `judge/edits/CRATE/` makes a crate wrong, and the prover has to refuse
it. The gate tries the former alone; this tries all of them, or those of the crates that are named, in N crates at a
time (by default as many as there are cores). Each crate is proved once, as for ./achdesk.

A proof takes what a function calls by its contract alone. So edits of different functions are tried together: in one
copy of the crate, of which the prover checks the functions that were edited. An edit is refused where its function is
not proved for a goal of its own, and not for what it calls. What is not shown so is tried again with fewer others, and
at last alone: by the functions that it changes, or that name the constant or the definition that it changes, and where
these are still proved, by all of the crate. With --alone each edit is tried alone, by all of the crate.

An edit has lines `file: PATH`, `old: TEXT` and `new: TEXT`; each old text stands in its file exactly once. A line
is printed for each edit that is not refused as it must be, and a count at the end; with --why, also one for each that
is refused, with the function that is no longer proved and the goal that is left of its contract. The status is 0 where
all are refused, 1 where one is not, and 2 where a crate itself is not proved.
"""

import argparse
import os
import re
import shutil
import subprocess
import sys
import tempfile
import time
from concurrent.futures import ThreadPoolExecutor
from contextlib import contextmanager
from dataclasses import dataclass
from pathlib import Path

from helpers.edits import read_edit
from helpers.functions import functions_of

TOP = Path(__file__).resolve().parent.parent
sys.path.insert(0, str(TOP / ".ci"))
import build_program as proofs  # noqa: E402

PARTS = ("src", "specs", "proofs")
# antt says so of a text that it cannot read: then no contract was tried.
UNREAD = re.compile(r"is not in scope|has no field|is no name|operand is missing|expected the end|cannot continue")
# A proof file that names what an edit took away is refused for that alone.
OF_NAMES = re.compile(r"(\./)?proofs/.*(has no field|is not in scope|has no `|was not admitted)")
NOTED = re.compile(r"note: (src/\S+?):(\d+):\d+: it is not proved that .*\(`([^`]*)`\)")
UNPROVED = re.compile(r"fn \w+::(\S+): (?:no proof|not proved)(.*)")


@dataclass(frozen=True)
class Trial:
    """A crate whose edits are tried, with the crates that each crate uses, those below this one, and the two options."""

    crate: str
    uses: dict
    below: set
    is_alone: bool
    is_told: bool

    @property
    def folder(self):
        return TOP / "crates" / self.crate

    @property
    def kept(self):
        """The folder in which checks keep what they proved. What an edit left there is checked again where it is gone."""
        return self.folder / "out/refused"

    def check(self, texts, kept, functions=()):
        """Checks a copy of the crate with these texts in place of its own, whole or by some functions, over what is kept."""
        kept.mkdir(parents=True, exist_ok=True)
        with tempfile.TemporaryDirectory(prefix="edit-") as room:
            for part in PARTS:
                if (self.folder / part).is_dir():
                    shutil.copytree(self.folder / part, f"{room}/{part}")
            for path, text in texts.items():
                Path(room, path).write_text(text)
            words = [proofs.KIT / "bin/rattle", "check", *proofs.sources_of(self.crate, self.uses), "--jobs", "1"]
            words += ["--incremental", kept, *(word for it in sorted(functions) for word in ("--only", it))]
            how = {"cwd": room, "stdin": subprocess.DEVNULL, "stdout": subprocess.PIPE, "stderr": subprocess.STDOUT}
            ran = subprocess.run([str(it) for it in words], errors="replace", check=False, **how)
            return ran.returncode, ran.stdout.rstrip("\n").split("\n")

    @contextmanager
    def copy_of_kept(self):
        with tempfile.TemporaryDirectory(prefix="kept-") as room:
            if self.kept.is_dir():
                shutil.copytree(self.kept, f"{room}/kept")
            yield Path(room, "kept")

    def is_seeded(self):
        """Proves the crate over what an earlier run kept, and returns whether it is proved."""
        proved, total = self.folder / "out/refused.sum", proofs.sum_of(self.crate, self.below, self.uses)
        if not (self.kept.is_dir() and proved.is_file() and proved.read_text() == total):
            proved.unlink(missing_ok=True)
            status, lines = self.check({}, self.kept)
            if status:
                print(f"{self.crate}: NOT PROVED: {lines[-1]}", flush=True)
                return False
            proved.write_text(total)
        return True

    def together(self, edits):
        """Tries edits of different functions in one copy, and returns those of which it shows how they end, each with its verdict."""
        texts = {}
        try:
            for it in edits:
                texts = it.applied(texts)
        except ValueError:
            return {}
        status, lines = self.check(texts, self.kept, set().union(*(it.functions() for it in edits)))
        if status != 1 or any(is_unread(it, texts) for it in lines):
            return {}
        found = {}
        for name, (fault, goal) in outcomes(lines, texts).items():
            for it in edits:
                if any(is_within(name, path) for path in it.functions()) and (it not in found or found[it][0]):
                    found[it] = fault, f"{self.crate}::{name}: {goal}"
        return found

    def alone(self, edit):
        """Tries an edit alone, and returns why it is not refused as it must be, or None, and by what it is refused."""
        try:
            texts = edit.applied({})
        except (OSError, ValueError) as why:
            return f"BAD EDIT: {why}", ""
        functions = () if self.is_alone else edit.functions() or edit.users()
        if functions:
            with self.copy_of_kept() as kept:
                status, lines = self.check(texts, kept, functions)
            if status == 1:
                return verdict(status, lines, texts)
        if not self.is_seeded():
            return "NOT TRIED", ""
        with self.copy_of_kept() as kept:
            return verdict(*self.check(texts, kept), texts)

    def tried(self):
        """Tries all edits of the crate, and gives each as it ends, with its fault and its refusal."""
        waiting = []
        for file in edits_of(self.crate):
            try:
                waiting.append(read_edit(self.folder, file))
            except (OSError, ValueError) as why:
                yield file.stem, f"BAD EDIT: {why}", ""
        most = 1 if self.is_alone else len(waiting)
        while waiting:
            group = of_different_functions(waiting)[:most]
            told = self.together(group) if len(group) > 1 else {group[0]: self.alone(group[0])}
            yield from ((it.name, *how) for it, how in told.items())
            waiting = [it for it in waiting if it not in told]
            most = most if self.is_alone else len(waiting) if told else len(group) // 2

    def counted(self):
        """Tries all edits, says what there is to say, and returns how many were tried, how many not refused, and not tried."""
        faults = []
        for name, fault, refusal in self.tried():
            faults.append(fault)
            if fault or self.is_told:
                print(f"{self.crate}/{name}: {fault or refusal}", flush=True)
        return len(faults), len(faults) - faults.count(None), faults.count("NOT TRIED")


def edits_of(crate):
    folders = (TOP / "crates" / crate / "must-fail", TOP / "judge/edits" / crate)
    return sorted(it for folder in folders for it in folder.glob("*.edit"))


def of_different_functions(edits):
    """Returns as many of these edits as change functions that no other of them changes, or the first where it changes no function alone."""
    group, taken = [], set()
    for edit in edits:
        own = edit.functions()
        if own and taken.isdisjoint(own):
            group.append(edit)
            taken |= own
    return group or edits[:1]


def is_within(name, path):
    """Tells whether the function that the prover names is the one of this path, or a closure in it."""
    plain = name.replace("fn::", "")
    return f"::{plain}".endswith(f"::{path}") or (plain != name and f"::{path}::" in f"::{plain}")


def outcomes(lines, texts):
    """Returns of each function that is not proved by its own fault what a verdict says: one that only waits for what it calls is left out."""
    found, noted = {}, goals_noted(lines, texts)
    for at in filter(None, map(UNPROVED.match, lines)):
        own = f"proofs/{at[1].replace('::', '/')}/"
        errors = [it for it in lines if it.removeprefix("./").startswith(own) and ": error" in it]
        goals = re.findall(r"did not prove `([^`]*)`", at[2]) + [goal for path, goal in noted if is_within(at[1], path)]
        if not all(OF_NAMES.match(it) for it in errors):
            found[at[1]] = None, (goals or ["a goal that its proof file answers"])[0]
        elif "it calls `" not in at[2] and (goals or errors):
            found[at[1]] = (None, goals[0]) if goals else (f"BAD EDIT: a proof file names what it took away: {errors[0][:160]}", "")
    return found


def goals_noted(lines, texts):
    """Returns the goals that are noted at lines of these texts, each with the function that the line is of."""
    found = []
    for at in filter(None, map(NOTED.match, lines)):
        text = texts.get(at[1], "")
        for it in functions_of(at[1], text):
            if text.count("\n", 0, it.start) < int(at[2]) <= text.count("\n", 0, it.end) + 1:
                found.append((it.path, at[3]))
    return found


def refusal_of(lines):
    """Returns the first function that is not proved, and what is left to prove of it."""
    for line in lines:
        at = re.match(r"fn (\S+): (?:no proof|not proved)(.*)", line)
        if at:
            goal = re.search(r"did not prove `([^`]*)`", at[2])
            return f"{at[1]}: {goal[1] if goal else 'a goal that its proof file answers'}"
    return next((it for it in lines if ": error" in it), lines[-1])


def verdict(status, lines, texts):
    """Returns why a check does not refuse these texts as it must, or None, and by what it refuses them."""
    unread = next((it for it in lines if is_unread(it, texts)), None)
    told = [it for it in lines if re.match(r"(note: )?\S+:\d+:\d+:", it)]
    told = [it for it in told if ": error" in it or it.startswith("note: ")] or told
    if unread:
        return f"BAD EDIT: the prover cannot read it: {unread[:160]}", ""
    if status == 0:
        return "NOT REFUSED: the crate is still proved", ""
    if status != 1 or not lines[-1].startswith(("logic=not-proved", "only=")):
        return f"BAD EDIT: it did not reach the prover: {' '.join(lines[:3])[:240]}", ""
    if told and all(OF_NAMES.match(it) for it in told):
        return f"BAD EDIT: a proof file names what it took away: {told[0][:160]}", ""
    return None, refusal_of(lines)


def is_unread(line, texts):
    """Tells whether antt could not read a text of src/ or specs/, or one that the edit changed."""
    at = re.match(r"(?:\./)?(\S+?):\d+:\d+: error: (?:(`[^`]*`): )?(.*)", line)
    if not at or not (at[1] in texts or at[1].startswith(("src/", "specs/"))):
        return False
    return not at[2] or bool(UNREAD.search(re.sub(r"`[^`]*`", "", at[3])))


def main():
    parser = argparse.ArgumentParser(description=__doc__, formatter_class=argparse.RawDescriptionHelpFormatter)
    parser.add_argument("--jobs", type=int, default=len(os.sched_getaffinity(0)))
    parser.add_argument("--why", action="store_true")
    parser.add_argument("--alone", action="store_true")
    parser.add_argument("crates", nargs="*", metavar="CRATE")
    given, uses, start = parser.parse_args(), proofs.uses_of_crates(), time.monotonic()
    crates = [it for it in given.crates or uses if edits_of(it)]
    unknown = [it for it in given.crates if it not in crates]
    if unknown:
        parser.error(f"no edits of {', '.join(unknown)}")
    below = proofs.crates_below(uses, *crates)
    proofs.LIBRARIES.mkdir(parents=True, exist_ok=True)
    if not proofs.prove_all(below, uses, given.jobs):
        return 2
    # A crate whose proof takes long begins first.
    crates.sort(key=lambda it: -proofs.work_of(it, below[it], uses))
    trials = [Trial(it, uses, below[it], given.alone, given.why) for it in crates]
    with ThreadPoolExecutor(given.jobs) as pool:
        count, faults, untried = map(sum, zip(*pool.map(Trial.counted, trials)))
    worked = sum(os.times()[2:4])
    took = f"in {time.monotonic() - start:.0f} seconds, {worked:.0f} of processors"
    print(f"{count} tried, {count - faults} refused, {faults} not, {took}")
    return 2 if untried else 1 if faults else 0


if __name__ == "__main__":
    sys.exit(main())
