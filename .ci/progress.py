"""How far a first use is: the share of the expected work that is done, and the time for the rest at this machine's pace."""

import os
import shutil
import sys

# The pace that is assumed until crates are done, in expected seconds of work that one core does in a second, and how much
# work that assumption counts for: that of the machine where the seconds were measured.
FIRST_PACE, FIRST_WORK = 1, 20
# A crate that takes longer than expected is shown as almost done.
ALMOST = 0.95


def speed_of(jobs):
    """How many times as fast a proof is that is divided among cores, which takes half as much again of them."""
    return jobs / 1.5 if jobs > 1 else 1


class Progress:
    """The expected work of crates, in seconds: what is done, what is under way, and what is left.

    `kept` has the crates that an earlier run has proved: their work is done, and says nothing of the pace."""

    def __init__(self, work, below, chains, cores, kept=()):
        self.work, self.below, self.chains, self.cores = work, below, chains, cores
        self.left = {crate: work[crate] for crate in work if crate not in kept}
        self.running = {}
        self.worked, self.spent = FIRST_WORK, FIRST_WORK / FIRST_PACE

    def begin(self, crate, jobs, now):
        self.running[crate] = (now, jobs)

    def end(self, crate, is_done, now):
        begun, jobs = self.running.pop(crate)
        if is_done:
            self.worked += self.left.pop(crate)
            self.spent += (now - begun) * speed_of(jobs)

    def pace(self):
        return self.worked / self.spent

    def rest(self, now):
        """The work that is left of each crate, if those under way keep the pace."""
        rest = dict(self.left)
        for crate, (begun, jobs) in self.running.items():
            rest[crate] -= min((now - begun) * speed_of(jobs) * self.pace(), ALMOST * rest[crate])
        return rest

    def share(self, now):
        """The share of all work that is done by now, also of crates that are under way."""
        return 1 - sum(self.rest(now).values()) / sum(self.work.values())

    def kept(self):
        """How much is proved and stays so: the number of crates of all, and their share of the work."""
        return f"{self.count()} of {len(self.work)} crates are proved and kept, {percent(1 - sum(self.left.values()) / sum(self.work.values()))} of the work"

    def beginning(self, left, running):
        """The crates that can begin, each with its jobs and its rank: those with the longest chain above them first.

        The one with the longest chain uses the cores that are left over, and those of higher rank give way to it."""
        ready = sorted((it for it in left if it not in running and not self.below[it] & left), key=self.chains.get, reverse=True)
        ready = ready[: self.cores - len(running)]
        others = {*ready, *running}
        ranks = {crate: sum(self.chains[crate] < self.chains[it] for it in others) for crate in ready}
        return [(it, 1 + self.cores - len(others) if ranks[it] == 0 else 1, ranks[it]) for it in ready]

    def seconds_left(self, now):
        """Plays the rest of the run at the pace of the crates that are done."""
        rest, left, seconds = self.rest(now), set(self.left), 0
        running = {crate: speed_of(jobs) for crate, (_, jobs) in self.running.items()}
        while left:
            running |= {crate: speed_of(jobs) for crate, jobs, _ in self.beginning(left, running)}
            step = min(rest[it] / running[it] for it in running)
            seconds += step
            for it in list(running):
                rest[it] -= step * running[it]
                if rest[it] < 1e-6:
                    left.remove(it)
                    del running[it]
        return seconds / self.pace()

    def count(self):
        """How many crates are done."""
        return len(self.work) - len(self.left)

    def text(self, now):
        """The share that is done and the time that is left, in words."""
        return f"{percent(self.share(now))} of the work, {time_text(self.seconds_left(now))} left"


def percent(share):
    return f"{int(100 * share + 1e-9)} %"


def time_text(seconds):
    minutes = -(-int(seconds) // 60)
    return f"about {minutes} minutes" if minutes > 1 else "about a minute"


class Screen:
    """Standard error: lines that stay, and on a terminal one line below them that is drawn again and again."""

    def __init__(self, name, stream=sys.stderr):
        self.name, self.stream, self.is_drawn = name, stream, False
        self.is_terminal = stream.isatty() and os.environ.get("TERM", "dumb") != "dumb"

    def say(self, line):
        """Prints a line that stays."""
        self.clear()
        print(f"{self.name}: {line}", file=self.stream, flush=True)

    def draw(self, line):
        """Draws the line that changes, as far as the terminal is wide."""
        if self.is_terminal:
            width = shutil.get_terminal_size().columns - 1
            self.stream.write(f"\r\x1b[K{self.name}: {line}"[: width + len("\r\x1b[K")])
            self.stream.flush()
            self.is_drawn = True

    def clear(self):
        if self.is_drawn:
            self.stream.write("\r\x1b[K")
            self.is_drawn = False
