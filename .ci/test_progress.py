"""Tests of the time that ./achdesk announces: `python3 -m unittest discover -q -s .ci`.

A run is played whose crates take the seconds of the recorded one, .ci/seconds.txt, on one core and on four, on machines of
several paces, and with crates that take longer or shorter than recorded. Once a tenth of the work is done, what is announced
is right within a third of what the rest then takes, or within a minute, which is the unit of the text."""

import random
import unittest
import unittest.mock

import build_program as build
from progress import Progress, speed_of

THIRD, UNIT, EVERY = 1 / 3, 60, 60


class Run:
    """A run of the program's crates, of which each takes some seconds of one core."""

    def __init__(self, taken, cores):
        uses = build.uses_of_crates()
        below = build.crates_below(uses, build.PROGRAM)
        work = {it: build.work_of(it, below[it], uses) for it in below}
        self.progress = Progress(work, below, build.chains_above(below, uses), cores)
        self.taken, self.now, self.ends, self.reports = taken, 0, {}, []

    def play(self):
        """Plays it, and returns the worst error of what it announces after a tenth of the work: a share of the rest."""
        while self.progress.left:
            for crate, jobs, _ in self.progress.beginning(self.progress.left.keys(), self.ends):
                self.ends[crate] = self.now + self.taken[crate] / speed_of(jobs)
                self.progress.begin(crate, jobs, self.now)
            self.go_to(min(self.ends.values()))
            crate = min(self.ends, key=self.ends.get)
            del self.ends[crate]
            self.progress.end(crate, True, self.now)
        return max(max(abs(told - (self.now - at)) - UNIT, 0) / (self.now - at) for at, told in self.reports if at < self.now)

    def go_to(self, then):
        """Notes what is announced now and then, up to a time."""
        while self.now < then:
            self.now = min(self.now + EVERY, then)
            if self.progress.share(self.now) >= 0.1:
                self.reports.append((self.now, self.progress.seconds_left(self.now)))


class TestAnnounced(unittest.TestCase):
    def setUp(self):
        self.recorded = build.seconds_in(build.EXPECTED)

    def within_a_third(self, taken, **names):
        for cores in (1, 2, 4):
            with self.subTest(cores=cores, **names):
                self.assertLess(Run(taken, cores).play(), THIRD)

    def test_each_crate_of_the_program_was_recorded(self):
        crates = build.crates_below(build.uses_of_crates(), build.PROGRAM)
        self.assertEqual(sorted(crates), sorted(self.recorded))

    def test_as_recorded(self):
        for pace in (0.4, 1, 2.5):
            self.within_a_third({crate: seconds / pace for crate, seconds in self.recorded.items()}, pace=pace)

    def test_crates_that_take_longer_or_shorter(self):
        for seed in range(8):
            chance = random.Random(seed)
            self.within_a_third({crate: seconds * chance.uniform(0.7, 1.4) for crate, seconds in self.recorded.items()}, seed=seed)

    def test_the_bound_refuses_a_guess_that_is_off(self):
        """A crate of a tenth of the work that takes as long as half of it is not foreseen."""
        longest = max(self.recorded, key=self.recorded.get)
        self.assertGreater(Run(self.recorded | {longest: sum(self.recorded.values())}, 1).play(), THIRD)


class TestCores(unittest.TestCase):
    def test_rt_jobs(self):
        cores = len(build.os.sched_getaffinity(0))
        for told, wanted in ((None, cores), ("", cores), ("1", 1), ("1000", cores), ("0", None), ("-1", None), ("two", None)):
            with self.subTest(told=told), unittest.mock.patch.dict(build.os.environ):
                build.os.environ.pop("RT_JOBS", None)
                if told is not None:
                    build.os.environ["RT_JOBS"] = told
                self.assertEqual(build.cores_to_use(), wanted)


if __name__ == "__main__":
    unittest.main()
