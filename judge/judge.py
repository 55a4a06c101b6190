"""Compares a program with the oracle: `python3 judge.py PROGRAM FILES [FIRST] [FOLDER]`.

`PROGRAM check FILE` runs on so many files, each made from its own number, from FIRST on (0 if it is
left out). Each disagreement is one printed line, and its file is kept in FOLDER. The line, its line
feed, the exit status (0 for a good file, 1 for a fault) and silence on standard error are compared.
"""

import collections
import multiprocessing
import os
import random
import subprocess
import sys
import tempfile

from helpers.grammar import answer
from helpers.mutations import spoiled

JOBS = 4
SECONDS = 30


def run(program, path):
    """What the program prints, its errors and its status."""
    try:
        done = subprocess.run([program, "check", path], capture_output=True, timeout=SECONDS)
    except subprocess.TimeoutExpired:
        return b"", b"no end", None
    return done.stdout, done.stderr, done.returncode


def compared(program, scratch, folder, name, data):
    """The oracle's answer, and what the program said in its place, or None."""
    wanted = answer(data)
    path = os.path.join(scratch, f"{os.getpid()}.ach")
    with open(path, "wb") as file:
        file.write(data)
    said = run(program, path)
    if said == (wanted.encode() + b"\n", b"", 0 if wanted.startswith("ok ") else 1):
        return wanted, None
    os.makedirs(folder, exist_ok=True)
    with open(os.path.join(folder, f"{name}.ach"), "wb") as file:
        file.write(data)
    return wanted, said


def judge(task):
    program, seed, scratch, folder = task
    return seed, *compared(program, scratch, folder, seed, spoiled(random.Random(seed)))


def main():
    if len(sys.argv) not in (3, 4, 5):
        sys.exit(__doc__)
    program, files = os.path.abspath(sys.argv[1]), int(sys.argv[2])
    first = int(sys.argv[3]) if len(sys.argv) > 3 else 0
    folder = sys.argv[4] if len(sys.argv) > 4 else "disagreements"
    answers, wrong = collections.Counter(), 0
    with tempfile.TemporaryDirectory() as scratch, multiprocessing.Pool(JOBS) as pool:
        tasks = ((program, seed, scratch, folder) for seed in range(first, first + files))
        for seed, wanted, said in pool.imap_unordered(judge, tasks, chunksize=32):
            answers[wanted.split()[0]] += 1
            if said is not None:
                wrong += 1
                print(f"{folder}/{seed}.ach: wanted {wanted!r}, got {said}", flush=True)
    told = ", ".join(f"{name} {count}" for name, count in sorted(answers.items()))
    print(f"{files} files, {wrong} disagreements ({told})")
    sys.exit(wrong != 0)


if __name__ == "__main__":
    main()
