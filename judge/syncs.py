#!/usr/bin/env python3
"""Counts how often a commit syncs: `python3 judge/syncs.py [PROGRAM] [SUBMISSIONS]`.

PROGRAM is the built program and SUBMISSIONS 40 if they are left out.

strace runs the program and writes down each sync and each answer. One desk answers so many submissions in a session of
`stdio DB`, another on a connection of `serve`: with `--sync twice`, with `--sync once` and without the option. In the
steady state each submission has exactly two syncs before its answer, or one with `--sync once`. The first commits after an opening
or a checkpoint may have more, one tenth of all at most, and none may have fewer. A question has none. `init` has no such option.

A desk that was served with one of the two options is killed, and then a session with the other repeats its submissions: it
gives the same answers.

It needs Debian's package strace; without it, it names the package and ends with status 2. The last line counts the checks;
the status is 1 if one failed.
"""

import re
import subprocess
import sys
import tempfile
from collections import Counter
from pathlib import Path

from helpers.running import (HOST, MILL, MILL_KEY, SECONDS, Checks, Serving, connect, found, free_port, make_desk, message,
                             program_of, read_answer, run, status_of)

SYNCS = "fsync,fdatasync,sync_file_range,syncfs,sync,msync"
ANSWERS = "write,writev,sendto,sendmsg"
ENTRY = '{"routing":"091000019","account":"123456789","kind":"checking","cents":150000,"id":"E1","name":"ANN LEE"}'
# The option's words, and how many syncs a commit then has.
OPTIONS = (((), 2), (("--sync", "twice"), 2), (("--sync", "once"), 1))
BEFORE = [message("POST /ops/companies", MILL), message("POST /ops/day", '{"day":"2025-01-08"}')]
REPEATED = 10
QUESTION = message("GET /c/MILL01/submissions/PAY-0", key=MILL_KEY)


def submission(number):
    body = f'{{"ref":"PAY-{number}","sec":"PPD","direction":"credit","description":"PAYROLL","day":"2025-01-10","entries":[{ENTRY}]}}'
    return message("POST /c/MILL01/submissions", body, MILL_KEY)


def traced(log, *words):
    """The words that run a program under strace, which writes to a log what it syncs and what it answers."""
    return [found("strace"), "-f", "-qq", "-s", "9", "-e", f"trace={SYNCS},{ANSWERS}", "-e", "signal=none", "-o", log, *map(str, words)]


def syncs_before_answers(log):
    """How many syncs there are before each answer, since the one before it. An answer may take several writes: the first begins it."""
    counts, syncs = [], 0
    for line in Path(log).read_text().splitlines():
        if re.search(rf"\b({SYNCS.replace(',', '|')})\(", line):
            syncs += 1
        elif '"HTTP/1.1 ' in line:
            counts.append(syncs)
            syncs = 0
    return counts


def by_stdio(program, path, log, options, messages):
    """The answers of a session of `stdio DB`."""
    done = subprocess.run(traced(log, program, "stdio", path, *options), input=b"".join(messages), capture_output=True, timeout=SECONDS)
    return [int(it) for it in re.findall(rb"HTTP/1\.1 (\d+) ", done.stdout)]


def by_serve(program, path, log, options, messages):
    """The answers on one connection of `serve`, each message sent after the answer before it."""
    port = free_port()
    with subprocess.Popen(traced(log, program, "serve", path, port, "--connections", 1, *options), stdout=subprocess.PIPE) as process:
        if process.stdout.readline() != f"listening on {HOST}:{port}\n".encode():
            return []
        with connect(port) as it, it.makefile("rb") as reader:
            statuses = []
            for sent in messages:
                it.sendall(sent)
                statuses.append(status_of(read_answer(reader)))
        process.wait(SECONDS)
    return statuses


def try_option(checks, program, way, name, options, wanted, many):
    said = f"{name} {' '.join(options) or 'without the option'}"
    with tempfile.TemporaryDirectory() as folder:
        path, log = Path(folder) / "bank.db", Path(folder) / "log"
        make_desk(program, path)
        messages = [*BEFORE, *map(submission, range(many)), QUESTION]
        statuses = way(program, path, log, options, messages)
        counts = syncs_before_answers(log)
    checks.that(f"{said}: all is answered", Counter(statuses), Counter({201: many + 1, 200: 2}))
    checks.that(f"{said}: and strace saw each answer", len(counts), len(messages))
    of_submissions, of_question = counts[len(BEFORE):-1], counts[-1:]
    print(f"        syncs of {many} submissions: {dict(sorted(Counter(of_submissions).items()))}")
    checks.that(f"{said}: no submission has fewer than {wanted} syncs", min(of_submissions, default=0) >= wanted)
    checks.that(f"{said}: at least nine in ten have {wanted}", of_submissions.count(wanted) * 10 >= many * 9)
    checks.that(f"{said}: a question has none", of_question, [0])


def change_option(checks, program, first, second):
    with tempfile.TemporaryDirectory() as folder:
        path = Path(folder) / "bank.db"
        make_desk(program, path)
        submissions = list(map(submission, range(REPEATED)))
        with Serving(program, path, options=("--sync", first)).listen() as desk:
            with connect(desk.port) as it, it.makefile("rb") as reader:
                answers = []
                for sent in BEFORE + submissions:
                    it.sendall(sent)
                    answers.append(read_answer(reader))
        printed = run(program, "stdio", path, "--sync", second, given=b"".join(submissions))
    checks.that(f"what was answered with `{first}` is there with `{second}`", printed, (b"".join(answers[len(BEFORE):]), 0))


def main():
    program = program_of(sys.argv[1:])
    if not found("strace"):
        print("NOT RUN, it needs strace")
        sys.exit(2)
    many = int(sys.argv[2]) if len(sys.argv) > 2 else 40
    checks = Checks()
    for options, wanted in OPTIONS:
        try_option(checks, program, by_stdio, "stdio", options, wanted, many)
        try_option(checks, program, by_serve, "serve", options, wanted, many)
    change_option(checks, program, "once", "twice")
    change_option(checks, program, "twice", "once")
    checks.that("`--sync` without a desk's file is a usage error", run(program, "stdio", "--sync", "once")[1], 2)
    checks.that("so is another word", run(program, "stdio", "bank.db", "--sync", "never")[1], 2)
    checks.that("`init` has no such option", run(program, "init", "bank.db", "--sync", "once")[1], 2)
    checks.that("nor has `migrate`", run(program, "migrate", "bank.db", "--sync", "once")[1], 2)
    checks.end()


main()
