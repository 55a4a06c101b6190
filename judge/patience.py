#!/usr/bin/env python3
"""Keeps `achdesk serve` waiting, as clients do: `python3 judge/patience.py [PROGRAM] [CLIENTS] [REQUESTS]`.

PROGRAM is the built program, CLIENTS 50 and REQUESTS 3 where they are left out.

A desk has a patience of one second. A client says nothing, stops inside its head or its body, keeps its connection
and asks no more, is told that the connection ends and does not close it, or takes none of its answers. Meanwhile a
second client asks: it is held up so long, and no longer. What the first one had sent whole stands, and nothing else.

Then so many clients keep their connections, each with so many submissions and a pause before each, some pauses longer
than the patience. Each request has to be answered on the connection that its client has kept, or on one new one, and
the desk's file must have each submission once. With fifty clients this takes some three minutes.

The last line counts the checks; the status is 1 where one failed.
"""

import random
import socket
import sys
import tempfile
import threading
import time
from pathlib import Path

from helpers.running import (HOST, MILL, MILL_KEY, Checks, Serving, answer, connect, make_desk, message, program_of, read_answer, rows_of,
                     status_of)

PATIENCE = 1
LATE = 2.5  # so many seconds more a busy machine may take
ENTRY = '{"routing":"091000019","account":"123456789","kind":"checking","cents":150000,"id":"E1","name":"ANN LEE"}'
GET = message("GET /ops/settlement")
SETTLED = answer(200, '{"balance":"0","day":"2025-01-08","days":[]}')
LARGE = message("GET /c/MILL01/submissions/LARGE", key=MILL_KEY)


def pay(reference, entries=1):
    return (f'{{"ref":"{reference}","sec":"PPD","direction":"credit","description":"PAYROLL","day":"2025-01-10",'
            f'"entries":[{",".join([ENTRY] * entries)}]}}')


def submission(reference, entries=1):
    return message("POST /c/MILL01/submissions", pay(reference, entries), MILL_KEY)


def asked(port, sent):
    """The answer to a message on a connection of its own, and how many seconds it took."""
    begun = time.monotonic()
    with connect(port) as it, it.makefile("rb") as reader:
        it.sendall(sent)
        came = read_answer(reader)
    return came, time.monotonic() - begun


def rest_of(it):
    """All that still comes, and whether the connection is closed in good order."""
    came = b""
    try:
        while piece := it.recv(65_536):
            came += piece
    except (ConnectionResetError, TimeoutError):
        return came, False
    return came, True


# ---- a client that keeps the desk waiting, and the next one ----


def opened(port, sent=b""):
    it = connect(port)
    it.sendall(sent)
    return it


def answered(port, sent):
    """A connection on which a message was answered, which stays."""
    it = opened(port, sent)
    with it.makefile("rb") as reader:
        read_answer(reader)
    return it


def not_reading(port):
    """A connection on which so much is asked that the system cannot hold its answers, of which none is taken."""
    it = socket.socket()
    it.setsockopt(socket.SOL_SOCKET, socket.SO_RCVBUF, 4096)
    it.settimeout(30)
    it.connect((HOST, port))
    it.sendall(LARGE * 400)
    return it


def held_up(checks, port, what, first, patience=PATIENCE):
    """The next client waits so long as the first one keeps the desk waiting, and no longer."""
    time.sleep(0.1)  # the desk is at the first one
    came, seconds = asked(port, GET)
    checks.that(f"{what}: the next client is answered", came, SETTLED)
    checks.that(f"{what}: it waited {seconds:.2f} seconds, the patience of {patience} and no longer", 0.5 * patience <= seconds <= patience + LATE)
    return first


def clients_that_say_too_little(checks, port):
    whole, half = submission("FIRST-1"), submission("HALF-1")
    head = half.index(b"\r\n\r\n") + 4
    for what, sent, wanted in (("a client that says nothing", b"", b""), ("one that stops in its first line", half[:20], b""),
                               ("one that stops in its head", half[:head - 2], b""), ("one that stops before its body", half[:head], b""),
                               ("one that stops before the last byte of its body", half[:-1], b""),
                               ("one that stops in its second message", whole + half[:-1], answer(201, '{"cents":150000,"entries":1,"order":2,"ref":"FIRST-1"}'))):
        with held_up(checks, port, what, opened(port, sent)) as first:
            checks.that(f"{what}: it has the answers to what came whole, and the connection is closed", rest_of(first), (wanted, True))
            try:
                first.sendall(half[-1:])
            except OSError:
                pass
        checks.that(f"{what}: nothing of its last message was done", asked(port, message("GET /c/MILL01/submissions/HALF-1", key=MILL_KEY))[0],
                    answer(404, '{"error":"NoReference"}'))
    checks.that("what came whole stands", asked(port, whole)[0], answer(201, '{"cents":150000,"entries":1,"order":2,"ref":"FIRST-1"}'))


def clients_that_stay(checks, port):
    with held_up(checks, port, "a client that was answered and keeps its connection", answered(port, GET)) as first:
        checks.that("its connection is closed", rest_of(first), (b"", True))
    closing = message("GET /ops/settlement", fields=["Connection: close"])
    with held_up(checks, port, "one that is told that the connection ends and does not close", answered(port, closing)) as first:
        checks.that("its connection is closed", rest_of(first), (b"", True))
    with held_up(checks, port, "one that takes none of its answers", not_reading(port)) as first:
        came, _ = rest_of(first)
        checks.that("it has no more than its answers", 0 < len(came) < 400 * 1_000 * 40)


def clients_that_go_on(checks, port):
    """Patience does not leave these."""
    with connect(port) as first, connect(port) as second:
        second.sendall(GET)
        begun, pieces = time.monotonic(), 6
        for at in range(pieces):
            time.sleep(0.6 * PATIENCE)
            first.sendall(GET[at * len(GET) // pieces:(at + 1) * len(GET) // pieces])
        with first.makefile("rb") as reader:
            checks.that("a client that sends a little now and then is answered", read_answer(reader), SETTLED)
        first.close()
        with second.makefile("rb") as reader:
            checks.that("the next one is answered after it", read_answer(reader), SETTLED)
        checks.that("and waited for it longer than the patience", time.monotonic() - begun >= 3 * PATIENCE)


def counted_connections(checks, program, path):
    with Serving(program, path, connections=2, patience=PATIENCE).listen() as desk:
        with connect(desk.port):
            checks.that("a client that is left counts: the second connection of two is served", status_of(asked(desk.port, GET)[0]), 200)
        checks.that("and the desk ends with status 0", desk.ended(), (b"", 0))


def other_patience(checks, program, path):
    with Serving(program, path, patience=3).listen() as desk:
        held_up(checks, desk.port, "with a patience of 3, a client that says nothing", connect(desk.port), 3).close()


# ---- clients that keep their connections ----


class Keeper:
    """A client that keeps its connection from one request to the next, and connects anew where it was closed."""

    def __init__(self, port, number, requests):
        self.port, self.requests = port, requests
        self.chance = random.Random(number)
        self.references = [f"KEEP-{number}-{at}" for at in range(requests)]
        self.it, self.reader = None, None
        self.failures, self.anew, self.longest = [], 0, 0.0

    def close(self):
        if self.it is not None:
            self.reader.close()
            self.it.close()
            self.it = None

    def connect(self):
        self.close()
        self.it = socket.create_connection((HOST, self.port), timeout=600)
        self.reader = self.it.makefile("rb")
        self.anew += 1

    def tried(self, sent):
        """The answer, or nothing where the connection ends without one."""
        try:
            self.it.sendall(sent)
            return read_answer(self.reader)
        except OSError:
            return b""

    def ask(self, reference):
        begun, sent = time.monotonic(), submission(reference)
        came = self.tried(sent) if self.it is not None else b""
        if not came:
            self.connect()
            came = self.tried(sent)
        self.longest = max(self.longest, time.monotonic() - begun)
        if status_of(came) != 201 or f'"ref":"{reference}"'.encode() not in came:
            self.failures.append((reference, came))

    def run(self):
        for reference in self.references:
            self.ask(reference)
            time.sleep(self.chance.uniform(0, 2.5 * PATIENCE))
        self.close()


def clients_that_keep(checks, program, path, count, requests):
    before = len(rows_of(path)["submissions"])
    with Serving(program, path, patience=PATIENCE).listen() as desk:
        keepers = [Keeper(desk.port, number, requests) for number in range(count)]
        threads = [threading.Thread(target=it.run) for it in keepers]
        begun = time.monotonic()
        for it in threads:
            it.start()
        for it in threads:
            it.join()
        taken = time.monotonic() - begun
    failures = [line for it in keepers for line in it.failures]
    checks.that(f"{count} clients that keep their connections: each of {count * requests} requests is answered after at most one new connection",
                failures, [])
    rows = rows_of(path)
    checks.that("each stands once in the file", len(rows["submissions"]) - before, count * requests)
    checks.that("and stock SQLite finds the file whole", rows["integrity_check"], [("ok",)])
    print(f"        {sum(it.anew for it in keepers)} connections in {taken:.0f} seconds; the longest wait was {max(it.longest for it in keepers):.0f} seconds")


def main():
    program = program_of(sys.argv[1:])
    count = int(sys.argv[2]) if len(sys.argv) > 2 else 50
    requests = int(sys.argv[3]) if len(sys.argv) > 3 else 3
    checks = Checks()
    with tempfile.TemporaryDirectory() as name:
        path = Path(name) / "bank.db"
        make_desk(program, path)
        with Serving(program, path, patience=PATIENCE).listen() as desk:
            for sent in (message("POST /ops/companies", MILL), message("POST /ops/day", '{"day":"2025-01-08"}'), submission("LARGE", 1_000)):
                checks.that("the desk is set up", status_of(asked(desk.port, sent)[0]) in (200, 201))
            for group in (clients_that_say_too_little, clients_that_stay, clients_that_go_on):
                group(checks, desk.port)
            checks.that("the desk runs on", desk.is_running())
        counted_connections(checks, program, path)
        other_patience(checks, program, path)
        clients_that_keep(checks, program, path, count, requests)
    checks.end()


main()
