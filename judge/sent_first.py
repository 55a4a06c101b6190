#!/usr/bin/env python3
"""Sends all that it has before it reads, as many clients do: `python3 judge/sent_first.py [PROGRAM] [TIMES]`.

PROGRAM is the built program and TIMES 10 if they are left out. urllib, http.client, curl and a plain socket send a body of
5 MiB to `achdesk serve`, which takes 4 MiB at most, and one whose length they do not say. Each time each has to read
its whole answer: 413 for the one, 411 for the other. On plain sockets so much also comes after a bad head, after a
message that says `Connection: close` or is HTTP/1.0, and after the 1,000th. A client that sends up to 16 MiB has its
answer; one that sends without end is left, and the next one is served.

The last line counts the checks; the status is 1 where one failed.
"""

import http.client
import socket
import subprocess
import sys
import tempfile
import threading
import time
import urllib.error
import urllib.request
from pathlib import Path

from helpers.running import HOST, OPERATOR_KEY, Checks, Serving, answer, connect, make_desk, message, program_of, status_of

SIZE = 5 << 20
PIECE = 1 << 16
BODY = b" " * SIZE
MAX_MESSAGES = 1_000
KEY = {"X-Desk-Key": OPERATOR_KEY}
GET = message("GET /ops/suspense")
NO_ITEMS = '{"items":[]}'
KEPT, LAST = answer(200, NO_ITEMS), answer(200, NO_ITEMS, closes=True)
BAD_HEAD = answer(400, '{"error":"BadHead"}', closes=True)
LENGTH_REQUIRED = answer(411, '{"error":"LengthRequired"}', closes=True)
TOO_LARGE = answer(413, '{"error":"TooLarge"}', closes=True)


def pieces():
    """The body in pieces, so that nobody knows its length beforehand."""
    for at in range(0, SIZE, PIECE):
        yield BODY[at:at + PIECE]


# ---- clients of other make: each gives the status and the body of its answer, or what went wrong ----


def by_urllib(port, body):
    request = urllib.request.Request(f"http://{HOST}:{port}/ops/day", data=body, headers=KEY, method="POST")
    try:
        with urllib.request.urlopen(request, timeout=60) as it:
            return it.status, it.read()
    except urllib.error.HTTPError as error:
        return error.code, error.read()
    except OSError as error:
        return 0, repr(error)


def by_http_client(port, body):
    it = http.client.HTTPConnection(HOST, port, timeout=60)
    try:
        it.request("POST", "/ops/day", body=body, headers=KEY, encode_chunked=not isinstance(body, bytes))
        with it.getresponse() as response:
            return response.status, response.read()
    except (OSError, http.client.HTTPException) as error:
        return 0, repr(error)
    finally:
        it.close()


def by_curl(port, path, *fields):
    words = [word for field in (f"X-Desk-Key: {OPERATOR_KEY}", "Expect:", *fields) for word in ("--header", field)]
    done = subprocess.run(["curl", "--silent", "--show-error", "--max-time", "60", "--write-out", "\n%{http_code}", *words,
                           "--data-binary", f"@{path}", f"http://{HOST}:{port}/ops/day"], capture_output=True)
    body, _, status = done.stdout.rpartition(b"\n")
    return (int(status), body) if done.returncode == 0 else (0, done.stderr.decode())


def by_socket(port, sent, fill=SIZE):
    """Everything that comes once all is sent."""
    with connect(port) as it:
        try:
            it.sendall(sent)
            for _ in range(0, fill, PIECE):
                it.sendall(BODY[:PIECE])
            return all_of(it)
        except OSError as error:
            return repr(error)


def all_of(it):
    came = b""
    while piece := it.recv(PIECE):
        came += piece
    return came


# ---- what is checked ----


def every_time(checks, times, what, ask, wanted):
    found = [ask() for _ in range(times)]
    checks.that(f"{what}: {times} times of {times}", [it for it in found if it != wanted], [])


def clients(checks, port, times, path):
    large, missing = (413, b'{"error":"TooLarge"}'), (411, b'{"error":"LengthRequired"}')
    every_time(checks, times, "urllib has its 413", lambda: by_urllib(port, BODY), large)
    every_time(checks, times, "urllib has its 411 for a body in chunks", lambda: by_urllib(port, pieces()), missing)
    every_time(checks, times, "http.client has its 413", lambda: by_http_client(port, BODY), large)
    every_time(checks, times, "http.client has its 411 for a body in chunks", lambda: by_http_client(port, pieces()), missing)
    every_time(checks, times, "curl has its 413", lambda: by_curl(port, path), large)
    every_time(checks, times, "curl has its 411 for a body in chunks", lambda: by_curl(port, path, "Transfer-Encoding: chunked"), missing)


def sockets(checks, port, times):
    closing = message("GET /ops/suspense", fields=["Connection: close"])
    for what, sent, wanted in (
            ("a body that is too large: 413", message("POST /ops/day", fields=[f"Content-Length: {SIZE}"]), TOO_LARGE),
            ("a body without a length: 411", message("POST /ops/day"), LENGTH_REQUIRED),
            ("a head that is bad: 400", b"GET /ops/suspense HTTP/1.1\r\nContent-Length: x\r\n\r\n", BAD_HEAD),
            ("more after `Connection: close`", closing, LAST),
            ("more after HTTP/1.0", GET.replace(b"HTTP/1.1", b"HTTP/1.0"), LAST)):
        every_time(checks, times, f"a plain socket, {what}", lambda: by_socket(port, sent), wanted)
    full = KEPT * (MAX_MESSAGES - 1) + LAST
    every_time(checks, min(times, 3), "a plain socket, more after the 1,000th message", lambda: by_socket(port, GET * MAX_MESSAGES), full)
    every_time(checks, times, "a plain socket, 15 MiB", lambda: by_socket(port, message("POST /ops/day"), 15 << 20), LENGTH_REQUIRED)


def without_end(checks, port):
    """A client that sends on and on is left, once it has sent 16 MiB that nobody wants."""
    sent = 0
    with connect(port) as it:
        it.settimeout(20)
        try:
            it.sendall(message("POST /ops/day"))
            while sent < 1 << 30:
                sent += it.send(BODY[:PIECE])
        except OSError:
            pass
    checks.that(f"a client that sends without end is left: after {sent >> 20} MiB, those in the system's hands among them", 16 << 20 <= sent < 64 << 20)
    begun = time.monotonic()
    with connect(port) as it:
        it.sendall(GET.replace(b"HTTP/1.1", b"HTTP/1.0"))
        checks.that("and the next one is served", status_of(it.recv(PIECE)), 200)
    checks.that("at once", time.monotonic() - begun < 5)


def both_ways(checks, port):
    """A client that sends and reads at once has its answer while it still sends."""
    with connect(port) as it:
        sender = threading.Thread(target=send_quietly, args=(it, message("POST /ops/day") + BODY))
        sender.start()
        try:
            came = all_of(it)
        except OSError as error:
            came = repr(error)
        sender.join()
    checks.that("a client that reads while it sends has its 411", came, LENGTH_REQUIRED)


def send_quietly(it, data):
    try:
        it.sendall(data)
        it.shutdown(socket.SHUT_WR)
    except OSError:
        pass


def main():
    program = program_of(sys.argv[1:])
    times = int(sys.argv[2]) if len(sys.argv) > 2 else 10
    checks = Checks()
    with tempfile.TemporaryDirectory() as name:
        folder = Path(name)
        make_desk(program, folder / "bank.db")
        (folder / "large").write_bytes(BODY)
        with Serving(program, folder / "bank.db").listen() as desk:
            clients(checks, desk.port, times, folder / "large")
            sockets(checks, desk.port, times)
            both_ways(checks, desk.port)
            without_end(checks, desk.port)
            checks.that("the desk runs on", desk.is_running())
    checks.end()


main()
