#!/usr/bin/env python3
"""Tests what the proxy of deploy/ withstands, with the real nginx: `python3 judge/proxy.py [PROGRAM] [PART ..]`.

PROGRAM is the built program if it is left out. The parts, all if none is named:

    log           floods of strangers, and of a leaked key: the bytes that they write to all logs, and no key among them
    bodies        a company that sends hostile bodies, ten at a time, next to another company
    rates         requests of a company with a body, and how many it may have open at once
    left          requests whose client leaves while they wait, and the longest time that the proxy keeps one
    disk          large bodies and answers, slowly sent and slowly read, are never written to the disk
    certificates  the two lines that ask for a client certificate
    network       IPv6, ciphers, and the number of each request

It needs Debian's packages nginx, openssl and iproute2, and root. If one is missing it names it, with status 2. The last line counts
the checks; the status is 1 if one failed.
"""

import http.client
import http.server
import multiprocessing
import os
import re
import shutil
import socket
import ssl
import statistics
import subprocess
import sys
import tempfile
import threading
import time
import warnings
from pathlib import Path

from helpers.proxy import LOGGED, Proxy, shipped
from helpers.running import HOST, MILL, MILL_KEY, OPERATOR_KEY, TOP, Checks, Serving, connect, make_desk, message, program_of, read_answer

ALICE, MILL_AT_PROXY, BAKE_AT_PROXY = "alice-key-1", "mill-erp-key-1", "bake-erp-key-1"
KEYS = ({ALICE: "operator:alice"}, {MILL_AT_PROXY: "MILL01:erp", BAKE_AT_PROXY: "BAKE01:erp"},
        {"operator": OPERATOR_KEY, "MILL01": MILL_KEY, "BAKE01": "bakery-key"})
MOST_OF_COMPANY = 524_288
DAY = 86_400
# What strangers may write to the disk in a day, and a company above its limits, before compression.
MOST_OF_STRANGERS, MOST_OF_A_KEY = 200_000_000, 1_000_000_000


class Bank:
    """A desk of the sample bank with two companies, behind the proxy."""

    def __init__(self, program, folder, **how):
        reachable(folder)
        make_desk(program, folder / "bank.db")
        self.desk = Serving(program, folder / "bank.db", 1_000_000, patience=5).listen()
        bakery = MILL.replace("MILL01", "BAKE01").replace(MILL_KEY, "bakery-key")
        for sent in (message("POST /ops/companies", MILL), message("POST /ops/companies", bakery), message("POST /ops/day", '{"day":"2025-01-08"}')):
            with connect(self.desk.port) as it, it.makefile("rb") as reader:
                it.sendall(sent)
                read_answer(reader)
        self.proxy = Proxy(folder / "proxy", self.desk.port, *KEYS, **how)

    def __enter__(self):
        return self

    def __exit__(self, *_):
        self.proxy.stop()
        self.desk.stop()


def reachable(folder):
    """Lets nginx's workers, which are another user, go through the folders to this one."""
    for it in (folder, *folder.parents):
        if it != Path("/") and not os.stat(it).st_mode & 0o001:
            it.chmod(0o711)


class Recorder:
    """A desk that keeps what it is asked and answers as it is told: a body of some bytes, after some seconds. Like the desk
    it may serve one connection after another."""

    def __init__(self, size=2, seconds=0.0, one_by_one=False):
        self.asked, self.sent = [], []
        recorder = self

        class Handler(http.server.BaseHTTPRequestHandler):
            def do_GET(self):
                body = self.rfile.read(int(self.headers.get("Content-Length") or 0))
                recorder.asked.append((time.monotonic(), self.command, self.path, len(body)))
                time.sleep(seconds)
                self.send_response(200)
                self.send_header("Content-Length", str(size))
                self.end_headers()
                self.wfile.write(b"x" * size)
                recorder.sent.append(time.monotonic())

            do_POST = do_GET

            def log_message(self, *_):
                pass

        self.server = (http.server.HTTPServer if one_by_one else http.server.ThreadingHTTPServer)((HOST, 0), Handler)
        self.server.handle_error = lambda *_: None  # a client that has left
        self.port = self.server.server_address[1]
        threading.Thread(target=self.server.serve_forever, daemon=True).start()

    def __enter__(self):
        return self

    def __exit__(self, *_):
        self.server.shutdown()
        self.server.server_close()


def opened(proxy, source=None, context=None):
    """A connection over TLS."""
    plain = socket.create_connection((HOST, proxy.port), timeout=20, source_address=source and (source, 0))
    plain.setsockopt(socket.IPPROTO_TCP, socket.TCP_NODELAY, 1)
    return (context or proxy.context()).wrap_socket(plain, server_hostname=HOST)


def head(method, path, key=None, *fields):
    return "\r\n".join([f"{method} {path} HTTP/1.1", "Host: desk", *([f"X-Desk-Key: {key}"] if key else []), *fields, "", ""]).encode()


# ---- the log

LONG = "x" * 7_000


def too_large(proxy, context, source):
    """Sends the head of a body that is too large, with a long path."""
    with opened(proxy, source, context) as it:
        it.sendall(head("POST", f"/c/{LONG}", None, "Content-Length: 9999999"))
        it.recv(4096)


def denied_console(proxy, context, source):
    """Asks for pages of the console from an address that is not an operator's, by one connection."""
    with opened(proxy, source, context) as it:
        for _ in range(100):
            it.sendall(head("GET", f"/console/{LONG}"))
            if not it.recv(65_536):
                return


def half_head(proxy, context, source):
    """Sends half a head and leaves, or stays until nginx leaves."""
    with opened(proxy, source, context) as it:
        it.sendall(head("GET", f"/c/{LONG}")[:-2])
        if hash(time.monotonic()) % 2:
            it.recv(4096)


def no_handshake(proxy, _, source):
    """Sends what is no TLS: records that are too long, of other kinds, or broken off."""
    for junk in (b"\x16\x03\x01\xff\xff" + b"\0" * 600, b"\x16\x03\x01\0\x05\x01\0\0\x01\0", b"\x14\x03\x01\0\x01\x02", b"GET / HTTP/1.1\r\n\r\n"):
        with socket.create_connection((HOST, proxy.port), timeout=5, source_address=(source, 0)) as it:
            it.sendall(junk)
            it.recv(4096)


def guess(proxy, context, source):
    """Guesses keys by one connection, in the header and in the query."""
    with opened(proxy, source, context) as it:
        for number in range(100):
            it.sendall(head("GET", f"/ops/status?key=query-key-{number}", f"guess-{number}"))
            if not it.recv(65_536):
                return


def leaked(proxy, context, source):
    """Asks by a company's key, above all limits, with the key in the query too."""
    with opened(proxy, source, context) as it:
        for _ in range(100):
            it.sendall(head("GET", f"/c/MILL01/{LONG}?key={MILL_AT_PROXY}", MILL_AT_PROXY))
            if not it.recv(65_536):
                return


def connections(proxy, _, source):
    """Takes all connections, and asks for more."""
    kept = []
    try:
        for _ in range(200):
            it = socket.create_connection((HOST, proxy.port), timeout=0.2, source_address=(source, 0))
            kept.append(it)
            it.sendall(b"\x16")
    finally:
        for it in kept:
            it.close()


FLOODS = ((too_large, MOST_OF_STRANGERS), (denied_console, MOST_OF_STRANGERS), (half_head, MOST_OF_STRANGERS), (no_handshake, MOST_OF_STRANGERS),
          (guess, MOST_OF_STRANGERS), (connections, MOST_OF_STRANGERS), (leaked, MOST_OF_A_KEY))


def flooded(proxy, client, seconds, count=24):
    """Runs a flood from many addresses; returns how often it was begun."""
    until, context, done = time.monotonic() + seconds, proxy.context(), []

    def again(number):
        at = 0
        while time.monotonic() < until:
            at += 1
            try:
                client(proxy, context, f"127.0.{number + 1}.{at % 250 + 1}")
            except OSError:
                pass
            done.append(1)

    threads = [threading.Thread(target=again, args=(number,)) for number in range(count)]
    for it in threads:
        it.start()
    for it in threads:
        it.join()
    return len(done)


def size_of_logs(proxy):
    return sum(it.stat().st_size for it in proxy.folder.glob("*.log"))


def log(checks, program, folder):
    seconds = 8
    with Recorder() as desk:
        for client, most in FLOODS:
            place = folder / client.__name__
            reachable(folder)
            with Proxy(place, desk.port, *KEYS, connections=96 if client is connections else 768) as proxy:
                flooded(proxy, client, 2)  # what a limit lets through at once, before its rate
                time.sleep(0.3)
                before, began = size_of_logs(proxy), time.monotonic()
                begun = flooded(proxy, client, seconds)
                time.sleep(0.3)
                took = time.monotonic() - began
                a_day = (size_of_logs(proxy) - before) * DAY / took
                text = "".join(it.read_text() for it in proxy.folder.glob("*.log"))
                known = re.findall(rf"query-key-\d+|guess-\d+|{MILL_AT_PROXY}", text)
                longest = max(map(len, text.splitlines() or [""]))
            doing = " ".join((client.__doc__ or "").split()).rstrip(".")
            checks.that(f"at most {most / 1e6:,.0f} MB a day in the logs: {doing}: {a_day / 1e6:,.1f} MB by {begun / took:.0f} a second",
                        (begun > seconds, a_day <= most), (True, True))
            checks.that(f"  no line has more than 500 bytes, and none has a key: {longest}", (longest <= 500, known[:3]), (True, []))
        kept_lines(checks, folder, desk)


def kept_lines(checks, folder, desk):
    """Lines that have to be there: what reached the desk, and a holder who is denied."""
    with Proxy(folder / "kept", desk.port, *KEYS) as proxy:
        proxy.ask("GET", "/c/MILL01/returns?x=1", key=MILL_AT_PROXY)
        proxy.ask("POST", "/c/MILL01/submissions", b"{}", key=MILL_AT_PROXY)
        proxy.ask("GET", "/ops/status", key=ALICE, source="127.0.0.2")
        proxy.ask("GET", "/ops/status", key="guess-key-1")
        proxy.ask("GET", "/console/")
        lines = [LOGGED.fullmatch(it) for it in proxy.logged(5)]
        checks.that("the log has each request that reached the desk, a denied address, a guess and a page of the console",
                    [it and (it["holder"], it["request"], it["status"], it["desk"]) for it in lines],
                    [("MILL01:erp", "GET /c/MILL01/returns", "200", "200"), ("MILL01:erp", "POST /c/MILL01/submissions", "200", "200"),
                     ("operator:alice", "GET /ops/status", "403", "-"), ("-", "GET /ops/status", "403", "-"), ("-", "GET /console/", "200", "-")])


# ---- hostile bodies

def zeros(size):
    """`[0,0,..`, which is no object."""
    return b"[" + b"0," * ((size - 3) // 2) + b"0]"


def deep(size):
    """Arrays of one value in arrays, as deep as the desk reads them: what takes it the longest of those that were tried."""
    one = b"[" * 125 + b"0" + b"]" * 125
    return b'{"a":[' + (one + b",") * ((size - 10) // (len(one) + 1)) + b"0]}"


def bodies(checks, program, folder):
    with Bank(program, folder) as bank:
        median = next_to(checks, bank, zeros, 400)
        checks.that("another company's median stays below 0.5 seconds", median < 0.5)
        next_to(checks, bank, deep, 422)  # its times depend on the machine: a body takes a tenth of a second of one that is idle
        checks.that("a larger body is 413", bank.proxy.ask("POST", "/c/BAKE01/submissions", zeros(MOST_OF_COMPANY + 1), BAKE_AT_PROXY)[0::2], (413, b'{"error":"TooLarge"}'))
    checks.that("a whole submission of 1,000 entries fits", len(largest_submission()) <= MOST_OF_COMPANY)


def next_to(checks, bank, kind, status):
    """Another company asks while ten clients of the first one post the largest bodies of a kind, one after another."""
    seconds = 12
    with multiprocessing.Manager() as shared:
        alone = polite(bank.proxy, 40)
        statuses, own = shared.dict(), multiprocessing.get_context("fork")
        clients = [own.Process(target=hostile, args=(bank.proxy, kind(MOST_OF_COMPANY), statuses, number), daemon=True) for number in range(10)]
        before, began = bank.desk.worked(), time.monotonic()
        for it in clients:
            it.start()
        time.sleep(1)
        beside = polite(bank.proxy, seconds * 5)
        for it in clients:
            it.kill()
            it.join()
        worked, took = bank.desk.worked() - before, time.monotonic() - began
        found = {status: sum(count for (_, it), count in statuses.items() if it == status) for status in sorted({status for _, status in statuses.keys()})}
    print(f"        {kind.__doc__} The other company alone: {told(alone)}; next to them: {told(beside)}; the hostile one: {found}; the desk worked {worked:.1f} s")
    checks.that("each of the other company's requests is answered", len(beside), seconds * 5)
    taken = found.get(status, 0)
    checks.that(f"the desk gets bodies of the largest size, about one a second after the first 15: {taken} in {took:.0f} s", 0 < taken <= 21 + took)
    checks.that(f"and works for at most 0.25 seconds for each: {worked / taken:.3f} s", worked <= 0.25 * taken)
    return statistics.median(beside)


def told(seconds):
    return f"median {statistics.median(seconds) * 1e3:.1f} ms, worst {max(seconds) * 1e3:.0f} ms"


def hostile(proxy, body, statuses, number):
    """Posts hostile bodies, one after another, until it is killed. In truth it is another machine, which takes no processor
    from the proxy and the desk."""
    os.nice(19)
    context, at = proxy.context(), 0
    while True:
        at += 1
        try:
            it = http.client.HTTPSConnection(HOST, proxy.port, timeout=60, context=context, source_address=(f"127.1.{number}.{at % 250 + 1}", 0))
            it.request("POST", "/c/MILL01/submissions", body=body, headers={"X-Desk-Key": MILL_AT_PROXY, "Connection": "close"})
            status = it.getresponse().status
            it.close()
        except (OSError, http.client.HTTPException):
            status = 0
        statuses[number, status] = statuses.get((number, status), 0) + 1


def polite(proxy, count):
    """The seconds of some reads of the other company, five a second."""
    found = []
    for _ in range(count):
        begun = time.monotonic()
        if proxy.ask("GET", "/c/BAKE01/returns", key=BAKE_AT_PROXY, source="127.0.2.1")[0] == 200:
            found.append(time.monotonic() - begun)
        time.sleep(0.2)
    return found


def largest_submission():
    """A submission of 1,000 entries whose fields are all as long as they may be."""
    entry = ('{"routing":"061000146","account":"' + "1" * 17 + '","kind":"checking","prenote":false,"cents":9999999999,"id":"' + "I" * 15 +
             '","name":"' + "N" * 22 + '","info":"' + "i" * 80 + '","of":"' + "R" * 20 + '","index":999,"authorized":"2025-01-08"}')
    return '{"ref":"' + "R" * 20 + '","sec":"CCD","direction":"credit","description":"' + "D" * 10 + '","day":"2025-01-10","entries":[' + ",".join([entry] * 1000) + "]}"


# ---- rates of a company

def statuses_of(proxy, count, ask):
    """The statuses of requests that are begun at once."""
    found = []
    threads = [threading.Thread(target=lambda number=number: found.append(ask(number))) for number in range(count)]
    for it in threads:
        it.start()
    for it in threads:
        it.join()
    return {status: found.count(status) for status in sorted(set(found))}


def rates(checks, program, folder):
    reachable(folder)
    with Recorder() as desk, Proxy(folder / "quick", desk.port, *KEYS) as proxy:
        post = lambda number: proxy.ask("POST", "/c/MILL01/submissions", b"{}", MILL_AT_PROXY, source=f"127.2.0.{number % 200 + 1}")[0]
        begun, answered = time.monotonic(), 0
        for number in range(26):
            answered += post(number) == 200
        took = time.monotonic() - begun
        checks.that(f"a company that posts one after another is never refused, and posts about one a second after the first 15: 26 in {took:.1f} s",
                    (answered, 8 < took < 13), (26, True))
        got = [proxy.ask("GET", "/c/MILL01/returns", key=MILL_AT_PROXY)[0] for _ in range(15)]
        checks.that("its reads are not counted as posts", set(got), {200})
        other = proxy.ask("POST", "/c/BAKE01/submissions", b"{}", BAKE_AT_PROXY)[0]
        checks.that("another company posts meanwhile", other, 200)
        time.sleep(20)
        before = len(desk.asked)
        found = statuses_of(proxy, 60, post)
        checks.that(f"of 60 posts at once at most 21 reach the desk, and the others are 429: {found}", (len(desk.asked) - before <= 21, set(found)), (True, {200, 429}))
        bodied = lambda number: proxy.ask("GET", "/c/MILL01/returns", b"{}", MILL_AT_PROXY, source=f"127.2.1.{number + 1}")[0]
        checks.that("a read with a body counts as a post", 429 in statuses_of(proxy, 30, bodied))
    with Recorder(seconds=1.0) as desk, Proxy(folder / "slow", desk.port, *KEYS) as proxy:
        found = statuses_of(proxy, 6, lambda number: proxy.ask("GET", "/c/MILL01/returns", key=MILL_AT_PROXY, source=f"127.3.0.{number + 1}")[0])
        checks.that("two open requests of a company are taken, and four more are 429", found, {200: 2, 429: 4})


# ---- a client that leaves

def left(checks, program, folder):
    reachable(folder)
    for what, size, leave in (("closes", 0, close), ("closes, with a body", 2_000, close), ("resets", 0, reset), ("resets, with a body of 500 kB", 500_000, reset),
                              ("closes, with a body of 500 kB", 500_000, close)):
        with Recorder() as desk, Proxy(folder / re.sub(r"\W", "", what), desk.port, *KEYS) as proxy:
            for number in range(16):
                proxy.ask("POST", "/c/MILL01/submissions", b"{}", MILL_AT_PROXY)
            before, links = len(desk.asked), []
            for _ in range(4):  # these wait for one to four seconds
                it = opened(proxy)
                it.setblocking(False)
                send_what_fits(it, head("POST", "/c/MILL01/left", MILL_AT_PROXY, f"Content-Length: {size}") + b"x" * size)
                links.append(it)
            time.sleep(0.3)
            for it in links:
                leave(it)
            gone = time.monotonic()
            time.sleep(6)
            late = [(round(it[0] - gone, 2), it[3]) for it in desk.asked[before:] if it[0] > gone + 0.05]
            checks.that(f"a request that waits in the proxy is dropped if its client {what}", (len(links), late), (4, []))
    handed_over(checks, folder)
    longest(checks)


def handed_over(checks, folder):
    """What the page says of a request that the desk has: it is carried out, and before what is asked after it."""
    with Recorder(seconds=1.5, one_by_one=True) as desk, Proxy(folder / "handed", desk.port, *KEYS) as proxy:
        first = threading.Thread(target=proxy.ask, args=("GET", "/ops/first", None, ALICE))
        first.start()
        time.sleep(0.3)
        it = opened(proxy)
        it.sendall(head("POST", "/ops/cut", ALICE, "Content-Length: 0"))
        time.sleep(0.3)
        close(it)
        status = proxy.ask("GET", "/ops/status", key=ALICE)[0]
        first.join()
        checks.that("a request that the desk has is carried out though its client has left, before what is asked later",
                    (status, [it[2] for it in desk.asked]), (200, ["/ops/first", "/ops/cut", "/ops/status"]))


def send_what_fits(it, sent):
    while sent:
        try:
            sent = sent[it.send(sent):]
        except (BlockingIOError, ssl.SSLWantWriteError):
            time.sleep(0.02)
            if (waited := getattr(it, "waited", 0)) > 10:
                return
            it.waited = waited + 1


def close(it):
    it.close()


def reset(it):
    it.setsockopt(socket.SOL_SOCKET, socket.SO_LINGER, b"\1\0\0\0\0\0\0\0")
    it.close()


def queue():
    """The seconds for which the proxy keeps a request at most, by the site: waiting, connecting, sending, reading."""
    text = shipped()
    rate_of = {name: int(rate) for name, rate in re.findall(r"zone=(\w+):\w+\s+rate=(\d+)r/s", text)}
    waits = [(int(burst) - int(delay)) / rate_of[zone] for zone, burst, delay in re.findall(r"limit_req\s+zone=(\w+)\s+burst=(\d+)\s+delay=(\d+);", text)]
    return [max(waits), *(int(re.search(rf"proxy_{it}_timeout\s+(\d+)s;", text)[1]) for it in ("connect", "send", "read"))]


def longest(checks):
    """The page's figures are those of the site."""
    parts = queue()
    page = (TOP / "deploy" / "README.md").read_text()
    said = re.search(r"is at most (\d+) seconds: (\d+) in a limit, (\d+) until the desk takes the connection, (\d+) until it takes the body, and (\d+) for its answer", page)
    checks.that("deploy/README.md has the longest time of a request in the proxy, and its parts", said and [float(it) for it in said.groups()], [sum(parts), *map(float, parts)])


# ---- the disk

def on_disk(proxy):
    """The temporary files that nginx has or had in use: those in its folders, and those that a worker has open."""
    held = [os.readlink(it) for worker in proxy.workers() for it in Path(f"/proc/{worker}/fd").iterdir() if it.is_symlink()]
    folders = [f"{proxy.folder}/{name}/" for name in ("client_body", "proxy")]
    return [it for it in held if it.startswith(tuple(folders))] + [str(it) for folder in folders for it in Path(folder).rglob("*") if it.is_file()]


def disk(checks, program, folder):
    reachable(folder)
    chunk = b"400\r\n" + b"x" * 1024 + b"\r\n"
    cases = [("a company's largest body", head("POST", "/c/MILL01/x", MILL_AT_PROXY, f"Content-Length: {MOST_OF_COMPANY}"), b"x" * MOST_OF_COMPANY, MOST_OF_COMPANY),
             ("an operator's largest body", head("POST", "/ops/x", ALICE, "Content-Length: 4194304"), b"x" * 4_194_304, 4_194_304),
             ("a company's body in chunks", head("POST", "/c/MILL01/x", MILL_AT_PROXY, "Transfer-Encoding: chunked"), chunk * 512 + b"0\r\n\r\n", MOST_OF_COMPANY)]
    with Recorder() as desk, Proxy(folder / "up", desk.port, *KEYS) as proxy:
        for what, first, body, size in cases:
            with opened(proxy) as it:
                it.sendall(first + body[:-100])
                time.sleep(0.5)
                found = on_disk(proxy)
                it.sendall(body[-100:])
                it.recv(65_536)
            checks.that(f"{what} is whole and was never on the disk", (desk.asked[-1][3], found), (size, []))
    for size in (12_000_000, 24_000_000):
        with Recorder(size=size) as desk, Proxy(folder / f"down{size}", desk.port, *KEYS) as proxy, opened(proxy) as it:
            it.sendall(head("GET", "/ops/files/2025-01-08/A", ALICE, "Connection: close"))
            time.sleep(2)
            found, taken = on_disk(proxy), len(desk.sent)
            got = 0
            while piece := it.recv(1 << 20):
                got += len(piece)
            checks.that(f"an answer of {size / 1e6:.0f} MB is taken from the desk before its client reads it, is whole and never on the disk",
                        (taken, got > size, found), (1, True, []))


# ---- client certificates

def certificate(folder, name, signer=None):
    """A key and a certificate, which signs itself or is signed by another one."""
    key, cert = folder / f"{name}.key", folder / f"{name}.pem"
    words = ["openssl", "req", "-x509", "-newkey", "ec", "-pkeyopt", "ec_paramgen_curve:prime256v1", "-nodes", "-days", "30", "-subj", f"/CN={name}", "-keyout", key, "-out", cert]
    if signer:
        words += ["-CA", folder / f"{signer}.pem", "-CAkey", folder / f"{signer}.key"]
    subprocess.run(words, check=True, stdout=subprocess.DEVNULL, stderr=subprocess.DEVNULL)
    return cert, key


def certificates(checks, program, folder):
    reachable(folder)
    authority, _ = certificate(folder, "authority")
    known, unknown = certificate(folder, "mill", "authority"), certificate(folder, "stranger")
    place = folder / "certificates"
    every = [("#ssl_client_certificate", "ssl_client_certificate"), ("#ssl_verify_client ", "ssl_verify_client "), (f"{place}/tls/clients.pem", str(authority))]
    with Recorder() as desk, Proxy(place, desk.port, *KEYS, changes=every) as proxy:
        def status(pair):
            context = proxy.context()
            if pair:
                context.load_cert_chain(*pair)
            with opened(proxy, context=context) as it:
                it.sendall(head("GET", "/c/MILL01/returns", MILL_AT_PROXY, "Connection: close"))
                came = b""
                while piece := it.recv(65_536):
                    came += piece
            return came.split(b"\r\n")[0][9:12], came.rpartition(b"\r\n\r\n")[2]

        denied = (b"403", b'{"error":"Denied"}')
        checks.that("with a certificate that the authority signed the desk answers", status(known)[0], b"200")
        checks.that("without one it is 403, with the right key too", status(None), denied)
        checks.that("with one of another authority too", status(unknown), denied)
        checks.that("and the desk is not asked", len(desk.asked), 1)


# ---- the network

MODERN = {"ECDHE-ECDSA-AES128-GCM-SHA256", "ECDHE-RSA-AES128-GCM-SHA256", "ECDHE-ECDSA-AES256-GCM-SHA384", "ECDHE-RSA-AES256-GCM-SHA384", "ECDHE-ECDSA-CHACHA20-POLY1305",
          "ECDHE-RSA-CHACHA20-POLY1305", "DHE-RSA-AES128-GCM-SHA256", "DHE-RSA-AES256-GCM-SHA384", "DHE-RSA-CHACHA20-POLY1305"}  # Mozilla's intermediate set, version 5.7


def taken_cipher(proxy, cipher, version=ssl.TLSVersion.TLSv1_2):
    context = proxy.context()
    with warnings.catch_warnings(action="ignore"):  # of an old version, which is the point
        context.maximum_version = version
    try:
        context.set_ciphers(f"{cipher}:@SECLEVEL=0")
        with opened(proxy, context=context) as it:
            return it.cipher()[0] == cipher
    except (ssl.SSLError, OSError):
        return False


def network(checks, program, folder):
    reachable(folder)
    text = shipped()
    checks.that("the site listens on IPv4 and IPv6", re.findall(r"listen +(\S+) ssl;", text), ["443", "[::]:443"])
    checks.that("its ciphers are Mozilla's intermediate ones", set(re.search(r"ssl_ciphers\s+(\S+);", text)[1].split(":")), MODERN)
    with Recorder() as desk, Proxy(folder / "network", desk.port, *KEYS) as proxy:
        checks.that("a modern cipher is taken", taken_cipher(proxy, "ECDHE-ECDSA-AES128-GCM-SHA256"))
        old = [it for it in ("ECDHE-ECDSA-AES128-SHA", "ECDHE-ECDSA-AES256-SHA384", "ECDHE-ECDSA-AES128-CCM") if taken_cipher(proxy, it)]
        checks.that("older ones are not", old, [])
        checks.that("TLS 1.1 is not taken", taken_cipher(proxy, "ECDHE-ECDSA-AES128-SHA", ssl.TLSVersion.TLSv1_1), False)
        first, second = (proxy.ask("GET", "/c/MILL01/returns", key=MILL_AT_PROXY, headers={"X-Request-Id": "mine"})[1]["X-Request-Id"] for _ in range(2))
        logged = [LOGGED.fullmatch(it)["id"] for it in proxy.logged(2)]
        checks.that("each answer has the number of its line in the log, which no client chooses", ([first, second], first != second), (logged, True))
        over_six(checks, proxy)


def over_six(checks, proxy):
    """Addresses of one IPv6 network share one limit; those of another have their own."""
    if not Path("/proc/net/if_inet6").exists():
        return print("        this machine has no IPv6")
    context = proxy.context()
    context.check_hostname = False
    with socket.create_connection(("::1", proxy.port), timeout=10) as plain, context.wrap_socket(plain) as it:
        it.sendall(head("GET", "/ops/status", ALICE, "Connection: close"))
        checks.that("an operator is answered over IPv6", it.recv(65_536)[9:12], b"200")
    done = subprocess.run(["unshare", "--net", sys.executable, "-c", GUESSING, proxy.folder / "six"], stdout=subprocess.PIPE, text=True, cwd=TOP / "judge", timeout=120)
    checks.that("two addresses of one IPv6 network share one limit of guesses, and another network has its own", done.stdout, f"{[6, 6]} {[3, 0]}\n")


# In a network of its own: how many of 12 guesses of two addresses of one IPv6 network are 403 and 429, and of 3 of another one.
GUESSING = """
import proxy, socket, subprocess, sys
from pathlib import Path
subprocess.run(["ip", "link", "set", "lo", "up"], check=True)
for address in ("2001:db8:1::1", "2001:db8:1::2", "2001:db8:2::1"):
    subprocess.run(["ip", "-6", "address", "add", address + "/64", "dev", "lo", "nodad"], check=True)
every = [("achdesk_unknown_rates:32k rate=2r/s", "achdesk_unknown_rates:32k rate=1000r/s"), ("achdesk_unknown_rate:10m  rate=1r/s", "achdesk_unknown_rate:10m  rate=1r/m")]
with proxy.Recorder() as desk, proxy.Proxy(Path(sys.argv[1]), desk.port, *proxy.KEYS, changes=every) as it:
    context = it.context()
    context.check_hostname = False
    def asked(source):
        with socket.create_connection(("::1", it.port), timeout=20, source_address=(source, 0)) as plain, context.wrap_socket(plain) as link:
            link.sendall(proxy.head("GET", "/ops/status", "guess-key-1", "Connection: close"))
            return link.recv(4096)[9:12]
    one, other = [asked(it) for it in ("2001:db8:1::1", "2001:db8:1::2") * 6], [asked("2001:db8:2::1") for _ in range(3)]
    print(*([them.count(status) for status in (b"403", b"429")] for them in (one, other)))
"""


PARTS = {it.__name__: it for it in (log, bodies, rates, left, disk, certificates, network)}


def main():
    words = sys.argv[1:]
    named = [it for it in words if it not in PARTS]
    if len(named) > 1:
        print(f"there is no part {named[1]}: {' '.join(PARTS)}")
        return 2
    wanted = [it for it in words if it in PARTS] or list(PARTS)
    program = program_of(named) if named or "bodies" in wanted else None
    lacking = [it for it in ("nginx", "openssl", "ip") if shutil.which(it, path=f"{os.environ.get('PATH', '')}:/usr/sbin") is None] + (["root"] if os.geteuid() else [])
    if lacking:
        print(f"it needs {', '.join(lacking)}")
        return 2
    checks = Checks()
    for name in wanted:
        with tempfile.TemporaryDirectory(prefix=f"proxy-{name}-") as folder:
            print(f"---- {name}", flush=True)
            PARTS[name](checks, program, Path(folder))
    checks.end()


if __name__ == "__main__":
    sys.exit(main())
