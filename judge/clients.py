#!/usr/bin/env python3
"""Talks to `achdesk serve` over loopback as clients do: `python3 judge/clients.py [PROGRAM]`, ./achdesk if left out.

curl, Python's http.client and plain sockets ask a desk in a new file: several messages on one connection, at once
and in pieces, bodies at the limit and past it, codings and methods that are not taken, clients that break off, that
say nothing or that do not read; words, files and ports that are wrong. What has to come was written by hand from
the rules, and not taken from the program. The last line counts the checks; the status is 1 where one failed.
"""

import http.client
import socket
import sqlite3
import struct
import subprocess
import sys
import tempfile
import threading
from pathlib import Path

from helpers.running import (HOST, MILL, MILL_KEY, OPERATOR_KEY, SECONDS, Checks, Serving, answer, body_of, connect, free_port, make_desk, message,
                     program_of, read_answer, run, status_of)

MAX_BODY = 4_194_304
MAX_HEAD = 16_384
MAX_MESSAGES = 1_000

ENTRY = '{"routing":"091000019","account":"123456789","kind":"checking","cents":150000,"id":"E1","name":"ANN LEE"}'
SETTLEMENT = '{"balance":"0","day":"2025-01-08","days":[]}'
GET = message("GET /ops/settlement")
SETTLED = answer(200, SETTLEMENT)

BAD_HEAD = answer(400, '{"error":"BadHead"}', closes=True)
LENGTH_REQUIRED = answer(411, '{"error":"LengthRequired"}', closes=True)
TOO_LARGE = answer(413, '{"error":"TooLarge"}', closes=True)
NOT_FOUND = answer(404, '{"error":"NotFound"}')
BAD_METHOD = answer(405, '{"error":"BadMethod"}')
DENIED = answer(403, '{"error":"Denied"}')
BAD_JSON = answer(400, '{"error":"BadJson"}')


def pay(reference):
    return f'{{"ref":"{reference}","sec":"PPD","direction":"credit","description":"PAYROLL","day":"2025-01-10","entries":[{ENTRY}]}}'


def paid(order, reference):
    return f'{{"cents":150000,"entries":1,"order":{order},"ref":"{reference}"}}'


def filled(body, size):
    """The body with blanks after it, which a JSON text may have."""
    return body.encode().ljust(size)


# ---- words, files and ports ----

def serve_once(program, *words):
    """What `serve` prints that must not come to serve, and its status."""
    try:
        return run(program, "serve", *words, seconds=SECONDS)
    except subprocess.TimeoutExpired:
        return b"it serves", None


def wrong_words(checks, program, path):
    for words in ([], [path], [path, "0"], [path, "65536"], [path, "http"], [path, "80", "81"], [path, "8080", "--connections"],
                  [path, "8080", "--connections", "0"], [path, "8080", "--connections", "1000001"], [path, "8080", "--connections", "x"]):
        said, status = serve_once(program, *words)
        named = " ".join(str(word) for word in words[1:])
        checks.that(f"`serve{' DB ' if words else ''}{named}` is no command: usage, and status 2", (status, said != b""), (2, True))


def foreign_database(path, version):
    """A database of stock SQLite that has no desk, or a table `desk` of this version."""
    with sqlite3.connect(path) as db:
        if version is None:
            db.execute("CREATE TABLE other (id INT)")
            return
        db.execute("CREATE TABLE desk (id INT NOT NULL, version INT NOT NULL, odfi TEXT NOT NULL, odfi_name TEXT NOT NULL, destination TEXT NOT NULL, "
                   "destination_name TEXT NOT NULL, operator_key BLOB NOT NULL, day INT, PRIMARY KEY (id)) STRICT")
        db.execute("INSERT INTO desk VALUES (1, ?, '121042882', 'OUR BANK', '061000146', 'ACH OPERATOR', zeroblob(32), NULL)", (version,))


def wrong_files(checks, program, folder, path):
    empty, missing, text, other, ninth = (folder / name for name in ("empty.db", "missing.db", "text.db", "other.db", "ninth.db"))
    empty.touch()
    text.write_text("This is a letter and no database.\n" * 500)
    foreign_database(other, None)
    foreign_database(ninth, 9)
    with socket.create_server((HOST, 0)) as holder:
        taken = holder.getsockname()[1]
        checks.that("a port that is taken: `unavailable`, status 3", serve_once(program, path, taken), (b"unavailable\n", 3))
        checks.that("an empty file is told before the port is taken: `NotADesk`, status 1", serve_once(program, empty, taken), (b"NotADesk\n", 1))
        checks.that("a database of something else: `NotADesk`, status 1", serve_once(program, other, taken), (b"NotADesk\n", 1))
        checks.that("a desk of version 9: `WrongVersion 9`, status 1", serve_once(program, ninth, taken), (b"WrongVersion 9\n", 1))
        checks.that("a file that is no database: `unavailable`, status 3", serve_once(program, text, taken), (b"unavailable\n", 3))
        checks.that("no file: `NotADesk`, status 1", serve_once(program, missing, taken), (b"NotADesk\n", 1))
    checks.that("no file is made where there was none", missing.exists() or Path(f"{missing}-wal").exists(), False)
    checks.that("a letter stays as it was", text.read_text().startswith("This is a letter"))


def taken_file(checks, program, path):
    with Serving(program, path, 2).listen() as first:
        checks.that("a file that another desk holds: `unavailable`, status 3", serve_once(program, path, free_port()), (b"unavailable\n", 3))
        checks.that("`stdio` over a file that is held: `unavailable`, status 3", run(program, "stdio", path, given=GET), (b"unavailable\n", 3))
        checks.that("and the first desk goes on", asked(first.port, GET), answer(409, '{"error":"NoDay","number":1}'))


def limit_of_connections(checks, program, path):
    with Serving(program, path, 3).listen() as it:
        with connect(it.port) as first:
            first.shutdown(socket.SHUT_WR)
            checks.that("a connection that says nothing is answered by nothing", first.recv(1), b"")
        checks.that("a second connection of three is served", status_of(asked(it.port, GET)), 409)
        checks.that("and it runs on", it.is_running())
        checks.that("a third connection of three is served", status_of(asked(it.port, GET)), 409)
        checks.that("after three connections it ends with status 0 and prints no more", it.ended(), (b"", 0))
        checks.that("nobody listens then", refuses(it.port))


def same_port_again(checks, program, path):
    port = free_port()
    for _ in range(2):
        with Serving(program, path, 1, port) as it:
            checks.that("it listens at once on a port that another desk had", it.wait_for_line(), f"listening on {HOST}:{port}\n".encode())
            checks.that("and closes the connection first", asked_to_close(port), answer(409, '{"error":"NoDay","number":1}', closes=True))
            checks.that("and ends with status 0", it.ended(), (b"", 0))


def asked_to_close(port):
    """All that comes where the desk closes the connection, and not the client."""
    with connect(port) as it:
        it.sendall(message("GET /ops/settlement", fields=["Connection: close"]))
        return all_of(it)


def refuses(port):
    try:
        connect(port).close()
    except ConnectionRefusedError:
        return True
    return False


# ---- plain sockets ----

def asked(port, *pieces):
    """All that comes on a connection of its own on which these pieces are sent, and then no more. The desk may close
    it while they are sent."""
    with connect(port) as it:
        try:
            for piece in pieces:
                it.sendall(piece)
            it.shutdown(socket.SHUT_WR)
        except OSError:
            pass
        return all_of(it)


def all_of(it):
    came = b""
    try:
        while piece := it.recv(65_536):
            came += piece
    except ConnectionResetError:
        pass
    return came


def setting_up(checks, port):
    checks.that("before a day is set: NoDay, 409", asked(port, GET), answer(409, '{"error":"NoDay","number":1}'))
    checks.that("a company is registered: 201", asked(port, message("POST /ops/companies", MILL)), answer(201, '{"id":"MILL01"}'))
    checks.that("a second time: CompanyExists, 409", asked(port, message("POST /ops/companies", MILL)), answer(409, '{"error":"CompanyExists","number":22}'))
    checks.that("the day is set: 200", asked(port, message("POST /ops/day", '{"day":"2025-01-08"}')), answer(200, '{"day":"2025-01-08"}'))
    checks.that("a pay run: 201, order 1", asked(port, message("POST /c/MILL01/submissions", pay("PAY-1"), MILL_KEY)), answer(201, paid(1, "PAY-1")))
    looked_up = ('{"cents":150000,"day":"2025-01-10","direction":"credit","entries":[{"cents":150000,"index":1,"state":"held"}],'
                 '"order":1,"ref":"PAY-1","sec":"PPD"}')
    checks.that("it is looked up", asked(port, message("GET /c/MILL01/submissions/PAY-1", key=MILL_KEY)), answer(200, looked_up))


def messages_together(checks, port):
    again = message("POST /c/MILL01/submissions", pay("PAY-1"), MILL_KEY)
    other = message("POST /c/MILL01/submissions", pay("PAY-1").replace("150000", "150001"), MILL_KEY)
    four = GET + again + other + GET
    wanted = SETTLED + answer(201, paid(1, "PAY-1")) + answer(409, '{"error":"RefReused","number":3}') + SETTLED
    checks.that("four messages at once on one connection: four answers in their order", asked(port, four), wanted)
    checks.that("the same byte by byte", asked(port, *(four[at:at + 1] for at in range(len(four)))), wanted)
    checks.that("the same in pieces of 37 bytes", asked(port, *(four[at:at + 37] for at in range(0, len(four), 37))), wanted)
    with connect(port) as it, it.makefile("rb") as reader:
        came = []
        for _ in range(20):
            it.sendall(GET)
            came.append(read_answer(reader))
        checks.that("twenty messages one after another on one connection", came, [SETTLED] * 20)
    checks.that("an empty line before a message is passed over", asked(port, b"\r\n" + GET), SETTLED)


def full_session(checks, port):
    with connect(port) as it:
        sender = threading.Thread(target=send_quietly, args=(it, GET * (MAX_MESSAGES + 1)))
        sender.start()
        came = all_of(it)
        sender.join()
    last = answer(200, SETTLEMENT, closes=True)
    checks.that("a connection has 1,000 answers, and the last one closes it", came == SETTLED * (MAX_MESSAGES - 1) + last)
    checks.that("the next connection is served", asked(port, GET), SETTLED)


def send_quietly(it, data):
    try:
        it.sendall(data)
    except OSError:
        pass


def order_of_checks(checks, port):
    wrong = "wrong-key"
    for what, sent, wanted in (
            ("an unknown path is told before a wrong key: 404", message("GET /nowhere", key=wrong), NOT_FOUND),
            ("the root: 404", message("GET /", key=""), NOT_FOUND),
            ("a path that goes on: 404", message("GET /ops/settlement/", key=""), NOT_FOUND),
            ("a whole address as a proxy is asked: 404", message(f"GET http://{HOST}/ops/settlement"), NOT_FOUND),
            ("PUT is told before a wrong key: 405", message("PUT /ops/day", "", key=wrong), BAD_METHOD),
            ("PUT without a length: 405", message("PUT /ops/day"), BAD_METHOD),
            ("DELETE: 405", message("DELETE /ops/day"), BAD_METHOD),
            ("HEAD: 405, with the body that any method gets", message("HEAD /ops/settlement"), BAD_METHOD),
            ("OPTIONS *: 404", message("OPTIONS *"), NOT_FOUND),
            ("a wrong key: 403", message("GET /ops/settlement", key=wrong), DENIED),
            ("no key: the same bytes", message("GET /ops/settlement", key=""), DENIED),
            ("an unknown company: the same bytes", message("GET /c/NOBODY/exposure"), DENIED),
            ("a company's key for the operator: the same bytes", message("GET /ops/settlement", key=MILL_KEY), DENIED),
            ("the first of two keys counts", message("GET /ops/settlement", key=wrong, fields=[f"X-Desk-Key: {OPERATOR_KEY}"]), DENIED),
            ("a body that is no JSON: 400", message("POST /ops/day", "[]"), BAD_JSON),
            ("what follows a question mark is not looked at", message("GET /ops/settlement?day=2025-01-08"), SETTLED),
            ("names of fields have any case", message("GET /ops/settlement", key="", fields=[f"x-DESK-key:  {OPERATOR_KEY} "]), SETTLED)):
        checks.that(what, asked(port, sent + GET), wanted + SETTLED)


def ends_of_sessions(checks, port):
    many = [f"A{n}: x" for n in range(30)]  # with the host and the key 32 fields
    long = f"B: {'x' * MAX_HEAD}"
    for what, sent, wanted in (
            ("a POST without a length: 411, and the connection ends", message("POST /ops/day"), LENGTH_REQUIRED),
            ("a transfer coding: 411, also for a GET", message("GET /ops/settlement", fields=["Transfer-Encoding: chunked"]), LENGTH_REQUIRED),
            ("one byte past the limit: 413 before the body comes", message("POST /ops/day", fields=[f"Content-Length: {MAX_BODY + 1}"]), TOO_LARGE),
            ("a length of 30 digits: 413", message("POST /ops/day", fields=[f"Content-Length: {'9' * 30}"]), TOO_LARGE),
            ("two lengths: 400", message("POST /ops/day", "{}", fields=["Content-Length: 2"]), BAD_HEAD),
            ("a length that is no number: 400", message("GET /ops/settlement", fields=["Content-Length: +1"]), BAD_HEAD),
            ("33 fields: 400", message("GET /ops/settlement", fields=[*many, "C: x"]), BAD_HEAD),
            ("a head of more than 16,384 bytes: 400", message("GET /ops/settlement", fields=[long]), BAD_HEAD),
            ("the beginning of HTTP/2: 400", b"PRI * HTTP/2.0\r\n\r\nSM\r\n\r\n", BAD_HEAD),
            ("`Connection: close`: the connection ends", message("GET /ops/settlement", fields=["Connection: Close"]), answer(200, SETTLEMENT, closes=True)),
            ("HTTP/1.0: the connection ends", GET.replace(b"HTTP/1.1", b"HTTP/1.0"), answer(200, SETTLEMENT, closes=True))):
        checks.that(what, asked(port, sent + GET), wanted)
    checks.that("32 fields are taken", asked(port, message("GET /ops/settlement", fields=many)), SETTLED)
    bare = len(message("GET /ops/settlement", fields=["B: "]))
    whole = message("GET /ops/settlement", fields=[f"B: {'x' * (MAX_HEAD - bare)}"])
    checks.that("a head of 16,384 bytes is taken", (len(whole), asked(port, whole)), (MAX_HEAD, SETTLED))


def large_bodies(checks, port):
    whole = message("POST /c/MILL01/submissions", filled(pay("LARGE-1"), MAX_BODY), MILL_KEY)
    checks.that("a body of 4,194,304 bytes is taken", asked(port, whole + GET), answer(201, paid(2, "LARGE-1")) + SETTLED)
    checks.that("it counts as the same without its blanks", asked(port, message("POST /c/MILL01/submissions", pay("LARGE-1"), MILL_KEY)), answer(201, paid(2, "LARGE-1")))
    checks.that("one of blanks alone: BadJson", asked(port, message("POST /ops/day", b" " * MAX_BODY)), BAD_JSON)
    over = message("POST /c/MILL01/submissions", filled(pay("LARGE-2"), MAX_BODY + 1), MILL_KEY)
    checks.that("one byte more, sent whole: 413", asked(port, over), TOO_LARGE)
    checks.that("and it was not taken", asked(port, message("GET /c/MILL01/submissions/LARGE-2", key=MILL_KEY)), answer(404, '{"error":"NoReference"}'))


def clients_that_break_off(checks, port):
    half = message("POST /c/MILL01/submissions", pay("HALF-1"), MILL_KEY)
    head = half.index(b"\r\n\r\n") + 4
    for what, sent in (("inside the first line", half[:20]), ("inside the head", half[:head - 20]), ("before the body", half[:head]), ("inside the body", half[:-1]),
                       ("before a word", b"")):
        checks.that(f"a client that ends {what} gets nothing", asked(port, sent), b"")
        checks.that("the next client is served", asked(port, GET), SETTLED)
        reset(port, sent)
        checks.that(f"so it is after one that is reset {what}", asked(port, GET), SETTLED)
    checks.that("answers come up to the message in which it ends", asked(port, GET + half[:-1]), SETTLED)
    checks.that("nothing of it was taken", asked(port, message("GET /c/MILL01/submissions/HALF-1", key=MILL_KEY)), answer(404, '{"error":"NoReference"}'))


def reset(port, data):
    """Sends the data and resets the connection."""
    it = connect(port)
    it.sendall(data)
    it.setsockopt(socket.SOL_SOCKET, socket.SO_LINGER, struct.pack("ii", 1, 0))
    it.close()


def clients_that_do_not_read(checks, port, desk):
    reset(port, GET * 900)
    checks.that("after a client that sends 900 messages, is reset and reads no answer the next is served", asked(port, GET), SETTLED)
    it = connect(port)
    it.sendall(message("POST /c/MILL01/submissions", pay("UNREAD-1"), MILL_KEY))
    it.close()
    checks.that("so it is after one that closes and reads no answer", asked(port, GET), SETTLED)
    checks.that("what that one sent stands, and is answered when it is sent again",
                asked(port, message("POST /c/MILL01/submissions", pay("UNREAD-1"), MILL_KEY)), answer(201, paid(3, "UNREAD-1")))
    checks.that("the desk runs on", desk.is_running())


def one_after_another(checks, port):
    with connect(port) as first, connect(port) as second:
        first.sendall(GET)
        first.settimeout(SECONDS)
        with first.makefile("rb") as reader:
            checks.that("a first client is answered", read_answer(reader), SETTLED)
        second.sendall(message("GET /ops/settlement", fields=["Connection: close"]))
        second.settimeout(0.5)
        checks.that("a second client waits while the first one is connected", waits(second))
        first.shutdown(socket.SHUT_RDWR)
        second.settimeout(SECONDS)
        checks.that("and is answered once the first one has closed", all_of(second), answer(200, SETTLEMENT, closes=True))


def waits(it):
    try:
        it.recv(1)
    except TimeoutError:
        return True
    return False


# ---- http.client ----

def by_http_client(checks, port):
    it = http.client.HTTPConnection(HOST, port, timeout=SECONDS)
    key = {"X-Desk-Key": OPERATOR_KEY}
    sockets = set()
    for what, asks, body, wanted in (
            ("GET", ("GET", "/ops/settlement"), None, (200, SETTLEMENT)), ("a day that is not later", ("POST", "/ops/day"), '{"day":"2025-01-08"}', (409, '{"error":"DayNotLater","number":20}')),
            ("an unknown path", ("GET", "/x"), None, (404, '{"error":"NotFound"}')), ("a holiday list", ("POST", "/ops/holidays"), "2025-01-20\n", (200, '{"holidays":1}')),
            ("GET again", ("GET", "/ops/settlement"), None, (200, SETTLEMENT))):
        it.request(*asks, body=body, headers=key)
        sockets.add(it.sock)
        with it.getresponse() as response:
            checks.that(f"http.client: {what}", (response.status, response.read().decode()), wanted)
    checks.that("http.client: all on one connection", len(sockets), 1)
    it.close()
    try:
        it.request("POST", "/ops/day", body=iter([b'{"day":', b'"2025-01-09"}']), headers=key, encode_chunked=True)
    except (BrokenPipeError, ConnectionResetError):
        pass  # the desk may close before the last chunk is written; its answer has come
    with it.getresponse() as response:
        checks.that("http.client: a body in chunks is 411, and the connection ends", (response.status, response.read(), response.will_close), (411, b'{"error":"LengthRequired"}', True))
    it.close()
    it.request("POST", "/c/MILL01/submissions", body=filled(pay("LARGE-1"), MAX_BODY), headers={"X-Desk-Key": MILL_KEY})
    with it.getresponse() as response:
        checks.that("http.client: a body of 4,194,304 bytes", (response.status, response.read().decode()), (201, paid(2, "LARGE-1")))
    it.close()


# ---- curl ----

def curl(*words, given=b""):
    """What curl prints, its trace, and its status."""
    done = subprocess.run(["curl", "--silent", "--show-error", "--verbose", "--max-time", str(SECONDS), *words], input=given, capture_output=True)
    return done.stdout, done.stderr.decode("latin-1"), done.returncode


def by_curl(checks, port, folder):
    base, key = f"http://{HOST}:{port}", f"X-Desk-Key: {OPERATOR_KEY}"
    mill = f"X-Desk-Key: {MILL_KEY}"
    said, trace, status = curl("--header", key, f"{base}/ops/settlement", f"{base}/ops/suspense", f"{base}/ops/settlement")
    checks.that("curl: three addresses", (said.decode(), status), (SETTLEMENT + '{"items":[]}' + SETTLEMENT, 0))
    checks.that("curl: on one connection", trace.count("Re-using existing connection"), 2)
    said, _, status = curl("--header", key, "--write-out", " %{http_code} %{content_type}", "--data", '{"day":"2025-01-18"}', f"{base}/ops/day")
    checks.that("curl: a day that is a Saturday", (said.decode(), status), ('{"error":"NotBankingDay","number":21} 409 application/json', 0))
    said, _, status = curl("--http1.0", "--include", "--header", key, f"{base}/ops/settlement")
    checks.that("curl: HTTP/1.0", (said, status), (answer(200, SETTLEMENT, closes=True), 0))
    said, _, status = curl("--head", "--header", key, f"{base}/ops/settlement")
    checks.that("curl: HEAD is 405", (status_of(said), status), (405, 0))
    said, _, status = curl("--header", key, "--header", "Transfer-Encoding: chunked", "--data-binary", "@-", "--include", f"{base}/ops/day", given=b'{"day":"2025-01-09"}')
    checks.that("curl: a body in chunks is 411", said.endswith(LENGTH_REQUIRED))
    said, _, status = curl("--upload-file", "-", "--header", key, "--include", f"{base}/ops/day", given=b'{"day":"2025-01-09"}')
    checks.that("curl: an upload of unknown length is 411", said.endswith(LENGTH_REQUIRED))
    large = folder / "large.json"
    for size, wanted in ((MAX_BODY, answer(201, paid(2, "LARGE-1"))), (MAX_BODY + 1, TOO_LARGE)):
        large.write_bytes(filled(pay("LARGE-1"), size))
        said, trace, status = curl("--include", "--header", mill, "--data-binary", f"@{large}", f"{base}/c/MILL01/submissions")
        checks.that(f"curl: it expects to be told to go on with {size:,} bytes", "> Expect: 100-continue" in trace)
        checks.that(f"curl: and is answered {status_of(wanted)}", (said, status), (wanted, 0))
    said, trace, status = curl("--include", "--header", mill, "--header", "Expect:", "--data-binary", f"@{large}", f"{base}/c/MILL01/submissions")
    checks.that("curl: where it does not wait to be told it has 413", said, TOO_LARGE)
    checks.that("curl: the next one is served", curl("--header", key, f"{base}/ops/settlement")[0].decode(), SETTLEMENT)


def main():
    program = program_of(sys.argv[1:])
    checks = Checks()
    with tempfile.TemporaryDirectory() as name:
        folder = Path(name)
        path = folder / "bank.db"
        make_desk(program, path)
        checks.that("a second desk in the same file: `Exists`, status 1", run(program, "init", path, "--odfi", "121042882", "--odfi-name", "OUR BANK",
                    "--destination", "061000146", "--destination-name", "ACH OPERATOR", "--key", OPERATOR_KEY), (b"Exists\n", 1))
        wrong_words(checks, program, path)
        wrong_files(checks, program, folder, path)
        taken_file(checks, program, path)
        limit_of_connections(checks, program, path)
        same_port_again(checks, program, path)
        with Serving(program, path).listen() as desk:
            for group in (setting_up, messages_together, full_session, order_of_checks, ends_of_sessions, large_bodies, clients_that_break_off):
                group(checks, desk.port)
            clients_that_do_not_read(checks, desk.port, desk)
            one_after_another(checks, desk.port)
            by_http_client(checks, desk.port)
            by_curl(checks, desk.port, folder)
            checks.that("the desk still runs", desk.is_running())
    checks.end()


main()
