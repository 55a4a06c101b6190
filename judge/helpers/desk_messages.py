"""Messages to a desk, the answers that must come, and sessions of the program in which they are sent."""

import functools
import json
import os
import re
import resource
import subprocess
from dataclasses import dataclass
from pathlib import Path

SECONDS = 60
LARGEST_SESSION = 1000

PHRASES = {
    200: "OK",
    201: "Created",
    400: "Bad Request",
    403: "Forbidden",
    404: "Not Found",
    405: "Method Not Allowed",
    409: "Conflict",
    411: "Length Required",
    413: "Payload Too Large",
    422: "Unprocessable Entity",
    503: "Service Unavailable",
}


@dataclass
class Exchange:
    """A message with the answer that must come. Of `wanted` None every answer will do that is no bad field."""

    name: str
    sent: bytes
    wanted: bytes | None


def request(method, path, fields, body=b""):
    head = "".join(f"{line}\r\n" for line in (f"{method} {path} HTTP/1.1", "Host: 127.0.0.1", *fields))
    return head.encode() + b"\r\n" + body


def keyed(method, path, key, body=b""):
    """A message with a key, and with a length where there is or must be a body."""
    lengths = [f"Content-Length: {len(body)}"] if body or method == "POST" else []
    return request(method, path, [f"X-Desk-Key: {key}", *lengths], body)


def compact(value):
    """A text as it is, and any other value as compact JSON with its keys in byte order."""
    if isinstance(value, str):
        return value.encode()
    return json.dumps(value, separators=(",", ":"), sort_keys=True, ensure_ascii=False).encode()


def response(status, body, content="application/json", closes=False):
    connection = "close" if closes else "keep-alive"
    head = [
        f"HTTP/1.1 {status} {PHRASES[status]}",
        f"Content-Type: {content}",
        f"Content-Length: {len(body)}",
        f"Connection: {connection}",
    ]
    return "".join(f"{line}\r\n" for line in head).encode() + b"\r\n" + body


def split(output):
    """The answers that stand in what a session printed, by their lengths; what is none stands at the end."""
    answers = []
    while output:
        head, _, rest = output.partition(b"\r\n\r\n")
        length = re.search(rb"\r\nContent-Length: (\d+)\r\n", head)
        if length is None:
            return answers + [output]
        size = len(head) + 4 + int(length[1])
        answers.append(output[:size])
        output = output[size:]
    return answers


def limit_data(size):
    resource.setrlimit(resource.RLIMIT_DATA, (size, size))


@functools.cache
def is_sanitized(program):
    """Was the program compiled with AddressSanitizer? It then reserves terabytes, and does not start under a limit."""
    return b"__asan_init" in Path(program).read_bytes()


def session(program, sent, most_data=None):
    """What the program prints for these bytes, its errors and its status, with so much memory if a size is given.

    AddressSanitizer refuses allocations of more than this size instead, and warns of each on standard error."""
    limit, known, warning = None, {}, b""
    if most_data is not None and is_sanitized(program[0]):
        known = {"ASAN_OPTIONS": f"allocator_may_return_null=1:max_allocation_size_mb={most_data >> 20}"}
        warning = rb"==\d+==WARNING: AddressSanitizer failed to allocate \w+ bytes\n"
    elif most_data is not None:
        limit = lambda: limit_data(most_data)
    try:
        done = subprocess.run([*program, "stdio"], input=sent, capture_output=True, timeout=SECONDS, preexec_fn=limit, env=os.environ | known)
    except subprocess.TimeoutExpired:
        return b"", b"no end", None
    return done.stdout, re.sub(warning, b"", done.stderr), done.returncode


def is_wanted(exchange, answer):
    if exchange.wanted is None:
        return answer is not None and b'"error":"BadField"' not in answer
    return answer == exchange.wanted


def differences(program, exchanges, most_data=None):
    """One line for each answer that is another, and one where the session ended otherwise than done."""
    output, errors, status = session(program, b"".join(it.sent for it in exchanges), most_data)
    answers = split(output)
    lines = []
    for at, exchange in enumerate(exchanges):
        answer = answers[at] if at < len(answers) else None
        if not is_wanted(exchange, answer):
            lines.append(f"{exchange.name}: sent {exchange.sent[:400]!r}, wanted {exchange.wanted!r}, got {answer!r}")
    lines += [f"an answer more: {answer!r}" for answer in answers[len(exchanges) :]]
    if errors or status != 0:
        lines.append(f"after {exchanges[-1].name}: status {status}, {errors!r} on standard error")
    return lines
