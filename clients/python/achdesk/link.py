"""One exchange of a request for an answer, within bounds of time and length."""

from __future__ import annotations

import contextlib
import http.client
import io
import socket
import ssl
import struct
import time
from dataclasses import dataclass
from typing import Any, Mapping, Optional, cast

PIECE = 65_536
LONGEST_HEAD = 1_048_576


@dataclass(frozen=True)
class Bounds:
    """How long each wait for the network takes, when all of it ends, and how long an answer is."""

    timeout: float
    until: float
    largest_answer: int

    def wait(self) -> float:
        """Returns how long the next wait may take. Raises `TimeoutError` once the time is over."""
        left = self.until - time.monotonic()
        if left <= 0:
            raise TimeoutError("the time is over")
        return min(self.timeout, left)


@dataclass(frozen=True)
class Answer:
    """A complete answer."""

    status: int
    content_type: str
    retry_after: str
    body: bytes


class TooLong(http.client.HTTPException):
    """An answer that is longer than permitted."""


class _TimedSocket:
    """A socket as `http.client` uses it, with bounds for each exchange."""

    def __init__(self, sock: socket.socket, bounds: Bounds) -> None:
        self._sock = sock
        self.begin(bounds)

    def begin(self, bounds: Bounds) -> None:
        """Sets the bounds of the next exchange."""
        self._bounds = bounds
        self._received = 0

    def sendall(self, data: bytes) -> None:
        rest = memoryview(data)
        while rest:
            self._sock.settimeout(self._bounds.wait())
            rest = rest[self._sock.send(rest[:PIECE]):]

    def makefile(self, *_: object) -> io.BufferedReader:
        return io.BufferedReader(_TimedReader(self, self._sock.makefile("rb", buffering=0)))

    def receive(self, source: io.RawIOBase, buffer: Any) -> Optional[int]:
        self._sock.settimeout(self._bounds.wait())
        count = source.readinto(buffer)
        self._received += count or 0
        if self._received > self._bounds.largest_answer + LONGEST_HEAD:
            raise TooLong(f"the answer has more than {self._bounds.largest_answer:,} bytes")
        return count

    def reset_at_close(self) -> None:
        with contextlib.suppress(OSError):
            self._sock.setsockopt(socket.SOL_SOCKET, socket.SO_LINGER, struct.pack("ii", 1, 0))

    def close(self) -> None:
        self._sock.close()


class _TimedReader(io.RawIOBase):
    """What arrives at a socket. A server that sends a byte now and then does not prolong it."""

    def __init__(self, link: _TimedSocket, source: io.RawIOBase) -> None:
        self._link = link
        self._source = source

    def readable(self) -> bool:
        return True

    def readinto(self, buffer: Any) -> Optional[int]:
        return self._link.receive(self._source, buffer)

    def close(self) -> None:
        if not self.closed:
            self._source.close()
        super().close()


class Link:
    """A connection to the desk, or to the proxy in front of it.

    `sent_at` is when the last byte of the newest request was sent, as `time.monotonic` has it.
    """

    def __init__(
        self, host: str, port: int, tls: Optional[ssl.SSLContext], bounds: Bounds
    ) -> None:
        """Connects. Raises `OSError`."""
        sock = _connected(host, port, bounds)
        try:
            if tls is not None:
                sock.settimeout(bounds.wait())
                sock = tls.wrap_socket(sock, server_hostname=host)
        except BaseException:
            sock.close()
            raise
        self._timed = _TimedSocket(sock, bounds)
        self._connection = http.client.HTTPConnection(_in_brackets(host), port)
        self._connection.sock = cast(Any, self._timed)
        self._connection.auto_open = 0  # it would connect again by itself, without TLS
        if tls is not None:
            self._connection.default_port = http.client.HTTPS_PORT  # no port in `Host`
        self.is_open = True
        self.sent_at: Optional[float] = None

    def exchange(
        self, method: str, path: str, body: bytes, headers: Mapping[str, str], bounds: Bounds
    ) -> Answer:
        """Sends a request and returns its complete answer. Raises `OSError` or `HTTPException`.

        The link is closed afterwards, unless both sides keep it. If the answer is not complete, it
        is reset, so that a proxy can drop a request that it still keeps.
        """
        self._timed.begin(bounds)
        self.sent_at = None
        is_kept, is_complete = False, False
        try:
            self._send(method, path, body, headers)
            self.sent_at = time.monotonic()
            response = self._connection.getresponse()
            answer = Answer(
                response.status, response.headers.get("Content-Type", ""),
                response.headers.get("Retry-After", ""), _body_of(response, bounds))
            is_complete = True
            is_kept = not response.will_close and headers.get("Connection") != "close"
        finally:
            if not is_complete:
                self._timed.reset_at_close()
            if not is_kept:
                self.close()
        return answer

    def _send(self, method: str, path: str, body: bytes, headers: Mapping[str, str]) -> None:
        try:
            # For a POST without a body http.client writes a Content-Length of 0, as the desk
            # requires.
            self._connection.request(method, path, body or None, dict(headers))
        except (BrokenPipeError, ConnectionResetError):
            # An answer such as 413 may come before the whole body is sent.
            if self._connection.sock is None:
                raise

    def close(self) -> None:
        """Closes the connection."""
        self.is_open = False
        self._connection.close()


def _in_brackets(host: str) -> str:
    return f"[{host}]" if ":" in host else host


def _connected(host: str, port: int, bounds: Bounds) -> socket.socket:
    """Returns a socket that is connected to the first address of a host that answers."""
    fault: Optional[OSError] = None
    for family, kind, protocol, _, address in socket.getaddrinfo(
        host, port, type=socket.SOCK_STREAM
    ):
        sock = None
        try:
            sock = socket.socket(family, kind, protocol)
            sock.settimeout(bounds.wait())
            sock.connect(address)
            sock.setsockopt(socket.IPPROTO_TCP, socket.TCP_NODELAY, 1)
            return sock
        except OSError as error:
            fault = error
            if sock is not None:
                sock.close()
    raise fault or OSError(f"{host} has no address")


def _body_of(response: http.client.HTTPResponse, bounds: Bounds) -> bytes:
    wanted = response.length
    is_chunked: bool = cast(Any, response).chunked
    if wanted is None and not is_chunked:
        # Nothing says where such an answer ends: its head may have been cut off.
        raise http.client.HTTPException("the answer does not state its length")
    pieces = []
    size = 0
    while piece := response.read(PIECE):
        pieces.append(piece)
        size += len(piece)
        if size > bounds.largest_answer:
            raise TooLong(f"the answer has more than {bounds.largest_answer:,} bytes")
    if wanted is not None and size < wanted:
        raise http.client.IncompleteRead(b"", wanted - size)
    return b"".join(pieces)
