"""A desk and a proxy in a few lines, on ports of their own."""

from __future__ import annotations

import datetime
import json
import socket
import threading
import time
from types import TracebackType
from typing import Any, Callable, Dict, List, Optional, Tuple, Type, Union

HOST = "127.0.0.1"
KEY = "mill-street-key"
DAY = datetime.date(2025, 1, 8)

Answering = Union[bytes, Callable[[socket.socket], None]]


def answer(status: int, body: Any, kind: str = "application/json", fields: str = "") -> bytes:
    """Returns the bytes of an answer."""
    data = body if isinstance(body, bytes) else json.dumps(body).encode()
    head = (f"HTTP/1.1 {status} Status\r\nContent-Type: {kind}\r\nContent-Length: {len(data)}\r\n"
            f"{fields}Connection: close\r\n\r\n")
    return head.encode() + data


class Server:
    """Answers each request with what `reply` returns for its method, path and body.

    `reply` returns the bytes of the answer, or a function that writes to the connection.
    """

    def __init__(self, reply: Callable[[str, str, bytes], Answering]) -> None:
        self.reply = reply
        self.requests: List[str] = []
        self.listener = socket.create_server((HOST, 0))
        self.port: int = self.listener.getsockname()[1]
        self.url = f"http://{HOST}:{self.port}"
        threading.Thread(target=self._accept, daemon=True).start()

    def _accept(self) -> None:
        while True:
            try:
                connection, _ = self.listener.accept()
            except OSError:
                return
            threading.Thread(target=self._serve, args=(connection,), daemon=True).start()

    def _serve(self, connection: socket.socket) -> None:
        try:
            with connection, connection.makefile("rb") as reader:
                line, size = reader.readline().decode().split(" "), 0
                while (field := reader.readline()) not in (b"\r\n", b""):
                    if field.lower().startswith(b"content-length:"):
                        size = int(field.split(b":")[1])
                body = reader.read(size)
                self.requests.append(f"{line[0]} {line[1]}")
                replied = self.reply(line[0], line[1], body)
                if callable(replied):
                    replied(connection)
                else:
                    connection.sendall(replied)
        except OSError:
            pass

    def __enter__(self) -> Server:
        return self

    def __exit__(
        self,
        kind: Optional[Type[BaseException]],
        error: Optional[BaseException],
        trace: Optional[TracebackType],
    ) -> None:
        self.listener.shutdown(socket.SHUT_RDWR)  # which also ends the thread that accepts
        self.listener.close()


def in_turn(*answers: Answering) -> Callable[[str, str, bytes], Answering]:
    """Returns a reply that gives these answers one after another, and the last one for good."""
    left = list(answers)
    return lambda *_: left.pop(0) if len(left) > 1 else left[0]


class SmallDesk:
    """What the tests need of a desk: submissions by reference, limits, and cuts."""

    def __init__(self) -> None:
        self.day = DAY
        self.limits = {"credit": 20_000_000_000, "debit": 5_000_000, "entry": 500_000}
        self.submissions: Dict[str, Dict[str, Any]] = {}
        self.refused: Dict[str, Tuple[int, Dict[str, Any]]] = {}
        self.cuts = 0
        self.sizes: Dict[str, int] = {}  # members of the status that an older desk does not have

    def reply(self, method: str, path: str, body: bytes) -> bytes:
        name = path.split("/", 3)[-1]
        if path == "/ops/cut":
            self.cuts += 1
            return answer(200, self._cut())
        if path == "/ops/status":
            return answer(200, self._status())
        if name == "exposure":
            return answer(200, self._exposure())
        if name == "submissions":
            return self._submit(json.loads(body))
        if name == "retries":
            status, refusal = self.refused["retry"]
            return answer(status, refusal)
        found = self.submissions.get(name.partition("/")[2])
        return answer(200, found["found"]) if found else answer(404, {"error": "NoReference"})

    def _cut(self) -> Dict[str, Any]:
        return {"day": str(self.day), "entries": 1, "files": ["ABC"[self.cuts - 1]], "lapsed": 0}

    def _status(self) -> Dict[str, Any]:
        return {"day": str(self.day), "companies": [], "files": list("ABC"[:self.cuts]),
                "holidays": 0, "sent": self.cuts, "suspense": 0, **self.sizes}

    def _exposure(self) -> Dict[str, Any]:
        held = [it["body"] for it in self.submissions.values()]
        return {
            "day": str(self.day), "entry_limit": self.limits["entry"],
            "credit": str(self.held("credit", held)), "credit_limit": self.limits["credit"],
            "debit": str(self.held("debit", held)), "debit_limit": self.limits["debit"],
        }

    @staticmethod
    def held(direction: str, bodies: List[Dict[str, Any]]) -> int:
        return sum(entry["cents"] for it in bodies if it["direction"] == direction
                   for entry in it["entries"])

    def _submit(self, body: Dict[str, Any]) -> bytes:
        ref, entries = body["ref"], body["entries"]
        known = self.submissions.get(ref)
        if ref in self.refused:
            status, refusal = self.refused[ref]
            return answer(status, refusal)
        if known is not None and known["body"] != body:
            return answer(409, {"error": "RefReused", "number": 3})
        if known is None:
            total = sum(it["cents"] for it in entries)
            order = len(self.submissions) + 1
            found = {"ref": ref, "order": order, "sec": body["sec"], "day": body["day"],
                     "direction": body["direction"], "cents": total,
                     "entries": [{"index": at, "cents": it["cents"], "state": "held"}
                                 for at, it in enumerate(entries, 1)]}
            known = self.submissions[ref] = {"body": body, "found": found}
        found = known["found"]
        return answer(201, {"ref": ref, "order": found["order"], "entries": len(entries),
                            "cents": found["cents"]})


def queueing(desk: Callable[[str, str, bytes], bytes], seconds: float) -> Server:
    """Returns a proxy that keeps each POST for so long, and then passes it on.

    It does so also if the client has gone meanwhile. A GET passes at once.
    """

    def reply(method: str, path: str, body: bytes) -> bytes:
        if method == "POST":
            time.sleep(seconds)
        return desk(method, path, body)

    return Server(reply)
