"""A TCP proxy that loses answers: it stands before a desk, or before nginx, and spoils what it is told to."""

import re
import socket
import struct
import threading
import time
from collections import deque

from helpers.running import HOST, SECONDS, connect, read_answer


def read_request(reader):
    """The bytes of the next request of a connection's reader; empty when the connection ends."""
    head, size = b"", 0
    while not head.endswith(b"\r\n\r\n"):
        line = reader.readline()
        if not line:
            return b""
        if line.lower().startswith(b"content-length:"):
            size = int(line.split(b":")[1])
        head += line
    return head + reader.read(size)


def reset(it):
    """Closes a connection so that the other side gets a reset."""
    it.setsockopt(socket.SOL_SOCKET, socket.SO_LINGER, struct.pack("ii", 1, 0))
    it.close()


class Listener:
    """Serves each connection to a port of its own in a thread."""

    def __init__(self):
        self.listener = socket.create_server((HOST, 0))
        self.port = self.listener.getsockname()[1]
        threading.Thread(target=self.accept, daemon=True).start()

    def accept(self):
        while True:
            try:
                it, _ = self.listener.accept()
            except OSError:
                return
            threading.Thread(target=self.serve_quietly, args=(it,), daemon=True).start()

    def serve_quietly(self, it):
        try:
            it.settimeout(SECONDS)
            self.serve(it)
        except OSError:
            pass
        finally:
            it.close()

    def __enter__(self):
        return self

    def __exit__(self, *_):
        self.listener.close()


class CuttingProxy(Listener):
    """Passes requests on to a desk. Each request takes the next of the plans; without one it just passes:

    - ("cut", n): the desk carries the request out, and the client gets the first n bytes of the answer;
      a negative n counts from the end. Every other connection is reset, and the rest are closed;
    - ("drop",): the request is read, and the connection is closed: the desk never gets it;
    - ("answer", bytes): the request is read, and the client gets these bytes;
    - ("wait", n): the request is passed on after n seconds.
    """

    def __init__(self, desk):
        self.desk, self.plans, self.requests, self.carried_out, self.connections = desk, deque(), [], 0, 0
        super().__init__()

    def serve(self, it):
        self.connections += 1
        with it.makefile("rb") as reader:
            while (request := read_request(reader)) and self.goes_on(it, request):
                pass

    def goes_on(self, it, request):
        """Answers a request, and says whether the connection is kept."""
        plan = self.plans.popleft() if self.plans else ("pass",)
        self.requests.append(request.split(b"\r\n")[0].decode())
        if plan[0] == "drop":
            return False
        if plan[0] == "answer":
            it.sendall(plan[1])
            return False
        if plan[0] == "wait":
            time.sleep(plan[1])
        answer = self.asked(request)
        if plan[0] == "cut":
            it.sendall(answer[: plan[1]])
            if len(self.requests) % 2:
                reset(it)
            return False
        it.sendall(answer)
        return b"\r\nConnection: close\r\n" not in answer

    def asked(self, request):
        with connect(self.desk) as desk, desk.makefile("rb") as reader:
            desk.sendall(re.sub(rb"\r\nConnection: [a-z-]+", b"", request, count=1))
            answer = read_answer(reader)
        self.carried_out += 1  # before any byte of the answer goes on
        return answer


class LosingRelay(Listener):
    """Relays bytes to nginx. A request that `loses` counts is carried out, and its client's connection is closed
    before any byte of the answer comes."""

    def __init__(self, target, inner):
        self.target, self.inner, self.loses = target, inner, 0
        super().__init__()

    def serve(self, it):
        is_lost, before = self.loses > 0, self.inner.carried_out
        self.loses -= is_lost
        with connect(self.target) as target:
            threading.Thread(target=self.pump, args=(it, target), daemon=True).start()
            while piece := target.recv(65_536):
                if is_lost and self.inner.carried_out > before:
                    return it.shutdown(socket.SHUT_RDWR)  # which also ends the other thread
                it.sendall(piece)

    @staticmethod
    def pump(source, sink):
        try:
            while piece := source.recv(65_536):
                sink.sendall(piece)
            sink.shutdown(socket.SHUT_WR)
        except OSError:
            pass
