#!/usr/bin/env python3
"""Messages a second through Python's `http.server` and `json`, over memory: each is read as a message, its
body as JSON, and answered with JSON of the desk's answer. No rule is checked and nothing is kept."""

import io
import json
import time
from http.server import BaseHTTPRequestHandler

ENTRY = {"routing": "091000019", "account": "123456789", "kind": "checking", "cents": 100, "id": "E1", "name": "ANN LEE"}


class Handler(BaseHTTPRequestHandler):
    protocol_version = "HTTP/1.1"

    def setup(self):
        self.rfile, self.wfile = self.request

    def finish(self):
        pass

    def answer(self, status, body):
        text = json.dumps(body, separators=(",", ":")).encode()
        self.send_response_only(status)
        self.send_header("Content-Type", "application/json")
        self.send_header("Content-Length", str(len(text)))
        self.send_header("Connection", "keep-alive")
        self.end_headers()
        self.wfile.write(text)

    def do_POST(self):
        body = json.loads(self.rfile.read(int(self.headers["Content-Length"])))
        cents = sum(entry["cents"] for entry in body["entries"])
        self.answer(201, {"cents": cents, "entries": len(body["entries"]), "order": 1, "ref": body["ref"]})

    def do_GET(self):
        self.answer(200, {"returns": []})


def message(method, path, body):
    return f"{method} {path} HTTP/1.1\r\nX-Desk-Key: mill-street-key\r\nContent-Length: {len(body)}\r\n\r\n{body}".encode()


def submission(entries):
    return json.dumps({"ref": "PAY-1", "sec": "PPD", "direction": "credit", "description": "PAYROLL", "day": "2025-01-10",
                       "entries": [ENTRY] * entries}, separators=(",", ":"))


def rate(messages):
    best = float("inf")
    for _ in range(5):
        start = time.perf_counter()
        Handler((io.BytesIO(b"".join(messages)), io.BytesIO()), ("", 0), None)
        best = min(best, time.perf_counter() - start)
    return len(messages) / best


for name, one, count in [
    ("submissions of 1 entry", message("POST", "/c/MILL01/submissions", submission(1)), 900),
    ("submissions of 1,000 entries", message("POST", "/c/MILL01/submissions", submission(1_000)), 20),
    ("GETs", message("GET", "/c/MILL01/returns", ""), 900),
]:
    print(f"Python, {name} a second: {rate([one] * count):.0f}")
