"""Bounds of time and length, and what reaches the terminal."""

from __future__ import annotations

import http.client
import socket
import time
import unittest
from typing import Callable

from achdesk import Company, DeskError, NoAnswer, Refused, Settings
from achdesk.link import Bounds, Link
from tests.fakes import DAY, KEY, Server, answer, in_turn

SLACK = 4  # seconds, on a busy machine
EXPOSURE = {"day": str(DAY), "credit": "0", "credit_limit": 1, "debit": "0", "debit_limit": 1,
            "entry_limit": 1}


def trickle(connection: socket.socket) -> None:
    """Sends an answer byte by byte, without end."""
    connection.sendall(b"HTTP/1.1 200 OK\r\nContent-Length: 1000000\r\n\r\n")
    while True:
        connection.sendall(b" ")
        time.sleep(0.1)


def trickle_head(connection: socket.socket) -> None:
    connection.sendall(b"HTTP/1.1 200 OK\r\n")
    while True:
        connection.sendall(b"X")
        time.sleep(0.1)


def go_on(connection: socket.socket) -> None:
    """Says without end that the client may go on."""
    while True:
        connection.sendall(b"HTTP/1.1 100 Continue\r\n\r\n")
        time.sleep(0.01)


def go_on_fast(connection: socket.socket) -> None:
    while True:
        connection.sendall(b"HTTP/1.1 100 Continue\r\n\r\n" * 1000)


class Bounded(unittest.TestCase):
    def error_of(self, reply: Callable[[socket.socket], None], seconds: float) -> DeskError:
        with Server(in_turn(reply)) as server:
            mill = Company(server.url, "MILL01", KEY, Settings(total_seconds=seconds))
            began = time.monotonic()
            with self.assertRaises(DeskError) as caught:
                mill.exposure()
            self.assertLess(time.monotonic() - began, seconds + SLACK)
            return caught.exception

    def test_a_server_that_trickles_does_not_outlast_the_total_time(self) -> None:
        for reply in (trickle, trickle_head, go_on, go_on_fast):
            with self.subTest(reply.__name__):
                error = self.error_of(reply, 0.6)
                self.assertIsInstance(error, NoAnswer)
                self.assertTrue(error.may_have_acted)

    def test_a_call_that_is_sent_once_ends_with_its_timeout(self) -> None:
        with Server(in_turn(trickle)) as server:
            mill = Company(server.url, "MILL01", KEY, Settings(timeout=0.7, total_seconds=0))
            began = time.monotonic()
            with self.assertRaises(NoAnswer):
                mill.exposure()
            self.assertLess(time.monotonic() - began, 0.7 + SLACK)

    def test_a_server_that_does_not_read_does_not_outlast_the_total_time(self) -> None:
        with socket.create_server(("127.0.0.1", 0)) as listener:
            url = f"http://127.0.0.1:{listener.getsockname()[1]}"
            mill = Company(url, "MILL01", KEY, Settings(total_seconds=1))
            began = time.monotonic()
            with self.assertRaises(NoAnswer):
                mill.submit([], ref="R", sec="PPD", direction="credit", day=DAY,
                            description="P" * 8_000_000)
            self.assertLess(time.monotonic() - began, 1 + SLACK)

    def test_an_answer_has_a_bound_on_its_length(self) -> None:
        def long(connection: socket.socket) -> None:
            connection.sendall(b"HTTP/1.1 200 OK\r\nContent-Length: 99999999999999999\r\n\r\n")
            while True:
                connection.sendall(b" " * 65_536)

        def chunked(connection: socket.socket) -> None:
            connection.sendall(b"HTTP/1.1 200 OK\r\nTransfer-Encoding: chunked\r\n\r\n")
            while True:
                connection.sendall(b"fffff\r\n" + b" " * 0xFFFFF + b"\r\n")

        for reply in (long, chunked):
            with self.subTest(reply.__name__), Server(in_turn(reply)) as server:
                mill = Company(server.url, "MILL01", KEY, Settings(largest_answer=3_000_000))
                with self.assertRaisesRegex(NoAnswer, "more than 3,000,000 bytes") as caught:
                    mill.exposure()
                self.assertEqual((caught.exception.attempts, caught.exception.is_temporary),
                                 (1, False))

    def test_the_longest_permitted_answer_is_read(self) -> None:
        body = answer(200, EXPOSURE)
        size = len(body.partition(b"\r\n\r\n")[2])
        with Server(in_turn(body)) as server:
            settings = Settings(largest_answer=size, total_seconds=0)
            self.assertEqual(Company(server.url, "MILL01", KEY, settings).exposure().day, DAY)
            settings = Settings(largest_answer=size - 1, total_seconds=0)
            with self.assertRaises(NoAnswer):
                Company(server.url, "MILL01", KEY, settings).exposure()

    def test_an_answer_that_is_cut_off_is_no_answer(self) -> None:
        whole = answer(200, EXPOSURE)
        for size in (0, 5, 40, len(whole) - 1):
            with self.subTest(size), Server(in_turn(whole[:size])) as server:
                mill = Company(server.url, "MILL01", KEY, Settings(total_seconds=0))
                with self.assertRaises(NoAnswer):
                    mill.exposure()

    def test_a_number_with_many_digits_takes_no_time(self) -> None:
        with Server(in_turn(answer(200, b"[" + b"9" * 3_000_000 + b"]"))) as server:
            began = time.monotonic()
            with self.assertRaises(DeskError):
                Company(server.url, "MILL01", KEY, Settings(total_seconds=0)).exposure()
            self.assertLess(time.monotonic() - began, SLACK)


class Closed(unittest.TestCase):
    def test_a_closed_link_does_not_connect_again(self) -> None:
        with Server(in_turn(answer(200, EXPOSURE))) as server:
            bounds = Bounds(1, time.monotonic() + 5, 1000)
            link = Link("127.0.0.1", server.port, None, bounds)
            self.assertEqual(link.exchange("GET", "/", b"", {}, bounds).status, 200)
            self.assertFalse(link.is_open)  # the server closes it
            with self.assertRaises(http.client.HTTPException):
                link.exchange("GET", "/", b"", {}, bounds)
        self.assertEqual(server.requests, ["GET /"])

    def test_a_client_that_gives_up_resets_the_connection(self) -> None:
        seen = []

        def wait_for_end(connection: socket.socket) -> None:
            try:
                seen.append(connection.recv(1))
            except ConnectionResetError:
                seen.append(b"reset")

        with Server(in_turn(wait_for_end)) as server:
            settings = Settings(timeout=0.3, total_seconds=0)
            with self.assertRaises(NoAnswer):
                Company(server.url, "MILL01", KEY, settings).exposure()
            for _ in range(100):
                if seen:
                    break
                time.sleep(0.05)
        self.assertEqual(seen, [b"reset"])


class Shown(unittest.TestCase):
    def test_no_error_carries_control_characters(self) -> None:
        escape = "\x1b]0;x\x07\x9b\n\r"
        for reply in (
            answer(409, {"error": f"No{escape}", "field": escape}),
            answer(500, escape.encode(), f"text/{chr(27)}[31m"),
            b"HTTP/1.1 \x1b[31m\r\n\r\n",
            b"\x1b[31mno HTTP\r\n\r\n",
        ):
            with self.subTest(reply), Server(in_turn(reply)) as server:
                with self.assertRaises(DeskError) as caught:
                    Company(server.url, "MILL01", KEY, Settings(total_seconds=0)).exposure()
                self.assertTrue(str(caught.exception).isprintable(), repr(str(caught.exception)))

    def test_an_error_is_short(self) -> None:
        with Server(in_turn(answer(409, {"error": "x" * 1_000_000}))) as server:
            with self.assertRaises(Refused) as caught:
                Company(server.url, "MILL01", KEY, Settings(total_seconds=0)).exposure()
            self.assertLess(len(str(caught.exception)), 1000)


if __name__ == "__main__":
    unittest.main()
