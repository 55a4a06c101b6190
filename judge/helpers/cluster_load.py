"""Companies and an operator who call a desk at the address that follows it, through the shipped proxy."""

import http.client
import random
import ssl
import time
from pathlib import Path
from typing import Any

from helpers.proxy import lines_of_keys
from helpers.running import OPERATOR_KEY
from helpers.standby_load import COMPANIES, Load, must

NEWEST, SOME = 200, 50  # receipts that are asked for again after each takeover, and older ones; the end compares all
LATER = (429, 502, 503, 504)  # the same is asked again


class ProxyLoad(Load):
    """The load, over TLS, whose handshakes cost an emulated processor so much that each company waits between two submissions."""

    def __init__(self, address: str, certificate: Path, seed: int, patience: int):
        super().__init__([443], seed, patience=60)
        self.pause, self.address, self.context = patience, address, ssl.create_default_context(cafile=str(certificate))

    def once(self, port: int, method: str, target: str, body: str | None, key: str, seconds: float) -> tuple[int, bytes] | None:
        link = http.client.HTTPSConnection(self.address, port, timeout=seconds, context=self.context)
        try:
            link.request(method, target, body, {"X-Desk-Key": key, "Connection": "close"})
            answer = link.getresponse()
            came = answer.status, answer.read()
            return None if came[0] in LATER else came
        except (OSError, http.client.HTTPException):
            return None
        finally:
            link.close()

    def submit(self) -> None:
        super().submit()
        self.over.wait(self.pause * self.random.uniform(0.5, 2))


class Desk:
    """The desk at its address."""

    def __init__(self, address: str, certificate: Path, seed: int, patience: int = 1):
        self.load: Any = ProxyLoad(address, certificate, seed, patience)
        self.random, self.looked = random.Random(seed), set[Any]()

    def key_lists(self) -> dict[str, str]:
        """What the load needs in the lists of keys."""
        return {"people.map": lines_of_keys({OPERATOR_KEY: "operator:load"}), "companies.map": lines_of_keys({key: f"{name}:load" for name, key in COMPANIES.items()}),
                "desk.map": lines_of_keys(COMPANIES)}

    def wait(self, seconds: float) -> None:
        """Waits until the desk answers."""
        until = time.monotonic() + seconds
        while (came := self.load.once(443, "GET", "/ops/status", None, OPERATOR_KEY, 10)) is None or came[0] != 200:
            must(f"the desk answers: {came}", time.monotonic() < until)
            time.sleep(0.5)

    def wait_for_answer(self, since: float, began: float, seconds: float = 600) -> str:
        """Says when a write was first answered well after an instant."""
        until = time.monotonic() + seconds
        while True:
            came = [at for at, _, status in list(self.load.answers) if at > since and status < 300]
            if came:
                return f"a write answered after {came[0] - began:.1f} s"
            must("a write is answered", time.monotonic() < until and not self.load.failure)
            time.sleep(0.1)

    def silence(self, since: float) -> float:
        """The longest time since an instant in which no write was answered."""
        times = [since] + [at for at, _, status in list(self.load.answers) if at > since and status < 300]
        return max(later - earlier for earlier, later in zip(times, times[1:]))

    def look(self) -> int:
        receipts, files = list(self.load.receipts), list(self.load.files)
        new = [it for it in receipts + files if it not in self.looked][-NEWEST:]
        old = [it for it in receipts + files if it in self.looked]
        some = new + self.random.sample(old, min(SOME, len(old)))
        self.load.look_again(443, [it for it in some if it in self.load.receipts], [it for it in some if it in self.load.files])
        self.looked.update(new)
        return len(some)

