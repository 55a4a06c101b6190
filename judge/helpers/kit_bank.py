"""A new desk that is served, with proxies before it and the client library's classes, and samples of what they send."""

import datetime
import functools
import json
import sys
import tempfile
import time
from contextlib import ExitStack
from pathlib import Path

from helpers.cutting_proxy import CuttingProxy, LosingRelay
from helpers.proxy import QUICK, SAME_KEYS, Proxy
from helpers.returned import file_of_returns
from helpers.running import HOST, MILL_KEY, OPERATOR_KEY, SECONDS, TOP, Serving, make_desk

sys.path.insert(0, str(TOP / "clients" / "python"))
import achdesk  # noqa: E402
from achdesk import Company, Entry, InputFault, Operator, Refused, Settings  # noqa: E402

LIST = (TOP / "examples" / "pay.csv").read_bytes()
ANN = Entry("091000019", "123456789", "checking", 150000, "E1", "ANN LEE")
BOB = Entry("091000019", "123456789", "checking", 2500, "E2", "BOB RAY")
MILL = {
    "id": "MILL01",
    "name": "MILL STREET",
    "key": MILL_KEY,
    "entry_limit": 9999999999,
    "credit_limit": 20000000,
    "debit_limit": 5000000,
}
ITEM = {
    "debit": True,
    "savings": False,
    "account": "123456789",
    "ident": "E2",
    "name": "BOB RAY",
    "dfi": "09100001",
    "trace": "121042880000002",
}
RETURN = file_of_returns(1, "PPD", [{**ITEM, "cents": 2500, "code": "R01"}]).encode()
CHANGE = file_of_returns(2, "COR", [{**ITEM, "cents": 0, "code": "C01", "text": "987654321"}]).encode()
PAY = {"sec": "PPD", "direction": "credit", "description": "PAYROLL"}
DUES = {"sec": "PPD", "direction": "debit", "description": "DUES"}


def day(text):
    return datetime.date.fromisoformat(f"2025-{text}")


def page(status, kind="text/html", body=b"<html>a page of the proxy</html>", fields=""):
    """The bytes of an answer that a proxy gives."""
    return (
        f"HTTP/1.1 {status} Told\r\nContent-Type: {kind}\r\nContent-Length: {len(body)}\r\n{fields}Connection: close\r\n\r\n".encode()
        + body
    )


def error_page(status, name):
    return page(status, "application/json", json.dumps({"error": name}).encode())


@functools.cache
def new_desk(program):
    """The bytes of the two files of a new desk, which are the same for all."""
    with tempfile.TemporaryDirectory() as folder:
        path = Path(folder) / "bank.db"
        make_desk(program, path)
        return {end: Path(f"{path}{end}").read_bytes() for end in ("", "-wal")}


class Bank:
    """A new desk that is served, a proxy before it that spoils answers, nginx before that if it is wanted, and clients."""

    def __init__(self, program, way, **settings):
        self.program, self.way, self.settings = program, way, settings

    def __enter__(self):
        self.stack = ExitStack()
        self.folder = Path(self.stack.enter_context(tempfile.TemporaryDirectory()))
        self.path = self.folder / "bank.db"
        for end, data in new_desk(self.program).items():
            Path(f"{self.path}{end}").write_bytes(data)
        self.patience = self.settings.pop("patience", None)
        self.desk = self.serve()
        self.spoils = self.stack.enter_context(CuttingProxy(self.desk.port))
        self.relay, self.tls = None, None
        self.url = f"http://{HOST}:{self.spoils.port}"
        if self.way == "through nginx with TLS":
            self.folder.chmod(0o711)  # nginx's workers are another user
            proxy = self.stack.enter_context(
                Proxy(self.folder / "proxy", self.spoils.port, *SAME_KEYS, changes=[("keepalive_timeout         15s", "keepalive_timeout 1s"), *QUICK])
            )
            self.certificate, self.tls = proxy.certificate, proxy.context()
            self.relay = self.stack.enter_context(LosingRelay(proxy.port, self.spoils))
            self.url = f"https://localhost:{self.relay.port}"
        self.operator, self.mill = self.make_operator(), self.make_mill()
        return self

    def given(self, more):
        return Settings(**{"tls": self.tls, "timeout": 60, "total_seconds": 120, **self.settings, **more})

    def make_operator(self, **more):
        return Operator(self.url, OPERATOR_KEY, self.given(more))

    def make_mill(self, **more):
        return Company(self.url, "MILL01", MILL_KEY, self.given(more))

    def open(self):
        """Registers the company and sets the first day."""
        self.operator.set_holidays([day("01-20")])
        self.operator.add_company(**MILL)
        self.operator.set_day(day("01-08"))

    def restart(self, seconds=0.0):
        """Kills the desk, and starts it again on the same port."""
        self.desk.stop()
        time.sleep(seconds)
        self.desk = self.serve(self.desk.port)

    def serve(self, port=None):
        desk = Serving(self.program, self.path, 100_000, port=port, patience=self.patience)
        desk.wait_for_line(4 * SECONDS)  # opening takes long if the machine is busy
        return desk.listen()

    def __exit__(self, *_):
        self.operator.close()
        self.mill.close()
        self.desk.stop()
        self.stack.close()


def error_of(call):
    """The error that a call raises; None if it returns."""
    try:
        call()
    except achdesk.DeskError as error:
        return error
    return None


def named(error):
    """An error in short: its class, and of a refusal its name."""
    return (type(error).__name__, *([error.name] if isinstance(error, (Refused, InputFault)) else []))
