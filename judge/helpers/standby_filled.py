"""A new desk, or one that already holds many sent entries, as an image of a disk that a machine reads."""

import json
import subprocess
import tempfile
from pathlib import Path
from typing import Any

from helpers.running import OPERATOR_KEY, Serving, found, make_desk
from helpers.standby_load import COMPANIES, FIRST_DAY, Load, must, next_day, once

OF_ONE = 5_000  # entries of a submission
PATIENCE = 600


def bodies(count: int) -> list[dict[str, Any]]:
    """Submissions that have so many entries together."""
    made = []
    for number, first in enumerate(range(0, count, OF_ONE), 1):
        entries = [{"routing": "091000019", "account": str(at), "kind": "checking", "cents": 1500, "id": f"F{at}", "name": "ANN LEE"}
                   for at in range(first + 1, min(first + OF_ONE, count) + 1)]
        made.append({"ref": f"FILLED-{number}", "sec": "PPD", "direction": "credit", "description": "PAYROLL", "day": str(next_day(FIRST_DAY)), "entries": entries})
    return made


def asked(port: int, method: str, target: str, body: Any, key: str, wanted: int) -> bytes:
    came = once(port, method, target, "" if body is None else json.dumps(body), key, PATIENCE)
    must(f"{method} {target}", came and (came[0] == wanted or came), True)
    return bytes(came[1])


def fill(port: int, load: Load, count: int) -> None:
    """Registers the companies, submits, and cuts. The load knows of all of it."""
    load_ports, load.ports = load.ports, [port]
    load.register()
    load.ports = load_ports
    company = sorted(COMPANIES)[0]
    for body in bodies(count):
        load.asked[company, body["ref"]] = body
        load.receipts[company, body["ref"]] = asked(port, "POST", f"/c/{company}/submissions", body, COMPANIES[company], 201)
    load.cut_entries += json.loads(asked(port, "POST", "/ops/cut", None, OPERATOR_KEY, 200))["entries"]


def filled(program: str, load: Load, count: int, image: Path) -> None:
    """Makes the image."""
    with tempfile.TemporaryDirectory(dir=image.parent) as folder:
        path = Path(folder) / "bank.db"
        make_desk(program, path)
        if count:
            with Serving(program, path, 1_000_000).listen() as desk:
                fill(desk.port, load, count)
        size = sum(it.stat().st_size for it in Path(folder).iterdir())
        with open(image, "wb") as file:
            file.truncate(size * 5 // 4 + (8 << 20))
        subprocess.run([str(found("mkfs.ext4")), "-q", "-F", "-d", folder, str(image)], check=True)
