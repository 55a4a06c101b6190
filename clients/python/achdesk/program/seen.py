"""What `--new` remembers."""

from __future__ import annotations

import contextlib
import fcntl
import hashlib
import json
import os
from pathlib import Path
from typing import Any, Dict, Sequence

from .failure import LOCAL, RESTORED, Failure


class Seen:
    """How many items of a company's lists were printed, in a file for each address and company.

    A list only grows. If it is shorter than before, or begins with other items, then the desk
    was restored from a backup.
    """

    def __init__(self, folder: Path, url: str, company: str) -> None:
        folder.mkdir(mode=0o700, parents=True, exist_ok=True)
        self.url = url.rstrip("/")
        self.path = folder / f"{company}-{hashlib.sha256(self.url.encode()).hexdigest()[:16]}.json"
        self.lock = open(f"{self.path}.lock", "w")
        fcntl.flock(self.lock, fcntl.LOCK_EX)  # another run of the same command waits
        self.lists: Dict[str, Any] = {}
        with contextlib.suppress(FileNotFoundError):
            self.lists = self.read()

    def close(self) -> None:
        """Lets another run go on."""
        self.lock.close()

    def read(self) -> Dict[str, Any]:
        try:
            lists = json.loads(self.path.read_bytes())["lists"]
            if all(isinstance(it["count"], int) and it["digest"] for it in lists.values()):
                return dict(lists)
        except (ValueError, LookupError, TypeError, AttributeError):
            pass
        raise Failure(LOCAL, f"{self.path}: it is damaged; remove it, and all items are new again")

    def count(self, name: str, items: Sequence[Any]) -> int:
        """Returns how many of these items were printed before."""
        seen = self.lists.get(name, {"count": 0, "digest": digest([])})
        count: int = seen["count"]
        if count > len(items) or digest(items[:count]) != seen["digest"]:
            raise Failure(RESTORED, (
                f"the desk was restored from a backup: {count} {name} were seen before, and it has "
                f"{len(items)} now, of which some are others or are missing. Compare the list "
                f"without --new with what you have processed. Then run this command once with "
                f"--new --forget, which prints and remembers the whole list"))
        return count

    def remember(self, name: str, items: Sequence[Any]) -> None:
        """Writes the state next to the old one, and renames it into its place."""
        self.lists[name] = {"count": len(items), "digest": digest(items)}
        text = json.dumps({"url": self.url, "lists": self.lists}, indent=1) + "\n"
        new = Path(f"{self.path}.new")
        with open(new, "w") as file:
            file.write(text)
            file.flush()
            os.fsync(file.fileno())
        os.replace(new, self.path)
        folder = os.open(self.path.parent, os.O_RDONLY)
        os.fsync(folder)
        os.close(folder)


def digest(items: Sequence[Any]) -> str:
    # Members that a later version adds do not count, or its first run would report a restore.
    names = [[it.ref, it.index, it.code, it.day.isoformat()] for it in items]
    return hashlib.sha256(json.dumps(names).encode()).hexdigest()
