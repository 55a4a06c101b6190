"""The ACH operator's SFTP server, by OpenSSH's sftp."""

from __future__ import annotations

import os
import re
import resource
import subprocess
import tempfile
from dataclasses import dataclass
from pathlib import Path
from typing import IO

from achdesk_day.hooks import step
from achdesk_day.locks import HasFileno
from achdesk_day.settings import Settings
from achdesk_day.stops import Misused, Unavailable

MOST_PRINTED = 16 << 20  # bytes of a listing or of messages; a server without end is cut off there
# `ls -ln` as sftp itself writes it: mode, links, user, group, size, date and name.
LISTED = re.compile(r"(\S{10,11}) +\S+ +\S+ +\S+ +(\d+) +(\w{3} +\d+ +[\d:]+) (.*)")
PATH = re.compile(r"[A-Za-z0-9._/~-]+")
NAME = re.compile(r"[A-Za-z0-9._-]+")
# What a retry does not mend: a person has to look at once.
REFUSED_LOGIN = ("Host key verification failed", "IDENTIFICATION HAS CHANGED", "Permission denied (", "No such identity",
                 "Too many authentication failures", "bad permissions", "not known by any other names")


@dataclass(frozen=True)
class Listed:
    """A file in a folder of the server. `when` is the date as sftp shows it."""

    name: str
    size: int
    when: str


class Server:
    """A folder of an SFTP server. Each call is one connection in batch mode, which prints and stores a bounded number of
    bytes. The `section` of the configuration may leave to [sftp] what is the same there."""

    def __init__(self, settings: Settings, lock: HasFileno | None, state: Path, section: str = "sftp") -> None:
        told = settings["sftp"] | {key: value for key, value in settings[section].items() if value}
        self.folder, self.lock, self.state, self.pattern = told["folder"], lock, state, told["name"]
        if not PATH.fullmatch(self.folder):
            raise Misused(f"{settings.path}: [{section}] folder may have letters, digits and . _ / ~ -")
        if not NAME.fullmatch(self.name("2025-01-08-A")):
            raise Misused(f"{settings.path}: [sftp] name may have letters, digits and . _ -")
        if not told["port"].isdigit() or not told["timeout"].isdigit():
            raise Misused(f"{settings.path}: [{section}] port and timeout are numbers")
        self.timeout = int(told["timeout"])
        self.words = ["sftp", "-b", "-", "-P", told["port"], "-F", told["ssh_config"] or "none",
                      "-o", "ConnectTimeout=30", "-o", "ServerAliveInterval=15", "-o", "StrictHostKeyChecking=yes"]
        if told["identity"]:
            self.words += ["-i", told["identity"], "-o", "IdentitiesOnly=yes"]
        if told["known_hosts"]:
            self.words += ["-o", f"UserKnownHostsFile={told['known_hosts']}"]
        for key in ("user", "host"):
            if not told[key]:
                raise Misused(f"{settings.path}: [sftp] {key} is not set")
        self.words.append(f"{told['user']}@{told['host']}")

    def name(self, file: str) -> str:
        """Returns the name of a file there."""
        name = self.pattern
        for word, value in (("{day}", file[:10]), ("{date}", file[:10].replace("-", "")), ("{modifier}", file[11])):
            name = name.replace(word, value)
        return name

    def path(self, name: str) -> str:
        return f"{self.folder}/{name}"

    def run(self, *commands: str, most: int = MOST_PRINTED) -> str:
        """Runs commands until one fails, and returns what was printed. No file that sftp writes, and nothing that it
        prints, has more than `most` bytes. Raises `Unavailable` if a command failed."""
        def bounded() -> None:
            resource.setrlimit(resource.RLIMIT_FSIZE, (most, most))

        step()
        with tempfile.TemporaryFile(dir=self.state) as printed, tempfile.TemporaryFile(dir=self.state) as errors:
            try:
                done = subprocess.run(self.words, input="".join(f"{it}\n" for it in commands).encode(), stdout=printed,
                                      stderr=errors, timeout=self.timeout, preexec_fn=bounded,
                                      pass_fds=[self.lock.fileno()] if self.lock else [])
            except subprocess.TimeoutExpired:
                raise Unavailable(f"sftp took more than {self.timeout} seconds") from None
            except OSError as fault:
                raise Unavailable(f"sftp cannot be run: {fault}") from None
            said, told = text_of(printed), text_of(errors)
        step()
        if any(it in told for it in REFUSED_LOGIN):
            raise Misused(f"the SFTP server does not let achdesk-day in, or is another one: {told[-600:]}")
        if done.returncode:
            raise Unavailable(told[-600:] or f"sftp ended with {done.returncode}: the server sent more than {most:,} bytes")
        return said

    def listed(self, path: str | None = None) -> list[Listed]:
        """Lists the files in the folder, or the one file with a path."""
        try:
            printed = self.run(f"ls -lna {path or self.folder}")
        except Unavailable as stop:
            raise Unavailable(f"the SFTP server cannot be listed: {stop}") from None
        found = (LISTED.fullmatch(line.rstrip()) for line in printed.splitlines())
        return [Listed(it[4].rpartition("/")[2], int(it[2]), it[3]) for it in found if it and it[1].startswith("-")]

    def names(self) -> set[str]:
        """Lists the names in the folder."""
        return {it.name for it in self.listed()}

    def text(self, name: str, scratch: Path, most: int) -> bytes:
        """Returns the bytes of a file there. A file with more than `most` bytes is not read."""
        scratch.unlink(missing_ok=True)
        try:
            self.run(f'get {self.path(name)} "{scratch}"', most=max(most, 65_536))
            text = scratch.read_bytes()
        except Unavailable as stop:
            raise Unavailable(f"{name} cannot be read from the SFTP server: {stop}") from None
        finally:
            scratch.unlink(missing_ok=True)
        return text

    def put(self, source: Path, name: str) -> None:
        """Uploads a file under a temporary name, and raises `Unavailable` unless the server then has all of its bytes."""
        part, size = name + ".part", source.stat().st_size
        printed = self.run(f'put -f "{source}" {self.path(part)}', f"ls -ln {self.path(part)}")
        found = [int(it[2]) for line in printed.splitlines() if (it := LISTED.fullmatch(line.rstrip()))]
        if found != [size]:
            raise Unavailable(f"the SFTP server has {found[0] if found else 'an unknown number of'} bytes of {part}, "
                              f"and {size} were sent")

    def rename(self, name: str) -> None:
        """Gives an uploaded file its name. The server refuses if it has a file of that name."""
        self.run(f"rename -l {self.path(name + '.part')} {self.path(name)}")

    def settle(self, name: str, then: str, moved: str) -> None:
        """Removes a file that was fetched, or moves it into a folder of the server."""
        if then == "delete":
            self.run(f"rm {self.path(name)}")
        elif then == "move":
            self.run(f"rename -l {self.path(name)} {moved}/{name}")


def text_of(file: IO[bytes]) -> str:
    size = os.fstat(file.fileno()).st_size
    return os.pread(file.fileno(), size, 0).decode(errors="replace").strip()
