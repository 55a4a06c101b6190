"""The command fetch."""

from __future__ import annotations

import fnmatch

from achdesk_day.day import Day
from achdesk_day.durable import sha256, write_synced
from achdesk_day.incoming import LONGEST_NAME, MOST_BYTES, UNFINISHED
from achdesk_day.stops import Misused, Unavailable
from achdesk_day.transfer import NAME, PATH, Listed, Server

THEN = ("keep", "delete", "move")


def fetch(day: Day) -> None:
    """Gets the files of returns from the ACH operator's SFTP server into the inbox, each once."""
    told = day.settings["fetch"]
    day.settings.needed("fetch", "folder")
    if told["then"] not in THEN or told["then"] == "move" and not PATH.fullmatch(told["moved"]):
        raise Misused(f"{day.settings.path}: [fetch] then is keep, delete or move, which needs the folder moved")
    server, failed = day.server("fetch"), []
    wanted = [it for it in server.listed() if fnmatch.fnmatchcase(it.name, told["names"])
              and not it.name.startswith(".") and not it.name.endswith(UNFINISHED)]
    for file in wanted:
        try:
            fetch_file(day, server, file)
        except Unavailable as stop:
            failed.append(stop)
    if failed:
        raise failed[0]
    if not wanted:
        day.say("there is nothing to fetch")


def fetch_file(day: Day, server: Server, file: Listed) -> None:
    """Fetches a file unless it was fetched before, and then does with the server's what is configured."""
    if not NAME.fullmatch(file.name) or len(file.name) > LONGEST_NAME:
        day.alarm(f"a file of the SFTP server is not fetched: its name is not short and plain: {ascii(file.name[:200])}")
        return
    if file.size > MOST_BYTES:
        day.alarm(f"{file.name} of the SFTP server is not fetched: it has {file.size:,} bytes, and a desk takes {MOST_BYTES:,}")
        return
    if day.dry:
        day.say(f"would fetch {file.name}: {file.size:,} bytes")
        return
    then, known = day.settings["fetch"]["then"], {"name": file.name, "size": file.size, "when": file.when}
    if then != "keep" or not day.journal.last("fetched", **known):
        store(day, server, file)  # also before it is removed: it may be another file of the same size and minute
        server.settle(file.name, then, day.settings["fetch"]["moved"])


def store(day: Day, server: Server, file: Listed) -> None:
    """Stores the bytes of a file in the inbox under a temporary name, and gives it its name. Bytes that were fetched before
    under this name are left out."""
    text = server.text(file.name, day.state / ".fetched.part", file.size)
    now = server.listed(server.path(file.name))
    if len(text) != file.size or [it.size for it in now] != [file.size]:
        raise Unavailable(f"{file.name} is still being written on the SFTP server")
    digest = sha256(text)
    if not day.journal.last("fetched", name=file.name, sha256=digest):
        path = day.inbox / file.name
        if path.exists() and sha256(path.read_bytes()) != digest:
            path = path.with_name(f"{digest[:8]}-{file.name}")
        write_synced(path, text)
        day.say(f"fetched {file.name}: {file.size:,} bytes")
    day.record("fetched", name=file.name, size=file.size, when=file.when, sha256=digest)
