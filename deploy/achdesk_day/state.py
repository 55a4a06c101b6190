"""What is published of the day: what became of files, without accounts, names or amounts. The console shows it."""

from __future__ import annotations

import json
import os
from pathlib import Path

from achdesk_day.day import MEMORY, Day
from achdesk_day.durable import write_synced
from achdesk_day.hooks import now
from achdesk_day.incoming import safe_name
from achdesk_day.journal import Line
from achdesk_day.nacha import key_of_incoming, records_of
from achdesk_day.takeover import open_mark
from achdesk_day.values import stamp

PUBLIC = "public"  # the proxy reads this folder of the state
NAME = "state.json"


def publish(day: Day) -> None:
    """Writes the state of the day if it has changed. A command that was killed before it leaves that to the next one, as
    does `restore` if root runs it, whose files the other commands could not replace."""
    if day.state.stat().st_uid != os.geteuid():
        return
    folder = day.state / PUBLIC
    folder.mkdir(exist_ok=True)
    folder.chmod(0o755)  # whatever the umask
    path, told = folder / NAME, state_of(day)
    if published(path) != {**told, "at": None}:
        write_synced(path, json.dumps(told).encode() + b"\n", 0o644)


def published(path: Path) -> Line | None:
    """Returns what is published but for its time, or None if it cannot be read."""
    try:
        return {**json.loads(path.read_bytes()), "at": None}
    except (FileNotFoundError, ValueError):
        return None


def state_of(day: Day) -> Line:
    """Returns what is published. Files from `since` on that are not among `files` are not transmitted; without a `since`,
    this program has transmitted none."""
    begun = day.journal.last("begun")
    oldest = str(day.local_now().date() - MEMORY)
    return {"at": stamp(now()), "since": max(begun["from"], oldest) if begun else None, "files": files(day, oldest),
            "unconfirmed": open_mark(day) is not None, "quarantined": quarantined(day), "directions": directions(day)}


def files(day: Day, oldest: str) -> dict[str, Line]:
    """Returns for each file from a day on what became of it, if anything did: it is transmitted, withheld, or undecided,
    which means that a person has to look."""
    states, acknowledged, lost = day.states(), day.acknowledged(), day.journal.last("lost")
    undecided = {*day.open_uploads(), *day.open_marks(), *(name for name, _ in day.unclear()), *(lost["files"] if lost else ())}
    found = {}
    for name in sorted({*states, *day.sent_names()}):
        line = states.get(name, {})
        did = line.get("did")
        state = ("undecided" if name in undecided or did == "remade" else "withheld" if did == "withheld"
                 else "transmitted" if day.is_transmitted(name) else None)
        if state and name >= oldest:
            found[name] = {"state": state, "at": line.get("at"), "by_hand": "how" in line, "sha256": day.sent_digest(name),
                           "acknowledged": acknowledged.get(name)}
    return found


def quarantined(day: Day) -> list[Line]:
    """Lists the incoming files in quarantine, each with the refusal."""
    told = [json.loads(path.read_bytes()) for path in sorted(day.quarantine.glob("*.json"))]
    return [{"file": it["file"], "refused": it["refused"]} for it in told]


def directions(day: Day) -> dict[str, str]:
    """Returns for each incoming file with items in suspense the direction of every item, by the desk's key of the file: `d`
    for a debit and `c` for a credit. The desk's list of suspense does not have it."""
    found = {}
    for line in day.journal.lines:
        if line["did"] == "taken" and line["answer"]["suspense"]:
            path = day.incoming / line["answer"]["day"] / f"{line['sha256'][:16]}-{safe_name(line['file'])}"
            if path.exists():
                text = path.read_bytes()
                entries = [it for it in records_of(text) if it[0] == "6"]
                found[key_of_incoming(text)] = "".join("d" if it[2] in "56789" else "c" for it in entries)
    return found
