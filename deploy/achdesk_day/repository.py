"""The repositories of backups, which restic keeps: encrypted, and each piece of a file once. A path is a repository of this
machine. ssh:USER@HOST is one of a standby, which takes what is added and refuses to delete."""

from __future__ import annotations

import datetime
import json
import os
import shlex
import subprocess
from dataclasses import dataclass
from pathlib import Path

from achdesk_day.hooks import now, step
from achdesk_day.run import Run
from achdesk_day.secret import secret_path
from achdesk_day.stops import Misused, Refused, Unavailable
from achdesk_day.values import time_of

HOST = "achdesk"  # of all snapshots, so that those of a machine that took over are of the same desk
NEAR = datetime.timedelta(minutes=10)  # how far ahead another machine's clock may be
PARTS = 30  # an expiry reads one of these parts of the repository again


@dataclass(frozen=True)
class Snapshot:
    """A backup in a repository: its name there, when it began, and its tags."""

    name: str
    began: datetime.datetime
    tags: tuple[str, ...]


def places(run: Run) -> list[str]:
    """Lists the configured repositories."""
    return run.settings["repository"]["to"].split()


def is_here(place: str) -> bool:
    return not place.startswith("ssh:")


def shell_of(run: Run, place: str) -> str:
    """Returns the command that restic runs in place of rclone: the standby's own rclone, whatever words follow."""
    told, user_and_host = run.settings["repository"], place.removeprefix("ssh:")
    words = ["ssh", "-F", "none", "-p", str(run.settings.number("repository", "port")), "-o", "BatchMode=yes", "-o", "ConnectTimeout=30",
             "-o", "ServerAliveInterval=15", "-o", "StrictHostKeyChecking=yes"]
    words += ["-i", str(secret_path(told["identity"])), "-o", "IdentitiesOnly=yes"] if told["identity"] else []
    words += ["-o", f"UserKnownHostsFile={secret_path(told['known_hosts'])}"] if told["known_hosts"] else []
    return shlex.join([*words, user_and_host, "rclone"])


def words_of(run: Run, place: str, *words: str) -> list[str]:
    password = secret_path(run.settings.needed("repository", "password_file"))
    where = [f"--repo={place}"] if is_here(place) else ["--repo=rclone:repository", "-o", f"rclone.program={shell_of(run, place)}"]
    # A cache that root makes could not be read by the user of the backups.
    is_own = run.backups.stat().st_uid == os.geteuid()
    cache = f"--cache-dir={run.backups / 'cache'}" if is_own else "--no-cache"
    return ["restic", f"--password-file={password}", cache, *where, *words]


def restic(run: Run, place: str, *words: str, most_seconds: int | None = None) -> str:
    """Runs restic with a repository, and returns what it printed."""
    step()
    try:
        done = subprocess.run(words_of(run, place, *words), capture_output=True, text=True, errors="replace", timeout=most_seconds,
                              stdin=subprocess.DEVNULL, env={**os.environ, "TZ": "UTC"})
    except subprocess.TimeoutExpired:
        raise Unavailable(f"restic {words[0]} took more than {most_seconds} seconds with {place}") from None
    except OSError as fault:
        raise Unavailable(f"restic cannot be run: {fault}") from None
    step()
    if done.returncode:
        raise failure(place, words[0], done.stderr)
    return done.stdout


def failure(place: str, command: str, errors: str) -> Exception:
    """Returns what a failure of restic is raised as: a wrong password is for a person, and all else may be mended by the next run."""
    lines = [line for line in errors.strip().splitlines() if line.strip()] or ["it printed nothing"]
    text = f"restic {command} failed with {place}: {' '.join(lines)[-500:]}"
    if "wrong password" in errors:
        return Misused(text)
    if "Is there a repository at" in errors:
        return Misused(f"{text}. If it is new: achdesk-day backup --init. If its disk is not mounted: mount it")
    return Unavailable(text)


def begin_repositories(run: Run) -> None:
    """Makes each repository that is not there yet. No other command does, so that a disk that is not mounted is noticed."""
    for place in places(run):
        try:
            restic(run, place, "cat", "config")
            run.say(f"{place} is there")
        except Misused as stop:
            if "wrong password" in str(stop):
                raise
            restic(run, place, "init")
            run.say(f"made {place}")


def store(run: Run, folder: Path, began: str, tag: str) -> None:
    """Adds a backup to each repository, with the other files that a restore needs. A repository that fails does not keep the
    others from theirs."""
    also = [str(secret_path(name)) for name in run.settings["repository"]["also"].split()]
    faults: list[Exception] = []
    for place in places(run):
        try:
            restic(run, place, "backup", f"--host={HOST}", f"--tag={tag}", f"--time={time_of(began):%Y-%m-%d %H:%M:%S}", "--quiet", str(folder), *also)
            run.say(f"added to {place}")
        except (Misused, Unavailable) as fault:
            faults.append(fault)
    if faults:
        raise faults[0]


def snapshots(run: Run, place: str) -> list[Snapshot]:
    """Lists the backups of a repository, oldest first."""
    told = json.loads(restic(run, place, "snapshots", f"--host={HOST}", "--json") or "[]")
    return sorted((Snapshot(it["id"], time_of(it["time"][:19] + "Z"), tuple(it.get("tags") or ())) for it in told or []),
                  key=lambda it: it.began)


def expire_repositories(run: Run) -> None:
    """Removes what `[repository] keep` does not keep, from the repositories of this machine, and checks them. A backup from
    the future would take the place of true ones, so that it needs a person."""
    keep = shlex.split(run.settings["repository"]["keep"])
    for place in (it for it in places(run) if is_here(it)):
        later = [it for it in snapshots(run, place) if it.began > now() + NEAR]
        if later:
            raise Refused(f"{place} has {len(later)} backups from the future, the first of {later[0].began}: nothing is removed. See who made them")
        dry = ["--dry-run"] if run.dry else ["--prune"]
        run.say(restic(run, place, "forget", f"--host={HOST}", "--group-by=host", "--quiet", *dry, *keep).strip() or f"removed from {place} what the rule does not keep")
        part = now().timetuple().tm_yday % PARTS + 1
        restic(run, place, "check", f"--read-data-subset={part}/{PARTS}")
        run.say(f"{place} is whole, by its structure and by part {part} of {PARTS} of its data")


def taken_back(run: Run, word: str, target: Path) -> Path:
    """Restores a backup from the first repository that has it into a folder, and returns the folder with its files."""
    faults = []
    for place in places(run):
        try:
            restic(run, place, "restore", word, f"--host={HOST}", f"--target={target}")
        except (Misused, Unavailable) as fault:
            faults.append(str(fault))
            continue
        if found := sorted(target.rglob("backup.json")):
            return found[0].parent
        faults.append(f"{word} of {place} has no backup.json")
    raise Misused(f"no repository has the backup {word}: {'; '.join(faults) or 'none is configured'}")


def repository(run: Run) -> None:
    """Runs restic with the words of the command line, and its status is the command's."""
    told = places(run)
    if not told:
        raise Misused(f"{run.settings.path}: [repository] to is not set")
    if status := subprocess.run(words_of(run, told[0], *run.words.words)).returncode:
        raise Unavailable(f"restic ended with status {status}")
