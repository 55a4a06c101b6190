"""The configuration file and the key."""

from __future__ import annotations

import configparser
import datetime
import os
import re
import zoneinfo
from pathlib import Path

from achdesk_day.secret import secret_path
from achdesk_day.stops import Misused

DEFAULTS = {
    "desk": {"url": "", "key_file": "", "ca_file": "", "timeout": "70"},
    "bank": {"time_zone": "America/New_York", "cut_off": "", "most_days": "7", "holidays_ahead": "60"},
    "folders": {"state": "/var/lib/achdesk-day", "inbox": "", "backups": ""},
    "sftp": {"host": "", "port": "22", "user": "", "folder": ".", "name": "{day}-{modifier}.ach", "identity": "",
             "known_hosts": "", "ssh_config": "", "timeout": "600", "window": "", "retry": "300"},
    "files": {"desk": "/var/lib/achdesk/bank.db", "program": "/usr/bin/achdesk",
              "proxy_logs": "/var/log/achdesk/proxy.log*"},
    "backup": {"newest": "3"},
    "repository": {"to": "", "password_file": "repository", "identity": "backup", "known_hosts": "standby_known_hosts", "port": "22",
                   "also": "desk.map",
                   "keep": "--keep-within 35d --keep-monthly 24 --keep-tag cut"},
    "standby": {"to": "", "identity": "standby", "known_hosts": "standby_known_hosts", "port": "22"},
    "metrics": {"file": "/var/lib/prometheus/node-exporter/achdesk.prom"},
    "alarm": {"command": "", "repeat": "60", "unavailable": "30", "acknowledged": "", "received": "", "waiting": "60"},
    "locks": {"wait": "600"},
    "clock": {"command": "/usr/bin/timedatectl show --property=NTPSynchronized --value", "wait": "600"},
    "confirm": {"days": "5"},
    "approval": {"cut": "no", "send": "no"},
    "fetch": {"folder": "", "names": "*", "then": "keep", "moved": "", "host": "", "port": "", "user": "", "identity": "",
              "known_hosts": "", "ssh_config": "", "timeout": ""},
}
# Settings that name a secret: by a path, or by a name without a slash.
SECRETS = (("desk", "key_file"), ("sftp", "identity"), ("sftp", "known_hosts"), ("standby", "identity"), ("standby", "known_hosts"),
           ("fetch", "identity"), ("fetch", "known_hosts"))


class Settings:
    """The configuration file, with each section as a dictionary. An unknown section or key is an error."""

    def __init__(self, path: str) -> None:
        self.path = path
        parser = configparser.ConfigParser(interpolation=None)
        try:
            with open(path, encoding="utf-8") as file:
                parser.read_file(file)
        except (OSError, UnicodeError, configparser.Error) as fault:
            raise Misused(f"the configuration cannot be read: {fault}") from None
        for section in parser.sections():
            for key in parser[section]:
                if key not in DEFAULTS.get(section, {}):
                    raise Misused(f"{path}: [{section}] {key} is not a setting")
        given = {name: dict(parser[name]) for name in parser.sections()}
        self.sections = {name: known | given.get(name, {}) for name, known in DEFAULTS.items()}
        state = Path(self["folders"]["state"])
        self["folders"]["inbox"] = self["folders"]["inbox"] or str(state / "inbox")
        self["folders"]["backups"] = self["folders"]["backups"] or "/var/lib/achdesk-backup"
        for section, key in SECRETS:
            if self[section][key]:
                self[section][key] = str(secret_path(self[section][key]))

    def __getitem__(self, section: str) -> dict[str, str]:
        return self.sections[section]

    def needed(self, section: str, key: str) -> str:
        if not self[section][key]:
            raise Misused(f"{self.path}: [{section}] {key} is not set")
        return self[section][key]

    def number(self, section: str, key: str) -> int:
        if not self[section][key].isdigit():
            raise Misused(f"{self.path}: [{section}] {key} is not a number: {self[section][key]}")
        return int(self[section][key])

    def zone(self) -> zoneinfo.ZoneInfo:
        try:
            return zoneinfo.ZoneInfo(self["bank"]["time_zone"])
        except (zoneinfo.ZoneInfoNotFoundError, ValueError):
            raise Misused(f"{self.path}: [bank] time_zone is unknown here: {self['bank']['time_zone']}") from None

    def time(self, section: str, key: str) -> datetime.time | None:
        """Returns a time of the day in the bank's time zone, or None if it is empty."""
        told = self[section][key]
        try:
            return datetime.time.fromisoformat(told) if told else None
        except ValueError:
            raise Misused(f"{self.path}: [{section}] {key} is not a time HH:MM: {told}") from None

    def is_on(self, section: str, key: str) -> bool:
        if self[section][key] not in ("yes", "no"):
            raise Misused(f"{self.path}: [{section}] {key} is neither yes nor no: {self[section][key]}")
        return self[section][key] == "yes"


def read_key(path: str) -> str:
    """Reads a key from a file that its owner alone can read. The line may be a header, as `curl -H @FILE` reads it."""
    try:
        with open(path, encoding="ascii") as file:
            mode, owner = os.fstat(file.fileno()).st_mode, os.fstat(file.fileno()).st_uid
            # systemd gives a unit its credentials as files of root that its user can read.
            if mode & 0o007 or mode & 0o070 and (owner != 0 or mode & 0o030):
                raise Misused(f"{path} has a key and can be read by others: chmod 600 {path}")
            key = file.read().strip().removeprefix("X-Desk-Key:").strip()
    except (OSError, UnicodeError) as fault:
        raise Misused(f"the key cannot be read: {fault}") from None
    if not re.fullmatch(r"[!-~]{8,64}", key):
        raise Misused(f"{path} does not have a key of 8 to 64 characters")
    return key
