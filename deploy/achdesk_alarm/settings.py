"""The configuration file and the secrets."""

from __future__ import annotations

import configparser
import contextlib
import datetime
import os
import socket
import zoneinfo
from pathlib import Path

from achdesk_alarm.faults import Misused, now

KEYS = Path("/etc/achdesk/keys")
DEFAULTS = {
    "alarm": {"host": "", "patience": "30", "again": "60", "time_zone": "America/New_York"},
    "mail": {"to": "", "from": "", "server": "localhost", "port": "25", "encryption": "starttls", "ca_file": "", "user": "",
             "password": "alarm-mail"},
    "alertmanager": {"url": "", "ca_file": "", "authorization": "", "hours": "24"},
}


class Settings:
    """The configuration file. An unknown section or setting is an error; [patience] has the names of units."""

    def __init__(self, path: str | Path):
        self.path = path
        parser = configparser.ConfigParser(interpolation=None, delimiters=("=",))
        parser.optionxform = str  # type: ignore[assignment]
        try:
            with open(path, encoding="utf-8") as file:
                parser.read_file(file)
        except (OSError, UnicodeError, configparser.Error) as fault:
            raise Misused(f"the configuration cannot be read: {fault}") from None
        self.units = dict(parser["patience"]) if "patience" in parser else {}
        for section in (it for it in parser.sections() if it != "patience"):
            for key in parser[section]:
                if key not in DEFAULTS.get(section, {}):
                    raise Misused(f"{path}: [{section}] {key} is not a setting")
        self.sections = {name: known | (dict(parser[name]) if name in parser else {}) for name, known in DEFAULTS.items()}
        self.check()

    def __getitem__(self, section: str) -> dict[str, str]:
        return self.sections[section]

    def check(self) -> None:
        for section, key in (("alarm", "patience"), ("alarm", "again"), ("mail", "port"), ("alertmanager", "hours")):
            self.number(section, key)
        for unit in self.units:
            self.due(unit, now())
        if self["mail"]["encryption"] not in ("starttls", "tls", "none"):
            raise Misused(f"{self.path}: [mail] encryption is not starttls, tls or none")
        if self["alertmanager"]["url"] and not self["alertmanager"]["url"].startswith(("http://", "https://")):
            raise Misused(f"{self.path}: [alertmanager] url is not http:// or https://")

    def number(self, section: str, key: str) -> int:
        if not self[section][key].isdigit():
            raise Misused(f"{self.path}: [{section}] {key} is not a number: {self[section][key]}")
        return int(self[section][key])

    def due(self, unit: str, first: datetime.datetime) -> datetime.datetime:
        """Returns the time from which a unit that first ended with status 3 at some time is an alarm: so many minutes later,
        or the next time of day HH:MM."""
        told = self.units.get(unit, self["alarm"]["patience"])
        if told.isdigit():
            return first + datetime.timedelta(minutes=int(told))
        try:
            local = first.astimezone(zoneinfo.ZoneInfo(self["alarm"]["time_zone"]))
            moment = datetime.datetime.combine(local.date(), datetime.time.fromisoformat(told), local.tzinfo)
        except (ValueError, zoneinfo.ZoneInfoNotFoundError):
            raise Misused(f"{self.path}: [patience] {unit} is neither minutes nor a time HH:MM of [alarm] time_zone: {told}") from None
        return moment if moment >= local else moment + datetime.timedelta(1)

    def host(self) -> str:
        return self["alarm"]["host"] or socket.gethostname()


def secret(name: str) -> str:
    """Returns the text of a secret: the unit's credential of this name, or a file of /etc/achdesk/keys."""
    loaded = os.environ.get("CREDENTIALS_DIRECTORY")
    for path in ([Path(loaded, name)] if loaded else []) + [KEYS / name]:
        with contextlib.suppress(FileNotFoundError):
            text = path.read_text(encoding="utf-8").strip()
            if text not in ("", "none"):  # `none` is what a unit's credential has if there is no file
                return text
    raise Misused(f"there is no secret {name}: neither a credential of the unit nor a file {KEYS / name}")
