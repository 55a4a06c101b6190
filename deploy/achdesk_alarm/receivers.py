"""The receivers of alarms: mail by SMTP, and Alertmanager by HTTP."""

from __future__ import annotations

import contextlib
import datetime
import email.message
import email.utils
import http.client
import json
import smtplib
import socket
import ssl
import sys
import urllib.parse
from collections.abc import Callable, Collection, Iterator
from dataclasses import asdict, replace
from pathlib import Path

from achdesk_alarm.faults import Misused, Undelivered, Unwanted, now, plain
from achdesk_alarm.settings import Settings, secret
from achdesk_alarm.waiting import Alarm, alone, remove, waiting, write_whole

SECONDS = 20  # how long a receiver is waited for
MOST_ALARMS = 50  # of a mail
Send = Callable[[Settings, list[Alarm]], None]


def receivers(settings: Settings) -> dict[str, Send]:
    """Returns the configured receivers by name."""
    found: dict[str, Send] = {"mail": send_mail} if settings["mail"]["to"] else {}
    return found | ({"alertmanager": post_alerts} if settings["alertmanager"]["url"] else {})


def deliver(settings: Settings, state: Path, second: Path) -> None:
    """Gives each receiver the alarms that it does not have, and removes those that all have. One process at a time does so, so
    that a test by hand is not delivered twice."""
    with alone(state / "waiting"):
        deliver_alone(settings, state, second)


def deliver_alone(settings: Settings, state: Path, second: Path) -> None:
    configured, alarms = receivers(settings), dict(waiting(state, second))
    faults = settled([path for path, it in alarms.items() if has_all(it, configured)], alarms, configured, state)
    for name, send in configured.items():
        lacking = [path for path, it in alarms.items() if name not in it.delivered]
        try:
            for part in given(send, settings, lacking, alarms):
                alarms |= {path: replace(alarms[path], delivered=(*alarms[path].delivered, name)) for path in part}
                faults += settled(part, alarms, configured, state)
        except (OSError, ValueError, smtplib.SMTPException, http.client.HTTPException, Undelivered, Misused) as fault:
            faults.append(f"{name}: {fault or type(fault).__name__}")
    left = len(list(waiting(state, second)))
    if left and not configured:
        raise Misused(f"{settings.path}: neither [mail] to nor [alertmanager] url is set, and {left} alarms wait")
    if faults:
        raise Undelivered(f"{left} alarms wait: {'; '.join(faults)}")


def given(send: Send, settings: Settings, lacking: list[Path], alarms: dict[Path, Alarm]) -> Iterator[list[Path]]:
    """Sends alarms to a receiver, and gives those that it has after each part. If it refuses a part for what it says, each alarm
    of it is sent alone, and one that is refused alone without its text, so that it keeps no other one back."""
    for at in range(0, len(lacking), MOST_ALARMS):
        part = lacking[at:at + MOST_ALARMS]
        try:
            send(settings, [alarms[path] for path in part])
            yield part
        except Unwanted:
            for path in part:
                send_alone(send, settings, alarms[path])
                yield [path]


def send_alone(send: Send, settings: Settings, alarm: Alarm) -> None:
    try:
        send(settings, [alarm])
    except Unwanted as fault:
        print(f"achdesk-alarm: the text of an alarm of {alarm.source} was refused: {fault}", file=sys.stderr)
        since = f"{alarm.at[:19]} UTC".replace("T", " ", 1)
        send(settings, [replace(alarm, text=f"The text of this alarm was refused. It is in the log: journalctl -g ALARM --since '{since}'")])


def has_all(alarm: Alarm, configured: Collection[str]) -> bool:
    """Whether each receiver has an alarm."""
    return bool(configured) and set(configured) <= set(alarm.delivered)


def settled(paths: list[Path], alarms: dict[Path, Alarm], configured: Collection[str], state: Path) -> list[str]:
    """Removes alarms that each receiver has, and keeps of others which ones have it. Returns the faults, as of a full disk, which
    keep an alarm from no other receiver."""
    faults = []
    for path in paths:
        try:
            if has_all(alarms[path], configured):
                remove(path, alarms[path], state)
            else:
                write_whole(path, asdict(alarms[path]))
        except OSError as fault:
            faults.append(str(fault))
    return faults


def send_mail(settings: Settings, alarms: list[Alarm]) -> None:
    """Sends one mail with these alarms."""
    told = settings["mail"]
    mail, first = email.message.EmailMessage(), alarms[0]
    headline = plain(first.text).splitlines()[0][:120] if first.text.strip() else ""
    count = f"{len(alarms)} alarms, the first: " if len(alarms) > 1 else ""
    mail["Subject"] = f"[{plain(settings.host())}] {count}{'OVER: ' if first.is_over else ''}{plain(first.source)}: {headline}".replace("\n", " ")
    mail["From"] = told["from"] or f"achdesk@{socket.getfqdn()}"
    mail["To"] = told["to"]
    mail["Date"] = email.utils.localtime()
    mail["Message-ID"] = f"<{first.number}.{len(alarms)}@achdesk>"
    mail["Auto-Submitted"] = "auto-generated"
    mail.set_content("\n\n".join(f"{it.at}  {'OVER: ' if it.is_over else ''}{it.source}\n{plain(it.text)}" for it in alarms) + "\n")
    context = ssl.create_default_context(cafile=told["ca_file"] or None)
    server: smtplib.SMTP
    if told["encryption"] == "tls":
        server = smtplib.SMTP_SSL(told["server"], int(told["port"]), timeout=SECONDS, context=context)
    else:
        server = smtplib.SMTP(told["server"], int(told["port"]), timeout=SECONDS)
    with server:
        if told["encryption"] == "starttls":
            server.starttls(context=context)
        if told["user"]:
            if told["encryption"] == "none":
                raise Misused(f"{settings.path}: [mail] sends no password without encryption")
            server.login(told["user"], secret(told["password"]))
        try:
            refused = server.send_message(mail)
        except smtplib.SMTPDataError as fault:
            answer = fault.smtp_error if isinstance(fault.smtp_error, str) else fault.smtp_error.decode(errors="replace")
            raise (Unwanted if fault.smtp_code >= 500 else Undelivered)(f"{fault.smtp_code} {plain(answer)}") from None
        if refused:
            raise Undelivered(f"refused for {', '.join(refused)}")


def post_alerts(settings: Settings, alarms: list[Alarm]) -> None:
    """Posts these alarms to Alertmanager. It takes an alert as over by its end, so that an alarm lasts for some hours. It refuses
    one whose end is before its beginning, as after a clock was set back."""
    told, present = settings["alertmanager"], now()
    ends = present + datetime.timedelta(hours=settings.number("alertmanager", "hours"))
    alerts: list[dict[str, object]] = []
    for it in alarms:
        labels = {"alertname": "achdesk", "instance": settings.host(), "source": it.source}
        labels |= {} if it.source.endswith(".service") else {"number": it.number[:12]}
        notes = {"summary": (plain(it.text).splitlines() or [""])[0][:200], "description": plain(it.text)}
        at = min(datetime.datetime.fromisoformat(it.at), present).isoformat()
        alerts.append({"labels": labels, "annotations": notes} | ({"endsAt": at} if it.is_over else {"startsAt": at, "endsAt": ends.isoformat()}))
    url = urllib.parse.urlsplit(told["url"].rstrip("/"))
    link: http.client.HTTPConnection
    if url.scheme == "https":
        context = ssl.create_default_context(cafile=told["ca_file"] or None)
        link = http.client.HTTPSConnection(url.hostname or "", url.port, timeout=SECONDS, context=context)
    else:
        link = http.client.HTTPConnection(url.hostname or "", url.port, timeout=SECONDS)
    with contextlib.closing(link):
        header = {"Content-Type": "application/json"}
        header |= {"Authorization": secret(told["authorization"])} if told["authorization"] else {}
        link.request("POST", f"{url.path}/api/v2/alerts", json.dumps(alerts).encode(), header)
        answer = link.getresponse()
        if answer.status != 200:
            kind = Unwanted if answer.status == 400 else Undelivered
            raise kind(f"Alertmanager answered {answer.status} {plain(answer.read(200).decode(errors='replace'))}")
