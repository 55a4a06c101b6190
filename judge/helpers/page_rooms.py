"""What the folder of a page holds before its first command is run: desks, keys, files that arrived."""

import datetime
import json
import shutil

from helpers.page_users import NUMBERS, PERSON, settle
from helpers.returned import file_of_returns
from helpers.running import MILL_KEY, OPERATOR_KEY, TOP, make_desk, message, run

EXAMPLES = TOP / "examples"
COMPANY = (EXAMPLES / "company.json").read_text()
RENT = ('{"ref":"PAY-3","sec":"PPD","direction":"credit","description":"PAYROLL","day":"2025-01-16","entries":[{"routing":'
        '"091000019","account":"123456789","kind":"checking","cents":98000,"id":"E1","name":"ANN LEE"}]}')
WRONG = RENT.replace("PAY-3", "PAY-4").replace("98000", "25000")
# The file of a cut of RENT and WRONG without WRONG, as another tool would write it.
CORRECTED = ("101 061000146 121042882250114    A094101ACH OPERATOR           OUR BANK                       ",
             "5220MILL STREET                         MILL01    PPDPAYROLL         250116   1121042880000001",
             "622091000019123456789        0000098000E1             ANN LEE                 0121042880000003",
             "82200000010009100001000000000000000000098000MILL01                             121042880000001",
             "9000001000001000000010009100001000000000000000000098000                                       ", *["9" * 94] * 5)

# The steps of each page's rooms, in order.
PREPARED = {
    "docs/operate/install.md": ("folders", "day command"),
    "docs/operate/day.md": ("desk", "company", "two cuts", "held", "inbox", "serve", "keys", "day program"),
    "docs/operate/companies.md": ("desk", "company", "two cuts", "returned", "serve", "keys", "folders", "day command"),
    "docs/operate/keys.md": ("folders",),
    "docs/operate/backup.md": ("desk", "company", "two cuts", "held", "serve", "keys", "day program"),
    "docs/operate/monitoring.md": ("desk", "company", "two cuts", "held", "serve", "keys", "day program"),
    "docs/operate/capacity.md": ("desk", "serve", "keys"),
    "docs/operate/upgrades.md": ("desk", "company", "two cuts", "serve"),
    "docs/operate/troubleshooting.md": ("desk", "company", "two cuts", "held", "wrong", "today", "serve", "keys", "day program", "day backup",
                                         "corrected"),
    "docs/operate/returns-files.md": (),
    "docs/integrate/quickstart.md": ("desk", "company", "day", "serve", "keys"),
    "docs/audit/views.md": ("desk", "company", "two cuts", "returned", "copied"),
}


def this_day():
    """The day of this machine, or the next one that is a banking day without holidays."""
    day = datetime.date.today()
    return day + datetime.timedelta(max(0, 7 - day.weekday()) if day.weekday() > 4 else 0)


def set_day(day):
    return message("POST /ops/day", json.dumps({"day": day}))


def submitted(body):
    return message("POST /c/MILL01/submissions", body, MILL_KEY)


CUT = message("POST /ops/cut", "")
STEPS = {
    "company": [message("POST /ops/holidays", "2025-01-20\n"), message("POST /ops/companies", COMPANY)],
    "day": [set_day("2025-01-08")],
    "this day": [set_day(str(this_day()))],
    # PAY-1 has the first trace and PAY-2 the second.
    "two cuts": [set_day("2025-01-08"), submitted((EXAMPLES / "pay-1.json").read_text()), CUT,
                 submitted((EXAMPLES / "pay-2.json").read_text()), set_day("2025-01-09"), CUT],
    "held": [submitted(RENT)],
    "wrong": [submitted(WRONG)],
    "today": [set_day("2025-01-14")],
    "returned": [set_day("2025-01-14"), message("POST /ops/returns", (EXAMPLES / "return-1.ach").read_bytes())],
}


def prepare(room, steps):
    for step in steps:
        if step in STEPS:
            ask(room, STEPS[step])
        else:
            OTHERS[step](room)
        settle(room.folder)


def ask(room, messages):
    said, status = run(room.program, "stdio", room.database, given=b"".join(messages))
    if status != 0 or any(f"HTTP/1.1 {it}".encode() in said for it in (400, 403, 404, 409, 422, 503)):
        raise RuntimeError(f"a page's desk is not prepared: {said}")


def make_inbox(room):
    """A file with a return, which is to be delivered, and two in the inbox: one with a return of a stranger, and one that was
    spoiled."""
    inbox = room.folder / "var/lib/achdesk-day/inbox"
    inbox.mkdir(exist_ok=True)
    shutil.copy(EXAMPLES / "return-1.ach", room.folder / "r-0114a.ach")
    stranger = {"debit": True, "savings": False, "account": "5550017", "cents": 4900, "ident": "E9", "name": "CAL DOE",
                "code": "R03", "trace": "121042880000009", "dfi": "09100001"}
    (inbox / "r-0114b.ach").write_text(file_of_returns(7, "PPD", [stranger]))
    shutil.copy(EXAMPLES / "spoiled.ach", inbox / "r-0114c.ach")


DAY_PROGRAM = """#!/bin/sh
# A person runs it as its own user, which the pages leave out. The time is the page's, and the configuration names the room's
# folders.
[ "$(id -u)" != {person} ] || exec sudo -u achdesk-day achdesk-day "$@"
ACHDESK_DAY_NOW=${{ACHDESK_DAY_NOW-2025-01-14T08:30:00-05:00}}
export ACHDESK_DAY_NOW ACHDESK_DAY_PERSON=alice
command=$1
shift
exec python3 {top}/judge/helpers/day_for_judges.py "$command" --config {room}/etc/achdesk/day.conf "$@"
"""
SFTP = """#!/bin/sh
# OpenSSH's client and server, connected by a pipe in place of SSH, as root: they want a user that has a name.
exec sudo /usr/bin/sftp -b - -D "/usr/lib/openssh/sftp-server -d {room}/ach-operator"
"""
DAY_CONF = """[desk]
url = {address}
key_file = {room}/etc/day.key
[folders]
state = {room}/var/lib/achdesk-day
backups = {room}/var/lib/achdesk-backup
[repository]
to = {room}/var/lib/achdesk-backup/repository
password_file = {room}/etc/achdesk/keys/repository
also =
[bank]
holidays_ahead = 0
[clock]
command =
[standby]
to = none
[sftp]
host = sftp.ach-operator.example
user = ourbank
[files]
desk = {room}/var/lib/achdesk/bank.db
program = {room}/bin/achdesk
proxy_logs = {room}/var/log/achdesk/proxy.log*
"""


def put_day_command(room):
    """Installs `achdesk-day` in the folder."""
    names = {"top": room.tree, "room": room.folder, "address": room.address, "person": NUMBERS[PERSON]}
    (room.folder / "ach-operator").mkdir()
    (room.folder / "etc/achdesk/day.conf").write_text(DAY_CONF.format(**names))
    for name, text in (("achdesk-day", DAY_PROGRAM), ("sftp", SFTP)):
        (room.folder / "bin" / name).write_text(text.format(**names))
        (room.folder / "bin" / name).chmod(0o755)


def put_day_program(room):
    """Lets `achdesk-day` begin. The file of 2025-01-09 is transmitted, and the list of holidays is its own; the page's
    time is 2025-01-14."""
    put_day_command(room)
    (room.folder / "tmp/holidays.csv").write_text("2025-01-20\n")
    acknowledgement = room.folder / "tmp/ack.csv"
    acknowledgement.write_text("file,batches,entries,debits,credits\n2025-01-09-A,1,1,2500,0\n")
    for command in ("achdesk-day begin 2025-01-09", "achdesk-day holidays tmp/holidays.csv --replace-unknown", "achdesk-day send",
                    "achdesk-day ack tmp/ack.csv"):
        settle(room.folder)
        said, status = room.shell(f"ACHDESK_DAY_NOW=2025-01-09T15:00:00-05:00 {command}")
        if status != 0:
            raise RuntimeError(f"{command}: {said}")
    for taken in (room.folder / "ach-operator").iterdir():
        taken.unlink()


def put_keys(room):
    for name, key in (("operator", OPERATOR_KEY), ("mill", MILL_KEY)):
        path = room.folder / f"{name}.key"
        path.write_text(f"X-Desk-Key: {key}\n")
        path.chmod(0o600)
    (room.folder / ".achdesk-key").write_text(f"{MILL_KEY}\n")
    (room.folder / ".achdesk-key").chmod(0o600)
    (room.folder / "bin/achdesk-company").symlink_to(room.tree / "clients/achdesk-company")


def copy_desk(room):
    """Leaves the desk's two files in the folder itself."""
    for end in ("", "-wal"):
        shutil.copy(f"{room.database}{end}", room.folder / f"bank.db{end}")


def make_folders(room):
    for name in ("desk.map", "people.map", "companies.map"):
        (room.folder / "etc/achdesk/keys" / name).touch(mode=0o600)


def back_up(room):
    """Makes the repository, with a password of its user, and a backup."""
    said, status = room.shell("umask 077\nopenssl rand -base64 30 > /etc/achdesk/keys/repository\nsudo chown achdesk-backup:achdesk-backup /etc/achdesk/keys/repository\n"
                              "sudo -u achdesk-backup achdesk-day backup --init\nsudo -u achdesk-backup achdesk-day backup", "root")
    if status != 0:
        raise RuntimeError(f"achdesk-day backup: {said}")


OTHERS = {
    "day backup": back_up,
    "corrected": lambda room: (room.folder / "corrected.ach").write_text("".join(f"{it}\n" for it in CORRECTED)),
    "desk": lambda room: make_desk(room.program, room.database),
    "serve": lambda room: room.serve(room.database, room.port),
    "keys": put_keys,
    "inbox": make_inbox,
    "day program": put_day_program,
    "day command": put_day_command,
    "copied": copy_desk,
    "folders": make_folders,
}
