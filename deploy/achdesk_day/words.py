"""The commands, their options and their help."""

from __future__ import annotations

import argparse

PURPOSE = """Runs a bank's day on an ACH desk, by hand or by timers.

Every command can be repeated at any time, also after it was killed between any two of its steps. What a command
does is written to a journal, one line of JSON for each action, and synced before and after the action.
"""
STATUSES = """exit status:
  0  done, or there was nothing to do
  1  a person has to look: a refusal, a fault in a file, or an unclear state; it is also raised as an alarm
  2  usage, the configuration, a key or a login is wrong; raised as an alarm if no person runs the command
  3  the desk, the SFTP server, a disk or a lock is unavailable: run the same command again; raised as an alarm if it
     lasts as long as [alarm] unavailable
"""

COMMANDS = {
    "begin": ("record from which day on files are transmitted", """
Says that the files of DAY and of later days are transmitted by achdesk-day send, and that those of earlier days were
transmitted by other means. Needed once, and only for a desk that has sent entries before achdesk-day was used."""),
    "open": ("set the desk day to today", """
Sets the desk day to today's date in the bank's time zone. A later day is never set, since a desk day cannot be taken
back; if the desk already has a later day, the command raises an alarm. Reports a day that is not a banking day, with
status 0. Refuses while a file of an earlier day is not transmitted, also if the desk day is today already, and while
the archive has a file that the desk does not have. Before it sets a day it refuses a jump of more than 7 days and a
list of holidays that ends within 60 days, and waits until the clock is synchronised; the configuration has these
numbers."""),
    "holidays": ("set the list of holidays", """
Sets the holidays of the Federal Reserve of the years FROM to TO, or those of a FILE with one date YYYY-MM-DD in each
line, ascending. The list takes the place of the desk's; of its days before FROM those within 60 days stay. Refuses to drop a day within 60 days of today, and to replace
a list that the journal does not have. At most 400 days. A list that was set by other means is noticed by its length
alone: if open has refused today by the old one, run open again."""),
    "fetch": ("get incoming files from the ACH operator", """
Gets each file of [fetch] folder on the ACH operator's SFTP server into the inbox: under a temporary name, whole, and
once. A file with the bytes of one that was fetched before under its name is left out. The server's file is kept,
deleted or moved, as configured."""),
    "returns": ("take the incoming files of the inbox", """
Refuses unless the desk day is today: returns count on the desk day. Checks each file of the inbox, posts it, and
moves it to the archive incoming/DAY/ with its SHA-256 and the desk's answer next to it. A refused file goes to
quarantine/ with an alarm. Names that begin with a dot or end in .part, .tmp or .filepart are files that are still
being delivered. A file that was taken before has no effect."""),
    "cut": ("cut what is due into files", """
Shows what is due, and cuts it. With --dry-run it only shows it. If the answer is lost, the cut is looked up in the
status, now and when the command runs again; it is not sent again by itself, since a second cut also sends what came
in between. Refuses past the cut-off time, if the desk day is not today, and while the archive has a file that the
desk does not have: a desk restored from an older backup would pay twice. --remake makes the cuts of such a desk again,
and refuses if more or less is due than was due then. Back up after each cut, and before send."""),
    "send": ("transmit the files that are not transmitted", """
Fetches each file that is not in the archive, checks it against its control records, uploads it under a temporary
name, renames it on the server, and archives it as outgoing/DAY-MODIFIER.ach. The intent is on the standby, with the
journal, before the upload begins. If an upload was interrupted at the rename and neither name is on the server, it
raises an alarm and waits for ack or send --again; it does not guess. A file that the journal or the archive alone has
is never transmitted, and raises an alarm. --again FILE transmits one file again, as 2025-01-08-A, also an archived
one that the ACH operator rejected. Refuses while the archive has a file that the desk does not have, and after a
restore or a takeover until all files are confirmed. A file of which something is undecided keeps back itself alone.
--retry tries again every [sftp] retry seconds until the window of the ACH operator closes, and then raises an alarm."""),
    "approve": ("approve a cut or a transmission", """
Records that a person approves the next cut of the desk day, with no more than is due now, or the transmission of a
FILE with the bytes that the desk has now. If [approval] cut or send is yes, a cut or a transmission needs two
persons: two that approved it, or one and the person who runs the command. A person is the one who logged in, also
after sudo."""),
    "confirm": ("record what the ACH operator has", """
After a restore or a takeover cut and send refuse until a person has asked the ACH operator which files of the last
days it has. Without arguments it lists these files. FILE with --transmitted or --not-transmitted records the answer
for one of them, and --no-other, at the end, that the ACH operator has no other file. A file that it does not have is
transmitted by the next send, if the desk has it. If send --again was interrupted, the list says when the file was
transmitted before: it is transmitted if the ACH operator has either copy."""),
    "mark": ("record what became of a file outside this program", """
Records that FILE, as 2025-01-08-A, was transmitted by other means (--transmitted), that another file was transmitted
in its place, such as a copy without a wrong payroll (--transmitted-as COPY), or that the bank does not transmit it
(--withheld). From then on send leaves the file out. The desk's file is archived byte for byte, and COPY, whose
control records are checked, in by_hand/; ack compares the acknowledgement with COPY. A file that was transmitted
cannot be withheld. Nothing is sent to the desk: correct its books by achdesk-day correct."""),
    "correct": ("write returns of entries that were not transmitted", """
The desk counts each entry of a file as sent. This writes a file of returns with code R06 (returned at the request of
the originating bank) into the inbox, which achdesk-day returns then posts: the company sees the entries as returned,
and its account is balanced. The entries are those of a withheld FILE; those that the copy of mark --transmitted-as
lacks; or those of --batch, --trace or --all, which the ACH operator rejected. The same entries make the same file,
which has no effect twice."""),
    "ack": ("compare an acknowledgement with what was transmitted", """
Reads a CSV file whose first row is file,batches,entries,debits,credits. Each other row has a file, as 2025-01-08-A,
and what its control record has: the number of batches, of entry and addenda records, and debits and credits in cents.
Reports files with other totals, files that were not transmitted, and files that are not acknowledged yet up to the
newest day of the list. A file whose upload was unclear and that is acknowledged counts as transmitted. If a part of a
file was corrected by achdesk-day correct, the totals without that part are right too; if all of it was, the file
needs no acknowledgement. A file that is transmitted again needs another one."""),
    "report": ("write the end of day, as text and CSV", """
Prints the end of the desk day, or of DAY, and writes it to reports/DAY.txt and reports/DAY.csv: cuts, files with
their totals, sent submissions, returns and changes by code, incoming files that the archive lacks, each late return,
new and open items in suspense, the companies whose return rate on the desk day is over Nacha's level, the settlement by
value day, and the balance of each account at the end of the day. It reads a copy of the desk's file. If that is on
another machine, submissions, late returns and most balances are left out, and returns are those of the archive. The
balances of all accounts sum to zero; the command refuses if they do not. The columns of the CSV are section, day, name,
count, counted, debits, credits, net, note, with money in cents."""),
    "companies": ("list companies with limits, exposures and return rates", """
Prints each company's limits, its exposures and its return rates on the desk day: the debits that settled in the 60
days, how many of them were returned by kind, and which rates are over Nacha's level."""),
    "held": ("list submissions that are not sent yet", """
Prints each submission and retry that no cut has sent, by its requested day, from a copy of the desk's file."""),
    "find": ("find entries by account, amount, name, trace or reference", """
Prints the entries that fit all given options, with their states, traces and returns, from a copy of the desk's file.
Account numbers are masked but for the last four digits."""),
    "suspense": ("list or close items in suspense", """
Prints the items in suspense that are open, with their directions. --close N --note TEXT records in the journal what the
bank did about one; the desk keeps the item."""),
    "late": ("list or close late returns", """
Prints the late returns of which the bank can still decide, within five banking days, from a copy of the desk's file.
Each is an alarm until then, or until --close N --note TEXT records in the journal what the bank decided."""),
    "watch": ("raise alarms for what is late", """
Raises an alarm if something is due and no cut ran by the cut-off time, be it one that found nothing due; for files that are
not transmitted after the window, that are not acknowledged in time, or of which the journal says something else than the archive; if no
incoming file has come by the configured time, or one waits in the inbox; and if a cut would make a quarter of the day's
files. The settings are [bank] cut_off, [sftp] window and [alarm]. A timer runs it."""),
    "metrics": ("print metrics as Prometheus text", """
Prints the desk's status, the exposures, limits and return rates of each company, the number of files that are not
transmitted, the sizes of the desk's files and the age of the last backup. achdesk_up is 0 if the desk does not
answer. A monitoring key is enough: see --key-file. --output writes the file of [metrics], or FILE, whole or not at
all, for the node exporter's textfile collector."""),
    "backup": ("back up the desk", """
Copies the desk's file and its log into a new folder, while the desk runs or is stopped; opens a copy of it by achdesk
stdio; gives it its final name, the time at which it began; adds it to the repositories of [repository], by restic; and
removes older folders, but the newest of [backup]. Every backup has everything that was answered before it began. It runs
as a user who can read the desk's file. --init makes the repositories. --expire-only removes from the repositories of this
machine what [repository] keep does not keep, and checks them."""),
    "backed-up": ("look whether a backup has the last cut", """
Ends with status 0 if a backup that began after the last cut is in every repository, and with 3 otherwise."""),
    "repository": ("run restic with a repository", """
Runs restic with WORDS, as snapshots, on the first repository of [repository], with its password."""),
    "copy": ("copy the archive and the journals to the standby", """
Copies what is new by rsync over SSH to the standby: state/ and proxy-logs/ below [standby] to. Backups are added to the
standby's repository as they are made. At a takeover what was answered since the newest backup began is lost: up to the
time between two backups and that of one backup."""),
    "restore": ("put a backup in the place of the desk's files", """
Compares a backup with its checksums, opens a copy of it, and puts it in the place of the desk's files. Afterwards cut
and send refuse until a person has run achdesk-day confirm. The files that were there are kept in
FILE-before-restore-TIME, next to the desk's file. Refuses while a desk is running. Lists what may have been answered
since the backup, from the journal and the proxy's log, and what to do before companies submit anything new: for one
day after the other, and up to each cut, open --day, returns with the same files, the companies' submissions, and cut
--remake. A path with a slash names a folder with any copy of both files: of a stopped desk, of a failed disk, or a
snapshot of both at one moment, with the times of the files."""),
}


def common_words(is_first: bool) -> argparse.ArgumentParser:
    """The options of all commands. They may be before or after the command, and have their defaults before it."""
    common = argparse.ArgumentParser(add_help=False, argument_default=None if is_first else argparse.SUPPRESS)
    common.add_argument("--config", metavar="FILE", default="/etc/achdesk/day.conf" if is_first else argparse.SUPPRESS,
                        help="the configuration [/etc/achdesk/day.conf]")
    common.add_argument("--key-file", metavar="FILE", help="the key [the configured one]")
    common.add_argument("--dry-run", action="store_true", default=False if is_first else argparse.SUPPRESS,
                        help="print what would be done, and no more")
    common.add_argument("--wait", metavar="SECONDS", type=int, default=0 if is_first else argparse.SUPPRESS,
                        help="how much longer to wait for the desk, as after a start that takes long [0]")
    return common


Parsers = dict[str, argparse.ArgumentParser]


def parser_of_words() -> argparse.ArgumentParser:
    form = argparse.RawDescriptionHelpFormatter
    parser = argparse.ArgumentParser("achdesk-day", description=PURPOSE, parents=[common_words(is_first=True)],
                                     formatter_class=form, epilog=STATUSES)
    common = common_words(is_first=False)
    commands = parser.add_subparsers(dest="command", required=True, title="commands")
    of = {name: commands.add_parser(name, help=line, description=text.strip(), parents=[common], formatter_class=form,
                                    epilog=STATUSES)
          for name, (line, text) in COMMANDS.items()}
    add_words_of_the_day(of)
    add_words_of_files(of)
    add_words_of_questions(of)
    add_words_of_backups(of)
    return parser


def add_words_of_the_day(of: Parsers) -> None:
    of["begin"].add_argument("day", metavar="DAY", help="the first day whose files are transmitted, YYYY-MM-DD")
    of["open"].add_argument("--day", metavar="DAY", help="an earlier day in place of today, as after a restore")
    of["open"].add_argument("--jump", action="store_true", help="open the day though it is many days after the desk day")
    of["open"].add_argument("--short-holidays", action="store_true", help="open the day though the list of holidays ends soon")
    of["open"].add_argument("--leave-unsent", action="store_true", help="open the day though files are not transmitted")
    of["holidays"].add_argument("list", nargs="+", metavar="FROM TO | FILE",
                                help="two years, or a file of dates, - for standard input")
    of["holidays"].add_argument("--drop-near", action="store_true", help="also drop days within 60 days of today")
    of["holidays"].add_argument("--replace-unknown", action="store_true", help="replace a list that is not known here")
    of["cut"].add_argument("--late", action="store_true", help="cut past the cut-off time")
    of["cut"].add_argument("--other-day", action="store_true", help="cut though the desk day is not today")
    of["cut"].add_argument("--again", action="store_true", help="cut though an earlier cut had no answer, or other sums")
    of["cut"].add_argument("--remake", action="store_true", help="after a restore, make the cuts again that were made")
    of["send"].add_argument("--again", metavar="FILE", help="transmit this file again, as 2025-01-08-A")
    of["send"].add_argument("--though-acknowledged", action="store_true", help="also one that was acknowledged")
    of["send"].add_argument("--retry", action="store_true", help="try again until the window of the ACH operator closes")
    of["returns"].add_argument("--other-day", action="store_true", help="take files though the desk day is not today")
    of["approve"].add_argument("what", metavar="cut | FILE", help="the next cut, or a file, as 2025-01-08-A")
    of["confirm"].add_argument("file", nargs="?", metavar="FILE", help="the file, as 2025-01-08-A")
    answer = of["confirm"].add_mutually_exclusive_group()
    answer.add_argument("--transmitted", action="store_true", help="the ACH operator has the file")
    answer.add_argument("--not-transmitted", action="store_true", help="the ACH operator does not have it")
    answer.add_argument("--no-other", action="store_true", help="it has no file but those that are confirmed")
    of["confirm"].add_argument("--by", metavar="NAME", help="who said so for the ACH operator")


def add_words_of_files(of: Parsers) -> None:
    of["mark"].add_argument("file", metavar="FILE", help="the file, as 2025-01-08-A")
    how = of["mark"].add_mutually_exclusive_group(required=True)
    how.add_argument("--transmitted", action="store_true", help="these bytes were transmitted by other means")
    how.add_argument("--transmitted-as", metavar="COPY",
                     help="this other file was transmitted in its place, - for standard input")
    how.add_argument("--withheld", action="store_true", help="the bank does not transmit it")
    of["correct"].add_argument("file", metavar="FILE", help="the file, as 2025-01-08-A")
    of["correct"].add_argument("--batch", metavar="N", type=int, action="append", default=[], help="a batch, by its number")
    of["correct"].add_argument("--trace", metavar="TRACE", action="append", default=[], help="an entry, by its trace")
    of["correct"].add_argument("--all", action="store_true", help="all entries, of a file that was rejected")
    for name in ("mark", "correct"):
        of[name].add_argument("--why", metavar="TEXT", help="the reason, for the journal")
    of["ack"].add_argument("file", metavar="FILE", help="the acknowledgement, a CSV file, - for standard input")
    of["report"].add_argument("day", nargs="?", metavar="DAY", help="the day, YYYY-MM-DD [the desk day]")
    of["metrics"].add_argument("--output", metavar="FILE", nargs="?", const="",
                               help="write this file, in place of standard output [the configured one]")


def add_words_of_questions(of: Parsers) -> None:
    find = of["find"]
    find.add_argument("--account", metavar="NUMBER", help="the account number, or its last digits, - for standard input")
    find.add_argument("--amount", metavar="DOLLARS", help="the amount, as 1500.00")
    find.add_argument("--name", metavar="TEXT", help="a part of the receiver's name")
    find.add_argument("--trace", metavar="TRACE", help="the trace number")
    find.add_argument("--ref", metavar="REF", help="the reference of the submission")
    find.add_argument("--company", metavar="ID", help="the company")
    find.add_argument("--accounts", action="store_true", help="print whole account numbers")
    for name in ("suspense", "late"):
        of[name].add_argument("--all", action="store_true", help="also items that are not open, with their notes")
        one = of[name].add_mutually_exclusive_group()
        one.add_argument("--close", metavar="N", type=int, help="close the item with this number")
        one.add_argument("--reopen", metavar="N", type=int, help="open it again")
        of[name].add_argument("--note", metavar="TEXT", help="what the bank did, for the journal")
    for name in ("companies", "held", "find", "suspense", "late"):
        form = of[name].add_mutually_exclusive_group()
        form.add_argument("--csv", action="store_true", help="print CSV, with money in cents")
        form.add_argument("--json", action="store_true", help="print JSON, with money in cents")


def add_words_of_backups(of: Parsers) -> None:
    of["backup"].add_argument("--expire-only", action="store_true", help="only remove old backups, as on a standby")
    of["backup"].add_argument("--init", action="store_true", help="make the repositories that are not there yet")
    of["backup"].add_argument("--tag", metavar="TAG", default="hand", help="the tag of the backup in the repositories [hand]")
    of["repository"].add_argument("words", metavar="WORDS", nargs=argparse.REMAINDER, help="the words of restic, as snapshots")
    of["restore"].add_argument("backup", metavar="BACKUP",
                               help="the name of a backup, newest, repository:ID, repository:latest, or the path of a folder")
    of["restore"].add_argument("--to", metavar="FILE", help="the desk's file [the configured one]")
