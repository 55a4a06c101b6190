"""The command correct."""

from __future__ import annotations

import string
from collections.abc import Collection
from pathlib import Path

from achdesk_day.archive import copy_path, withheld_path
from achdesk_day.day import Day
from achdesk_day.durable import sha256, write_synced
from achdesk_day.journal import Line
from achdesk_day.nacha import batches_of, check_records, entries_of, records_of, summed
from achdesk_day.stops import Misused, Refused
from achdesk_day.values import file_name, money


def correct(day: Day) -> None:
    """Writes files of returns with code R06 for entries that are in a file of the desk and were not transmitted."""
    name = file_name(day.words.file)
    line = day.states().get(name, {})
    if line.get("did") not in ("sent", "withheld"):
        raise Refused(f"{name} is neither transmitted nor withheld: see achdesk-day mark --help")
    text = (withheld_path(day, line) if line["did"] == "withheld" else day.outgoing / f"{name}.ach").read_bytes()
    traces, digest = chosen_traces(day, name, line, text), sha256(text)
    is_again = day.journal.last("correcting", file=name, sha256=digest, traces=traces) is not None
    if not is_again and (twice := sorted({*traces} & day.corrected(name, text))):
        raise Refused(f"{name}: {len(twice)} of these entries were corrected before, the first with trace {twice[0]}. "
                      "Name the others by --trace")
    for number, (path, made) in enumerate(correction_files(day, name, text, traces)):
        if day.dry:
            day.say(f"would write {path}")
            continue
        if number == 0 and not is_again:
            day.record("correcting", file=name, sha256=digest, traces=traces, why=day.words.why or "")
        write_synced(path, made)
        totals = check_records(path.name, records_of(made))
        day.say(f"wrote {path}: {totals.entries // 2} entries, debits {money(totals.debits)}, "
                f"credits {money(totals.credits)}. Run achdesk-day returns")


def chosen_traces(day: Day, name: str, line: Line, text: bytes) -> list[str]:
    """Returns the traces of the entries to be corrected, in the order of the file."""
    entries = entries_of(text)
    of_batch = {int(batch[0][87:94]): [it[79:94] for it in batch if it[0] == "6"] for batch in batches_of(text)}
    unknown = [it for it in day.words.trace if it not in entries] + [str(it) for it in day.words.batch if it not in of_batch]
    if unknown:
        raise Misused(f"{name} has no trace or batch {' '.join(unknown)}")
    if day.words.all:
        wanted = {*entries}
    elif day.words.trace or day.words.batch:
        wanted = {*day.words.trace, *(trace for it in day.words.batch for trace in of_batch[it])}
    elif line["did"] == "withheld":
        wanted = {*entries}
    elif "copy" in line:
        copy = entries_of(copy_path(day, name, line).read_bytes())
        changed = [it for it in entries if it in copy and copy[it][1:39] != entries[it][1:39]]
        if changed:
            raise Refused(f"{name}: what was transmitted has entry {changed[0]} with another account or amount, which a "
                          "return cannot correct. Name the entries that were left out by --trace")
        wanted = {*entries} - {*copy}
    else:
        raise Misused(f"{name} was transmitted as it is: name the entries that were rejected by --batch, --trace or --all")
    if not wanted:
        raise Misused(f"{name}: every entry was transmitted")
    return [it for it in entries if it in wanted]


def correction_files(
    day: Day, name: str, text: bytes, traces: list[str], most: int = 20_000
) -> list[tuple[Path, bytes]]:
    """Makes the files of returns, each with at most so many entries. The same entries make the same bytes, with the same
    key in the header, so that the desk takes a file once."""
    files, entries = [], entries_of(text)
    for at in range(0, len(traces), most):
        part = {*traces[at:at + most]}
        mark = sha256("".join(entries[it] for it in sorted(part)).encode())
        key = int(mark, 16)
        four = "".join((string.digits + string.ascii_uppercase)[key // 36 ** power % 36] for power in range(4))
        files.append((day.inbox / f"R06-{name}-{mark[:8]}.ach", returns_file(text, part, four)))
    return files


def returns_file(text: bytes, traces: Collection[str], four: str) -> bytes:
    """A file of returns with code R06 for these entries of a file that a cut made. The header's time is `four`."""
    header = records_of(text)[0]
    bank = header[13:23]  # the immediate origin, which is a blank and the bank's routing number
    records = [f"101{bank}{bank}{header[23:29]}{four}{header[33]}094101{header[63:86]}{header[63:86]}{' ' * 8}"]
    number = 0
    for batch in batches_of(text):
        given_back = []
        for entry in (it for it in batch if it[0] == "6" and it[79:94] in traces):
            number += 1
            trace = f"{bank[1:9]}{number:07}"
            code = entry[1] + ("1" if entry[2] in "01234" else "6")
            given_back += [f"6{code}{bank[1:10]}{entry[12:78]}1{trace}",
                           f"799R06{entry[79:94]}{' ' * 6}{entry[3:11]}{' ' * 44}{trace}"]
        if given_back:
            count, hashed, debits, credits = summed(given_back)
            records += [batch[0], *given_back,
                        f"8{batch[0][1:4]}{count:06}{hashed:010}{debits:012}{credits:012}{batch[-1][44:94]}"]
    batches, (count, hashed, debits, credits) = sum(it[0] == "8" for it in records), summed(records[1:])
    records.append(f"9{batches:06}{-(-(len(records) + 1) // 10):06}{count:08}{hashed:010}{debits:012}{credits:012}{' ' * 39}")
    records += ["9" * 94] * (-len(records) % 10)
    return "".join(f"{it}\n" for it in records).encode("ascii")
