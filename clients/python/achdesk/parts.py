"""A list of more than 1,000 entries, as submissions with references of their own."""

from __future__ import annotations

import dataclasses
from typing import TYPE_CHECKING, List, Optional, Tuple

from .company_answers import Accepted, Found
from .entries import MOST_ENTRIES
from .errors import DeskError, InputFault, Refused
from .explain import MOST_DAYS, date_range, over_entry_limit, over_limit
from .sent import SentEntries

if TYPE_CHECKING:
    from .company import Company

LONGEST_REF = 20


class PartsFault(DeskError):
    """No part was submitted: what the desk has does not fit this list, or not all parts would fit.

    The text says why.
    """


def parts_of(sent: SentEntries) -> List[SentEntries]:
    """Returns the parts of a submission, with the references REF.1, REF.2 and so on.

    The references do not depend on the length of the list: the same list has the same parts, and a
    list that was changed has a part whose content differs, which the desk refuses as `RefReused`.
    Raises `InputFault` if a reference would be too long.
    """
    starts = range(0, max(1, len(sent.entries)), MOST_ENTRIES)
    parts = [
        dataclasses.replace(
            sent, ref=f"{sent.ref}.{number}", entries=sent.entries[start:start + MOST_ENTRIES],
            lines=sent.lines[start:start + MOST_ENTRIES])
        for number, start in enumerate(starts, 1)
    ]
    if len(parts[-1].ref) > LONGEST_REF:
        raise InputFault("bad ref", (
            f"bad ref: the last part would be {parts[-1].ref}, and a reference has at most "
            f"{LONGEST_REF} characters"))
    return parts


def submit_parts(company: Company, sent: SentEntries) -> Tuple[Accepted, ...]:
    """Submits the parts of a submission in their order."""
    parts = parts_of(sent)
    _check(company, sent, parts)
    taken: List[Accepted] = []
    for part in parts:
        try:
            taken.append(company.send(part))
        except DeskError as error:
            error.taken = tuple(taken)
            raise
    return tuple(taken)


def _check(company: Company, sent: SentEntries, parts: List[SentEntries]) -> None:
    """Refuses before the first part what would leave a list half paid, or pay it twice."""
    if _find(company, sent.ref) is not None:
        raise PartsFault(f"{sent.ref} was submitted as a whole before, so no part was submitted")
    next_ref = f"{sent.ref}.{len(parts) + 1}"
    if len(next_ref) <= LONGEST_REF and _find(company, next_ref) is not None:
        raise PartsFault(f"{next_ref} was submitted before, so an earlier list under {sent.ref} "
                         f"had more entries than this one. No part was submitted")
    left = [part for part in parts if _find(company, part.ref) is None]
    if left:
        why = _why_refused(company, left)
        if why:
            raise PartsFault(_with_parts(why, parts, left))


def _with_parts(why: str, parts: List[SentEntries], left: List[SentEntries]) -> str:
    if len(left) == len(parts):
        return f"no part was submitted. {why}"
    taken = ", ".join(it.ref for it in parts if it not in left)
    rest = "; ".join(
        f"{it.place(1)} to {it.place(len(it.entries))} are {it.ref}" for it in left)
    return (f"no further part was submitted. {why} Accepted before: {taken}. To submit the rest "
            f"for another day, make a list of each part and submit it without --split: {rest}")


def _find(company: Company, ref: str) -> Optional[Found]:
    try:
        return company.look_up(ref)
    except Refused as refused:
        if refused.name != "NoReference":
            raise
        return None


def _why_refused(company: Company, parts: List[SentEntries]) -> str:
    """Says why the desk would refuse one of these parts, as far as limits and days say it."""
    it = company.exposure()
    direction, day = parts[0].direction, parts[0].day
    if not 1 <= (day - it.day).days <= MOST_DAYS:
        return date_range(day, it.day)
    over = [line for part in parts for line in over_entry_limit(part, it.entry_limit)]
    if over:
        return "\n".join(over)
    of = (it.credit, it.credit_limit) if direction == "credit" else (it.debit, it.debit_limit)
    total = sum(part.total() for part in parts)
    return over_limit(direction, total, *of) if total + of[0] > of[1] else ""
