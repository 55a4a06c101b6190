"""What a refusal means, with the desk day and the limits that the company's own calls return."""

from __future__ import annotations

import datetime
from typing import TYPE_CHECKING, Callable, Dict, Iterator, Optional

from .codes import RETURN_CODES
from .company_answers import Found, FoundEntry
from .entries import MOST_ENTRIES, quoted
from .errors import DeskError, Refused
from .money import dollars
from .sent import SentEntries, SentRetry

if TYPE_CHECKING:
    from .company import Company

MOST_TOTAL = 999_999_999_999
MOST_DAYS = 60
MOST_DAYS_OF_A_RETRY = 180

SENTENCES = {
    "NoDay": "The bank has not set the desk's first day yet.",
    "BadField": "A field is missing or malformed.",
    "RefReused": "The reference was used before, with other content.",
    "TooManyEntries": "A submission has at most 1,000 entries: submit the list in parts (--split).",
    "TotalTooLarge": "The entries sum to more than $9,999,999,999.99.",
    "DateRange": "The day asked for is not 1 to 60 days after the desk day.",
    "EntryLimit": "An entry is over the company's limit for one entry.",
    "CreditLimit": "The total and the credit exposure are over the company's limit.",
    "DebitLimit": "The total and the debit exposure are over the company's limit.",
    "NoEntry": "There is no such debit entry of a submission.",
    "NotReturned": "The entry, or its newest retry, has not been returned.",
    "NotRetryable": "The entry was returned with a code that does not allow a retry.",
    "RetriesSpent": "The entry was retried twice already.",
    "RetryTooLate": "The day asked for is more than 180 days after the original settled.",
    "Denied": "The desk does not know this company with this key.",
    "NoReference": "The company has no submission or retry with this reference.",
    "TooLarge": "The request is larger than the desk or its proxy takes. A submission has at most "
                "1,000 entries: submit a longer list in parts (--split).",
    "Unavailable": "The desk is short of memory or storage.",
    "TooManyRequests": "The proxy limits how often the desk is called.",
}

HEADS = {
    "ref": "it takes 1 to 20 letters, digits, dots, underscores and hyphens",
    "sec": "it is PPD or CCD",
    "direction": "it is credit or debit",
    "description": "it takes 1 to 10 characters of ASCII without a blank at either end, but not "
                   "RETRY PYMT or REVERSAL",
}


def explanation(company: Company, refused: Refused) -> str:
    """Returns sentences on a refusal, or an empty text if nothing is known of it.

    What the desk has is read by the company's own calls. If they fail, the sentence is general.
    """
    try:
        return _of_what_was_sent(company, refused) or SENTENCES.get(refused.name, "")
    except DeskError:
        return SENTENCES.get(refused.name, "")


def _of_what_was_sent(company: Company, refused: Refused) -> str:
    sent = refused.sent
    if refused.name == "RefReused" and sent is not None:
        return _reference(company.look_up(sent.ref))
    if refused.name == "DateRange" and sent is not None:
        return date_range(sent.day, company.exposure().day)
    if isinstance(sent, SentEntries) and refused.name in OF_ENTRIES:
        return OF_ENTRIES[refused.name](company, refused, sent)
    if isinstance(sent, SentRetry) and refused.name in OF_RETRIES:
        return OF_RETRIES[refused.name](company, refused, sent)
    return ""


def _reference(found: Found) -> str:
    kind = f"a retry of {found.of} entry {found.of_index}" if found.of else (
        f"a {found.sec} {found.direction} with entries: {len(found.entries)}")
    return (f"{found.ref} is order {found.order}, {kind}, of {dollars(found.cents)} asked for "
            f"{found.day}. Other content takes another reference.")


def date_range(asked: datetime.date, day: datetime.date) -> str:
    """Returns which days may be asked for on this desk day."""
    first, last = (day + datetime.timedelta(it) for it in (1, MOST_DAYS))
    return (f"The day asked for, {asked}, is not 1 to {MOST_DAYS} days after the desk day, {day}: "
            f"ask for {first} to {last}.")


# ---- submissions


def _bad_field(company: Company, refused: Refused, sent: SentEntries) -> str:
    field, index = refused.field or "", refused.index or 0
    if index == 0:
        if field == "entries" and not sent.entries:
            return "The list has no entries."
        value = getattr(sent, field, None)
        return f"{field}: {quoted(value)} is refused; {HEADS[field]}." if field in HEADS else ""
    if index > len(sent.entries):
        return ""
    entry = sent.entries[index - 1]
    why = dict(entry.faults()).get(field, f"{quoted(getattr(entry, field, ''))} is refused")
    return f"{sent.place(index)}, column {field}: {why}."


def _too_many(company: Company, refused: Refused, sent: SentEntries) -> str:
    return (f"The list has {len(sent.entries):,} entries, and a submission at most "
            f"{MOST_ENTRIES:,}: submit it in parts (--split).")


def _total(company: Company, refused: Refused, sent: SentEntries) -> str:
    return f"The entries sum to {dollars(sent.total())}, and to {dollars(MOST_TOTAL)} at most."


def _entry_limit(company: Company, refused: Refused, sent: SentEntries) -> str:
    return "\n".join(over_entry_limit(sent, company.exposure().entry_limit))


def over_entry_limit(sent: SentEntries, limit: int) -> Iterator[str]:
    """Returns a sentence for each entry that is over the limit for one entry."""
    for index, entry in enumerate(sent.entries, 1):
        if entry.cents > limit:
            yield (f"{sent.place(index)}: {dollars(entry.cents)} is over the company's limit for "
                   f"one entry, {dollars(limit)}.")


def _limit(company: Company, refused: Refused, sent: SentEntries) -> str:
    it = company.exposure()
    of = (it.credit, it.credit_limit) if sent.direction == "credit" else (it.debit, it.debit_limit)
    return over_limit(sent.direction, sent.total(), *of)


def over_limit(direction: str, total: int, exposure: int, limit: int) -> str:
    """Returns by how much a total is over a limit."""
    return (f"The total, {dollars(total)}, is over what is left of the {direction} limit, "
            f"{dollars(max(0, limit - exposure))}: the exposure is {dollars(exposure)} of "
            f"{dollars(limit)}.")


OF_ENTRIES: Dict[str, Callable[[Company, Refused, SentEntries], str]] = {
    "BadField": _bad_field, "TooManyEntries": _too_many, "TotalTooLarge": _total,
    "EntryLimit": _entry_limit, "CreditLimit": _limit, "DebitLimit": _limit,
}


# ---- retries


def _no_entry(company: Company, refused: Refused, sent: SentRetry) -> str:
    try:
        found = company.look_up(sent.of)
    except Refused as other:
        if other.name != "NoReference":
            raise
        return f"The company has no submission {sent.of}."
    entry = _entry_of(found, sent.index)
    if found.of is not None:
        return f"{found.ref} is a retry itself: name {found.of} entry {found.of_index}."
    if found.direction == "credit":
        return f"{found.ref} is a credit, and only a debit is collected again."
    if entry is None:
        return f"{found.ref} has entries 1 to {len(found.entries)}."
    return f"Entry {sent.index} of {found.ref} is a prenote." if entry.cents == 0 else ""


def _entry_of(found: Found, index: int) -> Optional[FoundEntry]:
    return next((it for it in found.entries if it.index == index), None)


def _not_returned(company: Company, refused: Refused, sent: SentRetry) -> str:
    entry = _entry_of(company.look_up(sent.of), sent.index)
    if entry is None or entry.state == "returned":
        return "Its newest retry has not been returned."
    return f"Entry {sent.index} of {sent.of} is {entry.state}, and has not been returned."


def _not_retryable(company: Company, refused: Refused, sent: SentRetry) -> str:
    code = refused.code or ""
    meaning = f" ({RETURN_CODES[code].meaning})" if code in RETURN_CODES else ""
    if code != "R08":
        return (f"It was returned {code}{meaning}. Only R01, R09 and, with a new authorization, "
                "R08 are collected again.")
    if sent.authorized is None:
        return f"It was returned R08{meaning}. Give the day of a new authorization: --authorized."
    return (f"It was returned R08{meaning}. The new authorization, {sent.authorized}, must be from "
            f"the day of the return up to the desk day, {company.exposure().day}.")


def _too_late(company: Company, refused: Refused, sent: SentRetry) -> str:
    entry = _entry_of(company.look_up(sent.of), sent.index)
    if entry is None or entry.settled is None:
        return ""
    last = entry.settled + datetime.timedelta(MOST_DAYS_OF_A_RETRY)
    return (f"The original settled on {entry.settled}. The retry must settle by {last}, "
            f"{MOST_DAYS_OF_A_RETRY} days later, and {sent.day} is too late for that.")


def _bad_field_of_retry(company: Company, refused: Refused, sent: SentRetry) -> str:
    field = refused.field or ""
    rules = {"ref": HEADS["ref"], "of": HEADS["ref"], "index": "it takes 1 to 1000"}
    given = quoted(getattr(sent, field, ""))
    return f"{field}: {given} is refused; {rules[field]}." if field in rules else ""


OF_RETRIES: Dict[str, Callable[[Company, Refused, SentRetry], str]] = {
    "BadField": _bad_field_of_retry, "NoEntry": _no_entry, "NotReturned": _not_returned,
    "NotRetryable": _not_retryable, "RetryTooLate": _too_late,
}
