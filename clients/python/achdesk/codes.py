"""Nacha's return codes and change codes."""

from __future__ import annotations

from dataclasses import dataclass
from typing import Dict, Tuple


@dataclass(frozen=True)
class ReturnCode:
    """The meaning of a return code, and what the company does next."""

    meaning: str
    next_step: str


_ACCOUNT = "Ask the receiver for the account."
_STOP = "Stop, and ask the receiver."
_NO_MORE = "Send nothing more to this account."
_BANK = "Ask the bank."
_RETRY = "Collect it again with a retry."

RETURN_CODES: Dict[str, ReturnCode] = {
    "R01": ReturnCode("insufficient funds", _RETRY),
    "R02": ReturnCode("account closed", _ACCOUNT),
    "R03": ReturnCode("no account, or unable to locate the account", _ACCOUNT),
    "R04": ReturnCode("invalid account number", _ACCOUNT),
    "R05": ReturnCode("unauthorized debit of a consumer's account as CCD",
                      "Stop. A person's account takes PPD."),
    "R06": ReturnCode("returned at the request of the bank", _BANK),
    "R07": ReturnCode("authorization revoked by the receiver", _STOP),
    "R08": ReturnCode("payment stopped", "Retry it only with a new authorization."),
    "R09": ReturnCode("uncollected funds", _RETRY),
    "R10": ReturnCode("originator unknown to the receiver, or not authorized", _STOP),
    "R11": ReturnCode("not in accordance with the terms of the authorization",
                      "Correct the amount, the day or what else differs."),
    "R12": ReturnCode("account sold to another bank", _ACCOUNT),
    "R13": ReturnCode("invalid routing number", _ACCOUNT),
    "R14": ReturnCode("representative payee deceased or unable to continue", _NO_MORE),
    "R15": ReturnCode("beneficiary or account holder deceased", _NO_MORE),
    "R16": ReturnCode("account frozen, or returned by order of OFAC", _NO_MORE),
    "R17": ReturnCode("file record edit criteria, or questionable circumstances", _BANK),
    "R18": ReturnCode("improper effective entry date", _BANK),
    "R19": ReturnCode("amount field error", _BANK),
    "R20": ReturnCode("non-transaction account", _ACCOUNT),
    "R21": ReturnCode("invalid company identification", _BANK),
    "R22": ReturnCode("invalid individual identification", "Correct `id`."),
    "R23": ReturnCode("credit refused by the receiver", "Ask the receiver."),
    "R24": ReturnCode("duplicate entry", "Find out whether it was submitted twice."),
    "R25": ReturnCode("addenda error", "Correct `info`."),
    "R26": ReturnCode("mandatory field error", _BANK),
    "R27": ReturnCode("trace number error", _BANK),
    "R28": ReturnCode("routing number check digit error", _ACCOUNT),
    "R29": ReturnCode("corporate customer advises not authorized", _STOP),
}


@dataclass(frozen=True)
class ChangeCode:
    """The meaning of a change code, and where the corrected data has each value.

    `places` names a column of a list of entries, or `transaction code`, with its first and last
    position of the 29, from 1. `next_step` is what a company does if it has no place.
    """

    meaning: str
    places: Tuple[Tuple[str, int, int], ...] = ()
    next_step: str = ""


CHANGE_CODES: Dict[str, ChangeCode] = {
    "C01": ChangeCode("incorrect account number", (("account", 1, 17),)),
    "C02": ChangeCode("incorrect routing number", (("routing", 1, 9),)),
    "C03": ChangeCode("incorrect routing number and account number",
                      (("routing", 1, 9), ("account", 13, 29))),
    "C04": ChangeCode("incorrect name", (("name", 1, 22),)),
    "C05": ChangeCode("incorrect transaction code", (("transaction code", 1, 2),)),
    "C06": ChangeCode("incorrect account number and transaction code",
                      (("account", 1, 17), ("transaction code", 21, 22))),
    "C07": ChangeCode("incorrect routing number, account number and transaction code",
                      (("routing", 1, 9), ("account", 10, 26), ("transaction code", 27, 28))),
    "C08": ChangeCode("incorrect receiving bank of an international entry", (), _BANK),
    "C09": ChangeCode("incorrect individual identification", (("id", 1, 22),)),
    "C10": ChangeCode("incorrect company name", (), _BANK),
    "C11": ChangeCode("incorrect company identification", (), _BANK),
    "C12": ChangeCode("incorrect company name and company identification", (), _BANK),
    "C13": ChangeCode("addenda format error", (), "Correct `info`."),
    "C14": ChangeCode("incorrect SEC code of an international entry", (), _BANK),
}
# The first digit of a transaction code says of which kind the account is.
KINDS = {"2": "checking", "3": "savings"}


def correction(code: str, text: str) -> Dict[str, str]:
    """Returns the values that a change's 29 characters correct, by columns of a list of entries.

    A transaction code is returned as the `kind` of the account. Nothing is returned for a code
    whose data has no value for a list, or for a text that does not have the values.
    """
    found: Dict[str, str] = {}
    for column, first, last in CHANGE_CODES.get(code, ChangeCode("")).places:
        value = text[first - 1:last].strip()
        if column == "transaction code":
            column, value = "kind", KINDS.get(value[:1], "")
        if value:
            found[column] = value
    return found
