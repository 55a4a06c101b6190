"""A client of the ACH desk. It needs Python 3.9 or later and nothing else.

Companies use `Company`, the bank's operator uses `Operator`. Each method makes one call and returns
its answer as a frozen dataclass. Amounts and balances are integers of cents, days are
`datetime.date`.

    import datetime
    from pathlib import Path
    from achdesk import Company

    key = Path("/etc/payroll/desk.key").read_text().strip()
    mill = Company("https://desk.bank.example", "MILL01", key)
    mill.submit_csv(Path("pay.csv").read_bytes(), ref="PAY-1", sec="PPD", direction="credit",
                    description="PAYROLL", day=datetime.date(2025, 1, 10))
    for item in mill.returns():
        print(item.ref, item.index, item.code)

Retries. If no answer arrives, or the status is 429, 502, 503 or 504, the request is repeated after
a pause. Pauses grow from half a second to 30 seconds; `Settings.total_seconds` bounds all attempts
of a call with their pauses. This is safe: the desk answers a repeated submission, retry or returns
file as it did the first time and does not take it again. Only `Operator.cut` is never repeated by
itself.

Errors. Every error of a call is a `DeskError`, and one of these:

- `Refused`: the desk, or the proxy in front of it, refused the call.
- `NoAnswer`: no answer arrived in the given time.
- `ForeignAnswer`: something other than the desk answered, such as a proxy with an error page.
- `InputFault`: no request was made, because the key or another argument is malformed. For a list
  of entries it is a `ListFault`, which has all faults with their lines.

`DeskError.may_have_acted` says whether the desk may have carried out the call all the same.

An object is used by one thread at a time.
"""

from .codes import CHANGE_CODES, RETURN_CODES, ChangeCode, ReturnCode
from .company import Company
from .company_answers import (
    Accepted, Change, Exposure, Found, FoundEntry, Line, Rate, Rates, Return, Statement,
)
from .csv_list import EntryList, Fault, ListFault, checked_list, entries_of_csv
from .entries import COLUMNS, Entry
from .errors import DeskError, ForeignAnswer, InputFault, NoAnswer, Refused
from .operator import Operator
from .operator_answers import (
    Companies, CompanyRates, CompanyRisk, CompanyStatus, CutMade, DaySum, DueDay, Held,
    ReturnsTaken, Settlement, Status, SuspenseItem, Tally,
)
from .parts import PartsFault
from .settings import Settings
from .version import __version__

__all__ = [
    "CHANGE_CODES", "COLUMNS", "RETURN_CODES", "Accepted", "Change", "ChangeCode", "Companies",
    "Company", "CompanyRates", "CompanyRisk", "CompanyStatus", "CutMade", "DaySum", "DeskError",
    "DueDay", "Entry", "EntryList", "Exposure", "Fault", "ForeignAnswer", "Found", "FoundEntry",
    "Held", "InputFault", "Line", "ListFault", "NoAnswer", "Operator", "PartsFault", "Rate",
    "Rates", "Refused", "Return", "ReturnCode", "ReturnsTaken", "Settings", "Settlement",
    "Statement", "Status", "SuspenseItem", "Tally", "__version__", "checked_list", "entries_of_csv",
]
