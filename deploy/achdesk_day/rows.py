"""The rows of a report: return rates, settlement and balances."""

from __future__ import annotations

from typing import Any

from achdesk import CompanyRisk, Rate

from achdesk_day.books import Books, Settled, settled_through
from achdesk_day.day import Day
from achdesk_day.stops import Refused
from achdesk_day.values import money

Cell = int | str
Row = dict[str, Any]
LEVELS = {"unauthorized": "0.5", "administrative": "3", "overall": "15"}  # Nacha's levels of return rates, in percent
REPORT_COLUMNS = ["section", "day", "name", "count", "counted", "debits", "credits", "net", "note"]
PAYS = "the bank pays the ACH operator", "the ACH operator pays the bank"
FAVORS = "in the company's favor", "in the bank's favor"
HOLDS = "held until its items are solved", "paid, and charged to nobody until its items are solved"


def row_of(
    section: str, day: str, name: Cell, count: Cell = "", counted: str = "", debits: Cell = "", credits: Cell = "", net: Cell = "",
    note: str = ""
) -> Row:
    """Makes a row; `counted` says what `count` counts."""
    return dict(zip(REPORT_COLUMNS, (section, day, name, count, counted, debits, credits, net, note)))


def rate_rows(day: Day) -> list[Row]:
    """One row for each return rate over its level, of the 60 days that end on the desk day; `count` has its returns."""
    section, told = "return rates over a level", day.desk.companies()
    rows = [row_of(section, str(told.day), company.id, rate.n, "returns",
                   note=f"{company.name}, {kind}: {rate.n} of {rate.d} debits, level {LEVELS[kind]} percent")
            for company in told.companies for kind, rate in rates_over(company)]
    return rows or [row_of(section, str(told.day), "", 0, "companies")]


def rates_over(company: CompanyRisk) -> list[tuple[str, Rate]]:
    """Returns a company's return rates over their levels, as (kind, rate)."""
    rates = [(kind, rate_of(company, kind)) for kind in LEVELS]
    return [(kind, rate) for kind, rate in rates if rate.over]


def rate_of(company: CompanyRisk, kind: str) -> Rate:
    rate: Rate = getattr(company.rates, kind)
    return rate


def settlement_rows(wanted: str, settled: Settled) -> list[Row]:
    """One row for each value day from this one on; a positive net is paid by the bank."""
    return [row_of("settlement", day, "", net=cents, note=in_words(cents, *PAYS))
            for day, cents in settled.items() if day >= wanted]


def in_words(cents: int, positive: str, negative: str) -> str:
    return positive if cents > 0 else negative if cents < 0 else "nothing"


def balance_rows(wanted: str, settled: Settled, books: Books | None) -> list[Row]:
    """One row for the balance of each account at the end of a day, and their sum, which is zero."""
    if books is None:
        balance = settled_through(settled, wanted)
        return [row_of("balance", wanted, "ACH operator", net=balance, note=in_words(balance, *PAYS))]
    rows = [row_of("balance", wanted, name, net=cents, note=in_words(cents, *words))
            for name, cents, words in (("ACH operator", books.balances["O"], PAYS), ("suspense", books.balances["S"], HOLDS),
                                       *((key[2:], cents, FAVORS) for key, cents in books.balances.items() if key[:2] == "C:"))]
    if total := sum(books.balances.values()):
        raise Refused(f"the balances of all accounts at the end of {wanted} sum to {money(total)}, not to zero")
    return [*rows, row_of("all balances", wanted, "", len(rows), "accounts", net=0)]
