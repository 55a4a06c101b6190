"""Files of returns and changes, as an ACH operator sends them back: one mixed batch of one entry class."""

OPERATOR = "09100001"
BANK = "12104288"


def wide(text, width):
    return text.ljust(width)[:width]


def code_of_return(debit, savings):
    """The transaction code of a returned entry."""
    return f"{3 if savings else 2}{6 if debit else 1}"


def records_of(number, item):
    """The two records of an item: the entry as it came back, and its addenda. An item with a text is a change."""
    trace = f"{OPERATOR}{number:07}"
    code = code_of_return(item["debit"], item["savings"])
    entry = (f"6{code}{BANK}2{wide(item['account'], 17)}{item['cents']:010}{wide(item['ident'], 15)}{wide(item['name'], 22)}  1{trace}")
    kind, text = ("98", item["text"]) if "text" in item else ("99", "")
    return [entry, f"7{kind}{item['code']}{item['trace']}{' ' * 6}{item['dfi']}{wide(text, 29)}{' ' * 15}{trace}"]


def file_of_returns(number, sec, items):
    """The file with these items. Its key is made of its number, which is at most 259,999."""
    debits = sum(it["cents"] for it in items if it["debit"])
    credits = sum(it["cents"] for it in items if not it["debit"])
    hashed = f"{int(BANK) * len(items):010}"[-10:]
    count = 2 * len(items)
    records = [f"101 121042882 061000146250114{number // 26:04}{chr(65 + number % 26)}094101{wide('OUR BANK', 23)}{wide('ACH OPERATOR', 23)}{' ' * 8}",
               f"5200{wide('MILL STREET', 16)}{' ' * 20}{wide('MILL01', 10)}{sec}{wide('DUES', 10)}{' ' * 6}2501140141{OPERATOR}0000001"]
    for at, item in enumerate(items, 1):
        records += records_of(at, item)
    records.append(f"8200{count:06}{hashed}{debits:012}{credits:012}{wide('MILL01', 10)}{' ' * 25}{OPERATOR}0000001")
    blocks = (len(records) + 10) // 10
    records.append(f"9000001{blocks:06}{count:08}{hashed}{debits:012}{credits:012}{' ' * 39}")
    records += ["9" * 94] * (-len(records) % 10)
    assert all(len(record) == 94 for record in records)
    return "".join(record + "\n" for record in records)
