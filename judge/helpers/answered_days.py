"""A bank's days in a few messages, each with its answer. Both were written by hand from the rules of each body and record,
and not taken from a program."""

KEYS = {"desk": "operator-key", "MILL01": "mill-street-key"}

COMPANY = '{"id":"MILL01","name":"MILL STREET","key":"mill-street-key","entry_limit":9999999999,"credit_limit":999999999999999,"debit_limit":999999999999999}'
PAY_1 = '{"ref":"PAY-1","sec":"PPD","direction":"credit","description":"PAYROLL","day":"2025-01-10","entries":[{"routing":"091000019","account":"123456789","kind":"checking","cents":150000,"id":"E1","name":"ANN LEE"}]}'
PAY_2 = '{"ref":"PAY-2","sec":"PPD","direction":"debit","description":"DUES","day":"2025-01-10","entries":[{"routing":"091000019","account":"123456789","kind":"checking","cents":2500,"id":"E2","name":"BOB RAY"}]}'

FILE = [
    "101 061000146 121042882250108    A094101ACH OPERATOR           OUR BANK                       ",
    "5220MILL STREET                         MILL01    PPDPAYROLL         250110   1121042880000001",
    "622091000019123456789        0000150000E1             ANN LEE                 0121042880000001",
    "82200000010009100001000000000000000000150000MILL01                             121042880000001",
    "9000001000001000000010009100001000000000000000000150000                                       ",
] + ["9" * 94] * 5

RETURNS = [
    "101 121042882 0610001462501140930A094101OUR BANK               ACH OPERATOR                   ",
    "5225MILL STREET                         MILL01    PPDDUES            2501140141091000010000001",
    "626121042882123456789        0000002500E2             BOB RAY                 1091000010000007",
    "799R01121042880000002      09100001                                            091000010000007",
    "82250000020012104288000000002500000000000000MILL01                             091000010000001",
    "9000001000001000000020012104288000000002500000000000000                                       ",
] + ["9" * 94] * 4

STATEMENT = '{"balance":"-150000","day":"2025-01-14","lines":[{"cause":"cut","cents":-150000,"day":"2025-01-10","index":0,"ref":"PAY-1"},{"cause":"cut","cents":2500,"day":"2025-01-10","index":0,"ref":"PAY-2"},{"cause":"return","cents":-2500,"day":"2025-01-14","index":1,"ref":"PAY-2"}]}'
SETTLEMENT = '{"balance":"150000","day":"2025-01-14","days":[{"cents":"147500","day":"2025-01-10"},{"cents":"2500","day":"2025-01-14"}]}'


def text(records):
    return "".join(record + "\n" for record in records)


def day(name):
    return "desk", "POST /ops/day", f'{{"day":"{name}"}}', "200 OK", f'{{"day":"{name}"}}'


# who asks, what, the body, the status, the answer's body
DAYS = [
    ("desk", "POST /ops/holidays", "2025-01-20\n", "200 OK", '{"holidays":1}'),
    ("desk", "POST /ops/companies", COMPANY, "201 Created", '{"id":"MILL01"}'),
    day("2025-01-08"),
    ("MILL01", "POST /c/MILL01/submissions", PAY_1, "201 Created", '{"cents":150000,"entries":1,"order":1,"ref":"PAY-1"}'),
    ("desk", "POST /ops/cut", "", "200 OK", '{"day":"2025-01-08","entries":1,"files":["A"],"lapsed":0}'),
    ("desk", "GET /ops/files/2025-01-08/A", "", "200 OK", text(FILE)),
    ("MILL01", "POST /c/MILL01/submissions", PAY_2, "201 Created", '{"cents":2500,"entries":1,"order":2,"ref":"PAY-2"}'),
    day("2025-01-09"),
    ("desk", "POST /ops/cut", "", "200 OK", '{"day":"2025-01-09","entries":1,"files":["A"],"lapsed":0}'),
    day("2025-01-14"),
    ("desk", "POST /ops/returns", text(RETURNS), "200 OK", '{"changes":0,"day":"2025-01-14","late":0,"returns":1,"suspense":0}'),
    ("MILL01", "GET /c/MILL01/statement", "", "200 OK", STATEMENT),
    ("desk", "GET /ops/settlement", "", "200 OK", SETTLEMENT),
]

LIMITS = '{"id":"MILL01","entry_limit":9999999999,"credit_limit":999999999999999,"debit_limit":999999999999999}'
NOTHING_HELD = '{"credits":{"cents":"0","submissions":0},"debits":{"cents":"0","submissions":0}}'

# the routes that these days do not ask, after them
OTHER_ROUTES = [
    ("MILL01", "GET /c/MILL01/submissions/PAY-2", "", "200 OK",
     '{"cents":2500,"day":"2025-01-10","direction":"debit","entries":[{"cents":2500,"code":"R01","index":1,"late":false,"returned":"2025-01-14",'
     '"settled":"2025-01-10","state":"returned"}],"order":2,"ref":"PAY-2","sec":"PPD"}'),
    ("MILL01", "GET /c/MILL01/returns", "", "200 OK", '{"returns":[{"code":"R01","day":"2025-01-14","index":1,"info":"","late":false,"ref":"PAY-2"}]}'),
    ("MILL01", "GET /c/MILL01/changes", "", "200 OK", '{"changes":[]}'),
    ("MILL01", "GET /c/MILL01/rates", "", "200 OK",
     '{"administrative":{"d":1,"n":0,"over":false},"day":"2025-01-14","overall":{"d":1,"n":1,"over":true},"unauthorized":{"d":1,"n":0,"over":false}}'),
    ("MILL01", "GET /c/MILL01/exposure", "", "200 OK",
     '{"credit":"0","credit_limit":999999999999999,"day":"2025-01-14","debit":"0","debit_limit":999999999999999,"entry_limit":9999999999}'),
    ("desk", "GET /ops/suspense", "", "200 OK", '{"items":[]}'),
    ("desk", "GET /ops/status", "", "200 OK",
     '{"companies":[{"due":[],"held":' + NOTHING_HELD + ',"id":"MILL01","lapsing":0,"name":"MILL STREET"}],"day":"2025-01-14","due_files":0,"due_records":0,'
     '"files":[],"held_records":0,"holidays":1,"sent":2,"suspense":0}'),
    ("desk", "GET /ops/companies", "", "200 OK",
     '{"companies":[{"credit":"0","credit_limit":999999999999999,"debit":"0","debit_limit":999999999999999,"entry_limit":9999999999,"id":"MILL01","name":"MILL STREET",'
     '"rates":{"administrative":{"d":1,"n":0,"over":false},"overall":{"d":1,"n":1,"over":true},"unauthorized":{"d":1,"n":0,"over":false}}}],"day":"2025-01-14"}'),
    ("desk", "POST /ops/limits", LIMITS, "200 OK", '{"id":"MILL01"}'),
    ("MILL01", "POST /c/MILL01/retries", '{"ref":"RT-1","of":"PAY-2","index":1,"day":"2025-01-16"}', "201 Created",
     '{"cents":2500,"entries":1,"order":3,"ref":"RT-1"}'),
]
