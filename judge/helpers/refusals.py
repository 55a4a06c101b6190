"""The refusals and faults of the desk, by hand from its rules: what the API page and the console must have."""

# Each number with its name and its HTTP status.
REFUSALS = {
    1: ("NoDay", 409),
    2: ("BadField", 422),
    3: ("RefReused", 409),
    4: ("TooManyEntries", 422),
    5: ("TotalTooLarge", 422),
    6: ("DateRange", 422),
    7: ("EntryLimit", 409),
    8: ("CreditLimit", 409),
    9: ("DebitLimit", 409),
    10: ("NoEntry", 409),
    11: ("NotReturned", 409),
    12: ("NotRetryable", 409),
    13: ("RetriesSpent", 409),
    14: ("RetryTooLate", 409),
    20: ("DayNotLater", 409),
    21: ("NotBankingDay", 409),
    22: ("CompanyExists", 409),
    23: ("NoCompany", 409),
    24: ("TracesSpent", 409),
    25: ("ModifiersSpent", 409),
    26: ("FileKeyReused", 409),
    27: ("BadFile", 422),
    28: ("BadCalendar", 422),
}

# The refusals of each call over HTTP, in the order in which they are checked.
ORDERS = {
    "submit": (1, 2, 3, 4, 5, 6, 7, 8, 9),
    "retry": (1, 2, 3, 10, 11, 12, 13, 14, 6, 7, 9),
    "lookUp": (),
    "returns": (),
    "changes": (),
    "statement": (1,),
    "rates": (1,),
    "exposure": (1,),
    "setDay": (2, 20, 21),
    "setHolidays": (28,),
    "companies": (1,),
    "registerCompany": (2, 22),
    "setLimits": (2, 23),
    "cut": (1, 24, 25),
    "takeReturns": (1, 27, 26),
    "fileText": (),
    "settlement": (1,),
    "suspense": (),
    "status": (),
}

MESSAGE_FAULTS = {
    "BadHead": 400,
    "LengthRequired": 411,
    "TooLarge": 413,
    "NotFound": 404,
    "BadMethod": 405,
    "Denied": 403,
    "BadJson": 400,
    "NoReference": 404,
    "NoFile": 404,
    "Unavailable": 503,
}

# What the proxy of deploy/nginx.conf adds to these.
PROXY_FAULTS = {"TooManyRequests": 429, "BadGateway": 502, "GatewayTimeout": 504}

FILE_FAULTS = (
    "TooLarge",
    "BadLength",
    "BadByte",
    "BadOrder",
    "BadNumber",
    "ForwardEntry",
    "BadAddenda",
    "BadCount",
    "BadHash",
    "BadTotal",
    "BadBlock",
    "NoMemory",
    "Failed",
)
CALENDAR_FAULTS = ("BadRow", "NotAscending", "TooMany")
