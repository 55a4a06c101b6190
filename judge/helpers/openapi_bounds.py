"""Bodies of which one value is another, each with the answer that its schema has it get."""

import copy
import json

from helpers.desk_messages import Exchange, compact, keyed, response

TEXTS = ["", " ", "x", "~", " x", "x ", "x y", "é", "a\tb", "\x7f", "A-Z_.", "mill01", "MILL01", "RETRY PYMT", "REVERSAL"]
WORDS = ["PPD", "CCD", "WEB", "credit", "debit", "Debit", "checking", "savings", "true", "091000019", "09100001", "0910000190"]
DATES = ["1999-12-31", "2000-01-01", "2024-02-29", "2025-02-29", "2025-13-01", "2025-1-10", "20250110"]
LAST_DATES = ["2096-12-31", "2097-01-01", "2099-12-31", "2100-01-01"]
LENGTHS = [2, 7, 8, 10, 11, 15, 16, 17, 18, 20, 21, 22, 23, 64, 65, 80, 81]
LONG_TEXTS = [letter * length for letter in "A1" for length in LENGTHS]
NUMBERS = [-1, 0, 1, 2, 1000, 1001, 1.5, 9999999999, 10000000000, 999999999999999, 1000000000000000, 2**63, 2**64]
OTHERS = [None, True, False, [], {}, [5], [[]]]
VALUES = TEXTS + WORDS + DATES + LAST_DATES + LONG_TEXTS + NUMBERS + OTHERS
LEFT_OUT = object()


def changed(body, place, key, value):
    """The body with another value under a key, or without it, in the whole (place 0) or in its first entry (1)."""
    body = copy.deepcopy(body)
    inner = body["entries"][0] if place else body
    if value is LEFT_OUT:
        inner.pop(key, None)
    else:
        inner[key] = value
    return body


def bad_field(key, place, value):
    """What a bad value is told as: an entry that is none by its number, and money of a prenote by its cents."""
    if key == "prenote" and value is True:
        key = "cents"
    index = 1 if key == "entries" and value and isinstance(value, list) else place
    return response(422, compact({"error": "BadField", "field": key, "index": index, "number": 2}))


def bounds_of(operation, fits, place, keys, body):
    """A message for each value under each key."""
    for key in keys:
        for value in [LEFT_OUT, *VALUES]:
            this = changed(body, place, key, value)
            data = json.dumps(this, separators=(",", ":"), ensure_ascii=False).encode()
            sent = keyed(operation.method, operation.target({}), operation.key, data)
            yield Exchange(f"{operation.name}, {key}", sent, None if fits(this) else bad_field(key, place, value))


def bounds(page, validator):
    """Messages to all operations that take JSON: a body is a bad field exactly where it does not fit its schema."""
    for operation in page.operations.values():
        if operation.body() is None or operation.body()[0] != "application/json":
            continue
        schema, examples = operation.body()[1]["schema"], operation.body()[1]["examples"]
        fits, body = validator(page, schema).is_valid, next(iter(examples.values()))["value"]
        keys = page.at(schema)["properties"]
        yield from bounds_of(operation, fits, 0, keys, body)
        if "entries" in keys:
            yield from bounds_of(operation, fits, 1, page.at(keys["entries"]["items"])["properties"], body)
