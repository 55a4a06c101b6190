"""Answers as dataclasses."""

from __future__ import annotations

import dataclasses
import datetime
import functools
import json
import re
from typing import Any, Tuple, Union, get_args, get_origin, get_type_hints

DATE = re.compile("[0-9]{4}-[0-9]{2}-[0-9]{2}")
DIGITS = re.compile("-?[0-9]{1,40}")


class Mismatch(Exception):
    """A body that does not have the form of the desk's answer."""


def json_of(body: bytes) -> object:
    """Returns the value of a body in JSON, or None if it is not JSON."""
    try:
        value: object = json.loads(body, parse_int=_short_int)
        return value
    except (ValueError, RecursionError):
        return None


def _short_int(text: str) -> int:
    # Python takes a time that grows with the square of the digits.
    if not DIGITS.fullmatch(text):
        raise ValueError("too many digits")
    return int(text)


def value_of(kind: Any, value: object) -> Any:
    """Returns a value of JSON as one of this type.

    The members of a dataclass have the names of the members of the object. An object may have
    further members. An int may be a text of digits: the desk writes balances so, since they may
    pass what readers of JSON numbers hold exactly.
    """
    if dataclasses.is_dataclass(kind) and isinstance(kind, type):
        if not isinstance(value, dict):
            raise Mismatch
        return kind(**{name: value_of(it, value.get(name)) for name, it in _members(kind)})
    origin, arguments = get_origin(kind), get_args(kind)
    if origin is Union:
        return None if value is None else value_of(arguments[0], value)
    if origin is tuple and isinstance(value, list):
        return tuple(value_of(arguments[0], it) for it in value)
    if kind is datetime.date and isinstance(value, str) and DATE.fullmatch(value):
        return _date_of(value)
    if kind is int and isinstance(value, str) and DIGITS.fullmatch(value):
        return int(value)
    if type(value) is kind:  # a bool is an int to isinstance
        return value
    raise Mismatch


@functools.lru_cache(maxsize=None)
def _members(kind: Any) -> Tuple[Tuple[str, Any], ...]:
    return tuple(get_type_hints(kind).items())


def _date_of(text: str) -> datetime.date:
    try:
        return datetime.date.fromisoformat(text)
    except ValueError:
        raise Mismatch from None
