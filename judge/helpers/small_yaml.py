"""Reads the part of YAML in which docs/openapi.yaml is written, with nothing but the standard library.

Understood are block mappings and sequences, flow collections, literal blocks (`|`), quoted and plain scalars, and
comments. Anchors, tags, folded blocks and several documents are not: a line with one of these raises `ValueError`
with its number. `judge/openapi.py` compares the result with PyYAML's.
"""

import json
import re

KEY = re.compile(r"""("(?:[^"\\]|\\.)*"|'[^']*'|[^\s"'\[\]{}#&*!|>%@`-][^#]*?|-[^\s#][^#]*?):(?:\s+(.*))?$""")
NUMBER = re.compile(r"-?(0|[1-9][0-9]*)(\.[0-9]+)?")
WORDS = {"null": None, "~": None, "": None, "true": True, "false": False}


def load(text):
    """Returns the value that the text has."""
    reader = Reader(text.split("\n"))
    value = reader.block(0)
    if reader.peek() is not None:
        raise reader.fault("an indentation that matches nothing above")
    return value


class Reader:
    """The lines of a document, and the place of the next one."""

    def __init__(self, lines):
        self.lines, self.at = lines, 0

    def fault(self, what):
        return ValueError(f"line {self.at + 1}: {what}")

    def peek(self):
        """Returns the indentation and the text of the next line that has one, or None at the end."""
        while self.at < len(self.lines):
            line = self.lines[self.at]
            text = line.strip()
            if text and not text.startswith("#"):
                return len(line) - len(line.lstrip(" ")), text
            self.at += 1
        return None

    def block(self, indent):
        """Reads the value whose lines are indented by at least `indent`."""
        found = self.peek()
        if found is None or found[0] < indent:
            return None
        depth, text = found
        if text == "-" or text.startswith("- "):
            return self.sequence(depth)
        if text[0] not in "{[" and KEY.match(text):
            return self.mapping(depth)
        self.at += 1
        return self.scalar(text, depth - 1)

    def sequence(self, depth):
        items = []
        while (found := self.peek()) is not None and found[0] == depth and (found[1] == "-" or found[1].startswith("- ")):
            rest = found[1][1:].strip()
            if not rest:
                self.at += 1
                items.append(self.block(depth + 1))
            elif rest[0] not in "{[\"'" and KEY.match(rest):
                # The mapping begins on the line of the dash: read it as if the dash were a blank.
                line = self.lines[self.at]
                self.lines[self.at] = line[:depth] + " " + line[depth + 1:]
                items.append(self.block(depth + 1))
            else:
                self.at += 1
                items.append(self.scalar(rest, depth))
        return items

    def mapping(self, depth):
        members = {}
        while (found := self.peek()) is not None and found[0] == depth:
            match = KEY.match(found[1])
            if match is None:
                raise self.fault("a key is missing")
            key, rest = scalar_of(match[1]), (match[2] or "").strip()
            if key in members:
                raise self.fault(f"{key!r} appears twice")
            self.at += 1
            members[key] = self.value(rest, depth)
        return members

    def value(self, rest, depth):
        """Reads what follows a key: the rest of its line, or the lines below it."""
        if rest and not rest.startswith("#"):
            return self.scalar(rest, depth)
        found = self.peek()
        is_list_below = found is not None and found[0] == depth and found[1].startswith("- ")
        return self.block(depth if is_list_below else depth + 1)

    def scalar(self, text, depth):
        """Reads a value that begins with this text and may go on in lines that are indented by more than `depth`."""
        if text[0] == "|":
            return self.literal(text, depth)
        if text[0] in ">&*!":
            raise self.fault(f"{text[0]!r} is not read")
        while text[0] in "{[" and not is_balanced(text):
            found = self.peek()
            if found is None:
                raise self.fault("a bracket is not closed")
            text, self.at = f"{text} {found[1]}", self.at + 1
        if text[0] in "{[":
            value, end = flow(text, 0)
            if without_comment(text[end:]):
                raise self.fault("something follows a bracket")
            return value
        while text[0] not in "\"'" and (found := self.peek()) is not None and found[0] > depth:
            text, self.at = f"{text} {found[1]}", self.at + 1
        return scalar_of(text if text[0] in "\"'" else without_comment(text))

    def literal(self, text, depth):
        """Reads a literal block: its lines without their common indentation, with one line feed at the end unless `|-`."""
        lines, width = [], None
        while self.at < len(self.lines):
            line = self.lines[self.at]
            if line.strip():
                indent = len(line) - len(line.lstrip(" "))
                if width is None and indent > depth:
                    width = indent
                if width is None or indent < width:
                    break
            lines.append(line[width or 0:])
            self.at += 1
        body = "\n".join(lines).rstrip("\n")
        return body if text.startswith("|-") else body + "\n"


def without_comment(text):
    return re.split(r"(?:^|\s)#", text, maxsplit=1)[0].strip()


def scalar_of(text):
    """Returns the value of a quoted or plain scalar."""
    if text.startswith('"'):
        return json.loads(re.match(r'"(?:[^"\\]|\\.)*"', text)[0])
    if text.startswith("'"):
        return re.match(r"'((?:[^']|'')*)'", text)[1].replace("''", "'")
    if text in WORDS:
        return WORDS[text]
    if NUMBER.fullmatch(text):
        return float(text) if "." in text else int(text)
    return text


def is_balanced(text):
    depth, quote = 0, None
    for at, letter in enumerate(text):
        if quote:
            quote = None if letter == quote and text[at - 1] != "\\" else quote
        elif letter in "\"'":
            quote = letter
        else:
            depth += (letter in "{[") - (letter in "}]")
    return depth == 0


def flow(text, at):
    """Returns the flow value that begins at a place, and the place after it."""
    at = after_blanks(text, at)
    if text[at] == "{":
        members = {}
        at = after_blanks(text, at + 1)
        while text[at] != "}":
            key, at = flow_scalar(text, at, ":,}")
            at = after_blanks(text, at)
            if text[at] == ":":
                members[key], at = flow(text, at + 1)
            else:
                members[key] = None
            at = after_comma(text, at)
        return members, at + 1
    if text[at] == "[":
        items = []
        at = after_blanks(text, at + 1)
        while text[at] != "]":
            item, at = flow(text, at)
            items.append(item)
            at = after_comma(text, at)
        return items, at + 1
    return flow_scalar(text, at, ",]}")


def flow_scalar(text, at, ends):
    if text[at] in "\"'":
        match = re.compile(r'"(?:[^"\\]|\\.)*"|' + r"'(?:[^']|'')*'").match(text, at)
        return scalar_of(match[0]), match.end()
    start = at
    while at < len(text) and not (text[at] in ends and (text[at] != ":" or text[at + 1:at + 2] in (" ", ""))):
        at += 1
    return scalar_of(text[start:at].strip()), at


def after_blanks(text, at):
    while text[at] == " ":
        at += 1
    return at


def after_comma(text, at):
    at = after_blanks(text, at)
    return after_blanks(text, at + 1) if text[at] == "," else at
