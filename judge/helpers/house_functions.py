"""What the code defines: functions, and files with what they import and define."""

import re
from dataclasses import dataclass, field
from pathlib import Path

from helpers.house_tree import closing_brace

Generics = tuple[tuple[str, tuple[str, ...]], ...]  # names with the traits that they have to have
TOKEN = re.compile(r"[A-Za-z_]\w*|'[a-z_]\w*(?!')|\d[\w]*(?:\.\d+)?|\"\"|::|->|=>|==|!=|<=|>=|&&|\|\||\.\.=|\.\.|[-+*/%&|^]=|\S")
CLAUSE = re.compile(r"\b(?:requires|ensures)(?: \w+)? \{")
GHOST = re.compile(r"\bghost \w")
OPENING, CLOSED = ("(", "[", "{"), (")", "]", "}")


@dataclass(frozen=True)
class Type:
    """A type: an own one by its crate and its name as `crate::Name`, another one by its name."""

    name: str
    args: tuple["Type", ...] = ()


UNKNOWN = Type("?")


@dataclass(frozen=True)
class Function:
    """A function: where it is, the type or trait that it belongs to, and the tokens of its body."""

    path: Path
    line: int
    crate: str
    module: str
    name: str
    owner: str  # the type's own name, or ""
    trait: str  # the trait's own name, or ""
    generics: Generics = field(compare=False)
    params: tuple[tuple[tuple[str, ...], Type], ...] = field(compare=False)
    result: Type = field(compare=False)
    owner_type: Type = field(compare=False)
    body: tuple[str, ...] | None = field(compare=False)

    @property
    def full_name(self) -> str:
        return "::".join(filter(None, (self.crate, self.module, self.owner, self.name)))


@dataclass
class File:
    """A file of code: its crate, the path of its module, what it imports and what it defines."""

    path: Path
    crate: str
    module: str
    imports: dict[str, tuple[str, ...]] = field(default_factory=dict)
    functions: list[Function] = field(default_factory=list)
    fields: dict[str, dict[str, Type]] = field(default_factory=dict)  # of structs; of variants as Enum::Variant
    params: dict[str, tuple[str, ...]] = field(default_factory=dict)
    traits: set[str] = field(default_factory=set)
    aliases: dict[str, Type] = field(default_factory=dict)
    constants: dict[str, Type] = field(default_factory=dict)
    bounds: dict[str, Generics] = field(default_factory=dict)  # of a trait's associated types


def stripped(code: str) -> str:
    """Blanks attributes, clauses and ghost items."""
    for pattern, opening in ((re.compile(r"#!?\["), "["), (CLAUSE, "{"), (GHOST, "")):
        place = 0
        while at := pattern.search(code, place):
            end = item_end(code, at.start()) if not opening else balanced(code, at.end() - 1)
            blank = re.sub(r"[^\n]", " ", code[at.start() : end + 1])
            code, place = code[: at.start()] + blank + code[end + 1 :], end + 1
    return code


def balanced(text: str, start: int) -> int:
    if text[start] == "{":
        return closing_brace(text, start)
    depth = 0
    for at in range(start, len(text)):
        depth += (text[at] == "[") - (text[at] == "]")
        if depth == 0:
            return at
    return len(text) - 1


def item_end(text: str, start: int) -> int:
    """Finds the mark that ends a ghost item, or a ghost field."""
    depth = 0
    for at in range(start, len(text)):
        depth += (text[at] in OPENING) - (text[at] in CLOSED)
        if text[at] in (";", ",") and depth == 0:
            return at
    return len(text) - 1
