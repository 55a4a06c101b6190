"""Reads a checkout for the counts of the house: its files, its definitions, and the clauses that name them."""

import re
from collections.abc import Iterator
from dataclasses import dataclass, field
from functools import cached_property
from pathlib import Path

from helpers.definitions import Definition, Module, Tree, read_imports

WORD = re.compile(r"(?<![\w.'])[A-Za-z_][\w']*(?:\.[\w']+)*")
CLAUSE = re.compile(r"(?<![\w.])(?:(requires|ensures)(?: \w+)? \{|ghost \w+(?:<[^>]*>)?(?:: | = )\{)")
IMPORT = re.compile(r"^ *ghost use .*?;", re.M)
EXAMPLES = "documented_examples"


@dataclass(frozen=True)
class Item:
    """What a count counts: where it is, and what is to be seen there."""

    path: Path
    line: int
    text: str


@dataclass(frozen=True)
class Clause:
    """A clause of a contract, or a ghost member: where it is, its text, and the definitions that it names."""

    path: Path
    line: int
    kind: str
    text: str = field(compare=False)
    names: frozenset[Definition] = field(compare=False)


class NoCheckout(Exception):
    """A folder that has no crates, or whose code cannot be read."""


class House:
    """A checkout. The product is all crates but those of tests and of examples."""

    def __init__(self, top: Path):
        self.top = top.resolve()
        self.crates = self.top / "crates"
        if not self.crates.is_dir():
            raise NoCheckout(f"{top} has no folder crates")
        self.tree = Tree(self.crates)

    # ---- files ----

    def crate(self, path: Path) -> str:
        return path.relative_to(self.crates).parts[0]

    def is_product(self, path: Path) -> bool:
        crate = self.crate(path)
        return not crate.startswith("tests_of") and crate != EXAMPLES

    @cached_property
    def sources(self) -> list[Path]:
        """The files of code, those of tests too."""
        return sorted(self.crates.glob("*/src/**/*.rt"))

    @cached_property
    def product(self) -> list[Path]:
        """The files of the product's code."""
        return [path for path in self.sources if self.is_product(path)]

    @cached_property
    def specs(self) -> list[Path]:
        """The files of definitions, without those that only list others."""
        return [path for path in self.all_specs if path.name != "Lib.antt"]

    @cached_property
    def all_specs(self) -> list[Path]:
        return sorted(self.crates.glob("*/specs/**/*.antt"))

    def proofs(self) -> list[Path]:
        return sorted(self.crates.glob("*/proofs/**/*.antt"))

    # ---- definitions, and what names them ----

    @cached_property
    def modules(self) -> list[Module]:
        found = []
        for path in self.specs:
            parts = path.relative_to(self.crates).with_suffix("").parts
            found.append(self.tree.module(".".join(["Rattle", *parts])))
        return found

    @cached_property
    def definitions(self) -> list[Definition]:
        return [own for module in self.modules for own in module.definitions]

    @cached_property
    def rests_on(self) -> dict[Definition, frozenset[Definition]]:
        """The definitions that each definition names."""
        return {own: definitions_among(self.tree.uses(own)) for own in self.definitions}

    @cached_property
    def live(self) -> set[Definition]:
        """The definitions that a clause names, directly or through others."""
        found: set[Definition] = set()
        left = [own for clause in self.clauses for own in clause.names]
        while left:
            own = left.pop()
            if own not in found:
                found.add(own)
                left += self.rests_on.get(own, ())
        return found

    @cached_property
    def clauses(self) -> list[Clause]:
        return [clause for path in self.sources for clause in self.clauses_in(path)]

    def clauses_in(self, path: Path) -> Iterator[Clause]:
        """Reads the clauses of a file of code, with the names that its ghost imports give them."""
        text = re.sub(r"//[^\n]*", "", path.read_text())
        module = Module(f"Rattle.{self.crate(path)}.code", path)
        for line in IMPORT.findall(text):
            read_imports(module, line.strip())
        for at in CLAUSE.finditer(text):
            start = text.index("{", at.start())
            own = text[start + 1 : closing_brace(text, start)]
            line = text.count("\n", 0, at.start()) + 1
            yield Clause(path, line, at[1] or "ghost", own, self.named_in(module, own))

    def named_in(self, module: Module, text: str) -> frozenset[Definition]:
        """Finds the definitions that a clause names."""
        meant = {self.tree.resolve(module, word) for word in WORD.findall(text)}
        return definitions_among(meant | self.tree.operators(module, text))

    def item(self, own: Definition, text: str = "") -> Item:
        return Item(own.path, own.first, text or own.name)


def definitions_among(meant: set[object]) -> frozenset[Definition]:
    return frozenset(it for it in meant if isinstance(it, Definition) and it.kind == "definition")


def closing_brace(text: str, start: int) -> int:
    """Finds the brace that closes the one at a place."""
    depth = 0
    for at in range(start, len(text)):
        depth += (text[at] == "{") - (text[at] == "}")
        if depth == 0:
            return at
    return len(text)


def code_of(path: Path) -> str:
    """Returns a file of code without comments and without what its texts hold. Lines keep their numbers."""
    kept = re.compile(r'(?:\bb)?"(?:\\.|[^"\\])*"|(?:\bb)?' + r"'(?:\\(?:x..|u\{\w+\}|.)|[^\\'])'|//[^\n]*", re.S)

    def blank(at: re.Match[str]) -> str:
        text = at[0]
        return ("" if text.startswith("//") else '""' if text.endswith('"') else "0") + "\n" * text.count("\n")

    return kept.sub(blank, path.read_text())


def lines_of(path: Path) -> list[str]:
    return path.read_text().splitlines()
