"""Counts of the definitions and of the clauses that name them."""

import re
from collections import Counter, defaultdict

from helpers.definitions import BUILT_IN, Definition, Module, without_comments
from helpers.house_tree import House, Item

SHORT = 3
MANY_ARGUMENTS = 7
PARALLELS = ("desk_history", "desk_book")
ABBREVIATIONS = ("abbrev", "unfoldable")
TOKEN = re.compile(r'"(?:\\.|[^"\\])*"|[A-Za-z_][\w\']*(?:\.[\w\']+)*|\d[\d_]*|\S')
PIECE = re.compile(r'"(?:\\.|[^"\\])*"|[A-Za-z_][\w\']*(?:\.[\w\']+)*|\d[\d_]*|[(){}\[\]⟦⟧,;.]|[^\s\w(){}\[\],;.⟦⟧"]+')
CLOSING = {"(": ")", "[": "]", "{": "}", "⟦": "⟧"}
NO_HEAD = {"let", "in", "record", "where", "λ", "if", "then", "else", "match", "do"}


def one_use(house: House) -> list[Item]:
    """Finds the short definitions that one clause or one definition names. Definitions that no clause rests on name nothing."""
    by_definitions: Counter[Definition] = Counter(own for user in house.live for own in house.rests_on.get(user, ()))
    by_clauses: Counter[Definition] = Counter(own for clause in house.clauses for own in clause.names)
    found = []
    for own in house.definitions:
        if own.lines <= SHORT and by_definitions[own] + by_clauses[own] == 1:
            found.append(house.item(own, f"{own.name}, of {'a clause' if by_clauses[own] else 'a definition'}, {own.lines} lines"))
    return found


def of_one_clause(house: House) -> list[Item]:
    return [it for it in one_use(house) if ", of a clause, " in it.text]


def proofs_alone(house: House) -> list[Item]:
    """Finds the definitions that no clause rests on."""
    return [house.item(own) for own in house.definitions if own not in house.live]


# ---- names ----

def shared_names(house: House) -> list[tuple[str, list[Definition]]]:
    """Finds the names that abbreviations have in several files. A history and its book share theirs on purpose."""
    by_name: dict[str, list[Definition]] = defaultdict(list)
    for own in house.definitions:
        if own.text.startswith(ABBREVIATIONS):
            by_name[own.name].append(own)
    found = []
    for name, owns in sorted(by_name.items()):
        homes = {"both" if house.crate(it.path) in PARALLELS else str(it.path) for it in owns}
        if len(homes) > 1:
            found.append((name, owns))
    return found


def two_meanings(house: House) -> list[Item]:
    return [group(house, name, owns) for name, owns in shared_names(house)]


def two_meanings_of_facts(house: House) -> list[Item]:
    """A fact's name begins with a capital letter."""
    return [group(house, name, owns) for name, owns in shared_names(house) if name[0].isupper()]


def other_names(house: House) -> list[Item]:
    """Finds the names that records, data or plain definitions share with another definition."""
    by_name: dict[str, list[Definition]] = defaultdict(list)
    for own in house.definitions:
        by_name[own.name].append(own)
    known = {name for name, _ in shared_names(house)}
    return [group(house, name, owns) for name, owns in sorted(by_name.items())
            if name not in known and len({"both" if house.crate(it.path) in PARALLELS else it.path for it in owns}) > 1]


def group(house: House, name: str, owns: list[Definition]) -> Item:
    first, *others = owns
    places = ", ".join(f"{it.path.relative_to(house.crates)}:{it.first}" for it in others)
    return house.item(first, f"{name}, also {places}")


# ---- equal definitions ----

def equal_definitions(house: House) -> list[Item]:
    """Finds groups of definitions that are the same, whatever they and their variables are called."""
    groups: dict[str, list[Definition]] = defaultdict(list)
    for module in house.modules:
        text = without_comments(module.path.read_text(), strings=True).split("\n")
        for own in module.definitions:
            if not own.text.startswith(("record", "data", "pub record", "pub data")):
                groups[meaning_of(house, module, own, "\n".join(text[own.first - 1 : own.last]))].append(own)
    return [group(house, owns[0].name, owns) if len({it.name for it in owns}) == 1 else named_group(house, owns)
            for owns in groups.values() if len(owns) > 1]


def named_group(house: House, owns: list[Definition]) -> Item:
    places = ", ".join(f"{it.name} {it.path.relative_to(house.crates)}:{it.first}" for it in owns[1:])
    return house.item(owns[0], f"{owns[0].name}, the same as {places}")


def meaning_of(house: House, module: Module, own: Definition, text: str) -> str:
    """Writes a definition with each name replaced by what it means, and each variable by its place among them."""
    words = TOKEN.findall(re.sub(r"\b(pub|abbrev|unfoldable|unfolding)\b", "", text))
    variables: dict[str, int] = {}
    written = [own.outer]
    for at, word in enumerate(words):
        is_label = 0 < at < len(words) - 1 and words[at - 1] in "{;" and words[at + 1] == "="
        first, _, rest = word.partition(".")
        if first == own.name:
            written.append("itself")
        elif not re.match(r"[A-Za-z]", word) or is_label or first in BUILT_IN:
            written.append(word)
        else:
            written.append(full_name(house, module, first, rest) or f"{variables.setdefault(first, len(variables))}.{rest}")
    return " ".join(written)


def full_name(house: House, module: Module, first: str, rest: str) -> str:
    """Returns the path of a name, or nothing if it is a variable."""
    if first in module.aliases:
        return f"{module.aliases[first]}.{rest}"
    if first in module.imports:
        at = module.imports[first]
        meant = house.tree.named(at.module, at.name)
        home = f"{meant.path}.{at.name}" if isinstance(meant, Definition) else str(meant)
        return f"{home}.{rest}"
    return f"{module.path}.{first}.{rest}" if first in module.names else ""


# ---- arguments ----

def widest(text: str) -> list[tuple[str, int]]:
    """Returns each word of a clause that is applied, with the number of its explicit arguments, in the order in which they end."""
    words, found = PIECE.findall(text), []

    def read(at: int, end: str) -> int:
        head: tuple[str, int] | None = None
        while at < len(words):
            word = words[at]
            if word == end:
                break
            if word in CLOSING:
                at = read(at + 1, CLOSING[word])
                while at + 1 < len(words) and words[at] == ".":
                    at += 2
                if word != "{":
                    head = (head[0], head[1] + 1) if head else ("", 0)
                continue
            if re.match(r'["A-Za-z_\d]', word) and word not in NO_HEAD:
                head = (head[0], head[1] + 1) if head else (word, 0)
            else:
                found.extend([head] if head else [])
                head = None
            at += 1
        found.extend([head] if head else [])
        return at + 1

    read(0, "")
    return [it for it in found if it[0]]


def wide_clauses(house: House) -> list[tuple[Item, bool]]:
    """Finds the clauses with a word of many arguments, and whether they begin with the one that has most."""
    found = []
    for clause in house.clauses:
        word, count = max(widest(clause.text), key=lambda it: it[1], default=("", 0))
        if count >= MANY_ARGUMENTS:
            begins = clause.kind != "ghost" and re.match(rf"\s*{re.escape(word)}\b", clause.text) is not None
            found.append((Item(clause.path, clause.line, f"{word} has {count} arguments"), begins))
    return found


def many_arguments(house: House) -> list[Item]:
    return [item for item, begins in wide_clauses(house) if begins]


def many_arguments_inside(house: House) -> list[Item]:
    return [item for item, begins in wide_clauses(house) if not begins]
