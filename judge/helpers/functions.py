"""Finds the functions of a text of src/: by which name the prover tells of each, and where its body stands."""

import re
from dataclasses import dataclass

# What hides a brace, what opens and closes, and what begins a function or a room of functions.
TOKEN = re.compile(
    r"""//[^\n]*|b?"(?:\\.|[^"\\])*"|b?'(?:\\[^']+|[^'\\\n])'|[][(){};]|\bfn\s+\w+|^ *(?:pub )?(?:impl|trait|mod)\b[^{\n]*""",
    re.DOTALL | re.MULTILINE,
)
ROOM = re.compile(r"(?:pub )?(impl|trait|mod)\b")
CLAUSE = re.compile(r"\b(requires|ensures|ghost)\*?(\s+\w+)?\s*:?\s*$")


@dataclass(frozen=True)
class Function:
    """A function: the end of its name by which the prover finds it, where it begins, and where its body begins and ends."""

    path: str
    start: int
    body: int
    end: int


@dataclass
class Begun:
    """A function whose end was not read yet: so many brackets are open around it."""

    name: str
    start: int
    depth: int
    body: int | None = None


def module_of(file):
    """Returns the module that a file of src/ is, as `row::entries` of src/row/entries.rt."""
    parts = file.removeprefix("src/").removesuffix(".rt").split("/")
    return "::".join(it for it in parts if it not in ("lib", "main", "mod"))


def room_of(head):
    """Returns the name that the prover gives to what stands in an `impl` (`RowKeyOrd`), a `trait` or a `mod`."""
    head = re.sub(r"\bwhere\b.*", "", head)
    while "<" in head:
        head = re.sub(r"<[^<>]*>", "", head)
    kind, *names = head.replace(":", " ").split()
    name = names[names.index("for") + 1] if kind == "impl" and "for" in names else names[0]
    return name[:1].upper() + name[1:] + (names[0] if "for" in names else "")


def functions_of(file, text):
    """Returns the functions of a file of src/ that have a body. A method is found by its type, wherever that stands."""
    found, rooms, begun, room = [], [], [], ""
    for at in TOKEN.finditer(text):
        token = at[0].strip()
        if token.startswith("fn "):
            begun.append(Begun(token.split()[1], at.start(), len(rooms)))
        elif ROOM.match(token):
            room = room_of(token.removeprefix("pub "))
        elif token in "([{":
            own = begun and begun[-1].depth == len(rooms)
            if own and token == "{" and not CLAUSE.search(text[max(at.start() - 200, 0) : at.start()]):
                begun[-1].body = at.start()
            rooms.append(room if token == "{" else "")
            room = "" if token == "{" else room
        elif token in ")]}":
            rooms.pop()
            if begun and begun[-1].depth == len(rooms) and begun[-1].body is not None:
                it = begun.pop()
                within = [name for name in rooms if name] or [module_of(file)]
                found.append(Function("::".join(filter(None, (*within, it.name))), it.start, it.body, at.end()))
        elif token == ";" and begun and begun[-1].depth == len(rooms):
            begun.pop()
    return found
