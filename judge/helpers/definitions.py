"""Reads definitions (specs/), code types and statements of laws, and finds what each of them names."""

import functools
import re
from collections import namedtuple
from dataclasses import dataclass, field
from pathlib import Path

TOP = Path(__file__).resolve().parent.parent.parent
CRATES = TOP / "crates"
WORD = re.compile(r"(?<![\w'.])[A-Za-z_][\w'-]*(?:\.[\w']+)*")
# Marks that antt itself has; the toolchain's library defines every other one.
MARKS = set("→λ=:(){}[];,._∀⟦⟧|@←") | {"←"}
BUILT_IN = {"Type", "Unit", "tt", "absurd", "unfolding", "by", "record", "data", "where", "let", "in", "abbrev", "mutual", "pub", "unfoldable", "module", "_", "match", "do", "with", "as", "mod", "use", "if", "then", "else"}
STARTS = re.compile(r"(abbrev|unfoldable|unfolding|pub|record|data)\b|[\w'-]+ : ")
HEAD = re.compile(r"(?:(?:abbrev|unfoldable|unfolding)\s+)*(?:pub\s+)?(?:(record|data)\s+)?(?P<name>[^\s(){}:]+)")
Import = namedtuple("Import", "module name")


class Unknown(Exception):
    """A name that nothing defines, or a line that is no definition."""


@dataclass(frozen=True)
class Definition:
    """A definition, or a code type: its module, its name, its lines (from 1), and its text without comments."""

    module: str
    name: str
    path: Path
    first: int
    last: int
    text: str = field(compare=False, default="")
    outer: str = field(compare=False, default="")  # the parameters of the module around it
    kind: str = field(compare=False, default="definition")

    @property
    def lines(self):
        """How many lines it has, without comments and blank lines."""
        return sum(1 for it in self.text.split("\n") if it.strip())


@dataclass
class Module:
    """A file of definitions: what it imports, and what each name that it defines means."""

    name: str
    path: Path
    aliases: dict = field(default_factory=dict)
    imports: dict = field(default_factory=dict)
    names: dict = field(default_factory=dict)
    definitions: list = field(default_factory=list)


def without_comments(text, strings=False):
    """Blanks comments, and what quotes hold unless strings are kept, so that lines keep their numbers."""
    text = text if strings else re.sub(r'"(?:\\.|[^"\\])*"', '""', text)
    return "\n".join(re.sub(r"(^|\s)--(\s.*|$)", "", line).rstrip() for line in text.split("\n"))


def read_imports(module, line):
    """Reads a line `use PATH.{NAMES}` or `use PATH as NAME`, also `ghost use` of code."""
    at = re.fullmatch(r"\s*(?:ghost |pub )?use ([\w.]+?)(?:\.\{(.*)\}| as (\w+));?", line)
    if not at:
        raise Unknown(f"{module.path}: {line.strip()} is no import")
    path, names, alias = at.groups()
    if alias:
        module.aliases[alias] = path
        return
    for it in names.split(","):
        name, _, own = it.strip().partition(" as ")
        module.imports[own or name] = Import(path, name)


def blocks_of(lines):
    """Returns the definitions among lines, each as (first, last, indentation, parameters of the modules around it)."""
    found, rooms, head = [], [], None  # rooms: the modules around a line, each with its indentation and its parameters
    for number, line in enumerate(lines):
        indent = len(line) - len(line.lstrip())
        if head is not None:
            head[1] += " " + line.strip()
        elif not line.strip() or re.match(r"(pub )?(use|mod) |infix[lr]? ", line):
            continue
        else:
            while rooms and indent < rooms[-1][0]:
                rooms.pop()
            base = rooms[-1][0] if rooms else 0
            if indent == base and re.match(r"(module _|(abbrev )?mutual$)", line.strip()):
                head = [indent + 2, line.strip()]
            elif indent == base and STARTS.match(line.strip()):
                found.append([number, number, base, " ".join(it[1] for it in rooms)])
                continue
            elif found:
                found[-1][1] = number
                continue
            else:
                raise Unknown(f"line {number + 1} is in no definition: {line.strip()}")
        if head is not None and (head[1].endswith(" where") or head[1].endswith("mutual")):
            rooms.append((head[0], head[1].removeprefix("module _").removesuffix("where") if head[1].startswith("module") else ""))
            head = None
    return found


def read_module(name, path):
    """Reads a file of definitions."""
    module, lines = Module(name, path), without_comments(path.read_text()).split("\n")
    for line in lines:
        if re.match(r"(pub )?use ", line):
            read_imports(module, line)
    for first, last, base, outer in blocks_of(lines):
        text = "\n".join(it[base:] for it in lines[first : last + 1])
        at = HEAD.match(text)
        own = Definition(name, at["name"], path, first + 1, last + 1, text, outer)
        module.definitions.append(own)
        module.names[at["name"]] = own
        if at[1] == "data":
            for it in re.findall(r"^  ([^\s:]+)(?: [^:\n]*)? :", text, re.M):
                module.names[it] = own
        elif at[1] == "record":
            for it in re.findall(r"^  (?:constructor )?(?:pub )?([^\s:]+) ?:", text, re.M):
                module.names.setdefault(it, own)
    return module


# ---- names ----

def bound_in(text):
    """Returns the names that a piece of a definition binds."""
    found = set()
    for it in re.findall(r"[({]\s*([^(){}:;=→]+?)\s*:(?!:)", text):
        found |= set(re.findall(r"[\w']+", it))
    for it in re.findall(r"λ\s*((?:[^.λ]|\.\d)*?)\.(?=\s|$)", text):
        found |= set(re.findall(r"[\w']+", it))
    for it in re.findall(r"\blet\b\s*([^=;{}→]+?)\s*(?::[^=;]*)?=(?!=)", text):
        found |= set(re.findall(r"[\w']+", it))
    for it in re.findall(r"^\s+(?:pub )?([\w']+) : ", text, re.M):
        found.add(it)
    for it in re.findall(r"([\w'() ∷,]+?)\s*←", text):
        found |= set(re.findall(r"[\w']+", it))
    return found


def without_labels(text):
    """Drops the labels of records: `day = ` in `record { day = x; .. }`."""
    return re.sub(r"([{;]\s*)[\w']+(\s*=(?!=))", r"\1\2", text)


def pieces_of(own):
    """Splits a definition into its signature and its equations, each with the names that it binds."""
    lines, pieces = own.text.split("\n"), []
    for line in lines:
        starts = line.strip() and line[0] not in " })]"
        if starts and pieces and not STARTS.match(line):
            pieces.append(line)
        elif starts:
            pieces.append(line)
        elif pieces:
            pieces[-1] += "\n" + line
    for number, piece in enumerate(pieces):
        bound = bound_in(own.outer) | bound_in(piece)
        if number:
            lefts = [left_of(piece), *(left_of(it) for it in piece.split("\n")[1:] if " where" in piece)]
            yield piece, bound, {it for left in lefts for it in re.findall(r"(?<![\w'.])[\w']+", left) if it != own.name}
        else:
            yield piece, bound, set()
    if own.outer:
        yield own.outer, bound_in(own.outer), set()


def left_of(equation):
    """Returns the left side of an equation, which may have `{A = B}` in it, or nothing where there is no equation."""
    depth = 0
    for at, mark in enumerate(equation):
        depth += (mark in "({") - (mark in ")}")
        if mark == "=" and depth == 0 and equation[at - 1] in " \n" and equation[at + 1 : at + 2] in ("", " ", "\n"):
            return equation[:at]
    return ""


class Tree:
    """The definitions of all crates."""

    def __init__(self, crates=CRATES):
        self.crates, self.modules, self.codes = crates, {}, {}

    def is_own(self, path):
        part = path.split(".")
        return part[0] == "Rattle" and len(part) > 1 and (self.crates / part[1]).is_dir()

    def module(self, path):
        """Returns the module of definitions with this path."""
        if path not in self.modules:
            part = path.split(".")
            file = self.crates / part[1] / "/".join(part[2:])
            file = file.with_name(file.name + ".antt")
            if not file.is_file():
                raise Unknown(f"{path} is no file of definitions")
            self.modules[path] = read_module(path, file)
        return self.modules[path]

    def resolve(self, module, word):
        """Returns what a word means in a module: a definition, the path of a toolchain's word, or None where it is not known."""
        first, *rest = word.split(".")
        if first in module.aliases:
            return self.named(module.aliases[first], rest[0] if rest else "")
        if first in module.imports:
            at = module.imports[first]
            return self.named(at.module, at.name)
        return module.names.get(first)

    def named(self, path, name):
        """Returns what a module defines under a name."""
        if not self.is_own(path):
            return f"{path}.{name}"
        if ".specs.declared." in path or path.endswith(".specs.declared"):
            return self.code(path, name)
        module = self.module(path)
        if name in module.names:
            return module.names[name]
        if name in module.imports or name in module.aliases:
            return self.resolve(module, name)
        raise Unknown(f"{path} has no {name}")

    # ---- code ----

    def code(self, path, name):
        """Returns the code type, constant or trait that a path of `declared` names."""
        part = path.split(".")
        crate, inner = part[1], part[4:]
        variants = bool(inner) and inner[-1] in ("TheVariants", "TheConstants")
        if variants and inner[-1] == "TheConstants":
            return self.code_item(crate, inner[:-1], name, "const")
        inner = inner[:-1] if variants else inner
        return self.code_item(crate, inner[:-1], inner[-1] if inner else name, "type")

    def code_item(self, crate, modules, name, kind):
        key = (crate, tuple(modules), name)
        if key not in self.codes:
            base = self.crates / crate / "src"
            files = [base.joinpath(*modules[:-1], f"{modules[-1]}.rt"), base.joinpath(*modules, "mod.rt")] if modules else [base / "lib.rt"]
            self.codes[key] = next(filter(None, (item_in(it, crate, name) for it in files if it.is_file())), None)
            if self.codes[key] is None:
                raise Unknown(f"no code of {crate} is {'::'.join([*modules, name])}")
        return self.codes[key]

    def uses_of_code(self, item):
        """Returns what a code type rests on: the own types of its fields, and the words of its view."""
        found, text = set(), item.path.read_text()
        imports = code_imports(text)
        for word in set(re.findall(r"\b[A-Z]\w*", item.text)) - {item.name}:
            here = item_in(item.path, item.module, word)
            if here:
                found.add(here)
            elif word in imports:
                found |= self.code_by_use(item.module, imports[word], word)
        return found

    def code_by_use(self, crate, path, word):
        """Returns the own type that a `use` item of code brings, found by its name in its crate."""
        first = path.split("::")[0]
        crate = crate if first in ("crate", "super", "self") else first
        base = self.crates / crate / "src"
        if not base.is_dir():
            return set()
        for file in sorted(base.rglob("*.rt")):
            item = item_in(file, crate, word)
            if item:
                return {item}
        return set()

    # ---- what a definition names ----

    def uses(self, own):
        """Returns the definitions and the toolchain's words that a definition names. A name that nothing defines is an error."""
        if own.kind != "definition":
            return self.uses_of_code(own)
        module, found = self.module(own.module), set()
        for piece, bound, left in pieces_of(own):
            text = without_labels(piece)
            for word in WORD.findall(text):
                first = word.split(".")[0]
                if first in BUILT_IN or first in bound and first not in module.aliases:
                    continue
                meant = self.resolve(module, word)
                if first in left and is_variable(meant):
                    continue
                if meant is None and first not in left:
                    raise Unknown(f"{own.path.relative_to(self.crates.parent)}:{own.first}: {own.name}: {word} is not defined")
                if meant is not None and meant != own:
                    found.add(meant)
            found |= self.operators(module, text) - {own}
        return found | self.behind_fields(module, own)

    def behind_fields(self, module, own):
        """Returns what a record names in the type of a field that has the same name."""
        fields = re.findall(r"^  (?:pub )?([\w']+) : (.*)$", own.text, re.M) if " record " in f" {own.text}" else []
        named = {name for name, kind in fields if re.search(rf"(?<![\w'.]){re.escape(name)}(?![\w'])", kind)}
        return {self.resolve(module, it) for it in named} - {own, None}

    def operators(self, module, text):
        """Returns what the operators mean that a text has."""
        found = set()
        meanings = {**{it: own for it, own in module.names.items() if "◌" in it}, **module.imports}
        for name, at in meanings.items():
            parts = [it for it in re.split("◌", name) if it]
            is_mark = "◌" in name or not re.fullmatch(r"[\w']+", name)
            if name == "◌>>=◌" and "←" in text:
                found.add(at if isinstance(at, Definition) else self.named(at.module, at.name))
            if is_mark and parts and all(re.search(rf"(?<![^\s()]){re.escape(it)}(?![^\s()])|\[\]" if it == "[]" else re.escape(it), text) for it in parts):
                found.add(at if isinstance(at, Definition) else self.named(at.module, at.name))
        return found

    def closure(self, starts, closed=()):
        """Returns all that definitions rest on, themselves too: each after those that it names. Closed names are followed no further."""
        order, seen = [], set()

        def visit(own):
            stack = [(own, None)]
            while stack:
                it, below = stack.pop()
                if below is None:
                    if it in seen:
                        continue
                    seen.add(it)
                    names = [] if isinstance(it, str) or it.name in closed else sorted(self.uses(it), key=str)
                    stack.append((it, names))
                    stack += [(other, None) for other in reversed(names) if other not in seen]
                else:
                    order.append(it)

        for it in starts:
            visit(it)
        return order


def is_variable(meant):
    """Tells whether a word on the left of an equation is a variable, though a definition has its name: patterns name constructors alone."""
    return isinstance(meant, Definition) and meant.kind == "definition" and re.search(r"^(pub )?data ", meant.text) is None


@functools.lru_cache(maxsize=None)
def text_of(path):
    return re.sub(r"//[^\n]*", "", path.read_text())


def code_imports(text):
    """Returns of each name that `use` items of code bring, its path."""
    found = {}
    for path, names in re.findall(r"^(?:pub(?:\(\w+\))? )?use ([\w:]+)::\{([^}]*)\};", text, re.M):
        for it in re.findall(r"\w+", names):
            found[it] = path
    for path, name in re.findall(r"^(?:pub(?:\(\w+\))? )?use ([\w:]+)::(\w+);", text, re.M):
        found[name] = path
    return found


def item_in(path, crate, name):
    """Returns a type or constant of a file of code, with its view as a model where it has one."""
    text = text_of(path)
    at = re.search(rf"^(?:pub(?:\([\w:]+\))? )?(?:struct|enum|const|trait|type) {re.escape(name)}\b", text, re.M)
    if not at:
        return None
    first = text.count("\n", 0, at.start()) + 1
    end = closing(text, at.start())
    last = text.count("\n", 0, end) + 1
    body = text[at.start() : end + 1]
    view = re.search(rf"^impl Model for {re.escape(name)} \{{", text, re.M)
    if view:
        body += "\n" + text[view.start() : closing(text, view.start()) + 1]
    return Definition(crate, name, path, first, last, body, "", "code")


def closing(text, start):
    """Returns where an item of code ends: at its `;`, or at the brace that closes its first one."""
    depth = 0
    for at in range(start, len(text)):
        if text[at] in "{([":
            depth += 1
        elif text[at] in "})]":
            depth -= 1
            if depth == 0 and text[at] == "}":
                return at
        elif text[at] == ";" and depth == 0:
            return at
    return len(text) - 1
