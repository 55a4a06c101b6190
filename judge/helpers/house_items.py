"""Reads the items of a file of code: functions with their bodies, types with their fields, traits, impls and imports."""

from pathlib import Path

from helpers.house_functions import CLOSED, OPENING, TOKEN, UNKNOWN, File, Function, Generics, Type, stripped
from helpers.house_tree import House, NoCheckout, code_of


class Items:
    """Reads the items of a file."""

    def __init__(self, file: File, code: str):
        self.file, self.code = file, stripped(code)
        marks = list(TOKEN.finditer(self.code))
        self.words, self.places, self.at = [it[0] for it in marks], [it.start() for it in marks], 0

    def word(self, ahead: int = 0) -> str:
        place = self.at + ahead
        return self.words[place] if place < len(self.words) else ""

    def take(self, word: str = "") -> bool:
        """Takes a word if it comes next. Behind the last one nothing is expected."""
        if self.at >= len(self.words):
            raise IndexError
        if word and self.word() != word:
            return False
        self.at += 1
        return True

    def take_if(self, word: str) -> None:
        """Takes a word that may come next, or nothing at the end."""
        self.at += self.word() == word

    def skip_group(self) -> tuple[int, int]:
        """Skips a bracketed group, and returns where its inside begins and ends."""
        start, depth = self.at, 0
        while self.at < len(self.words):
            depth += (self.word() in OPENING) - (self.word() in CLOSED)
            self.at += 1
            if depth == 0:
                break
        return start + 1, self.at - 1

    # ---- items ----

    def items(self, owner: Type = UNKNOWN, trait: str = "", generics: Generics = ()) -> None:
        """Reads items up to the end, or to the brace that closes them."""
        while self.at < len(self.words) and self.word() != "}":
            word = self.word()
            self.at += 1
            if word == "use":
                self.read_use(())
            elif word in ("struct", "enum"):
                self.read_type(word)
            elif word == "type":
                self.read_alias(trait)
            elif word in ("const", "static") and self.word() not in ("fn", "unsafe"):
                self.read_constant()
            elif word == "trait":
                self.read_trait()
            elif word == "impl":
                self.read_impl()
            elif word == "fn":
                self.read_function(owner, trait, generics)
            elif word == "{":
                self.at -= 1
                self.skip_group()
        self.take_if("}")

    def read_use(self, head: tuple[str, ...]) -> None:
        path = head
        while self.word() not in (";", ",", "}", ""):
            if self.take("{"):
                while not self.take("}"):
                    self.read_use(path)
                    self.take(",")
                return
            if self.take("as"):
                self.file.imports[self.word()] = path
                self.at += 1
                return
            if not self.take("::"):
                path = (*path, self.word())
                self.at += 1
        name = path[-1] if path else ""
        path = path[:-1] if name == "self" else path
        if path:
            self.file.imports[path[-1]] = path

    def read_type(self, kind: str) -> None:
        name, _ = self.word(), self.take()
        self.file.params[name] = tuple(it for it, _ in self.generics())
        self.skip_where()
        if kind == "struct":
            self.file.fields[name] = self.fields()
            self.take_if(";")
            return
        self.take("{")
        self.file.fields[name] = {}
        while not self.take("}"):
            variant, _ = self.word(), self.take()
            self.file.fields[f"{name}::{variant}"] = self.fields()
            while self.word() not in (",", "}", ""):
                self.at += 1
            self.take(",")

    def fields(self) -> dict[str, Type]:
        """Reads the fields of a struct or of a variant; without names they are numbered."""
        found: dict[str, Type] = {}
        if self.word() not in ("{", "("):
            return found
        named, end = self.word() == "{", {"{": "}", "(": ")"}[self.word()]
        self.at += 1
        while not self.take(end):
            self.skip_visibility()
            name = self.word() if named else str(len(found))
            if named:
                self.at += 2
            found[name] = self.read_one_type()
            self.take(",")
        return found

    def skip_visibility(self) -> None:
        if self.take("pub") and self.word() == "(" and self.word(1) in ("crate", "super", "in", "self"):
            self.skip_group()

    def read_alias(self, trait: str) -> None:
        name, _ = self.word(), self.take()
        self.generics()
        if self.take(":"):
            self.file.bounds[f"{trait}::{name}"] = ((name, tuple(self.bounds())),)
        if self.take("="):
            self.file.aliases[name] = self.read_one_type()
        self.take(";")

    def read_constant(self) -> None:
        name, _ = self.word(), self.take()
        if self.take(":"):
            self.file.constants[name] = self.read_one_type()
        depth = 0
        while self.at < len(self.words) and (depth or self.word() != ";"):
            depth += (self.word() in OPENING) - (self.word() in CLOSED)
            self.at += 1

    def read_trait(self) -> None:
        name, _ = self.word(), self.take()
        self.file.traits.add(name)
        generics = self.generics()
        if self.take(":"):
            self.bounds()
        self.skip_where()
        self.take("{")
        self.items(Type("Self"), name, (*generics, ("Self", (name,))))

    def read_impl(self) -> None:
        generics, trait = self.generics(), ""
        owner = self.read_one_type()
        if self.take("for"):
            trait, owner = owner.name, self.read_one_type()
        generics += self.skip_where()
        self.take("{")
        self.items(owner, trait, generics)

    def read_function(self, owner: Type, trait: str, generics: Generics) -> None:
        name, line = self.word(), self.code.count("\n", 0, self.places[self.at]) + 1
        self.at += 1
        own = self.generics()
        params = self.params(owner)
        result = self.read_one_type() if self.take("->") else Type("()")
        own += self.skip_where()
        body = None
        if self.word() == "{":
            first, last = self.skip_group()
            body = tuple(self.words[first - 1 : last + 1])
        self.take_if(";")
        of = owner.name if owner != UNKNOWN else ""
        file = self.file
        file.functions.append(Function(file.path, line, file.crate, file.module, name, of, trait, generics + own, params, result, owner, body))

    def params(self, owner: Type) -> tuple[tuple[tuple[str, ...], Type], ...]:
        found: list[tuple[tuple[str, ...], Type]] = []
        self.take("(")
        while not self.take(")"):
            pattern: list[str] = []
            depth = 0
            while self.word() and (depth or self.word() not in (":", ",", ")")):
                depth += (self.word() in OPENING) - (self.word() in CLOSED)
                pattern.append(self.word())
                self.at += 1
            kind = self.read_one_type() if self.take(":") else owner
            found.append((tuple(pattern), kind))
            self.take(",")
        return tuple(found)

    # ---- types ----

    def generics(self) -> Generics:
        found = []
        if not self.take("<"):
            return ()
        while not self.take(">"):
            self.take("const")
            name, _ = self.word(), self.take()
            bounds = tuple(self.bounds()) if self.take(":") else ()
            if not name.startswith("'"):
                found.append((name, bounds))
            if self.take("="):
                self.read_one_type()
            self.take(",")
        return tuple(found)

    def bounds(self) -> list[str]:
        """Reads the traits that a type has to have."""
        found = []
        while True:
            self.take("?")
            if self.word().startswith("'"):
                self.at += 1
            else:
                found.append(self.read_one_type().name)
            if not self.take("+"):
                return found

    def skip_where(self) -> Generics:
        found = []
        if self.take("where"):
            while self.word() not in ("{", ";", ""):
                name = self.read_one_type().name
                if self.take(":"):
                    found.append((name, tuple(self.bounds())))
                self.take(",")
        return tuple(found)

    def read_one_type(self) -> Type:
        """Reads a type. References are what they refer to."""
        while self.word() in ("&", "&&", "mut", "dyn", "*") or self.word().startswith("'"):
            self.at += 1
        if self.take("("):
            return Type("()", self.types(")"))
        if self.take("["):
            inner = self.read_one_type()
            while not self.take("]"):
                self.at += 1
            return Type("[]", (inner,))
        if self.take("impl"):
            return Type("impl", tuple(Type(it) for it in self.bounds()))
        if self.take("<"):
            inner = self.read_one_type()
            trait = self.read_one_type().name if self.take("as") else ""
            self.take(">")
            rest = [self.path_word() for _ in iter(lambda: self.take("::"), False)]
            return Type("::".join([inner.name, *rest])) if not trait else Type("::".join([inner.name, *rest]), (inner,))
        if self.word() in ("fn", "Fn", "FnMut", "FnOnce"):
            self.at += 1
            self.types(")") if self.take("(") else ()
            return Type("fn", (self.read_one_type(),) if self.take("->") else ())
        return self.path_type()

    def path_word(self) -> str:
        self.at += 1
        return self.words[self.at - 1]

    def path_type(self) -> Type:
        names = [self.path_word()]
        args: tuple[Type, ...] = ()
        while True:
            if self.take("<"):
                args = self.types(">")
            elif self.word() == "::" and self.word(1) != "<":
                self.at += 1
                names.append(self.path_word())
            elif not self.take("::"):
                return Type("::".join(names), args)

    def types(self, end: str) -> tuple[Type, ...]:
        found = []
        while not self.take(end):
            if self.word().startswith("'") or self.word().isdigit():
                self.at += 1
            elif self.word(1) == "=":
                self.at += 2
                self.read_one_type()
            else:
                found.append(self.read_one_type())
            if self.word() == "" or not (self.take(",") or self.word() == end):
                self.at += 1
        return tuple(found)


def read_file(house: House, path: Path) -> File:
    """Reads a file of code. Its module is named by its path, and has no name at the top of a crate."""
    parts = path.relative_to(house.crates / house.crate(path) / "src").with_suffix("").parts
    module = "" if parts in (("lib",), ("main",)) else "::".join(parts[:-1] if parts[-1] == "mod" else parts)
    file = File(path, house.crate(path), module)
    try:
        Items(file, code_of(path)).items()
    except IndexError as fault:
        raise NoCheckout(f"{path}: its items cannot be read") from fault
    return file
