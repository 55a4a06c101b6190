"""Finds what a function's body calls: it reads the body's expressions with their types, as far as they are known."""

from collections.abc import Callable

from helpers.house_functions import UNKNOWN, File, Function, Type
from helpers.house_items import Items
from helpers.house_world import Calls, World

TWO = {"==", "!=", "<", ">", "<=", ">=", "&&", "||", "+", "-", "*", "/", "%", "&", "|", "^"}
TESTS = {"==", "!=", "<", ">", "<=", ">=", "&&", "||"}
ASSIGNS = {"=", "+=", "-=", "*=", "/=", "%=", "&=", "|=", "^="}
BOOL, NOTHING = Type("bool"), Type("()")
BLOCKS = {"if", "match", "while", "for", "loop", "unsafe", "{"}
BUILT = {"Some": "Option", "None": "Option", "Ok": "Result", "Err": "Result"}


class Statements(Items):
    """Reads the statements of a function's body. `is_taken` says whether an arm with a variant is walked, and `ends` whether an `if` whose block
    returns ends the walk."""

    def __init__(self, world: World, own: Function, is_taken: Callable[[str, str, tuple[str, ...]], bool], ends: Callable[[list[str]], bool]):
        self.world, self.own, self.is_taken, self.ends = world, own, is_taken, ends
        self.home: File = world.files[own.crate, own.module]
        self.words, self.at = list(own.body or ()), 0
        self.scopes: list[dict[str, Type]] = [{}]
        self.calls, self.is_open, self.hint = Calls(), True, UNKNOWN
        self.asked: tuple[str, ...] = ()  # the words of the expression whose value a pattern takes apart
        self.bounds_of = {name: traits for name, traits in own.generics}
        self.owner = world.typed(self.home, own.owner_type) if own.owner and own.owner != "Self" else Type("Self")

    def read(self) -> Calls:
        for pattern, kind in self.own.params:
            self.bind_words(pattern, self.typed(kind))
        self.block()
        return self.calls

    def typed(self, kind: Type) -> Type:
        return self.world.typed(self.home, kind, self.owner)

    def read_kind(self) -> Type:
        return self.typed(self.read_one_type())

    # ---- names ----

    def bind(self, name: str, kind: Type) -> None:
        self.scopes[-1][name] = kind

    def local(self, name: str) -> Type | None:
        return next((scope[name] for scope in reversed(self.scopes) if name in scope), None)

    def bind_words(self, pattern: tuple[str, ...], kind: Type) -> None:
        """Binds the names of a parameter's pattern."""
        words, at = self.words, self.at
        self.words, self.at = [*pattern, ""], 0
        self.pattern(kind)
        self.words, self.at = words, at

    def enter(self, own: Function | None) -> None:
        if own is not None and self.is_open:
            self.calls.functions.add(own)

    def make(self, key: str) -> None:
        if self.is_open and "::" in key:
            self.calls.made.add(key)

    # ---- statements ----

    def block(self) -> Type:
        """Reads a block, and returns the type of its last expression."""
        self.take("{")
        self.scopes.append({})
        last, was_open = NOTHING, self.is_open
        while not self.take("}"):
            if self.take(";"):
                last = NOTHING
            elif self.take("let"):
                self.let()
            elif self.word() in ("fn", "use", "const", "struct", "impl") and self.word(1) != "{":
                self.skip_item()
            else:
                first, is_if = self.at, self.word() == "if"
                last = self.statement() if self.word() in BLOCKS else self.expression()
                if is_if and self.ends(self.words[first : self.at]):
                    self.is_open = False
        self.scopes.pop()
        if len(self.scopes) > 1:
            self.is_open = was_open
        return last

    def statement(self) -> Type:
        """Reads an expression that ends as a statement where its block ends."""
        kind = self.primary(True)
        return self.operators(self.postfix(kind)) if self.word() in (".", "?") else kind

    def skip_item(self) -> None:
        while self.word() not in ("{", ";", ""):
            self.at += 1
        if self.word() == "{":
            self.skip_group()

    def let(self) -> None:
        place = self.pass_pattern()
        kind = self.read_kind() if self.take(":") else UNKNOWN
        if self.take("="):
            found = self.expression()
            kind = found if has_hole(kind) else kind
        after = self.at
        self.at = place
        self.pattern(kind)
        self.at = after
        if self.take("else"):
            self.block()
        self.take(";")

    # ---- patterns ----

    def pass_pattern(self) -> int:
        """Passes a pattern whose names mean something only behind the expression that follows. Returns where it begins."""
        place = self.at
        self.scopes.append({})
        self.pattern(UNKNOWN)
        self.scopes.pop()
        return place

    def pattern(self, kind: Type) -> bool:
        """Binds the names of a pattern to the parts of a type, and tells whether one of its alternatives is taken."""
        self.take("|")
        is_taken = self.one_pattern(kind)
        while self.take("|"):
            is_taken = self.one_pattern(kind) or is_taken
        return is_taken

    def one_pattern(self, kind: Type) -> bool:
        while self.word() in ("&", "&&", "ref", "mut", "box", "-"):
            self.at += 1
        word = self.word()
        if word in ("(", "["):
            self.at += 1
            return self.parts({str(at): it for at, it in enumerate(kind.args)} if word == "(" else {}, {"(": ")", "[": "]"}[word], kind)
        if word in ("..", "..=", "_") or not (word[:1].isalpha() or word[:1] == "_"):
            self.at += 1
            return self.range_end()
        names = [self.path_word()]
        while self.take("::"):
            names.append(self.path_word())
        if len(names) == 1 and names[0][0].islower() and self.word() not in ("(", "{"):
            self.bind(names[0], kind)
            return self.one_pattern(kind) if self.take("@") else True
        return self.named_pattern(names, kind) and self.range_end()

    def range_end(self) -> bool:
        if self.take("..=") or self.take(".."):
            if self.word()[:1].isalnum():
                self.at += 1
        return True

    def named_pattern(self, names: list[str], kind: Type) -> bool:
        """Binds the parts of a variant or a struct."""
        fields, is_taken = self.parts_of(names, kind)
        if self.word() in ("(", "{"):
            end = {"(": ")", "{": "}"}[self.word()]
            self.at += 1
            is_taken = self.parts(fields, end, UNKNOWN) and is_taken
        return is_taken

    def parts_of(self, names: list[str], kind: Type) -> tuple[dict[str, Type], bool]:
        name = names[-1]
        if name in BUILT and len(names) == 1:
            args = kind.args or (UNKNOWN, UNKNOWN)
            return {"0": args[-1] if name == "Err" else args[0]}, self.is_taken(BUILT[name], name, self.asked)
        owner = self.owner.name if names[0] == "Self" else self.world.key(self.home, "::".join(names[:-1] or names))
        known = kind if kind.name == owner else Type(owner)
        if len(names) > 1 and self.world.is_variant(owner, name):
            return self.world.fields(known, name), self.is_taken(owner, name, self.asked)
        return self.world.fields(known), True

    def parts(self, fields: dict[str, Type], end: str, whole: Type) -> bool:
        count, is_taken = 0, True
        while not self.take(end):
            if end == "}" and self.word(1) == ":" :
                name = self.path_word()
                self.at += 1
                is_taken = self.pattern(fields.get(name, UNKNOWN)) and is_taken
            elif end == "}" and self.word() != "..":
                while self.word() in ("ref", "mut"):
                    self.at += 1
                self.bind(self.word(), fields.get(self.word(), UNKNOWN))
                self.at += 1
            else:
                inner = whole.args[0] if whole.name == "[]" and whole.args else fields.get(str(count), UNKNOWN)
                is_taken = self.pattern(inner) and is_taken
            count += 1
            self.take(",")
        return is_taken

    # ---- expressions ----

    def expression(self, has_structs: bool = True) -> Type:
        kind = self.operators(self.unary(has_structs), has_structs)
        if self.word() in ASSIGNS:
            self.at += 1
            self.expression(has_structs)
            return NOTHING
        return kind

    def operators(self, left: Type, has_structs: bool = True) -> Type:
        """Reads what follows a first operand."""
        kind = left
        while True:
            word = self.word()
            if self.take("as"):
                kind = self.read_kind()
            elif word in ("..", "..="):
                self.at += 1
                if self.word() not in ("]", ")", "{", "}", ",", ";", "=>", ""):
                    self.operators(self.unary(has_structs), has_structs)
                kind = Type("Range", (kind,))
            elif word in TWO:
                self.at += 1
                if word in ("<", ">") and self.word() == word:
                    self.at += 1
                if word in ("==", "!=", "<", ">", "<=", ">="):
                    self.compare(kind, word)
                self.unary(has_structs)
                kind = BOOL if word in TESTS else kind
            else:
                return kind

    def compare(self, kind: Type, word: str) -> None:
        for name in ("eq",) if word in ("==", "!=") else ("partial_cmp", "lt", "cmp"):
            for own in self.world.methods.get((kind.name, name), ()):
                self.enter(own)

    def unary(self, has_structs: bool = True) -> Type:
        while self.word() in ("&", "&&", "*", "!", "-", "mut"):
            self.at += 1
        return self.postfix(self.primary(has_structs))

    def postfix(self, kind: Type) -> Type:
        while True:
            if self.take("?"):
                self.convert(kind.args[1] if len(kind.args) > 1 else UNKNOWN)
                kind = kind.args[0] if kind.args else UNKNOWN
            elif self.word() == ".":
                self.at += 1
                kind = self.member(kind)
            elif self.take("["):
                index = self.expression()
                self.take("]")
                kind = kind if index.name == "Range" else kind.args[0] if kind.args else UNKNOWN
            elif self.word() == "(":
                self.arguments(UNKNOWN)
                kind = kind.args[0] if kind.name in ("closure", "fn") and kind.args else UNKNOWN
            else:
                return kind

    def convert(self, fault: Type) -> None:
        """Enters what makes the function's own error of another one."""
        given = self.typed(self.own.result).args[1:]
        for own in self.world.methods.get((given[0].name, "from"), ()) if given and given[0] != fault else ():
            taken = self.world.typed(self.world.files[own.crate, own.module], own.params[0][1])
            if own.trait and fault.name in (taken.name, "?"):
                self.enter(own)

    def member(self, kind: Type) -> Type:
        name = self.path_word()
        if self.word() == "::":
            self.at += 1
            self.generics_given()
        if self.word() == "(":
            args = self.arguments(kind)
            return self.method(kind, name, args)
        if kind.name == "()" and name.isdigit():
            return kind.args[int(name)] if int(name) < len(kind.args) else UNKNOWN
        return self.world.fields(kind).get(name, UNKNOWN)

    def generics_given(self) -> tuple[Type, ...]:
        return tuple(self.typed(it) for it in self.types(">")) if self.take("<") else ()

    def arguments(self, receiver: Type) -> list[Type]:
        """Reads the arguments of a call. A closure is given what its receiver holds."""
        self.take("(")
        found = []
        while not self.take(")"):
            self.hint = receiver.args[0] if receiver.args else UNKNOWN
            found.append(self.expression())
            self.take(",")
        return found

    def primary(self, has_structs: bool) -> Type:
        raise NotImplementedError

    def method(self, kind: Type, name: str, args: list[Type]) -> Type:
        raise NotImplementedError


def has_hole(kind: Type) -> bool:
    return kind.name in ("_", "?") or any(has_hole(it) for it in kind.args)
