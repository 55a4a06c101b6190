"""Reads the expressions of a body that name something: paths, calls, methods, and those with blocks."""

from helpers.house_calls import BLOCKS, BOOL, BUILT, NOTHING, Statements
from helpers.house_functions import UNKNOWN, Function, Type
from helpers.house_world import of_library

KEYED = {"HashMap": ("eq", "hash"), "HashSet": ("eq", "hash"), "BTreeMap": ("cmp",), "BTreeSet": ("cmp",)}
ENDS = (";", "}", ")", ",", "=>", "]", "")


class Body(Statements):
    """Reads the body of a function."""

    def primary(self, has_structs: bool) -> Type:
        word = self.word()
        if word[:1].isdigit() or word == '""':
            self.at += 1
            return Type("str" if word == '""' else "number")
        if word == "(":
            return self.parenthesised()
        if self.take("["):
            return self.array()
        if word in ("true", "false"):
            self.at += 1
            return BOOL
        if word.startswith("'"):
            self.at += 2 if self.word(1) == ":" else 1
            return self.primary(has_structs)
        if word in ("return", "break", "continue"):
            return self.leave(has_structs)
        if word in ("|", "||", "move"):
            return self.closure()
        if word in ("..", "..="):
            return self.operators(UNKNOWN, has_structs)
        return self.with_block(word) if word in BLOCKS else self.path(has_structs)

    def parenthesised(self) -> Type:
        args = self.arguments(UNKNOWN)
        return args[0] if len(args) == 1 and self.words[self.at - 2] != "," else Type("()", tuple(args))

    def array(self) -> Type:
        inner = UNKNOWN
        while not self.take("]"):
            kind = self.expression()
            inner = kind if inner == UNKNOWN else inner
            if not self.take(","):
                self.take(";")
        return Type("[]", (inner,))

    def leave(self, has_structs: bool) -> Type:
        """Reads an expression after which its block does not go on."""
        self.at += 1
        if self.word().startswith("'"):
            self.at += 1
        if self.word() not in ENDS:
            self.expression(has_structs)
        return UNKNOWN

    def closure(self) -> Type:
        self.take("move")
        self.scopes.append({})
        given = self.hint
        if not self.take("||"):
            self.take("|")
            while not self.take("|"):
                place = self.at
                self.one_pattern(given)
                kind = self.read_kind() if self.take(":") else given
                after, self.at = self.at, place
                self.one_pattern(kind)
                self.at = after
                self.take(",")
        if self.take("->"):
            self.read_kind()
        found = self.expression()
        self.scopes.pop()
        return Type("closure", (found,))

    # ---- with blocks ----

    def with_block(self, word: str) -> Type:
        if word == "{":
            return self.block()
        self.at += 1
        if word in ("unsafe", "loop"):
            kind = self.block()
            return kind if word == "unsafe" else UNKNOWN
        if word == "match":
            return self.match()
        self.scopes.append({})
        if word == "for":
            self.loop_over()
            kind = NOTHING
        else:
            kind = self.choice(word)
        self.scopes.pop()
        return kind

    def loop_over(self) -> None:
        place = self.pass_pattern()
        self.take("in")
        over = self.expression(False)
        after = self.at
        for name in ("next", "into_iter"):
            self.method(over, name, []) if self.world.methods.get((over.name, name)) else None
        self.at = place
        self.pattern(over.args[0] if over.args else UNKNOWN)
        self.at = after
        self.block()

    def choice(self, word: str) -> Type:
        is_taken = self.condition()
        was_open = self.is_open
        self.is_open = was_open and is_taken
        kind = self.block()
        self.is_open = was_open
        if word == "if" and self.take("else"):
            other = self.with_block("if") if self.word() == "if" else self.block()
            kind = other if kind in (UNKNOWN, NOTHING) else kind
        return kind

    def condition(self) -> bool:
        """Reads a condition, and tells whether all its patterns are taken."""
        is_taken = True
        while True:
            if self.take("let"):
                place = self.pass_pattern()
                self.take("=")
                first = self.at
                kind = self.unary(False)
                after, self.at = self.at, place
                is_taken = self.part_of(kind, self.words[first:after]) and is_taken
                self.at = after
            else:
                self.expression(False)
            if not self.take("&&"):
                return is_taken

    def part_of(self, kind: Type, words: list[str]) -> bool:
        """Reads a pattern of the value of an expression, and tells whether it is taken."""
        self.asked = tuple(words)
        is_taken = self.pattern(kind)
        self.asked = ()
        return is_taken

    def match(self) -> Type:
        first = self.at
        kind, found = self.expression(False), UNKNOWN
        words = self.words[first : self.at]
        self.take("{")
        while not self.take("}"):
            self.scopes.append({})
            is_taken, was_open = self.part_of(kind, words), self.is_open
            self.is_open = was_open and is_taken
            if self.take("if"):
                self.expression(False)
            self.take("=>")
            one = self.block() if self.word() == "{" and not self.goes_on() else self.expression()
            found = one if found in (UNKNOWN, NOTHING) else found
            self.is_open = was_open
            self.scopes.pop()
            self.take(",")
        return found

    def goes_on(self) -> bool:
        """Tells whether something follows the block here, in the same expression."""
        place = self.at
        self.skip_group()
        after, self.at = self.word(), place
        return after in (".", "?")

    # ---- paths ----

    def path(self, has_structs: bool) -> Type:
        if self.word() == "<":
            self.take("<")
            owner = self.read_kind()
            if self.take("as"):
                self.read_one_type()
            self.take(">")
            self.take("::")
            return self.associated(owner, self.path_word())
        names = [self.path_word()]
        given: tuple[Type, ...] = ()
        while self.take("::"):
            if self.word() == "<":
                given = self.generics_given()
            else:
                names.append(self.path_word())
        if self.take("!"):
            self.arguments(UNKNOWN) if self.word() == "(" else self.skip_group()
            return UNKNOWN
        if self.word() == "{" and has_structs and names[-1][0].isupper():
            return self.literal(names, given)
        return self.named(names, given)

    def literal(self, names: list[str], given: tuple[Type, ...]) -> Type:
        """Reads a struct's literal."""
        key = self.key_of(names)
        variant = ""
        if self.world.home(key) is None and len(names) > 1:
            key, variant = self.key_of(names[:-1]), names[-1]
        fields = self.world.fields(Type(key), variant)
        found: dict[str, Type] = {}
        self.make(key)
        self.take("{")
        while not self.take("}"):
            if self.take(".."):
                self.expression()
            else:
                name = self.path_word()
                found[name] = self.expression() if self.take(":") else self.local(name) or UNKNOWN
            self.take(",")
        home = self.world.home(key)
        params = home.params.get(key.rpartition("::")[2], ()) if home and not given else ()
        by_name = {fields[it].name: found[it] for it in fields if it in found and not fields[it].args}
        return Type(key, given or tuple(by_name.get(it, UNKNOWN) for it in params))

    def key_of(self, names: list[str]) -> str:
        return self.owner.name if names == ["Self"] else self.world.key(self.home, "::".join(names))

    def named(self, names: list[str], given: tuple[Type, ...]) -> Type:
        """Reads what a path names, and its call."""
        name = names[-1]
        if len(names) == 1:
            if (kind := self.local(name)) is not None:
                return kind
            if name in BUILT:
                args = self.arguments(UNKNOWN) if self.word() == "(" else []
                inner = args[0] if args else UNKNOWN
                return Type("Option", (inner,)) if BUILT[name] == "Option" else Type("Result", (inner, UNKNOWN) if name == "Ok" else (UNKNOWN, inner))
        elif names[0][0].isupper() or names[-2][0].isupper():
            owner = self.typed(Type("::".join(names[:-1]), given))
            return self.associated(owner if names[:-1] != ["Self"] else self.owner, name)
        own = self.world.function(self.home, tuple(names))
        if own is not None:
            return self.called(own)
        kind = self.world.constant(self.home, tuple(names))
        if kind == UNKNOWN and self.word() == "(":
            key = self.key_of(names)
            self.make(key)
            self.arguments(UNKNOWN)
            return Type(key) if self.world.home(key) else UNKNOWN
        if kind == UNKNOWN and self.world.home(key := self.key_of(names)):
            self.make(key)
            return Type(key)
        return kind

    def called(self, own: Function) -> Type:
        """Enters a function that is called, or passed on."""
        self.enter(own)
        if self.word() != "(":
            return Type("fn", (self.world.result(own, UNKNOWN, []),))
        return self.world.result(own, UNKNOWN, self.arguments(UNKNOWN))

    def associated(self, owner: Type, name: str) -> Type:
        """Reads a variant, or a function of a type or of a trait."""
        if self.world.is_variant(owner.name, name):
            self.make(owner.name)
            if self.word() == "(":
                self.arguments(UNKNOWN)
            return owner
        self.make(owner.name)
        args = self.arguments(UNKNOWN) if self.word() == "(" else []
        receiver = args[0] if args and self.world.is_trait(owner.name) else owner
        return self.method(receiver, name, args)

    # ---- methods ----

    def method(self, kind: Type, name: str, args: list[Type]) -> Type:
        """Enters a method of a type, and returns the type of its result."""
        owns = self.world.methods.get((kind.name, name), [])
        owns = [it for it in owns if not it.trait] or owns
        for own in owns:
            self.enter(own)
        if owns:
            return self.world.result(owns[0], kind, args)
        for bound in self.traits_of(kind):
            key = self.world.key(self.home, bound)
            if found := self.trait_method(key, name):
                if self.is_open:
                    self.calls.of_traits.add((key, name))
                return self.world.result(found, kind, args)
        if kind.name in KEYED and kind.args:
            for key in KEYED[kind.name]:
                self.calls.functions.update(self.world.methods.get((kind.args[0].name, key), ()) if self.is_open else ())
        return of_library(kind, name, args)

    def traits_of(self, kind: Type) -> list[str]:
        """Returns the traits that a type is known to have."""
        if kind.name == "impl":
            return [it.name for it in kind.args]
        return list(self.bounds_of.get(kind.name, ()))

    def trait_method(self, key: str, name: str) -> Function | None:
        if (key, name) in self.world.defaults:
            return self.world.defaults[key, name]
        impls = self.world.impls.get((key, name))
        return impls[0][1] if impls else None
