"""Finds what a name of the code means, and what a type has: its fields, its methods, the impls of its traits."""

from collections import defaultdict
from dataclasses import dataclass, field

from helpers.house_functions import UNKNOWN, File, Function, Type
from helpers.house_items import read_file
from helpers.house_tree import House

CONTAINERS = {"Vec", "[]", "ListOf", "HashSet", "BTreeSet", "ArrayVec", "VecDeque", "Iter", "Option"}
INNER = {"first", "last", "get", "get_mut", "pop", "next", "find", "max", "min", "nth", "last_mut", "first_mut", "next_back"}
SAME = {"as_ref", "as_mut", "copied", "cloned", "take", "as_deref", "iter", "iter_mut", "into_iter", "rev", "skip", "as_slice", "filter", "clone", "to_owned",
        "try_clone", "into_vec", "as_mut_slice", "chunks_exact", "or", "or_else", "replace", "borrow", "step_by", "peekable"}


@dataclass
class Calls:
    """What a body calls: own functions, methods of traits with the receiver's type, and the types that it makes."""

    functions: set[Function] = field(default_factory=set)
    of_traits: set[tuple[str, str]] = field(default_factory=set)
    made: set[str] = field(default_factory=set)


class World:
    """The product's code."""

    def __init__(self, house: House):
        self.files: dict[tuple[str, str], File] = {}
        for path in house.product:
            file = read_file(house, path)
            self.files[file.crate, file.module] = file
        self.crates = {crate for crate, _ in self.files}
        self.homes: dict[tuple[str, str], File] = {}  # of a crate's types, traits and aliases
        for file in self.files.values():
            for name in (*file.fields, *file.traits, *file.aliases):
                self.homes.setdefault((file.crate, name), file)
        self.methods: dict[tuple[str, str], list[Function]] = defaultdict(list)  # of a type's key and a name
        self.impls: dict[tuple[str, str], list[tuple[str, Function]]] = defaultdict(list)  # of a trait's key and a method
        self.defaults: dict[tuple[str, str], Function] = {}
        for file in self.files.values():
            for own in file.functions:
                self.place(file, own)

    def place(self, file: File, own: Function) -> None:
        """Files a method under its type and its trait."""
        if own.owner == "Self":
            self.defaults[self.key(file, own.trait), own.name] = own
        elif own.owner:
            owner = self.key(file, own.owner)
            self.methods[owner, own.name].append(own)
            if own.trait:
                self.impls[self.key(file, own.trait), own.name].append((owner, own))

    # ---- names ----

    def path_of(self, file: File, names: tuple[str, ...], seen: int = 0) -> tuple[str, str, str]:
        """Follows imports to the crate, module and name of an item. A name of another library has an empty crate."""
        if seen > 12 or not names:
            return "", "", names[-1] if names else ""
        first, *rest = names
        crate, module = file.crate, file.module
        if not rest:
            if self.has(file, first):
                return crate, module, first
            imported = file.imports.get(first, names)
            return self.path_of(file, imported, seen + 1) if imported != names else ("", "", first)
        if first == "crate":
            module = ""
        elif first == "super":
            module = module.rpartition("::")[0]
        elif first == "self":
            pass
        elif self.child(crate, module, first) is not None:
            module = f"{module}::{first}".removeprefix("::")
        elif first in self.crates:
            crate, module = first, ""
        elif first in file.imports and file.imports[first][-1] == first and file.imports[first] != names[:1]:
            return self.path_of(file, (*file.imports[first], *rest), seen + 1)
        else:
            return "", "", names[-1]
        while len(rest) > 1 and self.child(crate, module, rest[0]) is not None:
            module = f"{module}::{rest.pop(0)}".removeprefix("::")
        target = self.files.get((crate, module))
        if target is None:
            return "", "", names[-1]
        return self.path_of(target, tuple(rest), seen + 1)

    def child(self, crate: str, module: str, name: str) -> File | None:
        return self.files.get((crate, f"{module}::{name}".removeprefix("::")))

    def has(self, file: File, name: str) -> bool:
        return name in file.fields or name in file.traits or name in file.aliases or name in file.constants \
            or any(it.name == name and not it.owner for it in file.functions)

    def key(self, file: File, name: str) -> str:
        """Returns the key of a type or a trait: its crate and name, or its name alone if it is not an own one."""
        names = tuple(name.split("::"))
        crate, module, own = self.path_of(file, names)
        if not crate:
            return names[-1]
        home = self.files[crate, module]
        return f"{crate}::{own}" if own in home.fields or own in home.traits or own in home.aliases else own

    def function(self, file: File, names: tuple[str, ...]) -> Function | None:
        """Returns the free function with a path."""
        crate, module, name = self.path_of(file, names)
        if not crate:
            return None
        return next((it for it in self.files[crate, module].functions if it.name == name and not it.owner), None)

    def constant(self, file: File, names: tuple[str, ...]) -> Type:
        crate, module, name = self.path_of(file, names)
        home = self.files.get((crate, module)) if crate else None
        return self.typed(home, home.constants[name]) if home and name in home.constants else UNKNOWN

    # ---- types ----

    def typed(self, file: File, kind: Type, owner: Type = UNKNOWN) -> Type:
        """Returns a type with its own names replaced by keys."""
        if kind.name == "Self" and owner != UNKNOWN:
            return owner
        args = tuple(self.typed(file, it, owner) for it in kind.args)
        key = self.key(file, kind.name)
        crate, _, name = key.rpartition("::")
        home = self.homes.get((crate, name)) if crate else None
        if home and name in home.aliases and home.aliases[name].name != name:
            return self.typed(home, home.aliases[name])
        return Type(key if home or "::" not in kind.name else kind.name, args)

    def home(self, key: str) -> File | None:
        crate, _, name = key.rpartition("::")
        return self.homes.get((crate, name)) if crate else None

    def fields(self, kind: Type, variant: str = "") -> dict[str, Type]:
        """Returns the fields of a struct or of a variant, with its arguments in place of its parameters."""
        home = self.home(kind.name)
        if home is None:
            return {}
        name = kind.name.rpartition("::")[2]
        found = home.fields.get(f"{name}::{variant}" if variant else name, {})
        given = dict(zip((it for it in home.params.get(name, ()) if not it.startswith("'")), kind.args))
        return {it: substituted(self.typed(home, own), given) for it, own in found.items()}

    def is_trait(self, key: str) -> bool:
        home = self.home(key)
        return home is not None and key.rpartition("::")[2] in home.traits

    def is_variant(self, kind: str, name: str) -> bool:
        home = self.home(kind)
        return home is not None and f"{kind.rpartition('::')[2]}::{name}" in home.fields

    def result(self, own: Function, receiver: Type, args: list[Type]) -> Type:
        """Returns the type of a call's result."""
        file = self.files[own.crate, own.module]
        owner = self.typed(file, own.owner_type) if own.owner and own.owner != "Self" else receiver
        given: dict[str, Type] = {}
        if own.owner and own.owner != "Self":
            match(owner, receiver, {it for it, _ in own.generics}, given)
        params = own.params[1:] if receiver != UNKNOWN and own.params and "self" in own.params[0][0] else own.params
        for (_, kind), arg in zip(params, args):
            match(self.typed(file, kind, owner), arg, {it for it, _ in own.generics}, given)
        return substituted(self.typed(file, own.result, substituted(owner, given)), given)


def match(wanted: Type, given: Type, names: set[str], found: dict[str, Type]) -> None:
    """Finds what stands for the names of a type."""
    if wanted.name in names and not wanted.args:
        if given != UNKNOWN:
            found.setdefault(wanted.name, given)
    elif wanted.name == given.name:
        for one, other in zip(wanted.args, given.args):
            match(one, other, names, found)


def substituted(kind: Type, given: dict[str, Type]) -> Type:
    if kind.name in given and not kind.args:
        return given[kind.name]
    return Type(kind.name, tuple(substituted(it, given) for it in kind.args))


def of_library(kind: Type, name: str, args: list[Type]) -> Type:
    """Returns the type of a method's result of the toolchain's library, as far as walks need it."""
    first = kind.args[0] if kind.args else UNKNOWN
    if kind.name in ("HashMap", "BTreeMap", "TreeMap") and len(kind.args) > 1:
        value = kind.args[1]
        return Type("Option", (value,)) if name in ("get", "get_mut", "remove", "insert") else Type("[]", (value,)) if "values" in name else UNKNOWN
    if name in ("unwrap", "expect", "unwrap_or", "unwrap_or_default", "unwrap_or_else", "remove", "swap_remove"):
        return first
    if name == "ok":
        return Type("Option", (first,))
    if name in ("ok_or", "ok_or_else"):
        return Type("Result", (first, args[0] if args else UNKNOWN))
    if name == "map_err":
        return Type("Result", (first, returned(args)))
    if name == "map":
        return Type(kind.name, (returned(args), *kind.args[1:]))
    if name == "and_then":
        return returned(args)
    if name in INNER and kind.name in CONTAINERS:
        return Type("Option", (first,))
    if name == "enumerate":
        return Type("Iter", (Type("()", (Type("usize"), first)),))
    if name in ("split_at", "split_at_mut"):
        return Type("()", (kind, kind))
    if name == "zip":
        return Type("Iter", (Type("()", (first, args[0].args[0] if args and args[0].args else UNKNOWN)),))
    if name in ("split_first", "split_last"):
        return Type("Option", (Type("()", (first, kind)),))
    if name in ("chunks", "windows"):
        return Type("Iter", (kind,))
    return kind if name in SAME else UNKNOWN


def returned(args: list[Type]) -> Type:
    return args[0].args[0] if args and args[0].name == "closure" and args[0].args else UNKNOWN
