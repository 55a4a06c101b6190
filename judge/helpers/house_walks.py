"""Walks over the product's functions from the answer to a message: those that a submission, a cut or a file of returns enters.

Of each function with a body the walk follows the calls. It takes a function of a trait in those types alone that the walk makes.
A call of the store goes through the store that remembers to the tables, and no further than to what is remembered. Of a `match` over
messages it takes the arms of its own."""

from dataclasses import dataclass, field
from functools import lru_cache

from helpers.house_functions import Function
from helpers.house_paths import Body
from helpers.house_tree import House, NoCheckout
from helpers.house_world import Calls, World

ENTRY = ("desk_http", "answer")
STORE = "desk_store::Store"
STORES = ("remembering_store", "sql_store")  # from the outermost to the tables


@dataclass(frozen=True)
class Walk:
    """A walk: its name, its message, and of the enums that tell messages apart the variants that are taken."""

    name: str
    title: str
    taken: dict[str, frozenset[str]] = field(hash=False)
    missing: str  # the look-up that finds nothing, since the message is new


def variants(text: str) -> dict[str, frozenset[str]]:
    """Reads lines as `crate::Enum: Variant Variant`."""
    found = {}
    for line in text.strip().splitlines():
        key, _, names = line.strip().partition(": ")
        found[key] = frozenset(names.split())
    return found


SUBMISSION = Walk("submission", "a submission", variants("""
    http_routes::Route: Company
    http_routes::CompanyRoute: Submit
    desk_history::Call: Submit
    desk_history::Answer: Done
    desk_history::Outcome: Submitted
"""), "submission")
CUT = Walk("cut", "a cut", variants("""
    http_routes::Route: Operator
    http_routes::OperatorRoute: Cut
    desk_history::Call: Cut
    desk_history::Answer: Done
    desk_history::Outcome: Cut
"""), "")
RETURNS = Walk("returns-file", "a file of returns", variants("""
    http_routes::Route: Operator
    http_routes::OperatorRoute: TakeFile
    desk_history::Call: TakeFile
    desk_history::Answer: Done
    desk_history::Outcome: Taken
"""), "taken")
WALKS = (SUBMISSION, CUT, RETURNS)


@lru_cache(maxsize=4)
def world_of(house: House) -> World:
    return World(house)


@lru_cache(maxsize=16)
def walk_of(house: House, walk: Walk) -> tuple[Function, ...]:
    """Returns the functions of a walk, in the order of their places."""
    world = world_of(house)
    entry = [it for file in world.files.values() for it in file.functions if (it.crate, it.owner, it.name) == (ENTRY[0], "", ENTRY[1])]
    if not entry:
        raise NoCheckout(f"{house.top}: no function {'::'.join(ENTRY)}, with which the walks begin")
    found = Walking(world, walk).all_from(entry)
    return tuple(sorted(found, key=lambda it: (str(it.path), it.line)))


class Walking:
    """A walk on its way."""

    def __init__(self, world: World, walk: Walk):
        self.world, self.walk = world, walk
        self.seen: set[Function] = set()
        self.left: list[Function] = []
        self.asked: set[tuple[str, str]] = set()
        self.made: set[str] = set()

    def all_from(self, entry: list[Function]) -> list[Function]:
        self.add(*entry)
        while self.left:
            own = self.left.pop()
            self.follow(own, self.calls(own))
        return list(self.seen)

    def add(self, *owns: Function) -> None:
        for own in owns:
            if own not in self.seen and own.body is not None and len(own.body) > 2 and not is_law(own):
                self.seen.add(own)
                self.left.append(own)

    def calls(self, own: Function) -> Calls:
        is_remembering = own.crate in STORES[:-1]
        body = Body(self.world, own, self.is_taken, lambda words: is_remembering and is_found(words))
        try:
            return body.read()
        except IndexError as fault:
            raise NoCheckout(f"{own.path}:{own.line}: the body of {own.name} cannot be read") from fault

    def is_taken(self, kind: str, variant: str, asked: tuple[str, ...]) -> bool:
        """Tells whether a pattern's variant is taken of the value of an expression."""
        if variant == "Some" and self.walk.missing in asked:
            return False
        taken = self.walk.taken.get(kind)
        return taken is None or variant in taken

    def follow(self, own: Function, calls: Calls) -> None:
        self.add(*calls.functions)
        for trait, name in calls.of_traits:
            if trait == STORE:
                self.add(*self.of_store(own, name))
            else:
                self.asked.add((trait, name))
        self.made |= calls.made
        for trait, name in self.asked:
            impls = self.world.impls.get((trait, name), [])
            self.add(*(it for key, it in impls if "::" not in key or key in self.made))
            if (trait, name) in self.world.defaults:
                self.add(self.world.defaults[trait, name])

    def of_store(self, caller: Function, name: str) -> list[Function]:
        """Returns the function of the store inside, or of the outermost store."""
        inner = STORES[-1] if caller.crate in STORES else STORES[0]
        return [it for _, it in self.world.impls.get((STORE, name), []) if it.crate == inner]


def is_law(own: Function) -> bool:
    """A law is given nothing and returns nothing: its contract is all that counts."""
    return not own.params and own.result.name == "()"


def is_found(words: list[str]) -> bool:
    """Tells whether an `if` returns what is remembered."""
    text = " ".join(words)
    head = text.partition("{")[0]
    return ("let Some" in head or ". is_some (" in head or ". has (" in head) and "return" in words
