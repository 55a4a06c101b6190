"""Small trees that are made up to try the counts of the house."""

import tempfile
from pathlib import Path

from helpers.house_count import counted, items_of, repeated
from helpers.house_tree import House, NoCheckout
from helpers.running import Checks

WORDS = {
    "crates/one/specs/Words.antt": """-- Words.
use Rattle.std.specs.Prelude.{ℕ, ◌≡◌}

-- the most
abbrev pub most : ℕ
most = 4_194_304

abbrev pub Holds : ℕ → Type 0
Holds n = n ≡ most

-- of one clause
abbrev pub Follows : ℕ → ℕ → Type 0
Follows a b = Holds a

-- of no clause: it names nothing
abbrev pub Unused : ℕ → Type 0
Unused n = Holds n

abbrev pub Wide : ℕ → ℕ → ℕ → ℕ → ℕ → ℕ → ℕ → Type 0
Wide a b c d e f g = Holds a
""",
    "crates/two/specs/Words.antt": """-- Other words.
use Rattle.std.specs.Prelude.{ℕ, ◌≡◌}

abbrev pub limit : ℕ
limit = 4_194_304

abbrev pub Holds : ℕ → Type 0
Holds other = other ≡ limit

abbrev pub first : ℕ → ℕ
first x = x
""",
    "crates/one/src/lib.rt": """//! One.
ghost use Rattle.std.specs.Prelude.{◌≡◌};
ghost use Rattle.one.specs.Words.{Follows, Holds, Wide};
use std::alloc::Global;

const MOST_BYTES: u64 = 4_194_304;

/// Compares: a comment with `.bytes() ==` counts as a line that has it.
pub fn same(one: &Key, other: &Key) -> bool
    ensures { Follows one.now other.now }
    ensures wide { Wide 1 2 3 4 5 6 (7 + 8) }
{
    one.bytes() == other.bytes()
}

pub fn read(alloc: Global) -> Result<u64, Fault>
    ensures { Holds result → Wide 1 2 3 4 5 6 7 }
{
    let found = ask(alloc)?;
    Ok(found)
}

pub struct Key;
""",
    "crates/two/src/lib.rt": """//! Two.
ghost use Rattle.two.specs.Words.{Holds, first};

const LIMIT: u64 = 4_194_304;

pub enum Key {
    One,
}

pub fn held(it: Key) -> u64
    ensures { Holds (first result) }
{
    LIMIT
}
""",
    "crates/tests_of_one/src/lib.rt": "//! Tests.\npub struct Key;\n",
}
COUNTED = {"one-use": 5, "one-clause": 3, "fact-names": 1, "names": 1, "equal": 1, "proofs-alone": 1, "arguments": 1, "arguments-inside": 1, "types": 1,
           "constants": 1, "bytes": 2, "returned": 1, "small-sources": 2, "small-sources-with-tests": 3, "small-specs": 2, "crates": 3}

WALKED = {
    "crates/desk_http/src/lib.rt": "//! Messages.\nmod answers;\n",
    "crates/desk_http/src/answers.rt": """//! Answers.
use desk_history::{Call, Line, one_law};
use desk_store::Store;

/// Answers.
pub fn answer<S: Store>(store: &mut S, call: Call) -> Result<u64, Fault>
{
    one_law();
    let day = store.day();
    match call {
        Call::Submit(line) => submit(store, line),
        Call::Cut => cut(store),
    }
}

fn submit<S: Store>(store: &mut S, line: Line) -> Result<u64, Fault> {
    let count = [1, 2].iter().map(|it| plus(*it)).count();
    store.add(line)?;
    Ok(line.length() + count)
}

fn plus(it: u64) -> u64 {
    it + 1
}

fn cut<S: Store>(store: &mut S) -> Result<u64, Fault> {
    Ok(0)
}
""",
    "crates/desk_history/src/lib.rt": """//! A history.
pub enum Call {
    Submit(Line),
    Cut,
}

pub struct Line {
    pub text: Vec<u8>,
}

impl Line {
    pub fn length(&self) -> u64 {
        self.text.len()
    }
}

pub struct Fault;

pub fn one_law() {
    nothing();
}

fn nothing() {}
""",
    "crates/desk_store/src/lib.rt": """//! Stores.
use desk_history::{Fault, Line};

pub trait Store {
    fn day(&mut self) -> Option<u64>;

    fn add(&mut self, line: Line) -> Result<u64, Fault>;
}

pub trait Body {
    fn run(&self) -> u64;
}
""",
    "crates/remembering_store/src/lib.rt": """//! Memory.
use desk_store::Store;
use desk_history::{Fault, Line};

impl<S: Store> Store for Remembering<S> {
    fn day(&mut self) -> Option<u64> {
        if let Some(day) = self.day {
            return Some(day);
        }
        self.store.day()
    }

    fn add(&mut self, line: Line) -> Result<u64, Fault> {
        self.store.add(line)
    }
}

pub struct Remembering<S> {
    store: S,
    day: Option<u64>,
}
""",
    "crates/sql_store/src/lib.rt": """//! Tables.
use desk_history::{Fault, Line};
use desk_store::{Body, Store};

pub struct SqlStore;

pub struct AddLine {
    line: Line,
}

pub struct SetDay;

impl Body for AddLine {
    fn run(&self) -> u64 {
        self.line.length()
    }
}

impl Body for SetDay {
    fn run(&self) -> u64 {
        1
    }
}

impl Store for SqlStore {
    fn day(&mut self) -> Option<u64> {
        None
    }

    fn add(&mut self, line: Line) -> Result<u64, Fault> {
        commit(&AddLine { line })
    }
}

fn commit<B: Body>(body: &B) -> Result<u64, Fault> {
    Ok(body.run())
}
""",
}
SUBMITTED = ["desk_history::Line::length", "desk_http::answers::answer", "desk_http::answers::plus", "desk_http::answers::submit", "remembering_store::Remembering::add",
             "remembering_store::Remembering::day", "sql_store::AddLine::run", "sql_store::SqlStore::add", "sql_store::commit"]
CUT = ["desk_http::answers::answer", "desk_http::answers::cut", "remembering_store::Remembering::day"]


def made(top: str, files: dict[str, str]) -> House:
    """Writes a tree."""
    for name, text in {**WALKED, **files}.items():
        path = Path(top) / name
        path.parent.mkdir(parents=True, exist_ok=True)
        path.write_text(text)
    return House(Path(top))


def is_refused(house: House) -> bool:
    try:
        items_of(house, "cut")
    except NoCheckout as fault:
        return "two/src/lib.rt" in str(fault)
    return False


def check() -> None:
    """Tries the counts, prints how each check ended, and ends the program."""
    checks = Checks()
    with tempfile.TemporaryDirectory(prefix="house-") as empty, tempfile.TemporaryDirectory(prefix="house-") as top:
        walked = made(empty, {})
        house = made(top, WORDS)
        before = {it.name: it.number or 0 for it in counted(walked)}
        for row in counted(house):
            if row.name in COUNTED:
                checks.that(row.title, (row.number or 0) - before[row.name], COUNTED[row.name])
        checks.that("the walk of a submission", sorted(it.text for it in items_of(walked, "submission")), SUBMITTED)
        checks.that("the walk of a cut", sorted(it.text for it in items_of(walked, "cut")), CUT)
        for text, wanted in (("12 pairs", 12), ("12 pairs\nincomplete: time", None), ("none", None)):
            program = Path(top) / "repeats"
            program.write_text(f"#!/bin/sh\ncat <<END\n{text}\nEND\n")
            program.chmod(0o755)
            checks.that(f"what repeats, of {text!r}", repeated(house, str(program)).number, wanted)
        (house.crates / "two/src/lib.rt").write_text("fn broken(")
        checks.that("code that cannot be read is named", is_refused(House(Path(top))))
        checks.that("an item has its place", [(it.path.name, it.line) for it in items_of(house, "returned")], [("lib.rt", 19)])
    checks.end()
