#!/usr/bin/env python3
"""Lists what each promise rests on: `python3 judge/believed.py [--check | --write | --counts | --executed | --validate LAW ..]`.

A promise is the contract of a law. From its clauses this follows every name: to the definitions, to the code types whose
values they speak of with their views, to the facts that traits declare, and to the words of the toolchain's library. A name
that nothing defines is an error. The lists are in reading order: each definition after those that it uses.

  --counts      prints for each promise how many lines in how many files have to be read
  --write       writes docs/audit/believed.md; --check (the default) compares it with what would be written
  --executed    reports the listed definitions of isolation that no worked value executes, and the relations of which no
                instance is proved, or none refuted (files `proofs/Worked.antt`); --check does too
  --validate    has the checker accept listed definitions alone, and refuse them without any single one of them. It takes
                CRATE::LAW or CRATE::FILE::LAW, needs the Rattle toolchain, and takes a minute for each law
"""

import argparse
import re
import sys
from dataclasses import dataclass

from helpers.definitions import CRATES, TOP, Definition, Module, Tree, Unknown, closing, read_imports
from helpers.listed import in_files, not_executed, validate

PAGE = TOP / "docs/audit/believed.md"


@dataclass(frozen=True)
class Promise:
    """A law or a call whose contract is a promise: its crate, the file of its code, and its name."""

    crate: str
    file: str
    function: str

    @property
    def path(self):
        return CRATES / self.crate / "src" / self.file


# The laws whose lists are printed or counted, by the list that they are on.
ISOLATION = (Promise("isolated_runs", "laws.rt", "two_runs"),)
WIRE = (Promise("isolated_runs", "session.rt", "desk_session"),)
CORRECTNESS = (Promise("isolated_runs", "laws.rt", "runs_are_right"),)
ANSWERS = (Promise("http_history", "laws.rt", "own_text"),)
CRASHES = (Promise("crash_law", "laws.rt", "stands_after_lives"), Promise("crash_law", "files.rt", "files_survive"))
# Names that a reader of a list may leave closed, and why. The list does not go on from them.
CLOSED = {"Pair": "a new desk's history has no pair"}
# Laws whose clauses are instances of relations on the list, which hold or are refuted.
WORKED_BY_LAWS = tuple(Promise("isolated_runs", "laws.rt", it) for it in ("runs_from_parts", "two_runs", "runs_exist", "leak_is_refuted"))
# Relations without a refuted instance: what is said of a part alone has not been found false of any desk.
NEVER_REFUTED = ("IsAlone", "PartsAreAlone")
LISTS = {"isolation": ISOLATION, "isolation with the bytes on the wire": WIRE, "correctness": CORRECTNESS, "all answers": ANSWERS, "crashes": CRASHES}
# What a list says, and of which list it prints only what it has besides that.
ABOUT = {
    "correctness": "In every run, each answer on a company's path is `answer_from` of the company's part of the run and the message. "
    "`IsDesks` defines how requests are read and what cuts send.",
    "all answers": "The same of histories in which each answer is the definitions' answer, the operator's too. Its index has what is not on the list before.",
    "crashes": "After any crashes the desk represents the messages that it answered, and at most one more for each crash.",
}
BESIDES = {"all answers": "correctness"}


# ---- the clauses of a function ----

def code_module(tree, promise):
    """Returns the names that clauses of a file of code can use, as of a module of definitions."""
    text = promise.path.read_text()
    module = Module(f"Rattle.{promise.crate}.{promise.file}", promise.path)
    for line in re.findall(r"^ghost use .*;$", text, re.M):
        read_imports(module, line.removesuffix(";") + ";")
    return module


def clauses_of(promise):
    """Returns the text of the clauses of a function."""
    text = re.sub(r"//[^\n]*", "", promise.path.read_text())
    at = re.search(rf"^pub fn {promise.function}\b", text, re.M)
    if not at:
        raise Unknown(f"{promise.path.relative_to(TOP)} has no function {promise.function}")
    clauses, place = [], at.end()
    while True:
        clause = re.compile(r"(?:requires|ensures)(?: \w+)? \{|\n\{").search(text, place)
        if clause is None or clause[0] == "\n{":
            return "\n".join(clauses)
        place = closing(text, clause.end() - 1) + 1
        clauses.append(text[clause.end() : place - 1])


def facts_of(tree, crate, text):
    """Returns the facts of impls that clauses name as `⟦<Type as Trait>⟧.fact`, each as a definition of code."""
    found = []
    for kind, trait, fact in re.findall(r"⟦<(\w+)(?:<[^>]*>)? as (\w+)>⟧\.(\w+)", text):
        found.append(fact_of(tree, crate, kind, trait, fact))
    return found


def fact_of(tree, crate, kind, trait, fact):
    for file in sorted(CRATES.glob("*/src/**/*.rt")):
        text = file.read_text()
        at = re.search(rf"^impl(?:<[^\n]*>)? {trait} for {kind}\b[^\n]*\{{$", text, re.M)
        if at:
            body = text[at.start() : closing(text, at.start()) + 1]
            line = re.search(rf"^    ghost {fact} = \{{(.*?)\}};", body, re.M | re.S)
            if not line:
                raise Unknown(f"{file.relative_to(TOP)}: {trait} for {kind} has no fact {fact}")
            first = text.count("\n", 0, at.start() + line.start()) + 1
            return Definition(file.relative_to(CRATES).parts[0], f"{trait}.{fact}", file, first, first + line[0].count("\n"), line[1], kind="fact")
    raise Unknown(f"nothing implements {trait} for {kind}")


def starts_of(tree, promise):
    """Returns what the clauses of a promise name, and the facts of impls among that."""
    module, text = code_module(tree, promise), clauses_of(promise)
    return named_in(tree, module, text), facts_of(tree, promise.crate, text)


def named_in(tree, module, text):
    """Returns the definitions that a text of code names by its ghost imports."""
    found = set()
    for word in re.findall(r"(?<![\w.])[A-Za-z_]\w*(?:\.\w+)*", text):
        meant = tree.resolve(module, word)
        if isinstance(meant, Definition):
            found.add(meant)
    return found


def listed(tree, promises):
    """Returns all that promises rest on, in reading order."""
    starts = set()
    for promise in promises:
        names, facts = starts_of(tree, promise)
        starts |= names
        for fact in facts:
            module = Module(fact.module, fact.path)
            for line in re.findall(r"^ghost use .*;$", fact.path.read_text(), re.M):
                read_imports(module, line)
            # What a desk's step is stays a parameter of the law of runs: nobody has to read it. Its type is the trait's.
            if not promises[0].crate.startswith("isolat"):
                starts |= named_in(tree, module, fact.text)
    return tree.closure(sorted(starts, key=str), CLOSED if promises in (ISOLATION, WIRE, CORRECTNESS) else ())


def counts(order):
    """Returns the lines and files of definitions, the lines and files of code types, and the number of toolchain's words."""
    own = [it for it in order if not isinstance(it, str)]
    definitions = [it for it in own if it.kind == "definition"]
    code = [it for it in own if it.kind != "definition"]
    return (sum(it.lines for it in definitions), len({it.path for it in definitions}), sum(it.lines for it in code),
            len({it.path for it in code}), len(order) - len(own))


def print_counts(tree):
    for name, promises in LISTS.items():
        lines, files, code, code_files, words = counts(listed(tree, promises))
        print(f"{name}: {lines} lines in {files} files; code types {code} lines in {code_files} files; {words} words of the toolchain")


# ---- the page ----

HEAD = """# What has to be believed

<!-- Written by judge/believed.py from the definitions. Change those, and run `python3 judge/believed.py --write`. -->

A proof is worth as much as its statement. This page lists what the statements of the desk's promises rest on: every \
definition that they name, directly or through others, in reading order. The prover checks everything else. What the proofs \
themselves presume is in [the table of premises](../PROVED.md#premises).

- [The headline](#the-headline): *a company is answered from its own part of the history alone*, in full. An afternoon.
- [The other lists](#the-other-lists): what a right answer is, to a company and to the operator, and what a crash leaves, as indexes.
- [What is not here](#what-is-not-here)

{counts}
"""
ISOLATION_TEXT = """## The headline

Isolation can be stated without saying what a desk answers: it is enough to say what an answer is made of. The law \
[`two_runs`](../../crates/isolated_runs/src/laws.rt) takes any two runs of desks, with any messages in any order. If a \
company's part is the same in both, the same message on the company's path has the same answer, byte for byte. \
`desk_session` says that a session over a desk writes such answers and no others, and `runs_are_kept` that a desk after a \
crash is again at the end of a run.

By the list below, the answers on a company's path depend on these facts alone:

- the days and the holiday lists that the operator set, and how often the operator cut (`DaySet`, `HolidaysSet`, `CutMade`), but not what a cut sent;
- the company's own registration and limits, and its submissions and retries, accepted or not;
- the returns and changes of its own entries, with the text of the returning bank. An item of a file goes to the company of the entry whose trace it has, if the entry's other fields agree (`resolve`, `with_item`).

So a company does not learn which other companies exist, how much they submit, or any trace number. Someone who does not show \
the company's key learns nothing of the company from the answers on its path, not even whether it is registered (`LookAlike`).

What a bank may not expect: \
a cut that the desk refuses adds nothing to a part, so a company can see that a cut failed, which other companies' volume may cause \
(no trace numbers or file letters are left). And the law says what an answer is made of, not that it is right: that is the list of correctness.

Read the files in this order. Each begins with its purpose. `told` is the world of a desk after one more step; `ℕ` are numbers, \
a text is the list of its bytes, and `codes` gives those of a literal. In each list of events the newest is first.
"""
NOT_HERE = """## What is not here

- **How the program computes.** Code, its contracts below the promises, tables, queries and proofs: the prover checks that they \
meet the statements above.
- **What a desk answers**, for the headline. `RunsFromParts` says that one reading of requests and one reply exist for all desks \
and runs. Which they are is the list of correctness.
- **Time.** No statement says how long an answer takes: one company can see by the time of its answers that others are served.
- **503.** A message that is answered 503 changes nothing, and is no part of a run's parts.
- **What a person does outside the desk**: transmitting files, keys, the proxy. See [proved, trusted and tested](assurance.md).
"""


def purpose_of(path):
    """Returns the comment at the head of a file of definitions, as one paragraph."""
    lines = []
    for line in path.read_text().split("\n"):
        if not line.startswith("--"):
            break
        lines.append(line.removeprefix("--").strip())
    return " ".join(lines)


def source_of(own):
    """Returns the lines of a definition with the comment before it, as they are in its file."""
    lines = own.path.read_text().split("\n")
    first = own.first - 1
    while first and lines[first - 1].strip().startswith("--") and not lines[first - 1].strip().startswith("-- ----"):
        first -= 1
    if not any(it.strip() and not it.startswith("--") for it in lines[:first]):
        first = own.first - 1
    return "\n".join(lines[first : own.last])


def link(path, text=None):
    return f"[`{text or path.relative_to(CRATES)}`](../../{path.relative_to(TOP)})"


def full_list(tree, order):
    lines = []
    for path, own in in_files(tree, order).items():
        closed = [f"`{it.name}` [may stay closed](#what-may-stay-closed): {CLOSED[it.name]}." for it in own if it.name in CLOSED]
        lines += [f"### {path.relative_to(CRATES)}".replace("/specs", ""), "", f"{link(path, 'source')}: {purpose_of(path)}", "", *[it for line in closed for it in (line, "")], "```text"]
        heads = []
        for it in own:
            if it.outer and it.outer not in heads:
                heads.append(it.outer)
                lines += [f"module _ {it.outer.strip()} where"]
            lines += [source_of(it), ""]
        lines[-1:] = ["```", ""]
    return lines


def words_list(order):
    """Lists the code types and the toolchain's words of a list, in two paragraphs."""
    code = sorted({(it.path, it.name) for it in order if not isinstance(it, str) and it.kind == "code"})
    by_file = {}
    for path, name in code:
        by_file.setdefault(path, []).append(f"`{name}`")
    types = "; ".join(f"{', '.join(names)} of {link(path)}" for path, names in by_file.items())
    words = {}
    for it in sorted(it for it in order if isinstance(it, str)):
        module, _, name = it.rpartition(".")
        words.setdefault(module, []).append(f"`{name}`")
    known = "; ".join(f"{', '.join(names)} of `{module}`" for module, names in words.items())
    closed = [f"- `{name}`: {why}." for name, why in CLOSED.items()]
    return ["### Types of code", "", f"Their values are the lists, numbers and records that their fields show: {types}.", "", "### Words of the toolchain", "", f"{known}.", "",
            "### What may stay closed", "", "The statement holds whatever these answer, so a reader can skip them:", "", *closed, ""]


def index(tree, order):
    """Lists files with the names that they define, and how many lines of each are on the list."""
    lines = ["| File | Lines | Definitions |", "|---|---|---|"]
    for path, own in in_files(tree, order).items():
        names = ", ".join(f"`{it.name}`" for it in own)
        lines.append(f"| {link(path)} | {sum(it.lines for it in own)} | {names} |")
    return lines


def counts_table(lists):
    lines = ["| List | Lines of definitions | Files | Types of code | Words of the toolchain |", "|---|---|---|---|---|"]
    for name, order in lists.items():
        own, files, _, _, words = counts(order)
        types = len({it for it in order if not isinstance(it, str) and it.kind == "code"})
        lines.append(f"| {name} | {own:,} | {files} | {types} | {words} |")
    return "\n".join(lines)


def page(tree):
    lists = {name: listed(tree, promises) for name, promises in LISTS.items()}
    lines = [HEAD.replace("\\\n", "").format(counts=counts_table(lists)), ISOLATION_TEXT.replace("\\\n", "")]
    lines += full_list(tree, lists["isolation"]) + words_list(lists["isolation"])
    lines += ["## The other lists", ""]
    for name in list(LISTS)[1:]:
        laws = ", ".join(link(it.path, it.function) for it in LISTS[name])
        known = lists[BESIDES[name]] if name in BESIDES else ()
        about = f" {ABOUT[name]}" if name in ABOUT else ""
        lines += [f"### {name[0].upper()}{name[1:]}", "", f"From {laws}.{about}", "", *index(tree, [it for it in lists[name] if it not in known]), ""]
    return "\n".join([*lines, NOT_HERE.replace("\\\n", "")]).rstrip("\n") + "\n"


def law_named(words):
    """Returns the promise that CRATE::LAW or CRATE::FILE::LAW names."""
    crate, *file, law = words.split("::")
    return Promise(crate, f"{file[0] if file else 'laws'}.rt", law)


def report_not_executed(tree):
    """Prints the listed definitions of isolation that worked values do not execute, and returns how many they are."""
    proved, refuted = set(), set()
    for promise in WORKED_BY_LAWS:
        names, _ = starts_of(tree, promise)
        for it in names:
            (refuted if "→ ⊥" in it.text else proved).update({it, *(tree.uses(it) if "→ ⊥" in it.text else ())})
    refuted = {it for it in refuted if not isinstance(it, str)}
    lines = [it for it in not_executed(tree, listed(tree, ISOLATION), proved, refuted) if it.split()[0].rpartition(".")[2] not in NEVER_REFUTED]
    print("\n".join([*lines, f"{len(lines)} of the isolation list are not executed"]))
    return len(lines)


def main():
    parser = argparse.ArgumentParser(description=__doc__, formatter_class=argparse.RawDescriptionHelpFormatter)
    for flag in ("--counts", "--write", "--check", "--executed"):
        parser.add_argument(flag, action="store_true")
    parser.add_argument("--validate", nargs="+", metavar="LAW")
    given, tree = parser.parse_args(), Tree()
    if given.validate:
        laws = [law_named(it) for it in given.validate]
        return 1 if sum(validate(tree, listed(tree, (it,)), it.crate, it.function, CLOSED) for it in laws) else 0
    if given.executed:
        return 1 if report_not_executed(tree) else 0
    if given.counts:
        print_counts(tree)
    elif given.write:
        PAGE.write_text(page(tree))
    elif not PAGE.exists() or PAGE.read_text() != page(tree):
        print(f"{PAGE.relative_to(TOP)} is not generated from the definitions: run python3 judge/believed.py --write", file=sys.stderr)
        return 1
    elif report_not_executed(tree):
        return 1
    return 0


if __name__ == "__main__":
    sys.exit(main())
