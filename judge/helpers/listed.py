"""Has the checker accept listed definitions alone, and refuse them without any one of them; finds which are executed."""

import re
import subprocess
import sys
import tempfile
from pathlib import Path

from helpers.definitions import CRATES, TOP, Module, closing, read_imports, without_comments

sys.path.insert(0, str(TOP / ".ci"))
import build_program as proofs  # noqa: E402

LISTED = "listed"
DECLARED = re.compile(r"^use (Rattle\.\w+\.specs\.declared\.[\w.]+)\.\{(.*)\}\n", re.M)


def in_files(tree, order):
    """Groups definitions by their files, in reading order: a file comes after those that its definitions name."""
    found, sorted_files, own = {}, [], [it for it in order if not isinstance(it, str) and it.kind == "definition"]
    for it in own:
        found.setdefault(it.path, []).append(it)

    def add(path):
        if path not in sorted_files:
            names = set().union(*(tree.uses(it) for it in found[path]))
            for below in dict.fromkeys(it.path for it in own if it in names and it.path != path):
                add(below)
            sorted_files.append(path)

    for path in found:
        add(path)
    return {path: sorted(found[path], key=lambda it: it.first) for path in sorted_files}


# ---- the checker's word ----

def flat(path):
    """Returns the name of a file of definitions in the crate that holds the listed ones alone."""
    crate, *_ = path.relative_to(CRATES).parts
    return "_".join([crate, *path.relative_to(CRATES / crate / "specs").with_suffix("").parts])


def only(tree, kept, path, closed, names):
    """Returns the text of a file of definitions with the kept ones alone. A closed type is a number; `names` gives other files' names."""
    module = next(it for it in tree.modules.values() if it.path == path)
    lines = without_comments(path.read_text(), strings=True).split("\n")
    for own in module.definitions:
        if own not in kept or own.name in closed:
            lines[own.first - 1 : own.last] = [""] * (own.last - own.first + 1)
        if own in kept and own.name in closed:
            lines[own.first - 1] = f"abbrev pub {own.name} : Type 0\n{own.name} = Rattle.std.specs.Prelude.ℕ"
    heads = {it.outer for it in module.definitions if it in kept}
    text = "\n".join(filter(None, (renamed(tree, kept, it, names) for it in lines)))
    text = re.sub(r"^infix[lr]? \d+ (\S+)\n", lambda it: it[0] if module.names[it[1]] in kept else "", text, flags=re.M)
    text = re.sub(r"^(abbrev )?mutual(\n|$)(?!  )", "", text, flags=re.M)
    for outer in {it.outer for it in module.definitions} - heads:
        text = re.sub(r"^ *module _ " + r"\s+".join(map(re.escape, outer.split())) + r"\s+where\n?", "", text, flags=re.M)
    text = text.replace("Rattle.std.specs.Prelude.ℕ", "ℕ")
    body = re.sub(r"^(pub )?use .*$", "", text, flags=re.M)
    # The crate's own code types may be private to it: an import that nothing uses goes, and the others name their copies.
    text = DECLARED.sub(lambda it: import_of_code(tree, it) if any(used_in(body, name) for name in it[2].split(", ")) else "", text)
    if any(it.name in closed for it in module.definitions if it in kept) and not re.search(r"^use Rattle\.std\.specs\.Prelude\.\{[^}]*ℕ", text, re.M):
        text = "use Rattle.std.specs.Prelude.{ℕ}\n" + text
    return text + "\n"


def used_in(body, name):
    return re.search(rf"(?<![\w'.]){re.escape(name.rpartition(' as ')[2])}(?![\w'])", body) is not None


def is_private(own):
    """Tells whether a code type is private to its crate."""
    return own.kind == "code" and re.match(r"(pub\(\w+\) )?(struct|enum) ", own.text) is not None


def import_of_code(tree, found):
    """Returns an import of a code type, or of its copy where the type is private to its crate."""
    path, names = found.groups()
    if tree.is_own(path) and any(is_private(tree.code(path, it.partition(" as ")[0])) for it in names.split(", ")):
        return f"use Rattle.{LISTED}.specs.declared.{path.rpartition('.')[2]}.{{{names}}}\n"
    return found[0]


def copies_of_private(tree, texts):
    """Returns public copies of the private code types that files of definitions name."""
    copied = {own.name: own for own in tree.codes.values() if is_private(own) and any(f".{LISTED}.specs.declared.{own.name}." in it for it in texts)}
    bodies = [re.sub(r"^(pub\(\w+\) )?", "pub ", own.text[: closing(own.text, 0) + 1]) for own in copied.values()]
    return "".join(f"\n/// A copy.\n{it}\n" for it in bodies)


def renamed(tree, kept, line, names):
    """Returns an import as it is in that crate, or another line as it is."""
    at = re.fullmatch(r"(pub )?use (Rattle\.(\w+)\.specs\.(?!declared)[\w.]+?)(\.\{(.*)\}| as \w+)", line)
    if not at or not tree.is_own(at[2]):
        return line
    path = f"Rattle.{LISTED}.specs.{names.get(at[2]) or flat(tree.module(at[2]).path)}"
    if at[5] is None:
        return f"use {path}{at[4]}" if any(it.module == at[2] for it in kept) else ""
    found = [it for it in at[5].split(", ") if tree.named(at[2], it.partition(" as ")[0]) in kept]
    return f"{at[1] or ''}use {path}.{{{', '.join(found)}}}" if found else ""


def without_each(tree, kept, closed):
    """Returns for each definition that another names, files in which it is missing: its own, and one with a definition that names it."""
    variants = {}
    for number, own in enumerate(sorted(kept, key=str)):
        user = next((it for it in sorted(kept, key=lambda it: (it.module != own.module, str(it))) if it != own and own in tree.uses(it)), None)
        if user is None:
            continue
        less, name = kept - {own}, f"Without{number}_{flat(own.path)}"
        files = {name: only(tree, less, own.path, closed, {})}
        if user.module != own.module:
            files[f"Without{number}_{flat(user.path)}"] = only(tree, less, user.path, closed, {own.module: name})
        variants[number] = (own, files)
    return variants


def refusals(tree, crate, texts):
    """Returns the files that the checker refuses in a crate of these definitions alone, with the code types and libraries of another."""
    with tempfile.TemporaryDirectory(prefix="listed-") as folder:
        room = Path(folder)
        (room / "specs").mkdir()
        (room / "src").mkdir()
        (room / "src/lib.rt").write_text("//! Listed definitions.\n#![tactic(auto)]\n" + copies_of_private(tree, texts.values()))
        for name, text in texts.items():
            (room / f"specs/{name}.antt").write_text(text)
        (room / "specs/Lib.antt").write_text("".join(f"pub mod {it}\n" for it in texts))
        uses = proofs.uses_of_crates()
        below = proofs.crates_below(uses, crate)[crate]
        libraries = sorted(set().union(uses[crate], below, *(uses[it] for it in below)))
        words = [proofs.KIT / "bin/rattle", "check", *proofs.sources_of(LISTED, {**uses, LISTED: libraries})]
        ran = subprocess.run([str(it) for it in words], cwd=room, stdin=subprocess.DEVNULL, capture_output=True, text=True, check=False)
        said = ran.stdout + ran.stderr
        found = set(re.findall(r"^\./specs/(\w+)\.antt:\d+(?::\d+)?: error", said, re.M))
        return found, said, ran.returncode


def validate(tree, order, crate, law, closed):
    """Has the checker accept listed definitions alone, and refuse them without any one, in two runs; returns how often it did not."""
    kept = {it for it in order if not isinstance(it, str) and it.kind == "definition"}
    texts = {flat(path): only(tree, kept, path, closed, {}) for path in in_files(tree, order)}
    refused, said, status = refusals(tree, crate, texts)
    print(f"{crate}::{law}: {len(kept)} definitions alone: {'accepted' if status == 0 else 'REFUSED'}", flush=True)
    if status:
        print("\n".join(it for it in said.split("\n") if not it.startswith("statements"))[:3000])
        return 1
    variants = without_each(tree, kept, closed)
    refused, said, _ = refusals(tree, crate, {**texts, **{name: text for _, files in variants.values() for name, text in files.items()}})
    needed = {int(it.removeprefix("Without").split("_")[0]) for it in refused if it.startswith("Without")}
    faults = [own for number, (own, _) in variants.items() if number not in needed] + [it for it in refused if it in texts]
    for it in faults:
        print(f"{crate}::{law}: accepted without it: {getattr(it, 'module', it)}.{getattr(it, 'name', '')}", flush=True)
    named = len(kept) - len(variants)
    print(f"{crate}::{law}: refused without each of {len(variants) - len(faults)} definitions; the law itself names the other {named}", flush=True)
    return len(faults)


# ---- what is executed ----

def worked_names(tree):
    """Returns the definitions that worked values name, those that hold of an instance, and those that are refuted of one."""
    named, holds, refuted = set(), set(), set()
    for path in sorted(CRATES.glob("*/proofs/Worked.antt")):
        module, text = Module(f"worked {path.parts[-3]}", path), without_comments(path.read_text())
        for line in re.findall(r"^use .*$", text, re.M):
            if not re.match(r"use Rattle\.\w+\.proofs\.", line):
                read_imports(module, line)
        named |= names_in(tree, module, text)
        for signature in re.findall(r"^[\w-]+ : (?:.*\n(?: .*\n)*?)(?=\S)", text, re.M):
            (refuted if "⊥" in signature else holds).update(names_in(tree, module, signature))
    return named, holds, refuted


def names_in(tree, module, text):
    found = set()
    for word in re.findall(r"(?<![\w'.])[A-Za-z_][\w']*(?:\.[\w']+)*", text):
        meant = tree.resolve(module, word)
        if meant is not None and not isinstance(meant, str):
            found.add(meant)
    return found


def is_relation(own):
    """Tells whether a definition is a relation: it has parameters, and each instance of it is a type."""
    head = own.text.split("\n")[0]
    if head.split()[0] in ("abbrev", "unfoldable"):
        signature = re.split(r"\n(?=\S)", own.text)[0]
        return signature.rstrip().endswith("→ Type 0")
    return re.match(r"(pub )?record", head) is not None and ("(" in head.partition(":")[0] or bool(own.outer))


def not_executed(tree, order, proved, refuted_by_laws):
    """Returns lines on listed definitions that no worked value executes, and on relations without both instances."""
    named, holds, refuted = worked_names(tree)
    executed = set(tree.closure(sorted(named | proved | refuted_by_laws, key=str)))
    holds, refuted = closed_under(tree, holds | proved), refuted | refuted_by_laws
    for own in order:
        if isinstance(own, str) or own.kind != "definition":
            continue
        if own not in executed:
            yield f"{own.module}.{own.name} is executed on no worked value"
        elif is_relation(own) and own not in holds:
            yield f"{own.module}.{own.name} holds of no worked value"
        elif is_relation(own) and own not in refuted:
            yield f"{own.module}.{own.name} is refuted of no worked value"


def closed_under(tree, holds):
    """What holds of an instance holds of the relations that it names too."""
    return set(tree.closure(sorted(holds, key=str)))
