"""Reads edits that make a crate wrong, and finds the functions whose text each changes."""

import re
from dataclasses import dataclass
from pathlib import Path

from .functions import functions_of

# What begins a constant of src/, and a definition of specs/ or one of its equations.
CONSTANT = re.compile(r"^ *(?:pub(?:\(\w+\))? )?(?:const|fn|struct|enum|trait|impl|static|type) (\w+)|^\w+!", re.MULTILINE)
DEFINITION = re.compile(r"^(?!--|use |mod )(?:(?:unfoldable|abbrev|pub|data|record|type) )*([^\s{}():=]+)(?= .*[:=])", re.MULTILINE)


@dataclass(frozen=True)
class Edit:
    """An edit of a crate: where it stands, and the texts that it puts in place of others, each with its file."""

    crate: Path
    file: Path
    changes: tuple

    @property
    def name(self):
        return self.file.stem

    def text_of(self, path, texts):
        return texts.get(path) or (self.crate / path).read_text()

    def applied(self, texts):
        """Returns these texts with the edit's changes, or raises a ValueError that says why it cannot be."""
        texts = dict(texts)
        for path, old, new in self.changes:
            whole = self.text_of(path, texts)
            if whole.count(old) != 1:
                raise ValueError(f"an old text stands in {path} {whole.count(old)} times, and not once")
            texts[path] = whole.replace(old, new)
        return texts

    def functions(self):
        """Returns the functions whose bodies have all that the edit changes, or nothing where it changes something else too."""
        texts, found = {}, set()
        for path, old, new in self.changes:
            whole = self.text_of(path, texts)
            at = whole.find(old)
            functions = functions_of(path, whole) if path.startswith("src/") else ()
            around = [it.path for it in functions if it.body < at and at + len(old) < it.end]
            # Functions of a cycle of calls have one proof.
            if not around or "#[cycle(" in whole:
                return set()
            found.add(around[0])
            texts[path] = whole.replace(old, new)
        return found

    def users(self):
        """Returns the functions that name what the edit changes outside of functions, or else those that name what is made of it."""
        made, known, named = parts_of(self.crate, "specs/", definitions_of), set(), self.names()
        functions = parts_of(self.crate, "src/", lambda path, text: [(it.path, text[it.start : it.end]) for it in functions_of(path, text)])
        while named:
            found = {path for path, text in functions if is_named(named, text)}
            if found:
                return found
            known |= named
            named = {name for name, text in made if name not in known and is_named(named, text)}
        return set()

    def names(self):
        """Returns the names of the constants and definitions that the edit changes."""
        found = set()
        for path, old, _ in self.changes:
            whole = self.text_of(path, {})
            begins = DEFINITION if path.startswith("specs/") else CONSTANT
            found |= {it[1] for it in list(begins.finditer(whole[: whole.find(old) + len(old)]))[-1:]}
        return found - {None}


def parts_of(crate, part, parts_in):
    """Returns the named parts of all files of a folder of a crate."""
    files = [it for it in sorted((crate / part).rglob("*.*")) if it.suffix in (".rt", ".antt")]
    return [part for it in files for part in parts_in(str(it.relative_to(crate)), it.read_text())]


def definitions_of(_path, text):
    """Returns the equations and declarations of a file of specs/, each with the name that it is of."""
    begins = [*DEFINITION.finditer(text)]
    ends = [it.start() for it in begins[1:]] + [len(text)]
    return [(it[1], text[it.start() : end]) for it, end in zip(begins, ends)]


def is_named(names, text):
    return any(re.search(rf"(?<![\w']){re.escape(name)}(?![\w'])", text) for name in names)


def read_edit(crate, file):
    """Reads an edit, or raises a ValueError that says what it lacks."""
    changes, path, old = [], None, None
    for line in file.read_text().splitlines():
        word, _, text = line.partition(": ")
        if word == "file":
            path = text
        elif word == "old":
            old = text
        elif word == "new" or line == "new:":
            if path is None or not old:
                raise ValueError("a new text has no file or no old text")
            changes.append((path, old, text))
            old = None
    if not changes:
        raise ValueError("it changes nothing")
    return Edit(crate, file, tuple(changes))
