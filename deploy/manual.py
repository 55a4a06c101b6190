#!/usr/bin/env python3
"""Prints a manual page: `python3 deploy/manual.py NAME PROGRAM > NAME.1`.

The page is made of what `PROGRAM --help` and `PROGRAM COMMAND --help` print, of the exit statuses in docs/operate/ (the table whose
first header is `Status`) and of the paths in deploy/README.md (the table whose first header is `Path`). The status is 1 if
the program prints no help or a table is missing."""

import os
import re
import subprocess
import sys
from pathlib import Path

TOP = Path(__file__).resolve().parent.parent
PAGES = [TOP / "docs" / "operate" / "troubleshooting.md"]
# `  --day DAY   The day`: what is explained, and the explanation, which may begin on the next line.
ITEM = re.compile(r" {1,8}(\S.*?)(?: {2,}(\S.*))?")


def plain(text):
    """A line of text in roff."""
    text = text.replace("\\", "\\e").replace("-", "\\-").replace("`", "\\(ga").replace("'", "\\(aq")
    return f"\\&{text}" if text.startswith((".", "'")) else text


def from_markdown(text):
    """A cell of a table: links without their targets, code in bold."""
    text = plain(re.sub(r"\[([^]]*)\]\([^)]*\)", r"\1", text.strip()))
    return re.sub(r"\\\(ga(.*?)\\\(ga", r"\\fB\1\\fR", text)


def help_of(program, *words):
    """What the program prints when it is asked for help."""
    known = {"PATH": "/usr/bin:/bin", "COLUMNS": "100", "PYTHONDONTWRITEBYTECODE": "1", "PYTHONPATH": os.environ.get("PYTHONPATH", "")}
    done = subprocess.run([program, *words, "--help"], stdout=subprocess.PIPE, text=True, timeout=60, env=known)
    if done.returncode or not done.stdout.strip():
        sys.exit(f"{program} {' '.join(words)} --help: status {done.returncode}, {len(done.stdout)} characters")
    return done.stdout


def version_of(program):
    done = subprocess.run([program, "--version"], stdout=subprocess.PIPE, stderr=subprocess.DEVNULL, text=True, timeout=60)
    return done.stdout.strip() if done.returncode == 0 else ""


def blocks(text):
    """The help in blocks: of each its title (empty for plain paragraphs) and its lines."""
    found = [("", [])]
    for line in text.split("\n"):
        usage = re.match(r"usage: *(.*)", line, re.I)
        if usage:
            found.append(("Usage", [usage[1]]))
        elif re.fullmatch(r"[A-Za-z][\w ,]*:", line):
            found.append((line[:-1].capitalize(), []))
        elif line and not line.startswith(" ") and found[-1][0]:
            found.append(("", [line]))
        else:
            found[-1][1].append(line)
    return [(title, lines) for title, lines in found if any(lines)]


def commands_in(text):
    """The commands that a help lists."""
    listed = next((lines for title, lines in blocks(text) if title == "Commands"), [])
    return [name for name, _ in items(listed) if name != "help"]


def items(lines):
    """The lines of a list as pairs of what is explained and its explanation; argparse's `{a,b}` or `COMMAND` is left out."""
    found, margin = [], None
    for line in (it for it in lines if it.strip() and it.strip() != "COMMAND" and not it.lstrip().startswith("{")):
        indent = len(line) - len(line.lstrip())
        margin = indent if margin is None else margin
        item = ITEM.fullmatch(line) if indent <= margin + 4 else None
        if item:
            found.append([item[1], item[2] or ""])
        elif found:
            found[-1][1] = f"{found[-1][1]} {line.strip()}".strip()
    return found


def write_block(out, title, lines, level, known=()):
    """Writes a block, of a list the items that are not known from another block."""
    if title == "Usage":
        out += [".PP" if level == ".SS" else ".SH SYNOPSIS", ".nf", *(plain(it.strip()) for it in lines if it.strip()), ".fi"]
    elif title.startswith("Example"):
        out += [f'{level} "{title.upper()}"', ".nf", *(plain(it.strip()) for it in lines if it.strip()), ".fi"]
    elif title:
        names = [name for name, _ in known] if title == "Settings" else []
        new = [it for it in items(lines) if it not in known and it[0] not in names]
        if new:
            out.append(f'{level} "{title.upper()}"' if level == ".SH" else f".PP\n.I {plain(title)}")
        for name, meaning in new:
            out += [".TP", f".B {plain(name)}", plain(" ".join(meaning.split()))]
    else:
        for paragraph in re.split(r"\n\s*\n", "\n".join(lines).strip("\n")):
            if all(it.startswith("  ") for it in paragraph.split("\n")):
                out += [".PP", ".nf", *map(plain, paragraph.split("\n")), ".fi"]
            else:
                out += [".PP", *(plain(it.strip()) for it in paragraph.split("\n"))]


def table(pages, header):
    """The rows of the first table whose first header is this one."""
    for page in pages:
        lines = page.read_text().split("\n")
        starts = [at for at, line in enumerate(lines) if re.match(rf"\| *{header} *\|", line)]
        if starts:
            rows = []
            for line in lines[starts[0] + 2:]:
                if not line.startswith("|"):
                    return rows
                rows.append([from_markdown(cell) for cell in line.strip("|").split("|")])
            return rows
    sys.exit(f"no page has a table of which the first header is {header!r}")


def summary_of(text):
    """The help's first sentence, as the page's NAME has it."""
    for title, lines in blocks(text):
        if not title:
            sentence = re.split(r"(?<=\.)\s", " ".join(" ".join(lines).split()))[0].rstrip(".")
            return sentence[0].lower() + sentence[1:] if sentence[1:2].islower() else sentence
    sys.exit("the help has no sentence")


def page_of(name, program):
    top = help_of(program)
    version = version_of(program)
    out = [f'.TH {name.upper()} 1 "" "{plain(version)}" "User commands"', ".SH NAME", f"{plain(name)} \\- {plain(summary_of(top))}"]
    parts = blocks(top)
    for title, lines in [it for it in parts if it[0] == "Usage"]:
        write_block(out, title, lines, ".SH")
    out.append(".SH DESCRIPTION")
    for title, lines in [it for it in parts if it[0] != "Usage"]:
        write_block(out, title, lines, ".SH")
    commands = commands_in(top)
    known = [it for title, lines in parts if title not in ("", "Usage") for it in items(lines)]
    if commands:
        out.append(".SH THE COMMANDS")
    for command in commands:
        out.append(f'.SS "{plain(command)}"')
        for title, lines in blocks(help_of(program, command)):
            write_block(out, title, lines, ".SS", known)
    if name == "achdesk":
        out.append('.SH "EXIT STATUS"')
        for status, printed, meaning in table(PAGES, "Status"):
            out += [".TP", f".B {status} {printed}".rstrip(), meaning]
    if name != "achdesk-company":
        out.append(".SH FILES")
        for path, meaning in table([TOP / "deploy" / "README.md"], "Path"):
            out += [".TP", path, meaning]
    others = [it for it in ("achdesk", "achdesk-alarm", "achdesk-company", "achdesk-day", "achdesk-guard") if it != name]
    out += ['.SH "SEE ALSO"', *(f".BR {plain(it)} (1)," for it in others), ".BR nginx (8),", ".BR systemctl (1),", "/usr/share/doc/achdesk"]
    return "\n".join(out) + "\n"


def main():
    if len(sys.argv) != 3:
        sys.exit(__doc__)
    sys.stdout.write(page_of(sys.argv[1], sys.argv[2]))


if __name__ == "__main__":
    main()
