#!/usr/bin/env python3
"""Copies the pages into a folder: `python3 deploy/pages.py FOLDER`.

The pages keep their places: docs/operate/day.md becomes FOLDER/docs/operate/day.md. A link to a file that is not copied,
such as a source, becomes its text, and the path that it had in the repository. The status is 1 if a page links to a file
that the repository does not have."""

import os
import re
import shutil
import sys
from pathlib import Path
from typing import Iterable

TOP = Path(__file__).resolve().parent.parent
PAGES = ("README.md", "CHANGELOG.md", "docs/**/*.md", "deploy/README.md", "bench/RESULTS.md", "judge/README.md", "clients/README.md")
# What pages show or link to, and what they say to run.
OTHERS = ("docs/**/*.yaml", "docs/**/*.png", "docs/**/*.ach", "docs/audit.sql", "deploy/prometheus/*", "examples/*.json", "examples/*.ach", "examples/*.csv")
LINK = re.compile(r"(!?)\[((?:[^][]|\[[^]]*\])*)\]\(([^)\s#]+)(#[^)\s]*)?\)")
BLOCK = re.compile(r"(^```.*?^```$)", re.M | re.S)


def matching(patterns: Iterable[str]) -> list[Path]:
    """Returns the files of the repository that match, by their paths in it."""
    return sorted({it.relative_to(TOP) for pattern in patterns for it in TOP.glob(pattern) if it.is_file()})


def target_of(page: Path, link: str) -> Path:
    """Returns the path in the repository of a link in a page."""
    return Path(os.path.normpath(page.parent / link))


def installed(page: Path, text: str, copied: set[Path]) -> str:
    """Returns a page's text with the links that lead somewhere among the copied files."""

    def changed(found: "re.Match[str]") -> str:
        shown, words, link = found[1], found[2], found[3]
        if re.match(r"[a-z]+:", link):
            return found[0]
        target = target_of(page, link)
        if not (TOP / target).exists():
            sys.exit(f"deploy/pages.py: {page} links to {link}, which is not there")
        if target in copied or any(target in it.parents for it in copied):
            return found[0]
        return words if shown or target.name in words else f"{words} (`{target}`)"

    return "".join(part if at % 2 else LINK.sub(changed, part) for at, part in enumerate(BLOCK.split(text)))


def main() -> None:
    if len(sys.argv) != 2 or sys.argv[1].startswith("-"):
        print(__doc__)
        sys.exit(0 if sys.argv[1:] in (["-h"], ["--help"]) else 2)
    folder = Path(sys.argv[1])
    pages, others = matching(PAGES), matching(OTHERS)
    copied = {*pages, *others}
    for path in copied:
        (folder / path.parent).mkdir(mode=0o755, parents=True, exist_ok=True)
    for path in others:
        shutil.copyfile(TOP / path, folder / path)
    for page in pages:
        (folder / page).write_text(installed(page, (TOP / page).read_text(), copied))
    for path in copied:
        (folder / path).chmod(0o644)


if __name__ == "__main__":
    main()
