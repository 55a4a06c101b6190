#!/usr/bin/env python3
"""Compiles the desk's program with nothing proved, for ./try, and keeps it until a source changes.

The toolchain's `rt try` compiles a program, runs it once and deletes it. Here it runs from a copy of the toolchain that
has one file of its own, a linker that also copies its output to crates/achdesk/out/tried. The rest are links.
"""

import os
import shlex
import shutil
import subprocess
import sys
import tempfile
import time
from pathlib import Path

from progress import Screen

CRATE = Path(__file__).resolve().parent.parent / "crates/achdesk"
OUT = CRATE / "out"
TRIED = OUT / "tried"
LINKER = """#!/bin/sh
{linker} "$@" || exit
while [ $# -gt 1 ]; do
    [ "$1" != -o ] || cp -- "$2" {made} || exit
    shift
done
"""


def link_all(source, target, but):
    """Makes a folder with a link to each file and folder of another, but for some of them."""
    target.mkdir()
    for it in source.iterdir():
        if it.name not in but:
            (target / it.name).symlink_to(it)


def toolchain_with_linker(kit, folder, made):
    """Makes a copy of the toolchain whose linker also copies what it links to the path `made`, and returns its `rt`."""
    link_all(kit, folder, {"bin", "toolchain"})
    # `rt` finds the toolchain by its own place, so it is a copy and not a link.
    link_all(kit / "bin", folder / "bin", {"rt", "rtlib.py"})
    for it in ("rt", "rtlib.py"):
        shutil.copy(kit / "bin" / it, folder / "bin")
    link_all(kit / "toolchain", folder / "toolchain", {"bin"})
    link_all(kit / "toolchain/bin", folder / "toolchain/bin", {"ld.lld"})
    linker = folder / "toolchain/bin/ld.lld"
    linker.write_text(LINKER.format(linker=shlex.quote(str(kit / "toolchain/bin/ld.lld")), made=shlex.quote(str(made))))
    linker.chmod(0o755)
    return folder / "bin/rt"


def compile_program(kit, screen):
    """Compiles the program and returns whether it was kept, with what the toolchain printed."""
    with tempfile.TemporaryDirectory(prefix="compiled-", dir=OUT) as room:
        made, start = Path(room, "program"), time.monotonic()
        rt = toolchain_with_linker(kit, Path(room, "kit"), made)
        # Sources that change while they are compiled are newer than the program, so the next use compiles again.
        began = time.time()
        with open(f"{room}/printed", "w+b") as printed:
            how = {"cwd": CRATE, "stdin": subprocess.DEVNULL, "stdout": printed, "stderr": printed}
            tool = subprocess.Popen([sys.executable, rt, "try", "--", "--version"], **how)
            while tool.poll() is None:
                screen.draw(f"compiling for {time.monotonic() - start:.0f} seconds")
                time.sleep(0.2)
            screen.clear()
            printed.seek(0)
            text = printed.read().decode(errors="replace")
        if tool.returncode or not made.is_file():
            return False, text
        os.utime(made, (began, began))
        made.replace(TRIED)
        return True, text


def main():
    screen, rt = Screen("try"), shutil.which("rt")
    if not rt:
        screen.say("the program is compiled first, and that needs the Rattle toolchain: its command rt is not on the PATH")
        return 1
    OUT.mkdir(exist_ok=True)
    screen.say("the program is compiled once, with some checks and nothing proved, which takes 2 to 10 minutes")
    is_kept, text = compile_program(Path(rt).resolve().parent.parent, screen)
    if not is_kept:
        print(text, end="", file=sys.stderr)
        screen.say("the toolchain made no program; ./achdesk proves and builds it")
    return 0 if is_kept else 1


if __name__ == "__main__":
    sys.exit(main())
