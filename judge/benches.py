"""Checks that the programs of bench/ still fit the crates: `python3 judge/benches.py [NAME ..]`.

Each main.rt.txt of bench/ is compiled by `rt try` beside a copy of the crates, with nothing proved, and begun; how fast
it is nobody asks. A line is printed for each that does not compile, and a count at the end. The status is 0 where all
compile, and 1 where one does not.
"""

import re
import shutil
import subprocess
import sys
import tempfile
from pathlib import Path

TOP = Path(__file__).resolve().parent.parent


def uses_of(name):
    """The line of crates.txt that the script of a benchmark adds for its program."""
    return re.search(rf"{name}_bench: [^\"]*", (TOP / f"bench/{name}.sh").read_text())[0]


def fault_of(work, name):
    """What the compiler says of a benchmark's program that it does not take, or None."""
    said = subprocess.run(["rt", "try", "--seconds", "1"], cwd=work / "crates" / f"{name}_bench", input="",
                          stdout=subprocess.PIPE, stderr=subprocess.STDOUT, text=True, errors="replace").stdout
    lines = said.strip().split("\n")
    if re.match(r"run=(?!none)", lines[-1]):
        return None
    return next((it for it in lines if ": error" in it), lines[-1])


def main():
    names = sys.argv[1:] or sorted(it.parent.name for it in (TOP / "bench").glob("*/main.rt.txt"))
    failed = 0
    with tempfile.TemporaryDirectory(prefix="benches-") as room:
        work = Path(room)
        shutil.copytree(TOP / "crates", work / "crates", ignore=shutil.ignore_patterns("out"))
        shutil.copy(TOP / "HANDLES", work)
        lines = [uses_of(it) for it in names]
        (work / "crates.txt").write_text("\n".join([(TOP / "crates.txt").read_text().rstrip("\n"), *lines]) + "\n")
        for name in names:
            (work / "crates" / f"{name}_bench/src").mkdir(parents=True)
            shutil.copy(TOP / "bench" / name / "main.rt.txt", work / "crates" / f"{name}_bench/src/main.rt")
        for name in names:
            fault = fault_of(work, name)
            if fault is not None:
                failed += 1
                print(f"bench/{name}/main.rt.txt: {fault}", flush=True)
    print(f"{len(names)} programs of bench/, {failed} do not compile")
    return 1 if failed else 0


if __name__ == "__main__":
    sys.exit(main())
