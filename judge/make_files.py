"""Writes files and their answers: `python3 make_files.py FOLDER FILES [FIRST]`.

Each file is `NUMBER.ach`; `answers.txt` has a line `NUMBER.ach ANSWER` for each, where the answer is
the line that `check` prints.
"""

import os
import random
import sys

from helpers.grammar import answer
from helpers.mutations import spoiled


def main():
    if len(sys.argv) not in (3, 4):
        sys.exit(__doc__)
    folder, files = sys.argv[1], int(sys.argv[2])
    first = int(sys.argv[3]) if len(sys.argv) > 3 else 0
    os.makedirs(folder, exist_ok=True)
    with open(os.path.join(folder, "answers.txt"), "w") as answers:
        for seed in range(first, first + files):
            data = spoiled(random.Random(seed))
            with open(os.path.join(folder, f"{seed}.ach"), "wb") as file:
                file.write(data)
            print(f"{seed}.ach {answer(data)}", file=answers)


if __name__ == "__main__":
    main()
