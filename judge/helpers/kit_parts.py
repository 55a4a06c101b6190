"""A list of more than 1,000 entries: achdesk-company submits it in parts, also if it is killed in between."""

import subprocess
import sys
import time

from helpers.kit_bank import PAY, Bank, day, error_of
from helpers.kit_program import COMPANY_PROGRAM, SUBMIT, Program

import achdesk

COUNT = 1200


def list_of(count):
    rows = [f"091000019,{n},checking,,{n},E{n},NAME {n}," for n in range(1, count + 1)]
    return "\n".join([",".join(achdesk.COLUMNS), *rows, ""]).encode()


def killed_at(it, bank, data, post, pause):
    """Runs the program, and kills it a moment after its POST of this number has reached the proxy. Returns whether it was still running."""
    before = len(bank.spoils.requests)
    run = subprocess.Popen([sys.executable, str(COMPANY_PROGRAM), *SUBMIT, "--split"], env=it.environment, stdin=subprocess.PIPE,
                           stdout=subprocess.DEVNULL, stderr=subprocess.DEVNULL)
    run.stdin.write(data)
    run.stdin.close()
    while run.poll() is None and sum(one.startswith("POST") for one in bank.spoils.requests[before:]) < post:
        time.sleep(0.002)
    time.sleep(pause)
    run.kill()
    return run.wait() == -9


def parts(checks, program, way):
    """Each employee is paid once, however often the program is killed or its answers are lost."""
    data, total = list_of(COUNT), COUNT * (COUNT + 1) // 2
    wanted = ("Accepted.\nref      order  entries      cents\nPAY-1.1      1     1000  $5,005.00\nPAY-1.2      2      200  $2,201.00\n", "", 0)
    with Bank(program, way) as bank:
        bank.open()
        it = Program(bank)
        killed = [killed_at(it, bank, data, post, pause) for post in (1, 2) for pause in (0.0, 0.02, 0.1)]
        checks.that(f"{way}, the program was killed while it submitted its first or second part", sum(killed) > 2)
        bank.spoils.plans.extend([("pass",)] * 5 + [("cut", 0), ("pass",), ("cut", 30)])
        checks.that(f"{way}, {COUNT} entries in parts after kills and lost answers", it.run(*SUBMIT, "--split", "--quiet", given=data), wanted)
        bank.spoils.plans.clear()
        checks.that(f"{way}, once more: the same answers", it.run(*SUBMIT, "--split", given=data), wanted)
        held = bank.operator.status().companies[0].held.credits
        checks.that(f"{way}, and each entry is held once", held, achdesk.Tally(2, total))
        found = [bank.mill.look_up(f"PAY-1.{n}") for n in (1, 2)]
        checks.that(f"{way}, in the order of the list", [one.cents for it in found for one in it.entries], list(range(1, COUNT + 1)))
        for what, other, words in (("a shorter list", list_of(900), SUBMIT), ("a longer list", list_of(1300), SUBMIT),
                                   ("a list whose end differs", data.replace(b"E1200", b"F1200"), SUBMIT)):
            said, errors, status = it.run(*words, "--split", given=other)
            checks.that(f"{way}, {what} under the same reference is refused, and says so", (said, status, "PAY-1" in errors), ("", 1, True))
        given = {"ref": "PAY-2", "day": day("01-10"), **PAY}
        bank.mill.submit_csv(list_of(3), **given)
        checks.that(f"{way}, a list that was submitted whole is not submitted in parts",
                    type(error_of(lambda: bank.mill.submit_in_parts(list_of(3), **given))).__name__, "PartsFault")
        bank.operator.set_limits(id="MILL01", entry_limit=9999999999, credit_limit=total + 6 + 100, debit_limit=0)
        error = error_of(lambda: bank.mill.submit_in_parts(data, **{**given, "ref": "PAY-3"}))
        checks.that(f"{way}, no part is submitted if the limit refuses one",
                    ("over what is left of the credit limit, $1.00" in str(error), bank.operator.status().companies[0].held.credits.submissions), (True, 3))
