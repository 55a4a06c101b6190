"""Runs of clients/achdesk-company against a desk."""

import json
import os
import shutil
import subprocess
import sys
import tempfile
from pathlib import Path

from helpers.kit_bank import day, page, Bank, LIST, BOB, ITEM, RETURN, CHANGE, DUES
from helpers.returned import file_of_returns
from helpers.running import MILL_KEY, SECONDS, TOP

import achdesk


COMPANY_PROGRAM = TOP / "clients" / "achdesk-company"


class Program:
    """Runs of achdesk-company against a bank, with a key file and a state of their own."""

    def __init__(self, bank, url=None):
        self.key = bank.folder / "mill.key"
        self.key.write_text(f"{MILL_KEY}\n")
        self.key.chmod(0o600)
        self.state = bank.folder / "state"
        self.environment = {
            **os.environ,
            "ACHDESK_URL": url or bank.url,
            "ACHDESK_COMPANY": "MILL01",
            "ACHDESK_KEY_FILE": str(self.key),
            "ACHDESK_STATE_DIR": str(self.state),
            **({"ACHDESK_CA_FILE": str(bank.certificate)} if bank.tls else {}),
        }

    def run(self, *words, given=b"", out=subprocess.PIPE, **more):
        """What a run prints, its errors and its status."""
        environment = {name: it for name, it in {**self.environment, **more}.items() if it is not None}
        done = subprocess.run(
            [sys.executable, str(COMPANY_PROGRAM), *words],
            input=given,
            stdout=out,
            stderr=subprocess.PIPE,
            env=environment,
            timeout=120,
        )
        return (done.stdout or b"").decode(), done.stderr.decode(), done.returncode


SUBMIT = "submit - --ref PAY-1 --sec PPD --direction credit --description PAYROLL --day 2025-01-10".split()
DUES_WORDS = "submit - --ref PAY-2 --sec PPD --direction debit --description DUES --day 2025-01-10".split()
DUES_LIST = b"routing,account,kind,prenote,cents,id,name,info\n091000019,123456789,checking,,2500,E2,BOB RAY,\n"


def commands(checks, program, way):
    """Each command in each form, over the bank's days."""
    with Bank(program, way) as bank:
        bank.open()
        it = Program(bank)
        checks.that(
            f"{way}, submit: a table",
            it.run(*SUBMIT, given=LIST),
            ("Accepted.\nref    order  entries      cents\nPAY-1      1        1  $1,500.00\n", "", 0),
        )
        checks.that(
            f"{way}, submit again: JSON",
            it.run(*SUBMIT, "--json", given=LIST),
            ('{"ref": "PAY-1", "order": 1, "entries": 1, "cents": 150000}\n', "", 0),
        )
        path = bank.folder / "dues.csv"
        path.write_bytes(DUES_LIST)
        checks.that(
            f"{way}, submit a file: CSV",
            it.run("submit", str(path), *DUES_WORDS[2:], "--csv"),
            ("ref,order,entries,cents\nPAY-2,2,1,2500\n", "", 0),
        )
        checks.that(
            f"{way}, returns --new before there are any", it.run("returns", "--new"), ("No new returns.\n", "", 0)
        )
        bank.operator.cut()
        bank.operator.set_day(day("01-09"))
        bank.operator.cut()
        bank.operator.set_day(day("01-14"))
        bank.operator.take_returns(RETURN)
        bank.operator.take_returns(CHANGE)
        checks.that(
            f"{way}, look",
            it.run("look", "PAY-2"),
            (
                "PAY-2: PPD debit of $25.00 asked for 2025-01-10, order 2\n"
                "ref    index   cents  state     settled     returned    code  late\n"
                "PAY-2      1  $25.00  returned  2025-01-10  2025-01-14  R01   no\n",
                "",
                0,
            ),
        )
        checks.that(
            f"{way}, returns --new, CSV",
            it.run("returns", "--new", "--csv"),
            ("ref,index,code,day,late,info\nPAY-2,1,R01,2025-01-14,no,\n", "", 0),
        )
        checks.that(
            f"{way}, and once more", it.run("returns", "--new", "--csv"), ("ref,index,code,day,late,info\n", "", 0)
        )
        checks.that(
            f"{way}, returns",
            it.run("returns", "--json"),
            (
                '{"returns": [{"ref": "PAY-2", "index": 1, "code": "R01", "day": "2025-01-14", "late": false, "info": ""}]}\n',
                "",
                0,
            ),
        )
        checks.that(
            f"{way}, changes --new",
            it.run("changes", "--new"),
            ("ref    index  code  day         text                           correction\nPAY-2      1  C01   2025-01-14  987654321                      account 987654321\n", "", 0),
        )
        checks.that(
            f"{way}, statement",
            it.run("statement"),
            (
                "Balance on 2025-01-14: -$1,500.00\n"
                "day         cause   ref    index       cents\n"
                "2025-01-10  cut     PAY-1      0  -$1,500.00\n"
                "2025-01-10  cut     PAY-2      0      $25.00\n"
                "2025-01-14  return  PAY-2      1     -$25.00\n",
                "",
                0,
            ),
        )
        checks.that(
            f"{way}, statement --csv", it.run("statement", "--csv")[0].splitlines()[1], "2025-01-10,cut,PAY-1,0,-150000"
        )
        checks.that(
            f"{way}, rates",
            it.run("rates"),
            (
                "Returns of the 60 days that end on 2025-01-14\n"
                "rate            returns  debits  percent  level  over\n"
                "unauthorized          0       1  0.000    0.5    no\n"
                "administrative        0       1  0.000    3      no\n"
                "overall               1       1  100.000  15     yes\n",
                "",
                0,
            ),
        )
        checks.that(
            f"{way}, exposure",
            it.run("exposure"),
            (
                "Exposure on 2025-01-14\n"
                "of         exposure           limit         left\n"
                "credits       $0.00     $200,000.00  $200,000.00\n"
                "debits        $0.00      $50,000.00   $50,000.00\n"
                "one entry            $99,999,999.99\n",
                "",
                0,
            ),
        )
        checks.that(
            f"{way}, retry",
            it.run("retry", "--ref", "RT-1", "--of", "PAY-2", "--index", "1", "--day", "2025-01-16", "--csv"),
            ("ref,order,entries,cents\nRT-1,3,1,2500\n", "", 0),
        )
        if bank.tls:
            said, errors, status = it.run("returns", ACHDESK_CA_FILE=None)
            checks.that(
                "4: a certificate of an authority that is not known, which is told at once",
                (said, status, "give --ca-file" in errors, "trying again" in errors),
                ("", 4, True, False),
            )
        bank.spoils.plans.append(("cut", 20))
        said, errors, status = it.run("look", "RT-1", "--csv")
        checks.that(
            f"{way}, a lost answer is told of on standard error",
            (said, status, "trying again in" in errors),
            ("ref,index,cents,state,settled,returned,code,late\nRT-1,1,2500,held,,,,\n", 0, True),
        )


def exit_statuses(checks, program):
    with Bank(program, "directly") as bank:
        bank.open()
        it = Program(bank)
        status_of = lambda *words, **more: it.run(*words, **more)[1:][::-1]
        checks.that(
            "1: refused",
            status_of("look", "PAY-9"),
            (
                1,
                "achdesk-company: refused: NoReference, status 404. The company has no submission or retry with this reference.\n",
            ),
        )
        checks.that(
            "1: a fault of the list",
            status_of(*SUBMIT, given=LIST.replace(b"150000", b"1.5")),
            (1, 'achdesk-company: line 2, column cents: "1.5" is not a number of cents, such as 150000\n'),
        )
        checks.that("1: a wrong key", it.run("returns", ACHDESK_KEY_FILE=None, ACHDESK_KEY="wrong-key")[2], 1)
        checks.that(
            "0: the key of the environment", it.run("returns", ACHDESK_KEY_FILE=None, ACHDESK_KEY=MILL_KEY)[2], 0
        )
        for words, more in (
            (["look"], {}),
            (["frobnicate"], {}),
            ([*SUBMIT[:-1], "2025-02-30"], {}),
            (["returns", "--forget"], {}),
            (["returns"], {"ACHDESK_URL": None}),
            (["returns"], {"ACHDESK_KEY_FILE": None}),
            (["returns"], {"ACHDESK_COMPANY": "mill"}),
            (["returns"], {"ACHDESK_URL": "http://desk.bank.example"}),
            (["returns", "--timeout", "0"], {}),
            (["returns", "--total-seconds", "nan"], {}),
        ):
            checks.that(f"2: {' '.join(words[:2])} {' '.join(more)}".rstrip(), it.run(*words, **more)[2], 2)
        bank.spoils.plans.extend([("drop",)] * 100)
        said, errors, status = it.run("returns", "--total-seconds", "1")
        bank.spoils.plans.clear()
        checks.that("3: no answer", (said, status, "Run the same command again" in errors), ("", 3, True))
        bank.spoils.plans.append(("answer", page(403)))
        checks.that("4: a page of the proxy", it.run("returns")[2], 4)
        checks.that(
            "6: no such list",
            status_of(*["submit", "none.csv", *SUBMIT[2:]]),
            (6, "achdesk-company: none.csv: No such file or directory\n"),
        )
        checks.that("6: no such key file", it.run("returns", ACHDESK_KEY_FILE="none")[2], 6)
        with open("/dev/full", "w") as full:
            checks.that(
                "6: standard output is full",
                it.run("returns", out=full)[1:],
                ("achdesk-company: standard output: No space left on device\n", 6),
            )
        it.key.chmod(0o644)
        checks.that(
            "a key file that others may read is told of",
            it.run("returns")[1:],
            (f"achdesk-company: warning: other users may read {it.key}; run: chmod 600 {it.key}\n", 0),
        )
        it.key.chmod(0o600)
        header = bank.folder / "mill.header"
        header.touch(0o600)
        header.write_text(f"X-Desk-Key: {MILL_KEY}\n")
        checks.that("0: the key file of curl", it.run("returns", ACHDESK_KEY_FILE=str(header)), ("No returns.\n", "", 0))
        said, _, status = it.run("--help")
        checks.that(
            "--help has each status and an example",
            (status, [n for n in [*range(7), 130] if f"\n  {n}  " not in said], "submit pay.csv" in said),
            (0, [], True),
        )


KILLS = {"before the state is written": "os.fsync", "before it is renamed": "os.replace"}


def new_items(checks, program):
    """`--new` neither loses an item nor repeats one without need."""
    with Bank(program, "directly") as bank:
        bank.open()
        it = Program(bank)
        bank.mill.submit([BOB] * 3, ref="PAY-1", day=day("01-10"), **DUES)
        bank.operator.set_day(day("01-09"))
        bank.operator.cut()
        bank.operator.set_day(day("01-14"))
        items = [{**ITEM, "cents": 2500, "code": f"R0{n}", "trace": f"12104288000000{n}"} for n in (1, 2, 3)]
        bank.operator.take_returns(file_of_returns(1, "PPD", items[:1]).encode())
        shutil.copytree(bank.folder, bank.folder.parent / f"{bank.folder.name}-old")
        old = bank.folder.parent / f"{bank.folder.name}-old"
        rows = ["ref,index,code,day,late,info"] + [f"PAY-1,{n},R0{n},2025-01-14,no," for n in (1, 2, 3)]
        new = lambda *more, **also: it.run("returns", "--new", "--csv", *more, **also)
        lines = lambda said: said[0].splitlines()
        for what, name in KILLS.items():
            hook = bank.folder / name.replace(".", "_")
            hook.mkdir()
            (hook / "sitecustomize.py").write_text(
                f"import os, sys\n{name} = lambda *_: (sys.stdout.flush(), os.kill(os.getpid(), 9))\n"
            )
            said = new(PYTHONPATH=str(hook))
            checks.that(
                f"killed {what}: what is new was printed or is still new", (lines(said), said[2]), (rows[:2], -9)
            )
        with open("/dev/full", "w") as full:
            checks.that("a run that could not print remembers nothing", new(out=full)[2], 6)
        checks.that("so it is printed again", lines(new()), rows[:2])
        checks.that("and then no more", (lines(new()), new("--no-header")[0]), (rows[:1], ""))
        bank.operator.take_returns(file_of_returns(2, "PPD", items[1:2]).encode())
        bank.operator.take_returns(file_of_returns(3, "PPD", items[2:]).encode())
        checks.that("the next two are new", lines(new()), [rows[0], *rows[2:]])
        checks.that("the state is for its owner alone", it.state.stat().st_mode & 0o777, 0o700)
        both = [
            subprocess.Popen(
                [sys.executable, str(COMPANY_PROGRAM), "changes", "--new", "--csv"],
                env=it.environment,
                stdout=subprocess.PIPE,
            )
            for _ in range(4)
        ]
        checks.that("four runs at once", [one.wait(SECONDS) for one in both], [0] * 4)
        bank.desk.stop()
        for end in ("", "-wal"):
            shutil.copy(old / f"bank.db{end}", f"{bank.path}{end}")
        bank.desk = bank.serve(bank.desk.port)
        said = new()
        checks.that(
            "5: a desk that was restored has fewer returns",
            (said[0], said[2], "restored from a backup: 3 returns were seen before" in said[1]),
            ("", 5, True),
        )
        checks.that("which is told until it is taken note of", new()[2], 5)
        bank.operator.take_returns(file_of_returns(4, "PPD", [items[2]]).encode())
        bank.operator.take_returns(file_of_returns(5, "PPD", [items[1]]).encode())
        checks.that("also once it has as many again, of which some are others", new()[2], 5)
        checks.that("--forget prints all", lines(new("--forget")), [rows[0], rows[1], rows[3], rows[2]])
        checks.that("and remembers them", lines(new()), rows[:1])
        (state,) = it.state.glob("*.json")
        state.write_text("{")
        checks.that("6: a damaged state", (new()[2], "remove it" in new()[1]), (6, True))
        state.unlink()
        checks.that("without it all is new", len(lines(new())), 4)
        shutil.rmtree(old)


def messages(checks, program):
    """What a person reads of faults and refusals, and what a spreadsheet and a terminal get."""
    with Bank(program, "directly") as bank:
        bank.open()
        bank.operator.set_limits(id="MILL01", entry_limit=500000, credit_limit=20000000, debit_limit=5000000)
        it = Program(bank)
        good = "091000019,123456789,checking,,150000,E1,ANN LEE,\n"
        listed = LIST.decode().split("\n")[0] + "\n" + good * 10
        faulty = listed + '091000019,1,checking,,"$1,500.00",E1,ANN LEE,\n' + good + "091000018,1,checking,,1,E1,ANN LEE,\n"
        checks.that(
            "all faulty rows of a list: line, column, value and bound",
            it.run(*SUBMIT, given=faulty.encode()),
            ("", 'achdesk-company: line 12, column cents: "$1,500.00" is not a number of cents, such as 150000\n'
             'achdesk-company: line 14, column routing: "091000018" is not a routing number: after 09100001 the ninth digit is 9\n', 1),
        )
        checks.that("nothing of it was sent", bank.mill.exposure().credit, 0)
        checks.that(
            "a day in the past: the desk day",
            it.run(*SUBMIT[:-1], "2025-01-08", given=LIST),
            ("", "achdesk-company: refused: DateRange (refusal 6), status 422. The day asked for, 2025-01-08, is not 1 to 60 days after "
             "the desk day, 2025-01-08: ask for 2025-01-09 to 2025-03-09.\n", 1),
        )
        over = listed + good.replace("150000", "500001") + good + good.replace("150000", "600000")
        checks.that(
            "amounts over the limit: each line",
            it.run(*SUBMIT, given=over.encode()),
            ("", "achdesk-company: refused: EntryLimit (refusal 7), status 409. line 12: $5,000.01 is over the company's limit for one "
             "entry, $5,000.00.\nachdesk-company: line 14: $6,000.00 is over the company's limit for one entry, $5,000.00.\n", 1),
        )
        escape = "\x1b[31m\x9b\x07"
        body = json.dumps({"returns": [{"ref": "-A1", "index": 1, "code": "R03", "day": "2025-01-14", "late": False,
                                        "info": f'=HYPERLINK("http://x"){escape}'}]}).encode()
        for words, wanted in (
            ([], "ref  index  code  day         late  info\n-A1      1  R03   2025-01-14  no    =HYPERLINK(\"http://x\")?[31m??\n"),
            (["--csv"], "ref,index,code,day,late,info\n'-A1,1,R03,2025-01-14,no,\"'=HYPERLINK(\"\"http://x\"\")?[31m??\"\n"),
        ):
            bank.spoils.plans.append(("answer", page(200, "application/json", body)))
            checks.that(f"no formula in CSV and no control character: {words}", it.run("returns", *words), (wanted, "", 0))
        other = bank.folder / "other"
        other.mkdir()
        (other / "python3").write_text("#!/bin/sh\nexit 9\n")
        (other / "python3").chmod(0o755)
        done = subprocess.run([str(COMPANY_PROGRAM), "returns"], env={**it.environment, "PATH": f"{other}:/usr/bin:/bin"}, stdout=subprocess.PIPE)
        checks.that("another Python first on the PATH does not matter", (done.stdout, done.returncode), (b"No returns.\n", 0))


def installed(checks):
    """`pip install ./clients/python` without network, by a Python that has setuptools and wheel."""
    code = "import setuptools as s; int(s.__version__.split('.')[0]) > 70 or __import__('wheel')"
    python = next((it for it in (sys.executable, "/usr/bin/python3")
                   if subprocess.run([it, "-c", code], stderr=subprocess.DEVNULL).returncode == 0), None)
    if python is None:
        return checks.that("a Python with setuptools and wheel (Debian: python3-setuptools, python3-wheel)", "none", "one")
    with tempfile.TemporaryDirectory() as name:
        copy, target = Path(name) / "python", Path(name) / "target"
        shutil.copytree(TOP / "clients" / "python", copy)  # pip leaves files next to it
        words = ["-m", "pip", "install", "--quiet", "--no-build-isolation", "--no-deps", "--no-index", "--target", target, copy]
        done = subprocess.run([python, *words], stdout=subprocess.PIPE, stderr=subprocess.STDOUT)
        checks.that("pip installs the library without network", (done.returncode, done.returncode and done.stdout), (0, 0))
        environment = {"PATH": "/usr/bin:/bin", "PYTHONPATH": str(target)}
        said = subprocess.run([python, target / "bin" / "achdesk-company", "--version"], env=environment, stdout=subprocess.PIPE).stdout
        checks.that("and the program", said, f"achdesk-company {achdesk.__version__}\n".encode())
        checks.that("with its types, and without its tests",
                    ((target / "achdesk" / "py.typed").exists(), (target / "tests").exists()), (True, False))
