#!/usr/bin/env python3
"""Compares numbers, names, counts and links in the pages with the tree: `python3 judge/facts.py [PROGRAM]`.

`.ci/run` runs it before the gate. It needs nothing but Python's standard library. With a program it also compares the
version and the options that the pages name. A line is printed for each check that fails, and the last line counts; the
exit status is 1 if one failed. A kit other than the one that the pages name is only a warning, since another kit may have
the same logic.

Numbers are taken from the sources, the files of deploy/ and docs/openapi.yaml, and looked for in the pages by a sentence.
A sentence that no page has fails too: whoever rewords it changes NUMBERS, and whoever removes the number removes its line.
"""

import datetime
import functools
import re
import subprocess
import sys
from pathlib import Path

import pages
import run
from helpers.prose import habits
from helpers.refusals import CALENDAR_FAULTS, FILE_FAULTS, MESSAGE_FAULTS, PROXY_FAULTS, REFUSALS
from helpers.small_yaml import load

TOP = Path(__file__).resolve().parents[1]
FOLDERS = ("docs/operate", "docs/integrate", "docs/audit")
USER_PAGES = [TOP / "README.md", TOP / "CHANGELOG.md", TOP / "docs/glossary.md",
              *sorted(it for folder in FOLDERS for it in (TOP / folder).glob("*.md") if it.name != "believed.md")]
ALL_PAGES = [*USER_PAGES, *(TOP / it for it in ("bench/RESULTS.md", "judge/README.md", "deploy/README.md", "clients/README.md")),
             *sorted(it for it in (TOP / "docs").glob("*.md") if it not in USER_PAGES)]
GENERATED = TOP / "docs/integrate/api.md"
REFERENCE = (GENERATED, TOP / "docs/integrate/codes.md")
NAMED = re.compile(r"`((?:judge|bench|crates|deploy|clients|console|examples|docs|\.ci)/[\w./@-]+)`")
INSTALLED = re.compile(r"/(?:etc/achdesk|etc/nginx|usr/bin|usr/share/achdesk|usr/share/doc/achdesk|var/log/achdesk)(?:/[\w-][\w.-]*)*\b")
MOST_README, MOST_WORDS, MOST_HABITS = 700, 17_500, 6.0
failed, count = 0, 0


def check(what, found, wanted):
    global failed, count
    count += 1
    if found != wanted:
        failed += 1
        print(f"{what}: the page has {found}, the tree has {wanted}")


@functools.cache
def text(path):
    return (TOP / path).read_text()


@functools.cache
def sources():
    """Returns the sources of the crates, each with its path."""
    return [(path, path.read_text()) for path in (TOP / "crates").glob("*/src/**/*.rt")]


@functools.cache
def api():
    return load(text("docs/openapi.yaml"))


def number(path, pattern):
    """Returns the number that a page names, without its commas; None if the sentence is not there."""
    found = re.search(pattern, text(path))
    return int(found[1].replace(",", "")) if found else None


def constant(path, pattern):
    """Returns the number that a file has."""
    found = re.search(pattern, text(path))
    return int(found[1].replace("_", "").replace(",", "")) if found else f"nothing like {pattern} in {path}"


class Constants(dict):
    """The constants of the crates, by the crate and the name, as `ach_files.MOST_BYTES`, and by the file and the name."""

    def __missing__(self, name):
        sys.exit(f"judge/facts.py: no crate has the constant {name}")


def constants():
    found = Constants()
    for path, source in sources():
        for name, value in re.findall(r"\bconst ([A-Z_]+): \w+ = ([\d_]+);", source):
            for place in (path.relative_to(TOP / "crates").parts[0], path.stem):
                found[f"{place}.{name}"] = int(value.replace("_", ""))
    return found


def prose_of(path):
    return re.sub(r"```.*?```", "", path.read_text(), flags=re.S)


# ---- links

def anchor(heading):
    """Returns the anchor that GitHub gives a heading."""
    heading = re.sub(r"\[([^]]*)\]\([^)]*\)", r"\1", heading).strip().lower()
    return re.sub(r"[^\w\- ]", "", heading).replace(" ", "-")


def anchors(path):
    return {anchor(it) for it in re.findall(r"^#+ (.*)$", prose_of(path), re.M)}


def broken_links():
    for page in ALL_PAGES:
        for target in re.findall(r"\]\(([^)\s]+)\)", prose_of(page)):
            if re.match(r"https?:", target):
                continue
            name, _, place = target.partition("#")
            path = (page.parent / name).resolve() if name else page
            if not path.exists():
                yield f"{page.relative_to(TOP)}: {target} does not exist"
            elif place and path.suffix == ".md" and place not in anchors(path):
                yield f"{page.relative_to(TOP)}: {target} has no such heading"


def missing_paths():
    """Returns the files that pages name in code and the tree does not have."""
    for page in ALL_PAGES:
        for name in set(NAMED.findall(prose_of(page))):
            if not (TOP / name.rstrip("/")).exists() and "CRATE" not in name and "NAME" not in name:
                yield f"{page.relative_to(TOP)}: {name} does not exist"


# ---- pages as a whole

def check_pages():
    check("broken links", sorted(broken_links()), [])
    check("files that pages name", sorted(missing_paths()), [])
    words = len(text("README.md").split())
    check("README: words, those of its code blocks too, at most", min(words, MOST_README), words)
    words = sum(len(prose_of(it).split()) for it in USER_PAGES if it not in REFERENCE)
    check("words of the pages of users, at most", min(words, MOST_WORDS), words)
    for page in USER_PAGES:
        rate = habits(prose_of(page))
        if len(prose_of(page).split()) > 150:
            check(f"{page.relative_to(TOP)}: habits of wording in a thousand words, at most", min(rate, MOST_HABITS), rate)


def check_promises():
    """Each promise names laws that are in the files that it links, in the README and in PROVED.md, and the page for auditors has it."""
    part = text("README.md").partition("## What it promises")[2].partition("\n## ")[0]
    promises = re.findall(r"^\d\. (.*?): (\[`.*)$", part, re.M)
    check("README: promises", len(promises), 8)
    proved = text("docs/PROVED.md").partition("| Promise |")[2].partition("\n\n")[0].replace("](../", "](")
    laws = [law for part in (*(links for _, links in promises), proved) for law in re.findall(r"\[`([\w:]+)`\]\((\S+?)\)", part)]
    missing = [f"{name} in {path}" for name, path in laws if not re.search(rf"fn {name.rpartition(':')[2]}\b", text(path))]
    check("README.md and PROVED.md: laws that are not in their files", missing, [])
    rows = re.findall(r"^\| (.*?) \|", text("docs/audit/assurance.md").partition("| Promise |")[2].partition("\n\n")[0], re.M)
    check("assurance.md: promises of the README", rows, [it.partition(";")[0] for it, _ in promises])


# ---- premises

# Facts without a condition that are no premises: lists in memory are always clean, and each value of these types fits.
NO_DEVICES = {"Store", "Same", "FromColumn"}


def uses_of_crates():
    lines = [it.partition("#")[0].partition(":") for it in text("crates.txt").splitlines()]
    return {name.split()[0]: libraries.split() for name, colon, libraries in lines if colon}


def crates_below(uses, crate):
    return {crate}.union(*(crates_below(uses, it) for it in uses[crate] if it in uses))


def facts_of_devices(crates):
    """Returns the facts that hold without a condition at a device of std or of the host, by their traits."""
    found = {}
    for source in (source for path, source in sources() if path.relative_to(TOP / "crates").parts[0] in crates):
        for trait, body in re.findall(r"^impl\b[^{]*?(\w+)(?:<[^{]*>)? for [^{]*\{\n(.*?)^\}", source, re.M | re.S):
            facts = re.findall(r"ghost (\w+) = \{\s*(?:λ[\s\w]*\.\s*)?⊤\s*\};", body)
            if facts and trait not in NO_DEVICES:
                found.setdefault(trait, set()).update(facts)
    return found


def check_premises():
    """The table of premises has the libraries of crates.txt, the facts of devices and the views that the program's crates have."""
    uses = uses_of_crates()
    below = crates_below(uses, "achdesk")
    rows = text("docs/PROVED.md").partition("| Premise |")[2].partition("\n\n")[0].split("\n")
    libraries, views = ({it for row in rows if words in row for it in re.findall(r"`(\w+)`", row.split(" | ")[0])} for words in ("libraries hold:", "`Model` view"))
    # The toolchain divides sqlite and jiff into several crates.
    used = {re.sub(r"^(sqlite|jiff)_\w+$", r"\1", it) for them in uses.values() for it in them if it not in uses}
    check("PROVED.md: libraries of the toolchain", libraries, used | {"std"})
    told = {trait: set(re.findall(r"`(\w+)`", names)) for row in rows for trait, names in re.findall(r"`(\w+)`: ((?:`\w+`(?:, )?)+)", row.split(" | ")[0])}
    check("PROVED.md: facts of devices that hold without a condition", told, facts_of_devices(below))
    code = [source for path, source in sources() if path.relative_to(TOP / "crates").parts[0] in below]
    found = {it for source in code for it in re.findall(r"^impl(?:<[^{]*?>)? Model for (\w+)", source, re.M)}
    check("PROVED.md: types that contracts see by a view", views - {"Model"}, found)


# ---- names

def check_names():
    page = GENERATED.read_text()
    shown = {int(n): (name, int(status)) for n, name, status in re.findall(r"^\| (\d+) \| `(\w+)` \| (\d+) \|", page, re.M)}
    check("api.md: refusals", shown, REFUSALS)
    faults = dict(re.findall(r"^\| `(\w+)` \| (\d+) \|", page, re.M))
    check("api.md: faults of a message", {name: int(it) for name, it in faults.items()}, MESSAGE_FAULTS | PROXY_FAULTS)
    files = re.findall(r"^\| \d+ \| `(\w+)` \|", text("docs/operate/returns-files.md"), re.M)
    check("returns-files.md: faults of a file", tuple(files), FILE_FAULTS)
    check("names of refusals and faults that the desk does not have", sorted(unknown_names()), [])
    code = "\n".join(it for page in USER_PAGES for it in re.findall(r"`[^`\n]+`|^```.*?^```", page.read_text(), re.M | re.S))
    metrics = set(re.findall(r'"([a-z_]+)"', text("deploy/achdesk_day/metrics.py"))) | set(re.findall(r'"achdesk_(\w+)"', text("deploy/standby/achdesk-standby")))
    named = set(re.findall(r"\bachdesk_([a-z_]+)", code)) - set(re.findall(r"achdesk_(\w+)", text("deploy/nginx.conf") + text("deploy/nginx-http.conf"))) - {""}
    check("metrics that neither achdesk-day nor achdesk-standby prints", sorted(named - metrics), [])
    views = set(re.findall(r"CREATE TEMP VIEW (\w+)", text("docs/audit.sql")))
    check("views that docs/audit.sql does not have", sorted(set(re.findall(r"\baudit_\w+", code)) - views), [])
    check("paths that nothing installs", sorted(unknown_paths()), [])
    # Installed pages keep their places below /usr/share/doc/achdesk.
    named = {it for path in (TOP / "deploy").rglob("*.py") for it in re.findall(r"/usr/share/doc/achdesk/([\w./-]+\w)", path.read_text())}
    check("installed pages that programs name and the tree does not have", sorted(it for it in named if not (TOP / it).exists()), [])


def unknown_names():
    """Returns names in the form of a refusal or fault, in code, that are none of the desk's, of its clients' or of its crates'."""
    known = {name for name, _ in REFUSALS.values()} | {*MESSAGE_FAULTS, *PROXY_FAULTS, *FILE_FAULTS, *CALENDAR_FAULTS}
    known |= set(re.findall(r"^    (\w+)(?:\(\w+\))?,$", text("crates/sql_setup/src/fault.rt"), re.M))
    library = "".join(it.read_text() for it in (TOP / "clients/python/achdesk").glob("*.py"))
    known |= set(re.findall(r"^class (\w+)", library, re.M)) | UNITS
    known |= {name for _, source in sources() for name in re.findall(r"\b(?:struct|enum|trait) (\w+)", source)}
    reasons = api()["components"]["schemas"]["SuspenseItem"]["properties"]["why"]["enum"]
    for page in USER_PAGES:
        for name in re.findall(r"`([A-Z][a-z]+(?:[A-Z][a-z]*)+)\b", prose_of(page)):
            if name not in known | set(reasons):
                yield f"{page.relative_to(TOP)}: {name}"


# Settings of systemd, and a state of DRBD, which are written as names of faults are.
UNITS = {"LimitAS", "LoadCredential", "MemoryMax", "OnFailure", "OnCalendar", "OnSuccess", "ReadWritePaths", "StandAlone"}


def unknown_paths():
    """Returns installed paths of which neither the package nor a program of deploy/ has a part."""
    makefile = re.sub(r"\$\((\w+)\)", lambda it: {"BIN": "/usr/bin", "SHARE": "/usr/share", "ETC": "/etc"}.get(it[1], it[0]), text("Makefile"))
    lines = "\n".join([makefile, *(it.read_text() for it in (TOP / "deploy").rglob("*") if it.is_file() and not {"__pycache__", ".mypy_cache"} & {*it.parts}), text("judge/deploy.py")])
    known = {parent for it in INSTALLED.findall(lines) for parent in (it, *map(str, Path(it).parents))}
    names = set(re.findall(r"[\w.-]+", lines))
    for page in USER_PAGES:
        for path in INSTALLED.findall(page.read_text()):
            if path not in known and not (str(Path(path).parent) in known and Path(path).name in names | EXAMPLES):
                yield f"{page.relative_to(TOP)}: {path}"


# Names of one's own below an installed folder, as the pages use them.
EXAMPLES = {"NAME.env", "NAME", "sftp.pub"}


# ---- what auditors read

def check_tables():
    """tables.md has each table with its columns in their order, and says of exactly those that may be NULL that they may be."""
    listed = text("judge/stock_sqlite.py")
    tables = {name: row.split() for name, row in
              re.findall(r'^    "(\w+)": \("((?:[^"]|"\s+")*)"', listed.partition("INDEXES")[0], re.M)}
    tables = {name: [it.strip('"') for it in row if it != '"'] for name, row in tables.items()}
    page = text("docs/audit/tables.md")
    found, nulls = {}, {}
    for name, part in re.findall(r"^\*\*`(\w+)`\*\*(.*?)(?=^\*\*`|^## )", page, re.M | re.S):
        rows = re.findall(r"^- (`\w+`(?:, `\w+`)*): (.*)$", part, re.M)
        found[name] = [column for cell, _ in rows for column in re.findall(r"`(\w+)`", cell)]
        nulls[name] = [column for cell, said in rows for column in re.findall(r"`(\w+)`", cell) if re.search(r"NULL", said) or said.endswith("else NULL.")]
    check("tables.md: tables and columns", found, {name: [it.partition(":")[0] for it in row] for name, row in tables.items()})
    check("tables.md: columns that may be NULL", nulls, {name: [it.partition(":")[0] for it in row if it.endswith("?")] for name, row in tables.items()})
    indexes = set(re.findall(r'^    "(\w+)": \("', listed.partition("INDEXES")[2].partition("def ")[0], re.M))
    sentence = page.partition("There are six more indexes")[2].partition("No answer")[0]
    check("tables.md: indexes", set(re.findall(r"`(\w+_\w+)`", sentence)), indexes)
    check("tables.md: six more indexes", len(indexes), 6)


def codes_of(path, name):
    """Returns the return codes of a definition, which is a list of numbers."""
    return re.findall(r"\d+", re.search(rf"^{name} = (.*)$", text(path), re.M)[1])


def check_views():
    """audit.sql has the deadlines, levels and codes of the definitions, and the pages name the same."""
    views = text("docs/audit.sql")
    defined = set(re.findall(r"CREATE TEMP VIEW (\w+)", views))
    check("views.md: the views", set(re.findall(r"`(audit_\w+)`", text("docs/audit/views.md"))), defined)
    classes, rates = "crates/desk_rules/specs/TimeClasses.antt", "crates/desk_rules/specs/ReturnRates.antt"
    wanted = {"THEN d.sixty_days": codes_of(classes, "sixty_day_codes"), "THEN NULL": codes_of(classes, "unlimited_codes"),
              ") AS unauthorized": codes_of(rates, "unauthorized_codes"), ") AS administrative": codes_of(rates, "administrative_codes")}
    for place, codes in wanted.items():
        before = views.partition(place)[0].rpartition(" IN (")[2]
        check(f"audit.sql: codes before `{place}`", re.findall(r"R(\d\d)", before), [f"{int(it):02}" for it in codes])
    page = text("docs/operate/companies.md")
    for kind, name in (("unauthorized returns", "unauthorized_codes"), ("administrative ones", "administrative_codes")):
        found = re.search(rf"{kind} \(([^)]*)\)", page)
        check(f"companies.md: codes of {kind}", re.findall(r"R(\d\d)", found[1]) if found else None, [f"{int(it):02}" for it in codes_of(rates, name)])


# ---- numbers

def day_text(number):
    return str(datetime.date(1970, 1, 1) + datetime.timedelta(number))


def rate_of(proxy, zone):
    return int(re.search(rf"zone=achdesk_{zone}:\w+\s+rate=(\d+)r/s", proxy)[1])


def queue_of_proxy(client):
    """Returns for how many seconds the proxy keeps a complete request at most: the longest delay of a limit, and three waits for the desk.

    If the site's part for the server is not in a file of its own, the client's number is taken."""
    if not (TOP / "deploy/nginx-server.conf").exists():
        return client
    site = "".join(it.read_text() for it in sorted((TOP / "deploy").glob("nginx*.conf")))
    rates = dict(re.findall(r"zone=(\w+):\w+\s+rate=(\d+)r/s", site))
    delays = [-(-(int(burst) - int(delay or 0)) // int(rates[zone]))
              for zone, burst, delay, ends in re.findall(r"limit_req\s+zone=(\w+)\s+burst=(\d+)(?:\s+delay=(\d+))?([^;]*);", site) if "nodelay" not in ends]
    return max(delays) + sum(int(re.search(rf"proxy_{it}_timeout\s+(\d+)s", site)[1]) for it in ("connect", "send", "read"))


def facts_of_tree():
    """Returns what the tree has, by the names that NUMBERS uses."""
    proxy, day, client = text("deploy/nginx.conf"), "deploy/achdesk_day/holidays.py", "clients/python/achdesk/settings.py"
    settings = "deploy/achdesk_day/settings.py"
    schemas, code = api()["components"]["schemas"], constants()
    return {
        "operations": sum(method in item for item in api()["paths"].values() for method in ("get", "post")),
        "edits": len(list((TOP / "crates").glob("*/must-fail/*.edit"))),
        "hundreds of further edits": len(list((TOP / "judge/edits").glob("*/*.edit"))) // 100 * 100,
        "file version": code["sql_setup.VERSION"],
        "first file version": code["sql_migration.FIRST_VERSION"],
        "port": constant("deploy/achdesk.env", r"DESK_PORT=(\d+)"),
        "rate of an address": rate_of(proxy, "address_rate"),
        "rate of a company": rate_of(proxy, "company_rate"),
        "rate of submissions": rate_of(proxy, "submitter_rate"),
        "seconds of the proxy": constant("deploy/nginx-server.conf", r"proxy_read_timeout\s+(\d+)s"),
        "bytes of a body": code["http_message.MAX_BODY"],
        "bytes of a body at the proxy": constant("deploy/nginx-server.conf", r"client_max_body_size\s+(\d+);"),
        "KiB of a company's body": constant("deploy/nginx.conf", r"client_max_body_size\s+(\d+)k;"),
        "bytes of a file": code["ach_files.MOST_BYTES"],
        "bytes of a list": code["cli_submit.MOST_BYTES"],
        "MiB that are read and dropped": code["http_session.MAX_DROPPED"] // 2 ** 20,
        "messages of a connection": code["http_message.MAX_MESSAGES"],
        "connections": constant("crates/cli_words/src/serve_arguments.rt", r"u32\)\.range\(1\.\.=([\d_]+)\)"),
        "connections of the unit": constant("deploy/achdesk.env", r"--connections (\d+)"),
        "seconds of patience": constant("crates/cli_words/src/serve_arguments.rt", r"(?s)patience.*default_value\(\"(\d+)\"\)"),
        "seconds of patience in the unit": constant("deploy/achdesk.env", r"--patience (\d+)"),
        "GiB of the unit": constant("deploy/achdesk.service", r"(?m)^LimitAS=(\d+)G"),
        "entries of a submission": code["desk_rules.MOST_ENTRIES"],
        "entries of a submission in the API": schemas["Submission"]["properties"]["entries"]["maxItems"],
        "cents of a submission": code["ach_fields.MOST_CENTS"],
        "cents of an entry": code["desk_rules.MOST_ENTRY_CENTS"],
        "cents of a limit": code["desk_rules.MOST_EXPOSURE_LIMIT"],
        "files of a day": code["desk_plan.MOST_FILES"],
        "batches of a file": code["desk_plan.MOST_BATCHES"],
        "records of a file": code["desk_plan.MOST_RECORDS"],
        "submissions of a day": code["desk_plan.MOST_FILES"] * code["desk_plan.MOST_BATCHES"],
        "traces": code["ach_fields.MOST_SEQUENCE"],
        "days until a trace is free": code["desk_plan.DAYS"],
        "days that may be asked for": code["limit_checks.MOST_DAYS"],
        "days of a retry": code["retry_rule.MOST_DAYS"],
        "days of the rates": code["desk_rules.DAYS_BEFORE"] + 1,
        "holidays": code["bank_days.MOST_ROWS"],
        "first row too many": code["bank_days.MOST_ROWS"] + 1,
        "holidays of achdesk-day": constant(day, r"MOST_HOLIDAYS, NEAR_DAYS = (\d+),"),
        "days that stay in the list": constant(day, r"MOST_HOLIDAYS, NEAR_DAYS = \d+, (\d+)"),
        "characters of a company's name": schemas["CompanyName"]["maxLength"],
        "characters of an identification": schemas["Identification"]["maxLength"],
        "characters of a receiver's name": schemas["Entry"]["properties"]["name"]["maxLength"],
        "characters of the bank's name": constant("crates/desk_history/src/party_name.rt", r"ShortText<(\d+)>"),
        "first desk day": day_text(code["bank_days.FIRST"]),
        "last desk day": day_text(code["desk_rules.LAST_DESK_DAY"]),
        "last day of a rule": day_text(code["desk_rules.LAST_RULE_DAY"]),
        "newest backups": constant(settings, r'"newest": "(\d+)"'),
        "days of backups": constant(settings, r"--keep-within (\d+)d"),
        "months of backups": constant(settings, r"--keep-monthly (\d+)"),
        "GiB of a backup": constant("deploy/achdesk-backup@.service", r"(?m)^MemoryMax=(\d+)G"),
        "days of an expiry": constant("deploy/achdesk_day/repository.py", r"(?m)^PARTS = (\d+)"),
        "minutes of patience": constant("deploy/achdesk_alarm/settings.py", r'"patience": "(\d+)"'),
        "seconds of a client": constant(client, r"timeout: float = (\d+)\.0"),
        "seconds of a queue": (queue := constant(client, r"queue_seconds: float = (\d+)\.0")),
        "seconds of the proxy's queue": queue_of_proxy(queue),
        "bytes of a list in the client": constant("clients/python/achdesk/csv_list.py", r"LARGEST_LIST = ([\d_]+)"),
        "entries of a submission in the client": constant("clients/python/achdesk/entries.py", r"MOST_ENTRIES = ([\d_]+)"),
        "cents of an entry in the client": constant("clients/python/achdesk/entries.py", r"MOST_CENTS = ([\d_]+)"),
        "cents of a submission in the client": constant("clients/python/achdesk/explain.py", r"MOST_TOTAL = ([\d_]+)"),
        "longest pause of a client": constant("clients/python/achdesk/caller.py", r"LONGEST_PAUSE = (\d+)\.0"),
        "years of logs": constant("deploy/logrotate", r"rotate (\d+)") * 4 // 1461,
        "shortest first use": constant("bench/RESULTS.md", r"First use of `\./achdesk`.*?\| (\d+) to \d+ min"),
        "longest first use": constant("bench/RESULTS.md", r"First use of `\./achdesk`.*?\| \d+ to (\d+) min"),
        "shortest try": constant("bench/RESULTS.md", r"`\./try`.*?\| (\d+) to \d+ min"),
        "longest try": constant("bench/RESULTS.md", r"`\./try`.*?\| \d+ to (\d+) min"),
        "MB of a hostile body": constant("bench/RESULTS.md", r"hostile body of 4 MiB of nested JSON takes (\d+) MB"),
    }


# Each sentence of a page with a number or a day, and the fact that it has to be.
NUMBERS = (
    ("docs/TESTED.md", r"refuses alike to each of the (\d+)", "operations"),
    ("docs/PROVED.md", r"makes the desk wrong in (\d+) ways", "edits"),
    ("docs/TESTED.md", r"makes the desk wrong in (\d+) ways", "edits"),
    ("docs/TESTED.md", r"More than (\d+) further edits", "hundreds of further edits"),
    ("README.md", r"takes \d+ to (\d+) minutes", "longest first use"),
    ("README.md", r"takes (\d+) to \d+ minutes", "shortest first use"),
    ("README.md", r"in \d+ to (\d+) minutes", "longest try"),
    ("README.md", r"in (\d+) to \d+ minutes", "shortest try"),
    ("README.md", r"([\d,]+) entries a year", "traces"),
    ("CHANGELOG.md", r"File version \| (\d)", "file version"),
    ("CHANGELOG.md", r"Migrates \| files of version (\d)", "first file version"),
    ("CHANGELOG.md", r"again after ([\d,]+) entries", "traces"),
    ("docs/audit/assurance.md", r"reject each: (\d+) in the gate", "edits"),
    ("docs/audit/assurance.md", r"more than (\d+) outside it", "hundreds of further edits"),
    ("README.md", r"has sent at most ([\d,]+) entries", "traces"),
    ("docs/audit/assurance.md", r"has sent at most ([\d,]+) entries", "traces"),
    ("docs/PROVED.md", r"at most ([\d,]+) entries sent", "traces"),
    ("docs/audit/tables.md", r"`version`: the version of these tables, (\d)", "file version"),
    ("docs/audit/tables.md", r"After ([\d,]+) the sequences", "traces"),
    ("docs/audit/tables.md", r"`sequence`: the sequence, 1 to ([\d,]+)", "traces"),
    ("docs/audit/tables.md", r"lie between (2\d{3}-\d\d-\d\d)", "first desk day"),
    ("docs/audit/tables.md", r"lie between \S+ and (2\d{3}-\d\d-\d\d)", "last day of a rule"),
    ("docs/operate/capacity.md", r"Files of one desk day \| (\d+)", "files of a day"),
    ("docs/operate/capacity.md", r"Batches \(submissions\) in a file \| ([\d,]+)", "batches of a file"),
    ("docs/operate/capacity.md", r"records in a file \| ([\d,]+)", "records of a file"),
    ("docs/operate/capacity.md", r"of a file \| ([\d,]+) cents each", "cents of a submission"),
    ("docs/operate/capacity.md", r"Trace numbers \| ([\d,]+),", "traces"),
    ("docs/operate/capacity.md", r"free again (\d+) days after", "days until a trace is free"),
    ("docs/operate/capacity.md", r"used again (\d+) days after", "days until a trace is free"),
    ("docs/operate/capacity.md", r"Entries of a submission \| ([\d,]+)", "entries of a submission"),
    ("docs/operate/capacity.md", r"Cents of a submission \| ([\d,]+)", "cents of a submission"),
    ("docs/operate/capacity.md", r"Cents of an entry \| ([\d,]+)", "cents of an entry"),
    ("docs/operate/capacity.md", r"Requested day \| 1 to (\d+) days", "days that may be asked for"),
    ("docs/operate/capacity.md", r"Body, and incoming file \| ([\d,]+) bytes", "bytes of a body"),
    ("docs/operate/capacity.md", r"Holiday list \| (\d+) days", "holidays"),
    ("docs/operate/capacity.md", r"Desk days \| (2\d{3}-\d\d-\d\d)", "first desk day"),
    ("docs/operate/capacity.md", r"Desk days \| \S+ to (2\d{3}-\d\d-\d\d)", "last desk day"),
    ("docs/operate/capacity.md", r"exposure ([\d,]+) cents", "cents of a limit"),
    ("docs/operate/capacity.md", r"Messages of a connection \| ([\d,]+)", "messages of a connection"),
    ("docs/operate/capacity.md", r"one run of `serve` \| ([\d,]+)", "connections"),
    ("docs/operate/capacity.md", r"at most (\d+) requests a second", "rate of an address"),
    ("docs/operate/capacity.md", r"A company's body, at the proxy \| (\d+) KiB", "KiB of a company's body"),
    ("docs/operate/capacity.md", r"A company's submissions, at the proxy \| (\d+) a second", "rate of submissions"),
    ("deploy/README.md", r"One address, or one IPv6 network of 64 bits \| (\d+) requests a second", "rate of an address"),
    ("deploy/README.md", r"One company, by its keys \| (\d+) requests a second", "rate of a company"),
    ("deploy/README.md", r"One company, requests with a body \| (\d+) a second", "rate of submissions"),
    ("deploy/README.md", r"One company, a body \| \| (\d+) KiB", "KiB of a company's body"),
    ("docs/integrate/retries.md", r"up to (\d+) requests a second", "rate of a company"),
    ("docs/integrate/retries.md", r"A body has at most (\d+) KiB", "KiB of a company's body"),
    ("docs/operate/capacity.md", r"(\d+) MB for 4 MiB", "MB of a hostile body"),
    ("docs/operate/companies.md", r"1 to (\d+) of `A-Z`", "characters of an identification"),
    ("docs/operate/companies.md", r"a name of at most (\d+) characters", "characters of a company's name"),
    ("docs/operate/companies.md", r"(\d+) days that end on the desk day", "days of the rates"),
    ("docs/operate/install.md", r"127\.0\.0\.1:(\d+)", "port"),
    ("docs/operate/install.md", r"Names have 1 to (\d+) characters", "characters of the bank's name"),
    ("docs/operate/install.md", r"`--connections`, at most ([\d,]+)", "connections"),
    ("docs/operate/install.md", r"`--patience` seconds, (\d+) by default", "seconds of patience"),
    ("docs/operate/install.md", r"by default and (\d+) in the unit", "seconds of patience in the unit"),
    ("deploy/README.md", r"The unit has (\d+) GiB", "GiB of the unit"),
    ("docs/operate/install.md", r"each address to (\d+) requests", "rate of an address"),
    ("docs/operate/install.md", r"each company to (\d+)", "rate of a company"),
    ("docs/operate/install.md", r"sends up to (\d+) MiB more", "MiB that are read and dropped"),
    ("docs/operate/install.md", r"up to the ([\d,]+)th message", "messages of a connection"),
    ("docs/operate/backup.md", r"the (\d+) newest copies", "newest backups"),
    ("docs/operate/backup.md", r"all backups of (\d+) days", "days of backups"),
    ("docs/operate/backup.md", r"last (\d+) months", "months of backups"),
    ("docs/operate/backup.md", r"The unit is bounded: (\d+) GiB", "GiB of a backup"),
    ("docs/operate/backup.md", r"the whole of it in (\d+) days", "days of an expiry"),
    ("docs/operate/monitoring.md", r"once it has failed for (\d+) minutes", "minutes of patience"),
    ("docs/operate/day.md", r"within (\d+) days of today", "days that stay in the list"),
    ("docs/operate/day.md", r"ascending, at most (\d+)", "holidays of achdesk-day"),
    ("docs/operate/monitoring.md", r"waited longer than (\d+) seconds", "seconds of the proxy"),
    ("docs/operate/monitoring.md", r"listening on 127\.0\.0\.1:(\d+)", "port"),
    ("docs/operate/returns-files.md", r"more than ([\d,]+) bytes", "bytes of a file"),
    ("docs/operate/troubleshooting.md", r"limit of (\d+) submission a second", "rate of submissions"),
    ("docs/operate/troubleshooting.md", r"([\d,]+) submissions take", "submissions of a day"),
    ("docs/operate/upgrades.md", r"files of version (\d)", "file version"),
    ("docs/operate/upgrades.md", r"a file of version (\d) into", "first file version"),
    ("docs/integrate/csv.md", r"at most (\d+) rows", "holidays"),
    ("docs/integrate/csv.md", r"if it is the (\d+)st", "first row too many"),
    ("docs/integrate/csv.md", r"name, at most (\d+) characters", "characters of a receiver's name"),
    ("docs/integrate/csv.md", r"more than ([\d,]+) bytes", "bytes of a list"),
    ("docs/integrate/quickstart.md", r"twice at most, within (\d+) days", "days of a retry"),
    ("docs/integrate/retries.md", r"each time up to (\d+) seconds", "longest pause of a client"),
    ("docs/integrate/retries.md", r"Wait (\d+) seconds for an answer", "seconds of a client"),
    ("docs/integrate/retries.md", r"longer than that for an answer: (\d+)", "seconds of a client"),
    ("docs/integrate/retries.md", r"keeps a request for up to (\d+) seconds", "seconds of a queue"),
    ("docs/integrate/retries.md", r"wait until (\d+) seconds have passed", "seconds of a queue"),
    ("docs/integrate/retries.md", r"at most ([\d,]+) messages", "messages of a connection"),
)

# What each such sentence of any page of users has to have, and the least number of pages that have one.
ANYWHERE = (
    (r"\b([\d,]+) files (?:a day|hold)", "files of a day", 3),
    (r"\b([\d,]{7,}) bytes", "bytes of a body", 3),
    (r"more than (\d+) days after the original", "days of a retry", 2),
    (r"\b([\d,]{6,}) traces", "traces", 1),
    (r"files of version (\d+)(?= \||\.)", "file version", 2),
)

# Facts that have to be equal.
EQUAL = (
    ("bytes of a body", "bytes of a body at the proxy"), ("bytes of a body", "bytes of a file"), ("bytes of a body", "bytes of a list"),
    ("seconds of a queue", "seconds of the proxy's queue"), ("bytes of a list", "bytes of a list in the client"), ("entries of a submission", "entries of a submission in the client"),
    ("cents of an entry", "cents of an entry in the client"), ("cents of a submission", "cents of a submission in the client"),
    ("entries of a submission", "entries of a submission in the API"), ("holidays", "holidays of achdesk-day"), ("connections", "connections of the unit"),
)

# A line of a file and the words of a page that say the same: if one changes, so must the other.
SAID = (
    ("deploy/achdesk-day-open.timer", "OnCalendar=Mon..Fri 06:00 ", "docs/operate/install.md", "`open`, at 6:00 on weekdays"),
    ("deploy/achdesk-day-fetch.timer", "OnCalendar=Mon..Fri 06..20:4/10 ", "docs/operate/install.md", "`fetch`, every ten minutes from 6:04 to 20:54"),
    ("deploy/achdesk-day-returns.timer", "OnCalendar=Mon..Fri 06..20:6/10 ", "docs/operate/install.md", "`returns`, every ten minutes from 6:06 to 20:56"),
    ("deploy/achdesk-day-watch.timer", "OnCalendar=Mon..Fri 06..20:9/10 ", "docs/operate/install.md", "`watch`, every ten minutes from 6:09 to 20:59"),
    ("deploy/achdesk-day-cut.timer", "OnCalendar=Mon..Fri 15:30 ", "docs/operate/install.md", "at 15:30"),
    ("deploy/achdesk-day-send.timer", "OnCalendar=Mon..Fri 15..16:3/5 ", "docs/operate/install.md", "`send` every five minutes from 15:03 to 16:58"),
    ("deploy/alarm.conf", "achdesk-day-send.service = 16:59\n", "docs/operate/monitoring.md", "tried every five minutes and is an alarm at 16:59"),
    ("deploy/achdesk-backup.timer", "OnCalendar=*:2/10\n", "docs/operate/install.md", "`backup`, every ten minutes at 2, 12, 22 and so on"),
    ("deploy/achdesk-expire.timer", "OnCalendar=*-*-* 02:20 ", "docs/operate/install.md", "`backup --expire-only` at 2:20"),
    ("deploy/achdesk-day-copy.timer", "OnCalendar=*:*:30\n", "docs/operate/install.md", "`copy` to the [standby](backup.md#standby), every minute"),
    ("deploy/achdesk-day-metrics.timer", "OnCalendar=*:*:15\n", "docs/operate/monitoring.md", "writes the same every minute"),
    ("deploy/achdesk-day-metrics.timer", "OnCalendar=*:*:15\n", "docs/operate/install.md", "(monitoring.md#metrics) every minute"),
    ("deploy/achdesk-guard.timer", "OnCalendar=*:*:05\n", "docs/operate/monitoring.md", "`achdesk-guard.service` asks the desk each minute"),
    ("deploy/achdesk-alarm.timer", "OnCalendar=*:*:45\n", "docs/operate/monitoring.md", "`achdesk-alarm.timer` tries each minute"),
    ("deploy/day.conf", "#file = /var/lib/prometheus/node-exporter/achdesk.prom\n", "docs/operate/monitoring.md", "`/var/lib/prometheus/node-exporter/achdesk.prom`"),
    ("deploy/logrotate", "daily\n", "docs/operate/monitoring.md", "rotated daily and kept for seven years"),
    ("deploy/logrotate", "rotate 2557\n", "docs/operate/monitoring.md", "rotated daily and kept for seven years"),
    ("clients/python/achdesk/caller.py", "FIRST_PAUSE = 0.5\n", "docs/integrate/retries.md", "Wait half a second before the first retry"),
    ("clients/README.md", "Python 3.9 or later", "docs/integrate/quickstart.md", "Python 3.9 or later"),
    ("docs/openapi.yaml", '"^R(0[1-9]|[12][0-9])$"', "README.md", "Return codes above R29"),
    ("docs/openapi.yaml", '"^C(0[1-9]|1[0-4])$"', "README.md", "change codes above C14"),
    ("docs/openapi.yaml", '"^R(0[1-9]|[12][0-9])$"', "docs/audit/tables.md", "`R01` to `R29`"),
    ("docs/openapi.yaml", '"^C(0[1-9]|1[0-4])$"', "docs/audit/tables.md", "`C01` to `C14`"),
    ("docs/openapi.yaml", '"^[!-~]{8,64}$"', "docs/integrate/csv.md", "8 to 64 printable characters"),
    ("docs/audit.sql", "k.unauthorized * 1000 > k.debits * 5", "docs/operate/companies.md", "0.5 percent for unauthorized returns"),
    ("docs/audit.sql", "k.administrative * 100 > k.debits * 3", "docs/operate/companies.md", "3 percent for administrative ones"),
    ("docs/audit.sql", "k.overall * 100 > k.debits * 15", "docs/operate/companies.md", "15 percent overall"),
    ("docs/audit.sql", "stock SQLite 3.37", "docs/audit/views.md", "stock SQLite 3.37"),
)

# Times that were measured belong into bench/RESULTS.md.
MEASURED = re.compile(r"\b\d[\d.,]*(?: to \d[\d.,]*)? (?:ms|µs|min)\b|\b\d+ to \d+ (?:seconds|minutes|hours)\b|\bCPU time\b")


def check_numbers():
    facts = facts_of_tree()
    for page, sentence, name in NUMBERS:
        found = re.search(sentence, text(page))
        check(f"{page}: {name}", found and found[1].replace(",", ""), str(facts[name]))
    for sentence, name, least in ANYWHERE:
        found = {page.relative_to(TOP): set(re.findall(sentence, page.read_text())) for page in USER_PAGES}
        wrong = {str(page): them for page, them in found.items() if {it.replace(",", "") for it in them} - {str(facts[name])}}
        check(f"{name}, on pages with another number than {facts[name]}", wrong, {})
        check(f"{name}: pages that have it, at least {least}", sum(map(bool, found.values())) >= least, True)
    for one, other in EQUAL:
        check(f"{one} and {other}", facts[one], facts[other])
    for source, line, page, words in SAID:
        check(f"{source} has `{line.strip()}`, and {page} has `{words}`", (line in text(source), words in text(page)), (True, True))
    measured = {str(it.relative_to(TOP)): MEASURED.findall(prose_of(it)) for it in USER_PAGES if it.name != "README.md" and MEASURED.search(prose_of(it))}
    check("times on pages other than the README and bench/RESULTS.md", measured, {})
    version = re.search(r'"achdesk (\S+)\\n"', text("crates/cli_words/src/version_line.rt"))[1]
    check("CHANGELOG.md: newest version", re.search(r"^## (\S+)", text("CHANGELOG.md"), re.M)[1], version)
    check("install.md: version", re.search(r"^achdesk (\S+)", text("docs/operate/install.md"), re.M)[1], version)
    check("upgrades.md: version", re.search(r"^\| ([\d.]+) \|", text("docs/operate/upgrades.md"), re.M)[1], version.rpartition(".")[0])
    examples = re.findall(r"```rust\n(.*?)```", text("docs/integrate/library.md"), re.S)
    source = text("crates/documented_examples/src/library.rt")
    check("library.md: examples that the gate does not run", [it for it in examples if it not in source], [])
    tasks = re.findall(r"^- \[", text("docs/operate/README.md"), re.M)
    check("operate/README.md: tasks", len(tasks), 25)


# ---- commands

PROGRAMS = re.compile(r"(?:sudo |sudo -u achdesk )?(?:achdesk(?:-day|-company)?|\./achdesk|\./try|systemctl|journalctl|make|python3|curl|sqlite3|ss|fuser|nginx|apt) \S")


def check_commands():
    """Each command in a line of text is run in a block of some page, or is in the list of judge/pages.py."""
    printed = [" ".join(command.split()) for page in pages.PAGES for block in pages.blocks(page) for command, _ in pages.commands(block)]
    lines = {line.strip() for command in printed for line in re.split(r" && | \| |; |\n", command)} | set(printed)
    lines |= {re.sub(r"^(?:sudo(?: -u [\w-]+)? )", "", it) for it in lines}
    missing, used, listed = [], set(), (*pages.NOT_RUN, *pages.IN_TEXT)
    for page in USER_PAGES:
        for command in re.findall(r"`([^`\n]+)`", prose_of(page)):
            if not PROGRAMS.match(command):
                continue
            why = [it[0] for it in listed if command.removeprefix("./").startswith(it[0].removeprefix("./"))]
            used |= set(why)
            if not why and not any(is_like(command, it) for it in lines):
                missing.append(f"{page.relative_to(TOP)}: {command}")
    check("commands in the text that judge/pages.py neither runs nor lists", missing, [])
    used |= {why[0] for it in printed if (why := pages.reason(it)) is not None}
    check("commands that judge/pages.py lists and no page has", [it[0] for it in listed if it[0] not in used], [])
    tests = {name for it in listed for name in re.findall(r"\b(?:judge/\w+\.py|crates/\w+)", it[2])}
    check("tests that judge/pages.py names and the tree does not have", sorted(it for it in tests if not (TOP / it).exists()), [])
    programs = {"achdesk-day": words_of("deploy/achdesk_day/words.py"), "achdesk-company": words_of("clients/python/achdesk/program/words.py")}
    for program, (commands, options) in programs.items():
        check(f"commands and options that {program} does not have", sorted(unknown_options(program, commands, options)), [])
    desk = {it for path, source in sources() if "cli_words" in path.parts for it in re.findall(r'"([a-z-]+)"', source)}
    commands = {"init", "serve", "stdio", "check", "submit", "migrate"}.union(*(it for it, _ in programs.values()))
    options = {f"--{it}" for it in desk}.union(*(it for _, it in programs.values()))
    bare = [f"{page.relative_to(TOP)}: {first} {option}" for page in USER_PAGES
            for first, option in re.findall(r"`([a-z]+) (--[a-z-]+)", prose_of(page)) if first in commands and option not in options]
    check("options that no program has", bare, [])


def is_like(command, line):
    """Returns whether a line has the words of a command in their order; capitals in a command, as FILE, stand for any text."""
    words = iter(line.removeprefix("./").split())
    command = re.sub(r"^(?:sudo(?: -u [\w-]+)? )", "", command).removeprefix("./")
    return all(any(re.fullmatch(it, word) for word in words)
               for it in (re.sub(r"[A-Z]{2,}", r"\\S+", re.escape(word)) for word in command.split()))


def words_of(source):
    """Returns the commands and the options of a program of Python."""
    code = text(source)
    commands = {one or other for one, other in re.findall(r'^    "([a-z]+)": \((?:\w+, )?"|\(\w+, "([a-z]+)", "', code, re.M)}
    return commands, set(re.findall(r'add_argument\(\s*"(--[a-z-]+)"', code)) | {"--help"}


def unknown_options(program, commands, options):
    """Returns commands and options that pages give a program and that it does not have."""
    for page in USER_PAGES:
        spans = re.findall(r"`([^`\n]+)`", prose_of(page)) + re.findall(r"^(?:\$ )?(.*)$", "\n".join(re.findall(r"```\w*.*?\n(.*?)```", page.read_text(), re.S)), re.M)
        for span in spans:
            for words in re.findall(rf"(?<![\w/-])(?<!-u ){program} ([^|;&)]*)", span):
                first = next((it for it in words.split() if not it.startswith("-")), "")
                if re.fullmatch(r"[a-z]+", first) and first not in commands:
                    yield f"{page.relative_to(TOP)}: {program} {first}"
                yield from (f"{page.relative_to(TOP)}: {program} {it}" for it in re.findall(r"(?<!\S)--[a-z-]+", words) if it not in options)


def check_judges():
    """judge/README.md has each judge of judge/run.py, in the table of those that run without a name or in the other."""
    first, _, second = text("judge/README.md").partition("These run if they are named")
    for part, is_asked in ((first, False), (second, True)):
        names = [f"{it.name}.py" for it in run.JUDGES if it.is_asked() == is_asked]
        check(f"judge/README.md: judges that run {'if they are named' if is_asked else 'without words'}",
              sorted(re.findall(r"^\| `(\w+\.py)` \|", part, re.M)), sorted(names))


# ---- the program and the kit

def check_program(program):
    said = subprocess.run([program, "--version"], stdout=subprocess.PIPE, text=True).stdout.split()
    check("CHANGELOG: version", re.search(r"^## (\S+)", text("CHANGELOG.md"), re.M)[1], said[1])
    helps = "".join(subprocess.run([program, "help", it], stdout=subprocess.PIPE, text=True).stdout
                    for it in ("init", "serve", "stdio", "check", "submit", "migrate"))
    for page in USER_PAGES:
        lines = "\n".join(re.findall(r"^.*(?:\./|\b)achdesk (?:init|serve|submit|check|stdio|migrate)\b.*$", page.read_text(), re.M))
        lines = re.sub(r"achdesk-(?:day|company).*", "", lines)
        unknown = [it for it in re.findall(r" (--[a-z-]+)", lines) if it not in helps]
        check(f"{page.relative_to(TOP)}: options that no command has", unknown, [])


def warn_of_kit():
    try:
        kit = subprocess.run(["rt", "version"], stdout=subprocess.PIPE, text=True).stdout.strip()
    except OSError:
        return
    for page in ("README.md", "docs/PROVED.md"):
        if (named := re.search(r"`(rattle-kit-\S+ logic \w+)`", text(page))) is None or named[1] != kit:
            print(f"warning: {page} names the kit {named and named[1]}, and this machine has {kit}", file=sys.stderr)


def main():
    check_pages()
    check_promises()
    check_premises()
    check_names()
    check_tables()
    check_views()
    check_numbers()
    check_commands()
    check_judges()
    if sys.argv[1:]:
        check_program(sys.argv[1])
    warn_of_kit()
    print(f"{count} checks of the pages, {failed} failed")
    return 1 if failed else 0


if __name__ == "__main__":
    sys.exit(main())
