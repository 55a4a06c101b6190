#!/usr/bin/env python3
"""Tries docs/openapi.yaml against the desk: `python3 judge/openapi.py [PROGRAM]`.

`PROGRAM stdio`, by default the built program, answers each script of judge/openapi_scripts.yaml with a new desk, and each answer
must be the page's, byte by byte. The page's paths must be those of crates/http_routes, its refusals and faults those of
judge/helpers/refusals.py, each with an example that is sent or with the reason why it cannot be. The schemas are tried: a
body is a bad field to the desk exactly if it does not fit its schema. Then a client of 40 lines that knows only the page
(judge/helpers/page_client.py) sends every request of the page, in page order, to a served desk: each answer must be one
that the page has, and the desk must be usable afterwards.

It needs PyYAML; with openapi-spec-validator the page itself is checked too. One line is printed for each group of checks,
and one for each failure. The last line is `N examples, M failed`, and the exit status is 1 if something failed.
"""

import re
import sys
import tempfile
from pathlib import Path

from helpers import openapi_faults
from helpers.desk_messages import LARGEST_SESSION, Exchange, compact, differences, is_sanitized, keyed, request, response
from helpers.openapi_bounds import bounds
from helpers.openapi_page import Page
from helpers.page_client import PageClient, examples_of
from helpers.refusals import CALENDAR_FAULTS, FILE_FAULTS, MESSAGE_FAULTS, ORDERS, PROXY_FAULTS, REFUSALS
from helpers.running import HOST, Serving, make_desk, program_of

try:
    import openapi_spec_validator
    from jsonschema import Draft202012Validator, FormatChecker
except ImportError:
    openapi_spec_validator = None

TOP = Path(__file__).resolve().parent.parent
MOST_DATA = 2 << 20
PREPARED = ("companyRegistered", "daySet")

# No operation of the page has it: it answers methods that the path does not take.
BAD_METHOD = {"badMethod": {"error": "BadMethod"}}


class Report:
    """What is printed: a line for each group of checks, and the failures in it."""

    def __init__(self):
        self.failed = 0

    def tell(self, group, failures):
        print(f"{group}: {'ok' if not failures else f'{len(failures)} failed'}", flush=True)
        for line in failures:
            print(f"  {line}", flush=True)
        self.failed += len(failures)


# ---- the page itself


def validator(page, schema):
    return Draft202012Validator({**schema, "components": page.tree["components"]}, format_checker=FormatChecker())


def closed(schema):
    """The schema with no members but those that it names."""
    if isinstance(schema, list):
        return [closed(it) for it in schema]
    if not isinstance(schema, dict):
        return schema
    more = {"additionalProperties": False} if "properties" in schema else {}
    return {**{key: closed(it) for key, it in schema.items()}, **more}


def validator_of_today(page, schema):
    """Takes an answer that has no members but those of the page, which itself forbids no later ones."""
    components = {"schemas": closed(page.tree["components"]["schemas"])}
    return Draft202012Validator({**closed(schema), "components": components}, format_checker=FormatChecker())


def with_later_members(value):
    """A value of which each object has one member more."""
    if isinstance(value, list):
        return [with_later_members(it) for it in value]
    if not isinstance(value, dict):
        return value
    return {**{key: with_later_members(it) for key, it in value.items()}, "later": [1]}


def faults_of_page(page):
    errors = openapi_spec_validator.OpenAPIV31SpecValidator(page.tree).iter_errors()
    return [f"{'/'.join(map(str, it.path))}: {it.message}" for it in errors]


def is_bad_body(page, operation, name):
    """Is an example of a body refused as a bad field that a schema can tell? None can tell a check digit."""
    answers = [it.value for it in page.examples_of(operation) if it.asks.get("body") == name]
    return any(it.get("error") == "BadField" and it["field"] != "routing" for it in answers)


def misfits(page):
    """The examples that do not fit their schema, or fit it though the desk refuses them."""
    for operation in page.operations.values():
        for name, it in operation.body()[1]["examples"].items() if operation.body() else ():
            fits = "externalValue" in it or validator(page, operation.body()[1]["schema"]).is_valid(it["value"])
            if fits == is_bad_body(page, operation, name):
                yield f"body {name} {'fits' if fits else 'does not fit'} its schema"
    for place, kind in page.kinds():
        for name, it in kind["examples"].items():
            value = page.at(it).get("value")
            if not place.endswith(", body") and not validator_of_today(page, kind["schema"]).is_valid(value):
                yield f"{place}: {name} does not fit its schema"


def closed_answers(page):
    """The examples of answers whose schema would refuse them in a later version, with members more."""
    for place, kind in page.kinds():
        for name, it in kind["examples"].items():
            value = with_later_members(page.at(it).get("value"))
            if not place.endswith(", body") and not validator(page, kind["schema"]).is_valid(value):
                yield f"{place}: {name} with members more does not fit its schema"


# ---- the page beside the other pages


def differing_routes(page):
    source = (TOP / "crates/http_routes/src/routes.rt").read_text()
    rows = re.findall(r'"(/[^"]*)" =>([^;]*);', source)
    routes = {(method.upper(), path) for path, served in rows for method in re.findall(r"\b(get|post) ", served)}
    shown = {(it.method, it.path) for it in page.operations.values()}
    return [f"{method} {path} is in one of the two alone" for method, path in sorted(routes ^ shown)]


def differing_orders(page):
    for operation in page.operations.values():
        wanted = [REFUSALS[it][0] for it in ORDERS[operation.name]]
        if operation.tree["x-refusals"] != wanted:
            yield f"{operation.name} has the refusals {operation.tree['x-refusals']}, and not {wanted}"


def lacking_refusals(page):
    """The refusals of operations for which they have no example, or one too many."""
    for operation in page.operations.values():
        values = [it.value for it in page.examples_of(operation) if it.status in (409, 422)]
        for name in sorted({it["error"] for it in values} ^ set(operation.tree["x-refusals"])):
            yield f"{operation.name}: {name} is in its list or in its examples alone"


def wrong_refusals(page):
    """The examples with a wrong number or status, and the refusals without an example."""
    wanted = {name: (number, status) for number, (name, status) in REFUSALS.items()}
    shown = [it for it in page.examples.values() if isinstance(it.value, dict) and "number" in it.value]
    for it in shown:
        if wanted.get(it.value["error"]) != (it.value["number"], it.status):
            yield f"{it.name}: {it.value} with status {it.status} is not a refusal"
    yield from (f"{name} has no example" for name in sorted(wanted.keys() - {it.value["error"] for it in shown}))


def wrong_faults(page):
    """The faults of messages that have another status, or are in the page or in the table alone. No operation of the
    page has a 405, which answers methods that the path does not take."""
    wanted = {**MESSAGE_FAULTS, **PROXY_FAULTS}
    shown = {(it.value["error"], it.status) for it in page.examples.values() if it.status == 404}
    for operation in page.operations.values():
        shown |= {(page.shared[name]["error"], status) for name, status in page.shared_answers(operation)}
    lines = [
        f"{it} is in one of the two alone"
        for it in sorted((shown | {("BadMethod", 405)}) ^ set(wanted.items()), key=str)
    ]
    named = page.tree["components"]["schemas"]["Fault"]["properties"]["error"]["enum"]
    return lines + [f"{it} is in the schema or in the table alone" for it in sorted(set(named) ^ set(wanted))]


def lacking_statuses(page):
    """The operations without one of the answers that a proxy may give, which need not be JSON, or without the desk's 503."""
    for operation in page.operations.values():
        for status in ("403", "404", "413", "429", "502", "503", "504"):
            content = page.at(operation.tree["responses"].get(status, {})).get("content", {})
            for kind in {"application/json", *(["text/html"] if status != "503" else [])} - content.keys():
                yield f"{operation.name} has no {status} with {kind}"


def lacking_faults(page):
    """The faults of files and holiday lists without an example, except for those that no call reports."""
    wanted = {*FILE_FAULTS, *CALENDAR_FAULTS}
    shown = {it.value["fault"] for it in page.examples.values() if isinstance(it.value, dict) and "fault" in it.value}
    never = {it["fault"] for it in page.not_sent}
    return [f"{it} has no example, or is not a fault" for it in sorted(wanted ^ (shown | never))]


def loose_texts(node, place=""):
    """The places of texts that may be anything: all but a proxy's page have a pattern or a list of values."""
    if isinstance(node, dict):
        if node.get("type") == "string" and not {"pattern", "enum", "const"} & node.keys() and not place.endswith("/ProxyPage"):
            yield f"{place} has no pattern"
        node = {key: it for key, it in node.items() if key not in ("example", "examples", "x-request")}
    for key, it in node.items() if isinstance(node, dict) else enumerate(node) if isinstance(node, list) else ():
        yield from loose_texts(it, f"{place}/{key}")


def unreferenced(page):
    """The components that nothing in the page refers to."""
    used = set(re.findall(r"#/components/(\w+/\w+)", page.path.read_text()))
    used |= {f"securitySchemes/{name}" for it in page.operations.values() for name in it.tree["security"][0]}
    found = {f"{kind}/{name}" for kind, names in page.tree["components"].items() for name in names}
    return sorted(found - used)


# ---- messages


def unsent(page):
    """The examples that are in no script, or in one though they say that none can bring them about."""
    sent = {step for script in page.scripts for step in script["steps"] if isinstance(step, str)}
    wrong = [it.name for it in page.examples.values() if (it.name in sent) != it.is_sent]
    return [f"{it} is {'in a script' if it in sent else 'in no script'}" for it in wrong]


def run_script(page, program, steps):
    exchanges = list(page.exchanges(steps))
    return len(exchanges), differences(program, exchanges)


def shared_exchanges(page, name, status, operation):
    """The messages to an operation that are answered by a shared example."""
    closes = name in openapi_faults.CLOSING
    wanted = response(status, compact({**page.shared, **BAD_METHOD}[name]), closes=closes)
    for at, sent in enumerate(openapi_faults.MESSAGES[name](operation)):
        yield Exchange(f"{name} {at + 1} at {operation.name}", sent, wanted)


def run_shared(page, program, name, status, operation):
    """Those that end the connection come alone, and the others after one another."""
    prepared = list(page.exchanges(PREPARED))
    exchanges = list(shared_exchanges(page, name, status, operation))
    sessions = [[it] for it in exchanges] if name in openapi_faults.CLOSING else [exchanges]
    return len(exchanges), [line for it in sessions for line in differences(program, prepared + it)]


def run_all_shared(page, program, name):
    """Sends the shared example wherever operations have it, or beside each of them where none has it."""
    count, failures = 0, []
    for operation in page.operations.values():
        status = dict(page.shared_answers(operation)).get(name, openapi_faults.ELSEWHERE.get(name))
        if status is not None:
            sent, lines = run_shared(page, program, name, status, operation)
            count, failures = count + sent, failures + lines
    return count, failures


def run_unavailable(page, program):
    """The program gets less memory than a body needs."""
    wanted = response(503, compact(page.shared["unavailable"]), closes=True)
    places = [it for it in page.operations.values() if it.method == "POST"]
    lines = []
    for operation in places:
        sent = keyed(operation.method, operation.target({}), operation.key, b" " * (4 << 20))
        lines += differences(program, [Exchange(f"unavailable at {operation.name}", sent, wanted)], MOST_DATA)
    return len(places), lines


def last_messages(operation):
    """Messages that are the last of their connection, each with one more, which is not answered."""
    key = f"X-Desk-Key: {operation.key}"
    plain = keyed(operation.method, operation.target({}), operation.key)
    yield 0, request(operation.method, operation.target({}), [key, "Connection: Close"]) + plain
    yield 0, plain.replace(b"HTTP/1.1", b"HTTP/1.0") + plain
    yield LARGEST_SESSION - 1, plain + plain


def run_connections(page, program):
    """A connection is kept, up to the message that closes it."""
    it = page.examples["noSuspense"]
    body, plain = compact(it.value), keyed(it.operation.method, it.operation.target({}), it.operation.key)
    count, lines = 0, []
    for before, last in last_messages(it.operation):
        exchanges = [Exchange("kept", plain, response(200, body))] * before
        exchanges.append(Exchange("the last", last, response(200, body, closes=True)))
        count, lines = count + len(exchanges), lines + differences(program, exchanges)
    return count, lines


def run_bounds(page, program):
    prepared, exchanges = list(page.exchanges(PREPARED)), list(bounds(page, validator))
    size, lines = LARGEST_SESSION - len(prepared) - 1, []
    for at in range(0, len(exchanges), size):
        lines += differences(program, prepared + exchanges[at : at + size])
    return sum(it.wanted is None for it in exchanges), len(exchanges), lines


# ---- all of it


def judge_page(page, report):
    if openapi_spec_validator is None:
        print("page: openapi_spec_validator is not installed, so it is not checked as OpenAPI, nor are its schemas")
    else:
        report.tell(f"page: OpenAPI {page.tree['openapi']}, {len(page.operations)} operations", faults_of_page(page))
        report.tell("schemas: each example fits, but for bodies with a bad field", list(misfits(page)))
        report.tell("schemas: an answer with members more fits", list(closed_answers(page)))
    report.tell("routes: those of crates/http_routes", differing_routes(page))


def judge_names(page, report):
    wrong = [*wrong_refusals(page), *lacking_refusals(page), *differing_orders(page)]
    report.tell(f"refusals: all {len(REFUSALS)}, in their orders", wrong)
    report.tell(
        f"faults: all {len(MESSAGE_FAULTS)}, and {len(PROXY_FAULTS)} of the proxy",
        [*wrong_faults(page), *lacking_statuses(page)],
    )
    report.tell("faults of files and of holiday lists: all", lacking_faults(page))
    report.tell("components: each is used", unreferenced(page))
    report.tell("texts: each has a pattern or a list of values", list(loose_texts(page.tree)))
    report.tell("servers: the first has https", [it["url"] for it in page.tree["servers"][:1] if not it["url"].startswith("https://")])
    report.tell("examples: each in a script, or with a reason", unsent(page))


def judge_messages(page, program, report):
    for script in page.scripts:
        count, lines = run_script(page, program, script["steps"])
        report.tell(f"script, {script['name']}: {count} messages", lines)
    for name in openapi_faults.MESSAGES:
        count, lines = run_all_shared(page, program, name)
        report.tell(f"shared, {name}: {count} messages", lines)
    count, lines = run_unavailable(page, program)
    how = ", which AddressSanitizer refuses memory" if is_sanitized(program[0]) else ""
    report.tell(f"shared, unavailable: {count} messages{how}", lines)
    count, lines = run_connections(page, program)
    report.tell(f"connections: {count} messages", lines)
    if openapi_spec_validator is not None:
        fitting, count, lines = run_bounds(page, program)
        report.tell(f"bounds: {fitting} bodies that fit and {count - fitting} that do not", lines)


def wrong_answers(page, client):
    """Sends every request of the page in page order. The client fails if an answer is not one of the page's."""
    for operation in page.operations.values():
        for body in examples_of(operation.tree, TOP / "docs"):
            status, kind, value = client.call(operation.name, body, **operation.parameters)
            schema = page.at(operation.tree["responses"][str(status)])["content"][kind]["schema"]
            if openapi_spec_validator is not None and not validator_of_today(page, schema).is_valid(value):
                yield f"{operation.name}: {value} does not fit its schema"


# What must be possible after all requests of the page: their operation, body, status and answer.
AFTERWARDS = (
    (
        "submit",
        {
            "ref": "LAST-1",
            "sec": "PPD",
            "direction": "credit",
            "description": "PAYROLL",
            "day": "2025-01-10",
            "entries": [
                {
                    "routing": "091000019",
                    "account": "123456789",
                    "kind": "checking",
                    "cents": 150000,
                    "id": "E1",
                    "name": "ANN LEE",
                }
            ],
        },
        201,
        "ref",
    ),
    (
        "submit",
        {
            "ref": "LAST-2",
            "sec": "PPD",
            "direction": "debit",
            "description": "DUES",
            "day": "2025-01-10",
            "entries": [
                {
                    "routing": "091000019",
                    "account": "123456789",
                    "kind": "checking",
                    "cents": 2500,
                    "id": "E2",
                    "name": "BOB RAY",
                }
            ],
        },
        201,
        "ref",
    ),
    ("setDay", {"day": "2025-01-09"}, 200, "day"),
    ("cut", None, 200, "files"),
)


def unusable(client):
    """The calls that a desk refuses after all requests of the page."""
    for name, body, wanted, member in AFTERWARDS:
        status, _, value = client.call(name, body, company="MILL01")
        if status != wanted or not value[member] or (body and value[member] != body[member]):
            yield f"{name} of {body} is answered {status} {value}"


def judge_client(page, program, report):
    with tempfile.TemporaryDirectory() as folder:
        make_desk(program, Path(folder) / "bank.db")
        with Serving(program, Path(folder) / "bank.db").listen() as desk:
            keys = {name: it["x-key"] for name, it in page.tree["components"]["securitySchemes"].items()}
            client = PageClient(page.tree, f"http://{HOST}:{desk.port}", keys)
            report.tell("client: every request of the page, in page order", list(wrong_answers(page, client)))
            report.tell(
                f"client: {client.count} calls, of all {len(page.operations)} operations",
                sorted(page.operations.keys() - client.called),
            )
            report.tell("client: the desk is usable afterwards", list(unusable(client)))


def main():
    program = program_of(sys.argv[1:])
    page, report = Page(TOP / "docs/openapi.yaml", TOP / "judge/openapi_scripts.yaml"), Report()
    judge_page(page, report)
    judge_names(page, report)
    judge_client(page, program, report)
    judge_messages(page, [program], report)
    for name, reason in page.reasons():
        print(f"not sent, {name}: {reason}")
    sent = sum(it.is_sent for it in page.examples.values()) + len(page.shared) - len(PROXY_FAULTS)
    print(f"{sent} examples, {report.failed} failed")
    sys.exit(report.failed != 0)


if __name__ == "__main__":
    main()
