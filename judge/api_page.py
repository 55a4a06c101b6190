#!/usr/bin/env python3
"""Generates docs/integrate/api.md from docs/openapi.yaml: `python3 judge/api_page.py [--check]`.

Without an option it writes the page. With `--check` it writes nothing, and exits with status 1 if the page is not what
it would write; `.ci/run` calls it that way. It needs nothing but Python's standard library.
"""

import argparse
import json
import re
import sys
from pathlib import Path

from helpers.small_yaml import load

TOP = Path(__file__).resolve().parents[1]
SOURCE = TOP / "docs" / "openapi.yaml"
PAGE = TOP / "docs" / "integrate" / "api.md"
METHODS = ("get", "post")
# No operation of the description has this answer: it is for methods that the path does not take.
BAD_METHOD = ("`BadMethod`", "405", "The path does not take this method.")
# The words of the blocks that crates/documented_examples runs, by operation.
RUN_AS = {"submit": "json submission", "retry": "json retry", "setDay": "json day", "registerCompany": "json company",
          "setLimits": "json limits"}
HEAD = """# API reference

<!-- Written by judge/api_page.py from docs/openapi.yaml. Change that file, and run the script. -->

This page is generated from [openapi.yaml](../openapi.yaml), the OpenAPI 3.1 description of the same interface. \
Start with the [quick start](quickstart.md); [retries](retries.md) covers lost answers, proxies and polling.
"""
REFUSALS = ("The desk rejects a call that it understands with a refusal: a number that never changes and a name. A refused "
            "call changes nothing. Additional fields of a refusal:")
MESSAGE_FAULTS = ("A message that the desk cannot read or route is answered with `error` alone. Faults are checked before "
                  "refusals, in the order of [the first section](#conventions). `TooManyRequests`, `BadGateway` and "
                  "`GatewayTimeout` come from a proxy alone.")
FILE_FAULTS = "See [faults of a returns file](#faults-of-a-returns-file)."


class Source:
    """The OpenAPI description."""

    def __init__(self, text):
        self.tree = load(text)
        self.components = self.tree["components"]

    def at(self, node):
        """Returns what a reference refers to; its own description takes precedence."""
        found = dict(node)
        while "$ref" in found:
            own = {key: value for key, value in found.items() if key != "$ref"}
            target = self.tree
            for piece in found["$ref"].removeprefix("#/").split("/"):
                target = target[piece]
            found = {**target, **own}
        return found

    def operations(self):
        for path, item in self.tree["paths"].items():
            for method in METHODS:
                if method in item:
                    parameters = [self.at(it) for it in item.get("parameters", []) + item[method].get("parameters", [])]
                    yield Operation(self, method.upper(), path, item[method], parameters)


class Operation:
    def __init__(self, source, method, path, tree, parameters):
        self.source, self.method, self.path, self.tree, self.parameters = source, method, path, tree, parameters
        self.name = tree["operationId"]

    def body(self):
        """Returns the media type and the content of its body, or two Nones."""
        for kind, content in self.tree.get("requestBody", {}).get("content", {}).items():
            return kind, content
        return None, None

    def answers(self):
        """Returns the answers that the operation does not share with all others: status, media type and content."""
        for status, answer in self.tree["responses"].items():
            if "$ref" not in answer:
                for kind, content in answer["content"].items():
                    yield int(status), kind, content

    def examples(self):
        for status, kind, content in self.answers():
            for name, it in content.get("examples", {}).items():
                yield status, kind, name, it

    def sent(self, asks):
        """Returns the text of the body that an example was asked with, or None if it is not shown in full."""
        name, (_, content) = asks.get("body"), self.body()
        if name is None or content is None or "edits" in asks or "entries" in asks or name not in content["examples"]:
            return None
        return text_of(content["examples"][name].get("value"))

    def target(self, asks):
        values = {it["name"]: it["example"] for it in self.parameters}
        values.update(asks.get("path", {}))
        return re.sub(r"\{(\w+)\}", lambda it: str(values[it[1]]), self.path)


# ---- texts

def text_of(value):
    """Returns the text of a body: compact JSON, or the text itself."""
    if value is None:
        return None
    return value if isinstance(value, str) else json.dumps(value, separators=(",", ":"), ensure_ascii=False)


def one_line(text):
    return " ".join((text or "").split())


def paragraphs(text):
    """Returns a description with each paragraph on one line; tables and lists keep their lines."""
    found = []
    for part in (text or "").strip().split("\n\n"):
        is_kept = any(line.startswith(("|", "- ", "1. ")) for line in part.split("\n"))
        found.append(part if is_kept else one_line(part))
    return "\n\n".join(found)


def cell(text):
    return one_line(text).replace("|", "\\|")


def block(words, text):
    return [f"```{words}", *text.rstrip("\n").split("\n"), "```", ""]


def table(head, rows):
    lines = ["| " + " | ".join(head) + " |", "|" + "---|" * len(head)]
    return [*lines, *("| " + " | ".join(row) + " |" for row in rows), ""]


def type_of(source, schema):
    """Says which values a schema allows, in a few words."""
    schema = source.at(schema)
    if "const" in schema:
        return f"`{text_of(schema['const'])}`"
    if "oneOf" in schema and "properties" not in schema:
        return " or ".join(dict.fromkeys(type_of(source, it) for it in schema["oneOf"]))
    if "enum" in schema:
        names = [f"`{it}`" for it in schema["enum"]]
        return " or ".join(filter(None, [", ".join(names[:-1]), names[-1]]))
    kind = schema.get("type", "object")
    if kind == "array":
        return "list of " + ("objects" if is_object(source, schema["items"]) else plural(type_of(source, schema["items"])))
    if schema.get("format") == "date":
        return "date"
    return kind + bounds_of(schema)


def plural(text):
    return text if text.startswith("`") else re.sub(r"^(\w+)", r"\1s", text)


def bounds_of(schema):
    low, high = schema.get("minimum", schema.get("minLength")), schema.get("maximum", schema.get("maxLength"))
    pattern = f", `{schema['pattern']}`" if "pattern" in schema else ""
    if pattern:
        return pattern
    unit = " characters" if "maxLength" in schema else ""
    if low is not None and high is not None:
        return f", {low} to {high}{unit}" if low != high else f", {low}{unit}"
    if low is not None:
        return f", from {low}"
    return f", up to {high}{unit}" if high is not None else ""


def is_object(source, schema):
    schema = source.at(schema)
    return "properties" in schema or any(is_object(source, it) for it in schema.get("oneOf", []))


def fields_of(source, schema, before=""):
    """Returns a row for each field of an object and of the objects in it: its name, type and description."""
    schema = source.at(schema)
    variants = [source.at(it) for it in schema.get("oneOf", [])] or [schema]
    rows = {}
    for variant in variants:
        for name, inner in variant.get("properties", {}).items():
            has_it = [it for it in variants if name in it.get("properties", {})]
            is_optional = any(name not in it.get("required", []) for it in has_it)
            merged = merged_enum(source, [it["properties"][name] for it in has_it])
            note = when_present(source, variants, has_it)
            row = (f"`{before}{name}`", cell(type_of(source, merged)) + (", optional" if is_optional else ""),
                   cell(one_line(source.at(inner).get("description")) + note))
            below = source.at(inner)
            nested = below["items"] if below.get("type") == "array" else below
            path = f"{before}{name}" + ("[]." if below.get("type") == "array" else ".")
            deeper = fields_of(source, nested, path) if is_object(source, nested) else []
            rows.setdefault(name, [row, *deeper])
    return [row for group in rows.values() for row in group]


def merged_enum(source, schemas):
    found = [source.at(it) for it in schemas]
    if all("enum" in it for it in found):
        return {**found[0], "enum": list(dict.fromkeys(value for it in found for value in it["enum"]))}
    return schemas[0]


def when_present(source, variants, has_it):
    """Says for which states an entry has a field that not all have."""
    if len(has_it) == len(variants):
        return ""
    states = [value for it in has_it for value in source.at(it["properties"]["state"]).get("enum", [])]
    return " Only if `state` is " + " or ".join(f"`{it}`" for it in states) + "."


# ---- sections

def operation_section(source, it):
    key = "a company's key" if "companyKey" in it.tree["security"][0] else "the operator's key"
    lines = [f"### {it.tree['summary']}", "", f"`{it.method} {it.path}` with {key}.", "", paragraphs(it.tree["description"]), ""]
    kind, content = it.body()
    if kind == "application/json":
        lines += ["Fields of the body, in the order in which they are checked:", ""]
        lines += table(("Field", "Type", "Description"), fields_of(source, content["schema"]))
    lines += answer_fields(source, it)
    lines += successes(it)
    return lines + refusals(it)


def answer_fields(source, it):
    for status, kind, content in it.answers():
        if status < 300 and kind == "application/json":
            head = [f"Fields of the answer, {status}:", ""]
            return head + table(("Field", "Type", "Description"), fields_of(source, content["schema"]))
    return []


def successes(it):
    lines, seen = [], set()
    for status, kind, _, example in it.examples():
        asks, shown = example["x-request"], text_of(example["value"])
        body = it.sent(asks)
        if status >= 300 or (body, shown) in seen:
            continue
        seen.add((body, shown))
        lines += [f"{example['summary']}: `{it.method} {it.target(asks)}`", ""]
        is_run = it.name == "submit" and '"order":1,' in shown
        if body is not None:
            lines += block("json submission" if is_run else "json" if body.startswith("{") else "text", body)
        lines += [f"Answer, {status}:", ""]
        lines += block("json answer" if is_run else "json" if kind == "application/json" else "text", shown)
    return lines


def refusals(it):
    shown = {}
    for status, _, _, example in it.examples():
        if status >= 400 and isinstance(example["value"], dict):
            shown.setdefault((example["value"]["error"], status), []).append(example)
    ordered = [key for name in it.tree.get("x-refusals", []) for key in shown if key[0] == name]
    ordered += [key for key in shown if key not in ordered]
    if not ordered:
        return []
    rows, run = [], []
    for name, status in ordered:
        for example in shown[name, status]:
            rows.append((str(status), f"`{name}`", cell(example["summary"]), f"`{text_of(example['value'])}`"))
            body = it.sent(example["x-request"])
            if name == "BadField" and body is not None and it.name in RUN_AS:
                answer = block("json answer", text_of(example["value"]))
                run += [f"{example['summary']}:", "", *block(RUN_AS[it.name], body), *answer]
    lines = ["Refusals, in the order in which they are checked:", ""] if it.tree.get("x-refusals") else ["Other answers:", ""]
    lines += table(("Status", "Name", "Example", "Body"), rows)
    return lines + (["Invalid bodies and their answers:", "", *run] if run else [])


def refusal_table(source):
    causes = dict(re.findall(r"^\| \d+ \| `(\w+)` \| (.*) \|$", source.components["schemas"]["Refusal"]["description"], re.M))
    found = {}
    for it in source.operations():
        for status, _, _, example in it.examples():
            value = example["value"]
            if isinstance(value, dict) and "number" in value:
                found[value["number"]] = (value["error"], status)
    rows = []
    for number, (name, status) in sorted(found.items()):
        cause = causes.get(name) or one_line(source.components["schemas"][name]["description"])
        rows.append((str(number), f"`{name}`", str(status), cause))
    return table(("Number", "Name", "HTTP status", "Cause"), rows)


def fault_table(source):
    """Returns a row for each fault of a message, by status."""
    rows = {"BadMethod": BAD_METHOD}
    for it in source.operations():
        for status, answer in it.tree["responses"].items():
            name, description = answer.get("$ref", "").rpartition("/")[2], source.at(answer)["description"]
            if status == "404" and not name:
                name = next(iter(answer["content"]["application/json"]["examples"].values()))["value"]["error"]
            for fault, cause in causes_of(name, description) if name else ():
                rows.setdefault(fault, (f"`{fault}`", status, cell(cause)))
    return table(("Name", "HTTP status", "Cause"), sorted(rows.values(), key=lambda row: row[1]))


def causes_of(name, description):
    """Returns the faults that an answer has, each with its cause: one by its own name, or those that it names."""
    parts = re.findall(r"^`(\w+)`: (.+?)(?=\n\n|\Z)", description.strip(), re.M | re.S)
    return [(fault, cause[0].upper() + cause[1:]) for fault, cause in parts] or [(name, description)]


def fault_sections(source):
    lines = ["## Refusals", "", REFUSALS, ""]
    rows = []
    for name in ("BadField", "NotRetryable", "BadFile", "BadCalendar"):
        for field, kind, what in fields_of(source, source.components["schemas"][name]):
            if field not in ("`error`", "`number`"):
                rows.append((f"`{name}`", field, kind, FILE_FAULTS if "|" in what else what))
    lines += table(("Refusal", "Field", "Type", "Description"), rows)
    lines += refusal_table(source)
    lines += ["## Faults of a message", "", MESSAGE_FAULTS, ""]
    lines += fault_table(source)
    fault = source.components["schemas"]["BadFile"]["properties"]["fault"]["description"]
    example = "[Returns files](../operate/returns-files.md) has an example of each."
    lines += ["## Faults of a returns file", "", example, "", fault.strip(), ""]
    return lines


def page(source):
    lines = [*HEAD.split("\n"), "## Conventions", "", paragraphs(source.tree["info"]["description"]), ""]
    for tag in sorted(source.tree["tags"], key=lambda it: it["name"]):
        lines += [f"## Calls: {tag['name']}", "", paragraphs(tag["description"]), ""]
        for it in source.operations():
            if tag["name"] in it.tree["tags"]:
                lines += operation_section(source, it)
    lines += fault_sections(source)
    return re.sub(r"\n{3,}", "\n\n", "\n".join(lines)).rstrip("\n") + "\n"


def main():
    parser = argparse.ArgumentParser(description=__doc__, formatter_class=argparse.RawDescriptionHelpFormatter)
    parser.add_argument("--check", action="store_true", help="compare the page with what would be written")
    given = parser.parse_args()
    text = page(Source(SOURCE.read_text()))
    if not given.check:
        PAGE.write_text(text)
    elif not PAGE.exists() or PAGE.read_text() != text:
        names = PAGE.relative_to(TOP), SOURCE.relative_to(TOP)
        print(f"{names[0]} is not generated from {names[1]}: run python3 judge/api_page.py", file=sys.stderr)
        return 1
    return 0


if __name__ == "__main__":
    sys.exit(main())
