"""docs/openapi.yaml: its operations, its examples, and the messages that the scripts of openapi_scripts.yaml send."""

import datetime
import json
import re
from dataclasses import dataclass
from pathlib import Path

import yaml

from helpers.desk_messages import Exchange, compact, keyed, response

METHODS = ("get", "put", "post", "delete", "options", "head", "patch", "trace")
MODIFIERS = "ABCDEFGHIJKLMNOPQRSTUVWXYZ0123456789"


@dataclass
class Operation:
    name: str
    method: str
    path: str
    path_methods: list  # all methods that the path takes
    parameters: dict  # each name with its example
    key: str
    tree: dict

    def target(self, pieces):
        return re.sub(r"\{(\w+)\}", lambda found: {**self.parameters, **pieces}[found[1]], self.path)

    def body(self):
        """The one kind of its body with what stands under it; None where it has none."""
        return next(iter(self.tree.get("requestBody", {}).get("content", {}).items()), None)


@dataclass
class Example:
    """An example of an answer."""

    name: str
    operation: Operation
    status: int
    content: str
    value: object
    asks: dict
    why_not: str | None  # why no script can bring it about

    @property
    def is_sent(self):
        return self.why_not is None


class Page:
    def __init__(self, path, scripts):
        self.path = Path(path)
        self.tree = yaml.safe_load(self.path.read_text())
        beside = yaml.safe_load(Path(scripts).read_text())
        self.scripts, self.not_sent = beside["scripts"], beside["not_sent"]
        self.operations = {it.name: it for it in self.read_operations()}
        self.examples = {}
        for example in self.read_examples():
            if example.name in self.examples:
                raise ValueError(f"two examples are called {example.name}")
            self.examples[example.name] = example
        self.shared = {name: it["value"] for name, it in self.tree["components"]["examples"].items()}

    def at(self, node):
        """The node that a reference of the page refers to; any other node is given back."""
        while isinstance(node, dict) and "$ref" in node:
            found = self.tree
            for piece in node["$ref"].removeprefix("#/").split("/"):
                found = found[piece]
            node = found
        return node

    def read_operations(self):
        schemes = self.tree["components"]["securitySchemes"]
        for path, item in self.tree["paths"].items():
            parameters = {it["name"]: it["example"] for it in map(self.at, item.get("parameters", []))}
            methods = [key.upper() for key in item if key in METHODS]
            for method, tree in ((key, it) for key, it in item.items() if key in METHODS):
                (scheme,) = tree["security"][0]
                yield Operation(tree["operationId"], method.upper(), path, methods, parameters, schemes[scheme]["x-key"], tree)

    def read_examples(self):
        """The examples that stand in an operation's answers themselves."""
        for operation in self.operations.values():
            for status, answer in operation.tree["responses"].items():
                for content, kind in ({} if "$ref" in answer else answer["content"]).items():
                    for name, it in kind.get("examples", {}).items():
                        asks, why_not = it["x-request"], it.get("x-not-sent")
                        yield Example(name, operation, int(status), content, it["value"], asks, why_not)

    def examples_of(self, operation):
        return [it for it in self.examples.values() if it.operation is operation]

    def reasons(self):
        """What is not sent, with the reason."""
        yield from ((it.name, it.why_not) for it in self.examples.values() if not it.is_sent)
        yield from ((it["fault"], it["reason"]) for it in self.not_sent)

    def shared_answers(self, operation):
        """The names of the shared examples of an operation, each with its status."""
        for status, answer in operation.tree["responses"].items():
            if "$ref" in answer:
                for example in self.at(answer)["content"]["application/json"]["examples"].values():
                    yield example["$ref"].rpartition("/")[2], int(status)

    def kinds(self):
        """Every kind of a body with examples, with its place in the page: its schema and its examples."""
        for operation in self.operations.values():
            if operation.body() is not None:
                yield f"{operation.name}, body", operation.body()[1]
            for status, answer in operation.tree["responses"].items():
                for kind in self.at(answer)["content"].values():
                    if "examples" in kind:
                        yield f"{operation.name}, {status}", kind
        for name, answer in self.tree["components"]["responses"].items():
            yield name, answer["content"]["application/json"]

    # ---- messages

    def sent_body(self, operation, asks):
        """The bytes of a body: a text, a value or the name of an example, with what is changed in it."""
        body = asks.get("body", "")
        kind = operation.body()
        if isinstance(body, str) and kind is not None and body in kind[1]["examples"]:
            example = kind[1]["examples"][body]
            body = self.outside(example["externalValue"]) if "externalValue" in example else example["value"]
        if "entries" in asks:
            body = {**body, "entries": body["entries"] * asks["entries"]}
        text = body if isinstance(body, str) else json.dumps(body, separators=(",", ":"), ensure_ascii=False)
        data = text.encode()
        for edit in asks.get("edits", []):
            data = edited(data, edit)
        return data

    def outside(self, name):
        return (self.path.parent / name).read_text()

    def message(self, operation, asks):
        target, body = operation.target(asks.get("path", {})), self.sent_body(operation, asks)
        return keyed(operation.method, target, operation.key, body)

    def exchange(self, step):
        """The message and the answer of a step: an example's name, or what stands in its place."""
        if isinstance(step, str):
            it = self.examples[step]
            wanted = response(it.status, compact(it.value), it.content)
            return Exchange(step, self.message(it.operation, it.asks), wanted)
        operation = self.operations[step["operation"]]
        wanted = response(step.get("status", 200), compact(step["answer"]))
        return Exchange(f"{operation.name} between examples", self.message(operation, step), wanted)

    def exchanges(self, steps):
        for step in steps:
            if "times" in step:
                for turn in range(step["times"]):
                    yield from self.exchanges(filled(step["steps"], turn))
            else:
                yield self.exchange(step)


def filled(steps, turn):
    """The steps of a turn, with its number from 1 and the modifier of its file in the texts."""
    text = json.dumps(steps).replace("{n}", str(turn + 1)).replace("{modifier}", MODIFIERS[turn % len(MODIFIERS)])
    return json.loads(text)


def edited(data, edit):
    """The file or list with a change, which is written as in docs/operate/returns-files.md."""
    if found := re.fullmatch(r"record (\d+) from (\d+) is (.+)", edit):
        return with_text(data, int(found[1]), int(found[2]), found[3].encode())
    if found := re.fullmatch(r"record (\d+) is left out", edit):
        records = data.splitlines(keepends=True)
        return b"".join(records[: int(found[1]) - 1] + records[int(found[1]) :])
    if found := re.fullmatch(r"only the first (\d+) bytes", edit):
        return data[: int(found[1])]
    if found := re.fullmatch(r"(\d+) days more", edit):
        return data + days_after(data, int(found[1]))
    raise ValueError(f"{edit!r} is no change")


def with_text(data, record, first, text):
    records = data.splitlines(keepends=True)
    old = records[record - 1]
    records[record - 1] = old[: first - 1] + text + old[first - 1 + len(text) :]
    return b"".join(records)


def days_after(data, count):
    """So many rows with the days after the last day of a list."""
    last = datetime.date.fromisoformat(data.split()[-1].decode())
    return b"".join(f"{last + datetime.timedelta(days=n + 1)}\n".encode() for n in range(count))
