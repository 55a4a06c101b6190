"""A client that knows nothing of the desk but its page in OpenAPI: each operation is called by its name."""

import json
import re
import urllib.error
import urllib.request


class PageClient:
    def __init__(self, page, address, keys):
        self.page, self.address, self.keys, self.called, self.count = page, address, keys, set(), 0
        calls = [(path, method, it) for path, item in page["paths"].items() for method, it in item.items()]
        self.operations = {it[2]["operationId"]: it for it in calls if it[1] in ("get", "post")}

    def at(self, node):
        """Returns the node that a reference refers to."""
        for piece in node["$ref"].split("/")[1:] if "$ref" in node else ():
            node = (self.page if piece == "components" else node)[piece]
        return node

    def call(self, name, body=None, **parameters):
        """Returns the status, the content type and the value of an answer, which must be one of the page's."""
        path, method, operation = self.operations[name]
        (scheme,) = operation["security"][0]
        headers = {self.page["components"]["securitySchemes"][scheme]["name"]: self.keys[scheme]}
        data = b"" if method == "post" else None
        if "requestBody" in operation:
            headers["Content-Type"] = next(iter(operation["requestBody"]["content"]))
            data = body.encode() if isinstance(body, str) else json.dumps(body).encode()
        target = self.address + re.sub(r"\{(\w+)\}", lambda found: parameters[found[1]], path)
        request = urllib.request.Request(target, data, headers, method=method.upper())
        try:
            answer = urllib.request.urlopen(request, timeout=60)
        except urllib.error.HTTPError as refused:
            answer = refused
        with answer:
            status, kind, text = answer.status, answer.headers["Content-Type"], answer.read().decode()
        if kind not in self.at(operation["responses"][str(status)])["content"]:
            raise ValueError(f"{name}: the page has no {status} with {kind}")
        self.called.add(name)
        self.count += 1
        return status, kind, json.loads(text) if kind == "application/json" else text


def examples_of(operation, folder):
    """The bodies that the page has for an operation; None for one without a body."""
    if "requestBody" not in operation:
        yield None
        return
    for content in operation["requestBody"]["content"].values():
        for it in content["examples"].values():
            yield (folder / it["externalValue"]).read_text() if "externalValue" in it else it["value"]
