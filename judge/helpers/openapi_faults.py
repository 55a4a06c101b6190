"""Messages that are answered by a fault, whatever operation they are for: a list of them for each fault."""

from helpers.desk_messages import keyed, request

# The connection ends after these.
CLOSING = {"badHead", "lengthRequired", "tooLarge"}

# No operation has these, with their status.
ELSEWHERE = {"notFound": 404, "badMethod": 405}

OTHER_METHODS = ("GET", "PUT", "POST", "DELETE", "OPTIONS", "HEAD", "PATCH", "get", "post")
NESTED = b'{"x":' + b"[" * 130 + b"]" * 130 + b"}"


def headed(operation, fields):
    return request(operation.method, operation.target({}), [f"X-Desk-Key: {operation.key}", *fields])


def bad_heads(operation):
    start = f"{operation.method} {operation.target({})}"
    yield headed(operation, ["Content-Length: 0", "Content-Length: 0"])
    yield headed(operation, ["Content-Length: +0"])
    yield headed(operation, ["Content-Length:"])
    yield headed(operation, ["Content-Length: 0", *(f"X-Field-{n}: 1" for n in range(31))])
    yield headed(operation, ["Content-Length: 0", "X-Long: " + "x" * 16384])
    yield f"{start} HTTP/2.0\r\n\r\n".encode()
    yield f"{start} HTTP/1.1\r\nX Desk Key: {operation.key}\r\n\r\n".encode()


def lengths_required(operation):
    """A POST without a length, and any message with a coding."""
    if operation.method == "POST":
        yield headed(operation, [])
    yield headed(operation, ["Transfer-Encoding: chunked"])
    yield headed(operation, ["Content-Length: 0", "transfer-encoding: identity"])


def too_large(operation):
    yield headed(operation, ["Content-Length: 4194305"])
    yield headed(operation, ["Content-Length: 99999999999999999999999999"])


def not_found(operation):
    """Under a wrong key, since the path is looked at first."""
    path = operation.target({})
    for other in (f"{path}/", f"{path}/x/y", f"/{path}", path.upper(), path.replace("/", "/x", 1), "/", "*"):
        yield keyed(operation.method, other, "wrong-key")


def bad_methods(operation):
    """Under a wrong key, since the method is checked first."""
    for method in OTHER_METHODS:
        if method not in operation.path_methods:
            yield keyed(method, operation.target({}), "wrong-key")


def denied(operation):
    """With a body that is no JSON, since the key is looked at first."""
    method, path, body = operation.method, operation.target({}), b"[]"
    yield request(method, path, ["Content-Length: 2"], body)
    yield keyed(method, path, "wrong-key", body)
    yield keyed(method, path, operation.key[:-1], body)
    yield request(method, path, ["X-Desk-Key: wrong-key", f"X-Desk-Key: {operation.key}", "Content-Length: 2"], body)
    if path.startswith("/ops/"):
        yield keyed(method, path, "mill-street-key", body)
    else:
        yield keyed(method, path, "operator-key", body)
        for company in ("BAKE01", "mill01", "MILL%3001", "A" * 11):
            yield keyed(method, operation.target({"company": company}), operation.key, body)


def bad_json(operation):
    for body in (b"", b"[]", b"{", b'"day"', b"{}{}", b'{"day":"\xff"}', b"{'day':1}", NESTED):
        yield keyed(operation.method, operation.target({}), operation.key, body)


MESSAGES = {
    "badHead": bad_heads,
    "lengthRequired": lengths_required,
    "tooLarge": too_large,
    "notFound": not_found,
    "badMethod": bad_methods,
    "denied": denied,
    "badJson": bad_json,
}
