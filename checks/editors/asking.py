"""What the checks of the language server ask and compare alike."""

import json

from checks.editors import files as f
from checks.editors.client import Failed
from checks.server.server import same

PARSE, INVALID, UNKNOWN, PARAMS, UNREADY, FAILED = -32700, -32600, -32601, -32602, -32002, -32803


def code(client, method, params=None, number=None):
    """The code of the error with which a request is answered."""
    try:
        told = client.ask(method, params, number)
    except Failed as failed:
        return failed.code
    raise AssertionError(f"{method} is answered by {told!r}")


def text_of_error(client, method, params):
    try:
        told = client.ask(method, params)
    except Failed as failed:
        same(failed.code, FAILED)
        return failed.text
    raise AssertionError(f"{method} is answered by {told!r}")


def renamed(client, path, offset, name):
    return client.ask("textDocument/rename", client.at(path, offset) | {"newName": name})


def texts(client, paths=None):
    """The files as the client takes them."""
    return {path: client.text(path) for path in (paths or client.disk)}


def everywhere(declared=True):
    return {"context": {"includeDeclaration": declared}}


def places_of(client, path, offset, declared=True):
    """The places of references, as pairs of path and range."""
    told = client.ask("textDocument/references", client.at(path, offset) | everywhere(declared))
    return sorted((client.path(at["uri"]), json.dumps(at["range"], sort_keys=True)) for at in told)


def wanted_places(client, path, offset, length, leave=()):
    """The same places by the model, on the texts of the client."""
    found = f.uses(texts(client), path, offset)
    rows = [(p, json.dumps(client.span(p, at, length), sort_keys=True)) for p, at in found if (p, at) not in leave]
    return sorted(rows)
