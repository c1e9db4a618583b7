"""Compares whole bodies with their ETags, in a proxy that asks for it. In no erasure code of Swift
is the payload of a fragment compared before the auditor reads its file."""

import hashlib
import re

MD5 = re.compile(r'"?([0-9a-f]{32})"?')
# Headers of objects in segments, whose ETag is not that of the body.
LARGE = {"x-static-large-object", "x-object-manifest"}


class WrongBody(Exception):
    """The body that came is not the one that was stored."""


def is_of_object(environ):
    """Whether a request is a GET of an object: /v1/account/container/object."""
    names = environ.get("PATH_INFO", "").split("/", 4)[1:]
    return environ["REQUEST_METHOD"] == "GET" and len(names) == 4 and all(names)


def expected_md5(status, headers):
    """What the MD5 of the body has to be; None if the answer does not say it."""
    named = {name.lower(): value for name, value in headers}
    if not status.startswith("200") or LARGE.intersection(named):
        return None
    found = MD5.fullmatch(named.get("etag", ""))
    return found and found[1]


class Compared:
    """A body that is compared while it is sent. Its last piece waits until that is done: so a
    client never gets the whole of a wrong one."""

    def __init__(self, body, expected, refuse):
        self.body, self.pieces = body, pieces_of(body, expected, refuse)

    def __iter__(self):
        return self.pieces

    def close(self):
        self.pieces.close()
        getattr(self.body, "close", lambda: None)()


def pieces_of(body, expected, refuse):
    """The body's pieces. The answer's headers, of which `expected` makes the MD5, are there once
    the first piece is."""
    digest, waiting = hashlib.md5(usedforsecurity=False), []
    for piece in body:
        yield from waiting
        digest.update(piece)
        waiting = [piece]
    wanted = expected()
    if wanted not in (None, digest.hexdigest()):
        refuse(wanted)
    yield from waiting


class CompareEtag:
    """The filter."""

    def __init__(self, app, logger):
        self.app, self.logger = app, logger

    def __call__(self, environ, start_response):
        answers = []

        def start(status, headers, *error):
            answers.append((status, headers))
            return start_response(status, headers, *error)

        def refuse(wanted):
            message = f"{environ['PATH_INFO']}: the body has not the MD5 {wanted} of its ETag"
            self.logger.error("%s: let the auditor pass its fragments", message)
            raise WrongBody(message)

        body = self.app(environ, start)
        if not is_of_object(environ):
            return body
        return Compared(body, lambda: expected_md5(*answers[-1]), refuse)
