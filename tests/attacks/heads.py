"""Attacks by requests for a WebSocket: heads that are too long, paths that try to become another's, and what is no request."""
import contextlib
import os
import time

from attack import KEYS, RUN, SERVE, Attack
from field import PROTOCOL, in_threads
from odd_paths import OPERATOR, PATHS, who_is_let_in, statuses_with_keys
from raw_client import frame_bytes, request_bytes
from serving import expect

FEW_LINES = [f"X-{number}: a" for number in range(100)]

# Headers of requests that are dropped without a byte: too long, too many, or none.
HEADS = {
    "one of 66,000 bytes": [PROTOCOL, "X: " + "a" * 66_000],
    "one of a million bytes": [PROTOCOL, "X: " + "a" * 1_000_000],
    "of 8,000 bytes each": [PROTOCOL, *(f"X-{number}: " + "a" * 8_000 for number in range(100))],
    "125": [PROTOCOL, *(f"X-{number}: a" for number in range(125))],
    "100,000": [PROTOCOL, *("X: a" for _ in range(100_000))],
    "a NUL in a name": [PROTOCOL, "X\0Y: a"],
    "a blank in a name": [PROTOCOL, "X Y: a"],
    "no name": [PROTOCOL, ": a"],
    "no colon": [PROTOCOL, "X"],
}


def heads(field):
    """Each is dropped, and nothing of it is sent back."""
    end = time.monotonic() + field.seconds

    def drop(_):
        while True:
            for what, lines in HEADS.items():
                with field.plain() as client:
                    with contextlib.suppress(OSError):
                        client.send_bytes(request_bytes("/P2", [*field.login("P2"), *lines]))
                    expect(what, client.read_response(), None)
                    expect(f"{what}: what comes", client.input, b"")
            if time.monotonic() > end:
                return

    in_threads(4, drop)
    expect("a hundred headers", field.status_of("/P2", *field.login("P2"), *FEW_LINES), 101)


# What is no request for a WebSocket.
JUNK = (
    b"", b"\0" * 1_000, b"\x16\x03\x01\x02\x00\x01\x00\x01\xfc\x03\x03" + bytes(500), b"GET / HTTP/1.1\r\n\r\n",
    b"GET /P2 HTTP/1.0\r\n\r\n", b"GET http://127.0.0.1/P2 HTTP/1.1\r\nHost: a\r\n\r\n",
    b"POST /P2 HTTP/1.1\r\nContent-Length: 9999999999\r\n\r\n", b"PRI * HTTP/2.0\r\n\r\nSM\r\n\r\n",
    b"\r\n" * 500, b"SSH-2.0-x\r\n\r\n", b"GET " + b"/" * 70_000, b"GET /%00 HTTP/1.1\r\nHost: a\r\n\r\n",
    b"\xff\xfe" * 500 + b"\r\n\r\n", frame_bytes(1, b"[]"),
)


def junk(field):
    """Whatever is sent in place of a request, nobody is let in."""
    end = time.monotonic() + field.seconds

    def send(number):
        while time.monotonic() < end:
            content = JUNK[number % len(JUNK)] if number < len(JUNK) else os.urandom(2_000) + b"\r\n\r\n"
            with field.plain() as client:
                with contextlib.suppress(OSError):
                    client.send_bytes(content)
                    client.socket.shutdown(1)
                    client.send_bytes(b"")
                response = client.read_response()
                expect(f"the response to {content[:40]!r}", response and response.status, None)

    in_threads(len(JUNK) + 2, send)


def paths(field):
    """Each path is taken by its letters. With keys, no key opens what isn't its own."""
    for path, named in PATHS.items():
        if field.keys is None:
            expect(path, who_is_let_in(field.plain(), path, []), named)
            field.answers += named == OPERATOR
            continue
        for other, login, wanted in statuses_with_keys(path, named):
            headers = field.login(login) if login else []
            expect(f"{other} with the key of {login}", who_is_let_in(field.plain(), other, headers), wanted)


ATTACKS = (
    Attack("long heads", "a seat for a moment", "dropped; nothing is echoed", heads, (RUN, KEYS)),
    Attack("no requests", "a seat for a moment", "dropped", junk, (RUN, KEYS)),
    Attack("paths that name another", "nothing", "nobody becomes another", paths, (RUN, KEYS, SERVE), is_repeated=True),
)
