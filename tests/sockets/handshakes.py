"""Handshakes: which paths and subprotocols are served, as whom, and how all others end. Each is one of the sessions."""
import time

import websockets

from python_client import PythonClient
from raw_client import CLOSE, PING, POLICY, PONG, Frame, RawClient, request_bytes
from serving import Serving, expect, expect_nobody_listens
from texts import CALL_0, OCPP, ask, call, error, heartbeat, site, start

# Each point has so many connectors, and limits of its own, so that its answers tell which it is.
POINTS = {"CP1": (63.0, [11.0]), "cp1": (63.0, [12.0] * 2), "operator": (63.0, [13.0] * 3), "x.B_9-~": (63.0, [14.0] * 4)}
SITE = site(POINTS)
OFFER = (f"Sec-WebSocket-Protocol: {OCPP}",)

CLOSED = "closed with 1008, in ocpp1.6"
CLOSED_WITHOUT = "closed with 1008, in no subprotocol"
FAILED = "ended without a handshake"


def point(name):
    return f"the point {name}"


def operator(name):
    return f"an operator of {name}"


PATHS = (
    ("/operator/CP1", operator("CP1")),
    ("/operator/operator", operator("operator")),
    ("/CP1", point("CP1")),
    ("/cp1", point("cp1")),
    ("/x.B_9-~", point("x.B_9-~")),
    ("/ocpp/CP1", point("CP1")),
    ("/a/b/c/CP1", point("CP1")),
    ("//CP1", point("CP1")),
    ("/a/operator/CP1", point("CP1")),
    ("/operator/x/CP1", point("CP1")),
    ("/operator/operator/CP1", point("CP1")),
    ("/Operator/CP1", point("CP1")),
    ("/operators/CP1", point("CP1")),
    ("//operator/CP1", point("CP1")),
    ("/operator//CP1", point("CP1")),
    ("/operator", point("operator")),
    ("/CP1/operator", point("operator")),
    ("/CP1?", point("CP1")),
    ("/CP1?token=/cp1", point("CP1")),
    ("/operator/cp1?a=b&c=/CP1", operator("cp1")),
    ("http://127.0.0.1/CP1", point("CP1")),
    ("http://127.0.0.1:80/operator/cp1?x", operator("cp1")),
    ("/CP1;v=1", CLOSED),
    ("/CP1/?x=/CP1", CLOSED),
    ("/CP1/", CLOSED),
    ("/operator/CP1/", CLOSED),
    ("/operator/", CLOSED),
    ("/", CLOSED),
    ("/CP9", CLOSED),
    ("/operator/CP9", CLOSED),
    ("/CP1%20", CLOSED),
    ("/%43P1", CLOSED),
    ("/Cp1", CLOSED),
    ("/CP1.", CLOSED),
    ("/" + "a" * 5_000, CLOSED),
)

# The values of the headers that offer subprotocols, one for each header.
SUBPROTOCOLS = (
    (["ocpp1.6"], point("CP1")),
    (["ocpp1.6, ocpp2.0.1"], point("CP1")),
    (["ocpp2.0.1, ocpp1.6"], point("CP1")),
    (["ocpp2.0.1,ocpp1.6,ocpp1.5"], point("CP1")),
    (["  ocpp2.0.1 ,\t ocpp1.6  "], point("CP1")),
    (["ocpp2.0.1", "ocpp1.6"], point("CP1")),
    (["ocpp1.6", "ocpp2.0.1"], point("CP1")),
    (["", "ocpp1.6"], point("CP1")),
    (["ocpp1.6", "ocpp1.6"], point("CP1")),
    (["größer", "ocpp1.6"], point("CP1")),
    ([], CLOSED_WITHOUT),
    ([""], CLOSED_WITHOUT),
    (["ocpp2.0.1"], CLOSED_WITHOUT),
    (["OCPP1.6"], CLOSED_WITHOUT),
    (["ocpp1.60"], CLOSED_WITHOUT),
    (["ocpp1.6j"], CLOSED_WITHOUT),
    (["xocpp1.6"], CLOSED_WITHOUT),
    (["ocpp1 .6"], CLOSED_WITHOUT),
    (["ocpp1.5; ocpp1.6"], CLOSED_WITHOUT),
    (["ocpp1.5", "ocpp2.0.1"], CLOSED_WITHOUT),
)

WHOLE = request_bytes("/CP1", OFFER)

# Requests that are a handshake, though they look otherwise than most.
ODD_HANDSHAKES = (
    ("a connection that is kept alive, too", WHOLE.replace(b"Connection: Upgrade", b"Connection: keep-alive, Upgrade")),
    ("a name in other letters", WHOLE.replace(b"Upgrade: websocket", b"uPGRADE: WebSocket")),
    ("a value in other letters", WHOLE.replace(b"Connection: Upgrade", b"CONNECTION: upgrade")),
    ("no blanks behind names", WHOLE.replace(b": ", b":")),
    ("headers that nobody asked for", WHOLE.replace(b"\r\n\r\n", b"\r\nOrigin: null\r\nX-Many: " + b"x" * 8_000 + b"\r\n\r\n")),
    ("124 headers", request_bytes("/CP1", [*OFFER, *["X: y"] * 118])),
    ("an extension", WHOLE.replace(b"\r\n\r\n", b"\r\nSec-WebSocket-Extensions: permessage-deflate\r\n\r\n")),
)

# Requests that are no handshake (RFC 6455, section 4.2.1), and bytes that are no request.
NO_HANDSHAKES = (
    ("plain HTTP", b"GET /CP1 HTTP/1.1\r\nHost: 127.0.0.1\r\n\r\n"),
    ("a form sent by HTTP", b"POST /CP1 HTTP/1.1\r\nHost: 127.0.0.1\r\nContent-Length: 2\r\n\r\n{}"),
    ("no HTTP", b"[2,\"1\",\"Heartbeat\",{}]\r\n\r\n"),
    ("bytes that are no text", bytes(range(256)) * 4),
    ("the greeting of TLS", bytes.fromhex("16030100c8010000c40303") + bytes(200)),
    ("a head without an end", b"GET /CP1 HTTP/1.1\r\nHost: 127.0.0.1\r\nX: " + b"x" * 70_000),
    ("125 headers", request_bytes("/CP1", [*OFFER, *["X: y"] * 119])),
    ("no key", request_bytes("/CP1", OFFER, key=None)),
    ("a short key", request_bytes("/CP1", OFFER, key="c2hvcnQ=")),
    ("no version", request_bytes("/CP1", OFFER, version=None)),
    ("version 8", request_bytes("/CP1", OFFER, version="8")),
    ("POST with an upgrade", request_bytes("/CP1", OFFER, method="POST")),
    ("HTTP/1.0 with an upgrade", request_bytes("/CP1", OFFER, http="HTTP/1.0")),
    ("no upgrade", WHOLE.replace(b"Upgrade: websocket\r\n", b"")),
    ("an upgrade to something else", WHOLE.replace(b"Upgrade: websocket", b"Upgrade: h2c")),
    ("a connection that isn't to be upgraded", WHOLE.replace(b"Connection: Upgrade", b"Connection: close")),
)


def served_as(client):
    """Who the server takes a client for: a point starts a transaction at its last connector, an operator asks for a limit."""
    answers = client.texts_of(heartbeat("who"))
    if answers == ['[4,"who","NotImplemented","",{}]']:
        limit = client.texts_of(ask("ask"))[0].rpartition('"limit":')[2].rstrip("}]")
        return operator({str(limits[0]): name for name, (_, limits) in POINTS.items()}.get(limit))
    ends = [client.texts_of(start(str(number), number))[0][1] for number in range(1, 6)]
    return point({len(limits): name for name, (_, limits) in POINTS.items()}.get(ends.count("3")))


def outcome_of(client, response):
    """What becomes of a client after its request. The ping is answered where it is served, and finds it closed else."""
    if response is None:
        return FAILED
    expect("the status of the response", response.status, 101)
    spoken = response.headers.get("sec-websocket-protocol", [])
    client.send_frame(PING, b"first")
    frame = client.read_frame()
    if spoken == [OCPP] and frame == Frame(PONG, b"first"):
        return served_as(client)
    expect("the first frame", frame, Frame(CLOSE, POLICY))
    expect("what follows the close", client.read_frame(), None)
    return {(): CLOSED_WITHOUT, (OCPP,): CLOSED}.get(tuple(spoken), f"closed, in {spoken}")


def handshake(path, offers, wanted):
    """A test: a request for a path with headers of these offers is met so, and was one of the sessions."""
    headers = [f"Sec-WebSocket-Protocol: {offer}" for offer in offers]

    def test(program):
        with Serving(program, SITE, 1) as serving:
            with RawClient(serving) as client:
                expect("the outcome", outcome_of(client, client.shake_hands(path, headers)), wanted)
            name = wanted.removeprefix("the point ")
            changes = len(POINTS[name][1]) if name in POINTS else 0
            expect("the totals", serving.totals(), (changes, 1 if wanted.startswith("an operator") else 0))
    return test


def odd_handshake(content):
    """A test: these bytes are a handshake of the point CP1, which is answered without an extension."""
    def test(program):
        with Serving(program, SITE, 1) as serving:
            with RawClient(serving) as client:
                client.send_bytes(content)
                response = client.read_response()
                expect("extensions", response and response.headers.get("sec-websocket-extensions"), None)
                expect("the outcome", outcome_of(client, response), point("CP1"))
            expect("the totals", serving.totals(), (1, 0))
    return test


def one_connection_more(program):
    """A client that comes after the last session is refused at once, and that session is served on."""
    with Serving(program, SITE, 1) as serving:
        with RawClient.connected(serving, "/CP1") as client:
            expect_nobody_listens(serving.port)
            expect("the session", served_as(client), point("CP1"))
            client.close()
        expect("the totals", serving.totals(), (1, 0))


def no_handshake(content):
    """A test: after these bytes the connection ends without a handshake, and was one of the sessions."""
    def test(program):
        with Serving(program, SITE, 2) as serving:
            with RawClient(serving) as client:
                try:
                    client.send_bytes(content)
                except OSError:
                    pass  # it may be ended before the last byte
                response = client.read_response()
                status = response and response.status
                expect("a response that upgrades", status == 101, False)
                expect("the end of the connection", client.read_frame(), None)
            with RawClient.connected(serving, "/CP1") as client:
                expect("the next client", served_as(client), point("CP1"))
            expect("the totals", serving.totals(), (1, 0))
    return test


def request_in_parts(program):
    """A request that comes in parts is met like a whole one."""
    content = request_bytes("/ocpp/CP1", OFFER)
    with Serving(program, SITE, 1) as serving:
        with RawClient(serving) as client:
            for place in range(0, len(content), 37):
                client.send_bytes(content[place : place + 37])
                time.sleep(0.01)
            expect("the outcome", outcome_of(client, client.read_response()), point("CP1"))
        expect("the totals", serving.totals(), (1, 0))


def end_in_a_request(program):
    """A connection that ends within its request, and one that ends before it, are sessions."""
    with Serving(program, SITE, 3) as serving:
        with RawClient(serving) as client:
            client.send_bytes(request_bytes("/CP1", OFFER)[:-5])
        with RawClient(serving):
            pass
        with RawClient.connected(serving, "/CP1") as client:
            expect("the next client", served_as(client), point("CP1"))
        expect("the totals", serving.totals(), (1, 0))


def silent_client(program):
    """Clients that connect and say nothing, or not all of their request, keep nobody from being served."""
    with Serving(program, SITE, 5) as serving:
        with RawClient(serving), RawClient(serving) as half:
            half.send_bytes(request_bytes("/CP1", OFFER)[:40])
            with RawClient.connected(serving, "/CP1") as first, RawClient.connected(serving, "/operator/CP1") as second:
                expect("the point", served_as(first), point("CP1"))
                expect("the operator", served_as(second), operator("CP1"))
            expect("it still runs", serving.process.poll(), None)
            half.send_bytes(request_bytes("/CP1", OFFER)[40:])
            expect("the slow client", outcome_of(half, half.read_response()), point("CP1"))
        with RawClient.connected(serving, "/cp1") as last:
            expect("the last client", served_as(last), point("cp1"))
        # CP1 told its start again in its second session: that is no change.
        expect("the totals", serving.totals(), (3, 1))


async def offers_of_the_library(program):
    """Python's library is given the subprotocol where it offers it, and closed where it doesn't."""
    for offers, path, wanted in (
        ([OCPP], "/CP1", OCPP),
        (["ocpp2.0.1", OCPP], "/CP1", OCPP),
        ([OCPP], "/CP9", OCPP),
        (["ocpp2.0.1"], "/CP1", None),
        ([], "/CP1", None),
    ):
        with Serving(program, SITE, 1) as serving:
            client = await PythonClient.connected(serving, path, offers)
            expect(f"the subprotocol of {offers}", client.socket.subprotocol, wanted)
            if wanted and path == "/CP1":
                expect("the texts", await client.texts_of(call("1", "X")), [error("1", "NotImplemented"), CALL_0])
                await client.close()
            else:
                expect("the code of the close", await client.closed_by_server(), 1008)
            expect("the totals", serving.totals(), (0, 0))


async def text_to_a_closed_session(program):
    """A client that sends at once, without looking whether it is served, is told 1008 all the same or finds no stream."""
    with Serving(program, SITE, 2) as serving:
        client = await PythonClient.connected(serving, "/CP9")
        try:
            await client.send(heartbeat("1"))
        except websockets.ConnectionClosed:
            pass
        expect("a code that says it wasn't served", await client.closed_by_server() in (1008, 1006), True)
        expect("texts", client.texts, [])
        client = await PythonClient.connected(serving, "/CP1")
        await client.texts_of(heartbeat("1"))
        await client.close()
        expect("the totals", serving.totals(), (0, 0))


def tests():
    for path, wanted in PATHS:
        yield f"the path {path[:40]}", handshake(path, [OCPP], wanted)
    for path, wanted in (("/CP9", CLOSED_WITHOUT), ("/", CLOSED_WITHOUT), ("/operator/CP1", CLOSED_WITHOUT)):
        yield f"the path {path} without a subprotocol", handshake(path, [], wanted)
    for offers, wanted in SUBPROTOCOLS:
        yield f"the subprotocols {offers}", handshake("/CP1", offers, wanted)
    for name, content in ODD_HANDSHAKES:
        yield name, odd_handshake(content)
    for name, content in NO_HANDSHAKES:
        yield name, no_handshake(content)
    yield "a request in parts", request_in_parts
    yield "a connection that ends in its request", end_in_a_request
    yield "clients that say nothing", silent_client
    yield "a connection after the last", one_connection_more
    yield "what Python's library offers", offers_of_the_library
    yield "a text to a session that is closed", text_to_a_closed_session
