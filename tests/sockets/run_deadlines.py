"""How long a site that is run waits for its clients: for messages, for replies, and for those that say nothing."""
import json
import signal
import time

from raw_client import PING, PONG, TEXT, Frame, RawClient, frame_bytes, request_bytes, sent_until_full
from run_data import SITE, Data, size
from serving import PATIENCE, Running, expect, state_of, until
from texts import CALL_0, OCPP, accepted, ask, heartbeat, install, install_call, profile

# Seconds, as the program has them.
LONGEST_MESSAGE, LONGEST_WRITE, SILENCE_BEFORE_PING, LONGEST_SILENCE, SILENCE_BEFORE_CALL = 30, 10, 150, 660, 10


def seconds_until_it_ends(client, most):
    """How long it takes until the stream of a client ends."""
    began = time.monotonic()
    client.socket.settimeout(most)
    while client.read_frame() is not None:
        pass
    return time.monotonic() - began


def lies_between(what, least, value, most):
    expect(f"whether {what} lies between {least} and {most}: {value:.1f}", least <= value <= most, True)


def a_stop_in_a_handshake(program):
    """A program that is stopped while a client shakes hands, and goes on, goes on with that."""
    request = request_bytes("/operator/P1", [f"Sec-WebSocket-Protocol: {OCPP}"])
    with Data() as data, Running(program, SITE, data.path) as running, RawClient(running) as client:
        client.send_bytes(request[:20])
        running.until_idle()
        running.process.send_signal(signal.SIGSTOP)
        until("it is stopped", lambda: state_of(running.process) == "T")
        running.process.send_signal(signal.SIGCONT)
        running.until_idle()
        client.send_bytes(request[20:])
        response = client.read_response()
        expect("the response", response and response.status, 101)
        expect("an answer", client.texts_of(ask("a"))[0][:7], '[3,"a",')


def a_message_byte_by_byte(program):
    """It ends its session where it isn't whole in time. Beside it others are served, and a ping in between doesn't help."""
    with Data() as data, Running(program, SITE, data.path) as running:
        with RawClient.connected(running, "/operator/P1") as slow, RawClient.connected(running, "/P1") as point:
            content, began = frame_bytes(TEXT, heartbeat("h").encode()), time.monotonic()
            slow.send_bytes(frame_bytes(TEXT, b'[2,"h",', is_final=False))
            slow.socket.settimeout(0.5)
            while time.monotonic() < began + LONGEST_MESSAGE + 15:
                try:
                    slow.send_frame(PING, b"p")
                    frame = slow.read_frame()
                except TimeoutError:
                    continue
                except OSError:
                    frame = None
                if frame is None:
                    break
                expect("what comes", frame, Frame(PONG, b"p"))
                time.sleep(0.4)
            lies_between("the end", LONGEST_MESSAGE - 1, time.monotonic() - began, LONGEST_MESSAGE + 10)
            expect("what the other is sent without a word", point.read_text(), CALL_0)
            point.send_bytes(content)
            expect("its answer", point.read_text()[:7], '[3,"h",')


def pings_for_long(program):
    """Control frames alone are no message that isn't whole."""
    with Data() as data, Running(program, SITE, data.path) as running:
        with RawClient.connected(running, "/operator/P1") as operator:
            end = time.monotonic() + LONGEST_MESSAGE + 5
            while time.monotonic() < end:
                expect("what comes", operator.texts_now(), [])
                time.sleep(1)
            expect("an answer", operator.texts_of(ask("a"))[0][:7], '[3,"a",')


def a_client_that_does_not_read(program):
    """It is closed once there was no room for a pong for too long. Packets are those of a network, which have room for fewer."""
    pings = frame_bytes(PING, bytes(125)) * 500
    with Data() as data, Running(program, SITE, data.path) as running:
        with RawClient.connected(running, "/operator/P1", receive_buffer=4_096, segment=1_460) as client:
            began = time.monotonic()
            sent_until_full(client, pings, LONGEST_WRITE + 15)
            lies_between("the end", LONGEST_WRITE - 1, time.monotonic() - began, LONGEST_WRITE + 8)


def a_call_without_a_reply(program):
    """Its connection is closed, and it goes out over the next one with its number. A reply in time keeps the connection."""
    fields = profile(1, [7.0])
    with Data() as data, Running(program, SITE, data.path, call_timeout=3) as running:
        with RawClient.connected(running, "/operator/P1") as operator, RawClient.connected(running, "/P1") as point:
            expect("call 0", point.texts_of(heartbeat("h"))[1:], [CALL_0])
            point.texts_of(accepted("0"))
            expect("an install", operator.texts_of(install("i", fields)), [accepted("i")])
            expect("call 1", point.read_text(), install_call(1, fields))
            began = time.monotonic()
            while time.monotonic() < began + 10:
                try:
                    point.send_text(heartbeat("more"))
                    if point.read_frame() is None:
                        break
                except OSError:
                    break
                time.sleep(0.2)
            lies_between("the end", 2, time.monotonic() - began, 9)
            until("the lost link is noted", lambda: data.lines()[-1] == "lost P1 1")
        with RawClient.connected(running, "/P1") as point:
            expect("call 1 again", point.texts_of(heartbeat("h"))[1:], [install_call(1, fields)])
            point.texts_of(accepted("1"))
            time.sleep(5)
            expect("it stays", point.texts_of(heartbeat("i"))[0][:7], '[3,"i",')


def a_call_to_a_silent_point(program):
    """It goes out though the point says nothing: soon where it has spoken over its connection, later where it hasn't."""
    fields = profile(1, [7.0])
    with Data() as data, Running(program, SITE, data.path) as running:
        with RawClient.connected(running, "/operator/P1") as operator, RawClient.connected(running, "/P1") as point:
            began = time.monotonic()
            expect("call 0", point.read_text(), CALL_0)
            lies_between("the first call", SILENCE_BEFORE_CALL - 1, time.monotonic() - began, SILENCE_BEFORE_CALL + 8)
            expect("a reply", point.texts_of(accepted("0")), [])
            expect("an install", operator.texts_of(install("i", fields)), [accepted("i")])
            began = time.monotonic()
            expect("call 1", point.read_text(), install_call(1, fields))
            lies_between("the next call", 0, time.monotonic() - began, 5)
            until("both are noted", lambda: [line for line in data.lines() if line.startswith("sent")] == ["sent P1 1 0", "sent P1 1 1"])


def silent_clients(program):
    """They are pinged, and closed where they don't say a word then."""
    with Data() as data, Running(program, SITE, data.path) as running:
        with RawClient.connected(running, "/operator/P1") as operator, RawClient.connected(running, "/operator/P1") as dead:
            began = time.monotonic()
            operator.socket.settimeout(SILENCE_BEFORE_PING + PATIENCE)
            expect("what comes", operator.read_frame(), Frame(PING, b""))
            lies_between("the ping", SILENCE_BEFORE_PING - 1, time.monotonic() - began, SILENCE_BEFORE_PING + 10)
            operator.send_frame(PONG)
            expect("it is served", operator.texts_of(ask("a"))[0][:7], '[3,"a",')
            left = LONGEST_SILENCE - (time.monotonic() - began)
            lies_between("the end", left - 5, seconds_until_it_ends(dead, left + 20), left + 10)


def long_messages(program):
    """More clients than there are places have long messages: each gets its answer, at last over another connection."""
    text = json.dumps([2, "long", "Heartbeat", {"pad": "x" * 200_000}])
    with Data() as data, Running(program, SITE, data.path) as running:
        clients = [RawClient.connected(running, "/operator/P1") for _ in range(40)]
        for client in clients:
            client.send_text(text)
        for client in clients:
            expect("the answer", client.read_text()[:9], '[4,"long"')
        for client in clients:
            client.socket.close()


def tests():
    yield "a stop in a handshake", a_stop_in_a_handshake
    yield "a message byte by byte", a_message_byte_by_byte
    yield "pings for long", pings_for_long
    yield "a client that doesn't read", a_client_that_does_not_read
    yield "a call without a reply", a_call_without_a_reply
    yield "a call to a silent point", a_call_to_a_silent_point
    yield "long messages", long_messages
    if size(False, False, True):
        yield "silent clients", silent_clients
