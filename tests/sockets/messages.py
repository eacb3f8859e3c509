"""Messages of every kind on an open session: which are read, which are ignored, and which end it."""
import json
import struct

from python_client import PythonClient
from raw_client import BINARY, CLOSE, CONTINUATION, PING, PONG, TEXT, Frame, RawClient, frame_bytes
from serving import Serving, expect
from texts import (
    CALL_0, OCPP, accepted, ask, call, error, heartbeat, install, install_call, plain_site, profile,
    without_moment,
)

SITE = plain_site(2)
LONGEST_TEXT = 1_048_576
LONGEST_FRAME = 16_777_216
ANSWER = '[3,"1",{}]'


def moments_cut(texts):
    return [without_moment(text) for text in texts]


def padded(message_id, length):
    """A Heartbeat whose text has so many bytes, two of them in each character but a few."""
    bare = len(call(message_id, "Heartbeat", {"pad": ""}).encode())
    twos, ones = divmod(length - bare, 2)
    return call(message_id, "Heartbeat", {"pad": "é" * twos + "x" * ones})


def is_served_still(serving, changes=0):
    """The last session is served after what came before, and the program ends well."""
    with RawClient.connected(serving, "/P1") as client:
        expect("the next session", moments_cut(client.texts_of(heartbeat("1"))), [ANSWER, CALL_0])
        client.close()
    expect("the totals", serving.totals(), (changes, 0))


def binary_messages(program):
    """A binary message isn't answered, and no call follows it, whatever it holds."""
    with Serving(program, SITE, 2) as serving, RawClient.connected(serving, "/P1") as client:
        for content in (b"", heartbeat("1").encode(), b"\xff\xfe", bytes(100_000)):
            client.send_frame(BINARY, content)
            expect(f"texts after a binary message of {len(content)} bytes", client.texts_now(), [])
        client.send_frame(BINARY, b"[2,", is_final=False)
        client.send_frame(CONTINUATION, b'"1"]')
        expect("texts after a binary message in parts", client.texts_now(), [])
        expect("texts of a text", moments_cut(client.texts_of(heartbeat("1"))), [ANSWER, CALL_0])
        client.close()
        is_served_still(serving)


def dropped_texts(program):
    """A text that is no frame of OCPP-J isn't answered, and the call that waits follows it all the same."""
    for text in ("", "x", "{}", '[2,"1","Heart', '[7,"1"]', "[2]", "\0"):
        with Serving(program, SITE, 1) as serving, RawClient.connected(serving, "/P1") as client:
            expect(f"texts of {text!r}", client.texts_of(text), [CALL_0])
            expect("texts of the next", moments_cut(client.texts_of(heartbeat("1"))), [ANSWER])
            client.close()
            expect("the totals", serving.totals(), (0, 0))


# An operator's two messages, the schedule that follows from them, and their proper beginnings.
LIMIT = profile(1, [16])
INSTALL, ASK = install("a", LIMIT), ask("b")
SCHEDULE = {
    "status": "Accepted",
    "connectorId": 1,
    "chargingSchedule": {
        "duration": 3600,
        "chargingRateUnit": "A",
        "chargingSchedulePeriod": [{"startPeriod": 0, "limit": 16.0}],
    },
}
BEGUN = [text[:length] for text in (INSTALL, ASK) for length in range(len(text))]


def schedule_of(texts):
    """The payload of the one answer among the texts, without the schedule's moment."""
    expect("how many texts", len(texts), 1)
    kind, message_id, payload = json.loads(texts[0])
    expect("whose answer", (kind, message_id), (3, "b"))
    payload.pop("scheduleStart")
    return payload


def cut_texts(program):
    """An operator's messages cut at each byte bring nothing, and the whole ones then have their
    answers. A point's bring no more than the call that waits for it."""
    with Serving(program, SITE, 2) as serving:
        with RawClient.connected(serving, "/operator/P1") as operator:
            for text in BEGUN:
                expect(f"texts of {text!r}", operator.texts_of(text), [])
            expect("texts of the install", operator.texts_of(INSTALL), [accepted("a")])
            expect("the schedule", schedule_of(operator.texts_of(ASK)), SCHEDULE)
            with RawClient.connected(serving, "/P1") as point:
                cut_texts_of_a_point(operator, point)
                point.close()
            operator.close()
        expect("the totals", serving.totals(), (1 + len(BEGUN), 1))


def cut_texts_of_a_point(operator, point):
    """Each follows an install, whose call it brings. The first of those was made before."""
    limit = profile(1, [16.0])
    expect("texts of the first", moments_cut(point.texts_of(heartbeat("1"))), [ANSWER, CALL_0])
    expect("texts of a reply", point.texts_of(accepted("0")), [install_call(1, limit)])
    expect("texts of the next reply", point.texts_of(accepted("1")), [])
    for number, text in enumerate(BEGUN, 2):
        expect("texts of an install", operator.texts_of(INSTALL), [accepted("a")])
        expect(f"texts of {text!r}", point.texts_of(text), [install_call(number, limit)])
        expect("texts of its reply", point.texts_of(accepted(str(number))), [])


def fragmented_texts(program):
    """A text in parts is one text, with control frames between its parts, and parts within a character."""
    content = call("größer€", "Foo").encode()
    wanted = error("größer€", "NotImplemented")
    with Serving(program, SITE, 2) as serving, RawClient.connected(serving, "/operator/P1") as client:
        for size in (1, 2, 7, len(content) - 1):
            parts = [content[place : place + size] for place in range(0, len(content), size)]
            client.send_frame(TEXT, parts[0], is_final=False)
            client.send_frame(PING, b"between")
            expect("the frame between the parts", client.read_frame(), Frame(PONG, b"between"))
            for part in parts[1:]:
                client.send_frame(CONTINUATION, part, is_final=False)
            client.send_frame(PONG, b"nobody asked")
            client.send_frame(CONTINUATION)
            expect(f"texts of a text in {len(parts) + 1} parts", client.texts_now(), [wanted])
        client.close()
        is_served_still(serving)


def texts_in_one_write(program):
    """Many frames that come at once are read one after another, also where the last is cut."""
    with Serving(program, SITE, 2) as serving, RawClient.connected(serving, "/operator/P1") as client:
        content = b"".join(frame_bytes(TEXT, call(str(number), "Foo").encode()) for number in range(100))
        client.send_bytes(content[:-7])
        for number in range(99):
            expect("an answer", client.read_text(), error(str(number), "NotImplemented"))
        client.send_bytes(content[-7:])
        expect("the last answer", client.read_text(), error("99", "NotImplemented"))
        client.close()
        is_served_still(serving)


def bytes_one_by_one(program):
    """A frame whose bytes come one by one is read like another."""
    with Serving(program, SITE, 2) as serving, RawClient.connected(serving, "/operator/P1") as client:
        for byte in frame_bytes(TEXT, call("1", "Foo", {"pad": "x" * 200}).encode()):
            client.send_bytes(bytes([byte]))
        expect("the answer", client.read_text(), error("1", "NotImplemented"))
        client.close()
        is_served_still(serving)


def pings(program):
    """Each ping is answered by a pong with its payload; pongs that nobody asked for are ignored."""
    with Serving(program, SITE, 2) as serving, RawClient.connected(serving, "/P1") as client:
        for payload in (b"", b"a", b"\xff" * 125):
            client.send_frame(PING, payload)
            expect("the answer to a ping", client.read_frame(), Frame(PONG, payload))
            client.send_frame(PONG, payload)
        expect("texts after all of them", client.texts_now(), [])
        client.close()
        is_served_still(serving)


# What breaks the protocol (RFC 6455, sections 5 and 7), or the server's limits: the connection ends.
BREACHES = (
    ("a text that isn't masked", frame_bytes(TEXT, b"[]", is_masked=False)),
    ("a ping that isn't masked", frame_bytes(PING, b"", is_masked=False)),
    ("the first reserved bit", frame_bytes(TEXT, b"[]", reserved=4)),
    ("the second reserved bit", frame_bytes(TEXT, b"[]", reserved=2)),
    ("the third reserved bit", frame_bytes(TEXT, b"[]", reserved=1)),
    ("opcode 3", frame_bytes(3, b"[]")),
    ("opcode 11", frame_bytes(11, b"")),
    ("a ping in parts", frame_bytes(PING, b"", is_final=False)),
    ("a close in parts", frame_bytes(CLOSE, b"", is_final=False)),
    ("a ping of 126 bytes", frame_bytes(PING, bytes(126))),
    ("a continuation of nothing", frame_bytes(CONTINUATION, b"[]")),
    ("a text within a text", frame_bytes(TEXT, b"[", is_final=False) + frame_bytes(TEXT, b"]")),
    ("a binary message within a text", frame_bytes(TEXT, b"[", is_final=False) + frame_bytes(BINARY, b"]")),
    ("a text that isn't UTF-8", frame_bytes(TEXT, b'[2,"\xff","Heartbeat",{}]')),
    ("half of a surrogate pair", frame_bytes(TEXT, b'["\xed\xa0\x80"]')),
    ("a character cut at the end", frame_bytes(TEXT, "é".encode()[:1])),
    ("a character cut at the end of the last part",
        frame_bytes(TEXT, b"[", is_final=False) + frame_bytes(CONTINUATION, b"\xe2\x82")),
    ("a length of 64 bits with its highest bit", frame_bytes(TEXT, b"[]", length=b"\x7f\x80" + bytes(7))),
    ("a frame past the limit", frame_bytes(TEXT, b" " * (LONGEST_FRAME + 1))),
    ("a length past the limit, and nothing more", frame_bytes(TEXT, b"", length=b"\x7f" + struct.pack(">Q", LONGEST_FRAME + 1))),
    ("a message past the limit", frame_bytes(BINARY, bytes(LONGEST_FRAME), is_final=False)
        + frame_bytes(CONTINUATION, bytes(LONGEST_FRAME), is_final=False) * 3 + frame_bytes(CONTINUATION, b"x")),
)


def breach(content):
    """A test: these bytes end the session, a text behind them isn't answered, and another session isn't touched."""
    def test(program):
        with Serving(program, SITE, 3) as serving, RawClient.connected(serving, "/operator/P1") as other:
            with RawClient.connected(serving, "/P1") as client:
                try:
                    client.send_bytes(content)
                    client.send_text(heartbeat("1"))
                except OSError:
                    pass  # the server has ended it before the last byte
                client.is_ended_for_a_breach()
            expect("the other session", other.texts_of(call("1", "Foo")), [error("1", "NotImplemented")])
            other.close()
            is_served_still(serving)
    return test


def longest_text(program):
    """A text of the limit is read. One byte more is dropped, the call that waits follows it, and the session goes on."""
    with Serving(program, SITE, 3) as serving:
        with RawClient.connected(serving, "/P1") as client:
            text = padded("1", LONGEST_TEXT)
            expect("the length of the text", len(text.encode()), LONGEST_TEXT)
            expect("texts of the longest", moments_cut(client.texts_of(text)), [ANSWER, CALL_0])
            expect("texts of one too long", client.texts_of(padded("1", LONGEST_TEXT + 1)), [])
            expect("texts of the next", moments_cut(client.texts_of(heartbeat("1"))), [ANSWER])
            client.close()
        with RawClient.connected(serving, "/P2") as client:
            expect("texts of one too long", client.texts_of(padded("1", LONGEST_TEXT + 1)), [CALL_0])
            expect("texts of a frame of the limit", client.texts_of(" " * LONGEST_FRAME), [])
            expect("texts of the next", moments_cut(client.texts_of(heartbeat("1"))), [ANSWER])
            client.close()
        is_served_still(serving)


def longest_text_in_parts(program):
    """A text of the limit in parts is read, and one byte more is dropped."""
    with Serving(program, SITE, 2) as serving:
        with RawClient.connected(serving, "/P1") as client:
            for length, wanted in ((LONGEST_TEXT, [ANSWER, CALL_0]), (LONGEST_TEXT + 1, [])):
                content = padded("1", length).encode()
                client.send_frame(TEXT, content[:500_001], is_final=False)
                client.send_frame(CONTINUATION, content[500_001:1_000_000], is_final=False)
                client.send_frame(CONTINUATION, content[1_000_000:])
                expect(f"texts of {length} bytes in parts", moments_cut(client.texts_now()), wanted)
            client.close()
        is_served_still(serving)


def close_frames(program):
    """A close frame is answered by one of its code, nothing behind it is read, and the stream ends."""
    normal, away, own = (struct.pack(">H", code) for code in (1000, 1001, 4000))
    for payload in (b"", normal, away + "auf Wiedersehen, größer".encode(), own):
        with Serving(program, SITE, 2) as serving:
            with RawClient.connected(serving, "/P1") as client:
                client.send_bytes(frame_bytes(CLOSE, payload) + frame_bytes(TEXT, heartbeat("1").encode()))
                frame = client.read_frame()
                expect("the kind of the answer", frame and frame.opcode, CLOSE)
                expect("the code of the answer", frame.payload[:2], payload[:2])
                expect("what follows the close", client.read_frame(), None)
            is_served_still(serving)


async def messages_of_the_library(program):
    """Python's library: fragments, a binary message, and a long answer."""
    with Serving(program, SITE, 1) as serving:
        client = await PythonClient.connected(serving, "/operator/P1", [OCPP])
        text = call("1", "Foo", {"pad": "x" * 70_000})
        await client.send([text[place : place + 9_000] for place in range(0, len(text), 9_000)])
        expect("texts of fragments", await client.texts_now(), [error("1", "NotImplemented")])
        expect("texts of a binary message", await client.texts_of(ask("2").encode()), [])
        await client.close()
        expect("the totals", serving.totals(), (0, 0))


def tests():
    yield "binary messages", binary_messages
    yield "dropped texts", dropped_texts
    yield "texts cut at each byte", cut_texts
    yield "texts in parts", fragmented_texts
    yield "many frames in one write", texts_in_one_write
    yield "bytes one by one", bytes_one_by_one
    yield "pings", pings
    for name, content in BREACHES:
        yield name, breach(content)
    yield "texts at the limit", longest_text
    yield "texts at the limit, in parts", longest_text_in_parts
    yield "close frames", close_frames
    yield "messages of Python's library", messages_of_the_library
