"""Attacks by frames (RFC 6455): in small parts, without end, too long, too many, compressed, and none."""
import contextlib
import struct
import time
import zlib

from attack import RUN, SERVE, Attack
from field import IS_PROVED, UNREADING, all_are_cut_off, close_all, in_threads
from raw_client import BINARY, CLOSE, CONTINUATION, PING, TEXT, frame_bytes, sent_until_full
from serving import expect
from texts import call, heartbeat

MIB = 1 << 20
STATUS = call("s", "PointStatus")


def byte_by_byte(field):
    """Messages of which each byte comes alone are answered, whoever else is served meanwhile."""
    def slow(_):
        with field.stranger() as client:
            for byte in frame_bytes(TEXT, STATUS.encode()):
                client.send_bytes(bytes([byte]))
                time.sleep(0.01)
            expect("the answer", client.read_text()[:7], '[3,"s",')

    in_threads(field.size(16, 4), slow)


def endless_fragments(field):
    """Messages in fragments of one byte or none, that never end."""
    def endless(number):
        part = frame_bytes(CONTINUATION, b" " * (number % 2), is_final=False) * 2_000
        with field.stranger() as client:
            client.send_frame(TEXT, b"[", is_final=False)
            sent_until_full(client, part, field.seconds)

    in_threads(field.size(8, 4), endless)


def lengths(field):
    """Headers of messages that are too long end their session; those of the longest make the program take no memory."""
    longest = 64 * MIB if field.door == "serve" else MIB
    for length in (longest + 1, 64 * MIB + 1, 1 << 32, 1 << 63, (1 << 64) - 1):
        with field.stranger() as client:
            client.send_frame(TEXT, length=b"\x7f" + struct.pack(">Q", length))
            client.is_ended_for_a_breach()
    before = field.server.peak_memory()
    clients = field.strangers(30)
    for client in clients:
        client.send_frame(TEXT, length=b"\x7f" + struct.pack(">Q", min(longest, 16 * MIB)))
    time.sleep(field.seconds / 2)
    taken = field.server.peak_memory() - before
    expect(f"whether {taken} kB are little", taken < 30 * 1024 or not IS_PROVED, True)
    close_all(clients)


def pings(field):
    """Pings as fast as they can be sent, each of which is answered."""
    def flood(_):
        block = frame_bytes(PING, bytes(125)) * 500
        end = time.monotonic() + field.seconds
        with field.stranger() as client:
            while time.monotonic() < end:
                client.send_bytes(block)
                for _ in range(500):
                    client.read_frame()

    in_threads(4, flood)


def unread_pings(field):
    """The same by clients that don't read: `run` closes them 10 seconds after there is no room for a pong."""
    clients, began = field.strangers(8, **UNREADING), time.monotonic()
    in_threads(len(clients), lambda number: sent_until_full(clients[number], frame_bytes(PING, bytes(125)) * 500, field.seconds))
    if not field.is_short and field.door != "serve":
        all_are_cut_off(clients, began, 18)
    close_all(clients)


def compressed(field):
    """Frames that say that they are compressed, which nobody agreed upon: each ends its session."""
    packer = zlib.compressobj(wbits=-15)
    packed = packer.compress(b"[" + b" " * (64 * MIB)) + packer.flush(zlib.Z_SYNC_FLUSH)
    for opcode, reserved in ((TEXT, 4), (BINARY, 4), (TEXT, 2), (TEXT, 1), (PING, 4)):
        with field.stranger() as client:
            with contextlib.suppress(OSError):
                client.send_frame(opcode, packed[:100] if opcode == PING else packed, reserved=reserved)
            client.is_ended_for_a_breach()


# Each of them breaks RFC 6455, sections 5 to 8.
BREACHES = {
    "bad UTF-8": [(TEXT, b'[2,"\xff","Heartbeat",{}]', {})],
    "an overlong form": [(TEXT, b'[2,"\xc0\xaf","Heartbeat",{}]', {})],
    "a surrogate": [(TEXT, b'[2,"\xed\xa0\x80","Heartbeat",{}]', {})],
    "bad UTF-8 over two frames": [(TEXT, b'[2,"\xe2\x82', {"is_final": False}), (CONTINUATION, b'","Heartbeat",{}]', {})],
    "UTF-8 that is cut off": [(TEXT, b'[2,"\xe2\x82', {})],
    "opcode 3": [(3, b"", {})],
    "opcode 11": [(11, b"", {})],
    "no mask": [(TEXT, heartbeat("h").encode(), {"is_masked": False})],
    "a ping of 126 bytes": [(PING, bytes(126), {})],
    "a ping in parts": [(PING, b"p", {"is_final": False})],
    "a text within a text": [(TEXT, b"[", {"is_final": False}), (TEXT, b"]", {})],
    "a continuation of nothing": [(CONTINUATION, b"]", {})],
    "a close frame of one byte": [(CLOSE, b"\x03", {})],
    "a close frame whose reason isn't UTF-8": [(CLOSE, b"\x03\xe8\xff", {})],
}


def breaches(field):
    """Each breach ends its own session and no other."""
    for frames in BREACHES.values():
        with field.stranger() as client:
            with contextlib.suppress(OSError):
                for opcode, payload, form in frames:
                    client.send_frame(opcode, payload, **form)
            client.is_ended_for_a_breach()


ATTACKS = (
    Attack("one byte at a time", "its own seats", "answered", byte_by_byte, (RUN, SERVE), is_repeated=True),
    Attack("fragments without end", "its own seats, at most 30 s each", "the others are served", endless_fragments, (RUN, SERVE)),
    Attack("headers of up to 2^64-1 bytes", "its own session", "ended; no memory is taken", lengths, (RUN, SERVE), is_repeated=True),
    Attack("ping floods", "processor time", "each is answered", pings, (RUN, SERVE)),
    Attack("ping floods, not read", "its own seats, for 10 s", "closed", unread_pings, (RUN, SERVE)),
    Attack("compressed frames", "its own session", "ended", compressed, (RUN, SERVE), is_repeated=True),
    Attack("frames that break RFC 6455", "its own session", "ended", breaches, (RUN, SERVE), is_repeated=True),
)
