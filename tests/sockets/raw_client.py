"""A client by hand, where bytes matter (RFC 6455): a request, frames of any form, and what comes back."""
import base64
import collections
import hashlib
import os
import socket
import struct
import time

from serving import PATIENCE, Unexpected, expect
from texts import OCPP

CONTINUATION, TEXT, BINARY, CLOSE, PING, PONG = 0, 1, 2, 8, 9, 10
POLICY = struct.pack(">H", 1008)

# What a server sends: frames are whole, and not masked.
Frame = collections.namedtuple("Frame", "opcode payload")

# What a server makes of a request: its headers by name in lower case, each with all its values.
Response = collections.namedtuple("Response", "status headers")


def masked(payload, mask):
    length = len(payload)
    stream = (mask * (length // 4 + 1))[:length]
    return (int.from_bytes(payload, "big") ^ int.from_bytes(stream, "big")).to_bytes(length, "big")


def frame_bytes(opcode, payload=b"", is_final=True, is_masked=True, reserved=0, length=None):
    """The bytes of a frame. `length` are the bytes that tell the payload's length, where it isn't told as it should be."""
    first = bytes([(0x80 if is_final else 0) | reserved << 4 | opcode])
    size, bit = len(payload), 0x80 if is_masked else 0
    if length is None and size < 126:
        length = bytes([size])
    elif length is None and size < 65_536:
        length = b"\x7e" + struct.pack(">H", size)
    elif length is None:
        length = b"\x7f" + struct.pack(">Q", size)
    second = bytes([length[0] | bit]) + length[1:]
    if not is_masked:
        return first + second + payload
    mask = os.urandom(4)
    return first + second + mask + masked(payload, mask)


def request_bytes(path, headers=(), key="dGhlIHNhbXBsZSBub25jZQ==", version="13", method="GET", http="HTTP/1.1"):
    """The bytes of a request for a WebSocket. A key or a version that is None is left out."""
    lines = [f"{method} {path} {http}", "Host: 127.0.0.1", "Upgrade: websocket", "Connection: Upgrade"]
    lines += [] if key is None else [f"Sec-WebSocket-Key: {key}"]
    lines += [] if version is None else [f"Sec-WebSocket-Version: {version}"]
    return "\r\n".join([*lines, *headers, "", ""]).encode("latin-1")


def key_answer(key):
    digest = hashlib.sha1(key.encode() + b"258EAFA5-E914-47DA-95CA-C5AB0DC85B11").digest()
    return base64.b64encode(digest).decode()


class RawClient:
    """A connection. At the end of a `with` block its stream is closed, without a close frame.

    `receive_buffer` and `segment` are the bytes that its system takes in before they are read, and in one packet.
    """

    def __init__(self, serving, receive_buffer=None, segment=None):
        self.socket = socket.socket()
        if receive_buffer is not None:
            self.socket.setsockopt(socket.SOL_SOCKET, socket.SO_RCVBUF, receive_buffer)
        if segment is not None:
            self.socket.setsockopt(socket.IPPROTO_TCP, socket.TCP_MAXSEG, segment)
        self.socket.settimeout(PATIENCE)
        self.socket.connect(("127.0.0.1", serving.port))
        self.socket.setsockopt(socket.IPPROTO_TCP, socket.TCP_NODELAY, 1)
        self.input = b""
        self.pings = 0

    @classmethod
    def connected(cls, serving, path, **more):
        """A client after its handshake in OCPP 1.6."""
        client = cls(serving, **more)
        response = client.shake_hands(path, [f"Sec-WebSocket-Protocol: {OCPP}"])
        expect(f"the handshake of {path}", response and response.status, 101)
        return client

    def __enter__(self):
        return self

    def __exit__(self, *_):
        self.socket.close()

    def send_bytes(self, content):
        self.socket.sendall(content)

    def send_frame(self, opcode, payload=b"", **form):
        self.send_bytes(frame_bytes(opcode, payload, **form))

    def send_text(self, text):
        self.send_frame(TEXT, text.encode())

    def shake_hands(self, path, headers=(), key="x3JJHMbDL1EzLkh9GBhXDw==", **form):
        """Asks for a WebSocket. The response, or None where the connection ends without one."""
        self.send_bytes(request_bytes(path, headers, key, **form))
        response = self.read_response()
        if response is not None and response.status == 101:
            expect("Sec-WebSocket-Accept", response.headers.get("sec-websocket-accept"), [key_answer(key)])
        return response

    def read_response(self):
        while b"\r\n\r\n" not in self.input:
            if not self._filled():
                return None
        head, _, self.input = self.input.partition(b"\r\n\r\n")
        first, *lines = head.decode("latin-1").split("\r\n")
        headers = {}
        for line in lines:
            name, _, value = line.partition(":")
            headers.setdefault(name.lower(), []).append(value.strip())
        return Response(int(first.split(" ")[1]), headers)

    def _filled(self):
        """Reads more of the stream. Whether there was more."""
        try:
            more = self.socket.recv(1 << 16)
        except (ConnectionResetError, BrokenPipeError):
            more = b""
        self.input += more
        return len(more) > 0

    def _take(self, count):
        """The next bytes of the stream, or None where it ends before them."""
        while len(self.input) < count:
            if not self._filled():
                return None
        taken, self.input = self.input[:count], self.input[count:]
        return taken

    def read_frame(self):
        """The next frame, or None where the stream ends, in whatever way."""
        head = self._take(2)
        if head is None:
            return None
        if head[0] & 0xF0 != 0x80 or head[1] & 0x80:
            raise Unexpected(f"a frame that is reserved, in parts or masked: {head!r}")
        size = head[1]
        if size == 126:
            size = struct.unpack(">H", self._take(2) or b"\0\0")[0]
        elif size == 127:
            size = struct.unpack(">Q", self._take(8) or bytes(8))[0]
        payload = self._take(size)
        return None if payload is None else Frame(head[0] & 0x0F, payload)

    def read_text(self):
        """The next frame, which has to be a text."""
        frame = self.read_frame()
        expect("the kind of the next frame", frame and frame.opcode, TEXT)
        return frame.payload.decode()

    def is_ended_for_a_breach(self):
        """The session ends, with a close frame before it (RFC 6455, section 7.1.7) or without."""
        frame = self.read_frame()
        if frame is not None and frame.opcode == CLOSE:
            frame = self.read_frame()
        expect("what comes of the session", frame, None)

    def texts_now(self):
        """The texts that came because of all that was sent up to now: those before the answer to a ping."""
        self.pings += 1
        payload = f"ping {self.pings}".encode()
        self.send_frame(PING, payload)
        texts = []
        while True:
            frame = self.read_frame()
            if frame == Frame(PONG, payload):
                return texts
            expect("the kind of a frame before the pong", frame and frame.opcode, TEXT)
            texts.append(frame.payload.decode())

    def texts_of(self, text):
        """The texts that a text brings: its answer, and the call that follows."""
        self.send_text(text)
        return self.texts_now()

    def close(self, code=1000):
        """Closes as RFC 6455 has it: a close frame each way, and the end of the stream."""
        payload = struct.pack(">H", code)
        self.send_frame(CLOSE, payload)
        expect("the answer to a close frame", self.read_frame(), Frame(CLOSE, payload))
        expect("what follows the answer to a close frame", self.read_frame(), None)
        self.socket.close()


def sent_until_full(client, content, seconds):
    """Sends the same bytes again and again for so many seconds, or until the connection ends, and never waits long."""
    sent, end = 0, time.monotonic() + seconds
    client.socket.settimeout(0.2)
    while time.monotonic() < end:
        try:
            sent += client.socket.send(content[sent % len(content):])
        except TimeoutError:
            continue
        except OSError:
            return
