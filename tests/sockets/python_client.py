"""A client of Python's library `websockets`."""
import asyncio

import websockets

from serving import PATIENCE, expect
from texts import OCPP


def bounded(waiting):
    return asyncio.wait_for(waiting, PATIENCE)


class PythonClient:
    """A connection, and the texts that came over it."""

    def __init__(self, socket):
        self.socket = socket
        self.texts = []
        self.reading = asyncio.ensure_future(self._read())

    @classmethod
    async def connected(cls, serving, path, subprotocols=(OCPP,)):
        socket = await websockets.connect(
            f"ws://127.0.0.1:{serving.port}{path}",
            subprotocols=list(subprotocols) or None,
            open_timeout=PATIENCE,
            close_timeout=PATIENCE,
            ping_interval=None,
            max_queue=None,
        )
        return cls(socket)

    async def _read(self):
        try:
            async for text in self.socket:
                self.texts.append(text)
        except websockets.ConnectionClosed:
            pass

    async def send(self, text):
        """Sends a text, bytes as a binary message, or a list of texts as the fragments of one."""
        await bounded(self.socket.send(text))

    async def texts_now(self):
        """The texts that came because of all that was sent up to now: those before the answer to a ping."""
        pong = await bounded(self.socket.ping())
        await bounded(pong)
        for _ in range(50):  # what was read before the pong is in the library's queue: `_read` takes it from there
            await asyncio.sleep(0)
        texts, self.texts = self.texts, []
        return texts

    async def texts_of(self, text):
        """The texts that a text brings: its answer, and the call that follows."""
        await self.send(text)
        return await self.texts_now()

    async def close(self):
        await bounded(self.socket.close())
        await bounded(self.reading)
        expect("the code of the close", self.socket.close_code, 1000)

    async def closed_by_server(self):
        """The code with which the server closes."""
        await bounded(self.socket.wait_closed())
        await bounded(self.reading)
        return self.socket.close_code
