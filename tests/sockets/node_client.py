"""A client of Node's library `ws`, a process of its own (node_client.js), used as the one of Python is."""
import asyncio
import json
import os

from python_client import bounded
from serving import Unexpected, expect
from texts import OCPP

SCRIPT = os.path.join(os.path.dirname(os.path.abspath(__file__)), "node_client.js")
LONGEST_EVENT = 1 << 24


class NodeClient:
    """A connection."""

    running = []

    def __init__(self, process):
        self.process = process
        self.pings = 0
        self.running.append(process)

    @classmethod
    async def started(cls, serving, path, subprotocols=(OCPP,)):
        """A client that connects: its first event tells how."""
        url = f"ws://127.0.0.1:{serving.port}{path}"
        pipe = asyncio.subprocess.PIPE
        process = await asyncio.create_subprocess_exec(
            "node", SCRIPT, url, *subprotocols, stdin=pipe, stdout=pipe, limit=LONGEST_EVENT,
            env={**os.environ, "NODE_PATH": "/usr/share/nodejs"},
        )
        return cls(process)

    @classmethod
    async def connected(cls, serving, path):
        client = await cls.started(serving, path)
        expect(f"how {path} is opened", await client.event(), {"open": OCPP})
        return client

    @classmethod
    async def end_all(cls):
        """Ends the processes that a test has left, as one does that fails."""
        for process in cls.running:
            if process.returncode is None:
                process.kill()
                await process.wait()
        cls.running.clear()

    async def event(self):
        """What comes next."""
        line = await bounded(self.process.stdout.readline())
        if not line:
            raise Unexpected("Node's client ended")
        return json.loads(line)

    async def order(self, command):
        self.process.stdin.write(json.dumps(command).encode() + b"\n")
        await bounded(self.process.stdin.drain())

    async def texts_now(self):
        """The texts that came because of all that was sent up to now: those before the answer to a ping."""
        self.pings += 1
        await self.order({"ping": str(self.pings)})
        texts = []
        while True:
            event = await self.event()
            if event == {"pong": str(self.pings)}:
                return texts
            expect("an event before the pong", list(event), ["text"])
            texts.append(event["text"])

    async def texts_of(self, text):
        """The texts that a text brings: its answer, and the call that follows."""
        await self.order({"send": text})
        return await self.texts_now()

    async def close(self):
        await self.order({"close": 1000})
        expect("how it closes", await self.event(), {"closed": 1000})
        await self.ended()

    async def ended(self):
        """Waits for the end of its process."""
        self.process.stdin.close()
        expect("the status of Node's client", await bounded(self.process.wait()), 0)
