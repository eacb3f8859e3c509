"""A charge point of OCPP 1.6-J that keeps what it is told, comes back after each lost connection, and may forget all."""
import asyncio
import base64
import json
import socket as sockets
import struct
import time

import websockets
import websockets.exceptions

import rules

FAILURES = (OSError, EOFError, asyncio.TimeoutError, websockets.exceptions.WebSocketException)


def login(name, key):
    return {"Authorization": "Basic " + base64.b64encode(f"{name}:{key}".encode()).decode()}


def connected(url, name, key):
    return websockets.connect(url, subprotocols=["ocpp1.6"], extra_headers=login(name, key), ping_interval=None, open_timeout=30)


class Point:
    def __init__(self, identity, key, url, report):
        self.identity, self.key, self.url, self.report = identity, key, f"{url}/{identity}", report
        self.rows, self.cars, self.asked = [], {}, {}
        self.last_call, self.socket, self.waiting, self.number = -1, None, {}, 0
        self.lock, self.online, self.booting, self.refused = asyncio.Lock(), True, True, 0
        self.forgot = False

    async def live(self):
        """Connects, and again after each loss."""
        while True:
            if self.online:
                try:
                    async with connected(self.url, self.identity, self.key) as opened:
                        await self.serve(opened)
                except websockets.exceptions.InvalidStatusCode as refusal:
                    self.refused = refusal.status_code
                except FAILURES:
                    pass
            await asyncio.sleep(1)

    async def serve(self, opened):
        self.socket = opened
        if self.booting:
            asyncio.ensure_future(self.boot())
        async for message in opened:
            if self.socket is opened:  # what comes over an older connection is of no account
                await self.take(opened, json.loads(message))

    async def boot(self):
        self.booting = not await self.call("BootNotification", {"chargePointVendor": "V", "chargePointModel": "M"})

    async def take(self, opened, message):
        if message[0] != 2:
            waiting = self.waiting.pop(message[1], None)
            if waiting and not waiting.done():
                waiting.set_result(message)
            return
        number = int(message[1])
        if number not in (self.last_call, self.last_call + 1):
            self.report("WRONG", f"{self.identity}: call {number} after call {self.last_call}")
        if number != self.last_call:
            self.report("calls", "")
        self.last_call = number
        await opened.send(json.dumps([3, message[1], self.obey(message[2], message[3])]))

    def obey(self, action, payload):
        if action == "SetChargingProfile":
            if not self.takes(payload["connectorId"], payload["csChargingProfiles"]):
                return {"status": "Rejected"}
            self.rows = rules.installed(self.rows, payload)
        elif action == "ClearChargingProfile":
            before, self.rows = self.rows, rules.cleared(self.rows, payload)
            return {"status": "Accepted" if before != self.rows else "Unknown"}
        elif action == "RemoteStartTransaction":
            self.asked[payload["connectorId"]] = payload
        else:
            return self.composite(payload)
        return {"status": "Accepted"}

    def takes(self, connector, profile):
        """Whether the point's bound of the stack level allows the profile, and its transaction is there."""
        car = self.cars.get(connector, {})
        there = profile["chargingProfilePurpose"] != "TxProfile" or profile["transactionId"] == car.get("transactionId")
        return there and profile["stackLevel"] <= 8

    def composite(self, payload):
        now, connector = int(time.time()), payload["connectorId"]
        car = self.cars.get(connector)
        periods = rules.schedule(self.rows, car and rules.seconds(car["timestamp"]), connector, now, payload["duration"])
        return {"status": "Accepted", "connectorId": connector, "scheduleStart": rules.instant(now), "chargingSchedule": {
            "duration": payload["duration"], "chargingRateUnit": "A", "chargingSchedulePeriod": periods}}

    async def call(self, action, payload):
        """The payload of the answer; None where it was refused, or the connection was lost."""
        if not self.socket or self.socket.closed:
            return None
        self.number += 1
        identity = f"p{self.number}"
        self.waiting[identity] = asyncio.get_running_loop().create_future()
        try:
            await self.socket.send(json.dumps([2, identity, action, payload]))
            answer = await asyncio.wait_for(self.waiting[identity], 20)
        except FAILURES:
            return None
        if answer[0] == 4:
            self.report("answered " + answer[2], self.identity)
        return answer[2] if answer[0] == 3 else None

    async def until_answered(self, action, payload):
        """As a point does: the same message again until it is answered."""
        while (answer := await self.call(action, payload)) is None:
            await asyncio.sleep(1)
        return answer

    async def drop(self, how):
        """Ends the connection: by a close frame, by a reset, or by a second one next to it."""
        opened = self.socket
        if not opened or opened.closed:
            return
        if how == "twice":
            asyncio.ensure_future(self.second())
        elif how == "reset":
            raw = opened.transport.get_extra_info("socket")
            raw.setsockopt(sockets.SOL_SOCKET, sockets.SO_LINGER, struct.pack("ii", 1, 0))
            opened.transport.abort()
        else:
            await opened.close()

    async def second(self):
        try:
            async with connected(self.url, self.identity, self.key) as opened:
                await self.serve(opened)
        except FAILURES:
            pass
