#!/usr/bin/python3
"""back_office.py URL POINT [OPERATOR_KEY POINT_KEY]: a back office and a charge point of your own, in Python with Debian's
python3-websockets.

URL is that of the central system, ws://HOST:PORT. Where that wants passwords, two files have the operator's NAME:KEY and the
point's, as `central key` tells them. The point boots and replies to each call; the back office installs a limit, asks what the
point's connector 1 may draw, and clears the limit again.
"""
import asyncio
import json
import sys

import websockets

LIMIT = {"connectorId": 0, "csChargingProfiles": {
    "chargingProfileId": 7, "stackLevel": 0, "chargingProfilePurpose": "TxDefaultProfile", "chargingProfileKind": "Absolute",
    "chargingSchedule": {"startSchedule": "2025-01-01T00:00:00Z", "chargingRateUnit": "A",
                         "chargingSchedulePeriod": [{"startPeriod": 0, "limit": 12.5}]}}}
PATIENCE = 10  # seconds


def logged_in(url, path):
    """A URL with the name and the key of a file, if there is one. The library sends them in the handshake, by HTTP Basic."""
    if path is None:
        return url
    with open(path, encoding="utf-8") as file:
        return url.replace("://", f"://{file.read().strip()}@")


async def received(socket, else_said):
    """The next message of the central system. Where none comes in time, the program says so and ends."""
    try:
        return json.loads(await asyncio.wait_for(socket.recv(), PATIENCE))
    except asyncio.TimeoutError:
        sys.exit(f"{else_said} (waited {PATIENCE} seconds)")


async def call(socket, action, payload):
    """Sends a CALL and gives back the payload of its CALLRESULT: an operator's connection brings nothing else."""
    await socket.send(json.dumps([2, action, action, payload]))
    kind, _, *rest = await received(socket, f"{action}: no answer came")
    return rest[0] if kind == 3 else sys.exit(f"{action}: {rest}")


async def point(socket, calls):
    """A point that boots, and then replies to so many calls of the central system, with their ids to the letter."""
    await socket.send(json.dumps([2, "boot", "BootNotification", {"chargePointVendor": "V", "chargePointModel": "M"}]))
    while calls > 0:
        message = await received(socket, "point: no call came: start the central system anew for each run")
        if message[0] == 2:
            print("point:", message[2])
            calls -= 1
            await socket.send(json.dumps([3, message[1], {"status": "Accepted"}]))


async def main(url, identity, operator_key=None, point_key=None):
    async with websockets.connect(f"{logged_in(url, operator_key)}/operator/{identity}", subprotocols=["ocpp1.6"]) as office:
        print("office:", await call(office, "SetChargingProfile", LIMIT))
        schedule = await call(office, "GetCompositeSchedule", {"connectorId": 1, "duration": 3600})
        print("office:", schedule["chargingSchedule"]["chargingSchedulePeriod"])
        print("office:", await call(office, "ClearChargingProfile", {"id": LIMIT["csChargingProfiles"]["chargingProfileId"]}))
        # What waits now is the clear of all that the point had before, the install, and the clear.
        async with websockets.connect(f"{logged_in(url, point_key)}/{identity}", subprotocols=["ocpp1.6"]) as socket:
            await point(socket, 3)


asyncio.run(main(*sys.argv[1:]))
