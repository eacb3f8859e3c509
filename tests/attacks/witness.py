#!/usr/bin/env python3
"""witness.py PORT HEADERS: the point P1, which heartbeats, and an operator of it, who installs and asks, each on its own thread.

HEADERS are a JSON object: what "point" and "operator" send in their handshakes. It prints a line once both were answered. Then it
reads words from standard input, one a line: `begin` forgets what was measured; `end` ends it, and prints as JSON what was seen.
"""
import json
import os
import sys
import threading
import time

sys.path.insert(0, os.path.join(os.path.dirname(os.path.abspath(__file__)), os.pardir, "sockets"))
from raw_client import TEXT, RawClient
from serving import PATIENCE, Unexpected
from texts import OCPP, accepted, ask, heartbeat, install, profile

# Seconds between an answer and the next message, and for how long a new connection is tried.
PAUSE, LONGEST_AWAY = 0.02, 60.0

# Every so many messages of the operator is an install.
INSTALL_EACH = 10


class Cut(Exception):
    """The connection has ended."""


class Peer:
    """A client that sends one message after another. Where its connection ends it comes back."""

    def __init__(self, port, path, headers):
        self.port, self.path, self.headers = port, path, headers
        self.client = None
        self.count = 0
        self.is_over, self.was_answered = threading.Event(), threading.Event()
        self.waits_since, self.fault = None, None
        self.begin()
        self.thread = threading.Thread(target=self._keep_on, daemon=True)
        self.thread.start()

    def begin(self):
        self.waits, self.cuts, self.turned_away, self.away, self.refusals = [], 0, 0, 0.0, []

    def _keep_on(self):
        try:
            while not self.is_over.is_set():
                try:
                    if self.client is None:
                        self._come()
                    self.count += 1
                    self.waits_since = time.monotonic()
                    self.turn()
                    self.waits.append(time.monotonic() - self.waits_since)
                    self.waits_since = None
                    self.was_answered.set()
                    self.is_over.wait(PAUSE)
                except (Cut, OSError) as cut:
                    if isinstance(cut, TimeoutError):
                        raise Unexpected(f"no answer within {PATIENCE:.0f} seconds") from None
                    self.cuts += 1
                    self.client.socket.close()
                    self.client = self.waits_since = None
        except Exception as fault:  # whatever it is, it is told
            self.fault = f"{self.path}: {type(fault).__name__}: {fault}"
            self.was_answered.set()

    def _come(self):
        began = time.monotonic()
        while time.monotonic() < began + LONGEST_AWAY and not self.is_over.is_set():
            try:
                client = RawClient(self)
                response = client.shake_hands(self.path, [f"Sec-WebSocket-Protocol: {OCPP}", *self.headers])
                if response is not None and response.status == 101:
                    self.client = client
                    self.away = max(self.away, time.monotonic() - began)
                    return
                client.socket.close()
            except ConnectionError:
                pass
            self.turned_away += 1
            time.sleep(0.05)
        raise Unexpected(f"it can't come back for {time.monotonic() - began:.0f} seconds")

    def next_text(self):
        frame = self.client.read_frame()
        if frame is None or frame.opcode != TEXT:
            raise Cut
        return frame.payload.decode()

    def end(self):
        """Ends behind the message that it waits for. What was seen."""
        self.is_over.set()
        since = self.waits_since
        self.thread.join(PATIENCE + LONGEST_AWAY)
        if self.thread.is_alive():
            self.fault = f"{self.path}: it still waits for an answer"
        waits = sorted(self.waits or [time.monotonic() - (since or time.monotonic())])
        return {
            "count": len(waits), "median": waits[len(waits) // 2], "worst": waits[-1], "cuts": self.cuts, "away": self.away,
            "turned_away": self.turned_away, "refusals": self.refusals, "fault": self.fault,
        }


class Point(Peer):
    """It accepts each call, and has them in their order."""

    confirmed = -1

    def turn(self):
        message_id = f"h{self.count}"
        self.client.send_text(heartbeat(message_id))
        while True:
            text = self.next_text()
            if text.startswith(f'[3,"{message_id}",'):
                return
            if not text.startswith("[2,"):
                raise Unexpected(f"what comes instead of an answer: {text[:100]}")
            number = int(json.loads(text)[1])
            # A call whose reply was lost with the connection comes again.
            if number not in (self.confirmed, self.confirmed + 1):
                raise Unexpected(f"call {number} comes behind call {self.confirmed}")
            self.confirmed = number
            self.client.send_text(accepted(str(number)))


class Operator(Peer):
    """It finds in each schedule what it has installed."""

    limit = 32.0

    def turn(self):
        if self.count % INSTALL_EACH == 1:
            self._install()
        else:
            self._ask()

    def _install(self):
        limit = float(1 + self.count % 31)
        text = install(f"w{self.count}", profile(1, [limit]))
        self.unsure.append((text, limit))
        self.client.send_text(text)
        answer = self.next_text()
        self.unsure.pop()
        if answer == accepted(f"w{self.count}"):
            self.installs.append(text)
            self.limit = limit
        else:
            self.refusals.append(answer[:200])

    def _ask(self):
        self.client.send_text(ask(f"a{self.count}", 1, 86_400))
        answer = self.next_text()
        fields = json.loads(answer)[2]
        if not isinstance(fields, dict) or "chargingSchedule" not in fields:
            self.refusals.append(answer[:200])
            return
        self.answers += 1
        found = [period["limit"] for period in fields["chargingSchedule"]["chargingSchedulePeriod"]]
        if found not in [[limit] for limit in (self.limit, *(limit for _, limit in self.unsure))]:
            raise Unexpected(f"the limits {found}, wanted {self.limit}")

    installs, unsure, answers = None, None, 0

    def begin(self):
        super().begin()
        if self.installs is None:
            # Of an unsure install nobody knows whether it was made: its connection was cut.
            self.installs, self.unsure = [], []


def main():
    port, headers = int(sys.argv[1]), json.loads(sys.argv[2])
    operator = Operator(port, "/operator/P1", headers.get("operator", []))
    operator.was_answered.wait()
    point = Point(port, "/P1", headers.get("point", []))
    point.was_answered.wait()
    print("ready", flush=True)
    for line in sys.stdin:
        if line == "begin\n":
            operator.begin()
            point.begin()
            print("begun", flush=True)
        else:
            break
    seen = {"operator": operator.end(), "point": point.end()}
    seen["installs"], seen["unsure"] = operator.installs, [text for text, _ in operator.unsure]
    seen["limit"], seen["answers"], seen["confirmed"] = operator.limit, operator.answers, point.confirmed
    print(json.dumps(seen), flush=True)


main()
