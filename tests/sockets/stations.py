"""A charge point with its operator, who know what they were answered: over restarts they see whether anything of it is missing."""
import json
import random
import time

from raw_client import PING, PONG, RawClient
from serving import PATIENCE, Unexpected, expect
from texts import CALL_0, OCPP, accepted, ask, call, clear, heartbeat, install, install_call, profile, site, start

CONNECTORS, LEVELS, CEILING = 2, 3, 9_000_000.0

# So many calls may wait before the operator waits; 256 are the most.
MOST_WAITING = 200


def stations_site(count):
    """A site of the points P1, P2, .. whose ceilings no limit of a station reaches."""
    return site({f"P{number}": (CEILING, [CEILING] * CONNECTORS) for number in range(1, count + 1)})


class Cut(Exception):
    """The connection ended, as where the server was killed."""


class Pending:
    """A change that was sent and isn't answered. `made` is done once it is known that it was made; else it is sent `again`."""

    def __init__(self, made, again=None):
        self.made, self.again = made, again


class Pair:
    """The connections of a point and its operator, of which one is open at a time where they take `turns`."""

    def __init__(self, name, turns):
        self.name, self.turns = name, turns
        self.clients, self.running = {}, None

    def is_open(self, side):
        return side in self.clients

    def cut(self):
        for client in self.clients.values():
            client.socket.close()
        self.clients = {}

    def client(self, side):
        if side not in self.clients:
            if self.turns:
                self._close_all()
            self.clients[side] = self._connected(f"/operator/{self.name}" if side == "operator" else f"/{self.name}")
        return self.clients[side]

    def _close_all(self):
        try:
            for client in self.clients.values():
                client.close()
        except (OSError, Unexpected) as fault:
            raise Cut from fault
        self.clients = {}

    def _connected(self, path):
        """A connection, once there is a seat for it."""
        end = time.monotonic() + PATIENCE
        while time.monotonic() < end:
            try:
                client = RawClient(self.running)
                response = client.shake_hands(path, [f"Sec-WebSocket-Protocol: {OCPP}"])
            except ConnectionRefusedError as fault:
                raise Cut from fault
            except OSError:
                response = None
            if response is not None and response.status == 101:
                return client
            client.socket.close()
            if response is not None:
                expect("the handshake", response.status, 503)
            elif self.is_killed():
                raise Cut
            time.sleep(0.002)
        raise Unexpected("there is no seat for a station")

    def is_killed(self):
        """Whether the program is killed, and soon seen so: a connection that it turns away may be reset, too."""
        end = time.monotonic() + 0.5
        while time.monotonic() < end:
            if self.running.process.poll() is not None:
                return True
            time.sleep(0.01)
        return False

    def texts_of(self, side, text):
        """What a text brings, up to the answer to a ping behind it."""
        client = self.client(side)
        try:
            client.pings += 1
            client.send_text(text)
            client.send_frame(PING, b"p%d" % client.pings)
            while True:
                frame = client.read_frame()
                if frame is None:
                    raise Cut
                if frame.opcode == PONG:
                    return
                yield frame.payload.decode()
        except OSError as fault:
            raise Cut from fault


class Station:
    """A point, its operator, and what both were answered.

    Each install has a limit that no other has, so an answer tells which install it depends on. A change that was sent and
    isn't answered is `pending`: it may have been made or not.
    """

    def __init__(self, name, seed=0, turns=False):
        self.pair = Pair(name, turns)
        self.name, self.random = name, random.Random(f"{name} {seed}")
        self.profiles = {}      # by connector and level
        self.calls = [CALL_0]   # the texts of all calls that there are, by their numbers
        self.seen = 0           # how many of them came to the point
        self.open = None        # the number of the call that came last, if it isn't replied to
        self.transactions = {}  # the number and the text of a start, by connector
        self.latest = 0         # the latest transaction that was told
        self.changes = 0        # how many changes were made
        self.number = 0         # how many texts were sent
        self.pending = None

    def connect(self, running):
        """Is served by this program from now on. Finds out what became of what wasn't answered, and that the rest is there."""
        self.pair.cut()
        self.pair.running = running
        self.open = None
        self._settle()
        for connector in range(1, CONNECTORS + 1):
            self.ask(connector)
        for number, text in self.transactions.values():
            again = json.loads(self._answers("point", text)[0])[2]["transactionId"]
            expect(f"{self.name}: transaction {number} is told again", again, number)

    def step(self):
        """Sends one text, chosen at random."""
        choice = self.random.random()
        if choice < 0.35 and len(self.calls) - self.seen < MOST_WAITING:
            self._clear() if choice < 0.05 and self.profiles else self._install()
        elif choice < 0.55:
            self._start_or_stop()
        elif choice < 0.65:
            self.ask(self.random.randint(1, CONNECTORS))
        else:
            self._reply_or_beat()

    # What is sent

    def _answers(self, side, text):
        return [text for text in self._seen(side, text) if not text.startswith("[2,")]

    def _seen(self, side, text):
        for brought in self.pair.texts_of(side, text):
            if brought.startswith("[2,"):
                self._see_call(brought)
            yield brought

    def _next_id(self):
        self.number += 1
        return f"{self.name}-{self.number}"

    def _install(self):
        place = connector, level = self.random.randint(1, CONNECTORS), self.random.randrange(LEVELS)
        message_id = self._next_id()
        fields = profile(connector * 10 + level, [round(len(self.calls) + self.number / 10, 1)], level=level)

        def made():
            self.profiles[place] = fields
            self.calls.append(install_call(len(self.calls), fields, connector))
        self._change(message_id, install(message_id, fields, connector), made)

    def _clear(self):
        place = self.random.choice(sorted(self.profiles))
        criteria = {"id": self.profiles[place]["chargingProfileId"], "connectorId": place[0]}
        message_id = self._next_id()

        def made():
            del self.profiles[place]
            self.calls.append(call(str(len(self.calls)), "ClearChargingProfile", criteria))
        self._change(message_id, clear(message_id, **criteria), made)

    def _change(self, message_id, text, made):
        """An operator's change, which becomes a call."""
        self.pending = Pending(made)
        expect(f"the answer to {text}", self._answers("operator", text), [accepted(message_id)])
        self._made()

    def _made(self):
        pending, self.pending = self.pending, None
        self.changes += 1
        pending.made()

    def _start_or_stop(self):
        connector = self.random.randint(1, CONNECTORS)
        message_id = self._next_id()
        if connector in self.transactions:
            fields = {"transactionId": self.transactions[connector][0], "meterStop": 1, "timestamp": "2025-01-01T00:00:00Z"}
            self._stop(connector, message_id, call(message_id, "StopTransaction", fields))
        else:
            self._start(connector, start(message_id, connector, f"T{self.number}"))

    def _start(self, connector, text):
        self.pending = Pending(lambda: None, lambda: self._start(connector, text))
        number = json.loads(self._answers("point", text)[0])[2]["transactionId"]
        expect(f"{self.name}: whether transaction {number} is later than {self.latest}", number > self.latest, True)
        self._made()
        self.latest = number
        self.transactions[connector] = number, text

    def _stop(self, connector, message_id, text):
        self.pending = Pending(lambda: None, lambda: self._stop(connector, message_id, text))
        expect("the answer to a stop", self._answers("point", text), [f'[3,"{message_id}",{{}}]'])
        self._made()
        del self.transactions[connector]

    def _reply_or_beat(self):
        if self.open is not None and self.pair.is_open("point"):
            number, self.open = self.open, None
            expect("the answers to a reply", self._answers("point", accepted(str(number))), [])
        else:
            message_id = self._next_id()
            answers = self._answers("point", heartbeat(message_id))
            expect("a heartbeat", [text[:5 + len(message_id)] for text in answers], [f'[3,"{message_id}"'])

    def ask(self, connector):
        """Asks for the limit of a connector, which depends on its latest installs and clears."""
        message_id = self._next_id()
        answer = json.loads(self._answers("operator", ask(message_id, connector, 60))[0])
        told = answer[2]["chargingSchedule"]["chargingSchedulePeriod"][0]["limit"]
        expect(f"{self.name}: the limit of connector {connector}", told, self._limit(connector))

    def _limit(self, connector):
        levels = [level for place, level in self.profiles if place == connector]
        if not levels:
            return CEILING
        return self.profiles[connector, max(levels)]["chargingSchedule"]["chargingSchedulePeriod"][0]["limit"]

    def status(self):
        return json.loads(self._answers("operator", call(self._next_id(), "PointStatus"))[0])[2]

    # What comes

    def _see_call(self, text):
        """A call comes in its turn: the one behind the last, or that one again, as its reply may have been lost."""
        number = int(json.loads(text)[1])
        expect(f"{self.name}: whether call {number} comes behind {self.seen} others", number in (self.seen - 1, self.seen), True)
        if number == len(self.calls) and self.pending and not self.pending.again:
            self._made()  # the change that wasn't answered
        expect(f"{self.name}: the call", text, self.calls[number] if number < len(self.calls) else "none")
        self.seen, self.open = number + 1, number

    # Behind a restart

    def _settle(self):
        """What became of the change that wasn't answered. What can't be seen to have been made is sent again."""
        if not self.pending:
            return
        if self.pending.again:
            self.pending.again()
            return
        self.drain()
        self.pending = None

    def drain(self):
        """The point is sent all its calls, and replies to them. Nothing of what was answered is missing then."""
        for _ in range(2 * (len(self.calls) - self.seen) + 4):
            self._reply_or_beat()
        expect(f"{self.name}: what still waits", self.status()["outbox"], 0)
        expect(f"{self.name}: the calls that came", self.seen, len(self.calls))

    def resumed(self):
        """What a program says that resumes: profiles, transactions, and the fewest calls that may wait."""
        return len(self.profiles), len(self.transactions), len(self.calls) - self.seen
