"""Histories at random: points and operators over sockets, with all that they sent and were told."""
import json
import random
import time

from days import HOURS, Told, is_answered_late
from raw_client import RawClient
from run_data import stop
from texts import MIDNIGHT, accepted, ask, call, clear, error, heartbeat, install, profile, result, start

POINTS, CONNECTORS = ("P1", "P2", "P3"), 2
PURPOSES = ("TxDefaultProfile", "TxDefaultProfile", "ChargePointMaxProfile", "TxProfile")
FAULTS = ('[2,"9","Heart', '[2,"9"]', "[7]", call("f", "Foo"), call("f", "SetChargingProfile"), call("f", "StartTransaction"), "", "[]")
STATUSES = ("Accepted", "Accepted", "Accepted", "Rejected", "NotSupported")


class Point:
    """A point of a history: its connections, its calls and its transactions."""

    def __init__(self, name, chance):
        self.name, self.chance = name, chance
        self.clients = {}
        self.seen = 0            # how many calls came
        self.open = None         # the call that is in flight over the present connection
        self.transactions = []   # the numbers of transactions that may be active
        self.starts = []         # texts of starts, which may be sent once more

    def connect(self, running):
        self.cut("operator")
        self.cut("point")
        self.clients = {"operator": RawClient.connected(running, f"/operator/{self.name}")}
        self.clients["point"] = RawClient.connected(running, f"/{self.name}")

    def cut(self, side):
        if side in self.clients:
            self.clients.pop(side).socket.close()
        if side == "point":
            self.open = None

    def tell(self, sender, text):
        """Sends a text. What came of it, but for calls that came before."""
        began = time.time()
        brought = self.clients[sender].texts_of(text)
        while is_answered_late(text, brought):
            brought = self.clients[sender].texts_now()
        new = [text for text in brought if not text.startswith("[2,") or self._is_new(text)]
        told = Told(sender, self.name, text, new, began)
        if told.started():
            self.transactions = [*self.transactions[-3:], told.started()]
            self.starts = [*self.starts[-3:], text]
        return told

    def _is_new(self, text):
        self.open = json.loads(text)
        number = int(self.open[1])
        is_new = number == self.seen
        self.seen = max(self.seen, number + 1)
        return is_new

    # What a point says

    def by_point(self, number):
        choice = self.chance.random()
        if self.open and choice < 0.55:
            return self.reply()
        if choice < 0.70:
            return self.begin_or_end(number)
        if choice < 0.73:
            return self.chance.choice(FAULTS)
        if choice < 0.76:
            return accepted(str(self.seen + self.chance.randrange(3)))  # nobody asked
        return heartbeat(f"h{number}")

    def begin_or_end(self, number):
        choice = self.chance.random()
        if self.starts and choice < 0.1:
            return self.chance.choice(self.starts)
        if self.transactions and choice < 0.5:
            return stop(f"e{number}", self.chance.choice(self.transactions))
        moment = f"2025-01-0{self.chance.randint(1, 9)}T0{self.chance.randrange(10)}:00:00Z"
        return start(f"s{number}", self.chance.randint(1, CONNECTORS), f"T{self.chance.randrange(4)}", moment)

    def reply(self):
        called, self.open = self.open, None
        if self.chance.random() < 0.1:
            return error(called[1], "InternalError", "no reason")
        if called[2] == "GetCompositeSchedule":
            return self.reply_to_audit(called)
        return result(called[1], {"status": self.chance.choice(STATUSES)})

    def reply_to_audit(self, called):
        periods = [{"startPeriod": 0, "limit": self.chance.choice([16.0, 32.0, 63.0])}]
        schedule = {"duration": called[3]["duration"], "chargingRateUnit": "A", "chargingSchedulePeriod": periods}
        more = {"connectorId": called[3]["connectorId"], "scheduleStart": MIDNIGHT, "chargingSchedule": schedule}
        return result(called[1], {"status": "Accepted", **(more if self.chance.random() < 0.8 else {})})

    # What an operator says

    def by_operator(self, number):
        choice = self.chance.random()
        if choice < 0.45:
            return self.install(number)
        if choice < 0.58:
            return clear(f"c{number}", **self.criteria())
        if choice < 0.70:
            return ask(f"q{number}", self.chance.randint(0, CONNECTORS), self.chance.choice([60, 86_400, 0]))
        if choice < 0.80:
            return self.remote_start(number)
        if choice < 0.90:
            return call(f"u{number}", "AuditPoint", {"connectorId": self.chance.randint(1, CONNECTORS), "duration": 60})
        return self.chance.choice(FAULTS) if choice < 0.93 else call(f"p{number}", "PointStatus")

    def install(self, number):
        purpose = self.chance.choice(PURPOSES)
        connector = {"ChargePointMaxProfile": 0, "TxProfile": self.chance.randint(1, CONNECTORS)}.get(purpose, self.chance.randint(0, CONNECTORS))
        return install(f"i{number}", self.profile(purpose), connector)

    def profile(self, purpose):
        # A Relative maximum begins at the moment of its install, of which a client knows the second only nearly.
        kinds = ("Absolute", "Recurring") if purpose == "ChargePointMaxProfile" else ("Absolute", "Recurring", "Relative")
        kind = self.chance.choice(kinds)
        more = {"recurrencyKind": self.chance.choice(["Daily", "Weekly"])} if kind == "Recurring" else {}
        if self.chance.random() < 0.2:
            more["validTo"] = f"20{self.chance.randint(25, 40)}-01-01T00:00:00Z"
        if purpose == "TxProfile" and self.transactions and self.chance.random() < 0.8:
            more["transactionId"] = self.chance.choice(self.transactions)
        limits = [hour + self.chance.randrange(10) / 10 for hour in HOURS[:self.chance.randint(1, 6)]]
        return profile(self.chance.randrange(30), limits, self.chance.randrange(6), purpose, kind, **more)

    def criteria(self):
        whole = {
            "id": self.chance.randrange(30), "connectorId": self.chance.randint(0, CONNECTORS),
            "chargingProfilePurpose": self.chance.choice(PURPOSES), "stackLevel": self.chance.randrange(6),
        }
        most = 1 if self.chance.random() < 0.98 else 0
        return dict(self.chance.sample(list(whole.items()), self.chance.randint(most, 3)))

    def remote_start(self, number):
        fields = {"connectorId": self.chance.randint(1, CONNECTORS), "idTag": f"T{self.chance.randrange(4)}"}
        if self.chance.random() < 0.5:
            fields["chargingProfile"] = self.profile("TxProfile")
            fields["chargingProfile"].pop("transactionId", None)
        return call(f"r{number}", "RemoteStartTransaction", fields)


class History:
    """What was told at all points, in one order."""

    def __init__(self, seed):
        self.chance = random.Random(seed)
        self.points = [Point(name, self.chance) for name in POINTS]
        self.told = []
        self.running = None

    def connect(self, running):
        self.running = running
        for point in self.points:
            point.connect(running)

    def cut(self):
        for point in self.points:
            point.cut("operator")
            point.cut("point")

    def play(self, steps):
        for _ in range(steps):
            self.step()

    def step(self):
        number, point = len(self.told), self.chance.choice(self.points)
        choice = self.chance.random()
        if choice < 0.02:
            # What was in flight goes again, behind a text: a script has no links, so a start before would find a remote start's call gone out.
            point.connect(self.running)
            self.told.append(point.tell("point", heartbeat(f"h{number}")))
        elif choice < 0.35:
            self.told.append(point.tell("operator", point.by_operator(number)))
        else:
            self.told.append(point.tell("point", point.by_point(number)))

    def ask_all(self):
        """Operators ask for what holds at each connector, and for the state of each point."""
        for point in self.points:
            for connector in range(CONNECTORS + 1):
                self.told.append(point.tell("operator", ask(f"all{connector}", connector, 86_400)))
            self.told.append(point.tell("operator", call("all", "PointStatus")))

    def beat_all(self):
        """Each point says something, so a call that waits for it goes out now and not later."""
        for point in self.points:
            self.told.append(point.tell("point", heartbeat("beat")))

    def script(self):
        return "".join(told.line() for told in self.told)
