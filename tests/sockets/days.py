"""Days over sockets, compared byte for byte with what the program replays of the same texts."""
import asyncio
import calendar
import json
import os
import subprocess
import tempfile
import time

from node_client import NodeClient
from python_client import PythonClient
from raw_client import RawClient
from serving import PATIENCE, Serving, Unexpected, expect
from texts import (
    MIDNIGHT, accepted, ask, call, clear, heartbeat, install, plain_site, profile, result, start,
)

HOURS = [6 + hour * 7 % 26 for hour in range(24)]


def instant(seconds):
    return time.strftime("%Y-%m-%dT%H:%M:%SZ", time.gmtime(seconds))


def seconds_of(text):
    return calendar.timegm(time.strptime(text, "%Y-%m-%dT%H:%M:%SZ"))


def is_answered_late(text, brought):
    """Whether it is an ask whose answer comes behind that to the ping, as of one that takes long: without a proof one of a month does."""
    return "UNPROVED" in os.environ and not brought and '"GetCompositeSchedule"' in text


async def brought_by(client, text):
    """What a text brings."""
    brought = await client.texts_of(text)
    while is_answered_late(text, brought):
        brought = await client.texts_now()
    return brought


class Told:
    """A text that was sent, by whom for which point, when at the latest, and what it brought."""

    def __init__(self, sender, point, text, brought, began):
        self.sender, self.point, self.text, self.brought = sender, point, text, brought
        self.moment = self._moment(began, time.time())

    def _moment(self, began, ended):
        """The moment that the server says in its answer, which has to lie between two of ours; else one of ours."""
        for answer in self.brought:
            payload = json.loads(answer)[2]
            told = payload.get("currentTime") or payload.get("scheduleStart") if isinstance(payload, dict) else None
            if told:
                expect(f"{told} is a moment of the text", int(began) <= seconds_of(told) <= int(ended), True)
                return told
        return instant(int(ended))

    def started(self):
        """The number of the transaction that the text began or told again, or None."""
        if self.brought and '"StartTransaction"' in self.text and self.brought[0].startswith("[3,"):
            return json.loads(self.brought[0])[2]["transactionId"]
        return None

    def line(self):
        return f"{self.moment} {self.sender} {self.point} {self.text}\n"

    def output(self):
        """What a replay prints for it: answers have > before them, calls their point."""
        marks = ((f"* {self.point}" if text.startswith("[2,") else ">", text) for text in self.brought)
        return "".join(f"{mark} {text}\n" for mark, text in marks)


class Day:
    """A point's day: its own client, its operators' clients, and what was told so far."""

    def __init__(self, name, point, operators):
        self.name, self.point, self.operators = name, point, operators
        self.told = []
        self.turn = 0

    async def tell(self, sender, client, text):
        began = time.time()
        told = Told(sender, self.name, text, await brought_by(client, text), began)
        self.told.append(told)
        return told

    async def by_point(self, text):
        """The point sends a text, and replies to each call that it gets in turn."""
        first = told = await self.tell("point", self.point, text)
        while told.brought and told.brought[-1].startswith("[2,"):
            number = json.loads(told.brought[-1])[1]
            reply = accepted(number) if int(number) % 3 else call_error(number)
            told = await self.tell("point", self.point, reply)
        return first

    async def by_operator(self, text):
        """The operators send in turn."""
        self.turn += 1
        return await self.tell("operator", self.operators[self.turn % len(self.operators)], text)


def call_error(number):
    return f'[4,"{number}","InternalError","no reason",{{}}]'


async def morning(day, number):
    """A point begins its day, and its operators install what holds on all days."""
    await day.by_operator(ask("before"))
    await day.by_point(call("boot", "BootNotification", {"chargePointVendor": "V", "chargePointModel": "M"}))
    hours = HOURS[number:] + HOURS[:number]
    await day.by_operator(install("daily", profile(1, hours, kind="Recurring", recurrencyKind="Daily")))
    weekly = profile(2, [9.5, 31], 1, kind="Recurring", step=90_000 + number, recurrencyKind="Weekly")
    await day.by_operator(install("weekly", weekly, 1))
    await day.by_operator(install("max", profile(3, [50, 40 + number], purpose="ChargePointMaxProfile", step=7_200)))
    for connector in (0, 1, 2):
        await day.by_operator(ask(f"morning-{connector}", connector, 86_400))
    await day.by_point(call("status", "StatusNotification", {"connectorId": 1, "errorCode": "NoError", "status": "Available"}))
    await day.by_operator(install("wrong", profile(4, [1], purpose="ChargePointMaxProfile"), 1))
    await day.by_operator(install("level", profile(4, [1], level=100)))
    await day.by_operator(install("tx", profile(4, [7.5], purpose="TxProfile"), 1))


async def charging(day, number):
    """A car charges: transactions are told, once again too, and a profile of the transaction is installed."""
    await day.by_point(call("authorize", "Authorize", {"idTag": "Tag"}))
    tag = f"Tag{number}"
    first = await day.by_point(start("start", 1, tag))
    await day.by_point(start("again", 1, tag.upper(), "2025-01-01T01:00:00.5+01:00"))
    await day.by_operator(install("car", profile(5, [10, 8.1, 16], 3, "TxProfile", "Relative", transactionId=first.started()), 1))
    await day.by_operator(install("other", profile(6, [1], purpose="TxProfile", transactionId=2_000_000), 1))
    for connector in (0, 1, 2):
        await day.by_operator(ask(f"charging-{connector}", connector, 7_200 + number))
    second = await day.by_point(start("second", 2, "B", "2025-01-02T03:04:05Z"))
    await day.by_operator(ask("both", 0, 2_678_400))
    sample = {"timestamp": MIDNIGHT, "sampledValue": [{"value": "1"}]}
    await day.by_point(call("meter", "MeterValues", {"connectorId": 1, "meterValue": [sample]}))
    await day.by_point(heartbeat("größer \"€\""))
    for message_id, transaction in (("stop", first.started()), ("stopped", first.started()), ("stop 2", second.started())):
        stop = {"transactionId": transaction, "meterStop": 5, "timestamp": MIDNIGHT}
        await day.by_point(call(message_id, "StopTransaction", stop))
        await day.by_operator(ask(message_id, 0, 60))


async def evening(day, number):
    """Texts with faults, clears, and asks of what is left."""
    foreign, faulty = call("9", "SetChargingProfile"), call("d", "GetCompositeSchedule")
    for text in ('[2,"9","Heart', '[2,"9"]', "[7]", call("9", "Foo"), foreign, start("9", 3), start("9", 1, "x" * 21)):
        await day.by_point(text)
    for text in (ask("d", duration=0), ask("d", connector=3), ask("d", chargingRateUnit="W"), faulty, heartbeat("d"), "", "[]"):
        await day.by_operator(text)
    await day.by_operator(clear("none", id=77))
    await day.by_operator(clear("level", stackLevel=1, connectorId=1))
    await day.by_operator(ask("level", 1, 90_000))
    await day.by_operator(install("again", profile(1, [13.5 + number])))
    await day.by_operator(ask("again", 1, 2_678_400))
    await day.by_operator(clear("all"))
    await day.by_operator(ask("nothing", 2))
    await day.by_point(call("data", "DataTransfer", {"vendorId": "v"}))
    await day.by_point(heartbeat("good night"))


def in_one_order(days):
    """What was told at all points, in the order of each, so that transactions begin in the order of their numbers."""
    waiting = {day.name: list(day.told) for day in days}
    order, begun = [], 0
    while any(waiting.values()):
        ready = [told for told in waiting.values() if told and (told[0].started() or 0) <= begun + 1]
        if not ready:
            raise Unexpected(f"no point began transaction {begun + 1}")
        told = ready[0].pop(0)
        begun = max(begun, told.started() or 0)
        order.append(told)
    return order


def replay(program, site, script):
    with tempfile.TemporaryDirectory() as folder:
        path = os.path.join(folder, "site.json")
        with open(path, "w", encoding="utf-8") as file:
            file.write(site)
        command = [program, "replay", "--site", path]
        done = subprocess.run(command, input=script.encode(), capture_output=True, timeout=PATIENCE, check=False)
    expect("how the replay ends", (done.returncode, done.stderr), (0, b""))
    return done.stdout.decode()


def compare(program, site, order):
    """The answers and calls of a day are those of a replay."""
    seen = "".join(told.output() for told in order)
    wanted = replay(program, site, "".join(told.line() for told in order))
    for number, (one, other) in enumerate(zip(seen.splitlines(), wanted.splitlines()), 1):
        expect(f"line {number}, beside the replay", one, other)
    expect("how many lines there are, beside the replay", seen.count("\n"), wanted.count("\n"))


def totals_of(order):
    """How many changes these texts made, and how many schedules were handed out, counted by their answers."""
    changes, answers, active = 0, 0, set()
    for told in order:
        action = (json.loads(told.brought[0])[0] == 3 and json.loads(told.text)[2]) if told.brought else None
        if action in ("SetChargingProfile", "ClearChargingProfile"):
            changes += '"Accepted"' in told.brought[0]
        elif action == "GetCompositeSchedule":
            answers += '"Accepted"' in told.brought[0] or "ResultTooLong" in told.brought[0]
        elif action == "StartTransaction":
            changes += told.started() not in active
            active.add(told.started())
        elif action == "StopTransaction":
            stopped = json.loads(told.text)[3]["transactionId"]
            changes += stopped in active
            active.discard(stopped)
    return changes, answers


async def ten_points(program):
    """Ten points and three operators at once: each point in turn with each of them, the points beside one another."""
    site, names = plain_site(10), [f"P{number}" for number in range(1, 11)]
    with Serving(program, site, 40) as serving:
        async def whole_day(number, name):
            kind = NodeClient if number % 3 == 0 else PythonClient
            point = await kind.connected(serving, f"/ocpp/{name}")
            operators = [await PythonClient.connected(serving, f"/operator/{name}") for _ in range(3)]
            day = Day(name, point, operators)
            for part in (morning, charging, evening):
                await part(day, number)
            for client in (point, *operators):
                await client.close()
            return day
        days = await asyncio.gather(*(whole_day(number, name) for number, name in enumerate(names)))
        totals = serving.totals()
    order = in_one_order(days)
    compare(program, site, order)
    expect("the totals", totals, totals_of(order))


async def three_operators_at_one_point(program):
    """Three operators change the profiles of one point at once; in the order of the calls a replay gives the same."""
    site, rounds = plain_site(1), 40
    with Serving(program, site, 4) as serving:
        operators = [await PythonClient.connected(serving, "/operator/P1") for _ in range(3)]

        async def changes(place, client):
            texts = []
            for number in range(rounds):
                fields = profile(place * 100 + number % 5, [round(6 + place + number / 10, 1)], level=place * 5 + number % 5)
                text = install(f"{place}-{number}", fields)
                texts.append((text, await client.texts_of(text)))
            return texts
        sent = [pair for texts in await asyncio.gather(*(changes(*one) for one in enumerate(operators))) for pair in texts]
        for text, brought in sent:
            expect(f"the answer to {text}", brought, [accepted(json.loads(text)[1])])
        calls = await asyncio.to_thread(calls_of_point, serving, len(sent) + 1)
        last = Told("operator", "P1", ask("last", 1, 2_678_400), await brought_by(operators[0], ask("last", 1, 2_678_400)), 0)
        for client in operators:
            await client.close()
        expect("the totals", serving.totals(), (len(sent), 1))
    compare(program, site, installs_of_calls(sent, calls) + [last])


def calls_of_point(serving, count):
    """Connects the point, and replies to its calls until it has so many."""
    with RawClient.connected(serving, "/P1") as point:
        texts = point.texts_of(heartbeat("first"))
        calls = texts[1:]
        while len(calls) < count:
            texts = point.texts_of(result(json.loads(calls[-1])[1], {"status": "Accepted"}))
            expect("calls at a time", len(texts), 1)
            calls += texts
        expect("what follows the last reply", point.texts_of(result(str(count - 1), {"status": "Accepted"})), [])
        point.close()
    expect("the numbers of the calls", [json.loads(text)[1] for text in calls], [str(number) for number in range(count)])
    return calls


def installs_of_calls(sent, calls):
    """The installs in the order of the calls that they became, each with its answer."""
    by_fields = {}
    for text, brought in sent:
        fields = json.loads(text)[3]["csChargingProfiles"]
        by_fields.setdefault(json.dumps(fields), []).append((text, brought))
    order = []
    for text in calls[1:]:
        fields = json.loads(text)[3]["csChargingProfiles"]
        found = by_fields.get(json.dumps(fields))
        if not found:
            raise Unexpected(f"a call that nobody's install became: {text}")
        install_text, brought = found.pop(0)
        order.append(Told("operator", "P1", install_text, brought, 0))
    return order


def tests():
    yield "ten points and three operators", ten_points
    yield "three operators at one point", three_operators_at_one_point
