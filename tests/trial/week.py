#!/usr/bin/python3
"""week.py PROGRAM FOLDER [SECONDS]: seven days of two sites with 20 charge points each, a day in so many seconds (120).

Cars come and go, an operator of each site installs and clears, points come back, reboot and forget; the program is killed
each day. FOLDER/B.data should be a small tmpfs: on day 4 it is filled. At the end of each day what each point was told, what
the operators were answered, and what 'central show --data' says are compared. It ends with the number of what was WRONG.
"""
import asyncio
import collections
import json
import os
import random
import signal
import sys
import time

import rules
from point import Point
from sites import Site

SAID = collections.Counter()
BEGUN = time.monotonic()


def report(kind, text):
    SAID[kind] += 1
    if kind == "WRONG" or kind == "note":
        print(f"{time.monotonic() - BEGUN:7.1f} {kind} {text}", flush=True)


class Book:
    """What a point has by the answers that its operator and the point itself got."""

    def __init__(self):
        self.rows, self.asked = [], {}


def profile(number, purpose, level, limits, kind="Absolute", **more):
    """A profile with a period every 10 minutes, from an hour ago on, or from the start of its transaction on."""
    schedule = {"chargingRateUnit": "A", "chargingSchedulePeriod": [
        {"startPeriod": 600 * place, "limit": limit} for place, limit in enumerate(limits)]}
    if kind != "Relative":
        schedule["startSchedule"] = rules.instant(int(time.time()) - 3600)
    return {"chargingProfileId": number, "stackLevel": level, "chargingProfilePurpose": purpose,
            "chargingProfileKind": kind, "chargingSchedule": schedule} | more


class Week:
    def __init__(self, sites):
        self.sites, self.points, self.books, self.site_of = sites, {}, {}, {}
        self.quiet, self.offline = True, set()
        for site in sites:
            for name in site.names:
                self.points[name] = Point(name, site.keys[name], site.url, report)
                self.books[name], self.site_of[name] = Book(), site

    # Cars

    async def cars(self, name):
        point, book = self.points[name], self.books[name]
        while True:
            await asyncio.sleep(random.uniform(5, 20))
            connector = random.choice([1, 2])
            if self.quiet or not point.socket or point.socket.closed:
                continue
            async with point.lock:
                if connector in point.cars:
                    await self.leave(point, book, connector)
                elif connector in point.asked or connector not in book.asked:
                    await self.come(point, book, connector, random.choice(["ann", "bob", "eve"]))
            await point.call(random.choice(["Heartbeat", "StatusNotification"]), {})

    async def come(self, point, book, connector, tag):
        asked = point.asked.pop(connector, None)
        car = {"connectorId": connector, "idTag": asked["idTag"] if asked else tag, "meterStart": random.randrange(10 ** 6),
               "timestamp": rules.instant(int(time.time()))}
        answer = await point.until_answered("StartTransaction", car)
        point.cars[connector] = car | {"transactionId": answer["transactionId"]}
        report("starts", "")
        point.rows = rules.without_transaction(point.rows, connector)
        book.rows = rules.without_transaction(book.rows, connector)
        if asked and "chargingProfile" in asked:
            point.rows = rules.installed(point.rows, {"connectorId": connector, "csChargingProfiles": asked["chargingProfile"]})
        # A call that hasn't come to the point yet leaves its start waiting at the central system.
        if asked and (wanted := book.asked.pop(connector, None)) and "chargingProfile" in wanted:
            book.rows = rules.installed(book.rows, {"connectorId": connector, "csChargingProfiles": wanted["chargingProfile"]})
            report("remote starts with a profile", "")

    async def leave(self, point, book, connector):
        number = point.cars[connector]["transactionId"]
        await point.until_answered("StopTransaction", {"transactionId": number, "meterStop": 10 ** 6, "timestamp":
                                                       rules.instant(int(time.time()))})
        del point.cars[connector]
        report("stops", "")
        point.rows = rules.without_transaction(point.rows, connector)
        book.rows = rules.without_transaction(book.rows, connector)

    # Disturbances

    async def trouble(self, name):
        point, book = self.points[name], self.books[name]
        while True:
            await asyncio.sleep(random.uniform(10, 60))
            if self.quiet or name in self.offline:
                continue
            how = random.choices(["close", "reset", "twice", "reboot", "forget"], [3, 3, 3, 1, 1])[0]
            report(how, "")
            if how in ("reboot", "forget"):
                async with point.lock:
                    await self.reboot(point, book, how == "forget")
            else:
                await point.drop(how)

    async def reboot(self, point, book, forgets):
        """A point without power: its cars are stopped when it is back."""
        await point.drop("reset")
        point.booting = True
        if forgets:
            point.rows, point.forgot = [], True
        for connector in list(point.cars):
            await self.leave(point, book, connector)

    # The operators

    async def operator(self, site):
        while True:
            await asyncio.sleep(random.uniform(0.1, 0.4))
            if self.quiet:
                continue
            name = random.choice(site.names)
            if self.points[name].lock.locked():
                continue
            async with self.points[name].lock:
                await self.act(site, name, self.points[name], self.books[name])

    async def act(self, site, name, point, book):
        number, level = random.randrange(1, 30), random.randrange(0, 3)
        limits = [random.randrange(60, 320) / 10 for _ in range(random.randrange(1, 4))]
        connector = random.choice([0, 0, 1, 2])
        what = random.choice(["default", "default", "station", "daily", "transaction", "clear", "clear", "remote", "ask", "audit"])
        if what in ("default", "station", "daily"):
            row = {"connectorId": 0 if what == "station" else connector, "csChargingProfiles": profile(
                number, "ChargePointMaxProfile" if what == "station" else "TxDefaultProfile", level, limits,
                **({"kind": "Recurring", "recurrencyKind": "Daily"} if what == "daily" else {}))}
            await self.install(site, name, book, row)
        elif what == "transaction" and connector in point.cars:
            row = {"connectorId": connector, "csChargingProfiles": profile(
                100 * connector + number, "TxProfile", level, limits, "Relative", transactionId=point.cars[connector]["transactionId"])}
            await self.install(site, name, book, row)
        elif what == "clear":
            criteria = random.choice([{"id": number}, {"id": number}, {"connectorId": connector, "stackLevel": level}, {
                "chargingProfilePurpose": "TxDefaultProfile", "stackLevel": level}])
            if (await self.answered(site, name, "ClearChargingProfile", criteria)) in ("Accepted", "Unknown"):
                book.rows = rules.cleared(book.rows, criteria)
        elif what == "remote" and connector > 0 and connector not in point.cars and connector not in book.asked:
            wanted = {"connectorId": connector, "idTag": "app", "chargingProfile": profile(
                100 * connector + number, "TxProfile", level, limits, "Relative")}
            if (await self.answered(site, name, "RemoteStartTransaction", wanted)) == "Accepted":
                book.asked[connector] = wanted
        elif what == "ask" and connector > 0:
            await self.compare_schedule(site, name, point, book, connector)
        elif what == "audit" and connector > 0:
            await self.answered(site, name, "AuditPoint", {"connectorId": connector, "duration": 900})

    async def install(self, site, name, book, row):
        status = await self.answered(site, name, "SetChargingProfile", row)
        if status == "Accepted":
            book.rows = rules.installed(book.rows, row)
        return status

    async def answered(self, site, name, action, payload):
        answer = await site.ask(name, action, payload)
        said = answer[2].get("reason") or answer[2]["status"] if answer[0] == 3 else f"{answer[2]} {answer[3]}"
        report(f"{action} {said}", "")
        return said

    async def compare_schedule(self, site, name, point, book, connector):
        answer = await site.ask(name, "GetCompositeSchedule", {"connectorId": connector, "duration": 1800})
        if answer[0] != 3 or answer[2]["status"] != "Accepted":
            return report(f"GetCompositeSchedule {answer[2:]}", "")
        car = point.cars.get(connector)
        wanted = rules.schedule(book.rows, car and rules.seconds(car["timestamp"]), connector,
                                rules.seconds(answer[2]["scheduleStart"]), 1800)
        report("schedules compared", "")
        if answer[2]["chargingSchedule"]["chargingSchedulePeriod"] != wanted:
            report("WRONG", f"{name}/{connector}: schedule {answer} instead of {wanted}")

    # The end of a day

    async def settle(self, site):
        """Waits until no call waits for a point that is there. Says who still has some after a time."""
        for _ in range(90):
            state = await asyncio.to_thread(site.state)
            left = {name: (told["inFlight"], told["waiting"]) for name, told in (state or {}).items()
                    if told["inFlight"] + told["waiting"] > 0 and name not in self.offline}
            if state and not left:
                return state
            await asyncio.sleep(1)
        report("WRONG", f"site {site.name}: calls still wait: {left}")
        return state

    async def install_anew(self, site, state):
        """What the pages tell an operator to do: audit whom the status shows, and install anew where that says Differs."""
        shown = await asyncio.to_thread(site.show)
        flagged = [name for name, told in state.items() if told["mayHaveForgotten"] and name not in self.offline]
        for name in flagged:
            said = []
            for connector in (1, 2):
                await self.answered(site, name, "AuditPoint", {"connectorId": connector, "duration": 900})
                for _ in range(60):
                    answer = await site.ask(name, "PointStatus", {})
                    if answer[2]["audit"] != "Waiting":
                        break
                    await asyncio.sleep(0.5)
                said.append(answer[2]["audit"])
            report(f"audit {'/'.join(sorted(set(said)))}, forgot {self.points[name].forgot and bool(shown[name]['profiles'])}", "")
            if said != ["Agrees", "Agrees"]:
                await self.again(site, name, shown[name]["profiles"])
        unseen = [name for name in site.names if name not in flagged and name not in self.offline
                  and self.points[name].forgot and key(self.points[name].rows) != key(shown[name]["profiles"])]
        if unseen:
            report("note", f"forgot profiles, and the status doesn't show it: {unseen}")
        for name in unseen:
            await self.again(site, name, shown[name]["profiles"])
        for name in flagged + unseen:
            self.points[name].forgot = False
        await self.settle(site)

    async def clear_rejected(self, site):
        """A profile that its point rejected stays here until it is cleared."""
        for name, told in (await asyncio.to_thread(site.show)).items():
            for row in told["profiles"]:
                number = row["csChargingProfiles"]["chargingProfileId"]
                if told["rejected"] and row["csChargingProfiles"]["stackLevel"] > 8:
                    report("note", f"{name} rejected profile {number}: cleared")
                    await self.answered(site, name, "ClearChargingProfile", {"id": number})
                    self.books[name].rows = rules.cleared(self.books[name].rows, {"id": number})

    async def again(self, site, name, rows):
        for row in rows:
            await self.install(site, name, self.books[name], {part: row[part] for part in ("connectorId", "csChargingProfiles")})

    async def compare(self, site):
        shown = await asyncio.to_thread(site.show)
        state = await asyncio.to_thread(site.state)
        for name, told in shown.items():
            point, book = self.points[name], self.books[name]
            report("points compared", "")
            if key(book.rows) != key(told["profiles"]):
                report("WRONG", f"{name}: answered {key(book.rows)}, shown {key(told['profiles'])}")
            if {car["transactionId"] for car in told["transactions"]} != {car["transactionId"] for car in point.cars.values()}:
                report("WRONG", f"{name}: cars {point.cars}, shown {told['transactions']}")
            if name not in self.offline and key(point.rows) != key(told["profiles"]):
                report("WRONG", f"{name}: point has {key(point.rows)}, shown {key(told['profiles'])}")
            if [row["state"] for row in state[name]["profiles"]] != [row["state"] for row in told["profiles"]]:
                report("WRONG", f"{name}: status and show differ")
            held = key([row for row in told["profiles"] if row["state"] == "held"])
            if any(row not in key(point.rows) for row in held):
                report("WRONG", f"{name}: point has {key(point.rows)}, held {held}")


def key(rows):
    """Rows without moments, and without a TxProfile's transactionId, in an order of their own."""
    def of(row):
        return [row["connectorId"], {part: value for part, value in row["csChargingProfiles"].items() if part != "transactionId"}]
    return sorted(json.dumps(of(row), sort_keys=True) for row in rows)


async def day(week, number, seconds):
    report("note", f"day {number}")
    a, b = week.sites
    week.offline = {"A07"} if number == 2 else {"B05"} if number == 3 else set()
    for name, point in week.points.items():
        async with point.lock:
            point.online = name not in week.offline or name == "B05"
            point.key = "0" * 40 if name in week.offline else week.site_of[name].keys[name]
            if name in week.offline:
                await point.drop("close")
    week.quiet = False
    await asyncio.sleep(seconds * 0.3)
    for site in week.sites:
        name = random.choice(site.names)
        async with week.points[name].lock:
            await week.install(site, name, week.books[name], {"connectorId": 0, "csChargingProfiles": profile(
                90, "TxDefaultProfile", 9, [7.0])})
    if number == 4:
        fill(b)
    await asyncio.sleep(seconds * 0.2)
    for site in week.sites:
        site.kill(signal.SIGTERM if number == 5 else signal.SIGKILL)
    if number == 5 and os.path.exists(b.program + ".new"):
        os.replace(b.program + ".new", b.program)
    await asyncio.sleep(1)
    for site in week.sites:
        site.start()
    report("note", f"restarted, up after {[round(await site.up(), 1) for site in week.sites]} s")
    await asyncio.sleep(seconds * 0.2)
    if number == 4:
        free(b)
    await asyncio.sleep(seconds * 0.3)
    week.quiet = True
    for point in week.points.values():
        async with point.lock:
            pass
    for site in week.sites:
        await week.settle(site)
        await week.clear_rejected(site)
        state = await week.settle(site)
        await week.install_anew(site, state)
        await week.compare(site)
    report("note", f"day {number} is over: " + ", ".join(f"{what} {times}" for what, times in sorted(SAID.items()) if what != "note"))


def fill(site):
    other = os.open(site.data / "other", os.O_WRONLY | os.O_CREAT)
    try:
        while os.write(other, bytes(4096)) > 0:
            pass
    except OSError as full:
        report("note", f"site {site.name}: {full}")
    os.close(other)


def free(site):
    os.remove(site.data / "other")
    report("note", f"site {site.name}: room again")


async def main(program, folder, seconds="120"):
    random.seed(2026)
    asyncio.get_running_loop().add_signal_handler(signal.SIGTERM, asyncio.current_task().cancel)
    sites = [Site(program, folder, "A", (19200, 19300), 20), Site(program, folder, "B", (19201, 19301), 20)]
    for site in sites:
        site.start()
    for site in sites:
        await site.up()
    week = Week(sites)
    tasks = [asyncio.ensure_future(site_task) for site_task in map(week.operator, sites)]
    for name, point in week.points.items():
        tasks += [asyncio.ensure_future(task) for task in (point.live(), week.cars(name), week.trouble(name))]
    try:
        for number in range(1, 8):
            await day(week, number, float(seconds))
    finally:
        for site in sites:
            site.kill()
    return min(SAID["WRONG"], 100)


sys.exit(asyncio.run(main(*sys.argv[1:])))
