"""Histories of a site that is run: after a restart, and in each reader, all is as it was; and so behind each cut of the journal."""
import itertools
import json
import os
import random
import re
import threading
import time

from days import compare
from histories import CONNECTORS, POINTS, History
from raw_client import RawClient
from run_data import PROGRESS, Data, of_script, read, size, tell
from serving import Running, Unexpected, expect, until
from stations import Station, stations_site
from texts import CALL_0, accepted, call, heartbeat, plain_site, profile, start

SITE = plain_site(len(POINTS))


def histories_at_random(program):
    """What was told over restarts is what a replay of all texts tells, and readers of the journal say what readers of those texts do."""
    for seed, steps in size(((1, 6_000), (2, 6_000)), ((1, 1_200),), tuple((seed, 25_000) for seed in range(3, 7))):
        try:
            history_at_random(program, seed, steps)
        except Unexpected as fault:
            raise Unexpected(f"seed {seed}, {steps} texts: {fault}") from fault


def history_at_random(program, seed, steps):
    history, began, parts = History(seed), time.monotonic(), size(4, 2, 4)
    with Data(in_memory=True) as data:
        for part in range(1, parts + 1):
            with Running(program, SITE, data.path, call_timeout=3_600) as running:
                expect("what it resumes with", running.resumed, resumed_by(program, data))
                history.connect(running)
                history.ask_all()
                history.play(steps // parts)
                history.ask_all()
                history.beat_all()
                if part == parts or size(True, False, True):
                    same_in_each_reader(program, history, data)
            history.cut()
        compare(program, SITE, history.told)
        tell(f"seed {seed}: {len(history.told)} texts, {len(data.lines())} lines, {time.monotonic() - began:.0f} s")


def resumed_by(program, data):
    """What a run of the journal has to resume with, by what `show` says of it."""
    if not os.path.exists(data.journal):
        return len(POINTS), 0, 0, len(POINTS)
    points = json.loads(read(program, data, "show", "--json", of=SITE)[1])["points"]
    return len(points), *(sum(len(point[name]) for point in points) for name in ("profiles", "transactions", "calls"))


def same_in_each_reader(program, history, data):
    """`show`, `explain`, `check` and `replay` say of the journal, while it is open, what they say of all texts."""
    script = history.script()
    for command, same in (
        (("show", "--json"), state_shown),
        (("check",), findings),
        *((("explain", *where, "--json"), limits_explained) for where in places(history)),
    ):
        seen, wanted = read(program, data, *command, of=SITE), of_script(program, script, *command, of=SITE)
        expect_same(f"what {' '.join(command[:5])} says of the journal", same(seen[1]), same(wanted[1]))
    expect("whether explain has the states of show", states_explained(program, history, data), [])
    found, traced = (found_in_history(read(program, data, "check", *more, of=SITE)[1]) for more in ((), ("--trace",)))
    expect_same("what check finds in the journal, followed and as a script", found, traced)
    replayed = read(program, data, "replay", of=SITE)[1].splitlines()
    told = iter("".join(told.output() for told in history.told).splitlines())
    for line in replayed:
        if not line.startswith('> [3,"",'):  # what comes before a call that went out behind nothing that changed anything
            expect(f"what replay says of the journal: {line}", line in told, True)


def expect_same(what, seen, wanted):
    """Of lists only what differs is told."""
    if isinstance(seen, list) and isinstance(wanted, list):
        seen, wanted = [part for part in seen if part not in wanted], [part for part in wanted if part not in seen]
    expect(what, seen, wanted)


def places(history):
    """Some place to explain at each point, at its own time."""
    for point in size(history.points, history.points[:1], history.points):
        connector = history.chance.randint(0, CONNECTORS)
        start = f"2025-01-{history.chance.randint(1, 28):02}T{history.chance.randrange(24):02}:30:00Z"
        yield "--point", point.name, "--connector", str(connector), "--start", start, "--duration", "100000"


def causes_in(explained):
    return [part["cause"] for interval in explained["intervals"] for part in (interval, *interval["shares"])]


def limits_explained(page):
    """What `explain` says, but for whether points hold the profiles, which it says of a journal alone."""
    explained = json.loads(page)
    for cause in causes_in(explained):
        for name in ("state", "since"):
            cause.pop(name, None)
    return explained


def states_explained(program, history, data):
    """The causes in `explain` of which it doesn't say the state that `show` says of the profile."""
    shown = json.loads(read(program, data, "show", "--json", of=SITE)[1])["points"]
    states = {(point["id"], row["csChargingProfiles"]["chargingProfileId"]): row["state"] for point in shown for row in point["profiles"]}
    other = []
    for where in places(history):
        causes = causes_in(json.loads(read(program, data, "explain", *where, "--json", of=SITE)[1]))
        named = [cause for cause in causes if cause["kind"] == "Profile"]
        other += [cause for cause in named if cause.get("state") != states[where[1], cause["chargingProfileId"]]]
    return other


def state_shown(page):
    """The points' state without the lines of the script, and without the moments of installs, which a client knows nearly."""
    def without(value):
        if isinstance(value, dict):
            return {name: without(part) for name, part in value.items() if name not in ("line", "installed")}
        return [without(part) for part in value] if isinstance(value, list) else value
    return without(json.loads(page)["points"])


def findings(page):
    """What `check` finds of a site file and of points, without lines and instants, of which a client knows the second only nearly.

    Of a script's lines only those are in the journal that changed something.
    """
    lines = (line for line in page.splitlines() if not line.startswith("script: line"))
    return sorted(re.sub(r"line \d+|\d{4}-\d\d-\d\d.\d\d:\d\d(:\d\dZ?)?", "..", line) for line in lines)


def found_in_history(page):
    """What `check` finds in lines, and of points at the end."""
    return [line for line in page.splitlines() if line.startswith("script: ")]


def remote_start_over_a_lost_link(program):
    """A call that went out over a link that was lost waits again. Another car's start comes before it goes out anew: readers see what is there."""
    fields = {"connectorId": 1, "idTag": "ANN", "chargingProfile": profile(9, [6], purpose="TxProfile", kind="Relative")}
    with Data(in_memory=True) as data:
        with Running(program, SITE, data.path) as running:
            with RawClient.connected(running, "/operator/P1") as operator:
                expect("a remote start", operator.texts_of(call("r", "RemoteStartTransaction", fields)), [accepted("r")])
            with RawClient.connected(running, "/P1") as point:
                expect("call 0", point.texts_of(heartbeat("h"))[1:], [CALL_0])
                expect("call 1", len(point.texts_of(accepted("0"))), 1)
            until("the lost link is noted", lambda: data.lines()[-1] == "lost P1 1")
            with RawClient.connected(running, "/P1") as point:
                expect("a start, and call 1 again", len(point.texts_of(start("b", 1, "BEN"))), 2)
                expect("another start", len(point.texts_of(start("a", 1, "ANN"))), 1)
            running.kill()
        shown = resumed_by(program, data)
        with Running(program, SITE, data.path) as running:
            expect("what it resumes with, beside what is shown", running.resumed, shown)


def journal_of_a_station(program, lines):
    """The first lines of the journal of a station that is cut off now and then."""
    with Data(in_memory=True) as data:
        station = Station("P1", seed=3)
        for _ in itertools.count():
            with Running(program, stations_site(1), data.path) as running:
                station.connect(running)
                for _ in range(60):
                    station.step()
            station.pair.cut()
            whole = data.bytes().splitlines(keepends=True)
            if len(whole) >= lines:
                return whole[:lines]


def counts_behind(lines):
    """Profiles, transactions and calls that wait at P1 behind these lines of a journal, counted by their frames."""
    profiles, transactions, calls = set(), set(), 1
    for line in lines[1:]:
        _, word, _, number, *frame = line.decode().rstrip("\n").split(" ", 4)
        action, fields = json.loads(frame[0])[2:4] if word in ("operator", "point") else ("", {})
        if action == "SetChargingProfile":
            profiles.add((fields["connectorId"], fields["csChargingProfiles"]["chargingProfileId"]))
        elif action == "ClearChargingProfile":
            profiles.remove((fields["connectorId"], fields["id"]))
        elif action == "StartTransaction":
            transactions.add(int(number))
        elif action == "StopTransaction":
            transactions.remove(fields["transactionId"])
        calls += (word == "operator") - (word == "reply")
    return 1, len(profiles), len(transactions), calls


def cut_anywhere(program):
    """A journal of 300 lines that is cut anywhere starts as its whole lines say, and what was behind them is cut."""
    lines = journal_of_a_station(program, 300)
    places = cuts(lines)
    faults, next_place, lock = [], iter(places), threading.Lock()

    def keep_on():
        while not faults:
            with lock:
                place = next(next_place, None)
            if place is None:
                return
            try:
                starts_behind(program, lines, *place)
            except Exception as fault:  # whatever it is, the test has failed
                faults.append(f"cut behind line {place[0]} and {place[1]} bytes: {fault}")
    threads = [threading.Thread(target=keep_on) for _ in range(3)]
    for thread in threads:
        thread.start()
    for thread in threads:
        thread.join()
    expect("what is wrong", faults, [])
    tell(f"{len(lines)} lines of {sum(map(len, lines))} bytes, cut at {len(places)} places")


def cuts(lines):
    """Where it is cut: behind how many whole lines, and how many bytes of the next one are left."""
    every = [(count, extra) for count, line in enumerate(lines) for extra in range(len(line))] + [(len(lines), 0)]
    near = [(count, extra) for count, extra in every if extra in (0, 1) or count < len(lines) and extra == len(lines[count]) - 1]
    chance = random.Random(5)
    return size(near + chance.sample(every, 200), chance.sample(near, 60) + chance.sample(every, 30), every)


def starts_behind(program, lines, count, extra):
    kept = b"".join(lines[:count])
    with Data(in_memory=True) as data:
        data.write(kept + (lines[count][:extra] if extra else b""))
        with Running(program, stations_site(1), data.path) as running:
            expect("what it resumes with", running.resumed, counts_behind(lines[:count]))
            said = PROGRESS.sub("", running.kill().decode())
        wanted = f"central: {data.journal}: its last line is torn, and was cut: {extra} bytes\n" if extra else ""
        expect("what is said", said, wanted)
        content = data.bytes()
        expect("what is kept", content[:len(kept)], kept)
        added = [line.split(" ")[1] for line in content[len(kept):].decode().splitlines()]
        links = sum((b" attached " in line) - (b" lost " in line) for line in lines[:count])
        expect("what is added", added, ["lost"] * min(links, 1) if count else ["journal"])


def tests():
    yield "histories at random", histories_at_random
    yield "a remote start over a lost link", remote_start_over_a_lost_link
    yield "cut anywhere", cut_anywhere
