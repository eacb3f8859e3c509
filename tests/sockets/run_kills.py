"""A site that is run and killed at each write, send and sync, and at any moment of a crowd: nothing that was answered is lost."""
import itertools
import random
import shutil
import signal
import subprocess
import tempfile
import threading
import time

from run_data import NO_LEAKS, Data, SiteFile, run_words, size, tell
from serving import ENVIRONMENT, PATIENCE, Running, Unexpected, expect, undated
from stations import Cut, Station, stations_site

# What is counted: the calls of the journal alone, which has a file name, and all of sockets.
COUNTED = ("write", "fdatasync", "sendto")

# How many of them a start makes before anybody may connect: it syncs what it finds.
BEFORE = {"write": 0, "fdatasync": 1, "sendto": 0}


def killed_at_each_call(program):
    """A day of one seat, killed at its k-th write, sync and send for each k, but for some sends; then it goes on where it was."""
    if not shutil.which("strace"):
        return
    for name in COUNTED:
        for count in itertools.count(1, size(2 if name == "sendto" else 1, 10, 1)):
            if not is_killed_at(program, name, count, seats=1):
                break
        expect(f"whether a day has many a {name}", count > 40, True)
        tell(f"{name}: killed at up to {count - 1}")


def killed_at_calls_of_two(program):
    """The point and its operator are connected at once, so that each waits for what the other syncs."""
    if not shutil.which("strace"):
        return
    for name in COUNTED:
        for count in range(1, size(25, 6, 60)):
            is_killed_at(program, name, count, seats=2)


def is_killed_at(program, name, count, seats):
    """Plays a day, killed at this call of one of its threads. Whether it was."""
    station = Station("P1", seed=7, turns=seats == 1)
    with Data(in_memory=True) as data:
        with Running(program, stations_site(1), data.path, environment=NO_LEAKS):
            pass  # the journal has its first line
        of_journal = () if name == "sendto" else ("-P", data.journal)
        inject = f"inject={name}:signal=SIGKILL:when={BEFORE[name] + count}"
        under = ("strace", "-f", "-qq", "-o", "/dev/null", *of_journal, "-e", f"trace={name}", "-e", inject)
        was_killed = not is_played(program, data, station, 40, under=under, seats=seats, environment=NO_LEAKS)
        with Running(program, stations_site(1), data.path, environment=NO_LEAKS) as running:
            go_on(f"killed at {name} {count}", station, running)
    return was_killed


def is_played(program, data, station, steps, **more):
    """Whether a station played so many steps before the program was killed."""
    try:
        with Running(program, stations_site(1), data.path, **more) as running:
            station.connect(running)
            for _ in range(steps):
                station.step()
            return True
    except Cut:
        return False
    finally:
        station.pair.cut()


def go_on(where, station, running):
    """Behind a restart all is there that was answered, and it goes on."""
    try:
        expect("what it resumes with", is_resumed(running.resumed, station), True)
        station.connect(running)
        for _ in range(10):
            station.step()
        station.drain()
        expect("the version", station.status()["version"], station.changes)
    except Unexpected as fault:
        raise Unexpected(f"{where}: {fault}") from fault
    finally:
        station.pair.cut()


def is_resumed(resumed, station):
    """Whether a program says that it has what was answered, give or take the one change that wasn't."""
    profiles, transactions, calls = station.resumed()
    near = 1 if station.pending else 0
    return (
        resumed[0] == 1 and abs(resumed[1] - profiles) <= near and abs(resumed[2] - transactions) <= near
        and calls <= resumed[3] <= calls + 1 + near
    )


def synced_before_each_send(program):
    """Of one seat nothing leaves between a write of the journal and its sync: a kill alone wouldn't show that."""
    if not shutil.which("strace"):
        return
    station = Station("P1", seed=11, turns=True)
    with Data(in_memory=True) as data, tempfile.NamedTemporaryFile("r") as log:
        under = ("strace", "-f", "-qq", "-y", "-s", "0", "-o", log.name, "-e", "trace=write,sendto,fdatasync")
        expect("whether a day was played", is_played(program, data, station, 60, under=under, seats=1, environment=NO_LEAKS), True)
        is_written, writes, sends = False, 0, 0
        for line in log:
            if "write(" in line and f"<{data.journal}>" in line:
                is_written, writes = True, writes + 1
            elif "fdatasync" in line and line.endswith("= 0\n"):
                is_written = False
            elif "sendto(" in line:
                expect(f"whether a write isn't synced before {line}", is_written, False)
                sends += 1
        expect("whether there were any", writes > 20 < sends, True)
        tell(f"{writes} writes, {sends} sends")


# What strace makes of calls of the journal: the status of the program behind it, and what it says.
FAULTS = (
    ("fdatasync", "EIO", 3, "Input/output error (os error 5)"),
    ("write", "EIO", 3, "Input/output error (os error 5)"),
    ("write", "ENOSPC", None, "No space left on device (os error 28)"),
)


def failing_device(program):
    """A write or a sync that fails: nothing that may not be kept is answered. Where it isn't known what is kept, it ends."""
    if not shutil.which("strace"):
        return
    for name, fault, status, said in FAULTS:
        for count in (1, 2, 7):
            try:
                fails_at(program, name, fault, count, status, said)
            except Unexpected as problem:
                raise Unexpected(f"{fault} of {name} {count}: {problem}") from problem


def fails_at(program, name, fault, count, status, said):
    station = Station("P1", seed=9, turns=True)
    with Data(in_memory=True) as data, tempfile.NamedTemporaryFile("r") as log:
        with Running(program, stations_site(1), data.path, environment=NO_LEAKS):
            pass  # the journal has its first line
        inject = f"inject={name}:error={fault}:when={BEFORE[name] + count}"
        under = ("strace", "-f", "-qq", "-o", log.name, "-P", data.journal, "-e", "trace=write,fdatasync", "-e", inject)
        with Running(program, stations_site(1), data.path, under=under, seats=1, environment=NO_LEAKS) as running:
            play_on(station, running, 40)
            if status is None:
                running.end_children()
                err = running.kill()
            else:
                ended, _, err = running.fault()
                expect("its status", ended, status)
                behind = log.read().partition(fault)[2]
                expect("writes and syncs behind the fault", ("write(" in behind, "fdatasync(" in behind), (False, False))
            of_file = [line for line in undated(err).decode().splitlines() if data.journal in line]
            expect("what is said of it first", of_file[:1], [f"central: {data.journal}: {said}"])
        with Running(program, stations_site(1), data.path, environment=NO_LEAKS) as running:
            go_on("behind it", station, running)


def start_that_fails(program):
    """A start is killed at its own sync, or that fails: it serves nobody, and the next one goes on where the site was."""
    if not shutil.which("strace"):
        return
    for fault, status in (("signal=SIGKILL", -signal.SIGKILL), ("error=EIO", 3)):
        station = Station("P1", seed=11, turns=True)
        with Data(in_memory=True) as data:
            with Running(program, stations_site(1), data.path, environment=NO_LEAKS) as running:
                station.connect(running)
                for _ in range(40):
                    station.step()
            station.pair.cut()
            before = data.bytes()
            under = ("strace", "-f", "-qq", "-o", "/dev/null", "-P", data.journal, "-e", "trace=fdatasync", "-e")
            with SiteFile(stations_site(1)) as path:
                done = subprocess.run(
                    [*under, f"inject=fdatasync:{fault}:when=1", *run_words(program, data, path)], capture_output=True,
                    timeout=PATIENCE, check=False, env={**ENVIRONMENT, **NO_LEAKS},
                )
            expect(f"{fault}: its status", done.returncode, status)
            expect(f"{fault}: whether it listened", b"listening" in done.stdout, False)
            expect(f"{fault}: what stays of the journal", data.bytes()[:len(before)], before)
            with Running(program, stations_site(1), data.path, environment=NO_LEAKS) as running:
                go_on(f"a start with {fault}", station, running)


def play_on(station, running, steps):
    """Plays a day, also where sessions end without an answer, until the program ends."""
    for _ in range(10):
        try:
            station.connect(running)
            for _ in range(steps):
                station.step()
            return
        except Cut:
            station.pair.cut()
            if station.pair.is_killed():
                return
    raise Unexpected("its sessions end again and again")


class Crowd:
    """Stations that go on over restarts, each on a thread of its own, until all have sent so many texts."""

    def __init__(self, count, texts):
        self.stations = [Station(f"P{number}", seed=count) for number in range(1, count + 1)]
        self.each = texts // count
        self.changed = threading.Condition()
        self.running, self.round = None, 0
        self.faults = []
        self.threads = [threading.Thread(target=self._keep_on, args=(station,), daemon=True) for station in self.stations]

    def begin(self, running):
        """From now on this program serves them."""
        with self.changed:
            self.running, self.round = running, self.round + 1
            self.changed.notify_all()

    def _wait(self, seen):
        """The next program behind the one of this number, with its own."""
        with self.changed:
            self.changed.wait_for(lambda: self.round != seen, PATIENCE)
            return self.running, self.round

    def _keep_on(self, station):
        seen = 0
        while station.number < self.each and not self.faults:
            running, seen = self._wait(seen)
            try:
                station.connect(running)
                while station.number < self.each:
                    station.step()
            except Cut:
                pass
            except Exception as fault:  # whatever it is, the test has failed
                self.faults.append(f"{station.name}: {type(fault).__name__}: {fault}")

    def is_done(self):
        return self.faults or not any(thread.is_alive() for thread in self.threads)


def soak(program):
    """Stations send texts while the program is killed 20 times at any moment. In the end an independent count agrees."""
    texts, kills = size(30_000, 2_400, 1_000_000), size(10, 3, 20)
    crowd, peak = Crowd(8, texts), 0
    began, chance = time.monotonic(), random.Random(42)
    pauses = [chance.uniform(0.2, 1.0) for _ in range(kills)]
    with Data() as data:
        for thread in crowd.threads:
            thread.start()
        each = None
        for number, pause in enumerate([*pauses, None]):
            with Running(program, stations_site(8), data.path) as running:
                crowd.begin(running)
                serve_until(crowd, running, texts * (number + pause) / (kills + 1) if pause else None)
                peak = max(peak, running.peak_memory())
                each = running.resumed
        expect("what stations say", crowd.faults, [])
        changes = sum(station.changes for station in crowd.stations)
        with Running(program, stations_site(8), data.path) as running:
            check_all(crowd, running, changes)
        tell(f"{sum(station.number for station in crowd.stations)} texts, {changes} changes, {kills} kills, last resumed {each}, "
             f"{peak} kB at most, {len(data.bytes())} bytes, {time.monotonic() - began:.0f} s")


def serve_until(crowd, running, texts):
    """Serves until so many texts were sent, or all."""
    end = time.monotonic() + 40 * PATIENCE
    while not crowd.is_done() and (texts is None or sum(station.number for station in crowd.stations) < texts):
        expect("whether it runs", running.process.poll(), None)
        if time.monotonic() > end:
            raise Unexpected("stations stand still")
        time.sleep(0.003)


def check_all(crowd, running, changes):
    """All stations find what they were answered, their calls come to an end, and the changes are as many as they counted."""
    for station in crowd.stations:
        station.connect(running)
        station.drain()
        expect("the version", station.status()["version"], changes)
        station.pair.cut()


def tests():
    yield "killed at each call", killed_at_each_call
    yield "killed at calls of two", killed_at_calls_of_two
    yield "synced before each send", synced_before_each_send
    yield "failing device", failing_device
    yield "a start that fails", start_that_fails
    yield "soak", soak
