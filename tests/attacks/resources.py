"""Attacks that take what the program stands on: file descriptors, memory, time, its standard error, and the clock."""
import contextlib
import fcntl
import json
import os
import resource
import shutil
import signal
import subprocess
import time

from attack import Attack, moves_clock
from field import PROTOCOL, SITE, close_all, in_threads
from long_texts import ODD_TEXTS
from raw_client import RawClient
from refusals import ALL, SHORT, Refusing, texts_or_end
from run_data import NO_LEAKS, Data
from serving import Running, Unexpected, expect, until
from texts import CALL_0, accepted, ask, call, heartbeat, install, profile


def no_descriptors(field):
    """The program has no file descriptor left for who comes. Those that are connected are served, and later others again."""
    path = f"/proc/{field.server.process.pid}/fd"
    most = len(os.listdir(path)) + 10
    resource.prlimit(field.server.process.pid, resource.RLIMIT_NOFILE, (most, most))
    clients = [field.plain() for _ in range(60)]
    until("there is none left", lambda: len(os.listdir(path)) == most)
    time.sleep(field.seconds)
    close_all(clients)
    field.serves_a_newcomer(15)


def little_address_space(field):
    """The program's address space may hardly grow. Long messages are refused or end their sessions; later all is as before."""
    with open(f"/proc/{field.server.process.pid}/statm", encoding="ascii") as file:
        used = int(file.read().split()[0]) * resource.getpagesize()
    resource.prlimit(field.server.process.pid, resource.RLIMIT_AS, (used + (4 << 20), resource.RLIM_INFINITY))
    end = time.monotonic() + field.seconds

    def long(number):
        while time.monotonic() < end:
            with contextlib.suppress(OSError), field.plain() as client:
                response = client.shake_hands("/operator/P2", [PROTOCOL])
                if response is not None and response.status == 101:
                    texts_or_end(client, ODD_TEXTS[number % len(ODD_TEXTS)])

    in_threads(24, long)
    field.tell(f"{used >> 20} MiB and 4 more")
    resource.prlimit(field.server.process.pid, resource.RLIMIT_AS, (resource.RLIM_INFINITY, resource.RLIM_INFINITY))
    field.serves_a_newcomer(10)


def each_allocation(field):
    """Of a session's allocations each is refused in turn, or all from it on. It is told so or ends; the point is served."""
    waits, short = [], 0
    for in_a_row in (1, ALL):
        with Refusing() as refusing:
            number = unshort = 0
            while unshort < 3:
                number += field.size(1, 4)
                was_short = is_refused(field, refusing, number, in_a_row, waits)
                short, unshort = short + was_short, 0 if was_short else unshort + 1
    expect("whether allocations were refused", short > 5, True)
    field.tell(f"{short} refused; the point waited {1_000 * max(waits):.1f} ms at most")


def is_refused(field, refusing, number, in_a_row, waits):
    """Whether a session was short of this allocation of an install. What it was told stands in the journal, and nothing else."""
    fields = profile(1, [16.0])
    with Data(in_memory=True) as data:
        with Running(field.program, SITE, data.path, environment=refusing.environment(number, in_a_row)) as running:
            with RawClient.connected(running, "/P2") as point, RawClient.connected(running, "/operator/P2") as operator:
                expect("call 0", point.texts_of(heartbeat("1"))[1:], [CALL_0])
                expect("a reply", point.texts_of(accepted("0")), [])
                texts, is_open = refusing.texts_of(operator, install("a", fields))
                began = time.monotonic()
                point.send_text(heartbeat("2"))
                expect("the point", point.read_text()[:7], '[3,"2",')
                waits.append(time.monotonic() - began)
                with RawClient.connected(running, "/operator/P2") as other:
                    version = json.loads(other.texts_of(call("s", "PointStatus"))[0])[2]["version"]
                    expect("another install", other.texts_of(install("b", profile(2, [9.0], 1))), [accepted("b")])
            running.kill()
        made = [line for line in data.lines() if line.startswith("operator P2 ")]
    expect("what it was told", texts in ([accepted("a")], [SHORT], []), True)
    expect("the session is open only where it was told something", is_open and not texts, False)
    expect("installs in the journal", len(made), version + 1)
    if texts:
        expect("whether the first install was made", version == 1, texts == [accepted("a")])
    return texts != [accepted("a")] or not is_open


def stop_and_continue(field):
    """The program is stopped, and goes on. Meanwhile others connect and send; what they sent is answered."""
    os.kill(field.server.process.pid, signal.SIGSTOP)
    clients = []
    try:
        for _ in range(20):
            client = field.plain()
            client.send_bytes(b"")
            clients.append(client)
        time.sleep(field.size(3, 1))
    finally:
        os.kill(field.server.process.pid, signal.SIGCONT)
    time.sleep(0.5)
    field.witness.begin()
    for client in clients:
        expect("a handshake", client.shake_hands("/operator/P2", [PROTOCOL]).status, 101)
        expect("an answer", client.texts_of(call("s", "PointStatus"))[0][:7], '[3,"s",')
    time.sleep(field.seconds)
    close_all(clients)


class FullPipe:
    """A standard error of which nobody reads, and that takes no more."""

    def __init__(self):
        self.reading, self.writing = os.pipe()
        fcntl.fcntl(self.writing, fcntl.F_SETPIPE_SZ, 4_096)
        os.set_blocking(self.writing, False)
        with contextlib.suppress(BlockingIOError):
            while True:
                os.write(self.writing, bytes(1))
        os.set_blocking(self.writing, True)

    def fileno(self):
        return self.writing


def unread_standard_error(field):
    """What the program says of full seats isn't read. Whoever comes later finds a seat all the same."""
    clients = [field.plain() for _ in range(field.seats)]
    time.sleep(0.5)
    for _ in range(5):
        field.plain().socket.close()
    time.sleep(field.seconds)
    close_all(clients)
    field.serves_a_newcomer(10)


def broken_journal(field):
    """Nobody reads the standard error, and a sync of the journal fails: the program ends, so that it is started anew."""
    if not shutil.which("strace"):
        print("  strace isn't installed, so no sync fails", flush=True)
        return
    pipe = FullPipe()
    with Data(in_memory=True) as data:
        with Running(field.program, SITE, data.path, environment=NO_LEAKS):
            pass  # the journal has its first line
        under = f"strace -f -qq -o /dev/null -P {data.journal} -e trace=fdatasync -e inject=fdatasync:error=EIO:when=3+".split()
        with Running(field.program, SITE, data.path, under=under, error=pipe, environment=NO_LEAKS) as running:
            told = []
            with contextlib.suppress(OSError, Unexpected), RawClient.connected(running, "/operator/P2") as operator:
                operator.socket.settimeout(10)
                for number in range(5):
                    told += operator.texts_of(install(f"i{number}", profile(1, [number])))
            expect("whether it ends", is_ended(running.process, 10), True)
        kept = [line for line in data.lines() if line.startswith("operator P2 ")]
        expect("whether what it was told is there", len(kept) >= len(told) > 0, True)


def is_ended(process, seconds):
    """Whether a process ends within so many seconds."""
    with contextlib.suppress(subprocess.TimeoutExpired):
        process.wait(seconds)
    return process.poll() is not None


def clock_back(field):
    """The clock goes back by two hours, and on again. A ChargePointMaxProfile without startSchedule doesn't count meanwhile."""
    fuse = profile(1, [10.0], purpose="ChargePointMaxProfile", kind="Relative")
    with field.stranger("/operator/P3") as operator:
        def limit():
            return json.loads(operator.texts_of(ask("a"))[0])[2]["chargingSchedule"]["chargingSchedulePeriod"][0]["limit"]

        fuse["chargingProfileKind"] = "Absolute"
        expect("the fuse limit", operator.texts_of(install("f", fuse)), [accepted("f")])
        expect("the limit", limit(), 10.0)
        field.clock.move(time_of_day=-7_200)
        expect("the limit while the clock is back", limit(), 32.0)
        time.sleep(field.seconds)
        field.clock.move()
        expect("the limit once it has caught up", limit(), 10.0)
        field.clock.move(time_of_day=-7_200)
        expect("the same fuse, installed anew", operator.texts_of(install("f", fuse)), [accepted("f")])
        expect("the limit at once", limit(), 10.0)
        field.clock.move()


ATTACKS = (
    Attack("no file descriptors", "newcomers, for a while", "accepted once there are some", no_descriptors),
    Attack(
        "little address space", "whoever needs memory", "told so or ended; later as before", little_address_space, may_cut=True,
        may_refuse=True, needs_proof=True,
    ),
    Attack("each allocation refused", "that session", "told so or ended", each_allocation, needs_proof=True),
    Attack("stopped and continued", "the time in which it is stopped", "all go on", stop_and_continue),
    Attack(
        "standard error that nobody reads", "what it says", "a newcomer is served", unread_standard_error,
        more=lambda: {"error": FullPipe()},
    ),
    Attack("a journal that breaks, unread", "a restart", "the program ends", broken_journal),
    Attack("a clock that goes back", "a fuse limit without startSchedule", "it counts again", clock_back, more=moves_clock),
)
