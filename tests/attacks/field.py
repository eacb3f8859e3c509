"""What an attack has: the program that serves a site, a witness beside it, and what was measured and kept."""
import contextlib
import json
import os
import select
import subprocess
import sys
import tempfile
import threading
import time

from raw_client import RawClient
from run_crowds import GIVES_BACK
from run_data import Data, read
from run_keys import Keys, basic
from serving import PATIENCE, Running, Serving, Unexpected, expect
from texts import OCPP, call, heartbeat, limit_of, site

HERE = os.path.dirname(os.path.abspath(__file__))
IS_PROVED = "UNPROVED" not in os.environ

# The witness is P1 and its operator. P2 has room for attacks.
SITE = site({"P1": (63.0, [32.0]), "P2": (63.0, [32.0] * 64), "P3": (63.0, [32.0])})
PROTOCOL = f"Sec-WebSocket-Protocol: {OCPP}"
SEATS, SESSIONS = 256, 64

# A client that doesn't read, with packets as a network has them: with the longer ones within a machine, its system and that of the
# program would take in megabytes for it before a write waits. And for how many seconds `run` lets a write wait.
UNREADING = {"receive_buffer": 4_096, "segment": 1_460}
LONGEST_WRITE = 10


class Witness:
    """A witness in a process of its own, so that it waits for no attacker's turn."""

    def __init__(self, port, headers):
        words = [sys.executable, os.path.join(HERE, "witness.py"), str(port), json.dumps(headers)]
        # In a session of its own it has its own share of the processors.
        self.process = subprocess.Popen(words, stdin=subprocess.PIPE, stdout=subprocess.PIPE, text=True, start_new_session=True)

    def __enter__(self):
        expect("what the witness says first", self.process.stdout.readline(), "ready\n")
        self.begin()
        return self

    def __exit__(self, *_):
        self.process.kill()
        self.process.communicate()

    def begin(self):
        """What was measured up to now doesn't count."""
        self._say("begin")
        expect("what the witness says", self.process.stdout.readline(), "begun\n")

    def end(self):
        self._say("end")
        return json.loads(self.process.stdout.readline())

    def _say(self, word):
        self.process.stdin.write(word + "\n")
        self.process.stdin.flush()


class Watch:
    """How much memory and how many threads the program has at most. Its kilobytes are those in memory at one time."""

    def __init__(self, server):
        self.server, self.threads = server, 0
        self.is_over = threading.Event()
        self.thread = threading.Thread(target=self._keep_on, daemon=True)

    def __enter__(self):
        self.thread.start()
        return self

    def __exit__(self, *_):
        self.is_over.set()
        self.thread.join()

    def _keep_on(self):
        while not self.is_over.wait(0.05) and self.server.process.poll() is None:
            try:
                self.threads = max(self.threads, self.server.threads())
            except OSError:
                return


class Clock:
    """A clock of the program that a file moves by so many seconds: one that says the time of day, or one that only goes on."""

    def __init__(self):
        self.folder = tempfile.TemporaryDirectory()
        self.library, self.file = (os.path.join(self.folder.name, name) for name in ("move_clock.so", "seconds"))
        subprocess.run(["cc", "-O2", "-shared", "-fPIC", "-o", self.library, os.path.join(HERE, "move_clock.c")], check=True)
        self.move()

    def move(self, time_of_day=0, going_on=0):
        with open(self.file + ".new", "w", encoding="ascii") as file:
            file.write(f"{time_of_day} {going_on}\n")
        os.replace(self.file + ".new", self.file)

    @property
    def environment(self):
        return {"LD_PRELOAD": self.library, "MOVED_CLOCK": self.file}


class Field:
    """The program that serves SITE at a door: `run`, `keys` (run with keys) or `serve`, and what the attack needs to know."""

    def __init__(self, program, door, is_short, **more):
        self.program, self.door, self.is_short = program, door, is_short
        self.more = more
        self.clock = self.keys = self.witness = None
        # What attackers changed and were answered, where they did; texts of operators of P2 that were accepted.
        self.changes = self.answers = 0
        self.accepted = []
        # How many links of P1 they had.
        self.more_links = 0
        self.figures = []

    def __enter__(self):
        self.data = Data(in_memory=True).__enter__()
        self.keys = Keys(self.program).__enter__() if self.door == "keys" else None
        # `run` gives memory back as the package's unit has it do.
        environment = {**({} if self.door == "serve" else GIVES_BACK), **self.more.pop("environment", {})}
        if self.more.pop("moves_clock", False):
            self.clock = Clock()
            environment.update(self.clock.environment)
        self.server = self._server(environment).__enter__()
        headers = {"point": self.login("P1"), "operator": self.login("ann")}
        self.witness = Witness(self.server.port, headers).__enter__()
        return self

    def _server(self, environment):
        if self.door == "serve":
            return Serving(self.program, SITE, SESSIONS, environment=environment, **self.more)
        keys = self.keys and self.keys.path
        return Running(self.program, SITE, self.data.path, seats=SEATS, keys=keys, environment=environment, **self.more)

    def __exit__(self, *problem):
        for part in (self.witness, self.server, self.keys, self.data):
            if part is not None:
                part.__exit__(*problem)

    @property
    def seconds(self):
        """How long an attack goes on that has no end."""
        return 1.0 if self.is_short else 5.0

    def size(self, whole, short):
        return short if self.is_short else whole

    @property
    def seats(self):
        """How many connections there may be beside the witness's. In all, where the door is `serve`: one is left."""
        return SESSIONS - 3 if self.door == "serve" else SEATS - 2

    def login(self, name):
        """The header of a user, where there are keys."""
        return [basic(name, self.keys.of[name].encode())] if self.keys else []

    # ---- clients

    def plain(self, **more):
        """A connection without a handshake."""
        return RawClient(self.server, **more)

    def stranger(self, path="/operator/P2", **more):
        """Whoever comes as somebody else than the witness. With keys it has the key of P2 alone."""
        client = self.plain(**more)
        response = client.shake_hands(path, [PROTOCOL, *self.login("P2")])
        expect(f"the handshake of {path}", response and response.status, 101)
        return client

    def strangers(self, count, path="/operator/P2", **more):
        return [self.stranger(path, **more) for _ in range(count)]

    def status_of(self, path, *headers):
        """How a handshake is answered: by which status, or by None."""
        with self.plain() as client:
            response = client.shake_hands(path, [PROTOCOL, *headers])
            return response and response.status

    def is_full(self):
        """All seats are taken: whoever comes is told so."""
        try:
            return self.status_of("/P2", *self.login("P2")) == 503
        except OSError:
            return False

    def serves_a_newcomer(self, patience=PATIENCE):
        """Somebody new is served within so many seconds: there is a seat for it."""
        patience = patience if IS_PROVED else max(patience, PATIENCE / 10)
        end = time.monotonic() + patience
        while time.monotonic() < end:
            if self._is_served(max(0.1, end - time.monotonic())):
                return
            time.sleep(0.05)
        raise Unexpected(f"there is no seat for a newcomer within {patience:.0f} seconds")

    def _is_served(self, patience):
        """Whether somebody new is served so soon."""
        with self.plain() as client, contextlib.suppress(OSError):
            client.socket.settimeout(patience)
            response = client.shake_hands("/P2", [PROTOCOL, *self.login("P2")])
            if response is None or response.status != 101:
                return False
            client.send_text(heartbeat("new"))
            while not client.read_text().startswith('[3,"new",'):
                pass
            return True
        return False

    def tell(self, figure):
        self.figures.append(figure)

    # ---- what was kept

    def is_kept(self, seen):
        """What the witness was answered is what the program has, its journal, and a start from it."""
        if self.door == "serve":
            self._totals_are(seen)
        else:
            expect("the program still runs", self.server.process.poll(), None)
            self.server.kill()
            self._journal_is(seen)
            self._start_has(seen)

    def _totals_are(self, seen):
        for _ in range(SESSIONS):
            try:
                self.plain().socket.close()
            except OSError:
                break
        changes, answers = self.server.totals()
        made = len(seen["installs"]) + self.changes
        expect(f"{changes} changes are {made}, or some unsure ones more", made <= changes <= made + len(seen["unsure"]), True)
        told = seen["answers"] + self.answers
        expect(f"{answers} answers are {told}, or one more", answers - told in (0, 1), True)

    def _journal_is(self, seen):
        status, script, said = read(self.program, self.data, "journal", of=SITE)
        expect("how the journal is printed", (status, said), (0, ""))
        lines = [line.partition(" ")[2] for line in script.split("\n")]
        kept = [line[len("operator P1 "):] for line in lines if line.startswith("operator P1 ")]
        unsure = set(seen["unsure"])
        kept = [text for text in kept if text not in unsure]
        expect("installs that the journal hasn't, or has in another order", kept, seen["installs"])
        accepted = [line[len("operator P2 "):] for line in lines if line.startswith("operator P2 ")]
        expect("texts of others that the journal hasn't", [text for text in self.accepted if text not in accepted], [])
        links = sum(line.startswith("attached P1 ") for line in self.data.lines())
        expect("links of P1 that others had", links - 1 - seen["point"]["cuts"], self.more_links)

    def _start_has(self, seen):
        shown = json.loads(read(self.program, self.data, "show", "--json", of=SITE)[1])["points"][0]
        limits = [limit_of(row) for row in shown["profiles"]]
        told = [[seen["limit"]], *([limit_of(json.loads(text)[3])] for text in seen["unsure"])]
        expect(f"whether {limits} are those of {told}", limits in told, True)
        # The reply to the last call may not be on the disk, since nothing left that depends on it.
        missing = seen["confirmed"] + 1 - shown["confirmed"]
        expect(f"{missing} of the calls that P1 confirmed are missing, at most one", missing in (0, 1), True)
        keys = self.keys and self.keys.path
        with Running(self.program, SITE, self.data.path, keys=keys) as running:
            self.server.port = running.port
            with self.plain() as client:
                expect("the operator comes back", client.shake_hands("/operator/P1", [PROTOCOL, *self.login("ann")]).status, 101)
                text = client.texts_of(call("s", "PointStatus"))[0]
                expect("the version", json.loads(text)[2]["status"], "Accepted")


def in_threads(count, work, patience=PATIENCE):
    """Does some work so many times at once, each with its number. Fails where one fails."""
    faults = []

    def keep(number):
        try:
            work(number)
        except Exception as fault:  # whatever it is, the attack has failed
            faults.append(f"{number}: {type(fault).__name__}: {fault}")

    threads = [threading.Thread(target=keep, args=(number,), daemon=True) for number in range(count)]
    for thread in threads:
        thread.start()
    end = time.monotonic() + patience
    for thread in threads:
        thread.join(max(0.0, end - time.monotonic()))
    expect("faults of attackers", faults[:3], [])
    expect("attackers that haven't ended", sum(thread.is_alive() for thread in threads), 0)


def has_ended(client):
    """Whether the stream of a client has ended: looked at without waiting, past whatever came."""
    while select.select([client.socket], [], [], 0)[0]:
        try:
            if not client.socket.recv(1 << 16):
                return True
        except OSError:
            return True
    return False


def all_end(clients, within):
    """How many seconds it takes until all streams have ended."""
    began, left = time.monotonic(), list(clients)
    while left:
        left = [client for client in left if not has_ended(client)]
        if left and time.monotonic() > began + within:
            raise Unexpected(f"{len(left)} of {len(clients)} connections are still open after {within} seconds")
        time.sleep(0.05)
    return time.monotonic() - began


def all_are_cut_off(clients, began, within):
    """All connections are reset though nobody reads them: within so many seconds of a moment, and none before it may be."""
    poll, left = select.poll(), len(clients)
    for client in clients:
        poll.register(client.socket, 0)
    within = within if IS_PROVED else PATIENCE
    while left:
        ended = poll.poll(50)
        for handle, _ in ended:
            poll.unregister(handle)
        left, passed = left - len(ended), time.monotonic() - began
        expect(f"connections that ended after {passed:.1f} seconds, before they may", len(ended) if passed < LONGEST_WRITE else 0, 0)
        if left and passed > within:
            raise Unexpected(f"{left} of {len(clients)} connections are still open after {within} seconds")


def close_all(clients):
    for client in clients:
        client.socket.close()
