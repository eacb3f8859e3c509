"""The program as it serves: on a free port, ended by its own process number."""
import contextlib
import os
import re
import resource
import select
import signal
import socket
import subprocess
import tempfile
import time

# A build that is watched by a sanitizer (as `rt try` makes it) is told not to keep memory that was freed. Others don't look.
ENVIRONMENT = {"ASAN_OPTIONS": "quarantine_size_mb=1:detect_stack_use_after_return=0", **os.environ}

# Seconds that anything may take on a machine that is busy. A test that passes waits for none of them to run out.
PATIENCE = 300.0 if "UNPROVED" in os.environ else 100.0


class Unexpected(Exception):
    """What was seen isn't what was wanted."""


def shown(value):
    text = repr(value)
    return text if len(text) <= 300 else f"{text[:200]}..({len(text)} characters)"


def expect(what, seen, wanted):
    if seen != wanted:
        raise Unexpected(f"{what}: seen {shown(seen)}, wanted {shown(wanted)}")


def free_port():
    with socket.socket() as probe:
        probe.bind(("127.0.0.1", 0))
        return probe.getsockname()[1]


def expect_nobody_listens(port):
    """A client is refused at once, now or soon: until the port is closed, it may still be let wait."""
    end = time.monotonic() + PATIENCE
    while time.monotonic() < end:
        try:
            socket.create_connection(("127.0.0.1", port), PATIENCE).close()
        except ConnectionRefusedError:
            return
        time.sleep(0.01)
    raise Unexpected("somebody still listens")


def limit(limits):
    """Gives this process limits, and those that it starts. Past that of a file's size a write fails, and no more."""
    signal.signal(signal.SIGXFSZ, signal.SIG_IGN)
    for kind, most in limits.items():
        resource.setrlimit(kind, (most, most))


class Serving:
    """`PROGRAM serve` of a site for so many connections. At the end of a `with` block it doesn't run any more.

    `limits` are those of `resource.setrlimit` that the program has, by their kind. Its standard error is a pipe, or
    `error`. `environment` is what its environment has beside that of all.
    """

    def __init__(self, program, site, sessions, workers=2, limits=None, error=subprocess.PIPE, environment=None):
        self.program = program
        self.site = site
        self.sessions = sessions
        self.workers = workers
        self.limits = limits or {}
        self.error = error
        self.environment = {**ENVIRONMENT, **(environment or {})}
        self.port = None
        self.process = None

    def __enter__(self):
        self.folder = tempfile.TemporaryDirectory()
        path = os.path.join(self.folder.name, "site.json")
        with open(path, "w", encoding="utf-8") as file:
            file.write(self.site)
        for _ in range(5):  # somebody else may take the free port meanwhile
            self.port = free_port()
            if self._started(path):
                return self
        self.folder.cleanup()
        raise Unexpected(f"no port to listen at; last the program said {self.said}")

    def __exit__(self, *_):
        if self.process.poll() is None:
            self.process.kill()
        self.process.wait(PATIENCE)
        for pipe in (self.process.stdout, self.process.stderr):
            if pipe is not None:
                pipe.close()
        self.folder.cleanup()

    def _started(self, path):
        address = f"127.0.0.1:{self.port}"
        command = self._command(path, address)
        self.process = subprocess.Popen(
            command, stdout=subprocess.PIPE, stderr=self.error, env=self.environment,
            preexec_fn=lambda: limit(self.limits),
        )
        select.select([self.process.stdout], [], [], PATIENCE)
        line = self._first_line() if self.process.poll() is None else b""
        if line == f"listening {address}\n".encode():
            return True
        self.process.kill()
        self.said = (line, *self.process.communicate())
        return False

    def _command(self, path, address):
        numbers = ["--workers", str(self.workers), "--sessions", str(self.sessions)]
        return [self.program, "serve", "--site", path, "--listen", address, *numbers]

    def _first_line(self):
        return self.process.stdout.readline()

    def peak_memory(self):
        """The most kilobytes that the program has had in memory at one time."""
        with open(f"/proc/{self.process.pid}/status", encoding="ascii") as file:
            return int(re.search(r"VmHWM:\s*(\d+) kB", file.read()).group(1))

    def threads(self):
        """How many threads of the program live."""
        return len(os.listdir(f"/proc/{self.process.pid}/task"))

    def processor_time(self):
        with open(f"/proc/{self.process.pid}/stat", encoding="ascii") as file:
            return sum(map(int, file.read().rpartition(")")[2].split()[11:13]))

    def wants_a_processor(self):
        """Whether one of its threads runs, or would where the machine weren't busy."""
        for thread in os.listdir(f"/proc/{self.process.pid}/task"):
            with contextlib.suppress(OSError):  # it may just have ended
                with open(f"/proc/{self.process.pid}/task/{thread}/stat", encoding="ascii") as file:
                    if file.read().rpartition(")")[2].split()[0] in "RD":
                        return True
        return False

    def until_idle(self):
        """Waits until it does nothing: because all is done, or because it waits for a client that doesn't read."""
        used, since = self.processor_time(), time.monotonic()
        while time.monotonic() < since + 1:
            time.sleep(0.05)
            if self.processor_time() != used or self.wants_a_processor():
                used, since = self.processor_time(), time.monotonic()

    def fault(self):
        """Waits until the program ends by itself. Its status, and what it printed since the first line."""
        try:
            out, err = self.process.communicate(timeout=PATIENCE)
        except subprocess.TimeoutExpired:
            raise Unexpected(f"the program still runs {PATIENCE:.0f} seconds after its last session") from None
        return self.process.returncode, out, err

    def totals(self):
        """Waits until the program ends by itself, well. The changes and answers of its last line."""
        status, out, err = self.fault()
        expect("exit status", status, 0)
        expect("standard error", err, b"")
        found = re.fullmatch(rb"done changes (\d+) answers (\d+)\n", out)
        if not found:
            raise Unexpected(f"the last line: seen {out!r}, wanted 'done changes V answers W'")
        return int(found[1]), int(found[2])


class Running(Serving):
    """`PROGRAM run` of a site with the journal of a folder. At the end of a `with` block it is killed.

    `resumed` is what it says that it goes on with: points, profiles, transactions, calls. It runs below what `under` says.
    """

    def __init__(self, program, site, data, seats=None, under=(), call_timeout=None, keys=None, has_status=False, is_status_open=False, after_boot=None, **more):
        super().__init__(program, site, None, **more)
        self.data = data
        self.after_boot = after_boot
        self.seats = seats
        self.under = list(under)
        self.call_timeout = call_timeout
        self.keys = keys
        self.has_status = has_status
        self.is_status_open = is_status_open
        self.status_port = None
        self.resumed = None

    def _command(self, path, address):
        self.status_port = free_port() if self.has_status else None
        status = f"127.0.0.1:{self.status_port}" if self.has_status else None
        numbers = {"--seats": self.seats, "--call-timeout": self.call_timeout, "--keys": self.keys, "--status": status, "--after-boot": self.after_boot}
        options = [word for name, number in numbers.items() if number is not None for word in (name, str(number))]
        options += ["--status-open"] if self.is_status_open else []
        return [*self.under, self.program, "run", "--site", path, "--data", self.data, "--listen", address, *options]

    def _first_line(self):
        line = self.process.stdout.readline()
        found = re.fullmatch(RESUMED, line)
        if not found:
            return line
        self.resumed = tuple(map(int, found.groups()))
        return self.process.stdout.readline()

    def __exit__(self, *problem):
        self.end_children()
        super().__exit__(*problem)

    def end_children(self):
        """Kills what it runs below, if it does: that wouldn't take it along."""
        if self.under and self.process.poll() is None:
            with open(f"/proc/{self.process.pid}/task/{self.process.pid}/children", encoding="ascii") as file:
                for child in file.read().split():
                    with contextlib.suppress(ProcessLookupError):  # it may just have ended
                        os.kill(int(child), signal.SIGKILL)

    def kill_and_hear(self):
        """Kills it, at whatever it does. All that it said on standard error."""
        self.process.kill()
        return self.process.communicate(timeout=PATIENCE)[1]

    def kill(self):
        """Kills it, at whatever it does. What it said on standard error, without moments and without what is said of clients."""
        # Where its standard error isn't read here, nothing of it is heard.
        return undated(self.kill_and_hear() or b"")


def state_of(process):
    """`S` where it waits, `T` where it is stopped."""
    with open(f"/proc/{process.pid}/stat", encoding="ascii") as file:
        return file.read().rpartition(")")[2].split()[0]


def undated(said):
    """What is said on standard error, without moments and without what is said of clients."""
    return DATED.sub(rb"central: ", OF_CLIENTS.sub(b"", said))


# What is said of clients as they come and go, and the beginning of whatever is said with its moment.
OF_CLIENTS = re.compile(
    rb"central: \d{4}-\S+Z \S+: (connected[^\n]*|lost[^\n]*|booted|its earlier connection is closed|refused, [^\n]*|rejected call [^\n]*"
    rb"|its message was answered [^\n]*"
    rb"|call \d+ has no reply[^\n]*)\n"
)
DATED = re.compile(rb"^central: \d{4}-\S+Z ", re.MULTILINE)

RESUMED = rb"resumed (\d+) points, (\d+) profiles, (\d+) transactions, (\d+) calls waiting\n"


def until(what, is_so, more=0.0):
    """Waits until something is so, for so many seconds more than for anything else."""
    end = time.monotonic() + PATIENCE + more
    while not is_so():
        if time.monotonic() > end:
            raise Unexpected(f"after {PATIENCE + more:.0f} seconds not yet: {what}")
        time.sleep(0.01)
