"""Three sites behind one front, as the page of a fleet has them: its keys, units, maps, fronts, rules and manifest."""
import ast
import contextlib
import os
import random
import re
import shlex
import shutil
import signal
import socket
import subprocess
import sys
import tempfile
import threading
import time
import urllib.request

sys.path.insert(0, os.path.join(os.path.dirname(os.path.realpath(__file__)), ".."))
from markdown import section_of
from odd_paths import PATHS, PROTOCOL, statuses_with_keys, who_is_let_in
from proxies import AROUND_NGINX, EncryptedClient, Proxy
from raw_client import RawClient
from run_data import Data
from run_keys import basic, done
from serving import ENVIRONMENT, PATIENCE, Running, Unexpected, expect, until
from stations import CEILING, CONNECTORS, Cut, Pair, Station
from texts import heartbeat, install, profile, site

TOP = os.path.join(os.path.dirname(os.path.abspath(__file__)), os.pardir, os.pardir)
PAGE_FOLDER = os.path.join(TOP, "examples", "fleet")

# The points of each site. Some have names that mean something to nginx or in a path, and one is as long as may be.
SITES = {
    "north": [f"P{number}" for number in range(1, 51)],
    "south": [f"P{number}" for number in range(51, 101)],
    "west": [*(f"P{number}" for number in range(101, 144)), "default", "include", "hostnames", "volatile", "~P1", "-", "x" * 48],
}

# What stands in a file of the page, and each by what it is told from the others.
BLOCKS = {
    "fleet": ("text", "127.0.0.1:9001"), "keys": ("sh", "central key"), "units": ("sh", "systemctl"), "maps": ("sh", "#!/bin/sh"),
    "nginx": ("nginx", "server {"), "haproxy": ("haproxy", "frontend"),
}


def text_of(*path):
    with open(os.path.join(TOP, *path), encoding="utf-8") as file:
        return file.read()


def block(name):
    """A code block of the page."""
    language, words = BLOCKS[name]
    blocks = re.findall(rf"^```{language}\n(.*?)^```$", text_of("examples", "fleet", "README.md"), re.MULTILINE | re.DOTALL)
    found = [text for text in blocks if words in text]
    expect(f"how many blocks of {language} have {words}", len(found), 1)
    return found[0]


def fixed_addresses(count):
    """Addresses with ports that stay free while nobody listens: the system gives them to no connection."""
    ports = set()
    while len(ports) < count:
        with socket.socket() as probe, contextlib.suppress(OSError):
            probe.bind(("127.0.0.1", random.randrange(20_000, 32_000)))
            ports.add(probe.getsockname()[1])
    return [f"127.0.0.1:{port}" for port in ports]


def site_text(names):
    """A site whose ceilings no limit of a station reaches."""
    return site({name: (CEILING, [CEILING] * CONNECTORS) for name in names})


class SiteProcess:
    """What systemd starts for a site: the command of the package's unit, with what the page adds to it."""

    def __init__(self, fleet, name):
        self.name, self.fleet, self.process = name, fleet, None
        unit = text_of("packaging", "package", "central.service")
        # The template unit, as packaging/deb makes it.
        changes = re.search(r"^FURTHER_SITE = (\(.*?^\))$", text_of("packaging", "deb"), re.MULTILINE | re.DOTALL)[1]
        for old, new in ast.literal_eval(changes):
            unit = unit.replace(old, new)
        with open(fleet.file(f"units/central@{name}.service.d/fleet.conf"), encoding="utf-8") as file:
            unit = unit.replace("%i", name) + file.read()
        told = [word for line in re.findall(r"^Environment=(.*)$", unit, re.MULTILINE) for word in shlex.split(line)]
        told = dict(word.split("=", 1) for word in told)
        command = re.search(r"^ExecStart=(.*)$", unit, re.MULTILINE)[1]
        command = re.sub(r"\$\{(\w+)\}|\$(\w+)", lambda found: told[found[1] or found[2]], command)
        # On a busy machine it takes longer than a minute until a point has its turn to reply.
        self.words = [*shlex.split(fleet.moved(command).replace("/usr/bin/central", fleet.program)), "--call-timeout", "600"]
        self.listen, self.status = told["LISTEN"], self.words[self.words.index("--status") + 1]

    def start(self):
        with open(self.fleet.file(f"{self.name}.log"), "ab") as log:
            self.process = subprocess.Popen(self.words, stdout=subprocess.PIPE, stderr=log, env=ENVIRONMENT, text=True)
        resumed, listening = self.process.stdout.readline(), self.process.stdout.readline()
        expect(f"what {self.name} says", resumed.split(",")[0], f"resumed {len(self.fleet.names[self.name])} points")
        expect(f"where {self.name} listens", listening, f"listening {self.listen}\n")

    def kill(self):
        if self.process is not None:
            self.process.kill()
            self.process.wait(PATIENCE)
            self.process.stdout.close()

    def metrics(self):
        with urllib.request.urlopen(f"http://{self.status}/metrics", timeout=PATIENCE) as answer:
            return answer.read().decode()

    def refused(self):
        """How many connections it didn't let in."""
        return int(re.search(r"^central_handshakes_refused_total (\d+)$", self.metrics(), re.MULTILINE)[1])


class Fleet:
    """The folder of the page's sites: its blocks are done in it, and `systemctl` notes what it is told."""

    def __init__(self, program):
        self.program = program

    def __enter__(self):
        self.folder = tempfile.TemporaryDirectory(prefix="central-fleet-")
        self.names, self.processes, self.key_of = dict(SITES), {}, {}
        for folder in ("etc", "units", "var", "bin"):
            os.mkdir(self.file(folder))
        os.symlink(self.program, self.file("bin/central"))
        self.write("bin/systemctl", f'#!/bin/sh\necho "$@" >> {self.file("systemctl")}\n', 0o755)
        table = block("fleet")
        expect("the sites of the page", re.findall(r"^\w+", table, re.MULTILINE), list(SITES))
        addresses = iter(fixed_addresses(2 * len(SITES)))
        self.write("etc/fleet", re.sub(r"127\.0\.0\.1:\d+", lambda _: next(addresses), table))
        for name, points in SITES.items():
            self.write(f"etc/{name}.json", site_text(points))
        self.write("etc/maps", self.moved(block("maps")), 0o755)
        return self

    def __exit__(self, *_):
        for process in self.processes.values():
            process.kill()
        self.folder.cleanup()

    def file(self, name):
        return os.path.join(self.folder.name, name)

    def write(self, name, text, mode=0o644):
        with open(self.file(name), "w", encoding="utf-8") as file:
            file.write(text)
        os.chmod(self.file(name), mode)

    def read(self, name):
        with open(self.file(name), encoding="utf-8") as file:
            return file.read()

    def moved(self, text):
        """A text of the page or of a unit with the folders of this fleet."""
        for old, new in (("/etc/central", "etc"), ("/etc/systemd/system", "units"), ("/var/lib", "var")):
            text = text.replace(old, self.file(new))
        return text

    def done(self, command):
        """A shell's command: its status and what it says on standard error."""
        path = f"{self.file('bin')}:{os.environ['PATH']}"
        done = subprocess.run(
            ["sh", "-c", command], capture_output=True, timeout=PATIENCE, check=False, text=True, env={**ENVIRONMENT, "PATH": path},
        )
        return done.returncode, done.stderr

    def do(self, name):
        expect(f"how the page's {name} end", self.done(f"set -e\n{self.moved(block(name))}"), (0, ""))

    def make_maps(self):
        return self.done(self.file("etc/maps"))

    def begin(self):
        """Keys, units and maps are made, and all sites are started."""
        self.do("keys")
        self.read_keys()
        self.do("units")
        wanted = "daemon-reload\nenable --now " + " ".join(f"central@{name}" for name in SITES) + "\n"
        expect("what systemctl is told", self.read("systemctl"), wanted)
        expect("how the maps are made", self.make_maps(), (0, ""))
        for name in SITES:
            self.start(name)

    def read_keys(self):
        self.key_of = dict(line.split(":") for line in (self.read("etc/logins") + self.read("etc/ann.key")).split())

    def start(self, name):
        self.processes[name] = SiteProcess(self, name)
        self.processes[name].start()

    def login(self, name):
        return basic(name, self.key_of[name].encode())


# What a front says while a site is down.
DOWN = {"nginx": 502, "haproxy": 503}


class Front(Proxy):
    """nginx or haproxy by the page's file, with a process over it that can be told to reload, as a service has it."""

    def __init__(self, name, fleet):
        super().__init__(name, None)
        self.fleet, self.refusals = fleet, {DOWN[name]}

    def __exit__(self, *_):
        self.process.terminate()
        try:
            self.process.communicate(timeout=PATIENCE)
        finally:
            self.process.kill()
            self.folder.cleanup()

    def _words(self, path):
        if self.name == "nginx":
            return ["nginx", "-c", path]
        return ["haproxy", "-W", "-f", path, "-f", self.fleet.file("etc/backends.cfg")]

    def _configuration(self):
        """The page's file, at a port of this machine, with this certificate and the fleet's maps."""
        text = block(self.name)
        listen, anywhere = ("listen", "") if self.name == "nginx" else ("bind", ":")
        changes = (f"{listen} {anywhere}443 ", f"{listen} 127.0.0.1:{self.port} "), ("/etc/central/fleet.", self._file("site."))
        for old, new in changes:
            expect(f"whether the page's file has {old}", old in text, True)
            text = text.replace(old, new)
        if self.name == "nginx":
            around = AROUND_NGINX.replace("master_process off;", "user root;" if os.geteuid() == 0 else "")
            text = around.format(text).replace("F/", self.folder.name + "/")
        return self.fleet.moved(text)

    def reload(self):
        """As `systemctl reload` does."""
        self.process.send_signal(signal.SIGHUP if self.name == "nginx" else signal.SIGUSR2)

    def status_of(self, path, login):
        """The status of a handshake with somebody's key."""
        with EncryptedClient(self) as client:
            response = client.shake_hands(path, [PROTOCOL, self.fleet.login(login)])
            return response and response.status


class FrontPair(Pair):
    """The connections of a point and its operator through the front, each with its key."""

    def __init__(self, name, front):
        super().__init__(name, turns=False)
        self.front, self.connections = front, 0

    def texts_of(self, side, text):
        """As with any pair; but the answer to a ping may come before a schedule that takes long."""
        is_answered = not text.startswith("[2,")
        for brought in super().texts_of(side, text):
            is_answered = is_answered or not brought.startswith("[2,")
            yield brought
        if not is_answered:
            try:
                frame = self.clients[side].read_frame()
            except OSError as fault:
                raise Cut from fault
            if frame is None:
                raise Cut
            yield frame.payload.decode()

    def _connected(self, path):
        """A connection, once its site is there and the front knows it."""
        login = self.front.fleet.login("ann" if path.startswith("/operator/") else self.name)
        end = time.monotonic() + PATIENCE
        while time.monotonic() < end:
            client = EncryptedClient(self.front)
            response = client.shake_hands(path, [PROTOCOL, login])
            if response is not None and response.status == 101:
                self.connections += 1
                return client
            client.socket.close()
            status = response and response.status
            expect(f"whether {path} may be answered {status}", status in self.front.refusals, True)
            time.sleep(0.05)
        raise Unexpected(f"{path} isn't served again")


class Day:
    """The day of a site's points and operators, step after step, in a thread of its own."""

    def __init__(self, front, name):
        self.name, self.steps, self.problem, self.thread = name, 0, None, None
        self.stations = []
        for point in front.fleet.names[name]:
            station = Station(point[:20], seed=front.name)  # its messages' ids begin so, and may have 36 characters
            station.pair = FrontPair(point, front)
            self.stations.append(station)

    def begin(self):
        """Each point and its operator connect, and find all that they were answered. Then they go on."""
        for station in self.stations:
            station.connect(None)
            station.pair.client("point")
        self.problem, self.is_over = None, False
        self.thread = threading.Thread(target=self._run, daemon=True)
        self.thread.start()

    def _run(self):
        try:
            while not self.is_over:
                for station in self.stations:
                    station.step()
                    self.steps += 1
                    time.sleep(0.02)
        except (Exception, Cut) as problem:  # whoever waits for the thread looks at it
            self.problem = problem

    def until_steps(self, count):
        wanted = self.steps + count
        until(f"{count} steps of {self.name}", lambda: self.steps >= wanted or self.problem)
        self._look()

    def end(self):
        self.is_over = True
        self.thread.join(PATIENCE)
        self._look()

    def connections(self):
        """How many connections each point had with its operator."""
        return sorted({station.pair.connections for station in self.stations})

    def _look(self):
        if self.problem:
            raise Unexpected(f"{self.name}: {type(self.problem).__name__}: {self.problem}")


def who_comes_where(front, fleet):
    """Each path comes to what it comes to at its site; what names nobody of any site comes to none."""
    everybody = {point for points in fleet.names.values() for point in points}
    for path, named in PATHS.items():
        # What is to lead elsewhere leads to another site.
        for other, login, wanted in statuses_with_keys(path.replace("P1", "P101"), named):
            seen = who_is_let_in(EncryptedClient(front), other, [fleet.login(login)] if login else [])
            if seen == 404:
                expect(f"whether a site has {other}", other.partition("?")[0].rpartition("/")[2] in everybody, False)
            elif seen != 400:
                expect(f"{front.name}: {other} with the key of {login}", seen, wanted)
    before = [process.refused() for process in fleet.processes.values()]
    for path in ("/P151", "/operator/P151", "/ocpp/P151?x=/P1", "/P1/P151", "/", "/operator/", "/P1/", "/north", "/P1%20", "/%501"):
        expect(f"{front.name}: {path}, which no site has", (front.status_of(path, "ann"), front.status_of(path, "P1")), (404, 404))
    expect("what the sites hear of it", [process.refused() for process in fleet.processes.values()], before)
    expect(f"{front.name}: an identity in other letters", front.status_of("/p1", "P1"), {"nginx": 403, "haproxy": 404}[front.name])


def one_is_killed(front, fleet, days):
    """A site is killed in mid-day and started again: its points have what they had, and the others notice nothing."""
    for day in days.values():
        day.begin()
    for day in days.values():
        day.until_steps(len(day.stations))
    north = days["north"]
    fleet.processes["north"].kill()
    until("its points see it", lambda: north.problem)
    expect("what they see", type(north.problem).__name__, "Cut")
    expect("what the front says", front.status_of("/P1", "P1"), DOWN[front.name])
    for name in ("south", "west"):
        days[name].until_steps(len(days[name].stations))
    fleet.start("north")
    north.begin()
    for day in days.values():
        day.until_steps(len(day.stations))


def another_comes(front, fleet, days):
    """A fourth site in the afternoon: the front is told to reload, and ends no connection by it."""
    fleet.names["east"] = ["E1"]
    fleet.write("etc/east.json", site_text(["E1"]))
    fleet.write("etc/fleet", fleet.read("etc/fleet") + " ".join(["east", *fixed_addresses(2)]) + "\n")
    one = "cd /etc/central; (cat operators; central key --name E1 2>> logins) > east.keys"
    expect("how its key is made", fleet.done(fleet.moved(one)), (0, ""))
    fleet.read_keys()
    fleet.do("units")
    fleet.start("east")
    expect("how the maps are made", fleet.make_maps(), (0, ""))
    expect("before the front reads them", front.status_of("/E1", "E1"), 404)
    front.reload()
    front.refusals.add(404)  # until it has read them, and as long as nginx's old process takes connections
    days["east"] = Day(front, "east")
    days["east"].begin()
    for day in days.values():
        day.until_steps(len(day.stations))


def behind(name):
    """A test of a front, which is left out where that isn't installed."""
    def test(program):
        missing = [tool for tool in (name, "jq", "openssl") if not shutil.which(tool)]
        if missing:
            print(f"  {', '.join(missing)} isn't installed, so no fleet is tried behind {name}", flush=True)
            return
        with Fleet(program) as fleet:
            fleet.begin()
            with Front(name, fleet) as front:
                days = {site_name: Day(front, site_name) for site_name in SITES}
                who_comes_where(front, fleet)
                one_is_killed(front, fleet, days)
                another_comes(front, fleet, days)
                for day in days.values():
                    day.end()
                # The points of the site that was killed get the calls that wait for them, and so does one of each other site.
                for station in [*days["north"].stations, *(day.stations[0] for day in days.values())]:
                    station.drain()
                expect("connections in the day", {site_name: day.connections() for site_name, day in days.items()},
                       {"north": [4], "south": [2], "west": [2], "east": [2]})
    return test


def an_identity_of_two(program):
    """The maps have each point once. An identity that two sites have is named, also in other letters, and no map changes."""
    if not shutil.which("jq"):
        print("  jq isn't installed, so no map is made", flush=True)
        return
    with Fleet(program) as fleet:
        made = ("identities", "haproxy.map", "nginx.map", "backends.cfg")
        expect("how the maps are made", fleet.make_maps(), (0, ""))
        before = [fleet.read(f"etc/{name}") for name in made]
        address = dict(line.split()[:2] for line in fleet.read("etc/fleet").splitlines())
        of_all = [(point, name) for name, points in SITES.items() for point in points]
        expect("haproxy's map", before[1], "".join(f"{point} {name}\n" for point, name in of_all))
        expect("nginx's map", before[2], "".join(f'"/{point}" {address[name]};\n' for point, name in of_all))
        fleet.write("etc/fleet", fleet.read("etc/fleet") + "east 127.0.0.1:9004 127.0.0.1:9104\n")
        for text, said in (
            (site_text(["E1", "P1"]), "P1: north and east have it\n"),
            (site_text(["p143", "E1", "P51"]), "p143: west and east have it\nP51: south and east have it\n"),
            (site_text(["E1", "e1"]), "e1: east and east have it\n"),
            (site_text(["E1", "E2"]).replace("E2", "E1"), "east.json: points[1] (E1): id: "),
        ):
            fleet.write("etc/east.json", text)
            status, seen = fleet.make_maps()
            expect(f"with {text}", (status, seen if said.endswith("\n") else seen[:len(said)]), (1, said))
            expect("what is kept", [fleet.read(f"etc/{name}") for name in made], before)
        os.remove(fleet.file("etc/east.json"))
        status, said = fleet.make_maps()
        expect("without a site file", (status, "east.json" in said), (1, True))
        expect("what is kept", [fleet.read(f"etc/{name}") for name in made], before)


def whom_it_calls(program):
    """Prometheus reads the page's ports; each figure of a rule is one of a site; the rules fire when they are to."""
    with Data() as data, Running(program, site_text(["P1"]), data.path, has_status=True) as running:
        with RawClient.connected(running, "/P1") as point:
            point.texts_of(heartbeat("h"))  # call 0 is in flight
            with RawClient.connected(running, "/operator/P1") as operator:
                operator.texts_of(install("i", profile(1, [7.0])))
                with urllib.request.urlopen(f"http://127.0.0.1:{running.status_port}/metrics", timeout=PATIENCE) as answer:
                    figures = answer.read().decode()
    rules = text_of("examples", "fleet", "rules.yml")
    named = set(re.findall(r"\bcentral_\w+", rules))
    expect("figures in the rules that a site hasn't", named - set(re.findall(r"^(central_\w+)[ {]", figures, re.MULTILINE)), set())
    of_points = {name for name in named if re.search(rf'^{name}{{point="P1"}} ', figures, re.MULTILINE)}
    expect("whether figures of points have that label", len(of_points) >= 6, True)
    rows = section_of(text_of("examples", "fleet", "README.md"), "What to watch")
    expect("the rules of the page", re.findall(r"`([A-Z][a-z]\w+)`", rows), re.findall(r"alert: (\w+)", rules))
    read = re.findall(r"targets: \[(\S+)\]\n +labels: {site: (\w+)}", text_of("examples", "fleet", "prometheus.yml"))
    expect("the ports that are read", read, [tuple(line.split()[:0:-2]) + (line.split()[0],) for line in block("fleet").splitlines()])
    if not shutil.which("promtool"):
        print("  promtool isn't installed, so it looks at no rule", flush=True)
        return
    for words in (["check", "config", "prometheus.yml"], ["check", "rules", "rules.yml"], ["test", "rules", "rules-test.yml"]):
        checked = subprocess.run(["promtool", *words], cwd=PAGE_FOLDER, capture_output=True, text=True, timeout=PATIENCE, check=False)
        expect(f"promtool {' '.join(words)}", (checked.returncode, checked.stderr), (0, ""))


def in_a_cluster(program):
    """The manifest's command runs a site: by itself, and not in a cluster."""
    manifest = text_of("examples", "fleet", "kubernetes.yaml")
    command = re.search(r"^ +command:\n((?: +[-#] .*\n)+)", manifest, re.MULTILINE)[1]
    words = re.findall(r"^ +- (.*)$", command, re.MULTILINE)
    with tempfile.TemporaryDirectory() as folder:
        with open(os.path.join(folder, "site.json"), "w", encoding="utf-8") as file:
            file.write(site_text(["P1"]))
        with open(os.path.join(folder, "site.keys"), "w", encoding="ascii") as file:
            file.write(done(program, "key", "--name", "P1")[1])
        listen, status = fixed_addresses(2)
        places = {
            "/usr/bin/central": program, "/etc/central/site.json": f"{folder}/site.json", "/etc/central/site.keys": f"{folder}/site.keys",
            "/var/lib/central/data": f"{folder}/data", "0.0.0.0:9000": listen, "0.0.0.0:9100": status,
        }
        expect("what the command names", [word for word in places if word not in words], [])
        process = subprocess.Popen(
            [places.get(word, word) for word in words], stdout=subprocess.PIPE, stderr=subprocess.DEVNULL, env=ENVIRONMENT, text=True,
        )
        try:
            process.stdout.readline()
            expect("what it says", process.stdout.readline(), f"listening {listen}\n")
            with urllib.request.urlopen(f"http://{status}/health", timeout=PATIENCE) as answer:
                expect("its health", answer.read(), b"ok\n")
        finally:
            process.kill()
            process.communicate()


def tests():
    yield "an identity of two sites", an_identity_of_two
    yield "whom it calls", whom_it_calls
    yield "in a cluster", in_a_cluster
    for name in ("nginx", "haproxy"):
        yield f"behind {name}", behind(name)
