"""Who may come to a site that is run: points and operators with their keys, and no web page."""
import base64
import hashlib
import os
import re
import select
import subprocess
import tempfile

from raw_client import RawClient, request_bytes
from run_data import SITE, Data, SiteFile
from serving import ENVIRONMENT, PATIENCE, Running, expect
from texts import CALL_0, OCPP, accepted, heartbeat, install, profile

EXAMPLES = os.path.join(os.path.dirname(os.path.dirname(os.path.dirname(os.path.abspath(__file__)))), "examples")
PROTOCOL = f"Sec-WebSocket-Protocol: {OCPP}"


def done(program, *words, given=b""):
    """A command's status, what it prints, and what it says."""
    process = subprocess.run([program, *words], input=given, capture_output=True, timeout=PATIENCE, check=False, env=ENVIRONMENT)
    return process.returncode, process.stdout.decode(), process.stderr.decode()


class Keys:
    """A file of keys that the program made: of P1, P2 and of the operator ann. `of` has each one's digits."""

    def __init__(self, program):
        self.program = program

    def __enter__(self):
        self.folder = tempfile.TemporaryDirectory()
        self.path = self.file("keys", "# the keys of the site\n\n")
        self.of = {}
        for name, more in (("P1", ()), ("P2", ()), ("ann", ("--operator",))):
            status, line, said = done(self.program, "key", "--name", name, *more)
            expect("how a key is made", (status, said.partition(":")[0]), (0, name))
            self.of[name] = said.rstrip("\n").partition(":")[2]
            role, user, salt, digest = line.split()
            expect("whose it is", (role, user), ("operator" if more else "point", name))
            hashed = hashlib.sha256(bytes.fromhex(salt) + bytes.fromhex(self.of[name])).hexdigest()
            expect("its digest", digest, hashed)
            with open(self.path, "a", encoding="ascii") as file:
                file.write(line)
        return self

    def __exit__(self, *_):
        self.folder.cleanup()

    def file(self, name, content):
        path = os.path.join(self.folder.name, name)
        with open(path, "w", encoding="ascii") as file:
            file.write(content)
        return path


def basic(user, password, scheme="Basic"):
    return f"Authorization: {scheme} " + base64.b64encode(user.encode() + b":" + password).decode()


def status_of(running, path, *headers):
    with RawClient(running) as client:
        response = client.shake_hands(path, [PROTOCOL, *headers])
        if response.status == 401:
            expect("what it asks for", response.headers.get("www-authenticate"), ['Basic realm="central", charset="UTF-8"'])
        return response.status


def who_may_come(program):
    """A point with its own key alone, an operator with an operator's for each point."""
    with Keys(program) as keys, Data() as data, Running(program, SITE, data.path, keys=keys.path) as running:
        p1, p2, ann = (keys.of[name] for name in ("P1", "P2", "ann"))
        wrong = ("0" if p1[0] != "0" else "1") + p1[1:]
        for path, headers, wanted in (
            ("/P1", [basic("P1", p1.encode())], 101),
            ("/P1", [basic("P1", bytes.fromhex(p1))], 101),
            ("/P1", [basic("P1", p1.upper().encode(), "bAsIc ")], 101),
            ("/ocpp/P1", [basic("P1", p1.encode())], 101),
            ("/P1", [], 401),
            ("/P1", [basic("P1", wrong.encode())], 401),
            ("/P1", [basic("P1", p1[:-2].encode())], 401),
            ("/P1", [basic("P1", b"")], 401),
            ("/P1", [basic("P3", p1.encode())], 401),
            ("/P1", [basic("P1", p2.encode())], 401),
            ("/P1", [basic("P2", p2.encode())], 403),
            ("/P1", [basic("ann", ann.encode())], 401),
            ("/P1", [basic("P1", p1.encode(), "Digest")], 401),
            ("/P1", ["Authorization: Basic !"], 401),
            ("/operator/P1", [basic("ann", ann.encode())], 101),
            ("/operator/P2", [basic("ann", ann.encode())], 101),
            ("/operator/P1", [basic("P1", p1.encode())], 401),
            ("/operator/P1", [], 401),
            ("//operator/P1", [basic("ann", ann.encode())], 401),
            ("/P1", [basic("P1", p1.encode()), "Origin: http://elsewhere.example"], 403),
        ):
            expect(f"{path} with {headers}", status_of(running, path, *headers), wanted)
        with RawClient(running) as point:
            expect("its handshake", point.shake_hands("/P1", [PROTOCOL, basic("P1", p1.encode())]).status, 101)
            expect("it is served", point.texts_of(heartbeat("h"))[1:], [CALL_0])


def next_said(running):
    """What the next line on standard error says of a client."""
    came, _, _ = select.select([running.process.stderr], [], [], PATIENCE)
    expect("whether a line came", len(came), 1)
    line = running.process.stderr.readline().decode()
    found = re.fullmatch(r"central: \S+Z 127\.0\.0\.1:\d+: (.*)\n", line)
    return found[1] if found else line


def what_is_said_of_others(program):
    """Of each that isn't let in, and of each operator, path and user are told on one line, and nothing of a password."""
    with Keys(program) as keys, Data() as data, Running(program, SITE, data.path, keys=keys.path) as running:
        p1, p2, secret = keys.of["P1"], keys.of["P2"], "S3cret"
        wrong = secret.encode()
        for path, headers, wanted in (
            ("/ocpp/P1", [basic("P1", wrong)], "HTTP 401: /ocpp/P1, user P1"),
            ("/P1?token=" + secret, [basic("P3", wrong)], "HTTP 401: /P1, user P3"),
            ("/P1", [basic("P2", p2.encode())], "HTTP 403: /P1, user P2"),
            ("/P1", [basic("P1", p1.encode()), "Origin: http://elsewhere.example"], "HTTP 403: /P1, user P1"),
            ("/operator/P1", [basic("bob", b"a:" + wrong)], "HTTP 401: /operator/P1, user bob"),
            ("/P1", [], "HTTP 401: /P1, no user"),
            ("/P1", ["Authorization: Bearer " + secret], "HTTP 401: /P1, no user"),
            ("/P1", ["Authorization: Basic !"], "HTTP 401: /P1, no user"),
            ("/P1", ["Authorization: Basic " + base64.b64encode(wrong).decode()], "HTTP 401: /P1, no user"),
            ("/P1", ["Authorization: Basic " + base64.b64encode(b"\xff:" + wrong).decode()], "HTTP 401: /P1, no user"),
            ("/P1", [basic("", wrong)], "HTTP 401: /P1, user "),
            ("/P1", [basic(p1, b"P1")], "HTTP 401: /P1, a user that looks like a key"),
            ("/P1", [basic("P1\r\ncentral \x1b[2Jlost\0", wrong)], "HTTP 401: /P1, user P1  central  [2Jlost "),
            ("/P1", [basic(500 * "\u00fc", wrong)], "HTTP 401: /P1, user " + 100 * "\u00fc"),
            ("/" + 500 * "a" + "/P1", [], "HTTP 401: " + 97 * "a" + "/P1, no user"),
        ):
            status = status_of(running, path, *headers)
            said = next_said(running)
            expect(f"what is said of {path} with {headers}", said, f"refused, {wanted}")
            expect("its status", said.partition(":")[0], f"refused, HTTP {status}")
        expect("an operator", status_of(running, "/operator/P1", basic("ann", keys.of["ann"].encode())), 101)
        expect("what is said of the operator", next_said(running), "connected: /operator/P1, user ann")
        expect("what else is said", running.kill_and_hear(), b"")


def names_in_the_journal(program):
    """The journal's line of an operator's change has the name of the key. Without keys it has none, whatever user a client gives."""
    first, second = install("i", profile(1, [9])), install("j", profile(2, [8], level=1))
    with Keys(program) as keys, Data() as data, SiteFile(SITE) as site:
        with Running(program, SITE, data.path, keys=keys.path) as running, RawClient(running) as operator:
            expect("its handshake", operator.shake_hands("/operator/P1", [PROTOCOL, basic("ann", keys.of["ann"].encode())]).status, 101)
            expect("an answer", operator.texts_of(first), [accepted("i")])
        expect("with keys", data.lines(), [f"operator:ann P1 1 {first}"])
        with Running(program, SITE, data.path) as running, RawClient(running) as operator:
            expect("its handshake", operator.shake_hands("/operator/P1", [PROTOCOL, basic("a b", b"key")]).status, 101)
            expect("an answer", operator.texts_of(second), [accepted("j")])
        expect("without keys", data.lines(), [f"operator:ann P1 1 {first}", f"operator P1 2 {second}"])
        status, script, _ = done(program, "journal", "--data", data.path)
        said = [line.partition(" ")[2] for line in script.splitlines()]
        expect("the script", (status, said), (0, [f"operator P1 {first}", f"operator P1 {second}"]))
        for line, sender in ((1, "operator:ann"), (2, "operator")):
            words = "--url", "ws://127.0.0.1:9/operator/P1", "--data", data.path, "--site", site, "--undo", str(line), "--dry-run"
            found = re.search(rf"undo: line {line} is \S+ (\S+) P1 ", done(program, "call", *words)[2])
            expect("an undo says who", found and found[1], sender)


def clients_with_keys(program):
    """`call` and `point` come with the name and the key of a file, and aren't let in without."""
    with Keys(program) as keys, Data() as data, Running(program, SITE, data.path, keys=keys.path) as running, SiteFile(SITE) as site:
        base = f"ws://127.0.0.1:{running.port}"
        login = keys.file("ann", f"ann:{keys.of['ann']}\n")
        call = "call", "--url", f"{base}/operator/P1"
        expect("an operator", done(program, *call, "--login", login, "--status")[0], 0)
        wants = "central: url: HTTP 401: it wants --login FILE with the NAME:KEY of a key: an operator's at /operator/ID, else the point's own\n"
        expect("without a key", done(program, *call, "--status"), (3, "", wants))
        bare = keys.file("bare", f"{keys.of['ann']}\n")
        no_name = "central: login: no NAME:KEY in the file of --login; central key prints one\n"
        expect("a key without its name", done(program, *call, "--login", bare, "--status"), (1, "", no_name))
        point = "point", "--url", base, "--site", site, "--id", "P1"
        own = keys.file("P1", f"P1:{keys.of['P1']}")
        expect("a point", done(program, *point, "--login", own, given=b"heartbeat\n")[0], 0)
        wrong = "central: url: HTTP 401: it doesn't accept the NAME:KEY of --login; it wants an operator's key at /operator/ID, else the point's own\n"
        expect("a point with an operator's key", done(program, *point, "--login", login), (3, "", wrong))
        another = keys.file("P2", f"P2:{keys.of['P2']}")
        is_anothers = 3, "", "central: url: HTTP 403: the --login is another point's\n"
        expect("a point with another's key", done(program, *point, "--login", another), is_anothers)


def examples_with_keys(program):
    """The examples of a back office and of a point that boots come with the keys of files, and aren't let in without."""
    office, boot = (os.path.join(EXAMPLES, name) for name in ("back-office/back_office.py", "cookbook/boot"))
    with open(os.path.join(EXAMPLES, "back-office", "stdout"), encoding="ascii") as file:
        wanted = file.read()
    with Keys(program) as keys, Data() as data, Running(program, SITE, data.path, keys=keys.path) as running:
        url, address = f"ws://127.0.0.1:{running.port}", f"127.0.0.1:{running.port}"
        ann, p1, p2 = (keys.file(f"{name}.key", f"{name}:{keys.of[name]}\n") for name in ("ann", "P1", "P2"))
        expect("a back office", done(office, url, "P1", ann, p1), (0, wanted, ""))
        expect("one without keys", ("HTTP 401" in done(office, url, "P1")[2], done(office, url, "P1")[0]), (True, 1))
        expect("a point that boots", done(boot, address, "P2", p2), (0, "", ""))
        for more, status in (((), "401 Unauthorized"), ((p1,), "403 Forbidden")):
            expect("one that isn't let in", done(boot, address, "P2", *more), (1, "", f"boot: {address} answers HTTP/1.1 {status}\n"))


def checked_keys(program):
    """`check` says whom a file of keys lets in, its faulty lines, and which points it leaves out."""
    with Keys(program) as keys, SiteFile(SITE) as site:

        def check(path, status, *wanted):
            seen, printed, said = done(program, "check", "--site", site, "--keys", path)
            found = [line for line in printed.splitlines() if not line.startswith(f"{site}: ")]
            expect("what is found", (seen, found, said), (status, [f"{path}: {line}" for line in wanted], ""))

        check(keys.path, 0, "line 3: remark: it lets in point P1", "line 4: remark: it lets in point P2",
              "line 5: remark: it lets in operator ann")
        with open(keys.path, encoding="ascii") as file:
            lines = file.read().split("\n")
        other = [lines[2].replace("P1", "P9"), "point P1 00 00", "# point P1 0 0", "nobody P1 0 0", lines[3] + "\r", lines[3]]
        check(
            keys.file("faulty", "\n".join(other)), 1,
            "line 1: warning: it lets in point P9, which the site file hasn't", "line 2: its salt isn't 32 hex digits",
            "line 4: its first word is neither point nor operator", "line 5: remark: it lets in point P2",
            "line 6: remark: it lets in point P2", "the file: warning: no line lets in point P1",
        )
        check(keys.file("less", lines[3]), 2, "line 1: remark: it lets in point P2", "the file: warning: no line lets in point P1")
        absent = keys.path + "-absent"
        status, _, said = done(program, "check", "--site", site, "--keys", absent)
        expect("no such file", (status, said), (3, f"central: {absent}: No such file or directory (os error 2)\ncentral: device: read\n"))
        with SiteFile("[]") as faulty:
            status, printed, said = done(program, "check", "--site", faulty, "--keys", keys.file("P9", other[0]))
            expect("without a site", (status, printed.endswith("P9: line 1: remark: it lets in point P9\n")), (1, True))


def without_keys(program):
    """No web page comes, and nobody from elsewhere."""
    with Data() as data, Running(program, SITE, data.path) as running:
        expect("a point", status_of(running, "/P1"), 101)
        expect("a web page", status_of(running, "/operator/P1", "Origin: http://127.0.0.1"), 403)
        with RawClient.connected(running, "/operator/P1") as operator:
            expect("an operator", operator.texts_of(install("i", profile(1, [9]))), [accepted("i")])
    with Data() as data, SiteFile(SITE) as site:
        status, printed, said = done(program, "run", "--site", site, "--data", data.path, "--listen", "0.0.0.0:0")
        wanted = "central: command line: without --keys it listens only on this machine, such as at 127.0.0.1:9000\n"
        expect("an address of all networks", (status, printed, said), (4, "", wanted))


def status_for(running, host, *headers):
    """The status of a request of P1 for a host, or for none."""
    field = "" if host is None else f"Host: {host}\r\n"
    with RawClient(running) as client:
        request = request_bytes("/P1", [PROTOCOL, *headers])
        client.send_bytes(request.replace(b"Host: 127.0.0.1\r\n", field.encode()))
        return client.read_response().status


class AtAName(Running):
    """A site that listens at a name, which the system's resolver has for 127.0.0.1, and which is no address as such."""

    NAME = "0x7f.1"

    def _command(self, path, address):
        return super()._command(path, address.replace("127.0.0.1", self.NAME))

    def _first_line(self):
        return super()._first_line().replace(self.NAME.encode(), b"127.0.0.1")


def own_name(program):
    """A request may be for the name that is listened at, in whatever letters, and for no longer one."""
    with Data() as data, AtAName(program, SITE, data.path) as running:
        for host in ("0x7f.1", "0X7F.1:80", f"0x7f.1:{running.port}", "127.0.0.1", "localhost"):
            expect(f"for {host}", status_for(running, host), 101)
        for host in ("0x7f.1.example", "0x7f.2", "example.0x7f.1", "", ":9"):
            expect(f"for {host!r}", status_for(running, host), 421)


def names_of_others(program):
    """Without keys a request is for this machine, and no web page's whose name leads here. With keys it may have any name."""
    own = ("127.0.0.1", "127.0.0.1:9", "localhost", "LOCALHOST:80", "[::1]", "[::1]:9", "192.0.2.1:9000", None)
    others = (
        "elsewhere.example", "elsewhere.example:9", "localhost.elsewhere.example", "127.0.0.1.elsewhere.example", "127.0.0.1.example:9",
        "[::1].example", "1.2.3", AtAName.NAME, "", ":9",
    )
    with Data() as data, Running(program, SITE, data.path) as running:
        for host in (*own, f"127.0.0.1:{running.port}"):
            expect(f"for {host}", status_for(running, host), 101)
        for host in others:
            expect(f"for {host}", status_for(running, host), 421)
            expect("one of two names", status_for(running, f"127.0.0.1\r\nHost: {host}"), 421)
        expect("a web page", status_for(running, "elsewhere.example", "Origin: http://elsewhere.example"), 403)
    with Keys(program) as keys, Data() as data, Running(program, SITE, data.path, keys=keys.path) as running:
        for host in (*own, *others):
            expect(f"with a key, for {host}", status_for(running, host, basic("P1", keys.of["P1"].encode())), 101)
            expect(f"without a key, for {host}", status_for(running, host), 401)


def faulty_keys(program):
    """A file of keys with a fault is named with its line, and nothing is served."""
    with Keys(program) as keys, Data() as data, SiteFile(SITE) as site:
        for content, line in (("point P1\n", 1), ("# one\npoint P1 00 00\n", 2), ("\nnobody P1 " + 32 * "0" + " " + 64 * "0", 2)):
            path = keys.file("faulty", content)
            words = "run", "--site", site, "--data", data.path, "--listen", "127.0.0.1:0", "--keys", path
            status, printed, said = done(program, *words)
            expect("how it ends", (status, printed, said.startswith(f"central: keys: line {line}: ")), (1, "", True))
        status, _, said = done(program, "run", "--site", site, "--data", data.path, "--listen", "127.0.0.1:0", "--keys", "/nowhere")
        expect("a file that isn't there", (status, said), (3, "central: /nowhere: No such file or directory (os error 2)\ncentral: device: read\n"))
        for name in ("", "a b", "a:b", "a\nb"):
            expect(f"a key for {name!r}", done(program, "key", "--name", name)[:2], (4, ""))


def tests():
    yield "who may come", who_may_come
    yield "what is said of others", what_is_said_of_others
    yield "names in the journal", names_in_the_journal
    yield "clients with keys", clients_with_keys
    yield "examples with keys", examples_with_keys
    yield "checked keys", checked_keys
    yield "without keys", without_keys
    yield "names of others", names_of_others
    yield "its own name", own_name
    yield "faulty keys", faulty_keys
