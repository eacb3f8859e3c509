"""How `serve` ends without having served: its command line, its files and its address; and where it can't print."""
import os
import resource
import socket
import subprocess
import tempfile

from raw_client import RawClient
from serving import ENVIRONMENT, PATIENCE, Serving, Unexpected, expect, expect_nobody_listens, free_port
from texts import CALL_0, heartbeat, plain_site, without_moment

NO_ADDRESSES = ("", "x", "127.0.0.1", ":", "127.0.0.1:", "127.0.0.1:65536", "127.0.0.1:x", "192.0.2.1:9000")
NO_WORKERS = ("0", "9", "-1", "1.0", "x", "", " 1", "18446744073709551617")
NO_SESSIONS = ("0", "65", "-1", "x", "", "1000")

# Site files with a fault, and its name.
BAD_SITES = (
    (b"{", b"NotJson"),
    (b"[]", b"NotAnObject"),
    (b'{"unit":"A","points":[]}', b"BadPoints"),
    (b"\xff", b"NotUtf8"),
)

SOCKET = (3, b"", b"central: device: socket\n")
WRITE = (3, b"central: device: write\n")


def run(program, arguments, stdout=subprocess.PIPE):
    """How a run ends by itself: its status, and what it printed."""
    command = [program, "serve", *arguments]
    done = subprocess.run(
        command, stdin=subprocess.DEVNULL, stdout=stdout, stderr=subprocess.PIPE, timeout=PATIENCE, check=False, env=ENVIRONMENT
    )
    return done.returncode, done.stdout, done.stderr


def arguments_of(site, listen, workers="1", sessions="1"):
    return ["--site", site, "--listen", listen, "--workers", workers, "--sessions", sessions]


class Files:
    """Site files of a test, in a folder that is removed again."""

    def __enter__(self):
        self.folder = tempfile.TemporaryDirectory()
        self.good = self.file("good", plain_site(1).encode())
        return self

    def __exit__(self, *_):
        self.folder.cleanup()

    def file(self, name, content):
        path = os.path.join(self.folder.name, name)
        with open(path, "wb") as file:
            file.write(content)
        return path


def port_in_use(program):
    """A port at which somebody else listens."""
    with Files() as files, socket.socket() as other:
        other.bind(("127.0.0.1", 0))
        other.listen()
        address = "127.0.0.1:%d" % other.getsockname()[1]
        expect("its end", run(program, arguments_of(files.good, address)), SOCKET)
    with Files() as files, Serving(program, plain_site(1), 1) as serving:
        expect("beside another", run(program, arguments_of(files.good, f"127.0.0.1:{serving.port}")), SOCKET)
        with RawClient.connected(serving, "/P1") as client:
            client.close()
        expect("the totals of the other", serving.totals(), (0, 0))


def no_addresses(program):
    """Addresses that are none, or not this machine's."""
    with Files() as files:
        for address in NO_ADDRESSES:
            expect(f"the end with {address!r}", run(program, arguments_of(files.good, address)), SOCKET)


def wrong_numbers(program):
    """Numbers of workers or sessions that are none, or out of range, and options that are wanting: before the site file."""
    address = f"127.0.0.1:{free_port()}"
    lines = [arguments_of("none", address, workers, "1") for workers in NO_WORKERS]
    lines += [arguments_of("none", address, "1", sessions) for sessions in NO_SESSIONS]
    whole = arguments_of("none", address)
    lines += [whole[:place] + whole[place + 2 :] for place in range(0, 8, 2)]
    lines += [[], [*whole, "more"], [*whole, "--workers", "1"], [*whole, "--no-such-option"]]
    for line in lines:
        status, out, error = run(program, line)
        expect(f"the end of {line}", (status, out, error != b""), (4, b"", True))


def numbers_of_the_limits(program):
    """The least and the most workers and sessions."""
    for workers, sessions in ((1, 1), (8, 64)):
        with Serving(program, plain_site(1), sessions, workers) as serving:
            for _ in range(sessions):
                with RawClient.connected(serving, "/P1") as client:
                    client.close()
            expect("the totals", serving.totals(), (0, 0))


def site_before_socket(program):
    """A fault of the site file is told before the socket is tried."""
    with Files() as files, socket.socket() as other:
        other.bind(("127.0.0.1", 0))
        other.listen()
        address = "127.0.0.1:%d" % other.getsockname()[1]
        for content, name in BAD_SITES:
            wanted = (1, b"", b"central: site: " + name + b"\n")
            expect(f"the end with {content!r}", run(program, arguments_of(files.file("bad", content), address)), wanted)
        for path in (os.path.join(files.folder.name, "none"), files.folder.name):
            expect(f"the end with {path}", run(program, arguments_of(path, address)), (3, b"", b"central: device: read\n"))


def first_line_unprinted(program):
    """Where `listening A` can't be printed the program ends, and isn't ended by a signal."""
    with Files() as files:
        arguments = arguments_of(files.good, f"127.0.0.1:{free_port()}")
        with open("/dev/full", "wb") as full:
            status, _, error = run(program, arguments, full)
        expect("with a full device", (status, error), WRITE)
        reading, writing = os.pipe()
        os.close(reading)
        status, _, error = run(program, arguments, writing)
        os.close(writing)
        expect("with a pipe that nobody reads", (status, error), WRITE)


def last_line_unprinted(program):
    """Where the last line can't be printed the sessions are served all the same, and the status says it."""
    with Serving(program, plain_site(1), 1) as serving:
        serving.process.stdout.close()
        with RawClient.connected(serving, "/P1") as client:
            texts = [without_moment(text) for text in client.texts_of(heartbeat("1"))]
            expect("the texts", texts, ['[3,"1",{}]', CALL_0])
            client.close()
        try:
            serving.process.wait(timeout=PATIENCE)
        except subprocess.TimeoutExpired:
            raise Unexpected("the program still runs") from None
        expect("its end", (serving.process.returncode, serving.process.stderr.read()), WRITE)


def connection_not_accepted(program):
    """A connection for which no file can be opened: those before it are served to their end, and then the program ends so."""
    with Serving(program, plain_site(2), 9, limits={resource.RLIMIT_NOFILE: 6}) as serving:
        with RawClient.connected(serving, "/P1") as first, RawClient.connected(serving, "/P2") as second:
            expect_nobody_listens(serving.port)
            for client in (first, second):
                texts = [without_moment(text) for text in client.texts_of(heartbeat("1"))]
                expect("the texts", texts, ['[3,"1",{}]', CALL_0])
            first.close()
            second.close()
        expect("its end", serving.fault(), SOCKET)


def no_threads(program):
    """Where no thread can be made, connections are served in turn, and schedules compiled by their sessions."""
    ask = '[2,"a","GetCompositeSchedule",{"connectorId":1,"duration":60}]'
    with Serving(program, plain_site(1), 2, limits={resource.RLIMIT_AS: 8 << 20}) as serving:
        with RawClient.connected(serving, "/operator/P1") as first:
            expect("how many answers", len(first.texts_of(ask)), 1)
            expect("how many threads", serving.threads(), 1)
            with socket.create_connection(("127.0.0.1", serving.port), PATIENCE):
                expect("how many answers beside another", len(first.texts_of(ask)), 1)
                first.close()
        expect("the totals", serving.totals(), (0, 2))


def names_of_hosts(program):
    """A host by its name."""
    with Files() as files:
        port = free_port()
        command = [program, "serve", *arguments_of(files.good, f"localhost:{port}")]
        with subprocess.Popen(command, stdout=subprocess.PIPE, env=ENVIRONMENT) as process:
            try:
                expect("the first line", process.stdout.readline(), f"listening localhost:{port}\n".encode())
                socket.create_connection(("localhost", port), PATIENCE).close()
                expect("the rest", process.communicate(timeout=PATIENCE)[0], b"done changes 0 answers 0\n")
            finally:
                process.kill()
        expect("its status", process.returncode, 0)


def help_of_serve(program):
    """The help names each option and both lines."""
    status, out, error = run(program, ["--help"])
    expect("its end", (status, error), (0, b""))
    options, lines = (b"--site", b"--listen", b"--workers", b"--sessions"), (b"listening A", b"done changes V answers W")
    for word in (*options, *lines, b"/operator/ID", b"ocpp1.6"):
        expect(f"whether it names {word!r}", word in out, True)


def tests():
    yield "a port in use", port_in_use
    yield "no addresses", no_addresses
    yield "wrong numbers", wrong_numbers
    yield "numbers of the limits", numbers_of_the_limits
    yield "the site file before the socket", site_before_socket
    yield "the first line can't be printed", first_line_unprinted
    yield "the last line can't be printed", last_line_unprinted
    yield "a connection that can't be accepted", connection_not_accepted
    yield "no threads", no_threads
    yield "a host by its name", names_of_hosts
    yield "the help", help_of_serve
