"""Attacks by connections: slow and silent ones, those whose client is gone, many, and those in another's name."""
import base64
import collections
import contextlib
import os
import socket
import struct
import threading
import time

from attack import KEYS, RUN, SERVE, Attack, moves_clock
from field import IS_PROVED, PROTOCOL, all_end, close_all, has_ended
from run_keys import basic
from serving import expect, until
from texts import heartbeat

# Seconds, as the program has them.
LONGEST_HANDSHAKE, LONGEST_SILENCE = 10, 660

# As in <linux/tcp.h>: a socket in repair is closed without a word to its peer.
TCP_REPAIR = 19


def slow_handshakes(field):
    """A byte now and then on all seats. `run` gives each 10 seconds, but for the one that somebody else needs the seat of."""
    clients = [field.plain() for _ in range(field.seats)]
    for client in clients:
        client.send_bytes(b"GET /P2 HTTP/1.1\r\nHost: ")
    began = time.monotonic()
    if field.door != "serve":
        field.serves_a_newcomer(5)
    while time.monotonic() < began + (field.seconds if field.door == "serve" or field.is_short else LONGEST_HANDSHAKE - 2):
        for client in clients:
            with contextlib.suppress(OSError):
                client.send_bytes(b"a")
        time.sleep(0.5)
    if field.door == "serve":
        close_all(clients)
        return
    if field.is_short:
        close_all(clients)
    else:
        early = sum(map(has_ended, clients))
        expect(f"whether {early} that ended early are few", 0 < early < 5 or not IS_PROVED, True)
        all_end(clients, 5)
    field.serves_a_newcomer(5)


def slow_handshakes_again(field):
    """Whoever is closed connects anew at once, so that all seats have slow handshakes all the time. A newcomer finds a seat."""
    is_over = threading.Event()

    def slow(_):
        while not is_over.is_set():
            with contextlib.suppress(OSError), field.plain() as client:
                client.send_bytes(b"GET /P2 HTTP/1.1\r\n")
                client.socket.settimeout(0.5)
                while not is_over.is_set():
                    with contextlib.suppress(TimeoutError):
                        client.socket.recv(1 << 10)
                        break

    threads = [threading.Thread(target=slow, args=(number,), daemon=True) for number in range(field.seats + 50)]
    for thread in threads:
        thread.start()
    try:
        until("all seats are taken", field.is_full)
        for _ in range(field.size(3, 1)):
            field.serves_a_newcomer(5)
            time.sleep(1)
    finally:
        is_over.set()
        for thread in threads:
            thread.join()


def are_cleared_away(field, clients):
    """Once they were silent for too long they are closed, and their seats are free. The clock is moved for it."""
    time.sleep(field.seconds)
    if field.clock is None:
        close_all(clients)
        return
    until("all seats are taken", field.is_full)
    field.clock.move(going_on=LONGEST_SILENCE + 5)
    all_end(clients, 20)
    field.serves_a_newcomer(10)


def silent_connections(field):
    """Operators that say nothing, on all seats."""
    are_cleared_away(field, field.strangers(field.seats))


def half_open(field):
    """Clients on all seats that are gone without a word, as if their cable was cut."""
    clients = field.strangers(field.seats)
    time.sleep(0.5)  # all that was sent is acknowledged: otherwise the program would hear that nobody is there
    for client in clients:
        try:
            client.socket.setsockopt(socket.IPPROTO_TCP, TCP_REPAIR, 1)
        except PermissionError:
            print("  no connection can be left half open here: they stay silent", flush=True)
            break
        client.socket.close()
    time.sleep(field.seconds)
    expect("whether all seats are taken", field.is_full(), True)
    field.clock.move(going_on=LONGEST_SILENCE + 5)
    field.serves_a_newcomer(20)


def many_connects(field):
    """They connect, and leave at once."""
    count, open_ones, refused = field.size(10_000, 1_000), collections.deque(), 0
    began = time.monotonic()
    for number in range(count):
        client = socket.socket()
        client.setblocking(False)
        refused += client.connect_ex(("127.0.0.1", field.server.port)) not in (0, 115)
        open_ones.append(client)
        if len(open_ones) > 400:
            open_ones.popleft().close()
        if number % 200 == 0:
            time.sleep(0.005)
    for client in open_ones:
        client.close()
    field.tell(f"{count} in {time.monotonic() - began:.1f} s")
    if field.door != "serve":
        field.serves_a_newcomer(10)


def resets(field):
    """They connect, and reset the connection before or after it is accepted."""
    for number in range(field.size(2_000, 300)):
        with field.plain() as client:
            client.socket.setsockopt(socket.SOL_SOCKET, socket.SO_LINGER, struct.pack("ii", 1, 0))
            if number % 3 == 0:
                client.send_bytes(b"GET /P2 HTTP/1.1\r\n")
    field.serves_a_newcomer(10)


def takeover(field):
    """A stranger connects as the witness's point again and again, and takes its calls without a reply."""
    end, taken, calls = time.monotonic() + field.seconds, 0, 0
    while time.monotonic() < end:
        with field.plain() as client:
            response = client.shake_hands("/P1", [PROTOCOL])
            if response is None or response.status != 101:
                continue
            taken += 1
            with contextlib.suppress(OSError):
                client.send_text(heartbeat("stranger"))
                client.socket.settimeout(0.2)
                while frame := client.read_frame():
                    calls += frame.payload.startswith(b"[2,")
        time.sleep(0.1)
    expect("whether it came at all", taken > 0, True)
    # As a point it makes no changes, and its connections have links.
    field.more_links = taken
    field.tell(f"{taken} times, {calls} calls taken")
    time.sleep(1.5)  # the point comes back, and has what waited


def takeover_with_keys(field):
    """The same where there are keys: with none, with its own, with wrong ones and faulty ones it isn't let in."""
    own, right = field.keys.of["P2"], field.keys.of["P1"]
    headers = (
        ([], 401), ([basic("P2", own.encode())], 403), ([basic("P1", own.encode())], 401), ([basic("ann", own.encode())], 401),
        ([basic("P1", b"")], 401), ([basic("", right.encode())], 401), ([basic("P1", right[:-1].encode())], 401),
        ([basic("P1", right.encode() + b"0")], 401), ([basic("P1", b"\0" * 20)], 401), ([basic("p1", right.encode())], 401),
        (["Authorization: Basic " + base64.b64encode(b"P1").decode()], 401), (["Authorization: Bearer " + right], 401),
        ([basic("P1", own.encode()), basic("P1", right.encode())], 401), (["Authorization: Basic " + "A" * 8_000], 401),
        ([basic("P1", right.encode()), "Origin: http://evil.example"], 403),
    )
    for header, status in headers:
        expect(f"/P1 with {header}", field.status_of("/P1", *header), status)
        expect(f"/operator/P1 with {header}", field.status_of("/operator/P1", *header), 403 if "Origin" in str(header) else 401)
    end, guesses = time.monotonic() + field.seconds, 0
    while time.monotonic() < end:
        guess = os.urandom(20).hex().encode()
        expect("a guess", field.status_of("/P1", basic("P1", guess)), 401)
        expect("a guess of an operator's", field.status_of("/operator/P1", basic("ann", guess)), 401)
        guesses += 2
    field.tell(f"{guesses} guesses")


def newest_of_its_own(field):
    """A point with its own key connects on and on, and keeps all connections: it has one seat, since its older ones are closed."""
    left = [field.stranger("/P2") for _ in range(field.size(600, 100))]
    end = time.monotonic() + 10
    while len(left) > 1 and time.monotonic() < end:
        left = [client for client in left if not has_ended(client)]
        time.sleep(0.05)
    # Most often the last one: two that come at once may get their links in the other order.
    expect("how many are open", len(left), 1)
    expect("its answer", left[0].texts_of(heartbeat("h"))[0][:7], '[3,"h",')
    field.serves_a_newcomer(5)


def web_pages(field):
    """A page of a browser, which sends Origin, isn't let in, on this machine or with a key that the browser has."""
    for path in ("/P2", "/operator/P2", "/operator/P1"):
        for origin in ("http://evil.example", "null", "http://127.0.0.1", f"http://127.0.0.1:{field.server.port}", ""):
            login = field.login("ann" if path.startswith("/operator") else "P2")
            expect(f"{path} from {origin!r}", field.status_of(path, f"Origin: {origin}", *login), 403)


SEATS_FOR_A_WHILE = "all seats for a while"

ATTACKS = (
    Attack("slow handshakes", "nothing", "a newcomer has a seat; closed after 10 s", slow_handshakes, (RUN, KEYS, SERVE)),
    Attack("slow handshakes, again and again", "nothing", "a newcomer has a seat", slow_handshakes_again, (RUN, KEYS)),
    Attack("silent connections", SEATS_FOR_A_WHILE, "closed after 660 s", silent_connections, more=moves_clock, may_cut=True),
    Attack("silent connections of serve", "its connections", "the others are served", silent_connections, (SERVE,)),
    Attack("half-open connections", SEATS_FOR_A_WHILE, "closed after 660 s", half_open, more=moves_clock, may_cut=True),
    Attack("10,000 connects", "seats for a moment", "a newcomer is served", many_connects, (RUN, KEYS, SERVE)),
    Attack("resets", "seats for a moment", "a newcomer is served", resets, (RUN,), is_repeated=True),
    Attack("takeover without keys", "the point's connections", "it has all calls, in order", takeover, may_cut=True),
    Attack("takeover with keys", "nothing", "401 or 403, always", takeover_with_keys, (KEYS,)),
    Attack("a point on all seats", "one seat", "its older ones are closed", newest_of_its_own, (RUN, KEYS), is_repeated=True),
    Attack("web pages", "nothing", "403, always", web_pages, (RUN, KEYS), is_repeated=True),
)
