"""Runs of a site that is killed and started again: what the journal holds, and that nothing that was answered is lost."""
import asyncio
import contextlib
import datetime
import hashlib
import json
import os
import re
import resource
import socket
import subprocess
import threading
import time

from days import Day, charging, compare, evening, morning, replay
from python_client import PythonClient
from raw_client import CLOSE, CONTINUATION, TEXT, RawClient, frame_bytes, request_bytes
from run_data import SITE, Data, SiteFile, SmallDevice, done_with, of_script, once, read, run_words, size, stop, tell, transaction_of
from serving import ENVIRONMENT, PATIENCE, Running, Unexpected, expect, limit, until
from texts import (
    CALL_0, OCPP, accepted, ask, call, clear, error, heartbeat, install, install_call, plain_site, profile, site, start,
)

SHORT = error("short", "InternalError", "OutOfMemory")
# What the system says of a file or a device that takes no more.
TOO_LARGE = "File too large (os error 27)"
FULL = "No space left on device (os error 28)"


def what_is_noted(program):
    """Steps that change something, before their answers come; no others, and tabs in place of line breaks."""
    pretty = '[2,"i","SetChargingProfile",{\r\n "connectorId":1,\n "csChargingProfiles":' + json.dumps(profile(1, [9])) + "\n}]\n"
    with Data() as data, Running(program, SITE, data.path) as running:
        noted = []
        with RawClient.connected(running, "/operator/P1") as operator, RawClient.connected(running, "/P1") as point:
            point.texts_now()  # it has its link
            started = start("s")
            for client, text, lines in (
                (operator, heartbeat("h"), ["attached P1 1"]),
                (operator, pretty, ["operator P1 1 " + pretty.replace("\r", "\t").replace("\n", "\t")]),
                (operator, install("l", profile(1, [9], level=100)), []),
                (operator, ask("größer €"), []),
                (operator, clear("none", id=9), []),
                (operator, "no frame", []),
                (point, heartbeat("1"), ["sent P1 1 0"]),
                (point, heartbeat("2"), []),
                (point, accepted("0"), ["reply P1 1 " + accepted("0"), "sent P1 1 1"]),
                (point, started, ["point P1 1 " + started]),
                (point, started, []),
                (point, stop("x", 7), []),
                (point, accepted("1"), []),  # nothing leaves that depends on it
                (operator, clear("all"), ["reply P1 1 " + accepted("1"), "operator P1 3 " + clear("all")]),
                (point, stop("e", 1), ["point P1 4 " + stop("e", 1), "sent P1 1 2"]),
            ):
                client.texts_of(text)
                noted += lines
                expect(f"the journal behind {text}", data.lines(), noted)
        until("the lost link is noted", lambda: data.lines() == noted + ["lost P1 1"])


async def a_day_over_restarts(program):
    """A point's day with a restart between its parts: what is told is what a replay of all texts tells.

    A call goes out by itself a second after the point's text before, as it may where all is slow: without a proof three days are
    tried for that.
    """
    for _ in range(size(0, 3, 0)):
        with contextlib.suppress(Unexpected):
            return await one_day_over_restarts(program)
    return await one_day_over_restarts(program)


async def one_day_over_restarts(program):
    """One such day."""
    day = None
    with Data() as data:
        for part in (morning, charging, evening):
            with Running(program, SITE, data.path) as running:
                point = await PythonClient.connected(running, "/ocpp/P1")
                operators = [await PythonClient.connected(running, "/operator/P1") for _ in range(2)]
                day = day or Day("P1", point, operators)
                day.point, day.operators = point, operators
                await part(day, 3)
                expect("what it says", await asyncio.to_thread(running.kill), b"")
        status, script, said = read(program, data, "journal")
        expect("how the journal is printed", (status, said), (0, ""))
    compare(program, SITE, day.told)
    begun = {told.brought[0] for told in day.told if told.started() and '"again"' not in told.text}
    printed = {line[2:] for line in replay(program, SITE, script).splitlines()}
    expect("the transactions that a replay of the journal doesn't tell", begun - printed, set())


def a_call_in_flight(program):
    """It goes again with its number after a restart; what was confirmed doesn't, and numbers and transactions go on."""
    with Data() as data:
        with Running(program, SITE, data.path) as running:
            expect("a new site", running.resumed, (2, 0, 0, 2))
            with RawClient.connected(running, "/operator/P1") as operator, RawClient.connected(running, "/P1") as point:
                expect("an install", operator.texts_of(install("a", profile(1, [7]))), [accepted("a")])
                expect("call 0", point.texts_of(heartbeat("h"))[1:], [CALL_0])
                expect("call 1", point.texts_of(accepted("0")), [install_call(1, profile(1, [7.0]))])
                expect("a start", transaction_of(point.texts_of(start("s"))[0]), 1)
                expect("another install", operator.texts_of(install("b", profile(2, [8], 1))), [accepted("b")])
                running.kill()
        with Running(program, SITE, data.path) as running:
            expect("what goes on", running.resumed, (2, 2, 1, 3))
            expect("the link is lost", data.lines()[-1], "lost P1 1")
            with RawClient.connected(running, "/operator/P1") as operator, RawClient.connected(running, "/P1") as point:
                expect("call 1 again", point.texts_of(heartbeat("h"))[1:], [install_call(1, profile(1, [7.0]))])
                expect("the start again", transaction_of(point.texts_of(start("s"))[0]), 1)
                expect("the next start", transaction_of(point.texts_of(start("t", 2))[0]), 2)
                expect("call 2", point.texts_of(accepted("1")), [install_call(2, profile(2, [8.0], 1))])
                expect("a stop", point.texts_of(stop("e", 1))[0][:7], '[3,"e",')
                expect("all is confirmed", point.texts_of(accepted("2")), [])
                status = json.loads(operator.texts_of(call("p", "PointStatus"))[0])[2]
                expect("the version", status["version"], 5)
            expect("what it says", running.kill(), b"")
        with Running(program, SITE, data.path) as running:
            expect("what is left", running.resumed, (2, 2, 1, 1))


def audits_and_remote_starts(program):
    """They go on after a restart: the audit with its verdict, and the start that waits."""
    with Data() as data:
        with Running(program, SITE, data.path) as running:
            with RawClient.connected(running, "/operator/P1") as operator, RawClient.connected(running, "/P1") as point:
                point.texts_of(heartbeat("h"))
                point.texts_of(accepted("0"))
                expect("an audit", operator.texts_of(call("a", "AuditPoint", {"connectorId": 1, "duration": 60})), [accepted("a")])
                expect("its call", json.loads(point.texts_of(heartbeat("i"))[1])[1:3], ["1", "GetCompositeSchedule"])
                point.texts_of(error("1", "NotSupported"))
                wanted = operator.texts_of(call("p", "PointStatus"))
                fields = {"connectorId": 2, "idTag": "ANN", "chargingProfile": profile(9, [6], purpose="TxProfile", kind="Relative")}
                expect("a remote start", operator.texts_of(call("r", "RemoteStartTransaction", fields)), [accepted("r")])
                running.kill()
        notes = [re.sub(r" \[.*", "", line) for line in data.lines()]
        expect("the end of the journal", notes[-4:], ["sent P1 1 1", "reply P1 1", "verdict P1 1", "operator P1 2"])
        with Running(program, SITE, data.path) as running:
            with RawClient.connected(running, "/operator/P1") as operator, RawClient.connected(running, "/P1") as point:
                status = json.loads(operator.texts_of(call("p", "PointStatus"))[0])[2]
                expect("the verdict", status["audit"], json.loads(wanted[0])[2]["audit"])
                expect("the call", json.loads(point.texts_of(heartbeat("h"))[1])[1:3], ["2", "RemoteStartTransaction"])
                point.texts_of(accepted("2"))
                expect("the start", transaction_of(point.texts_of(start("s", 2, "ANN"))[0]), 1)
                asked = json.loads(operator.texts_of(ask("q", 2, 60))[0])[2]["chargingSchedule"]["chargingSchedulePeriod"]
                expect("its limit", asked, [{"startPeriod": 0, "limit": 6.0}])


def journal_of_a_day(program, data):
    """A journal with each kind of line."""
    with Running(program, SITE, data.path) as running, RawClient.connected(running, "/operator/P1") as operator:
        operator.texts_of(install("a", profile(1, [7])))
        with RawClient.connected(running, "/P1") as point:
            point.texts_of(heartbeat("h"))
            point.texts_of(accepted("0"))
            point.texts_of(start("s"))
            point.texts_of(accepted("1"))
            operator.texts_of(call("u", "AuditPoint", {"connectorId": 1, "duration": 60}))
            point.texts_of(stop("e", 1))
            point.texts_of(error("2", "NotSupported"))
            operator.texts_of(clear("c"))
        until("the lost link is noted", lambda: data.lines()[-1] == "lost P1 1")
    return data.bytes()


# Behind each line of that journal: profiles, transactions, calls that wait at both points.
RESUMED = (
    (0, 0, 2), (1, 0, 3), (1, 0, 3), (1, 0, 3), (1, 0, 2), (1, 0, 2), (1, 1, 2), (1, 1, 1), (1, 1, 2), (1, 0, 2), (1, 0, 2),
    (1, 0, 1), (1, 0, 1), (0, 0, 2), (0, 0, 2),
)


def torn_anywhere(program):
    """A journal that is cut anywhere starts as its whole lines say; the rest is cut, and that is said."""
    with Data() as data:
        whole = journal_of_a_day(program, data)
    ends = [place + 1 for place, byte in enumerate(whole) if byte == 10]
    for number, end in enumerate(ends):
        for extra in (0, 1 + number):
            with Data() as data:
                data.write(whole[:end + extra])
                torn = min(extra, len(whole) - end)
                with Running(program, SITE, data.path) as running:
                    expect(f"behind line {number + 1} and {extra} bytes", running.resumed, (2, *RESUMED[number]))
                    said = running.kill().decode()
                wanted = f"central: {data.journal}: its last line is torn, and was cut: {torn} bytes\n" if torn else ""
                expect("what is said", said, wanted)
                expect("what is kept", data.bytes()[:end], whole[:end])
                expect("what is added", [line for line in data.bytes()[end:].decode().split(" ")[1:2]] or ["lost"], ["lost"])


def faulty_journals(program):
    """The first line that can't be, or doesn't fit, is named with its number."""
    with Data() as data:
        whole = journal_of_a_day(program, data).split(b"\n")
    sha = b"central journal 2 sha256:"
    for name, lines, said in (
        ("no journal", [b"something else", *whole[1:]], "line 1: not a journal"),
        ("another format", [whole[0].replace(sha, b"central journal 3 sha256:"), *whole[1:]], "line 1: a journal of another format"),
        ("no digest", [sha + b"xyz", *whole[1:]], "line 1: no digest of a site file"),
        ("a line left out", whole[:4] + whole[5:], "line 5: "),
        ("two lines exchanged", [*whole[:2], whole[3], whole[2], *whole[4:]], "line 3: "),
        ("another link", [*whole[:2], whole[2].replace(b"P1 1", b"P1 2"), *whole[3:]], "line 3: its step draws 1, and 2 is written"),
        ("another version", [whole[0], whole[1].replace(b"P1 1 ", b"P1 2 "), *whole[2:]], "line 2: its step draws 1, and 2 is written"),
        ("no instant", [whole[0], b"x" + whole[1], *whole[2:]], "line 2: "),
        ("not UTF-8", [whole[0], b"\xff", *whole[1:]], "line 2: "),
        ("an empty line", [whole[0], b"", *whole[1:]], "line 2: "),
        ("no instant behind a rejection", [*whole[:-2], b"x" + whole[-2], b""], f"line {len(whole) - 1}: "),
    ):
        with Data() as data:
            data.write(b"\n".join(lines))
            status, out, err = once(program, data)
            expect(f"how it ends with {name}", (status, out), (1, b""))
            expect(f"what is said of {name}", err.startswith(f"central: journal: {said}"), True)
            expect("what is kept", data.bytes(), b"\n".join(lines))


def one_process_at_a_time(program):
    """A second process on the folder ends at once; once the first is killed another one goes on."""
    in_use = "central: command line: another process runs on the folder of --data\n"
    with Data() as data:
        with Running(program, SITE, data.path) as running:
            named = f"central: {data.path}: another central run has it\n"
            expect("a second one", once(program, data), (4, b"", named + in_use))
            expect("a reader", read(program, data, "journal"), (0, "", ""))
            running.kill()
        with Running(program, SITE, data.path) as running:
            expect("the next one", running.resumed, (2, 0, 0, 2))


def who_may_read(program):
    """What a run makes is for its own user alone: the lines have idTags."""
    with Data() as data, Running(program, SITE, data.path):
        paths = ("", "journal", "reserve")
        modes = [os.stat(os.path.join(data.path, path)).st_mode & 0o777 for path in paths]
        expect("the modes", modes, [0o700, 0o600, 0o600])


def begun_at_once(program):
    """Of several processes that begin at the same time on one folder one runs, and the others end."""
    with Data() as data, SiteFile(SITE) as path:
        words = run_words(program, data, path)
        begun = [subprocess.Popen(words, stdout=subprocess.PIPE, stderr=subprocess.DEVNULL, env=ENVIRONMENT) for _ in range(6)]
        until("all but one have ended", lambda: sum(one.poll() is None for one in begun) == 1)
        for one in begun:
            one.kill()
        ended = sorted((one.wait(PATIENCE), one.communicate()[0]) for one in begun)
        expect("how they end", [status for status, _ in ended], [-9, 4, 4, 4, 4, 4])
        expect("what the others print", [printed for _, printed in ended[1:]], [b""] * 5)
        with Running(program, SITE, data.path) as running:
            expect("the next one", running.resumed, (2, 0, 0, 2))


OTHER_SITE = "it was begun with another site file; its lines are tried with this one"


def another_site_file(program):
    """More points and connectors pass, and what no line speaks of may go; what no longer fits is named."""
    plain = (63.0, [32.0] * 2)
    with Data() as data:
        whole = journal_of_a_day(program, data)
        for name, of, resumed, most in (
            ("more points and connectors", plain_site(3, 3), (3, 0, 0, 3), 32.0),
            ("points in another order", site({"P2": plain, "P1": plain}), (2, 0, 0, 2), 32.0),
            ("lower ceilings", site({"P1": (63.0, [4.0, 32.0]), "P2": plain}), (2, 0, 0, 2), 4.0),
            ("a lower ceiling of the point", site({"P1": (3.0, [32.0] * 2), "P2": plain}), (2, 0, 0, 2), 3.0),
            ("a connector less that no line names", plain_site(2, 1), (2, 0, 0, 2), 32.0),
            ("a point less that no line names", plain_site(1), (1, 0, 0, 1), 32.0),
        ):
            data.write(whole)
            with Running(program, of, data.path) as running:
                expect(name, running.resumed, resumed)
                expect(f"the limit with {name}", limit_told(running), most)
                expect(f"what is said of {name}", running.kill().decode(), f"central: {data.journal}: {OTHER_SITE}\n")


def limit_told(running):
    """The limit of connector 1 of P1 at present."""
    answer = json.loads(told(running, ask("limit")))
    return answer[2]["chargingSchedule"]["chargingSchedulePeriod"][0]["limit"]


def another_site_file_that_does_not_fit(program):
    """The first line that doesn't fit is named, and the journal is kept as it was."""
    plain = (63.0, [32.0] * 2)
    with Data() as data:
        whole = journal_of_a_day(program, data)
        for name, of, said in (
            ("the point removed", site({"P2": plain}), "line 2: its step is refused: UnknownPoint"),
            ("another identity", site({"Q1": plain, "P2": plain}), "line 2: its step is refused: UnknownPoint"),
            ("another unit", plain_site(2).replace('"A"', '"W"'), "line 2: its step is refused: WrongUnit"),
        ):
            data.write(whole)
            status, out, err = once(program, data, of)
            wanted = f"central: {data.journal}: {OTHER_SITE}\ncentral: journal: {said}\n"
            expect(f"how it ends with {name}", (status, out, err), (1, b"", wanted))
            expect("what is kept", data.bytes(), whole)
            status, out, err = read(program, data, "show", of=of)
            expect(f"how a reader ends with {name}", status in (0, 1), True)
        data.write(whole.replace(b'"connectorId":1,"idTag"', b'"connectorId":2,"idTag"'))
        status, out, err = once(program, data, plain_site(2, 1))
        wanted = f"central: {data.journal}: {OTHER_SITE}\ncentral: journal: line 7: its step is refused: UnknownConnector\n"
        expect("how it ends without the connector", (status, out, err), (1, b"", wanted))


def one_seat(program):
    """It serves one connection after another, also behind one that ends before its handshake, all on the same book."""
    with Data() as data, Running(program, SITE, data.path, seats=1) as running:
        socket.create_connection(("127.0.0.1", running.port), PATIENCE).close()
        with seated(running, "/operator/P1") as operator:
            expect("an install", operator.texts_of(install("a", profile(1, [16]))), [accepted("a")])
            operator.close()
        with seated(running, "/ocpp/P1") as point:
            expect("a start", transaction_of(point.texts_of(start("s"))[0]), 1)
            expect("its end", point.texts_of(stop("e", 1))[0][:7], '[3,"e",')
            expect("a start at the other connector", transaction_of(point.texts_of(start("t", 2))[0]), 2)
            point.close()
        with seated(running, "/operator/P1") as operator:
            periods = json.loads(operator.texts_of(ask("q", 0, 60))[0])[2]["chargingSchedule"]["chargingSchedulePeriod"]
            expect("the schedule of the one that charges", periods, [{"startPeriod": 0, "limit": 16.0}])
            expect("the version", json.loads(operator.texts_of(call("p", "PointStatus"))[0])[2]["version"], 4)


def seated(running, path):
    """A client that is served, once a seat is free."""
    clients = []

    def is_seated():
        client = RawClient(running)
        with contextlib.suppress(OSError):  # it may be turned away before it has asked
            response = client.shake_hands(path, [f"Sec-WebSocket-Protocol: {OCPP}"])
            if response is not None and response.status == 101:
                clients.append(client)
                return True
        client.socket.close()
        return False
    until("a seat is free", is_seated)
    return clients[0]


def no_more_than_the_seats(program):
    """Above N at a time one is answered 503, and a seat that is free again serves the next one."""
    with Data() as data, Running(program, SITE, data.path, seats=2) as running:
        first, second = (RawClient.connected(running, "/operator/P1") for _ in range(2))
        for _ in range(3):
            with RawClient(running) as third:
                response = third.shake_hands("/operator/P1", [f"Sec-WebSocket-Protocol: {OCPP}"])
                expect("the answer without a seat", response and response.status, 503)
        first.close()
        until("a seat is free", lambda: is_served(running))
        for _ in range(40):
            is_served(running)
        expect("the other seat", second.texts_of(heartbeat("h"))[0][:7], '[4,"h",')
        second.close()
        said = running.kill()
        expect("what is said, once", said.count(b"\n"), 1)
        expect("what is said", said, b"central: seats: all are taken: connections are turned away (HTTP 503)\n")


def is_served(running):
    with RawClient(running) as client:
        try:
            response = client.shake_hands("/operator/P2", [f"Sec-WebSocket-Protocol: {OCPP}"])
        except OSError:  # it was turned away before it had asked
            return False
        if response is None or response.status != 101:
            return False
        client.close()
        return True


def served_at_once(program):
    """Who connects as soon as the program says that it listens is served: after a restart all points come at once."""
    with Data(in_memory=True) as data:
        for number in range(10 if "UNPROVED" in os.environ else 40):
            with Running(program, SITE, data.path, seats=2) as running:
                expect(f"whether one is served at once, at start {number}", is_served(running), True)
                expect("what is said", running.kill(), b"")


def no_file_descriptors(program):
    """A connection for which the program has no file descriptor waits; once others have ended it is served."""
    with Data() as data, Running(program, SITE, data.path, limits={resource.RLIMIT_NOFILE: 24}) as running:
        clients = [RawClient(running) for _ in range(40)]
        for client in clients[:3]:
            client.send_bytes(request_bytes("/operator/P1", [f"Sec-WebSocket-Protocol: {OCPP}"]))
            expect("a handshake", client.read_response().status, 101)
        clients[-1].send_bytes(request_bytes("/operator/P1", [f"Sec-WebSocket-Protocol: {OCPP}"]))
        clients[-1].socket.settimeout(1)
        try:
            expect("whether the last one is served", clients[-1].read_response(), "nothing")
        except TimeoutError:
            pass
        clients[-1].socket.settimeout(PATIENCE)
        for client in clients[:-1]:
            client.socket.close()
        expect("the last one", clients[-1].read_response().status, 101)
        clients[-1].close()
        expect("what is said", running.kill(), b"central: connections: one can't be accepted: Too many open files (os error 24)\n")


def silent_handshakes(program):
    """Connections that say nothing, or a byte now and then, take no seat for good, and none that somebody else waits for."""
    with Data() as data, Running(program, SITE, data.path, seats=2) as running:
        began = time.monotonic()
        silent, slow = RawClient(running), RawClient(running)
        slow.send_bytes(b"GET /P1 HTTP/1.1\r\nX-Slow: ")
        until("the one that lasts longest gives way", lambda: is_served(running))
        expect("the end of the silent one", silent.read_response(), None)
        while time.monotonic() < began + 6:
            slow.send_bytes(b"x")
            time.sleep(0.5)
        expect("the end of the slow one", slow.read_response(), None)
        expect("whether it had the time of a handshake", time.monotonic() - began > 9, True)
        silent.socket.close()
        slow.socket.close()
        with RawClient.connected(running, "/operator/P1"), RawClient.connected(running, "/operator/P1"):
            pass


def the_newest_connection(program):
    """Of two connections of a point the newer has the calls, and the older one's stream ends."""
    with Data() as data, Running(program, SITE, data.path, seats=3) as running:
        before = RawClient.connected(running, "/P1")
        expect("call 0", before.texts_of(heartbeat("h"))[1:], [CALL_0])
        for _ in range(5):
            after = RawClient.connected(running, "/P1")
            expect("what the older one reads", before.read_frame(), None)
            before.socket.close()
            expect("call 0 again", after.texts_of(heartbeat("h"))[1:], [CALL_0])
            before = after
        expect("all is confirmed", before.texts_of(accepted("0")), [])
        before.close()


def points_that_reconnect(program):
    """Many connections one after another, far more than seats, beside bare ones; each is served."""
    rounds = 40 if "UNPROVED" in os.environ else 400
    names = [f"P{number}" for number in range(1, 6)]
    with Data() as data, Running(program, plain_site(5), data.path, seats=8) as running:
        for number in range(rounds):
            name = names[number % len(names)]
            socket.create_connection(("127.0.0.1", running.port), PATIENCE).close()
            with RawClient.connected(running, f"/{name}") as point:
                expect("an answer", point.texts_of(heartbeat("h"))[0][:7], '[3,"h",')
                if number % 3 == 0:
                    point.close()
        links = sum(line.startswith("attached ") for line in data.lines())
        expect("links", links, rounds)
        running.kill()
        with Running(program, plain_site(5), data.path) as again:
            expect("what goes on", again.resumed, (5, 0, 0, 5))


def the_longest_message(program):
    """It is read whole, in one frame or in two, and one byte more in two isn't."""
    with Data() as data, Running(program, SITE, data.path) as running:
        with RawClient.connected(running, "/operator/P1") as operator:
            text = heartbeat("h").ljust(1_048_576).encode()
            operator.send_frame(TEXT, text)
            expect("an answer", operator.texts_now()[0][:7], '[4,"h",')
            operator.send_frame(TEXT, text[:100], is_final=False)
            operator.send_frame(CONTINUATION, text[100:])
            expect("an answer", operator.texts_now()[0][:7], '[4,"h",')
            operator.send_frame(TEXT, text[:100], is_final=False)
            operator.send_frame(CONTINUATION, text[99:])
            operator.is_ended_for_a_breach()


def a_message_that_is_too_long(program):
    """It is refused before it has come."""
    with Data() as data, Running(program, SITE, data.path) as running:
        with RawClient.connected(running, "/operator/P1") as operator:
            operator.send_bytes(frame_bytes(TEXT, b"", length=b"\x7f" + (1_048_577).to_bytes(8, "big")))
            operator.is_ended_for_a_breach()


def told(running, text):
    """What an operator is told, or None where the session ends without an answer."""
    with RawClient.connected(running, "/operator/P1") as operator:
        operator.send_text(text)
        frame = operator.read_frame()
        return None if frame is None else frame.payload.decode()


def a_file_that_is_full(program):
    """What isn't on the disk isn't answered, and nothing that may depend on it."""
    with Data() as data:
        limits = {resource.RLIMIT_FSIZE: 1_000}
        with Running(program, SITE, data.path, limits=limits) as running:
            answers = [told(running, install("short", profile(number, [9 + number], number))) for number in range(1, 9)]
            count = answers.index(None)
            expect("the answers before", answers[:count], [accepted("short")] * count)
            expect("the answers behind", answers[count:], [None] * (8 - count))
            expect("what is written", len(data.bytes()), 1_000)
            running.until_idle()  # a thread of its own says it
            said = running.kill().decode()
        wanted = [f"reserve: no room is set aside: {TOO_LARGE}", f"journal: {TOO_LARGE}"]
        expect("what is said", said.splitlines(), [f"central: {data.path}/{line}" for line in wanted])
        with Running(program, SITE, data.path) as running:
            expect("what is kept", running.resumed, (2, count, 0, 2 + count))


def a_full_device(program):
    """What was noted is written into the reserve. Then changes are answered InternalError, and asks are answered."""
    with SmallDevice() as data:
        if data is None:
            return
        with Running(program, SITE, data.path) as running:
            data.fill()
            answers = []
            while SHORT not in answers[-1:]:
                number = len(answers) + 1
                answers.append(told(running, install("short", profile(number, [9] * 24, number))))
                expect("an end", len(answers) < 20, True)
            count = len(answers) - 1
            expect("the answers before", answers[:count], [accepted("short")] * count)
            expect("an ask", told(running, ask("a"))[:28], '[3,"a",{"status":"Accepted",')
            expect("a clear", told(running, clear("short")), SHORT)
            expect("the version", json.loads(told(running, call("p", "PointStatus")))[2]["version"], count)
            data.has_room_again()
            until("there is room", lambda: told(running, install("short", profile(50, [9], 50))) == accepted("short"))
            said = running.kill().decode()
        wanted = [f"central: {data.journal}: {what}" for what in (FULL, "there is room again")]
        expect("what is said", said.splitlines(), wanted)
        with Running(program, SITE, data.path) as running:
            expect("what is kept", running.resumed, (2, count + 1, 0, 3 + count))


def readers_of_a_torn_journal(program):
    """They say that its last line is torn, leave it as it is, and read the lines before."""
    with Data() as data:
        whole = journal_of_a_day(program, data)
        torn = whole[:-1]
        behind = len(torn) - torn.rindex(b"\n") - 1
        explained = ("--point", "P1", "--connector", "1", "--start", "2025-01-01T00:00:00Z", "--duration", "60")
        for command in (("journal",), ("show",), ("replay",), ("check",), ("explain", *explained)):
            data.write(whole[:-behind - 1])
            status, wanted, _ = read(program, data, *command)
            data.write(torn)
            seen = read(program, data, *command)
            ends = 2 if command[0] in ("show", "explain") else status
            expect(f"what {command[0]} prints", seen[:2], (ends, wanted))
            said = f"central: {data.journal}: its last line is torn, and isn't read: {behind} bytes\n"
            expect(f"whether {command[0]} says it", said in seen[2], True)
            expect("what is kept", data.bytes(), torn)


def a_reader_that_left(program):
    """A journal whose reader has left, as `head` does, counts as printed."""
    with Data() as data:
        journal_of_a_day(program, data)
        reader, writer = os.pipe()
        os.close(reader)
        words = [program, "journal", "--data", data.path]
        done = subprocess.run(words, stdout=writer, stderr=subprocess.PIPE, timeout=PATIENCE, check=False, env=ENVIRONMENT)
        os.close(writer)
        expect("how it ends", (done.returncode, done.stderr), (0, b""))


def readers_of_a_long_change(program):
    """An install as long as a message may be is in readers what it is in a restart, or is refused."""
    with Data(in_memory=True) as data:
        with Running(program, SITE, data.path) as running:
            text = call("short", "SetChargingProfile", {"connectorId": 0, "csChargingProfiles": profile(1, [9]), "pad": ""})
            answer = told(running, text.replace('"pad":""', f'"pad":"{"x" * (1_048_576 - len(text))}"'))
            running.kill()
        shown = json.loads(read(program, data, "show", "--json")[1])["points"][0]["profiles"]
        with Running(program, SITE, data.path) as running:
            kept = running.resumed[1]
        expect("whether it is kept where it was accepted", kept, int(answer == accepted("short")))
        expect("the profiles that are shown", len(shown), kept)


def wide(number):
    """An install that takes much room in the journal."""
    fields = {"connectorId": 0, "csChargingProfiles": profile(number, [9], number), "pad": "x" * 100_000}
    return call("short", "SetChargingProfile", fields)


def killed_on_a_full_device(program):
    """Killed and started again on a full device it goes on in what is left of the reserve; behind that nothing is answered."""
    with SmallDevice() as data:
        if data is None:
            return
        answered = 0
        with Running(program, SITE, data.path) as running:
            data.fill()
            while told(running, wide(answered + 1)) == accepted("short"):
                answered += 1
            with RawClient.connected(running, "/P1") as point:
                expect("whether a point is served that can't be noted", point.read_frame().opcode, CLOSE)
            running.kill()
        with Running(program, SITE, data.path) as running:
            expect("what is kept", running.resumed, (2, answered, 0, 2 + answered))
            while told(running, wide(answered + 1)) == accepted("short"):
                answered += 1
                expect("an end", answered < 50, True)
            expect("a change that can't be kept", told(running, wide(answered + 2)) in (None, SHORT), True)
            data.has_room_again()
            until("there is room", lambda: told(running, install("short", profile(60, [9], 60))) == accepted("short"))
            said = running.kill().decode().splitlines()
        wanted = f"central: {data.path}/reserve: no room is set aside: {FULL}"
        expect("whether the start says that nothing is set aside", said.count(wanted), 1)
        with Running(program, SITE, data.path) as running:
            profiles = running.resumed[1]
            expect("what is kept", profiles - answered in (1, 2), True)  # what wasn't answered may be there


# What `explain` says of an install, of which the point hasn't confirmed the call, and a start.
LATER = r"central: 2 changes at P1 are later than --start: --at 2025-01-01T00:00:00Z is without them\n"
WAITS = r"central: 1 call to P1 waits since \S+Z: it may not have this yet\n"
# Before the first line call 0 waits.
BEFORE = r"central: the journal begins at \S+Z, after --at\ncentral: 1 call to P1 waits: it may not have this yet\n"


def readers(program):
    """`show`, `explain`, `check` and `replay` read the journal, while it is written too, as they read its script, up to each line."""
    explained = ("--point", "P1", "--connector", "1", "--start", "2025-01-01T00:00:00Z", "--duration", "86400")
    with Data() as data, Running(program, SITE, data.path) as running:
        with RawClient.connected(running, "/operator/P1") as operator, RawClient.connected(running, "/P1") as point:
            operator.texts_of(install("a", profile(1, [7])))
            point.texts_of(heartbeat("h"))
            point.texts_of(accepted("0"))
            point.texts_of(start("s"))
            status, script, said = read(program, data, "journal")
            expect("how it is printed", (status, said), (0, ""))
            count = script.count("\n")
            showing = (("show", "--json", *at) for at in ((), *(("--at", str(number)) for number in range(count + 1))))
            fewer = rf"central: the journal has {count} lines, fewer than --at\n"
            beyond = ("--at", str(count + 1))
            others = (
                (("explain", *explained), LATER + WAITS), (("explain", *explained, "--at", explained[5]), BEFORE),
                (("explain", *explained, *beyond), fewer + LATER + WAITS), (("show", *beyond), fewer),
                (("show", "--at", explained[5]), BEFORE.split("\\n")[0] + r"\n"),
            )
            for command, notes in ((("replay",), ""), (("check",), ""), (("check", "--trace"), ""), (("show",), ""), *((words, "") for words in showing), *others):
                status, out, said = read(program, data, *command)
                ends, printed = of_script(program, script, *command)
                ends = 2 if "central: the journal " in notes else ends
                expect(f"what {' '.join(command)} prints", without_links(status, out), without_links(ends, printed))
                follows = command[0] != "replay" and "--trace" not in command
                wanted = rf"central: journal: {count} lines, the last one of \S+\n{notes}" if follows else notes
                expect(f"what {' '.join(command)} says", bool(re.fullmatch(wanted, said)), True)


# What `explain` says behind a cause of a journal, and not of a script.
HELD = re.compile(r", (?:not confirmed by the point since|perhaps lost by the point at|rejected by the point at) \S+Z$", re.MULTILINE)


def without_links(status, out):
    """What a command says, but for whether points have links and hold profiles: a script has a link from its point's first message on."""
    return status, HELD.sub("", re.sub(r'"linked":\w+,', "", out))


def progress_of_readers(program):
    """Who waits for a journal for more than two seconds is told how many lines are read: here from a pipe that is slow."""
    with Data() as data:
        whole = journal_of_a_day(program, data)
        status, script, _ = read(program, data, "journal")
        expect("how it is printed", status, 0)
        count = script.count("\n")
        os.remove(data.journal)
        os.mkfifo(data.journal)
        explained = ("explain", "--point", "P1", "--connector", "1", "--start", "2025-01-01T00:00:00Z", "--duration", "60", "--at", "0")
        for command in (("show",), explained):
            writing = threading.Thread(target=write_late, args=(data.journal, whole))
            writing.start()
            status, _, said = done_with(program, SITE, command, "", ("--data", data.path))
            writing.join(PATIENCE)
            call_0 = r"central: 1 call to P1 waits: it may not have this yet\n" if command == explained else ""
            wanted = rf"central: {count} lines read\ncentral: journal: {count} lines, the last one of \S+\n{call_0}"
            expect(f"how {command[0]} ends", status, 0)
            expect(f"what {command[0]} says", bool(re.fullmatch(wanted, said)), True)


def long_journals(program):
    """`check`, `call --data` and `--undo` read a journal that is longer than a script may be, and `check` in memory that is bounded."""
    installs = size(20_000, 200, 1_450_000)
    memory = {} if "UNPROVED" in os.environ else {resource.RLIMIT_AS: 36_000 * 1_024}
    with Data() as data, SiteFile(SITE) as site:
        write_installs(data, installs)
        began = time.monotonic()
        status, lines, said = done_within([program, "check", "--site", site, "--data", data.path], memory)
        tell(f"{installs} installs, {os.path.getsize(data.journal) / 1e6:.0f} MB: check takes {time.monotonic() - began:.0f} s")
        replaced = [line for line in lines if " takes the place of TxDefaultProfile " in line]
        expect("what check finds", (status, len(replaced)), (0, installs - 1))
        last = 3 * installs  # behind a message before call 0, and that call's reply
        wanted = f"script: line {last} (P1): remark: TxDefaultProfile {1 + installs % 2} takes the place of TxDefaultProfile {2 - installs % 2} "
        expect("what it finds last", replaced[-1].startswith(wanted), True)
        expect("how far it was", f"central: journal: {last + 2} lines, the last one of {moment_of(installs)}\n" in said, True)
        with Running(program, SITE, data.path) as running:
            call = [program, "call", "--url", f"ws://127.0.0.1:{running.port}/operator/P1", "--site", site, "--data", data.path, "--dry-run"]
            status, lines, _ = done_within([*call, "--undo", str(last)])
            expect("what would undo the last install", (status, [json.loads(line)[3] for line in lines]), (0, [periods_of(installs - 1)]))
            status, _, said = done_within([*call, "--clear", '{"id":9}'])
            expect("what is said of a clear", (status, "this clears nothing" in said), (0, True))


def moment_of(install):
    return (datetime.datetime(2025, 1, 1) + datetime.timedelta(minutes=install)).isoformat() + "Z"


def periods_of(install):
    """The payload of an install: a day of 24 periods. Each replaces the one before, which has another id."""
    limits = [6.0 + (install + hour) % 9 for hour in range(24)]
    return {"connectorId": 1, "csChargingProfiles": profile(1 + install % 2, limits, kind="Recurring", recurrencyKind="Daily")}


def write_installs(data, count):
    """A journal of so many installs, each confirmed before the next."""
    lines = [f"central journal 2 sha256:{hashlib.sha256(SITE.encode()).hexdigest()}", f"{moment_of(0)} attached P1 1"]
    lines += [f"{moment_of(0)} sent P1 1 0", f"{moment_of(0)} reply P1 1 {accepted('0')}"]
    data.write("".join(f"{line}\n" for line in lines).encode())
    with open(data.journal, "a", encoding="utf-8") as file:
        for number in range(1, count + 1):
            moment, frame = moment_of(number), json.dumps([2, "i", "SetChargingProfile", periods_of(number)])
            file.write(f"{moment} operator P1 {number} {frame}\n{moment} sent P1 1 {number}\n")
            file.write(f"{moment} reply P1 1 {accepted(str(number))}\n")


def done_within(words, limits=None):
    """What a command ends with, prints and says, within limits."""
    done = subprocess.run(
        words, stdin=subprocess.DEVNULL, capture_output=True, timeout=None if "LARGE" in os.environ else PATIENCE, check=False,
        env=ENVIRONMENT, preexec_fn=lambda: limit(limits or {}),
    )
    return done.returncode, done.stdout.decode().splitlines(), done.stderr.decode()


def write_late(path, whole):
    """Lets whoever reads a pipe wait for more than two seconds."""
    with open(path, "wb") as pipe:
        time.sleep(2.2)
        pipe.write(whole)


def tests():
    yield "what is noted", what_is_noted
    yield "a day over restarts", a_day_over_restarts
    yield "a call in flight", a_call_in_flight
    yield "audits and remote starts", audits_and_remote_starts
    yield "torn anywhere", torn_anywhere
    yield "faulty journals", faulty_journals
    yield "one process at a time", one_process_at_a_time
    yield "who may read", who_may_read
    yield "begun at once", begun_at_once
    yield "another site file", another_site_file
    yield "another site file that does not fit", another_site_file_that_does_not_fit
    yield "served at once", served_at_once
    yield "one seat", one_seat
    yield "no more than the seats", no_more_than_the_seats
    yield "no file descriptors", no_file_descriptors
    yield "silent handshakes", silent_handshakes
    yield "the newest connection", the_newest_connection
    yield "points that reconnect", points_that_reconnect
    yield "the longest message", the_longest_message
    yield "a message that is too long", a_message_that_is_too_long
    yield "a file that is full", a_file_that_is_full
    yield "a full device", a_full_device
    yield "killed on a full device", killed_on_a_full_device
    yield "readers", readers
    yield "readers of a torn journal", readers_of_a_torn_journal
    yield "how far readers are", progress_of_readers
    yield "long journals", long_journals
    yield "a reader that left", a_reader_that_left
    yield "readers of a long change", readers_of_a_long_change
