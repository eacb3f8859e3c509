"""The programs for people at the other end, `central call` and `central point`, and the example that uses them all."""
import base64
import hashlib
import os
import re
import signal
import socket
import subprocess
import tempfile
import threading
import time

from serving import ENVIRONMENT, PATIENCE, Serving, expect, free_port, state_of, until

TOP = os.path.dirname(os.path.dirname(os.path.dirname(os.path.abspath(__file__))))
SITE = '{"unit":"A","points":[{"id":"P1","ceiling":63.0,"connectors":[32.0,16.0]}]}'
# A line of `call` about points that take long. On a busy machine it may come in any test.
PROGRESS = re.compile(rb"central: (\d+) of \d+ points\n")
CLOSE = b"\x88\x00"
MOMENTS = re.compile(rb'"(scheduleStart|currentTime|timestamp)":"[^"]*"')
SCHEDULE = b'[3,"%s",{"status":"Accepted","connectorId":%d,"scheduleStart":"NOW","chargingSchedule":{"duration":60,' \
    b'"chargingRateUnit":"A","chargingSchedulePeriod":[{"startPeriod":0,"limit":%s}]}}]\n'
PROFILE = '{"connectorId":0,"csChargingProfiles":{"chargingProfileId":1,"stackLevel":0,' \
    '"chargingProfilePurpose":"TxDefaultProfile","chargingProfileKind":"Absolute","chargingSchedule":\n' \
    '{"startSchedule":"2025-01-01T00:00:00Z","chargingRateUnit":"A","chargingSchedulePeriod":[{"startPeriod":0,"limit":8}]}}}\n'

TX_PROFILE = '{"chargingProfileId":5,"transactionId":9,"stackLevel":0,"chargingProfilePurpose":"TxProfile","chargingProfileKind":' \
    '"Relative",\n"chargingSchedule":{"chargingRateUnit":"A","chargingSchedulePeriod":[{"startPeriod":0,"limit":6}]}}\n'

NOT_SENT = b": it would be refused, so it isn't sent; --force sends it\n"
CLEARS_ALL = b"clear: warning: a clear without a criterion clears EVERYTHING that the point has, a fuse limit (ChargePointMaxProfile) too"


def without_moments(out):
    return MOMENTS.sub(rb'"\1":"NOW"', out)


def run(program, arguments, given=b""):
    """How a run ends by itself: its status, and what it printed, without moments and how far it was meanwhile."""
    done = subprocess.run(
        [program, *arguments], input=given, stdout=subprocess.PIPE, stderr=subprocess.PIPE, timeout=PATIENCE, check=False, env=ENVIRONMENT
    )
    return done.returncode, without_moments(done.stdout), PROGRESS.sub(b"", done.stderr)


def operator(serving, *options, given=b"", point="P1"):
    url = f"ws://127.0.0.1:{serving.port}/operator/{point}"
    return run(serving.program, ["call", "--url", url, *options], given)


def point(serving, lines, identity="P1"):
    with tempfile.NamedTemporaryFile("w", suffix=".json") as site:
        site.write(serving.site)
        site.flush()
        url = f"ws://127.0.0.1:{serving.port}"
        return run(serving.program, ["point", "--url", url, "--site", site.name, "--id", identity], lines)


def options_of_call(program):
    """Each option sends its call, in their order; what is refused makes the status 2."""
    accepted, refused = b'[3,"%s",{"status":"Accepted"}]\n', b'[3,"ask",{"status":"Rejected","reason":"UnknownConnector"}]\n'
    with Serving(program, SITE, 4) as serving, tempfile.NamedTemporaryFile("w", suffix=".json") as profile:
        profile.write(PROFILE)
        profile.flush()
        wanted = accepted % b"set-profile" + SCHEDULE % (b"ask", 1, b"8.0")
        expect("install and ask", operator(serving, "--ask", "1", "60", "--set-profile", profile.name), (0, wanted, b""))
        wanted = accepted % b"clear" + SCHEDULE % (b"ask", 2, b"16.0")
        expect("clear and ask", operator(serving, "--clear", '{"id":1}', "--ask", "2", "60"), (0, wanted, b""))
        expect("clear nothing", operator(serving, "--clear", "{}"), (0, b'[3,"clear",{"status":"Unknown"}]\n', CLEARS_ALL + b"\n"))
        why = b"ask: UnknownConnector: the point has no connector of this number\n"
        expect("ask another connector", operator(serving, "--ask", "3", "60"), (2, refused, why))
        expect("the totals", serving.totals(), (2, 2))


def remote_starts_of_call(program):
    """`--remote-start` sends its call, with the profile of a file; a simulated point starts, and the profile counts from then on."""
    accepted, told = b'[3,"remote-start",{"status":"Accepted"}]\n', b'[3,"status",{"status":"Accepted","version":%d,"outbox":%d,"audit":"None"}]\n'
    with Serving(program, SITE, 5) as serving, tempfile.NamedTemporaryFile("w", suffix=".json") as profile:
        profile.write(TX_PROFILE)
        profile.flush()
        given = operator(serving, "--status", "--ask", "1", "60", "--remote-start", "1", 'T"1', profile.name)
        why = b"remote-start: warning: TxProfile 5: transactionId has no effect in a remote start: its transaction has no number yet\n"
        expect("with a profile", given, (0, accepted + SCHEDULE % (b"ask", 1, b"32.0") + told % (0, 2), why))
        expect("without one", operator(serving, "--remote-start", "2", "T2"), (0, accepted, b""))
        refused = b'[3,"remote-start",{"status":"Rejected","reason":"UnknownConnector"}]\n'
        why = b"remote-start: UnknownConnector: the point has no connector of this number\n"
        expect("at the whole point", operator(serving, "--remote-start", "0", "T2"), (2, refused, why))
        status, out, error = point(serving, b"heartbeat\n" * 4)
        expect("the point's end", (status, error), (0, b""))
        sent = b'sent [2,"%d","StartTransaction",{"connectorId":%d,"idTag":"%s","meterStart":0,"timestamp":"NOW"}]\n'
        expect("it starts", [text for text in (sent % (3, 1, b'T\\"1'), sent % (4, 2, b"T2")) if text not in out], [])
        calls = [b"Heartbeat"] * 3 + [b"StartTransaction"] * 2 + [b"Heartbeat"]
        expect("its calls in turn", re.findall(rb'sent \[2,"\d+","(\w+)"', out), calls)
        given = operator(serving, "--ask", "1", "60", "--status")
        expect("the profile counts", given, (0, SCHEDULE % (b"ask", 1, b"6.0") + told % (2, 0), b""))
        profile.write("}")
        profile.flush()
        given = operator(serving, "--remote-start", "1", "T1", profile.name)
        why = b"remote-start: line 3, column 1: the JSON breaks where '}' is found: nothing may follow the value\n"
        expect("no JSON", given, (2, b"! remote-start NotACall\n", why))
        expect("the totals", serving.totals(), (2, 2))
    missing = b"central: /none: No such file or directory (os error 2)\ncentral: device: read\n"
    line = ["call", "--url", "ws://127.0.0.1:9/operator/P1", "--remote-start"]
    expect("no file", run(program, [*line, "1", "T1", "/none"]), (3, b"", missing))
    no_number = b"central: command line: the CONNECTOR of --remote-start is no whole number from 0 on\n"
    for connector in ("x", "", "1.5", "4294967296"):
        expect(f"the connector {connector!r}", run(program, [*line, connector, "T1", "/none"]), (4, b"", no_number))


def mistakes_before_a_call(program):
    """What is wrong with a call by itself is said before it is sent, and a clear that names no criterion by mistake isn't sent."""
    misspelled = PROFILE.replace('"limit"', '"limits":3,"limit"')
    with Serving(program, SITE, 3) as serving, tempfile.NamedTemporaryFile("w", suffix=".json") as profile:
        profile.write(misspelled)
        profile.flush()
        status, out, error = operator(serving, "--set-profile", profile.name)
        expect("a field of no meaning", (status, out), (0, b'[3,"set-profile",{"status":"Accepted"}]\n'))
        wanted = b'set-profile: warning: "limits" is no field of OCPP there and has no effect ("limit" is one)\n'
        expect("what is said of it", error, wanted)
        kept = (2, b"! clear NoCriterion\n" + SCHEDULE % (b"ask", 1, b"8.0"))
        status, out, error = operator(serving, "--clear", '{"chargingProfileId":1}', "--ask", "1", "60")
        expect("a clear by mistake", (status, out), kept)
        expect("what is said of that", error, CLEARS_ALL + b'; "chargingProfileId" isn\'t one ("id" is)\n')
        lines = b'[2,"a","ClearChargingProfile",{"ID":1}]\n[2,"b","ClearChargingProfile",{"id":1,"level":0}]\n'
        status, out, error = operator(serving, given=lines)
        expect("clears from lines", (status, out), (2, b'! 1 NoCriterion\n[3,"b",{"status":"Accepted"}]\n'))
        first, second = error.splitlines()
        expect("the first", first, CLEARS_ALL.replace(b"clear:", b"1:", 1) + b'; "ID" isn\'t one ("id" is)')
        expect("the second", second.startswith(b'2: warning: "level" is no criterion and has no effect'), True)
        expect("the totals", serving.totals(), (2, 1))


def lines_of_call(program):
    """The lines of standard input, each answered before the next; what is no CALL isn't sent."""
    lines = (
        b'[2,"a","GetCompositeSchedule",{"connectorId":1,"duration":60}]\r\n'
        b'[2,"b"\n\n[3,"a",{}]\n\xff\n[2,"c","Reset",{"type":"Soft"}]\n[2,"d"]\n'
        b'[2,"e","GetCompositeSchedule",{"connectorId":1,"duration":"60"}]'
    )
    wanted = (
        SCHEDULE % (b"a", 1, b"32.0") + b"! 2 NotACall\n! 4 NotACall\n! 5 BadText\n"
        b'[4,"c","NotImplemented","",{}]\n[4,"d","FormationViolation","",{}]\n'
        b'[4,"e","TypeConstraintViolation","duration",{}]\n'
    )
    why = (
        b"2: its JSON breaks at column 7, where it ends too early\n"
        b"4: an operator sends CALLs, which begin with [2,\n"
        b'6: NotImplemented: "Reset" is no action of an operator that is known here\n'
        b"6: NotImplemented: the action isn't known here, or is one of the other side\n"
        b"7: FormationViolation: the CALL is malformed: its action is no string, or its payload no object\n"
        b'8: TypeConstraintViolation: duration: "60" is a string; expected a whole number of seconds from 0 on\n'
        b"8: TypeConstraintViolation: duration: the field is of another kind of JSON than it has to be\n"
    )
    first, *others = wanted.splitlines(True)
    held = first + b"".join(others[:3]) + b"! 6 HasFault\n" + others[4] + b"! 8 HasFault\n"
    why_held = b"".join(
        line.partition(b":")[0] + NOT_SENT if b"isn't known here" in line or b"another kind" in line else line for line in why.splitlines(True)
    )
    with Serving(program, SITE, 3) as serving:
        expect("what has a fault is held back", operator(serving, given=lines), (2, held, why_held))
        expect("its end", operator(serving, "--force", given=lines), (2, wanted, why))
        expect("without a line", operator(serving), (0, b"", b""))
        expect("the totals", serving.totals(), (0, 2))


def held_back(program):
    """A call that would be refused isn't sent, but by `--force`; `--dry-run` sends nothing, and needs nobody who listens."""
    why = b'clear: TypeConstraintViolation: id: "1" is a string; expected a whole number from -2147483648 to 2147483647\n'
    asked = b'[2,"ask","GetCompositeSchedule",{"connectorId":1,"duration":60}]\n'
    with Serving(program, SITE, 2) as serving:
        given = operator(serving, "--clear", '{"id":"1"}', "--ask", "1", "60")
        expect("a clear with a fault", given, (2, b"! clear HasFault\n" + SCHEDULE % (b"ask", 1, b"32.0"), why + b"clear" + NOT_SENT))
        status, out, error = operator(serving, "--clear", '{"id":"1"}', "--force")
        expect("by force", (status, out, error[: len(why)]), (2, b'[4,"clear","TypeConstraintViolation","id",{}]\n', why))
        expect("the totals", serving.totals(), (0, 1))
        expect("alone, and nobody listens", operator(serving, "--clear", '{"id":"1"}'), (2, b"! clear HasFault\n", why + b"clear" + NOT_SENT))
        given = operator(serving, "--dry-run", "--clear", '{"id":"1"}', "--ask", "1", "60")
        expect("a dry run", given, (2, b"! clear HasFault\n" + asked, why + b"clear" + NOT_SENT))
        given = operator(serving, "--dry-run", "--force", "--clear", '{"id":"1"}')
        expect("a dry run by force", given, (0, b'[2,"clear","ClearChargingProfile",{"id":"1"}]\n', why))
        expect("a dry run of lines", operator(serving, "--dry-run", given=asked + b"[]\n")[:2], (2, asked + b"! 2 NotACall\n"))
        given = operator(serving, "--dry-run", "--clear", '{\n"id":\r\n1}')
        expect("a dry run is a line for each frame", given, (0, b'[2,"clear","ClearChargingProfile",{ "id":  1}]\n', b""))


def each_point(program):
    """`--all --site F` sends the calls to each point of a site; what one answers keeps them from no other."""
    two = SITE.replace("}]}", '},{"id":"P2","ceiling":63.0,"connectors":[8.0]}]}')
    three = two.replace("P2", "P0").replace("}]}", '},{"id":"P2","ceiling":63.0,"connectors":[8.0]}]}')
    with tempfile.NamedTemporaryFile("w", suffix=".json") as site, Serving(program, two, 7) as serving:
        def every(content, *options):
            site.seek(0)
            site.truncate()
            site.write(content)
            site.flush()
            url = f"ws://127.0.0.1:{serving.port}/operator"
            return run(program, ["call", "--url", url, "--all", "--site", site.name, *options])

        told = b'%s [3,"clear",{"status":"Unknown"}]\n'
        expect("all", every(two, "--clear", '{"id":1}'), (0, told % b"P1" + told % b"P2", b""))
        asked = [b"P1 " + SCHEDULE % (b"ask", 2, b"16.0"), b'P2 [3,"ask",{"status":"Rejected","reason":"UnknownConnector"}]\n']
        why = b"P2 ask: UnknownConnector: the point has no connector of this number\n"
        expect("one is refused", every(two, "--ask", "2", "60"), (2, b"".join(asked), why))
        closed = b"central: P0: url: closed by the central system, which may have no such point\n"
        expect("one isn't there", every(three, "--clear", '{"id":1}'), (3, told % b"P1" + told % b"P2", closed))
        frame = b'%s [2,"clear","ClearChargingProfile",{"id":1}]\n'
        expect("a dry run", every(two, "--dry-run", "--clear", '{"id":1}'), (0, frame % b"P1" + frame % b"P2", b""))
        expect("a fault", every(two, "--clear", '{"id":"1"}')[:2], (2, b"! clear HasFault\n"))
        expect("a site file with a fault", every("{}", "--status"), (1, b"", b"central: site: BadUnit\n"))
        words = b"central: command line: --all and --data DIR are for the calls of options, and there is none\n"
        expect("no calls", every(two), (4, b"", words))
        expect("the totals", serving.totals(), (0, 1))
        expect("nobody listens", every(two, "--status"), (3, b"", b"central: url: no connection\n"))
    words = b"central: command line: --site F is for --all or --data DIR, and each of them needs it\n"
    for options in (["--all"], ["--site", "/none"]):
        expect(f"{options}", run(program, ["call", "--url", "ws://127.0.0.1:9/operator/P1", *options, "--status"]), (4, b"", words))
    other = run(program, ["call", "--url", "ws://127.0.0.1:9/P1", "--all", "--site", "/none", "--status"])
    expect("no operators' URL", other, (4, b"", b"central: url: an operator's URL ends in /operator/ID\n"))
    other = run(program, ["call", "--url", "ws://127.0.0.1:9/operator/P1", "--all", "--site", "/none", "--status"])
    expect("one point's URL", other, (4, b"", b"central: command line: with --all the URL ends in /operator, before the points\n"))


def faults_of_call(program):
    """What ends `call` before its time, in its words, and with which status."""
    closed = b"central: url: closed by the central system, which may have no such point\n"
    with Serving(program, SITE, 1) as serving, tempfile.NamedTemporaryFile("wb") as binary, tempfile.NamedTemporaryFile("wb") as long:
        expect("no such point", operator(serving, "--ask", "1", "60", point="P2"), (3, b"", closed))
        why = b"clear: line 1, column 2: the JSON breaks where 'i' is found\n"
        expect("no JSON", operator(serving, "--clear", "{id:1}"), (2, b"! clear NotACall\n", why))
        for file, content in ((binary, b"\xff"), (long, b" " * 1_048_577)):
            file.write(content)
            file.flush()
        for path, why in (
            ("none", "No such file or directory (os error 2)"), ("/", "Is a directory (os error 21)"),
            (binary.name, "it isn't UTF-8"), (long.name, "it is longer than a message may be"),
        ):
            said = f"central: {path}: {why}\ncentral: device: read\n".encode()
            expect(f"the file {path}", operator(serving, "--set-profile", path), (3, b"", said))
        expect("the totals", serving.totals(), (0, 0))
    no_url = (4, b"", b"central: url: not ws://HOST:PORT/PATH\n")
    for url in ("", "x", "http://127.0.0.1/", "wss://127.0.0.1/operator/P1"):
        expect(f"the URL {url!r}", run(program, ["call", "--url", url, "--ask", "1", "60"]), no_url)
    # The command line comes before the file that it names.
    expect("the URL before the file", run(program, ["call", "--url", "http://x", "--set-profile", "/none"]), no_url)
    expect("a point's URL before its site", run(program, ["point", "--url", "http://x", "--site", "none", "--id", "P1"]), no_url)
    for path in ("/P1", "/operators/P1", "/operator/", "/operator", "/"):
        points = ["call", "--url", f"ws://127.0.0.1:9{path}", "--ask", "1", "60"]
        expect(f"the path {path}", run(program, points), (4, b"", b"central: url: an operator's URL ends in /operator/ID\n"))
    nobody = (3, b"", b"central: url: no connection\n")
    expect("nobody", run(program, ["call", "--url", f"ws://127.0.0.1:{free_port()}/operator/P1", "--ask", "1", "60"]), nobody)


def command_lines(program):
    """Options that are wanting, wrong or doubled."""
    for line in (
        ["call"],
        ["call", "--url", "ws://x/", "--ask", "1"],
        ["call", "--url", "ws://x/", "--ask", "1", "x"],
        ["call", "--url", "ws://x/", "--ask", "-1", "60"],
        ["call", "--url", "ws://x/", "--audit", "1"],
        ["call", "--url", "ws://x/", "--audit", "1", "60", "9"],
        ["call", "--url", "ws://x/", "--status", "1"],
        ["call", "--url", "ws://x/", "--remote-start", "1"],
        ["call", "--url", "ws://x/", "--remote-start", "-1", "T1"],
        ["call", "--url", "ws://x/", "--remote-start", "1", "T1", "f", "g"],
        ["call", "--url", "ws://x/", "--clear"],
        ["point", "--url", "ws://x", "--site", "s"],
        ["point", "--url", "ws://x", "--site", "s", "--id", "a", "--id", "b"],
    ):
        status, out, error = run(program, line)
        expect(f"the end of {line}", (status, out, error != b""), (4, b"", True))
    for command, words in (("call", (b"--set-profile", b"NotACall", b"--ask", b"--audit", b"--status", b"--remote-start", b"--dry-run", b"HasFault")), ("point", (b"heartbeat", b"pause SECONDS", b"--id"))):
        status, out, error = run(program, [command, "--help"])
        expect(f"the help of {command}", (status, error, [word for word in words if word not in out]), (0, b"", []))


def day_of_a_point(program):
    """A point that is led by lines: what it sends and gets, its answers from its own profiles, and lines with a fault."""
    lines = b"heartbeat\nstart 1 ann 7\n\nstop 2\nstart 3 ann 0\nhop\nstart 1 ann\npause 1\nheartbeat\n\xff\nstop 1"
    wanted = (
        b'sent [2,"0","Heartbeat",{}]\ngot [3,"0",{"currentTime":"NOW"}]\n'
        b'sent [2,"1","StartTransaction",{"connectorId":1,"idTag":"ann","meterStart":7,"timestamp":"NOW"}]\n'
        b'got [2,"0","ClearChargingProfile",{}]\nsent [3,"0",{"status":"Unknown"}]\n'
        b'got [3,"1",{"idTagInfo":{"status":"Accepted"},"transactionId":1}]\n'
        b"! 4 NoCall\n! 5 NoCall\n! 6 BadLine\n! 7 BadLine\n"
        b'sent [2,"2","Heartbeat",{}]\ngot [3,"2",{"currentTime":"NOW"}]\n! 10 BadText\n'
        b'sent [2,"3","StopTransaction",{"transactionId":1,"timestamp":"NOW","meterStop":7}]\ngot [3,"3",{}]\n'
    )
    with Serving(program, SITE, 2) as serving:
        expect("its end", point(serving, lines), (2, wanted, b""))
        expect("without a line", point(serving, b""), (0, b"", b""))
        expect("the totals", serving.totals(), (2, 0))


def pause_of_a_point(program):
    """What comes in a pause is answered in it: a call behind the last reply, before the next step is made."""
    got = b'got [2,"0","ClearChargingProfile",{}]\n'
    answered = b'sent [3,"0",{"status":"Unknown"}]\n'
    with Serving(program, SITE, 1) as serving:
        status, out, error = point(serving, b"heartbeat\npause 2\nheartbeat\n")
        expect("its end", (status, error), (0, b""))
        reply = b'[3,"0",{"currentTime":"NOW"}]\n'
        expect("what comes in the pause", out.partition(reply)[2].startswith(got + answered + b"sent "), True)
        expect("the totals", serving.totals(), (0, 0))


def remote_start_in_a_pause(program):
    """A start that a point is asked for in a pause is made in it: no line comes behind."""
    with Serving(program, SITE, 2) as serving:
        expect("the operator", operator(serving, "--remote-start", "2", "T1")[::2], (0, b""))
        status, out, error = point(serving, b"heartbeat\npause 3\n")
        expect("its end", (status, error), (0, b""))
        expect("its calls", re.findall(rb'sent \[2,"\d+","(\w+)"', out), [b"Heartbeat", b"StartTransaction"])
        expect("the totals", serving.totals(), (1, 0))


def point_stopped_in_its_pause(program):
    """A point that is stopped in a pause (Ctrl-Z) and goes on later (`fg`) makes its next step."""
    with Serving(program, SITE, 1) as serving, tempfile.NamedTemporaryFile("w", suffix=".json") as site:
        site.write(serving.site)
        site.flush()
        words = ["point", "--url", f"ws://127.0.0.1:{serving.port}", "--site", site.name, "--id", "P1"]
        with subprocess.Popen(
            [program, *words], stdin=subprocess.PIPE, stdout=subprocess.PIPE, stderr=subprocess.PIPE, env=ENVIRONMENT
        ) as process:
            process.stdin.write(b"heartbeat\npause 3\nheartbeat\n")
            process.stdin.close()
            # The call is answered in the pause, which goes on.
            for wanted in (b"sent [2,", b"got [3,", b'got [2,"0"', b'sent [3,"0"'):
                expect("a line", process.stdout.readline()[: len(wanted)], wanted)
            until("it waits", lambda: state_of(process) == "S")
            process.send_signal(signal.SIGSTOP)
            until("it is stopped", lambda: state_of(process) == "T")
            process.send_signal(signal.SIGCONT)
            lines = process.stdout.read().splitlines()
            expect("the next step", [line[:8] for line in lines], [b"sent [2,", b"got [3,\""])
            expect("its end", (process.wait(PATIENCE), process.stderr.read()), (0, b""))
        expect("the totals", serving.totals(), (0, 0))


def shake_hands(listener):
    """The next client, whose handshake is done."""
    peer, _ = listener.accept()
    head = b""
    while b"\r\n\r\n" not in head:
        head += peer.recv(4_096)
    key = re.search(rb"(?i)sec-websocket-key: *(\S+)", head)[1]
    accept = base64.b64encode(hashlib.sha1(key + b"258EAFA5-E914-47DA-95CA-C5AB0DC85B11").digest())
    lines = (b"HTTP/1.1 101 Switching Protocols", b"Upgrade: websocket", b"Connection: Upgrade", b"Sec-WebSocket-Protocol: ocpp1.6")
    peer.sendall(b"\r\n".join((*lines, b"Sec-WebSocket-Accept: " + accept, b"", b"")))
    return peer


def answer(peer, text=b'[3,"ask",{}]'):
    """Answers a text."""
    peer.recv(4_096)
    peer.sendall(b"\x81" + bytes([len(text)]) + text)


def answer_and_stay(listener, *texts):
    """A central system that answers one text, and then nothing any more, a close neither."""
    peer = shake_hands(listener)
    answer(peer, *texts)
    while peer.recv(4_096):
        pass
    peer.close()


def server_that_never_closes(program):
    """A call that was answered ends, though the central system doesn't close the connection."""
    with socket.socket() as listener:
        listener.bind(("127.0.0.1", 0))
        listener.listen()
        serving = threading.Thread(target=answer_and_stay, args=(listener,))
        serving.start()
        url = f"ws://127.0.0.1:{listener.getsockname()[1]}/operator/P1"
        expect("its end", run(program, ["call", "--url", url, "--ask", "1", "60"]), (0, b'[3,"ask",{}]\n', b""))
        serving.join(PATIENCE)


def server_out_of_memory(program):
    """A central system that can't keep a change answers as out of memory, and `call` says what else that may be."""
    error = b'[4,"clear","InternalError","OutOfMemory",{}]'
    with socket.socket() as listener:
        listener.bind(("127.0.0.1", 0))
        listener.listen()
        serving = threading.Thread(target=answer_and_stay, args=(listener, error))
        serving.start()
        url = f"ws://127.0.0.1:{listener.getsockname()[1]}/operator/P1"
        why = b"clear: OutOfMemory: memory ran out, or the central system's device is full: see its status\n"
        expect("its end", run(program, ["call", "--url", url, "--clear", '{"id":1}']), (2, error + b"\n", why))
        serving.join(PATIENCE)


# On each line an answer, and how the sentence that `call` says of it begins, or `-` for none.
ANSWERS = r"""
[3,"a",{"status":"Accepted"}] => -
[3,"a",{"status":"Unknown"}] => -
[3,"a",{"status":"Rejected","reason":"WrongUnit"}] => WrongUnit: chargingRateUnit isn't the unit
[3,"a",{"status":"Rejected","reason":"NotTxProfile"}] => NotTxProfile: the profile of a remote start isn't a TxProfile
[3,"a",{"status":"Rejected","reason":"NoSuchReason"}] => -
[4,"a","NotImplemented","",{}] => NotImplemented: the action isn't known here
[4,"a","TypeConstraintViolation","duration",{}] => TypeConstraintViolation: duration: the field is of another kind
[4,"a","PropertyConstraintViolation","UnknownConnector",{}] => UnknownConnector: the point has no connector
[4,"a","InternalError","OutboxFull",{}] => OutboxFull: 256 calls wait
[4,"a","GenericError","x",{}] => -
"""


def answer_each(listener, texts):
    """A central system that answers the texts of one client in turn, and closes."""
    with shake_hands(listener) as peer:
        for text in texts:
            answer(peer, text.encode())
        peer.sendall(CLOSE)


def sentences_of_answers(program):
    """What `call` says of the refusal in an answer: nothing where it has none, or one of another system."""
    rows = [row.split(" => ") for row in ANSWERS.strip("\n").split("\n")]
    texts = [text for text, _ in rows]
    with socket.socket() as listener:
        listener.bind(("127.0.0.1", 0))
        listener.listen()
        serving = threading.Thread(target=answer_each, args=(listener, texts))
        serving.start()
        url = f"ws://127.0.0.1:{listener.getsockname()[1]}/operator/P1"
        _, out, error = run(program, ["call", "--url", url], b'[2,"a","ClearChargingProfile",{"id":1}]\n' * len(rows))
        serving.join(PATIENCE)
    expect("the answers", out.decode().splitlines(), texts)
    wanted = [f"{number}: {sentence}" for number, (_, sentence) in enumerate(rows, 1) if sentence != "-"]
    said = error.decode().splitlines()
    expect(f"what is said: {said}", [line[: len(begin)] for line, begin in zip(said, wanted)], wanted)
    expect("how often something is said", len(said), len(wanted))


def answer_slowly(listener, pauses):
    """A central system that answers one text of each client, so many seconds after its handshake."""
    for pause in pauses:
        with shake_hands(listener) as peer:
            time.sleep(pause)
            answer(peer)
            peer.sendall(CLOSE)


def progress_of_calls(program):
    """Calls to many points that take long say how far they are, at most each second, and in the end that all are done."""
    points = [f'{{"id":"P{place}","ceiling":63.0,"connectors":[32.0]}}' for place in range(5)]
    with tempfile.NamedTemporaryFile("w", suffix=".json") as site, socket.socket() as listener:
        site.write(f'{{"unit":"A","points":[{",".join(points)}]}}')
        site.flush()
        listener.bind(("127.0.0.1", 0))
        listener.listen()
        serving = threading.Thread(target=answer_slowly, args=(listener, (0.4, 1.1, 0.1, 1.1, 1.1)))
        serving.start()
        url = f"ws://127.0.0.1:{listener.getsockname()[1]}/operator"
        line = [program, "call", "--url", url, "--all", "--site", site.name, "--ask", "1", "60"]
        begun = time.monotonic()
        done = subprocess.run(line, capture_output=True, timeout=PATIENCE, check=False, env=ENVIRONMENT)
        took = time.monotonic() - begun
        serving.join(PATIENCE)
    expect("the answers", (done.returncode, done.stdout), (0, b"".join(b'P%d [3,"ask",{}]\n' % place for place in range(5))))
    told = PROGRESS.findall(done.stderr)
    expect("nothing else is said", PROGRESS.sub(b"", done.stderr), b"")
    expect("behind each pause of a second", [b"2", b"4", b"5"], [count for count in told if count in (b"2", b"4", b"5")])
    expect("in turn, no more than one a second", told == sorted(set(told)) and len(told) - 1 <= took, True)


def faults_of_a_point(program):
    """What ends `point` before its time."""
    no_point = b"central: command line: no such point in the site file\n"
    with Serving(program, SITE, 1) as serving:
        expect("an identity that isn't the site's", point(serving, b"", "P2"), (4, b"", no_point))
        expect("without a line", point(serving, b""), (0, b"", b""))
        serving.totals()
        with_site = point(serving, b"heartbeat\n")
        expect("nobody", with_site, (3, b"", b"central: url: no connection\n"))
    arguments = ["point", "--url", "ws://127.0.0.1:1", "--site", "none", "--id", "P1"]
    words = b"central: none: No such file or directory (os error 2)\ncentral: device: read\n"
    expect("no site file", run(program, arguments), (3, b"", words))


def example(program):
    """The example of a day over sockets prints what stands beside it."""
    folder = os.path.join(TOP, "examples", "day-over-sockets")
    port = str(free_port())
    with open(os.path.join(folder, "stdout"), "rb") as file:
        wanted = without_moments(file.read()).replace(b":9000\n", b":PORT\n")
    status, out, error = run(os.path.join(folder, "run"), [program, port])
    expect("its end", (status, error), (0, b""))
    expect("what it prints", out.replace(f":{port}\n".encode(), b":PORT\n"), wanted)


def back_office(program):
    """The example of a back office and a point of one's own, by this machine's Python with `websockets`."""
    folder = os.path.join(TOP, "examples", "back-office")
    with open(os.path.join(folder, "stdout"), "rb") as file:
        wanted = file.read()
    with Serving(program, SITE, 2) as serving:
        done = run(os.path.join(folder, "back_office.py"), [f"ws://127.0.0.1:{serving.port}", "P1"])
        expect("what it prints", done, (0, wanted, b""))
        expect("the totals", serving.totals(), (2, 1))


def tests():
    yield "the options of call", options_of_call
    yield "the remote starts of call", remote_starts_of_call
    yield "mistakes before a call", mistakes_before_a_call
    yield "the lines of call", lines_of_call
    yield "what call holds back", held_back
    yield "each point of a site", each_point
    yield "the faults of call", faults_of_call
    yield "command lines", command_lines
    yield "a point's day", day_of_a_point
    yield "a point's pause", pause_of_a_point
    yield "a remote start in a pause", remote_start_in_a_pause
    yield "a point that is stopped in its pause", point_stopped_in_its_pause
    yield "a server that never closes", server_that_never_closes
    yield "a server out of memory", server_out_of_memory
    yield "sentences of answers", sentences_of_answers
    yield "how far calls to many points are", progress_of_calls
    yield "the faults of a point", faults_of_a_point
    yield "the example", example
    yield "the example of a back office", back_office
