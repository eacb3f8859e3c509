"""The status port of a site that is run: its paths, who reads it, and figures that follow what happened."""
import functools
import http.client
import itertools
import json
import os
import re
import socket
import subprocess
import sys
import threading
import time
from xml.etree import ElementTree

from audits import schedule_reply
from browser import browser, contrast, schemes, seen_at
from raw_client import TEXT, RawClient, frame_bytes
from run_data import SITE, Data, SmallDevice, read, transaction_of
from serving import ENVIRONMENT, PATIENCE, Running, Unexpected, expect, free_port, until
from texts import CALL_0, accepted, ask, call, clear, error, heartbeat, install, install_call, limit_of, plain_site, profile, rejected, start

sys.path.insert(0, os.path.join(os.path.dirname(os.path.realpath(__file__)), ".."))
from png_colours import shares_of_colours

# Seconds that a connection of the status port may take, as the program has them.
LONGEST_STATUS = 5

# Bytes by which a client breaks the protocol, and how that is said.
BREACHES = {
    "lost: its message wasn't UTF-8": frame_bytes(TEXT, b'["\xff"]'),
    "lost: its message was too long": frame_bytes(TEXT, b"", length=b"\x7f" + (1_048_577).to_bytes(8, "big")),
    "lost: it broke the WebSocket protocol": frame_bytes(TEXT, b"[]", is_masked=False),
}

INSTANT = re.compile(r"\d{4}-\d\d-\d\dT\d\d:\d\d:\d\dZ")
LIMITING = "TxDefaultProfile 1, stack level 0, at connector 0"


def get(running, path, method="GET"):
    """The status of an answer, its content type, and its body."""
    connection = http.client.HTTPConnection("127.0.0.1", running.status_port, timeout=PATIENCE)
    try:
        connection.request(method, path)
        response = connection.getresponse()
        return response.status, response.headers["content-type"], response.read().decode()
    finally:
        connection.close()


def state(running):
    status, kind, body = get(running, "/state.json")
    expect("how the state comes", (status, kind), (200, "application/json"))
    return json.loads(body)


def point_of(running, name="P1"):
    found = [point for point in state(running)["points"] if point["id"] == name]
    expect(f"how often {name} is there", len(found), 1)
    return found[0]


def metrics(running):
    """The samples of all figures, by name and labels."""
    status, kind, body = get(running, "/metrics")
    expect("how the figures come", (status, kind), (200, "text/plain; version=0.0.4; charset=utf-8"))
    samples = [line for line in body.splitlines() if not line.startswith("#")]
    return {name: float(value) for name, value in (line.rsplit(" ", 1) for line in samples)}


def boot(message_id):
    return call(message_id, "BootNotification", {"chargePointVendor": "V", "chargePointModel": "M"})


def each_path(program):
    """Each path is there, and no other; only GET and HEAD are answered."""
    with Data() as data, Running(program, SITE, data.path, has_status=True) as running:
        expect("/health", get(running, "/health"), (200, "text/plain; charset=utf-8", "ok\n"))
        expect("the points", [point["id"] for point in state(running)["points"]], ["P1", "P2"])
        metrics(running)
        status, kind, page = get(running, "/")
        expect("how the page comes", (status, kind, page[:15]), (200, "text/html; charset=utf-8", "<!DOCTYPE html>"))
        expect("its first page", get(running, "/page/1")[0], 200)
        status, kind, picture = get(running, "/points/P1/2.svg")
        expect("how a picture comes", (status, kind), (200, "image/svg+xml"))
        expect("whether it is XML", ElementTree.fromstring(picture).tag.endswith("svg"), True)
        for path in ("/nothing", "/health/", "/page/0", "/page/2", "/page/x", "/points/P1/3.svg", "/points/P3/1.svg", "/points/P1/1", "/points/P1"):
            expect(f"the status of {path}", get(running, path)[0], 404)
        for method in ("POST", "PUT", "DELETE", "OPTIONS"):
            expect(f"the status of {method}", get(running, "/health", method)[0], 405)
        expect("HEAD", get(running, "/health", "HEAD"), (200, "text/plain; charset=utf-8", ""))


def figures_that_follow(program):
    """What is told follows what happened at a point, and what was said of it."""
    fields = profile(1, [7.0])
    with Data() as data, Running(program, SITE, data.path, has_status=True) as running:
        before = point_of(running)
        expect("what wasn't seen", [before[key] for key in ("connectedSince", "lastText", "booted", "inFlightSince", "rejected")], [None] * 5)
        expect("what waits", (before["confirmed"], before["inFlight"], before["waiting"]), (0, 0, 1))
        with RawClient.connected(running, "/operator/P1") as operator, RawClient.connected(running, "/P1") as point:
            expect("a boot", point.texts_of(boot("b"))[1:], [CALL_0])
            expect("an install", operator.texts_of(install("i", fields)), [accepted("i")])
            now = point_of(running)
            seen = [bool(INSTANT.fullmatch(now[key] or "")) for key in ("connectedSince", "lastText", "booted", "inFlightSince")]
            expect("what was seen", seen, [True] * 4)
            expect("what waits then", (now["confirmed"], now["inFlight"], now["waiting"]), (0, 1, 1))
            figures = metrics(running)
            wanted = {
                'central_sessions{kind="point"}': 1, 'central_sessions{kind="operator"}': 1, "central_seats": 256,
                "central_seats_free": 254, 'central_calls_waiting{point="P1"}': 1, 'central_calls_in_flight{point="P1"}': 1,
                'central_calls_waiting{point="P2"}': 1, 'central_calls_in_flight{point="P2"}': 0, "central_changes_total": 1,
                'central_point_connected{point="P1"}': 1, 'central_point_connected{point="P2"}': 0, "central_healthy": 1,
            }
            expect("figures", {name: figures.get(name) for name in wanted}, wanted)
            expect("the journal's bytes", figures["central_journal_bytes"], len(data.bytes()))
            expect("its syncs", figures["central_journal_syncs_total"] > 0, True)
            point.texts_of(accepted("0"))
            expect("a rejection", point.texts_of(rejected("1", "no <b>\"room\"</b>")), [])
            now = point_of(running)
            expect("the call that was rejected", (now["rejections"], now["rejected"]["call"], now["rejected"]["reason"]), (1, 1, "Rejected"))
            expect("what it asked", now["rejected"]["action"], "SetChargingProfile")
            expect("what waits at last", (now["confirmed"], now["inFlight"], now["waiting"]), (2, 0, 0))
            operator.texts_of(install("j", profile(2, [8.0], 1)))
            point.texts_of(heartbeat("h"))
            point.texts_of(error("2", "InternalError", "<script>alert(1)</script>"))
            reason = point_of(running)["rejected"]["reason"]
            expect("an error's text", reason, error("2", "InternalError", "<script>alert(1)</script>"))
            page = get(running, "/")[2]
            expect("whether the page has it as text", ("<script" in page, "&lt;script&gt;alert(1)" in page), (False, True))
            point.texts_of(start("s", tag="a card"))
            expect("a transaction", [entry["connectorId"] for entry in point_of(running)["transactions"]], [1])
            expect("whether an idTag is told", "a card" in get(running, "/state.json")[2], False)
            expect("an unknown action", point.texts_of(call("u", "Vendor")), [error("u", "NotImplemented")])
            expect("a reply that confirms no call", point.texts_of(accepted("99")), [])
            for faulty in ("f", "g"):  # said once a minute
                wanted = [error(faulty, "PropertyConstraintViolation", "UnknownConnector")]
                expect("a faulty start", point.texts_of(start(faulty, connector=9)), wanted)
            told = point_of(running)["refused"]
            expect("what was refused", (point_of(running)["refusals"], told["errorCode"], told["errorDescription"]), (2, "PropertyConstraintViolation", "UnknownConnector"))
            expect("what was refused, in the figures", metrics(running)['central_messages_refused_total{point="P1"}'], 2)
        until("the point is lost", lambda: point_of(running)["connectedSince"] is None)
        with RawClient(running) as stranger:
            stranger.shake_hands("/P9", ["Sec-WebSocket-Protocol: ocpp1.6"])
        for content in BREACHES.values():
            with RawClient.connected(running, "/P2") as point:
                point.send_bytes(content)
                point.is_ended_for_a_breach()
        until("who isn't let in is counted", lambda: metrics(running)["central_handshakes_refused_total"] == 1)
        time.sleep(0.5)  # who writes the lines may be behind
        said = [INSTANT.sub("AT", line) for line in running.kill_and_hear().decode().splitlines()]
        wanted = [
            "central: AT P1: connected", "central: AT P1: booted", "central: AT P1: rejected call 1, SetChargingProfile: Rejected",
            f"central: AT P1: rejected call 2, SetChargingProfile: {error('2', 'InternalError', '<script>alert(1)</script>')}",
            "central: AT P1: its message was answered PropertyConstraintViolation, UnknownConnector",
            "central: AT P1: lost",
        ]
        expect("what is said", [line for line in said if " P1: " in line], wanted)
        breaches = [line.removeprefix("central: AT P2: ") for line in said if " P2: lost" in line]
        expect("what is said of breaches", breaches, list(BREACHES))
        expect("what is said of who isn't let in", [line.partition("refused")[2] for line in said if "refused" in line], [", no such point: /P9"])


def point_that_may_have_forgotten(program):
    """A point that booted behind its last install is told, until it has confirmed one or agreed in an audit."""
    fields = profile(1, [7.0])
    with Data() as data, Running(program, SITE, data.path, has_status=True, after_boot="nothing") as running:
        forgotten = lambda: point_of(running)["mayHaveForgotten"]
        with RawClient.connected(running, "/operator/P1") as operator, RawClient.connected(running, "/P1") as point:
            operator.texts_of(install("i", fields))
            point.texts_of(boot("b"))
            point.texts_of(accepted("0"))
            expect("with an install that waits", (forgotten(), states_of(running)), (False, ["sent"]))
            point.texts_of(accepted("1"))
            expect("once it is confirmed", (forgotten(), states_of(running)), (False, ["held"]))
            expect("the table's status", shown(program, running)[0], 0)
            point.texts_of(boot("c"))
            expect("behind another boot", (forgotten(), states_of(running)), (True, ["unsure"]))
            figures = [metrics(running)[f'central_point_{name}{{point="P1"}}'] for name in ("may_have_forgotten", "unheld_rows")]
            expect("in the figures", figures, [1, 1])
            status, printed, _ = shown(program, running)
            wanted = ["P1: TxDefaultProfile 1 at connector 0 is unsure", "P1: it may have lost profiles: audit it, or install them anew"]
            expect("in the table", (status, printed.splitlines()[-2:]), (2, wanted))
            operator.texts_of(install("k", profile(2, [6.0], 1)))
            point.texts_of(heartbeat("g"))
            point.texts_of(accepted("2"))
            expect("with another profile", (forgotten(), states_of(running)), (True, ["unsure", "held"]))
            operator.texts_of(install("j", fields))
            expect("with the install that waits anew", (forgotten(), states_of(running)), (False, ["held", "sent"]))
            point.texts_of(heartbeat("h"))
            point.texts_of(accepted("3"))
            expect("once it is confirmed anew", (forgotten(), states_of(running)), (False, ["held", "held"]))


def profiles_after_a_boot(program):
    """A point that has booted gets its profiles again: those of the whole point first, those of transactions last, and nothing twice."""
    tariff, fuse = profile(2, [16.0]), profile(1, [20.0], purpose="ChargePointMaxProfile")
    of_car = profile(3, [10.0], purpose="TxProfile", transactionId=1)
    with Data() as data, Running(program, SITE, data.path, has_status=True) as running:
        with RawClient.connected(running, "/operator/P1") as operator, RawClient.connected(running, "/P1") as point:
            for text in (install("t", tariff), install("f", fuse)):
                operator.texts_of(text)
            expect("a transaction", transaction_of(point.texts_of(start("s"))[0]), 1)
            operator.texts_of(install("c", of_car, connector=1))
            for number in range(4):
                point.texts_of(accepted(str(number)))
            expect("before the boot", states_of(running), ["held"] * 3)
            calls = [install_call(4, fuse), install_call(5, tariff), install_call(6, of_car, connector=1)]
            expect("what follows the answer", point.texts_of(boot("b"))[1:], calls[:1])
            expect("behind the boot", states_of(running), ["sent"] * 3)
            expect("another one", len(point.texts_of(boot("again"))), 1)
            expect("behind it", [point_of(running)[what] for what in ("inFlight", "waiting")], [1, 2])
            came = [text for text in point.texts_of(accepted("4")) + point.texts_of(accepted("5")) if "SetChargingProfile" in text]
            expect("what comes next", came, calls[1:])
            point.texts_of(accepted("6"))
            expect("once all are confirmed", (states_of(running), point_of(running)["unheld"]), (["held"] * 3, 0))
            expect("the order of the profiles", [entry["chargingProfileId"] for entry in point_of(running)["profiles"]], [1, 2, 3])
            operator.texts_of(clear("x", id=1))
            point.texts_of(boot("last"))
            expect("a cleared one", [entry["chargingProfileId"] for entry in point_of(running)["profiles"]], [2, 3])
        running.kill()  # the boot was answered, so what it brought is in the journal
        with Running(program, SITE, data.path, has_status=True) as again:
            expect("after a kill", states_of(again), ["sent", "sent"])
    # The site file isn't there, which a command line without a fault comes to.
    for word, ended in (("nothing", (3, False)), ("all", (4, True))):
        words = [program, "run", "--site", "F", "--data", "D", "--listen", "127.0.0.1:0", "--after-boot", word]
        done = subprocess.run(words, capture_output=True, timeout=PATIENCE, check=False, env=ENVIRONMENT)
        expect(f"how --after-boot {word} ends", (done.returncode, b"--after-boot" in done.stderr), ended)


def boots_and_obeys(point, obeyed, ended):
    """A point boots again and again, and obeys each call. It adds the limits of the profiles that it is given."""
    for number in itertools.count():
        if ended.is_set():
            break
        texts = point.texts_of(boot(f"b{number}"))
        while calls := [json.loads(text) for text in texts if text.startswith("[2,")]:
            obeyed += [limit_of(told[3]) for told in calls if told[2] == "SetChargingProfile"]
            texts = [text for told in calls for text in point.texts_of(accepted(told[1]))]


def changes_beside_boots(program):
    """A profile that an operator replaces while its point boots again and again is the operator's newest, not one that a boot brings back."""
    changes, obeyed, ended = 300, [], threading.Event()
    with Data() as data, Running(program, SITE, data.path, has_status=True) as running:
        with RawClient.connected(running, "/operator/P1") as operator, RawClient.connected(running, "/P1") as point:
            beside = threading.Thread(target=boots_and_obeys, args=(point, obeyed, ended))
            beside.start()
            try:
                for limit in range(1, changes + 1):
                    expect(f"change {limit}", operator.texts_of(install(f"i{limit}", profile(1, [limit]))), [accepted(f"i{limit}")])
                    if limit % 3 == 0:
                        # A boot installs again only what has no call on its way.
                        until(f"the point obeyed change {limit}", functools.partial(obeyed.__contains__, limit))
            finally:
                ended.set()
                beside.join(PATIENCE)
        lines = [line for line in data.bytes().decode().splitlines() if "SetChargingProfile" in line]
        frames = [json.loads(line[line.index("[2,"):]) for line in lines]
        installs = [(frame[1] == "after-boot", limit_of(frame[3])) for frame in frames]
        stale = [later for (_, before), (is_again, later) in zip(installs, installs[1:]) if is_again and later != before]
        expect("what boots brought back", stale, [])
        again = sum(is_again for is_again, _ in installs)
        expect(f"whether boots installed it again ({again} times)", again > 0, True)
        shown = json.loads(read(program, data, "show", "--json")[1])["points"][0]["profiles"]
        expect("what is installed", [limit_of(row) for row in shown], [changes])


def replies_that_accept_nothing(program):
    """What isn't `Accepted` rejects an install, and shows nothing of what the point has. That no profile matched leaves nothing of a clear undone."""
    fields = profile(1, [7.0])
    with Data() as data, Running(program, SITE, data.path, has_status=True, after_boot="nothing") as running:
        with RawClient.connected(running, "/operator/P1") as operator, RawClient.connected(running, "/P1") as point:
            operator.texts_of(install("i", fields))
            point.texts_of(heartbeat("h"))
            point.texts_of('[3,"0",{"status":"Unknown"}]')
            expect("a clear that matched none", point_of(running)["rejections"], 0)
            point.texts_of(accepted("1"))
            point.texts_of(boot("b"))
            expect("behind the boot", point_of(running)["mayHaveForgotten"], True)
            replies = ('[3,"2",{}]', '[3,"3",7]', '[3,"4",{"status":"accepted"}]', '[3,"5",{"status":"Unknown"}]')
            for count, reply in enumerate(replies, 1):
                operator.texts_of(install(f"j{count}", fields))
                point.texts_of(heartbeat(f"h{count}"))
                point.texts_of(reply)
                now = point_of(running)
                reason = "Unknown" if "Unknown" in reply else reply
                expect(f"the rejection by {reply}", (now["rejections"], now["rejected"]["reason"]), (count, reason))
                expect(f"what it has behind {reply}", (states_of(running), now["unheld"]), (["rejected"], 1))
            expect("in the figures", metrics(running)['central_calls_rejected_total{point="P1"}'], len(replies))
            # A reply has no answer, which would wait for the disk. This message has.
            point.texts_of(heartbeat("last"))
        # They stand in the journal: a restart tells the same of them.
        running.kill()
        expect("what explain says", notes_of_explain(program, data), ["central: P1 rejected TxDefaultProfile 1 at connector 0, at AT by its reply to call 5"])
        rejected = f"{LIMITING}, rejected by the point at AT", "rejected"
        expect("the cause in explain", cause_in_explain(program, data), rejected)
        with Running(program, SITE, data.path, has_status=True) as again:
            then = point_of(again)
            del now["rejected"]["moment"], then["rejected"]["moment"]  # of the message, which came a little earlier
            expect("after a restart", (then["rejections"], then["rejected"]), (now["rejections"], now["rejected"]))
            expect("in the figures of P2", metrics(again)['central_calls_rejected_total{point="P2"}'], 0)


def an_audit_that_differs(program):
    """A point that tells another schedule in its audit has a figure, and a warning on the page, until it agrees."""
    figure, warning = 'central_point_audit_differs{point="P1"}', "In its last audit it told another schedule"
    with Data() as data, Running(program, SITE, data.path, has_status=True) as running:
        with RawClient.connected(running, "/operator/P1") as operator, RawClient.connected(running, "/P1") as point:
            operator.texts_of(install("i", profile(1, [16.0])))
            point.texts_of(heartbeat("h"))
            point.texts_of(accepted("0"))
            point.texts_of(accepted("1"))
            expect("before an audit", (metrics(running)[figure], warning in get(running, "/")[2]), (0, False))
            for number, (limit, differs) in enumerate(((15.9, True), (16.0, False)), 2):
                operator.texts_of(call(f"a{number}", "AuditPoint", {"connectorId": 1, "duration": 60}))
                point.texts_of(heartbeat(f"h{number}"))
                point.texts_of(schedule_reply(number, [(0, limit)]))
                expect(f"told {limit}", (metrics(running)[figure], warning in get(running, "/")[2]), (int(differs), differs))
                expect(f"what it has, told {limit}", states_of(running), ["unsure" if differs else "held"])
                point.texts_of(heartbeat(f"then{number}"))  # its answer waits for the disk
                lost = ["central: P1 may have lost TxDefaultProfile 1 at connector 0, at AT"]
                expect(f"what explain says, told {limit}", notes_of_explain(program, data), lost if differs else [])
                cause = (f"{LIMITING}, perhaps lost by the point at AT", "unsure") if differs else (LIMITING, "held")
                expect(f"the cause in explain, told {limit}", cause_in_explain(program, data), cause)


def states_of(running):
    """The states of P1's profiles at the point, in the order of their installs."""
    return [entry["state"] for entry in point_of(running)["profiles"]]


EXPLAINED = ("--point", "P1", "--connector", "1", "--start", "2030-01-01T00:00:00Z", "--duration", "60")


def notes_of_explain(program, data):
    """What `explain` says on standard error of profiles that the point rejected or may have lost."""
    return INSTANT.sub("AT", read(program, data, "explain", *EXPLAINED)[2]).splitlines()[1:]


def cause_in_explain(program, data):
    """The cause of P1's limit in `explain`'s table, and its state in the JSON."""
    table, line = (read(program, data, "explain", *EXPLAINED, *form)[1] for form in ((), ("--json",)))
    cause = json.loads(line)["intervals"][0]["cause"]
    expect("since when", cause.get("since", "-") in table or cause["state"] == "held", True)
    return INSTANT.sub("AT", table.splitlines()[3].partition(" A  ")[2]), cause["state"]


def boots_in(data):
    """The boots in the journal of a folder: the moment, the point and the first call that it hadn't confirmed."""
    lines = [line.split(" ", 4) for line in data.bytes().decode().splitlines() if '"BootNotification"' in line]
    expect("whose lines they are", [words[1] for words in lines], ["point"] * len(lines))
    return [[moment, point, number] for moment, _, point, number, _ in lines]


def remarks_on_boots(program, data):
    """What `check` says of points that booted."""
    status, printed, said = read(program, data, "check")
    expect("how check ends", (status, bool(re.fullmatch(r"central: journal: \d+ lines, the last one of \S+\n", said))), (0, True))
    return [line for line in printed.splitlines() if "booted" in line]


def boots_over_restarts(program):
    """A restart knows which points booted, and so do `check` and `show`, until an install is confirmed behind it."""
    fields = profile(1, [7.0])
    forgotten = lambda running: point_of(running)["mayHaveForgotten"]
    shown_states = lambda data, *at: [row["state"] for row in json.loads(read(program, data, "show", "--json", *at)[1])["points"][0]["profiles"]]
    with Data() as data:
        with Running(program, SITE, data.path, has_status=True, after_boot="nothing") as running:
            with RawClient.connected(running, "/operator/P1") as operator, RawClient.connected(running, "/P1") as point:
                operator.texts_of(install("i", fields))
                point.texts_of(heartbeat("h"))
                point.texts_of(accepted("0"))
                point.texts_of(accepted("1"))
                point.texts_of(heartbeat("k"))  # the replies are on the disk before its answer leaves
                before = state(running)["moment"]
                expect("before a boot", (boots_in(data), remarks_on_boots(program, data), shown_states(data)), ([], [], ["held"]))
                until("the clock went on", lambda: state(running)["moment"] > before)
                point.texts_of(boot("b"))
                moment = point_of(running)["booted"]
                expect("its line", boots_in(data), [[moment, "P1", "2"]])
            with RawClient.connected(running, "/P2") as other:
                other.texts_of(boot("b"))
                expect("the other's boot too", [words[1:] for words in boots_in(data)], [["P1", "2"], ["P2", "0"]])
            running.kill()
        with Running(program, SITE, data.path, has_status=True, after_boot="nothing") as running:
            expect("behind a kill", (forgotten(running), point_of(running)["booted"]), (True, moment))
            expect("of one without profiles", point_of(running, "P2")["mayHaveForgotten"], False)
            expect("what show says", (shown_states(data), shown_states(data, "--at", before)), (["unsure"], ["held"]))
            wanted = f"script: P1, at the end: remark: it booted at {moment}, and may have forgotten its profiles: audit it, or install them anew"
            expect("what check says", remarks_on_boots(program, data), [wanted])
            with RawClient.connected(running, "/operator/P1") as operator, RawClient.connected(running, "/P1") as point:
                operator.texts_of(install("j", fields))
                expect("with the install that waits", (forgotten(running), remarks_on_boots(program, data)), (False, []))
                point.texts_of(heartbeat("h"))
                point.texts_of(accepted("2"))
                point.texts_of(heartbeat("l"))
                expect("once it is confirmed", (forgotten(running), states_of(running)), (False, ["held"]))
        with Running(program, SITE, data.path, has_status=True, after_boot="nothing") as running:
            expect("behind another restart", (forgotten(running), states_of(running)), (False, ["held"]))
            expect("what check says then", remarks_on_boots(program, data), [])


def boots_on_a_full_device(program):
    """A boot that can't be kept isn't accepted, so the point says it again, and then it is known."""
    with SmallDevice() as data:
        if data is None:
            return
        with Running(program, SITE, data.path, has_status=True) as running, RawClient.connected(running, "/P1") as point:
            point.texts_of(heartbeat("h"))
            point.texts_of(accepted("0"))
            data.fill()
            refused = error("b", "InternalError", "OutOfMemory")
            until("a boot isn't accepted", lambda: point.texts_of(boot("b"))[:1] == [refused])
            known = len(boots_in(data))
            data.has_room_again()
            until("it is accepted again", lambda: point.texts_of(boot("b"))[:1] != [refused])
            expect("what is kept", len(boots_in(data)) > known, True)
            expect("whether it is known", bool(point_of(running)["booted"]), True)


def boots_of_an_earlier_version(program):
    """Earlier versions kept boots in a file beside the journal. A start makes them lines of the journal, and the file goes."""
    fields = profile(1, [7.0])
    with Data() as data:
        path = os.path.join(data.path, "boots")
        with Running(program, SITE, data.path) as running:
            with RawClient.connected(running, "/operator/P1") as operator, RawClient.connected(running, "/P1") as point:
                operator.texts_of(install("i", fields))
                point.texts_of(heartbeat("h"))
                point.texts_of(accepted("0"))
                point.texts_of(accepted("1"))
                point.texts_of(heartbeat("k"))  # the replies are on the disk before its answer leaves
            expect("whether there is such a file", os.path.exists(path), False)
        earlier = data.bytes().replace(b"central journal 2 ", b"central journal 1 ", 1)
        data.write(earlier)
        with open(path, "wb") as file:
            file.write(b"2025-01-01T00:00:00Z P1 2\nP2\n2025-01-01T00:00:00Z P9 0\n2025-01-01 P2 0\n\n\xff P2 0\n2025-01-01T00:00:00Z P2")
        for name in ("first", "second"):
            with Running(program, SITE, data.path, has_status=True) as running:
                expect(f"the boots behind the {name} start", [point_of(running, name)["booted"] for name in ("P1", "P2")], ["2025-01-01T00:00:00Z", None])
                expect(f"what it may have forgotten behind the {name}", states_of(running), ["unsure"])
                expect(f"where they are behind the {name}", (os.path.exists(path), boots_in(data)), (False, [["2025-01-01T00:00:00Z", "P1", "2"]]))
        expect("what check says", len(remarks_on_boots(program, data)), 1)
        formats = [line.split(" ")[2] for line in data.bytes().decode().splitlines() if line.startswith("central journal ")]
        expect("the formats", (formats, data.bytes().startswith(earlier)), (["1", "2"], True))


def calls_that_wait(program):
    """Since when the call waits that waits longest, also behind a restart: the journal has the moment."""
    since = lambda running: point_of(running)["waitingSince"]
    seconds = lambda running: metrics(running).get('central_call_waiting_seconds{point="P1"}')
    with Data() as data:
        with Running(program, SITE, data.path, has_status=True) as running:
            began = since(running)
            expect("call 0 at the start", bool(INSTANT.fullmatch(began)), True)
            with RawClient.connected(running, "/operator/P1") as operator, RawClient.connected(running, "/P1") as point:
                expect("call 0", point.texts_of(heartbeat("h"))[1:], [CALL_0])
                expect("while it is in flight", (since(running), seconds(running)), (None, None))
                operator.texts_of(ask("a"))
                expect("behind what adds no call", since(running), None)
                until("the clock went on", lambda: state(running)["moment"] > began)
                operator.texts_of(install("i", profile(1, [7.0])))
                first = since(running)
                expect("whether it waits since then", began < first <= state(running)["moment"], True)
                until("the clock went on again", lambda: seconds(running) > 0)
                operator.texts_of(install("j", profile(2, [7.0], 1)))
                expect("with another behind it", (since(running), point_of(running)["waiting"]), (first, 2))
                expect("on the page", f'<dt>Call waiting since</dt><dd><time datetime="{first}">' in get(running, "/")[2], True)
                point.texts_of(accepted("0"))
                second = since(running)
                expect("once the first is in flight", (second > first, point_of(running)["waiting"]), (True, 1))
                point.texts_of(accepted("1"))
                expect("once both are sent", (since(running), seconds(running)), (None, None))
                until("the clock went on at last", lambda: state(running)["moment"] > second)
        with Running(program, SITE, data.path, has_status=True) as running:
            expect("behind a restart", first < since(running) <= second, True)
            with RawClient.connected(running, "/P1") as point:
                expect("its call again", len(point.texts_of(heartbeat("h"))), 2)
                point.texts_of(accepted("2"))
            expect("once it is confirmed", since(running), None)


def shown(program, running):
    """What `central status` says: its exit status, what it prints, and what it says on standard error."""
    words = [program, "status", "--url", f"http://127.0.0.1:{running.status_port}"]
    done = subprocess.run(words, capture_output=True, timeout=PATIENCE, check=False, env=ENVIRONMENT)
    return done.returncode, done.stdout.decode(), done.stderr.decode()


def as_a_table(program):
    with Data() as data, Running(program, SITE, data.path, has_status=True) as running:
        with RawClient.connected(running, "/P1") as point:
            point.texts_of(boot("b"))
            status, printed, said = shown(program, running)
            expect("how it ends", (status, said), (0, ""))
            lines = [re.split(r"  +", INSTANT.sub("AT", line)) for line in printed.splitlines()]
            expect("its head", lines[0], ["point", "connected since", "last text", "booted", "confirmed", "in flight since", "waiting", "waiting since", "rejected", "unheld"])
            expect("its points", lines[1:], [["P1", "AT", "AT", "AT", "0", "AT", "0", "-", "0", "0"], ["P2", "-", "-", "-", "0", "-", "1", "AT", "0", "0"]])
        nobody = free_port()
        for url, wanted in (("http://127.0.0.1", 3), (f"http://127.0.0.1:{nobody}", 3), (f"ws://127.0.0.1:{nobody}", 4), (f"http://127.0.0.1:{running.port}", 3)):
            done = subprocess.run([program, "status", "--url", url], capture_output=True, timeout=PATIENCE, check=False, env=ENVIRONMENT)
            if url != "http://127.0.0.1":  # there somebody may answer at port 80
                expect(f"the status of {url}", done.returncode, wanted)


def slow_clients(program):
    """They have five seconds. Beside them others are answered, and more than there are seats wait for one."""
    with Data() as data, Running(program, SITE, data.path, has_status=True) as running:
        address = ("127.0.0.1", running.status_port)
        slow = [socket.create_connection(address, PATIENCE) for _ in range(3)]
        for client in slow:
            client.send(b"GET /health HT")
        expect("beside three", get(running, "/health")[0], 200)
        began = time.monotonic()
        for client in slow:
            while client.recv(1_024):
                pass
            client.close()
        seconds = time.monotonic() - began
        expect(f"whether they end in time: {seconds:.1f}", seconds < LONGEST_STATUS + 3, True)
        silent = [socket.create_connection(address, PATIENCE) for _ in range(8)]
        expect("behind eight silent ones", get(running, "/health")[0], 200)
        for client in silent:
            client.close()


def five_at_once(program):
    """Each is answered, wholly."""
    with Data() as data, Running(program, SITE, data.path, has_status=True) as running:
        answers = []
        threads = [threading.Thread(target=lambda: answers.append(get(running, "/state.json")[0])) for _ in range(5)]
        for thread in threads:
            thread.start()
        for thread in threads:
            thread.join(PATIENCE)
        expect("the answers", answers, [200] * 5)


def full_device(program):
    """The site isn't well until there is room again."""
    with SmallDevice() as data:
        if data is None:
            return
        with Running(program, SITE, data.path, has_status=True) as running:
            expect("before", get(running, "/health")[::2], (200, "ok\n"))
            data.fill()
            with RawClient.connected(running, "/operator/P1") as operator:
                for number in range(1, 20):
                    answer = operator.texts_of(install("i", profile(number, [9] * 24, number)))
                    if answer != [accepted("i")]:
                        break
                expect("on a full device", get(running, "/health")[::2], (503, "device full\n"))
                expect("in the figures", metrics(running)["central_healthy"], 0)
                status, printed, _ = shown(program, running)
                expect("in the table", (status, printed.splitlines()[-1]), (2, "the site: device full"))
                data.has_room_again()
                until("there is room", lambda: get(running, "/health")[0] == 200)


def in_a_browser(program):
    """A page of twenty points fits a phone and a desk, has contrast, needs no script, and can be read aloud."""
    with Data() as data, Running(program, plain_site(41), data.path, has_status=True) as running:
        with RawClient.connected(running, "/operator/P1") as operator:
            operator.texts_of(install("i", profile(1, [7.0, 16.0, 9.0] * 8)))
        page = get(running, "/")[2]
        expect("the last page", re.findall(r"<h2>(\w+)</h2>", get(running, "/page/3")[2]), ["P41"])
        expect("one behind it", get(running, "/page/4")[0], 404)
    expect("its language", '<html lang="en">' in page, True)
    expect("a script", "<script" in page, False)
    expect("headings of points", re.findall(r"<h2>(\w+)</h2>", page), [f"P{number}" for number in range(1, 21)])
    expect("pictures with a name", (page.count("<svg"), page.count('<svg role="img" aria-label="The limit of ')), (40, 40))
    for scheme in schemes(page):
        for ink in ("ink", "soft", "link", "warning"):
            ratio = contrast(scheme[ink], scheme["paper"])
            expect(f"the contrast of {ink} in {scheme}: {ratio:.1f}", ratio >= 4.5, True)
    if browser() is None:
        print("  no browser here", file=sys.stderr)
        return
    for width in (400, 1_400):
        breadth, height, picture = seen_at(page, width)
        expect(f"its breadth at {width} pixels", breadth <= width, True)
        expect(f"its height at {width} pixels", height > 1_000, True)
        expect("what is drawn", len(shares_of_colours(picture)) > 10, True)


def status_for(running, host):
    """The status of a request for a host, or for none."""
    field = "" if host is None else f"Host: {host}\r\n"
    with socket.create_connection(("127.0.0.1", running.status_port), PATIENCE) as client:
        client.sendall(f"GET /health HTTP/1.{0 if host is None else 1}\r\n{field}\r\n".encode())
        return client.makefile("rb").readline().split()[1].decode()


def names_of_others(program):
    """A request is for this machine, and no web page's whose name leads here, unless the port is open to others."""
    own = ("127.0.0.1", "localhost:9", "LOCALHOST", "[::1]", "[::1]:9", "192.0.2.1", None)
    others = ("elsewhere.example", "elsewhere.example:9", "localhost.elsewhere.example", "127.0.0.1.elsewhere.example")
    for is_open in (False, True):
        with Data() as data, Running(program, SITE, data.path, has_status=True, is_status_open=is_open) as running:
            for host in (*own, f"127.0.0.1:{running.status_port}"):
                expect(f"for {host}", status_for(running, host), "200")
            for host in others:
                expect(f"for {host}", status_for(running, host), "200" if is_open else "421")


def refused_addresses(program):
    """Without a word for it the port is at this machine alone."""
    with Data() as data:
        words = ["run", "--data", data.path, "--listen", "127.0.0.1:0", "--status", "0.0.0.0:0"]
        with open(f"{data.folder.name}/site.json", "w", encoding="utf-8") as file:
            file.write(SITE)
        words += ["--site", file.name]
        done = subprocess.run([program, *words], capture_output=True, timeout=PATIENCE, check=False, env=ENVIRONMENT)
        said = "central: command line: without --status-open the status port is only on this machine, such as at 127.0.0.1:9100\n"
        expect("how it ends", (done.returncode, done.stderr.decode()), (4, said))


def standard_error_that_nobody_reads(program):
    """It holds nobody up, though more is said than a pipe holds."""
    with Data() as data, Running(program, SITE, data.path, has_status=True) as running:
        for number in range(400):
            with RawClient.connected(running, "/P1") as point:
                point.texts_of(error(str(number), "GenericError", "x" * 500))
                point.texts_of(heartbeat("h"))
        expect("the next answer", get(running, "/health")[0], 200)
        try:
            with RawClient.connected(running, "/P2") as point:
                expect("a point", point.texts_of(heartbeat("h"))[0][:7], '[3,"h",')
        except OSError as problem:
            raise Unexpected(f"a point isn't served: {problem}") from problem


def tests():
    yield "each path", each_path
    yield "figures that follow", figures_that_follow
    yield "a point that may have forgotten", point_that_may_have_forgotten
    yield "profiles after a boot", profiles_after_a_boot
    yield "changes beside boots", changes_beside_boots
    yield "replies that accept nothing", replies_that_accept_nothing
    yield "an audit that differs", an_audit_that_differs
    yield "boots over restarts", boots_over_restarts
    yield "boots on a full device", boots_on_a_full_device
    yield "boots of an earlier version", boots_of_an_earlier_version
    yield "calls that wait", calls_that_wait
    yield "as a table", as_a_table
    yield "slow clients", slow_clients
    yield "five at once", five_at_once
    yield "in a browser", in_a_browser
    yield "a full device", full_device
    yield "names of others", names_of_others
    yield "refused addresses", refused_addresses
    yield "standard error that nobody reads", standard_error_that_nobody_reads
