"""Audits: a point is asked for the schedule that it follows, and its reply is compared with what the central system means."""
import subprocess
import tempfile

from programs import PROFILE, SITE, TX_PROFILE, operator, point, run
from raw_client import RawClient
from serving import ENVIRONMENT, PATIENCE, Serving, expect
from texts import CALL_0, accepted, call, error, heartbeat, install, profile, rejected, result, start

POINT, OPERATOR = "/P1", "/operator/P1"
# Enough for three calls, each of which goes out behind a message of the point.
BEATS = b"heartbeat\n" * 6


def audit(connector=1, duration=60):
    return call("a", "AuditPoint", {"connectorId": connector, "duration": duration})


def audit_call(number, connector=1, duration=60):
    """The call of this number that an audit becomes."""
    fields = {"connectorId": connector, "duration": duration, "chargingRateUnit": "A"}
    return call(str(number), "GetCompositeSchedule", fields)


def status_of(audit_outcome, version, outbox, message_id="s"):
    return result(message_id, {"status": "Accepted", "version": version, "outbox": outbox, "audit": audit_outcome})


def schedule_reply(number, periods, **more):
    """A point's reply to an audit's call; `more` are fields of its schedule."""
    entries = [{"startPeriod": begin, "limit": limit} for begin, limit in periods]
    schedule = {"duration": 60, "chargingRateUnit": "A", "chargingSchedulePeriod": entries, **more}
    head = {"status": "Accepted", "connectorId": 1, "scheduleStart": "2025-01-01T00:00:08Z"}
    return result(str(number), {**head, "chargingSchedule": schedule})


class Desk:
    """An operator and a point that has answered call 0 and the install of a default of 16.0 A as call 1."""

    def __init__(self, serving):
        self.operator = RawClient.connected(serving, OPERATOR)
        self.point = RawClient.connected(serving, POINT)
        self.version = 1
        self.next_call = 2
        expect("the install", self.operator.texts_of(install("i", profile(1, [16.0]))), [accepted("i")])
        expect("call 0", self.point.texts_of(heartbeat("h"))[1:], [CALL_0])
        self.point.texts_of(accepted("0"))
        self.point.texts_of(accepted("1"))

    def __enter__(self):
        return self

    def __exit__(self, kind, *_):
        if kind is None:
            self.operator.close()
            self.point.close()

    def status(self, outcome, outbox=0):
        texts = self.operator.texts_of(call("s", "PointStatus"))
        expect("the status", texts, [status_of(outcome, self.version, outbox)])

    def begin(self, **asked):
        """Begins an audit. Its call comes behind a message of the point."""
        expect("the audit", self.operator.texts_of(audit(**asked)), [accepted("a")])
        number = self.next_call
        self.next_call += 1
        expect("its call", self.point.texts_of(heartbeat("h"))[1:], [audit_call(number, **asked)])
        self.status("Waiting", 1)
        return number

    def judged(self, reply_to, outcome, **asked):
        """A new audit is replied to, and has this outcome."""
        number = self.begin(**asked)
        expect("behind the reply", self.point.texts_of(reply_to(number)), [])
        self.status(outcome)


def simulated_in_step(program):
    """A simulated point that has what was installed agrees, and `call` tells it."""
    with Serving(program, SITE, 3) as serving, tempfile.NamedTemporaryFile("w", suffix=".json") as payload:
        payload.write(PROFILE)
        payload.flush()
        given = operator(serving, "--status", "--audit", "1", "60", "--set-profile", payload.name)
        lines = (accepted("set-profile"), accepted("audit"), status_of("Waiting", 1, 3, "status"))
        expect("what call sends", given, (0, "".join(f"{line}\n" for line in lines).encode(), b""))
        status, out, error_text = point(serving, BEATS)
        expect("the point's end", (status, error_text), (0, b""))
        expect("it got the audit's call", f"got {audit_call(2)}\n".encode() in out, True)
        expect("it is asked", operator(serving, "--status"), (0, f'{status_of("Agrees", 1, 0, "status")}\n'.encode(), b""))
        expect("the totals", serving.totals(), (1, 0))


def simulated_that_forgot(program):
    """A simulated point that was restarted has no profile, and differs. Its profile is installed anew, and it agrees."""
    def told(*options):
        return operator(serving, *options)[1].decode().splitlines()[-1]

    with Serving(program, SITE, 8) as serving, tempfile.NamedTemporaryFile("w", suffix=".json") as payload:
        payload.write(PROFILE)
        payload.flush()
        expect("the install", told("--set-profile", payload.name), accepted("set-profile"))
        point(serving, BEATS)
        expect("the audit", told("--audit", "1", "60"), accepted("audit"))
        point(serving, BEATS)
        expect("after a restart", told("--status"), status_of("Differs", 1, 0, "status"))
        told("--set-profile", payload.name, "--audit", "1", "60")
        point(serving, BEATS)
        expect("installed anew", told("--status"), status_of("Agrees", 2, 0, "status"))
        expect("the totals", serving.totals(), (2, 0))


def simulated_of_another_unit(program):
    """A simulated point that was set up in watts can't answer a central system that asks in amperes."""
    with Serving(program, SITE, 3) as serving, tempfile.NamedTemporaryFile("w", suffix=".json") as site:
        site.write(SITE.replace('"A"', '"W"'))
        site.flush()
        expect("the audit", operator(serving, "--audit", "1", "60")[0], 0)
        words = ["point", "--url", f"ws://127.0.0.1:{serving.port}", "--site", site.name, "--id", "P1"]
        expect("the point's end", run(program, words, BEATS)[0], 0)
        expect("it is asked", operator(serving, "--status")[1].decode(), f'{status_of("Rejected", 0, 0, "status")}\n')
        expect("the totals", serving.totals(), (0, 0))


def simulated_after_a_remote_start(program):
    """A simulated point that was asked to start with a profile has it, as the central system has."""
    with Serving(program, SITE, 4) as serving, tempfile.NamedTemporaryFile("w", suffix=".json") as files:
        files.write(TX_PROFILE)
        files.flush()
        expect("the remote start", operator(serving, "--remote-start", "1", "T1", files.name)[0], 0)
        with tempfile.NamedTemporaryFile("w", suffix=".json") as site:
            site.write(SITE)
            site.flush()
            words = ["point", "--url", f"ws://127.0.0.1:{serving.port}", "--site", site.name, "--id", "P1"]
            with subprocess.Popen([program, *words], stdin=subprocess.PIPE, stdout=subprocess.PIPE, env=ENVIRONMENT) as process:
                process.stdin.write(BEATS)
                process.stdin.flush()
                while b"StartTransaction" not in process.stdout.readline():
                    pass
                while b'"transactionId":1' not in process.stdout.readline():
                    pass
                expect("the audit", operator(serving, "--audit", "1", "60")[0], 0)
                out, _ = process.communicate(BEATS, timeout=PATIENCE)
                expect("the profile in its reply", b'{"startPeriod":0,"limit":6.0}' in out, True)
        expect("it is asked", operator(serving, "--status")[1].decode(), f'{status_of("Agrees", 1, 0, "status")}\n')
        expect("the totals", serving.totals(), (1, 0))


def verdicts(program):
    """What each kind of reply comes to."""
    with Serving(program, SITE, 2) as serving:
        with Desk(serving) as desk:
            every_verdict(desk)
        expect("the totals", serving.totals(), (1, 0))


def every_verdict(desk):
    desk.status("None")
    for periods, outcome in (
        ([(0, 16.0)], "Agrees"),
        ([(0, 16.0), (30, 16.0)], "Agrees"),
        ([(0, 15.9)], "Differs"),
        ([(0, 16.0), (59, 15.9)], "Differs"),
        ([(1, 16.0)], "Unsettled"),
        ([(0, 16.0), (60, 16.0)], "Unsettled"),
        ([(0, 16.0), (9, 16.0), (9, 16.0)], "Unsettled"),
        ([(0, 16.05)], "Unsettled"),
        ([], "Unsettled"),
    ):
        desk.judged(lambda number, said=periods: schedule_reply(number, said), outcome)
    desk.judged(lambda number: schedule_reply(number, [(0, 16.0)], duration=10), "Agrees")
    desk.judged(lambda number: schedule_reply(number, [(0, 16.0), (10, 1.0)], duration=10), "Unsettled")
    desk.judged(lambda number: schedule_reply(number, [(0, 16.0)], chargingRateUnit="W"), "Unsettled")
    # As many periods as an answer may have, and one more; the last one is within the audit's time.
    for count, last, outcome in ((4_096, 16.0, "Agrees"), (4_096, 15.9, "Differs"), (4_097, 16.0, "Unsettled")):
        periods = [*((begin, 16.0) for begin in range(count - 1)), (count - 1, last)]
        desk.judged(lambda number, said=periods, count=count: schedule_reply(number, said, duration=count), outcome, duration=count)
    desk.judged(lambda number: result(str(number), {"status": "Rejected"}), "Rejected")
    desk.judged(lambda number: result(str(number), {"status": "accepted"}), "Rejected")
    desk.judged(lambda number: error(str(number), "NotSupported"), "Rejected")
    desk.judged(lambda number: result(str(number), {"status": "Accepted"}), "Unsettled")


def one_at_a_time(program):
    """While an audit's call isn't confirmed there is no other; then a new one takes its place."""
    with Serving(program, SITE, 2) as serving:
        with Desk(serving) as desk:
            for asked, reason in (((3, 60), "UnknownConnector"), ((1, 0), "BadDuration"), ((1, 2_678_401), "BadDuration")):
                expect(reason, desk.operator.texts_of(audit(*asked)), [rejected("a", reason)])
            number = desk.begin()
            expect("behind a reply to another call", desk.point.texts_of(accepted("0")), [])
            desk.status("Waiting", 1)
            expect("another", desk.operator.texts_of(audit(2, 9)), [rejected("a", "AuditOpen")])
            expect("of nothing", desk.operator.texts_of(audit(3, 9)), [rejected("a", "UnknownConnector")])
            desk.point.texts_of(schedule_reply(number, [(0, 15.0)]))
            desk.status("Differs")
            number = desk.begin(connector=0, duration=9)
            desk.point.texts_of(result(str(number), {"status": "Rejected"}))
            desk.status("Rejected")
            # A second reply to the same call changes nothing.
            desk.point.texts_of(schedule_reply(number, [(0, 15.0)]))
            desk.status("Rejected")
        expect("the totals", serving.totals(), (1, 0))


def changes_between(program):
    """What is installed after the audit has no part in it. A start makes it unsettled."""
    with Serving(program, SITE, 2) as serving:
        with Desk(serving) as desk:
            number = desk.begin()
            expect("an install", desk.operator.texts_of(install("i", profile(1, [7.0]))), [accepted("i")])
            desk.version += 1
            desk.next_call += 1
            expect("its call", len(desk.point.texts_of(schedule_reply(number, [(0, 16.0)]))), 1)
            desk.status("Agrees", 1)
            desk.point.texts_of(accepted(str(number + 1)))
            number = desk.begin()
            expect("a start", len(desk.point.texts_of(start("t"))), 1)
            desk.version += 1
            desk.point.texts_of(schedule_reply(number, [(0, 7.0)]))
            desk.status("Unsettled")
            desk.judged(lambda number: schedule_reply(number, [(0, 7.0)]), "Agrees")
        expect("the totals", serving.totals(), (3, 0))


def another_connection(program):
    """A point that comes back is asked again; its reply over the connection before counts no more."""
    with Serving(program, SITE, 3) as serving:
        with Desk(serving) as desk:
            number = desk.begin()
            before, desk.point = desk.point, RawClient.connected(serving, POINT)
            expect("asked again", desk.point.texts_of(heartbeat("h"))[1:], [audit_call(number)])
            before.texts_of(schedule_reply(number, [(0, 15.0)]))
            desk.status("Waiting", 1)
            before.close()
            desk.point.texts_of(schedule_reply(number, [(0, 16.0)]))
            desk.status("Agrees")
        expect("the totals", serving.totals(), (1, 0))


def tests():
    yield "a simulated point in step", simulated_in_step
    yield "a simulated point that forgot", simulated_that_forgot
    yield "a simulated point of another unit", simulated_of_another_unit
    yield "a simulated point after a remote start", simulated_after_a_remote_start
    yield "what replies come to", verdicts
    yield "one audit at a time", one_at_a_time
    yield "changes between an audit and its reply", changes_between
    yield "a reply over another connection", another_connection
