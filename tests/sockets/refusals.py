"""Allocations that are refused to one session: it is told so, or ends, and other sessions go on.

A point's session and an operator's wait for messages. Then one of the operator's allocations is
refused (`tests/refuse_allocation.c`), or all from that one on.
"""
import json
import os
import subprocess
import tempfile

from raw_client import PING, PONG, TEXT, RawClient
from serving import Serving, Unexpected, expect
from texts import (
    CALL_0, accepted, ask, error, heartbeat, install, install_call, plain_site, profile,
    without_moment,
)

SITE = plain_site(2)
OPERATOR = "/operator/P1"
TESTS = os.path.dirname(os.path.dirname(os.path.abspath(__file__)))
SOURCE = os.path.join(TESTS, "refuse_allocation.c")
ALL = 1_000_000

FIRST, SECOND = profile(1, [16.0]), profile(2, [10.0], level=1)
SHORT = error("a", "InternalError", "OutOfMemory")


def answer_of(message_id):
    return f'[3,"{message_id}",{{}}]'


def periods_of(text):
    """The periods of an answer that is a schedule."""
    payload = json.loads(text)[2]
    periods = payload.get("chargingSchedule", {}).get("chargingSchedulePeriod", [])
    return [(period["startPeriod"], period["limit"]) for period in periods]


def schedules(texts):
    return [periods_of(text) for text in texts]


def beat(client, message_id):
    """What a Heartbeat brings, without the present moment."""
    return [without_moment(text) for text in client.texts_of(heartbeat(message_id))]


def texts_or_end(client, text):
    """The texts that a text brings, and whether the session is open behind them."""
    texts = []
    try:
        client.send_text(text)
        client.send_frame(PING, b"still there")
    except OSError:
        return texts, False
    while True:
        frame = client.read_frame()
        if frame is None or frame.opcode != TEXT:
            return texts, frame is not None and frame.opcode == PONG
        texts.append(frame.payload.decode())


class Refusing:
    """The library that refuses allocations, and the file while which is there they are."""

    def __enter__(self):
        self.folder = tempfile.TemporaryDirectory()
        self.library = os.path.join(self.folder.name, "refuse_allocation.so")
        self.sign = os.path.join(self.folder.name, "sign")
        command = ["cc", "-O2", "-shared", "-fPIC", "-o", self.library, SOURCE, "-ldl"]
        subprocess.run(command, check=True)
        return self

    def __exit__(self, *_):
        self.folder.cleanup()

    def environment(self, number, in_a_row):
        return {
            "LD_PRELOAD": self.library,
            "REFUSED_WHILE_THERE": self.sign,
            "REFUSED_ALLOCATION": str(number),
            "REFUSED_IN_A_ROW": str(in_a_row),
            "REFUSED_TO_ONE_THREAD": "",
        }

    def texts_of(self, client, text):
        """What a text brings meanwhile, and whether the session is open behind it."""
        with open(self.sign, "wb"):
            seen = texts_or_end(client, text)
        os.remove(self.sign)
        return seen


def refused_once(program, refusing, number, in_a_row, text):
    """An operator's text, of whose allocations this one is refused. What it brings, whether its
    session is open behind it, and whether an install was made. Other sessions are served as ever."""
    environment = refusing.environment(number, in_a_row)
    with Serving(program, SITE, 3, environment=environment) as serving:
        with RawClient.connected(serving, "/P1") as point, RawClient.connected(serving, OPERATOR) as operator:
            expect("the first text of the point", beat(point, "1"), [answer_of("1"), CALL_0])
            expect("its reply", point.texts_of(accepted("0")), [])
            expect("the first schedule", schedules(operator.texts_of(ask("0"))), [[(0, 32.0)]])
            texts, is_open = refusing.texts_of(operator, text)
            is_made = others_go_on(serving, point)
            if is_open:
                expect("the session", operator.texts_of(install("c", SECOND)), [accepted("c")])
                operator.close()
            operator.socket.close()
            point.close()
        changes, answers = serving.totals()
    expect("the changes", changes, 1 + is_made + is_open)
    # The last one is counted also where its session ended before it was sent.
    expect("whether the answers are counted", answers in (2, 3), True)
    return texts, is_open, is_made


def others_go_on(serving, point):
    """The point's session and another operator's do their work. Whether an install was made before."""
    told = beat(point, "2")
    expect("the next text of the point", told[:1], [answer_of("2")])
    is_made = len(told) == 2
    if is_made:
        expect("the call of the point", told[1:], [install_call(1, FIRST)])
        expect("its reply", point.texts_of(accepted("1")), [])
    with RawClient.connected(serving, OPERATOR) as other:
        expect("another install", other.texts_of(install("b", SECOND)), [accepted("b")])
        expect("another schedule", schedules(other.texts_of(ask("b"))), [[(0, 10.0)]])
        other.close()
    wanted = [answer_of("3"), install_call(2 if is_made else 1, SECOND)]
    expect("the call of the other install", beat(point, "3"), wanted)
    return is_made


def is_short_install(texts, is_open, is_made):
    """Whether an install was short of memory: refused for it, or the session ended."""
    if texts == [accepted("a")]:
        expect("whether the install was made", is_made, True)
        return not is_open
    if texts == [SHORT]:
        expect("whether the install was made", is_made, False)
    else:
        expect("the texts, and whether the session is open", (texts, is_open), ([], False))
    return True


def is_short_ask(texts, is_open, is_made):
    """The same of an ask. A schedule is the one of what the point has."""
    expect("whether an install was made", is_made, False)
    if texts == [SHORT]:
        return True
    if texts:
        expect("the schedule", schedules(texts), [[(0, 32.0)]])
        return not is_open
    expect("whether the session is open", is_open, False)
    return True


def refused(text, is_short, in_a_row):
    """A test: each allocation of a text is refused in turn, until three in a row have no effect."""
    def test(program):
        short = unshort = 0
        with Refusing() as refusing:
            for number in range(1, 200):
                was_short = is_short(*refused_once(program, refusing, number, in_a_row, text))
                short, unshort = short + was_short, 0 if was_short else unshort + 1
                if unshort == 3:
                    break
        if short < 3:
            raise Unexpected(f"only {short} of the runs were short of memory")
    return test


def tests():
    for in_a_row, name in ((1, "one allocation"), (ALL, "all allocations from one on")):
        yield f"{name} of an install", refused(install("a", FIRST), is_short_install, in_a_row)
        yield f"{name} of an ask", refused(ask("a"), is_short_ask, in_a_row)
