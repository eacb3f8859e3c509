"""Attacks by requests for schedules: the worst ones that are legal, many at once."""
import json
import time

from attack import RUN, Attack
from field import IS_PROVED, close_all
from raw_client import PING, PONG, TEXT, Frame
from serving import expect
from texts import MIDNIGHT, accepted, ask, install, start

# Longer than anybody may wait for the answer to a ping, in seconds.
LONGEST_PONG = 1.0


def zigzag(number):
    """A daily profile of 200 periods that begin where those of others don't, all above what the connector may draw."""
    periods = [{"startPeriod": place * 431 + number * 4, "limit": 40 + place % 2} for place in range(1, 200)]
    schedule = {"startSchedule": MIDNIGHT, "chargingRateUnit": "A", "chargingSchedulePeriod": [{"startPeriod": 0, "limit": 40}, *periods]}
    return {
        "chargingProfileId": 100 + number, "stackLevel": number, "chargingProfilePurpose": "TxDefaultProfile",
        "chargingProfileKind": "Recurring", "recurrencyKind": "Daily", "chargingSchedule": schedule,
    }


def prepare(field):
    """P2 charges at all of its connectors, and has a hundred profiles. The worst ask, which is one of a week at connector 0."""
    with field.stranger("/P2") as point:
        for connector in range(1, 65):
            expect("a start", point.texts_of(start(f"s{connector}", connector))[0][:3], "[3,")
            field.changes += 1
    with field.stranger() as operator:
        for number in range(field.size(100, 30) if IS_PROVED else 2):
            expect("an install", operator.texts_of(install("i", zigzag(number))), [accepted("i")])
            field.changes += 1
    return ask("worst", 0, 604_800 if IS_PROVED else 86_400)


def worst_asks(field):
    """Thirty operators ask at once and leave. Nobody compiles for them any more then, but for what was begun."""
    worst = prepare(field)
    field.witness.begin()
    began = time.monotonic()
    with field.stranger() as client:
        # A pong would come before the answer.
        client.send_text(worst)
        expect("an answer to the worst ask", json.loads(client.read_text())[2].get("status"), "Accepted")
        field.answers += 1
    alone = time.monotonic() - began
    field.witness.begin()
    clients = field.strangers(30 if IS_PROVED else 6)
    for client in clients:
        client.send_text(worst)
    time.sleep(max(field.seconds, min(2 * alone, 10)))
    close_all(clients)
    # What was begun ends.
    time.sleep(2 * alone + 0.5)
    used = field.server.processor_time()
    time.sleep(2)
    used = field.server.processor_time() - used
    field.tell(f"one alone takes {alone:.2f} s; in 2 s after they left {used / 100:.2f} s of the processor were used")
    expect(f"whether {used / 100:.2f} s of the processor are little", used < 60 or not IS_PROVED, True)


def more_asks_than_may_be_open(field):
    """More worst asks come at once than requests may be open. The last ones are told so, and short ones of others find room."""
    worst = prepare(field)
    clients = field.strangers(70)
    field.witness.begin()
    for client in clients:
        client.send_text(worst)
    # Those for which there is no room are told so at once, before any other is answered.
    if IS_PROVED:
        expect("what the last one is told", clients[-1].read_text(), '[4,"worst","InternalError","OutOfMemory",{}]')
    time.sleep(field.seconds)
    close_all(clients)


def pings_beside_an_ask(field):
    """A ping is answered while the session waits for a schedule."""
    worst = prepare(field)
    with field.stranger() as client:
        client.send_text(worst)
        began, waits, is_answered = time.monotonic(), [], False
        client.socket.settimeout(100)
        while not is_answered:
            sent = time.monotonic()
            client.send_frame(PING, b"beside")
            while True:
                frame = client.read_frame()
                is_answered = is_answered or (frame is not None and frame.opcode == TEXT)
                if frame is None or frame == Frame(PONG, b"beside"):
                    break
            expect("the session", frame is None, False)
            waits.append(time.monotonic() - sent)
        field.answers += 1
    field.tell(f"a pong takes up to {1_000 * max(waits):.0f} ms of {1_000 * (time.monotonic() - began):.0f}")
    expect(f"whether {max(waits):.2f} s for a pong are short", max(waits) < LONGEST_PONG or not IS_PROVED, True)


ATTACKS = (
    Attack("30 worst asks", "the workers, while somebody waits", "nothing is done for who is gone", worst_asks),
    Attack("70 worst asks", "those that find no room", "others find it", more_asks_than_may_be_open, (RUN,)),
    Attack("pings beside a worst ask", "nothing", "pongs within 1 s", pings_beside_an_ask),
)
