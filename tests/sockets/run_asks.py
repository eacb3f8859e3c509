"""Requests for schedules that take long, beside others: short ones pass them, pings are answered, and nobody's are dropped."""
import time

from raw_client import CLOSE, PING, PONG, Frame, RawClient
from run_data import Data, size, tell
from serving import Running, expect
from texts import CALL_0, MIDNIGHT, accepted, ask, clear, heartbeat, install, site, start

CONNECTORS, PERIODS, CROWD, DAY = 64, 200, 30, 86_400

# P1 has so many profiles, and is asked for so many days. Each request takes some tenths of a second, on a program that isn't
# proved some 3 seconds, and with `--large` as long as one can.
ROWS, DAYS = size((16, 31), (4, 1), (200, 31))

SITE = site({"P1": (1_000.0, [32.0] * CONNECTORS), "P2": (63.0, [32.0] * 2)})

# Seconds within which a request of a day is answered beside the longest ones, and a Heartbeat.
LONGEST_ASK, LONGEST_HEARTBEAT = 1.0, 0.1


def daily(row):
    """A daily profile whose limits all lie above the connectors' ceilings, so that the answer is one period."""
    purpose, level = ("TxDefaultProfile", row) if row < 100 else ("ChargePointMaxProfile", row - 100)
    least = 40 if row < 100 else 2_100
    periods = [{"startPeriod": row + step * 430, "limit": least + (row * 7 + step * 13) % 26} for step in range(PERIODS)]
    periods[0]["startPeriod"] = 0
    return {
        "chargingProfileId": row + 1, "stackLevel": level, "chargingProfilePurpose": purpose, "chargingProfileKind": "Recurring",
        "recurrencyKind": "Daily", "chargingSchedule": {
            "startSchedule": MIDNIGHT, "chargingRateUnit": "A", "chargingSchedulePeriod": periods,
        },
    }


def long_ask(number):
    return ask(f"long {number}", 0, DAYS * DAY)


def set_up(running):
    """Each connector of P1 charges, and the profiles stand at the whole point."""
    with RawClient.connected(running, "/P1") as point:
        for connector in range(1, CONNECTORS + 1):
            texts = point.texts_of(start(f"s{connector}", connector))
            expect("a start", texts[0][:4], '[3,"')
    with RawClient.connected(running, "/operator/P1") as operator:
        for row in range(ROWS):
            expect("an install", operator.texts_of(install("i", daily(row))), [accepted("i")])


class Waiting:
    """A crowd of operators of P1 whose long requests wait, and one more behind them."""

    def __init__(self, running):
        self.crowd = [RawClient.connected(running, "/operator/P1") for _ in range(CROWD)]
        for number, client in enumerate(self.crowd):
            client.send_text(long_ask(number))
        self.last = RawClient.connected(running, "/operator/P1")
        self.last.send_text(long_ask("last"))

    def leave(self):
        for client in (*self.crowd, self.last):
            client.socket.close()


class Site:
    """A site that is run, in which requests of P1 take long."""

    def __init__(self, program, more=()):
        self.program, self.more = program, more

    def __enter__(self):
        self.data = Data(in_memory=True)
        self.running = WithOptions(self.program, SITE, self.data.__enter__().path, self.more)
        self.running.__enter__()
        set_up(self.running)
        return self.running

    def __exit__(self, *problem):
        self.running.__exit__(*problem)
        self.data.__exit__(*problem)


class WithOptions(Running):
    """The same with more options."""

    def __init__(self, program, text, data, options):
        super().__init__(program, text, data)
        self.options = options

    def _command(self, path, address):
        return [*super()._command(path, address), *self.options]


def answered(client, text, message_id):
    """How long the answer to a message takes."""
    began = time.monotonic()
    client.send_text(text)
    expect("an answer", client.read_text()[: len(message_id) + 5], f'[3,"{message_id}"')
    return time.monotonic() - began


def others_beside_long_requests(program):
    """While 31 long requests wait, another operator's are answered, and heartbeats; a ping is answered before the long request."""
    with Site(program, ["--workers", "2"]) as running:
        waiting = Waiting(running)
        waiting.last.send_frame(PING, b"0")
        asks, beats = [], []
        with RawClient.connected(running, "/operator/P2") as operator, RawClient.connected(running, "/P2") as point:
            expect("call 0", point.texts_of(heartbeat("h"))[1:], [CALL_0])
            expect("its reply", point.texts_of(accepted("0")), [])
            for _ in range(size(20, 10, 100)):
                asks.append(answered(operator, ask("a", 1, DAY), "a"))
                beats.append(answered(point, heartbeat("h"), "h"))
                time.sleep(0.1)
            # The pong comes first, and then another one: the long request still waits.
            expect("what the last one reads", waiting.last.read_frame(), Frame(PONG, b"0"))
            waiting.last.send_frame(PING, b"1")
            expect("and then", waiting.last.read_frame(), Frame(PONG, b"1"))
            tell(f"beside {CROWD + 1} long requests: one of a day {max(asks):.3f} s at most, a Heartbeat {max(beats):.3f}")
            if size(False, False, True):
                expect("whether all were soon answered", max(asks) < LONGEST_ASK and max(beats) < LONGEST_HEARTBEAT, True)
        waiting.leave()


def requests_of_nobody(program):
    """Once all who asked have left, their requests aren't begun any more: little of the processor goes into them."""
    with Site(program) as running:
        with RawClient.connected(running, "/operator/P1") as operator:
            used = running.processor_time()
            answered(operator, long_ask(0), "long 0")
            cost = running.processor_time() - used
        waiting = Waiting(running)
        with RawClient.connected(running, "/operator/P2") as operator:
            answered(operator, ask("a", 1, DAY), "a")
        waiting.leave()
        used = running.processor_time()
        running.until_idle()
        spent = running.processor_time() - used
        tell(f"a long request takes {cost / 100:.2f} s of the processor; those of {CROWD + 1} who left took {spent / 100:.2f} s more")
        # Those that had begun may end; nobody's leaving is noticed for a second.
        expect(f"whether {spent} is little beside {cost} for each", spent < 5 * cost + 300, True)
        with RawClient.connected(running, "/operator/P1") as operator:
            answered(operator, long_ask(1), "long 1")


def messages_while_it_waits(program):
    """What comes while a long request waits is answered behind it, in its order, a ping too that comes behind a text. A client
    that closes isn't answered."""
    with Site(program) as running:
        waiting = Waiting(running)
        with RawClient.connected(running, "/operator/P1") as operator:
            for text in (long_ask("x"), ask("a", 1, 60), clear("c", id=9), ask("b", 1, 60)):
                operator.send_text(text)
            operator.send_frame(PING, b"behind")
            waiting.last.send_frame(CLOSE, b"\x03\xe8")
            expect("what a client that closes reads", waiting.last.read_frame(), Frame(CLOSE, b"\x03\xe8"))
            for client in waiting.crowd:
                client.socket.close()
            found = [operator.read_text()[:6] for _ in range(4)]
            expect("the answers", found, ['[3,"lo', '[3,"a"', '[3,"c"', '[3,"b"'])
            expect("what comes behind them", operator.read_frame(), Frame(PONG, b"behind"))
        waiting.leave()


def one_worker(program):
    """With one worker for each kind, a short request still passes a long one."""
    with Site(program, ["--workers", "1"]) as running:
        waiting = Waiting(running)
        with RawClient.connected(running, "/operator/P2") as operator:
            answered(operator, ask("a", 1, DAY), "a")
            waiting.last.send_frame(PING, b"0")
            expect("what the last one reads", waiting.last.read_frame(), Frame(PONG, b"0"))
        waiting.leave()


def tests():
    yield "others beside long requests", others_beside_long_requests
    yield "requests of nobody", requests_of_nobody
    yield "messages while it waits", messages_while_it_waits
    yield "one worker", one_worker
