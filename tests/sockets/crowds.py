"""Many sessions at once, and clients that take without giving or give without taking."""
import asyncio
import json
import re
import socket
import threading

from python_client import PythonClient
from raw_client import TEXT, RawClient, frame_bytes
from run_data import size
from serving import Serving, expect
from texts import (
    CALL_0, accepted, ask, call, clear, error, heartbeat, install, install_call, plain_site, profile, start, without_moment,
)

MOST_SESSIONS = 64
MOST_MEMORY = 300 * 1024  # kilobytes
# A text of the limit is held as it came, as it is handed on, and as it is read: some six megabytes a session.
MOST_MEMORY_OF_TEXTS = 400 * 1024
ROUNDS = 12

# A daily profile of 200 periods: asked for two days, it makes an answer of 400 periods, or of 401 where the ask begins
# within one: some 15,000 bytes.
LONG_PROFILE = profile(1, [6 + number % 2 * 4 for number in range(200)], kind="Recurring", step=432, recurrencyKind="Daily")
LONG_ASK = 172_800
# So many of these answers are more than a socket takes in: some fifteen megabytes, or half of it where nothing is proved.
LONG_ASKS = size(1_000, 500, 1_000)


def periods_of(answer):
    """The periods of a composite schedule."""
    return json.loads(answer)[2]["chargingSchedule"]["chargingSchedulePeriod"]


def greedy_operator(serving):
    """An operator of P1 that takes little in at a time, after it installed the long profile."""
    client = RawClient.connected(serving, "/operator/P1", receive_buffer=4_096)
    expect("the install", client.texts_of(install("i", LONG_PROFILE)), [accepted("i")])
    return client


async def point_of_a_crowd(serving, name, all_are_open, all_are_done):
    """A point that sends its texts and replies to its calls, until one call for each round was confirmed, and call 0."""
    client = await PythonClient.connected(serving, f"/ocpp/{name}")
    await all_are_open.wait()
    confirmed, texts = 0, await client.texts_of(start("start"))
    expect("the start", re.sub(r"\d+}", "N}", texts[0]), '[3,"start",{"idTagInfo":{"status":"Accepted"},"transactionId":N}]')
    number = int(re.search(r'"transactionId":(\d+)', texts[0])[1])
    while confirmed < ROUNDS + 1:
        if texts[-1].startswith("[2,"):
            expect("the number of the next call", json.loads(texts[-1])[1], str(confirmed))
            texts, confirmed = await client.texts_of(accepted(str(confirmed))), confirmed + 1
        else:
            texts = []
        texts = texts or await client.texts_of(heartbeat("beat"))
        expect("the answer", texts[0].startswith("[2,") or without_moment(texts[0]) == '[3,"beat",{}]', True)
    stop = call("stop", "StopTransaction", {"transactionId": number})
    expect("the stop", await client.texts_of(stop), ['[3,"stop",{}]'])
    await all_are_done.wait()
    await client.close()
    return number


async def operator_of_a_crowd(serving, name, all_are_open, all_are_done):
    """An operator that installs and asks in turn, and has what it installed itself in each answer."""
    client = await PythonClient.connected(serving, f"/operator/{name}")
    await all_are_open.wait()
    for number in range(ROUNDS):
        expect("an install", await client.texts_of(install("i", profile(1, [number]))), [accepted("i")])
        answer = (await client.texts_of(ask("a", 2)))[0]
        expect("an ask", periods_of(answer), [{"startPeriod": 0, "limit": number}])
    expect("a clear of nothing", await client.texts_of(clear("c", id=9)), ['[3,"c",{"status":"Unknown"}]'])
    await all_are_done.wait()
    await client.close()


async def crowd(program):
    """64 sessions at once, with bounded memory, and totals that are exact."""
    site, pairs = plain_site(MOST_SESSIONS // 2), MOST_SESSIONS // 2
    with Serving(program, site, MOST_SESSIONS, workers=8) as serving:
        all_are_open, all_are_done = Meeting(MOST_SESSIONS), Meeting(MOST_SESSIONS)
        names = [f"P{number}" for number in range(1, pairs + 1)]
        points = [point_of_a_crowd(serving, name, all_are_open, all_are_done) for name in names]
        operators = [operator_of_a_crowd(serving, name, all_are_open, all_are_done) for name in names]
        all_are_done.at_last = serving.peak_memory
        numbers = (await asyncio.gather(*points, *operators))[:pairs]
        expect("the numbers of the transactions", sorted(numbers), list(range(1, pairs + 1)))
        expect(f"{all_are_done.found} kB of memory are at most {MOST_MEMORY}", all_are_done.found <= MOST_MEMORY, True)
        expect("the totals", serving.totals(), (pairs * (ROUNDS + 2), pairs * ROUNDS))


class Meeting:
    """Where so many wait for one another; the last to come looks at something."""

    def __init__(self, count):
        self.missing, self.at_last, self.found = count, None, None
        self.all_came = asyncio.Event()

    async def wait(self):
        self.missing -= 1
        if self.missing == 0:
            self.found = self.at_last() if self.at_last else None
            self.all_came.set()
        await asyncio.wait_for(self.all_came.wait(), 100)


def longest_texts_at_once(program):
    """64 sessions that each send a text of the limit at once keep the memory bounded, too."""
    site = plain_site(MOST_SESSIONS)
    text = call("long", "Heartbeat", {"pad": "x" * 1_048_000})
    with Serving(program, site, MOST_SESSIONS) as serving:
        clients = [RawClient.connected(serving, f"/P{number}") for number in range(1, MOST_SESSIONS + 1)]
        content = frame_bytes(TEXT, text.encode())
        senders = [threading.Thread(target=client.send_bytes, args=(content,)) for client in clients]
        for sender in senders:
            sender.start()
        for sender in senders:
            sender.join()
        for client in clients:
            expect("the answer", [without_moment(text) for text in client.texts_now()], ['[3,"long",{}]', CALL_0])
        memory = serving.peak_memory()
        for client in clients:
            client.close()
        expect("the totals", serving.totals(), (0, 0))
        expect(f"{memory} kB of memory are at most {MOST_MEMORY_OF_TEXTS}", memory <= MOST_MEMORY_OF_TEXTS, True)


def one_that_reads_nothing(program):
    """A client that sends many texts and reads nothing keeps nobody waiting; later it reads all answers, in order.

    Its answers are more than a socket takes in: its session waits, and reads no more texts.
    """
    with Serving(program, plain_site(2), 4) as serving, greedy_operator(serving) as greedy:
        asks = b"".join(frame_bytes(TEXT, ask(str(number), 1, LONG_ASK).encode()) for number in range(LONG_ASKS))
        sender = threading.Thread(target=greedy.send_bytes, args=(asks,))
        sender.start()
        serving.until_idle()
        others_are_answered(serving, 1)
        for number in range(LONG_ASKS):
            answer = greedy.read_text()
            expect("the id of an answer", json.loads(answer)[1], str(number))
            periods = len(periods_of(answer))
            expect(f"{periods} periods are 400, or one more", periods in (400, 401), True)
        sender.join()
        greedy.close()
        expect("the totals", serving.totals(), (2, LONG_ASKS + 1))


def others_are_answered(serving, periods):
    """An operator of the same point, its point, and another point are answered."""
    with RawClient.connected(serving, "/operator/P1") as operator, RawClient.connected(serving, "/P1") as point:
        expect("the point", [without_moment(text) for text in point.texts_of(heartbeat("1"))], ['[3,"1",{}]', CALL_0])
        expect("the operator's install", operator.texts_of(install("i", profile(2, [7], 1), 2)), [accepted("i")])
        expect("the operator's ask", len(periods_of(operator.texts_of(ask("a", 2, 60))[0])), periods)
        expect("the point's next call", point.texts_of(accepted("0")), [install_call(1, with_tenths(LONG_PROFILE))])
        operator.close()
        point.close()
    with RawClient.connected(serving, "/P2") as other:
        expect("another point", [without_moment(text) for text in other.texts_of(heartbeat("1"))], ['[3,"1",{}]', CALL_0])
        other.close()


def with_tenths(fields):
    """A profile as a call has it: each limit with one digit behind the point, and the fields in the standard's order."""
    schedule = fields["chargingSchedule"]
    periods = [{**period, "limit": float(period["limit"])} for period in schedule["chargingSchedulePeriod"]]
    return {**fields, "chargingSchedule": {**schedule, "chargingSchedulePeriod": periods}}


def one_that_leaves_all(program):
    """A client that sends many texts, reads nothing and leaves: its session ends, the program too, and no call is lost."""
    with Serving(program, plain_site(2), 5) as serving:
        with greedy_operator(serving) as greedy:
            asks = b"".join(frame_bytes(TEXT, ask(str(number), 1, LONG_ASK).encode()) for number in range(LONG_ASKS))
            greedy.send_bytes(asks)
            serving.until_idle()
            others_are_answered(serving, 1)
        with RawClient.connected(serving, "/P1") as point:
            texts = [without_moment(text) for text in point.texts_of(heartbeat("2"))]
            expect("the call that was in flight", texts, ['[3,"2",{}]', install_call(1, with_tenths(LONG_PROFILE))])
            point.close()
        changes, answers = serving.totals()
        expect("the changes", changes, 2)
        expect(f"{answers} answers are at most {LONG_ASKS + 1}, one at least", 1 <= answers <= LONG_ASKS + 1, True)


def a_point_that_reads_late(program):
    """A point that sends a thousand texts before it reads keeps its operator from nothing; then it reads all answers."""
    with Serving(program, plain_site(1), 2) as serving, RawClient.connected(serving, "/P1", receive_buffer=4_096) as point:
        point.socket.setsockopt(socket.SOL_SOCKET, socket.SO_SNDBUF, 4_096)
        texts = b"".join(frame_bytes(TEXT, call("x" * 36, "Foo", {"pad": "y" * 3_000}).encode()) for _ in range(1_000))
        sender = threading.Thread(target=point.send_bytes, args=(texts,))
        sender.start()
        serving.until_idle()
        with RawClient.connected(serving, "/operator/P1") as operator:
            for number in range(50):
                expect("an install", operator.texts_of(install("i", profile(1, [float(number)]))), [accepted("i")])
            operator.close()
        answers = calls = 0
        while answers < 1_000:
            text = point.read_text()
            calls += text == CALL_0
            answers += text == error("x" * 36, "NotImplemented")
        sender.join()
        expect("texts after the last answer", point.texts_now(), [CALL_0] if calls == 0 else [])
        point.close()
        expect("the totals", serving.totals(), (50, 0))


def tests():
    yield "64 sessions", crowd
    yield "64 texts of the limit", longest_texts_at_once
    yield "a client that reads nothing", one_that_reads_nothing
    yield "a client that reads nothing and leaves", one_that_leaves_all
    yield "a point that reads late", a_point_that_reads_late
