"""Node's library `ws` as a client: handshakes, a day, reconnects, messages of every kind, and a crowd."""
import asyncio

from node_client import NodeClient
from python_client import PythonClient
from serving import Serving, expect
from texts import (
    CALL_0, OCPP, accepted, ask, call, error, heartbeat, install, install_call, plain_site, profile, start, without_moment,
)

SITE = plain_site(12)


async def handshakes(program):
    """`ws` is given the subprotocol where it offers it; it takes no connection without one; strangers are closed."""
    no_subprotocol = {"failed": "Server sent no subprotocol"}
    for path, offers, wanted in (
        ("/P1", ["ocpp2.0.1", OCPP], [{"open": OCPP}]),
        ("/ocpp/P9", ["ocpp2.0.1", OCPP, "x"], [{"open": OCPP}]),
        ("/P13", [OCPP], [{"open": OCPP}, {"closed": 1008}]),
        ("/operator/P1/", [OCPP], [{"open": OCPP}, {"closed": 1008}]),
        ("/P1", [], [{"open": ""}, {"closed": 1008}]),
        ("/P1", ["ocpp2.0.1"], [no_subprotocol, {"closed": 1006}]),
        ("/P1", ["OCPP1.6"], [no_subprotocol, {"closed": 1006}]),
    ):
        with Serving(program, SITE, 1) as serving:
            client = await NodeClient.started(serving, path, offers)
            expect(f"events of {path} with {offers}", [await client.event() for _ in wanted], wanted)
            if len(wanted) == 1:
                await client.close()
            else:
                await client.ended()
            expect("the totals", serving.totals(), (0, 0))


async def day(program):
    """A point and its operator, both of `ws`: an install that becomes a call, a start, an ask."""
    fields = profile(1, [16.0])
    with Serving(program, SITE, 2) as serving:
        point = await NodeClient.connected(serving, "/ocpp/P1")
        operator = await NodeClient.connected(serving, "/operator/P1")
        expect("the install", await operator.texts_of(install("a", fields)), [accepted("a")])
        begun = await point.texts_of(start("s", 2))
        expect("the start", begun, ['[3,"s",{"idTagInfo":{"status":"Accepted"},"transactionId":1}]', CALL_0])
        expect("after call 0", await point.texts_of(accepted("0")), [install_call(1, fields)])
        answer = (await operator.texts_of(ask("b", 0, 60)))[0]
        expect("the ask", answer.endswith('"chargingSchedulePeriod":[{"startPeriod":0,"limit":16.0}]}}]'), True)
        expect("after call 1", await point.texts_of(error("1", "InternalError")), [])
        await operator.close()
        await point.close()
        expect("the totals", serving.totals(), (2, 1))


async def reconnects(program):
    """A point of `ws` whose process is killed, one that closes, and one beside: the call in flight goes again."""
    with Serving(program, SITE, 4) as serving:
        killed = await NodeClient.connected(serving, "/P1")
        expect("the first text", await killed.texts_of("x"), [CALL_0])
        killed.process.kill()
        await killed.process.wait()
        closed = await NodeClient.connected(serving, "/P1")
        expect("after the killed one", await closed.texts_of("x"), [CALL_0])
        await closed.close()
        first = await NodeClient.connected(serving, "/P1")
        expect("after the closed one", await first.texts_of("x"), [CALL_0])
        second = await PythonClient.connected(serving, "/P1")
        expect("the later session before its text", await second.texts_now(), [])
        expect("the earlier session", await first.texts_of("x"), [])
        expect("the later session", await second.texts_of("x"), [CALL_0])
        await first.close()
        await second.close()
        expect("the totals", serving.totals(), (0, 0))


async def messages(program):
    """Fragments, binary messages, letters of all kinds, and a text of the limit."""
    with Serving(program, SITE, 1) as serving:
        client = await NodeClient.connected(serving, "/P1")
        await client.order({"binary": heartbeat("1")})
        expect("texts of a binary message", await client.texts_now(), [])
        await client.order({"fragments": ['[2,"grö', 'ßer €","Foo', '",{}', "]"]})
        expect("texts of fragments", await client.texts_now(), [error("größer €", "NotImplemented"), CALL_0])
        letters = "蓄電池 🔋"
        expect("texts of others' letters", await client.texts_of(call(letters, "Foo")), [error(letters, "NotImplemented")])
        for length, wanted in ((1_048_576, ['[3,"1",{}]']), (1_048_577, [])):
            text = call("1", "Heartbeat", {"pad": ""})
            text = call("1", "Heartbeat", {"pad": "x" * (length - len(text))})
            expect(f"texts of {length} bytes", [without_moment(answer) for answer in await client.texts_of(text)], wanted)
        await client.close()
        expect("the totals", serving.totals(), (0, 0))


async def crowd(program):
    """Twelve points of `ws`, each a process of its own, at once."""
    async def point(serving, number):
        client = await NodeClient.connected(serving, f"/P{number}")
        expect("the first text", await client.texts_of("x"), [CALL_0])
        for turn in range(20):
            text = (await client.texts_of(heartbeat(str(turn))))[0]
            expect("an answer", without_moment(text), f'[3,"{turn}",{{}}]')
        await client.close()

    with Serving(program, SITE, 12) as serving:
        await asyncio.gather(*(point(serving, number) for number in range(1, 13)))
        expect("the totals", serving.totals(), (0, 0))


def tests():
    yield "handshakes", handshakes
    yield "a day", day
    yield "reconnects", reconnects
    yield "messages", messages
    yield "twelve points", crowd
