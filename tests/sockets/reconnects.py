"""Reconnects of a point: no call is lost, and calls go out over its newest link alone."""
import socket
import struct

from python_client import PythonClient
from raw_client import TEXT, RawClient, frame_bytes
from serving import Serving, expect, until
from texts import CALL_0, accepted, heartbeat, install, install_call, plain_site, profile, without_moment

SITE = plain_site(2)
POINT, OPERATOR = "/ocpp/P1", "/operator/P1"


def install_numbered(number):
    return install(f"i{number}", profile(number, [6.0 + number]))


def call_numbered(number):
    """The call that the install of this number becomes, where it is the change of this number."""
    return install_call(number, profile(number, [6.0 + number]))


def answer_of(message_id):
    return f'[3,"{message_id}",{{}}]'


def beat(client, message_id):
    """What a Heartbeat brings, without the present moment."""
    return [without_moment(text) if text.startswith("[3,") else text for text in client.texts_of(heartbeat(message_id))]


def installed(serving, count):
    """An operator installs so many profiles, and leaves."""
    with RawClient.connected(serving, OPERATOR) as client:
        for number in range(1, count + 1):
            expect(f"install {number}", client.texts_of(install_numbered(number)), [accepted(f"i{number}")])
        client.close()


def with_call_in_flight(serving):
    """A point to which call 1 is in flight, the first of two installs; call 0 is confirmed."""
    client = RawClient.connected(serving, POINT)
    expect("the first text", beat(client, "a"), [answer_of("a"), CALL_0])
    expect("after call 0", client.texts_of(accepted("0")), [call_numbered(1)])
    expect("with call 1 in flight", beat(client, "b"), [answer_of("b")])
    return client


def goes_on(client):
    """Call 1 goes again as itself, then call 2, and then nothing."""
    expect("the first text anew", beat(client, "c"), [answer_of("c"), call_numbered(1)])
    expect("with call 1 in flight again", beat(client, "d"), [answer_of("d")])
    expect("after call 1", client.texts_of(accepted("1")), [call_numbered(2)])
    expect("after call 2", client.texts_of(accepted("2")), [])
    client.close()


def reconnect(end):
    """A test: after such an end of a session the call in flight goes again over the next one."""
    def test(program):
        with Serving(program, SITE, 3) as serving:
            installed(serving, 2)
            client = with_call_in_flight(serving)
            end(client)
            with RawClient.connected(serving, POINT) as again:
                goes_on(again)
            client.socket.close()
            expect("the totals", serving.totals(), (2, 0))
    return test


def by_close(client):
    client.close()


def by_end_of_stream(client):
    client.socket.close()


def by_shutdown(client):
    """The point writes no more, and waits for the server's end."""
    client.socket.shutdown(socket.SHUT_WR)
    expect("the end of the stream", client.read_frame(), None)


def by_reset(client):
    """The stream is reset, as it is where a point loses its power."""
    client.socket.setsockopt(socket.SOL_SOCKET, socket.SO_LINGER, struct.pack("ii", 1, 0))
    client.socket.close()


def in_a_frame(client):
    client.send_bytes(frame_bytes(TEXT, accepted("1").encode())[:-3])
    client.socket.close()


def in_a_header(client):
    client.send_bytes(frame_bytes(TEXT, accepted("1").encode())[:3])
    client.socket.close()


def between_parts(client):
    client.send_frame(TEXT, accepted("1").encode(), is_final=False)
    client.socket.close()


def by_breach(client):
    """The point breaks the protocol."""
    client.send_bytes(frame_bytes(TEXT, accepted("1").encode(), is_masked=False))
    client.is_ended_for_a_breach()


def by_nothing(_):
    """The old session lives on, and says nothing more: its end comes after that of the next one."""


def reply_lost(program):
    """A reply that comes whole before the end of the stream confirms its call."""
    with Serving(program, SITE, 3) as serving:
        installed(serving, 2)
        client = with_call_in_flight(serving)
        client.send_text(accepted("1"))
        expect("the next call", client.read_text(), call_numbered(2))
        client.socket.close()
        with RawClient.connected(serving, POINT) as again:
            expect("the first text anew", beat(again, "c"), [answer_of("c"), call_numbered(2)])
            expect("after call 2", again.texts_of(accepted("2")), [])
            again.close()
        expect("the totals", serving.totals(), (2, 0))


def two_at_once(program):
    """Of two sessions of a point the later has the link: the earlier is answered, is sent no call, and confirms none."""
    with Serving(program, SITE, 3) as serving:
        installed(serving, 2)
        first = with_call_in_flight(serving)
        with RawClient.connected(serving, POINT) as second:
            expect("nothing by itself", second.texts_now(), [])
            expect("the earlier session", beat(first, "e"), [answer_of("e")])
            expect("the later session", beat(second, "f"), [answer_of("f"), call_numbered(1)])
            expect("a reply over the earlier", first.texts_of(accepted("1")), [])
            expect("the later still waits", beat(second, "g"), [answer_of("g")])
            first.close()
            expect("a reply over the later", second.texts_of(accepted("1")), [call_numbered(2)])
            expect("after call 2", second.texts_of(accepted("2")), [])
            second.close()
        expect("the totals", serving.totals(), (2, 0))


def earlier_ends_later(program):
    """The end of the earlier session takes nothing from the later one, whose call in flight doesn't go again."""
    with Serving(program, SITE, 3) as serving:
        installed(serving, 2)
        first = with_call_in_flight(serving)
        with RawClient.connected(serving, POINT) as second:
            expect("the later session", beat(second, "f"), [answer_of("f"), call_numbered(1)])
            threads = serving.threads()
            first.socket.close()
            until("the thread of the earlier session has ended", lambda: serving.threads() < threads)
            expect("the later, with call 1 in flight", beat(second, "g"), [answer_of("g")])
            expect("a reply over the later", second.texts_of(accepted("1")), [call_numbered(2)])
            expect("after call 2", second.texts_of(accepted("2")), [])
            second.close()
        expect("the totals", serving.totals(), (2, 0))


def many_times(program):
    """A point that comes and goes forty times, in all ways, is sent the same call each time, and misses none."""
    ends = (by_close, by_end_of_stream, by_reset, in_a_frame, by_shutdown)
    with Serving(program, SITE, 42) as serving:
        installed(serving, 2)
        for number in range(40):
            client = RawClient.connected(serving, POINT)
            expect(f"time {number}", beat(client, "a"), [answer_of("a"), CALL_0])
            ends[number % len(ends)](client)
        with RawClient.connected(serving, POINT) as last:
            expect("the first text", beat(last, "a"), [answer_of("a"), CALL_0])
            expect("after call 0", last.texts_of(accepted("0")), [call_numbered(1)])
            expect("after call 1", last.texts_of(accepted("1")), [call_numbered(2)])
            expect("after call 2", last.texts_of(accepted("2")), [])
            last.close()
        expect("the totals", serving.totals(), (2, 0))


def full_outbox(program):
    """256 calls that wait refuse the next change, until the point confirms one."""
    with Serving(program, SITE, 2) as serving, RawClient.connected(serving, OPERATOR) as operator:
        for _ in range(255):
            expect("an install", operator.texts_of(install_numbered(1)), [accepted("i1")])
        refused = '[3,"i1",{"status":"Rejected","reason":"OutboxFull"}]'
        expect("one more", operator.texts_of(install_numbered(1)), [refused])
        with RawClient.connected(serving, POINT) as point:
            expect("the first text", beat(point, "a"), [answer_of("a"), CALL_0])
            expect("while call 0 is in flight", operator.texts_of(install_numbered(1)), [refused])
            expect("after call 0", len(point.texts_of(accepted("0"))), 1)
            expect("after a reply", operator.texts_of(install_numbered(1)), [accepted("i1")])
            expect("and then again", operator.texts_of(install_numbered(1)), [refused])
            point.close()
        operator.close()
        expect("the totals", serving.totals(), (256, 0))


def ends_while_an_answer_waits(program):
    """An operator that leaves without its schedule takes nothing with it: others are answered still."""
    with Serving(program, SITE, 10) as serving:
        for _ in range(9):
            with RawClient.connected(serving, OPERATOR) as client:
                for number in range(100):
                    client.send_text(f'[2,"{number}","GetCompositeSchedule",{{"connectorId":1,"duration":2678400}}]')
                by_reset(client)
        with RawClient.connected(serving, OPERATOR) as client:
            answers = client.texts_of('[2,"last","GetCompositeSchedule",{"connectorId":1,"duration":60}]')
            expect("the last ask", answers[0].startswith('[3,"last",{"status":"Accepted"'), True)
            client.close()
        changes, answers = serving.totals()
        expect("changes", changes, 0)
        expect("answers are at most what was asked", 1 <= answers <= 901, True)


async def with_the_library(program):
    """A point of Python's library that closes and connects anew is sent the call again."""
    with Serving(program, SITE, 3) as serving:
        operator = await PythonClient.connected(serving, OPERATOR)
        expect("the install", await operator.texts_of(install_numbered(1)), [accepted("i1")])
        for _ in range(2):
            point = await PythonClient.connected(serving, POINT)
            expect("the first text", (await point.texts_of("x")), [CALL_0])
            await point.close()
        await operator.close()
        expect("the totals", serving.totals(), (1, 0))


def tests():
    for end in (by_close, by_end_of_stream, by_shutdown, by_reset, in_a_frame, in_a_header, between_parts, by_breach, by_nothing):
        yield f"an end {end.__name__}", reconnect(end)
    yield "a reply before the end", reply_lost
    yield "two sessions of a point", two_at_once
    yield "the end of the earlier of two sessions", earlier_ends_later
    yield "a point that comes and goes", many_times
    yield "a full outbox", full_outbox
    yield "operators that don't wait for their schedules", ends_while_an_answer_waits
    yield "a point of Python's library", with_the_library
