"""Attacks by texts: JSON of each odd shape, line breaks, the longest ones on all seats, and answers that nobody reads."""
import contextlib
import threading
import time

from attack import RUN, SERVE, Attack
from field import IS_PROVED, UNREADING, all_are_cut_off, close_all, in_threads
from raw_client import CONTINUATION, TEXT, frame_bytes
from run_crowds import filled, is_hostile
from serving import expect
from texts import accepted, ask, call, install, profile

# Characters and elements of a long text. What isn't proved is too slow for the longest ones.
LONG = 1_000_000 if IS_PROVED else 50_000


def of_payload(payload):
    """A Heartbeat with this payload, which is no object of its fields, or has more."""
    return f'[2,"odd","Heartbeat",{payload}]'


def many(form, count):
    return ",".join(form.format(number) for number in range(count))


# Each is at most as long as a message that is read.
ODD_TEXTS = (
    of_payload('{"a":' + "[" * 120 + "]" * 120 + "}"),
    of_payload('{"a":' + "[" * 200 + "]" * 200 + "}"),
    "[" * LONG,
    '{"a":' * (LONG // 5),
    of_payload('{"a":' * (LONG // 10) + "0" + "}" * (LONG // 10)),
    of_payload("{" + many('"k{0}":0', LONG // 12) + "}"),
    of_payload("{" + many('"k":0', LONG // 6) + "}"),
    *([filled('{"":0}'), filled('"\\n"'), filled("[]")] if IS_PROVED else []),
    of_payload('{"a":' + "9" * LONG + "}"),
    of_payload('{"a":1e' + "9" * LONG + "}"),
    of_payload('{"a":0.' + "0" * LONG + "1}"),
    of_payload('{"a":"' + "\\u0000" * (LONG // 6) + '"}'),
    of_payload('{"a":"' + "\0" * LONG + '"}'),
    of_payload('{"a":"' + "\\ud800" * (LONG // 6) + '"}'),
    of_payload('{"a":"' + "\u20ac" * (LONG // 3) + '"}'),
    '[2,"' + "i" * LONG + '","Heartbeat",{}]',
    '[2,"odd","' + "A" * LONG + '",{}]',
    '[3,"' + "0" * LONG + '",{}]',
    '[4,"0","' + "x" * LONG + '","",{}]',
    "\ufeff" + of_payload("{}"),
    "\0" * LONG,
    "",
)


def odd_json(field):
    """Four clients send all of them. Each is answered, refused or dropped, and its session goes on."""
    end = time.monotonic() + field.seconds
    ended = threading.Event()

    def odd(number):
        with field.stranger() as client:
            for text in ODD_TEXTS[number:] + ODD_TEXTS[:number]:
                expect(f"how many texts come of {text[:40]!r}", len(client.texts_of(text)) <= 1, True)
                if time.monotonic() > end and (field.is_short or ended.is_set()):
                    return
            ended.set()
            expect("it is served", client.texts_of(call("s", "PointStatus"))[0][:7], '[3,"s",')

    in_threads(4, odd)


def line_breaks(field):
    """Valid messages with a million line breaks behind, some of which are noted: each of these in one line of the journal."""
    breaks, lock = "\n" * LONG, threading.Lock()
    unknown = '[2,"u","ClearChargingProfile",{"id":9}' + breaks + "]"
    noted = install("n", profile(1, [9]))[:-1] + breaks + "]"
    end, left = time.monotonic() + field.seconds, [field.size(40, 6)]

    def one(number):
        with field.stranger() as client:
            while time.monotonic() < end:
                expect("a clear of nothing", client.texts_of(unknown)[:1], ['[3,"u",{"status":"Unknown"}]'])
                with lock:
                    left[0] -= 1
                    is_due = left[0] >= 0
                if is_due:
                    expect("an install", client.texts_of(noted), [accepted("n")])
                    with lock:
                        field.changes += 1
                        field.accepted.append(noted.replace("\n", "\t"))

    in_threads(4, one)
    field.tell(f"{field.changes} of them are in the journal")


def ask_with_long_answer(field):
    """An ask of three days at a point with a daily fuse of 24 limits: its answer has some 72 periods."""
    fuse = profile(1, [10, 11] * 12, purpose="ChargePointMaxProfile", kind="Recurring", recurrencyKind="Daily")
    with field.stranger() as operator:
        expect("an install", operator.texts_of(install("fuse", fuse)), [accepted("fuse")])
    field.changes += 1
    return ask("x" * 36, duration=3 * 86_400)


def unread_answers(field):
    """Clients on all seats that ask on and on, and read nothing: `run` closes them 10 seconds after there is no room for an answer.

    Of `run` they want long answers: it answers each of them 80 times a second, and a system with BBR as its congestion control takes
    in half a megabyte for each before a write waits. `serve` counts its schedules, so of it they ask what it doesn't count.
    """
    text = call("x" * 36, "PointStatus") if field.door == "serve" else ask_with_long_answer(field)
    block = frame_bytes(TEXT, text.encode()) * 200
    clients = field.strangers(field.seats if IS_PROVED else 32, **UNREADING)
    sent, began = [0] * len(clients), time.monotonic()
    for client in clients:
        client.socket.setblocking(False)
    while time.monotonic() < began + field.seconds:
        for number, client in enumerate(clients):
            with contextlib.suppress(OSError):
                # What is sent in part goes on where it stopped: otherwise the session would end for a breach of the protocol.
                sent[number] += client.socket.send(block[sent[number] % len(block):])
    if not field.is_short and field.door != "serve":
        all_are_cut_off(clients, began, 40)
        field.serves_a_newcomer(5)
    close_all(clients)


def hostile_seats(field):
    """Clients on all seats send the longest messages, each of another shape, and then one of which the last bytes never come."""
    clients = field.strangers(field.size(field.seats, 24))
    faults = []
    in_threads(len(clients), lambda number: is_hostile(clients[number], number, faults))
    expect("clients that weren't answered", faults, [])
    time.sleep(field.seconds)
    close_all(clients)


def unfinished(field):
    """Clients on all seats have messages of the longest length that are never finished."""
    clients = field.strangers(field.size(field.seats, 64) if IS_PROVED else 32)
    for client in clients:
        client.socket.settimeout(1)
        try:
            client.send_frame(TEXT, bytes(1_048_000), is_final=False)
            client.send_bytes(frame_bytes(CONTINUATION, bytes(576))[:-10])
        except OSError:
            continue  # it waits for its turn, or was closed for another
    time.sleep(field.seconds)
    close_all(clients)


ATTACKS = (
    Attack("JSON of odd shapes", "processor time", "answered, refused or dropped", odd_json, (RUN, SERVE)),
    Attack("a million line breaks", "room in the journal", "answered; one line each", line_breaks, (RUN, SERVE)),
    Attack("answers that nobody reads", "all seats, for 10 s", "closed", unread_answers, (RUN, SERVE)),
    Attack("the longest messages on all seats", "processor time and memory", "answered", hostile_seats, (RUN,), needs_proof=True),
    Attack("unfinished messages on all seats", "all seats, at most 30 s", "the others are served", unfinished, (RUN,)),
)
