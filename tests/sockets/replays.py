"""Each message of the cases of `replay` (examples too) once through sessions, compared with what the program replays of it."""
import contextlib
import json
import os
import re
import sys
import time

sys.path.append(os.path.dirname(os.path.dirname(os.path.abspath(__file__))))
from case_folders import all_cases
from days import Told, compare
from raw_client import RawClient
from serving import Serving, Unexpected

LINE = re.compile(rb"\S+ (operator|point) (\S+) (.*)")

# A profile that counts from its install has its moment from the server, which no answer tells: where a second began
# meanwhile, the case is tried again.
TRIES = 4


def texts_of(script, points):
    """The texts of operators and points in a script: who sends it, for which point, what. Other lines are left out."""
    for line in script.split(b"\n"):
        found = LINE.fullmatch(line.removesuffix(b"\r"))
        with contextlib.suppress(UnicodeDecodeError):
            if found and found[2].decode() in points and len(found[3]) <= 1_048_576:
                yield found[1].decode(), found[2].decode(), found[3].decode()


def play(program, site, texts):
    """What each text brings, through a session for each sender."""
    senders = sorted({(sender, point) for sender, point, _ in texts})
    with contextlib.ExitStack() as stack:
        serving = stack.enter_context(Serving(program, site, len(senders)))
        clients = {}
        for sender, point in senders:
            path = f"/operator/{point}" if sender == "operator" else f"/{point}"
            clients[sender, point] = stack.enter_context(RawClient.connected(serving, path))
        told = []
        for sender, point, text in texts:
            began = time.time()
            told.append(Told(sender, point, text, clients[sender, point].texts_of(text), began))
        for client in clients.values():
            client.close()
        serving.totals()
    return told


def played_as_replayed(program, case):
    with open(case.site, encoding="utf-8") as file:
        site = file.read()
    points = {point["id"] for point in json.loads(site)["points"]}
    texts = list(texts_of(case.script, points))
    if not texts:
        return
    for attempt in range(TRIES):
        try:
            compare(program, site, play(program, site, texts))
            return
        except Unexpected:
            if attempt == TRIES - 1:
                raise


def tests():
    for case in all_cases():
        # Over sockets comes what stands on standard input.
        if case.words[0] == "replay" and "--script" not in case.words:
            yield case.name, lambda program, case=case: played_as_replayed(program, case)
