"""suite.py [--large] PROGRAM [SUBJECT..]: runs the tests of all subjects, or of some. The last line is 'N passed, M failed'.

With --large those of `run_` are as large as they may be, and tell what they measured.
Where the environment has UNPROVED, nothing is proved of the program, and the tests of NEED_A_PROOF are left out.
"""
import asyncio
import inspect
import os
import sys
import time

import audits
import crowds
import days
import endings
import fleet
import handshakes
import messages
import node_clients
import programs
import proxies
import reconnects
import refusals
import replays
import run_asks
import run_calls
import run_crowds
import run_deadlines
import run_histories
import run_keys
import run_kills
import run_status
import runs
from node_client import NodeClient

SUBJECTS = {
    "handshakes": handshakes,
    "messages": messages,
    "days": days,
    "replays": replays,
    "reconnects": reconnects,
    "crowds": crowds,
    "node_clients": node_clients,
    "endings": endings,
    "programs": programs,
    "runs": runs,
    "run_histories": run_histories,
    "run_kills": run_kills,
    "run_asks": run_asks,
    "run_calls": run_calls,
    "run_crowds": run_crowds,
    "run_deadlines": run_deadlines,
    "run_keys": run_keys,
    "run_status": run_status,
    "proxies": proxies,
    "fleet": fleet,
    "audits": audits,
    "refusals": refusals,
}

# What takes a program that is proved: others are too slow, have no thread to spare, or can't be
# refused an allocation.
NEED_A_PROOF = {
    ("messages", "a message past the limit"), ("runs", "the longest message"), ("crowds", "64 texts of the limit"), ("endings", "no threads"),
    ("run_crowds", "idle seats"), ("run_crowds", "unfinished messages"), ("run_crowds", "hostile seats"),
    *(("refusals", name) for name, _ in refusals.tests()),
}

# No test takes a tenth of it on a machine that is busy.
LONGEST_TEST = 720.0 if "UNPROVED" in os.environ else 240.0


async def run_in_loop(test, program):
    try:
        await asyncio.wait_for(test(program), LONGEST_TEST)
    finally:
        await NodeClient.end_all()


def problem_of(test, program):
    """Runs a test. What was seen and wanted where it fails, else None."""
    try:
        if inspect.iscoroutinefunction(test):
            asyncio.run(run_in_loop(test, program))
        else:
            test(program)
    except Exception as fault:  # whatever ends a test is its failure
        return f"{type(fault).__name__}: {fault}"
    return None


def main():
    words = [word for word in sys.argv[1:] if word != "--large"]
    if not words or any(name not in SUBJECTS for name in words[1:]):
        sys.exit(f"{__doc__}\nsubjects: {', '.join(SUBJECTS)}")
    if len(words) < len(sys.argv) - 1:
        os.environ["LARGE"] = "1"
    program = os.path.abspath(words[0])
    passed = failed = 0
    for subject in words[1:] or SUBJECTS:
        began = time.monotonic()
        for name, test in SUBJECTS[subject].tests():
            if "UNPROVED" in os.environ and (subject, name) in NEED_A_PROOF:
                print(f"{subject}: {name}: left out, since the program isn't proved", flush=True)
                continue
            problem = problem_of(test, program)
            if problem is None:
                passed += 1
            else:
                failed += 1
                print(f"{subject}: {name}: {problem}", flush=True)
        print(f"{subject}: {time.monotonic() - began:.1f} s", flush=True)
    print(f"{passed} passed, {failed} failed")
    sys.exit(1 if failed else 0)


main()
