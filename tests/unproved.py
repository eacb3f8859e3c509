#!/usr/bin/env python3
"""unproved.py: every test and case without a proof. `tests/run --unproved` calls it.

It builds the program without a proof, and runs on it what the gate runs on the proved one, beside the tests of the crates, which
are compiled as one (tests/one_crate.py), and programs of tests, each of which has to print its file `stdout`. Two things run at a
time. Not run are the proofs, the mutants, the package and allocations that fail. The last line is 'N passed, M failed', and the one
before it says that nothing was proved.
"""
import os
import re
import shutil
import subprocess
import sys
import tempfile
import threading
import time

import one_crate

TOP = os.path.dirname(os.path.dirname(os.path.realpath(__file__)))
PROGRAM = os.path.join(TOP, "packaging", "out", "central")
LANES = 2
# Seconds that one test of the crates may take where all processors are busy.
LONGEST = "1200"
# Tests that would take an hour without a proof, and what they do instead.
FEWER = (
    ("test_books/books_at_random.rt", "for seed in 0..10_000u32", "for seed in 0..100u32"),
    ("test_core/forgetting_point.rt", "for _ in 0..100_000u32", "for _ in 0..1_000u32"),
)
# The longest first, so that no lane is left with one at the end.
LONG = ("run_histories", "crowds", "runs", "run_kills", "run_deadlines", "run_crowds", "replays")
SUBJECT = re.compile(r'^    "(\w+)": \w+,$', re.MULTILINE)
TOTALS = re.compile(r"^(\d+) passed, (\d+) failed$|^test result: \w+\. (\d+) passed; (\d+) failed;", re.MULTILINE)


class Task:
    """A command, whose output ends with totals, and whether it needs the built program."""

    def __init__(self, name, words, folder=TOP, needs_program=False):
        self.name, self.words, self.folder, self.needs_program = name, words, folder, needs_program

    def run(self):
        """How many passed and failed, and what was printed."""
        done = self.done(subprocess.STDOUT)
        printed = done.stdout.decode(errors="replace")
        found = TOTALS.findall(printed)
        passed, failed = (int(found[-1][place] or found[-1][place + 2]) for place in (0, 1)) if found else (0, 0)
        if done.returncode and not failed:
            failed = 1
        return passed, failed, printed

    def done(self, errors, given=os.devnull):
        with open(given, "rb") as file:
            return subprocess.run(
                self.words, cwd=self.folder, env={**os.environ, "UNPROVED": "1"}, stdin=file, stdout=subprocess.PIPE,
                stderr=errors, check=False,
            )


class Played(Task):
    """A program of tests: what it prints of its file `stdin` stands in its file `stdout`."""

    def run(self):
        done = self.done(subprocess.PIPE, os.path.join(self.folder, "stdin"))
        with open(os.path.join(self.folder, "stdout"), "rb") as file:
            wanted = file.read()
        if done.stdout == wanted and not done.returncode:
            return 1, 0, ""
        lines = zip(done.stdout.split(b"\n") + [b"(end)"], wanted.split(b"\n") + [b"(end)"])
        differs = next((f"{line!r}, wanted {other!r}" for line, other in lines if line != other), "")
        return 0, 1, f"status {done.returncode}, {differs}\n{done.stderr.decode(errors='replace')}"


def with_fewer_turns(folder):
    for name, line, fewer in FEWER:
        path = os.path.join(folder, "crates", one_crate.NAME, "src", name)
        text = one_crate.read(path)
        if text.count(line) != 1:
            sys.exit(f"tests/unproved.py: {name} has no line '{line}'")
        one_crate.write(path, text.replace(line, fewer))


def subjects():
    """Those of the sockets, the longest first."""
    names = SUBJECT.findall(one_crate.read(os.path.join(TOP, "tests", "sockets", "suite.py")))
    return sorted(names, key=lambda name: LONG.index(name) if name in LONG else len(LONG))


def programs_of_tests(folder):
    """Each crate that is a program beside `central`."""
    crates = os.path.join(folder, "crates")
    named = one_crate.LINES.findall(one_crate.read(os.path.join(folder, "crates.txt")))
    return [name for name, _ in named if name != "central" and os.path.isfile(os.path.join(crates, name, "src", "main.rt"))]


def tasks_over(folder):
    """All tasks, in the order in which they are begun where they can be."""
    crates = os.path.join(folder, "crates")
    tests = ["rt", "try", "--test", "--seconds", LONGEST]
    played = ["rt", "try", "--seconds", LONGEST]
    return [
        Task("packaging/build", ["packaging/build"]),
        Task("tests of the crates", tests, os.path.join(crates, one_crate.NAME)),
        *(Played(name, played, os.path.join(crates, name)) for name in programs_of_tests(folder)),
        Task("tests/program.py", ["tests/program.py", PROGRAM], needs_program=True),
        *(Task(f"sockets: {name}", ["tests/sockets/run", PROGRAM, name], needs_program=True) for name in subjects()),
        Task("tests/pages.py", ["tests/pages.py", PROGRAM], needs_program=True),
        Task("tests/documents.py", ["tests/documents.py"]),
    ]


class Lanes:
    """The tasks that are left, and the totals of those that have ended."""

    def __init__(self, tasks):
        self.left, self.passed, self.failed = list(tasks), 0, 0
        self.has_program = None
        self.changed = threading.Condition()

    def next_task(self):
        """The first that can begin; none where none is left."""
        with self.changed:
            while self.left:
                for task in self.left:
                    if not task.needs_program or self.has_program is not None:
                        self.left.remove(task)
                        return task
                self.changed.wait()
            return None

    def end(self, task, passed, failed, printed, seconds):
        with self.changed:
            if task.name == "packaging/build":
                self.has_program = not failed
            if failed:
                print(printed.rstrip("\n"))
            totals = f"{passed} passed, {failed} failed" if passed or failed else "done"
            print(f"{task.name}: {totals}, in {seconds:.0f} seconds", flush=True)
            self.passed, self.failed = self.passed + passed, self.failed + failed
            self.changed.notify_all()

    def work(self):
        while task := self.next_task():
            began = time.monotonic()
            if task.needs_program and not self.has_program:
                result = 0, 1, "there is no program"
            else:
                result = task.run()
            self.end(task, *result, time.monotonic() - began)


def main():
    if len(sys.argv) > 1:
        sys.exit(__doc__)
    if not shutil.which("rt"):
        sys.exit("tests/run --unproved: there is no rt here; docs/WORKING.md says which kit it belongs to")
    print("tests/run --unproved: nothing is proved by it; it takes up to half an hour on 2 processors", flush=True)
    began = time.monotonic()
    with tempfile.TemporaryDirectory(prefix="central-unproved-") as folder:
        one_crate.copied_sources(TOP, folder)
        with_fewer_turns(folder)
        lanes = Lanes(tasks_over(folder))
        threads = [threading.Thread(target=lanes.work, daemon=True) for _ in range(LANES)]
        for thread in threads:
            thread.start()
        for thread in threads:
            thread.join()
    print(f"NOTHING WAS PROVED, in {time.monotonic() - began:.0f} seconds: tests/run proves it.")
    print(f"{lanes.passed} passed, {lanes.failed} failed")
    sys.exit(1 if lanes.failed else 0)


main()
