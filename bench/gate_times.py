#!/usr/bin/env python3
"""gate_times.py COMMAND..: runs a command, as `rt ci`, prints what it prints, how far it is, and then where its time went.

Behind each line that says that a crate is proved, or kept from an earlier run, stands one that says how far the run is:
crates done of all, minutes of wall time and of processors, and what is at work.

The table at the end has a row for each crate: processor minutes of its proof, of its tests' proof and of its must-fail
edits, and of the edits how many there are. It is got by looking twice a second at the prover's processes below the
command, so a figure may be a second short for each process. Machines differ, so the sum is also told by the clock on
which the proof of `transactions` takes CLOCK minutes, if that was proved in this run.

Ends with the command's own status, or with 1 where that is 0, every crate was proved in this run, nothing was kept from
an earlier one, and the sum by that clock is above MOST. A machine's speed may change by half within a run. So a small work of
always the same size is timed throughout, and the sum is told once more with those changes taken out: both have to be above.
"""
import collections
import itertools
import os
import re
import statistics
import subprocess
import sys
import threading
import time

# Processor minutes from nothing, by that clock, with all that is planned. CI ends a run at 180 minutes, perhaps on two
# cores on which `transactions` takes twice as long: 120 x 2 / 2 are 120 minutes, and the rest is for empty lanes and for
# the tests behind the gate.
BUDGET = 120
# A run above this fails. The clock is one proof early in the run: where others use the machine, it differs by up to a quarter.
MOST = 1.25 * BUDGET
# The proof of `transactions` took 0.5 on this clock before its derived Debugs went, and takes 0.44 since: of two pairs of
# checks, each pair one behind the other, those with them took 79 and 48 seconds, and those without 69 and 43.
CLOCK = 0.44

CRATES = os.listdir(os.path.join(os.path.dirname(os.path.dirname(os.path.abspath(__file__))), "crates"))
TICKS = os.sysconf("SC_CLK_TCK")
PARTS = ("proof", "tests", "edits", "other")
DONE = re.compile(r"rt: (\w+) (proved|NOT PROVED|is kept)\b")
KEPT = re.compile(r"rt: .*\b(is kept:|kept from earlier runs|by an earlier run)")


def processes():
    """Each process that runs now: its number, its parent's, and the seconds of processor time that it has used."""
    for name in os.listdir("/proc"):
        if not name.isdigit():
            continue
        try:
            with open(f"/proc/{name}/stat", encoding="utf-8", errors="replace") as file:
                fields = file.read().rpartition(")")[2].split()
        except OSError:
            continue
        yield int(name), int(fields[1]), (int(fields[11]) + int(fields[12])) / TICKS, fields[19]


def words_of(process):
    try:
        with open(f"/proc/{process}/cmdline", "rb") as file:
            return file.read().decode(errors="replace").split("\0")
    except OSError:
        return []


def is_edit(process):
    """An edit is tried in a folder of its own."""
    try:
        return "/rt-edit-" in os.readlink(f"/proc/{process}/cwd")
    except OSError:
        return False


def place_of(process):
    """The crate and the part of the gate that a process of the prover works for, or None for another process."""
    words = words_of(process)
    if "--crate-name" not in words[:-1]:
        return None
    crate = words[words.index("--crate-name") + 1]
    if is_edit(process):
        return crate, "edits"
    if crate not in CRATES:  # a crate with its tests is named after it
        return crate.removesuffix("_tests"), "tests"
    return crate, "tests" if "--test" in words else "proof"


class Watch(threading.Thread):
    """Keeps the last processor time that was seen of each process below the command."""

    def __init__(self, command):
        super().__init__(daemon=True)
        self.command, self.places, self.used, self.ended = command, {}, {}, threading.Event()
        self.running, self.paces = set(), []
        # The processor time of each place, in works of the size of `pace`.
        self.works = collections.Counter()

    def look(self):
        all_now = list(processes())
        below, found = {self.command}, True
        while found:
            found = {process for process, parent, _, _ in all_now if parent in below} - below
            below |= found
        running = set()
        for process, _, used, began in all_now:
            if process not in below:
                continue
            key = (process, began)
            if self.places.get(key) is None:
                self.places[key] = place_of(process)
            self.works[self.places[key]] += (used - self.used.get(key, 0)) / self.pace()
            self.used[key] = used
            running.add(self.places[key])
        self.running = running - {None}

    def pace(self):
        """The processor seconds that a small work takes at present, as a rule over the last minute."""
        return statistics.median(self.paces[-12:])

    def run(self):
        for turn in itertools.count():
            if turn % 10 == 0:
                self.paces.append(seconds_of_work())
            self.look()
            if self.ended.wait(0.5):
                return


def seconds_of_work():
    """The processor time that a small work takes, always the same: it fills and sorts memory, as the prover does."""
    began = time.thread_time()
    sorted(str(number * 7_919 % 20_011) for number in range(20_000))
    return time.thread_time() - began


class Heard:
    """What the command said so far."""

    def __init__(self, words):
        names = [word for word in words if word in CRATES]
        self.all, self.done, self.proved = len(crates_below(names)), set(), set()
        self.has_kept = False

    def hear(self, line):
        """Takes a line, and returns whether a crate is done by it."""
        self.has_kept = self.has_kept or KEPT.match(line) is not None
        found = DONE.match(line)
        if found:
            self.done.add(found[1])
        if found and found[2] == "proved":
            self.proved.add(found[1])
        return found is not None

    def is_from_nothing(self):
        return not self.has_kept and self.proved == crates_below([])


def crates_below(names):
    """The crates that `rt ci` proves: these and those below them, or without names all."""
    top = os.path.dirname(os.path.dirname(os.path.abspath(__file__)))
    with open(os.path.join(top, "crates.txt"), encoding="utf-8") as file:
        lines = [line.partition(":") for line in file if not line.startswith("#")]
    uses = {name.strip(): used.split() for name, colon, used in lines if colon}
    found, waiting = set(), names or list(uses)
    while waiting:
        name = waiting.pop()
        if name in uses and name not in found:
            found.add(name)
            waiting = waiting + uses[name]
    return found


def progress(heard, watch, began):
    """How far the run is."""
    used, minutes = sum(list(watch.used.values())) / 60, (time.monotonic() - began) / 60
    at_work = [place for place in watch.running if place[1] != "proof" or place[0] not in heard.done]
    words = sorted(crate if part == "proof" else f"{part} of {crate}" for crate, part in at_work)
    told = f"; at work: {', '.join(words)}" if words else ""
    return f"{len(heard.done)} of {heard.all} crates, {minutes:.0f} minutes, {used:.0f} processor minutes{told}"


def spent_by(watch):
    """The seconds of each crate by part, and how often code of it was checked with an edit."""
    spent = collections.defaultdict(lambda: dict.fromkeys(PARTS, 0.0))
    tries = collections.Counter()
    for key, used in watch.used.items():
        place = watch.places.get(key)
        if place is not None:
            spent[place[0]][place[1]] += used
            tries[place[0]] += place[1] == "edits"
    return spent, tries


def table(spent, tries):
    yield f"{'crate':<16}{'proof':>8}{'tests':>8}{'edits':>8}{'all':>8}   processor minutes"
    for crate in sorted(spent, key=lambda name: sum(spent[name].values())):
        row = spent[crate]
        figures = "".join(f"{row[part] / 60:8.1f}" for part in ("proof", "tests", "edits"))
        yield f"{crate:<16}{figures}{sum(row.values()) / 60:8.1f}   {tries[crate]} checks of edited code"


def status_by_clock(heard, watch, spent, together):
    """Says what the sum is by the clock, and returns 1 where a run from nothing is above the budget."""
    clock = spent["transactions"]["proof"] / 60
    if "transactions" not in heard.proved or not clock:
        print("nothing can be told by the clock of `transactions`, which was not proved in this run")
        return 0
    by_clock = together * CLOCK / clock
    steady = sum(watch.works.values()) / watch.works["transactions", "proof"] * CLOCK
    is_above = heard.is_from_nothing() and min(by_clock, steady) > MOST
    kind = "from nothing" if heard.is_from_nothing() else "not all from nothing"
    told = f"here it took {clock:.2f} ({kind}; the budget is {BUDGET})"
    print(f"{by_clock:.1f} by the clock on which `transactions` takes {CLOCK}: {told}")
    print(f"{steady:.1f} by that clock without the changes of the machine's speed")
    if is_above:
        print(f"FAILED: a run from nothing may take {MOST:.1f}: docs/WORKING.md says what keeps the gate cheap")
    return int(is_above)


def main():
    if len(sys.argv) < 2:
        sys.exit(__doc__)
    began, heard = time.monotonic(), Heard(sys.argv[1:])
    process = subprocess.Popen(sys.argv[1:], stdout=subprocess.PIPE, stderr=subprocess.STDOUT)
    watch = Watch(process.pid)
    watch.start()
    for line in process.stdout:
        sys.stdout.buffer.write(line)
        if heard.hear(line.decode(errors="replace")):
            sys.stdout.buffer.write(f"{progress(heard, watch, began)}\n".encode())
        sys.stdout.buffer.flush()
    _, status, used = os.wait4(process.pid, 0)
    watch.ended.set()
    watch.join()
    spent, tries = spent_by(watch)
    for line in table(spent, tries):
        print(line)
    together = (used.ru_utime + used.ru_stime) / 60
    print(f"together {together:.1f} processor minutes, {(time.monotonic() - began) / 60:.1f} minutes of wall time")
    above = status_by_clock(heard, watch, spent, together)
    sys.exit(os.waitstatus_to_exitcode(status) or above)


main()
