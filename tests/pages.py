#!/usr/bin/env python3
"""pages.py PROGRAM [write]: runs the commands of the pages on the built program, and prints 'N passed, M failed'.

A command is a code block that calls `packaging/out/central`, or `curl` on what it serves. A block of `text` that follows it is
what it has to print, but for moments, which are those of the clock, and what is said of a journal. `run` and `point`, in the last
line of a block, run beside the commands behind them, up to the end of the page: `run` has to print what it has and where it
listens, in a folder of its own, and `point` what it sends and gets. A `run` at the address of another one takes its place. With
`write` the blocks of text are written anew, to be read before they are kept. The cookbook needs `jq` and `tzdata`, and
is left out where one of them isn't installed.
"""
import datetime
import os
import re
import select
import shlex
import shutil
import signal
import socket
import subprocess
import sys
import tempfile
import time

TOP = os.path.dirname(os.path.dirname(os.path.realpath(__file__)))
COOKBOOK = "examples/cookbook/README.md"
PAGES = (
    "README.md", "examples/README.md", COOKBOOK, "docs/RUNNING.md", "docs/COMMANDS.md", "docs/PROTOCOL.md",
    "packaging/package/README.md",
)
PROGRAM = re.compile(r"\bpackaging/out/central (?=\w)")
COMMAND = re.compile(rf"{PROGRAM.pattern}|^ *curl ")
BESIDE = re.compile(r"\bpackaging/out/central (run|point) ")
DATA = re.compile(r"/tmp/central-data\b")
PORT = re.compile(r"(?<=127\.0\.0\.1):9[01]\d\d\b")
LISTEN = re.compile(r"--listen (\S+)")
MOMENTS = re.compile(r'"(scheduleStart|currentTime|timestamp)":"[^"]*"')
# On standard error. A point that runs beside may have got its next call by then, or not; a slow machine tells its progress.
JOURNAL_LENGTH = re.compile(
    r"^central: (?:\d+ lines read|journal: \d+ lines, the last one of \S+|\S+ isn't connected: \d+ calls? waits?"
    r"|\S+ hasn't answered a call: .*|\d+ calls? to \S+ waits?.*: it may not have .* yet)\n?",
    re.MULTILINE,
)
UNDONE_LINE = re.compile(r"^(undo: line )\d+(?= is )", re.MULTILINE)
INSTANT = re.compile(r"\b(\d{4}-\d\d-\d\d)[ T](\d\d:\d\d)(?::\d\d)?Z?")
# What the clock says in the pages. An instant within a day of it, or of the clock, is the clock's.
PAGE_CLOCK = datetime.datetime(2026, 11, 30, 18, tzinfo=datetime.timezone.utc)
NEAR = datetime.timedelta(hours=26)
FENCE = re.compile(r"^( *)```(\w*)$")
PATIENCE = 60
# Those of the program, and that of `curl` where the time is over that it was told.
STATUSES = (0, 1, 2, 28)


def blocks_of(lines):
    """The code blocks of a page: the number of the first line, the language, and the lines as they are indented."""
    first = None
    for number, line in enumerate(lines):
        found = FENCE.match(line)
        if found and first is None:
            first, language = number + 1, found.group(2)
        elif found:
            yield first, language, lines[first:number]
            first = None


def commands_of(lines):
    """Each command of a page with its line, and the place of the block of text behind it, if one follows at once."""
    blocks = list(blocks_of(lines))
    for (first, language, block), follower in zip(blocks, [*blocks[1:], None]):
        if language in ("sh", "") and any(COMMAND.search(line) for line in block):
            behind = first + len(block) + 1
            follows = follower and follower[1] == "text" and not any(line.strip() for line in lines[behind:follower[0] - 1])
            yield first, "\n".join(block), (follower[0], follower[0] + len(follower[2])) if follows else None


def without_moments(text):
    """A text without the clock's instants, nor the blanks by which a table follows their length."""
    clocks = (PAGE_CLOCK, datetime.datetime.now(datetime.timezone.utc))

    def shown(found):
        instant = datetime.datetime.fromisoformat(f"{found[1]}T{found[2]}+00:00")
        return "NOW" if any(abs(instant - clock) < NEAR for clock in clocks) else found[0]

    plain = UNDONE_LINE.sub(r"\g<1>N", MOMENTS.sub(r'"\1":"NOW"', text))
    changed = INSTANT.sub(shown, plain)
    return plain if changed == plain else re.sub("  +", "  ", changed)


def text_at(lines, place):
    """The text that a command has to print, and how far it is indented; None where the page has none."""
    if place is None:
        return None, ""
    indent = FENCE.match(lines[place[0] - 1]).group(1)
    return "\n".join(line.removeprefix(indent) for line in lines[slice(*place)]), indent


def free_port():
    with socket.socket() as probe:
        probe.bind(("127.0.0.1", 0))
        return probe.getsockname()[1]


def start(command):
    """A command in a process group of its own, so that all of it can be ended."""
    return subprocess.Popen(
        ["bash", "-c", command], cwd=TOP, stdin=subprocess.DEVNULL, stdout=subprocess.PIPE, stderr=subprocess.STDOUT,
        text=True, start_new_session=True,
    )


def end(process):
    try:
        os.killpg(process.pid, signal.SIGKILL)
    except ProcessLookupError:
        pass
    process.communicate()


def began(process, name, text, data):
    """The problems of a command that goes on: what it prints first, as the page has it but for the port."""
    wanted = ("resumed ", "listening ") if name == "run" else ("sent ", "got ")
    if text is not None:
        wanted = [re.sub("^(listening ).*", r"\1", line) for line in text.replace("/tmp/central-data", data).split("\n")]
    said, over = b"", time.monotonic() + PATIENCE
    while said.count(b"\n") < len(wanted) and select.select([process.stdout], [], [], max(0, over - time.monotonic()))[0]:
        part = os.read(process.stdout.fileno(), 4_096)
        if not part:
            break
        said += part
    lines = said.decode().split("\n")[:-1]
    is_right = len(lines) >= len(wanted) and all(line.startswith(start) for line, start in zip(lines, wanted))
    return [] if is_right else [f"it prints {said!r}"]


def run_page(page, program, is_written, data):
    """The problems of each command of a page, whose sites are kept in this folder."""
    path = os.path.join(TOP, page)
    with open(path, encoding="utf-8") as file:
        lines = file.read().split("\n")
    ports, beside, changes = {}, {}, []
    try:
        for first, command, place in commands_of(lines):
            name = f"{page}:{first + 1}"
            command = PORT.sub(lambda found: f":{ports.setdefault(found[0], free_port())}", command)
            command = DATA.sub(data, command)
            wanted, indent = text_at(lines, place)
            found = BESIDE.search(command.rstrip().rsplit("\n", 1)[-1])
            listens = LISTEN.search(command) if found else None
            if listens and listens[1] in beside:
                end(beside.pop(listens[1]))
            run = start(PROGRAM.sub(lambda _: shlex.quote(program) + " ", command))
            if found:
                beside[listens[1] if listens else name] = run
                yield name, began(run, found[1], wanted, data)
                continue
            try:
                printed = JOURNAL_LENGTH.sub("", run.communicate(timeout=PATIENCE)[0]).rstrip("\n")
                printed = printed.replace(data, "/tmp/central-data")
            except subprocess.TimeoutExpired:
                end(run)
                yield name, [f"it doesn't end within {PATIENCE} seconds"]
                continue
            differs = place is not None and without_moments(printed) != without_moments(wanted)
            if differs and is_written:
                changes.append((place, [(indent + line).rstrip() for line in printed.split("\n")]))
            fault = [f"status {run.returncode}"] if run.returncode not in STATUSES else []
            yield name, [*fault, *([f"it prints\n{printed}"] if differs and not is_written else [])]
    finally:
        for process in beside.values():
            end(process)
    if changes:
        for (begin, behind), text in reversed(changes):
            lines[begin:behind] = text
        with open(path, "w", encoding="utf-8") as file:
            file.write("\n".join(lines))


def main():
    if len(sys.argv) not in (2, 3) or sys.argv[2:] not in ([], ["write"]):
        sys.exit(__doc__)
    passed = failed = 0
    for page in PAGES:
        if page == COOKBOOK and not (shutil.which("jq") and os.path.isfile("/usr/share/zoneinfo/Europe/Berlin")):
            print(f"{page} is left out: jq or tzdata isn't installed")
            continue
        with tempfile.TemporaryDirectory() as folder:
            data = os.path.join(folder, "data")
            results = list(run_page(page, os.path.abspath(sys.argv[1]), len(sys.argv) == 3, data))
        for name, problems in results or [(page, ["it has no command"])]:
            for problem in problems:
                print(f"{name}: {problem}")
            passed, failed = passed + (not problems), failed + bool(problems)
    print(f"{passed} passed, {failed} failed")
    sys.exit(1 if failed else 0)


main()
