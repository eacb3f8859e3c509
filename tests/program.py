#!/usr/bin/env python3
"""program.py PROGRAM [cases]: runs the built program `central` on what no contract says, and prints 'N passed, M failed'.

It plays each case of examples/ and tests/cases/ (tests/case_folders.py has their form) and compares the bytes of standard
output, standard error and the exit status. Then it tries command lines, site files, devices that fail, how memory grows
and allocations that fail. With `cases` it stops behind the cases.

Where the environment has UNPROVED, the program is one of which nothing is proved. It is slower and has checks of memory. Then a
script of the limit is one long line, or a file of a megabyte; two frames of the limit come, and 200 in one memory. A site file of
the limit is no text, and one that is full of something has 64 kilobytes. No allocation fails.
"""
import itertools
import json
import os
import pty
import re
import resource
import shutil
import signal
import string
import subprocess
import sys
import tempfile
import time
import tty

from case_folders import Case, all_cases
from png_colours import shares_of_colours
from site_files import MAX_SITE_BYTES, first_line_problems, found_in_files, found_problems, site_files
from zones import CaseInZone, has_zones, zone_problems

TOP = os.path.dirname(os.path.dirname(os.path.abspath(__file__)))
UNPROVED = "UNPROVED" in os.environ
# Seconds that a run may take on a machine that is busy.
PATIENCE = 600 if UNPROVED else 120
# How far a long reading is, on a busy machine perhaps any.
PROGRESS = re.compile(rb"central: \d+ lines read\n")
SITE = b'{"unit":"A","points":[{"id":"CP1","ceiling":63.0,"connectors":[32.0,32.0]}]}'


def bytes_of(path):
    with open(path, "rb") as file:
        return file.read()


def played_cases(program):
    """Each case: what its command prints of its script."""
    for case in all_cases():
        done = run(program, case.words, case.script, folder=case.folder)
        yield case.name, list(differences(done, *case.wanted))
        for name in ("picture.svg", "page.html"):
            if case.content(name):
                yield f"{case.name}: {name}", picture_problems(program, case, name)


def picture_problems(program, case, name):
    """What is wrong with the picture or page that a case's command draws, by the lines of the case's file of its name."""
    with tempfile.TemporaryDirectory(prefix="central-drawn-") as folder:
        path = os.path.join(folder, name)
        done = run(program, [*case.words, "--picture", path], case.script, folder=case.folder)
        drawn = bytes_of(path) if os.path.isfile(path) else b""
    problems = list(differences(done, *case.wanted))
    for line in case.content(name).splitlines():
        unwanted = line.removeprefix(b"not ")
        if line not in drawn and unwanted == line:
            problems.append(f"it lacks {line.decode()}")
        elif unwanted != line and unwanted in drawn:
            problems.append(f"it has {unwanted.decode()}")
    return problems


def fault_cases(folder):
    """Site files and scripts with a fault: name, arguments, standard input, and what is wanted."""

    def site(name, content):
        path = os.path.join(folder, name)
        with open(path, "wb") as file:
            file.write(content)
        return ["replay", "--site", path]

    good = site("good", SITE)
    for number, (content, fault) in enumerate(site_files()):
        if UNPROVED and len(content) == MAX_SITE_BYTES:
            content, fault = b"\xff" * MAX_SITE_BYTES, "NotUtf8"  # it isn't too large
        arguments = site(f"site-{number}", content)
        if fault is None:
            yield f"site file {number}", arguments, b"x\n", b"! 1 BadLine\n", b"", 2
        else:
            yield f"site file {number}", arguments, b"x\n", b"", f"central: site: {fault}\n".encode(), 1
    site("blank", b"[]")
    yield "a site file whose name ends in a blank", site("blank ", SITE), b"x\n", b"! 1 BadLine\n", b"", 2
    yield "a site file whose name begins with a blank", site(" blank", SITE), b"x\n", b"! 1 BadLine\n", b"", 2
    yield "a site file whose name has no blank", site("blank", b"[]"), b"x\n", b"", b"central: site: NotAnObject\n", 1
    yield "no site file", ["replay", "--site", os.path.join(folder, "none")], b"", b"", b"central: device: read\n", 3
    yield "a folder as site file", ["replay", "--site", folder], b"", b"", b"central: device: read\n", 3
    yield from limit_cases(good)
    yield from cut_cases(good)


def site_check_problems(program, folder):
    """`check` names first what a replay names, and finds nothing that is refused where a replay reads the file; and all else that it finds."""
    path = os.path.join(folder, "checked-site")

    def check(content):
        with open(path, "wb") as file:
            file.write(content)
        done = run(program, ["check", "--site", path], b"")
        return done, [line.removeprefix(f"{path}: ") for line in done.stdout.decode().splitlines()]

    for number, (content, fault) in enumerate(site_files()):
        if len(content) > MAX_SITE_BYTES // 2:
            continue  # site_growth_problems checks such files
        done, lines = check(content)
        status = 1 if fault else 2 if any(": warning: " in line for line in lines) else 0
        wrong = [] if (done.returncode, done.stderr) == (status, b"") else [f"status {done.returncode}, {done.stderr[:200]!r}"]
        yield f"check of site file {number}", [*wrong, *first_line_problems(fault, lines)]
    for number, (content, pieces) in enumerate(found_in_files()):
        done, lines = check(content)
        yield f"what check finds in site file {number}", list(found_problems(pieces, lines))


def limit_cases(good):
    """Scripts, lines and frames at their bounds; good are the arguments that name a site file without a fault."""
    yield "an empty script", good, b"", b"", b"", 0
    if UNPROVED:
        yield "a script of the limit", good, b"x" * 16_777_216, b"! 1 TooLong\n", b"", 2
    else:
        yield "a script of the limit", good, b"\n" * 16_777_216, b"", b"", 0
    yield "a script past the limit", good, b"x\n" * 8_388_608 + b"x", b"", b"central: script: ScriptTooLong\n", 2
    yield from file_limit_cases(good)
    yield "a line of the limit", good, b"x" * 1_048_576 + b"\r\n", b"! 1 BadLine\n", b"", 2
    yield "a line past the limit", good, b"\n" + b"x" * 1_048_577 + b"\r\ny", b"! 2 TooLong\n! 3 BadLine\n", b"", 2
    yield "a line that is no text", good, b"\xff\n", b"! 1 BadText\n", b"", 2
    prefix, end = b'2025-01-01T00:00:00Z point CP1 [2,"1","Heartbeat",{"pad":"', b'"}]'
    answer = b'> [3,"1",{"currentTime":"2025-01-01T00:00:00Z"}]\n'
    call = b'* CP1 [2,"0","ClearChargingProfile",{}]\n'
    room = 1_048_576 - len(prefix) - len(end)
    yield "a frame on a line of the limit", good, prefix + b"x" * room + end + b"\n", answer + call, b"", 0
    yield "a frame on a line past the limit", good, prefix + b"x" * (room + 1) + end + b"\n", b"! 1 TooLong\n", b"", 2
    count = 2 if UNPROVED else 16
    frames = (prefix + b"x" * (room - 1) + end + b"\n") * count
    yield "a script of frames of the limit", good, frames, answer + call + answer * (count - 1), b"", 0


def file_limit_cases(good):
    """The same of a script in a file, which is read in place of standard input."""
    site = good[-1]
    kept, longer, none = (os.path.join(os.path.dirname(site), name) for name in ("script-of-the-limit", "script-past-it", "no-script"))
    line = b"x" * 1_048_575 + b"\n"
    count = 1 if UNPROVED else 16
    for path, content in ((kept, line * count), (longer, line * 16 + b"x")):
        with open(path, "wb") as file:
            file.write(content)
    printed = b"".join(b"! %d BadLine\n" % number for number in range(1, count + 1))
    yield f"a script of {count} megabytes in a file", [*good, "--script", kept], b"", printed, b"", 2
    too_long, read = b"central: script: ScriptTooLong\n", b"central: device: read\n"
    missing, folder = b"No such file or directory (os error 2)", b"Is a directory (os error 21)"
    for command in (["replay"], ["explain", *DAY], ["show"]):
        arguments = [*command, "--site", site, "--script"]
        yield f"{command[0]}: a script past the limit in a file", [*arguments, longer], b"", b"", too_long, 2
        for path, cause in ((none, missing), (os.path.dirname(site), folder)):
            error = b"central: %s: %s\n%s" % (path.encode(), cause, read)
            yield f"{command[0]}: a script that can't be read: {cause.decode()}", [*arguments, path], b"", b"", error, 3


def cut_messages():
    """The first example's script and output, and each proper beginning of its messages, with the
    head of its line."""
    example = Case("examples/first-schedule")
    begun = []
    for line in example.script.splitlines():
        head, mark, rest = line.partition(b"[")
        begun += [(head, b"")] + [(head, mark + rest[:length]) for length in range(len(rest))]
    return example.script, example.wanted[0], begun


def cut_cases(good):
    """Messages cut at each byte. An operator's bring nothing, and the whole ones then have their
    answers. A point's bring no more than the call that waits for it."""
    script, printed, begun = cut_messages()
    lines = b"".join(head + text + b"\n" for head, text in begun)
    yield "an operator's messages cut at each byte", good, lines + script, printed, b"", 0
    install, accepted = script.partition(b"\n")[0], printed.partition(b"\n")[0]
    payload = install.partition(b",{")[2].replace(b'"limit":16}', b'"limit":16.0}')
    point = b"2025-01-01T00:00:00Z point CP1 "
    lines = [point + b'[2,"0","Heartbeat",{}]', point + b'[3,"0",{"status":"Unknown"}]']
    printed = [b'> [3,"0",{"currentTime":"2025-01-01T00:00:00Z"}]']
    printed += [b'* CP1 [2,"0","ClearChargingProfile",{}]']
    for number, (_, text) in enumerate(begun, 1):
        lines += [install, point + text, point + b'[3,"%d",{"status":"Accepted"}]' % number]
        printed += [accepted, b'* CP1 [2,"%d","SetChargingProfile",{%s' % (number, payload)]
    lines, printed = b"\n".join(lines), b"\n".join([*printed, b""])
    yield "a point's messages cut at each byte", good, lines, printed, b"", 0


def run(program, arguments, given, stdout=subprocess.PIPE, folder=None):
    done = subprocess.run(
        [program, *arguments], input=given, stdout=stdout, stderr=subprocess.PIPE, timeout=PATIENCE, cwd=folder, check=False,
    )
    return without_progress(done)


def without_progress(done):
    """A run that has ended, without what it said meanwhile where it took long."""
    done.stderr = PROGRESS.sub(b"", done.stderr)
    return done


def run_on(program, arguments, given, is_full):
    """Runs it on bytes, or on a folder, as standard input, with a full device as standard output if wanted."""
    with open("/dev/full" if is_full else os.devnull, "wb") as device:
        stdout = device if is_full else subprocess.PIPE
        if isinstance(given, bytes):
            return run(program, arguments, given, stdout)
        handle = os.open(given, os.O_RDONLY)
        try:
            return without_progress(subprocess.run(
                [program, *arguments], stdin=handle, stdout=stdout, stderr=subprocess.PIPE, timeout=PATIENCE, check=False,
            ))
        finally:
            os.close(handle)


def first_difference(want, got):
    """The first line that differs, of two outputs that aren't equal."""
    wanted, given = want.split(b"\n") + [b"(end)"], got.split(b"\n") + [b"(end)"]
    for number, (line, other) in enumerate(zip(wanted, given), 1):
        if line != other:
            return f"line {number} is {other[:300]!r}, wanted {line[:300]!r}"
    return "it ends elsewhere"


def differences(done, want_out, want_err, want_status):
    if done.stdout != want_out:
        yield f"stdout: {first_difference(want_out, done.stdout)}"
    if done.stderr != want_err:
        yield f"stderr {done.stderr[:200]!r}, wanted {want_err[:200]!r}"
    if done.returncode != want_status:
        yield f"status {done.returncode}, wanted {want_status}"


def command_line_problems(program):
    """Command lines: the help on standard output with status 0, the refusals on standard error with status 4."""
    version = b"central 0.1.0\n" + (b"unproved: " if UNPROVED else b"proved in the logic dac8208d650f15bf of rattle-kit-13\n")
    replay = (b"Usage", b"--site <F>", b"JSON file", b"standard input", b"Example:", b"central replay --site", b"exit statuses")
    for arguments, wanted in (
        (["--help"], (b"Usage", b"OCPP 1.6", b"Exit statuses:", b"replay", b"  4  ")),
        (["-h"], (b"Usage", b"Exit statuses:")),
        (["help"], (b"Usage", b"Exit statuses:")),
        (["replay", "--help"], replay),
        (["help", "replay"], replay),
        (["--version"], (version,)),
    ):
        done = run(program, arguments, b"")
        missing = [text for text in wanted if text not in done.stdout]
        ok = done.returncode == 0 and not missing and not done.stderr
        yield f"central {' '.join(arguments)}", [] if ok else [f"status {done.returncode}, without {missing}, {done.stderr[:200]!r}"]
    # The builder writes the logic that a program is proved in into its file (`readelf -p .comment`).
    logics = re.findall(rb"\0rattle logic=([0-9a-f]{16})", bytes_of(program))
    wanted = [] if UNPROVED else [b"dac8208d650f15bf"]
    yield "the logic that --version names", [] if logics == wanted else [f"the program's file names {logics}"]
    for arguments in ([], ["replay"], ["replay", "--site"], ["replay", "--site", "a", "--site", "b"], ["play"], ["replay", "x"]):
        done = run(program, arguments, b"")
        ok = done.returncode == 4 and not done.stdout and done.stderr
        yield f"central {' '.join(arguments)}", [] if ok else [f"status {done.returncode}, {done.stdout[:200]!r}"]
    conflict = b"error: the argument '--data <DIR>' cannot be used with '--script <FILE>'\n\nUsage: central <COMMAND>\n"
    for command in (["replay"], ["explain", *DAY], ["check"], ["show"]):
        # What clap finds comes first, and nothing that is named is read.
        for wrong, begins in ([], conflict), (["--data", "c"], b"error: the argument '--data <DIR>' cannot be used multiple times\n"):
            done = run(program, [*command, "--site", "a", "--script", "b", "--data", "c", *wrong], b"")
            ok = done.returncode == 4 and not done.stdout and done.stderr.startswith(begins)
            yield f"central {command[0]} with two scripts {' '.join(wrong)}", [] if ok else [f"status {done.returncode}, {done.stderr!r}"]


def help_example_problems(program, folder):
    """The example of replay's help: on its site its script prints what the help says."""
    told = run(program, ["replay", "--help"], b"").stdout
    example = re.search(rb"for example\n([^\n]*)\n.*and the script\n(.*)it prints\n(.*?)\n\n", told, re.DOTALL)
    site, script, printed = (re.sub(rb"(?m)^  ", b"", part) for part in example.groups()) if example else (b"", b"", b"")
    path = os.path.join(folder, "site-of-the-help")
    with open(path, "wb") as file:
        file.write(site)
    done = run(program, ["replay", "--site", path], script)
    yield "the example of replay's help", list(differences(done, printed + b"\n", b"", 0)) if example else ["no example"]


def first_schedule_problems(program, folder):
    """`first-schedule`: the lines of the first example and three commands; without a program and a kit, one line."""
    example = Case("examples/first-schedule")
    done = subprocess.run([os.path.join(TOP, "first-schedule"), program], capture_output=True, timeout=120)
    commands = [line.split(b" --")[0].split(b"| ")[-1] for line in done.stdout.split(b"\n") if b" --" in line]
    wanted = [f"{program} {command}".encode() for command in ("run", "point", "call")]
    begins = done.stdout.startswith(example.wanted[0] + b"\n")
    ok = done.returncode == 0 and begins and commands == wanted and not done.stderr
    yield "first-schedule", [] if ok else [f"{done}"]
    alone = shutil.copy(os.path.join(TOP, "first-schedule"), folder)
    done = subprocess.run([alone], capture_output=True, timeout=120, env={"PATH": "/usr/bin:/bin"})
    ok = (done.returncode, done.stdout, done.stderr.count(b"\n")) == (1, b"", 1) and b"/opt/rattle" in done.stderr
    yield "first-schedule without a kit", [] if ok else [f"{done}"]


def device_problems(program, folder):
    """Which device failed: a full device as standard output, a folder as standard input or as the site file."""
    read, write, none = b"central: device: read\n", b"central: device: write\n", b""

    def replay(site):
        return ["replay", "--site", site]

    good, bad = replay(os.path.join(folder, "good")), replay(os.path.join(folder, "blank"))
    for name, arguments, given, is_full, error, status in (
        ("standard output is full", good, b"x\n", True, write, 3),
        ("standard output is full for the help", ["--help"], none, True, write, 3),
        ("standard output is full for the version", ["--version"], none, True, write, 3),
        ("standard output is full, and nothing to write", good, none, True, none, 0),
        ("standard input can't be read", good, folder, False, read, 3),
        ("neither can be used: the script is read first", good, folder, True, read, 3),
        ("a page on a full device", ["show", *good[1:]], b"", True, b"central: standard output: No space left on device (os error 28)\n" + write, 3),
        ("the site file can't be read: it is read first", replay(folder), b"x\n", True, read, 3),
        ("the site file has a fault, which comes before the script", bad, folder, True, b"central: site: NotAnObject\n", 1),
    ):
        done = run_on(program, arguments, given, is_full)
        ok = (done.returncode, done.stderr, done.stdout or none) == (status, error, none)
        yield name, [] if ok else [f"status {done.returncode}, {done.stderr!r}, {done.stdout!r}"]


# Two faults and an empty line between them, and what a replay writes of them.
FAULTY = b"x\r\n\r\n2025-13-01T00:00:00Z operator CP1 []"
FAULTS = b"! 1 BadLine\n! 3 BadInstant\n"


def played_scripts():
    """A name, a script, its output on the site of the tests, and the status."""
    example = Case("tests/cases/replay/calls-confirmed-in-turn")
    yield "faulty lines", FAULTY, FAULTS, 2
    yield example.name, example.script, example.wanted[0], example.wanted[2]


def failing_problems(program, folder):
    """A replay whose standard input or output fails behind any byte, or is interrupted: nothing is written, or what fitted."""
    site = os.path.join(folder, "good")
    step = 41 if UNPROVED else 1
    for name, script, printed, status in played_scripts():
        replay = [program, "replay", "--site", site]
        problems = [length for length in range(0, len(script) + 1, step) if fails_to_read(replay, script[:length])]
        yield f"{name}: standard input fails behind each of {len(script)} bytes", [f"otherwise behind {problems}"] if problems else []
        problems = []
        for length in range(0, len(printed) + 1, step):
            wanted = (status, printed, b"") if length == len(printed) else (3, printed[:length], b"central: device: write\n")
            if written_of(replay, script, os.path.join(folder, "limited"), length) != wanted:
                problems.append(length)
        yield f"{name}: standard output takes none but the first of {len(printed)} bytes", [f"otherwise with {problems}"] if problems else []
    yield from interrupted_problems(program, folder, site)


def fails_to_read(replay, read):
    """Whether a replay does anything but end as it should when standard input fails behind these bytes: a terminal that is gone."""
    reader, writer = pty.openpty()
    tty.setraw(writer)
    if read:
        os.write(writer, read)
    os.close(writer)
    done = subprocess.run(replay, stdin=reader, capture_output=True, timeout=PATIENCE, check=False)
    os.close(reader)
    return (done.returncode, done.stdout, done.stderr) != (3, b"", b"central: device: read\n")


def written_of(replay, script, path, length):
    """How a replay ends whose standard output is a file that takes so many bytes, and what stands in the file then."""

    def limit():
        signal.signal(signal.SIGXFSZ, signal.SIG_IGN)
        resource.setrlimit(resource.RLIMIT_FSIZE, (length, length))

    with open(path, "wb") as file:
        done = subprocess.run(replay, input=script, stdout=file, stderr=subprocess.PIPE, preexec_fn=limit, timeout=PATIENCE, check=False)
    return done.returncode, bytes_of(path), done.stderr


def interrupted_problems(program, folder, site):
    """An interrupted write is made again, and an interrupted read ends the replay. strace makes them, where it is installed."""
    if not shutil.which("strace"):
        return
    path = os.path.join(folder, "interrupted")
    with open(path, "wb") as file:
        file.write(b"x\n" * 2_000)
    printed = b"".join(b"! %d BadLine\n" % number for number in range(1, 2_001))
    # The unproved program looks for leaks when it ends, which it can't below strace.
    environment = {**os.environ, "ASAN_OPTIONS": "detect_leaks=0"}
    for call, numbers, wanted in (("write", range(1, 5), (2, printed, b"")), ("read", range(1, 3), (3, b"", b"central: device: read\n"))):
        for number in numbers:
            of_script = ["-P", path] if call == "read" else []
            words = ["strace", "-f", "-qq", "-o", os.path.join(folder, "log"), *of_script, "-e", f"trace={call}"]
            words += ["-e", f"inject={call}:error=EINTR:when={number}", program, "replay", "--site", site]
            with open(path, "rb") as script:
                done = subprocess.run(words, stdin=script, capture_output=True, timeout=PATIENCE, check=False, env=environment)
            is_made = b"INJECTED" in bytes_of(os.path.join(folder, "log"))
            ok = (done.returncode, done.stdout, done.stderr) == wanted and is_made
            yield f"{call} {number} is interrupted", [] if ok else [f"status {done.returncode}, {done.stderr!r}, injected: {is_made}"]


def closed_pipe_problems(program, folder):
    """A page whose reader has left is no fault. A replay's output is: it is cut there."""
    site, write = os.path.join(folder, "good"), b"central: device: write\n"
    explain = ["explain", "--site", site, "--point", "CP1", "--connector", "1", "--start", "now", "--duration", "1h"]
    for name, arguments, error, status in (
        ("help", ["--help"], b"", 0),
        ("show", ["show", "--site", site], b"", 0),
        ("show --json", ["show", "--site", site, "--json"], b"", 0),
        ("explain", explain, b"", 0),
        ("check", ["check", "--site", site, "--trace"], b"", 2),
        ("replay", ["replay", "--site", site], write, 3),
    ):
        reader, writer = os.pipe()
        os.close(reader)
        done = run(program, arguments, CLEAR, writer)
        os.close(writer)
        ok = (done.returncode, done.stderr) == (status, error)
        yield f"{name} into a closed pipe", [] if ok else [f"status {done.returncode}, {done.stderr!r}"]


# Starts a program without output, and prints the most kilobytes that it had, and its exit status. A process counts what its parent
# had when it was started, too: so the parent is a small one.
MEASURE = """import os, sys
nowhere = [(os.POSIX_SPAWN_OPEN, handle, os.devnull, os.O_WRONLY, 0) for handle in (1, 2)]
process = os.posix_spawn(sys.argv[1], sys.argv[1:], os.environ, file_actions=nowhere)
_, status, usage = os.wait4(process, 0)
print(usage.ru_maxrss, os.waitstatus_to_exitcode(status))"""


def peak_memory(program, folder, script, site=SITE, command="replay"):
    """The most kilobytes that a replay or a check of a script on a site has at one time, and its exit status."""
    path, site_path = os.path.join(folder, "script"), os.path.join(folder, "site-of-the-script")
    for name, content in ((path, script), (site_path, site)):
        with open(name, "wb") as file:
            file.write(content)
    arguments = [sys.executable, "-I", "-S", "-c", MEASURE, program, command, "--site", site_path]
    # A build that is watched by a sanitizer is told not to keep memory that was freed. Others don't look.
    kept = {"ASAN_OPTIONS": "quarantine_size_mb=1", **os.environ}
    with open(path, "rb") as given:
        done = subprocess.run(arguments, stdin=given, capture_output=True, env=kept, timeout=PATIENCE, check=True)
    peak, status = done.stdout.split()
    return int(peak), int(status)


def growth_problems(program, folder):
    """The memory that a frame was read into serves the next: 2,000 frames take no more than the same frames broken."""
    count = 200 if UNPROVED else 2_000
    line = b'2025-01-01T00:00:00Z point CP1 %s2,"7","DataTransfer",{"data":[' + b'{"a":1},' * 99 + b'{"a":1}]}]\n'
    read, read_status = peak_memory(program, folder, line.replace(b"%s", b"[") * count)
    broken, broken_status = peak_memory(program, folder, line.replace(b"%s", b"]") * count)
    ok = (read_status, broken_status) == (0, 0) and read < broken + 8_192
    yield f"{count} frames in one memory", [] if ok else [f"{read} KB, status {read_status}; broken {broken} KB, {broken_status}"]


def filled(size, before, items, after):
    """A site file of this size or a little less: as many of the items as fit."""
    content, size = bytearray(before), size - len(after)
    for item in items:
        if len(content) + len(item) + 1 > size:
            break
        content += item + b","
    return bytes(content[:-1]) + after


# What `check` finds takes memory, too: it lists at most 2,000 faults and remarks in points.
FOUND_BYTES = 3 << 20
# What a program with checks of memory keeps, however small the site file is: 13 million bytes were the most for 16 to 512 kilobytes.
CHECKED_BYTES = 16 << 20

HEAD = b'{"unit":"A","points":['
POINT = b'{"id":"CP1","ceiling":63.0,"connectors":[32.0]}'


def named(form):
    """As many items as there are names of four letters and digits, each with another name."""
    return (form % "".join(name).encode() for name in itertools.product(string.ascii_letters + string.digits, repeat=4))


def full_sites(size):
    """Site files of this size, right and wrong ones, each full of one thing, and the statuses of a replay and of a check."""
    noted, one_point = HEAD + POINT + b'],"note":', HEAD + b'{"id":"CP1","ceiling":63.0,"connectors":['
    own_points = named(POINT.replace(b"CP1", b"%s"))
    for name, parts, replayed, checked in (
        ("unknown numbers", (noted + b"[", itertools.repeat(b"1"), b"]}"), 0, 2),
        ("unknown lists", (noted + b"[", itertools.repeat(b"[1]"), b"]}"), 0, 2),
        ("unknown objects", (noted + b"[", itertools.repeat(b'{"a":0}'), b"]}"), 0, 2),
        ("unknown objects without a field", (noted + b"[", itertools.repeat(b"{}"), b"]}"), 0, 2),
        ("unknown fields", (noted + b"{", named(b'"%s":0'), b"}}"), 0, 2),
        ("fields beside unit", (HEAD + POINT + b"],", named(b'"%s":0'), b"}"), 0, 2),
        ("fields of a point", (HEAD + POINT[:-1] + b",", named(b'"%s":0'), b"}]}"), 0, 2),
        ("points", (HEAD, itertools.repeat(POINT), b"]}"), 1, 1),
        ("points of their own", (HEAD, own_points, b"]}"), 1, 1),
        ("points without a field", (HEAD, itertools.repeat(b"{}"), b"]}"), 1, 1),
        ("lists of points", (b'{"unit":"A",', itertools.repeat(b'"points":[{}]'), b"}"), 1, 1),
        ("connectors", (one_point, itertools.repeat(b"1"), b"]}]}"), 1, 1),
        ("connectors of another kind", (one_point, itertools.repeat(b"{}"), b"]}]}"), 1, 1),
        ("points in no JSON", (HEAD, itertools.repeat(POINT), b"]"), 1, 1),
        ("numbers and a malformed one", (noted + b"[", itertools.repeat(b"1"), b",01]}"), 1, 1),
        ("a list of numbers and a malformed one", (b"[", itertools.repeat(b"0"), b",01]"), 1, 1),
        ("malformed numbers", (noted + b"{", named(b'"%s":01'), b"}}"), 1, 1),
        ("malformed numbers and a note", (noted + b"{", named(b'"%s":01'), b'},"note":0}'), 0, 2),
        ("numbers in the place of keys", (noted + b"{", itertools.repeat(b"1:0"), b"}}"), 1, 1),
    ):
        yield name, filled(size, *parts), replayed, checked
    yield "a long id", HEAD + POINT.replace(b"CP1", b"a" * (size - 100)) + b"]}", 1, 1


def site_growth_problems(program, folder):
    """Full site files: a replay or a check takes at most ten bytes for each of their bytes, whatever fills them."""
    least, _ = peak_memory(program, folder, b"")
    kept = CHECKED_BYTES if UNPROVED else 0
    for name, site, replayed, checked in full_sites(1 << 16 if UNPROVED else MAX_SITE_BYTES):
        for command, wanted, found in (("replay", replayed, 0), ("check", checked, FOUND_BYTES)):
            if wanted is None:
                continue
            peak, status = peak_memory(program, folder, b"", site, command)
            ok = status == wanted and (peak - least) * 1024 <= 10 * len(site) + found + kept
            yield f"{command} of a site file full of {name}", [] if ok else [f"{len(site)} bytes, {peak - least} KB, status {status}"]


def memory_problems(program, folder):
    """Scripts with each of their allocations refused in turn: a prefix of the output and OutOfMemory."""
    library = os.path.join(folder, "refuse_allocation.so")
    source = os.path.join(TOP, "tests", "refuse_allocation.c")
    subprocess.run(["cc", "-O2", "-shared", "-fPIC", "-o", library, source, "-ldl"], check=True)
    picture, page = (os.path.join(folder, name) for name in ("refused.svg", "refused.html"))
    for name, more, least in (
        ("examples/first-schedule", [], 20),
        ("examples/point-messages", [], 60),
        ("examples/ordinary-day", [], 150),
        ("examples/calls-to-a-point", [], 80),
        ("tests/cases/replay/holds-released-in-another-order", [], 100),
        ("tests/cases/replay/profile-of-a-transaction", [], 120),
        ("tests/cases/replay/hold-and-release", [], 80),
        ("tests/cases/replay/calls-confirmed-in-turn", [], 80),
        ("tests/cases/replay/audits-of-a-point", [], 150),
        ("tests/cases/replay/remote-start-with-a-profile", [], 40),
        ("tests/cases/explain/two-cars", [], 60),
        ("tests/cases/explain/two-cars", ["--picture", picture], 60),
        ("tests/cases/explain/hour-that-lifts-a-limit", ["--picture", page], 60),
        ("tests/cases/explain/two-cars-for-programs", [], 60),
        ("tests/cases/check/misspelled-ceiling", [], 20),
        ("tests/cases/check/night-above-the-fuse", [], 60),
        ("tests/cases/check/wrong-words", [], 60),
        ("tests/cases/check/whose-answer", [], 60),
        ("tests/cases/show/what-is-installed", [], 60),
        ("tests/cases/show/installed-for-programs", [], 60),
    ):
        refused, problems = refusals(program, library, Case(name), more)
        if refused < least:
            problems.append(f"only {refused} allocations were refused")
        yield f"{os.path.basename(name)}: each of {refused} allocations refused", problems
    if has_zones():
        refused, problems = refusals(program, library, CaseInZone("tests/cases/explain/two-cars"), [])
        yield f"explain --zone: each of {refused} allocations refused", problems if refused >= 60 else [f"only {refused}", *problems]
    yield from again_tests(program, library)
    for test, step in (
        ("stopping_wakes_all_who_wait", 1),
        ("a_later_request_overtakes_one_that_is_held_up", 1),
        ("a_request_that_is_given_up_is_not_begun", 1),
        ("eight_workers_answer_64_requests", 61),
    ):
        yield ending_problems(library, [built_tests(program, "test_pool"), f"stories::{test}"], step)


# Tests of what is tried again: the crate, the test, how many allocations in a row are refused, in
# how many runs at least, and up to which allocation of its first.
AGAIN = (
    # Copies of a profile share its periods, and so take no memory for them. A book's call lends its step to the machine, and so
    # copies no more of it than the machine keeps.
    ("test_core", "refused_memory::each_step_is_made_again", 1, 12, 400),
    ("test_books", "callers::audits::an_audit_is_judged_again_where_memory_was_refused", 1, 2, 150),
    ("test_session", "sessions::a_points_session_is_refused_memory", 1, 15, 200),
    # A chunk of the arena that is refused is asked for at half its size, and so on: all of that is refused.
    ("test_values", "frame_texts::a_text_is_read_again_where_memory_was_refused", 20, 30, 150),
)

# The last calls of this one are made again, after a history that takes many allocations.
FOLDED_AGAIN = ("refused_memory::an_install_folds", 10)


def again_tests(program, library):
    """Tests of steps and calls that are tried again where memory was refused to them."""
    for crate, test, in_a_row, least, last in AGAIN:
        words = [built_tests(program, crate), test]
        yield again_problems(library, words, in_a_row, least, range(1, last + 1))
    test, least = FOLDED_AGAIN
    words = [built_tests(program, "test_core"), test]
    last = allocations(library, words)
    yield again_problems(library, words, 1, least, range(last - 40, last + 6))


NIGHT = os.path.join("examples", "night-profile")
DAY = ["--point", "CP1", "--connector", "1", "--start", "2025-01-03T12:00:00Z", "--duration", "86400"]
NIGHT_TABLE = b"""\
CP1, connector 1, from 2025-01-03 12:00 to 2025-01-04 12:00 (1 d). The limit in A, times in UTC.

from              to                length   limit  why
2025-01-03 12:00             22:00  10 h    10.0 A  TxDefaultProfile 1, stack level 0, at connector 0
           22:00  2025-01-04 06:00  8 h     32.0 A  TxDefaultProfile 2, stack level 1, at connector 0
2025-01-04 06:00             12:00  6 h     10.0 A  TxDefaultProfile 1, stack level 0, at connector 0
"""


def explain_problems(program, folder):
    """`explain` on the night profile: the table, up to a line, as JSON, a picture; and what isn't there."""
    site, script = (os.path.join(TOP, NIGHT, name) for name in ("site.json", "script"))

    def explain(*more, day=DAY):
        return run(program, ["explain", "--site", site, *day, *more], bytes_of(script))

    yield "explain", list(differences(explain(), NIGHT_TABLE, b"", 0))
    first = explain("--at", "1").stdout
    ok = first.count(b"TxDefaultProfile 1,") == 1 and b"1 d     10.0 A" in first and b"TxDefaultProfile 2" not in first
    yield "explain after a line", [] if ok else [repr(first)]
    told = json.loads(explain("--json").stdout)
    limits = [(part["start"], part["limit"], part["cause"]["chargingProfileId"]) for part in told["intervals"]]
    wanted = [("2025-01-03T12:00:00Z", 10, 1), ("2025-01-03T22:00:00Z", 32, 2), ("2025-01-04T06:00:00Z", 10, 1)]
    yield "explain for programs", [] if limits == wanted else [f"{limits}, wanted {wanted}"]
    for name, first_bytes in (("picture.svg", b"<?xml "), ("page.html", b"<!DOCTYPE html>")):
        path = os.path.join(folder, name)
        done = explain("--picture", path)
        content = bytes_of(path) if os.path.isfile(path) else b""
        ok = not list(differences(done, NIGHT_TABLE, b"", 0)) and content.startswith(first_bytes) and b"TxDefaultProfile 2" in content
        yield f"explain with a {name}", [] if ok else [f"{done}, {content[:100]!r}"]
    words = b"central: command line: "
    for name, day, more, error in (
        ("no such point", ["--point", "CP9", *DAY[2:]], [], words + b"no such point in the site file\n"),
        ("no such connector", ["--point", "CP1", "--connector", "3", *DAY[4:]], [], words + b"the point has no such connector\n"),
        ("no instant", [*DAY[:4], "--start", "noon", *DAY[6:]], [], words + b"--start is no instant, such as 2025-01-01T12:00:00Z, and not now\n"),
        ("past the calendar", [*DAY[:4], "--start", "9999-12-31T23:59:59Z", *DAY[6:]], [], words + b"it would end past the year 9999\n"),
        ("a picture of another kind", DAY, ["--picture", "p.png"], words + b"the name of a picture's file ends in .svg or .html\n"),
    ):
        # Each is told before the script is read: a folder as standard input can't be.
        done = run_on(program, ["explain", "--site", site, *day, *more], folder, False)
        yield f"explain: {name}", list(differences(done, b"", error, 4))
    yield from zone_problems(lambda words, given: run(program, ["explain", "--site", site, *words], given), bytes_of(script))
    yield from explain_order_problems(program, folder)
    yield from unzoned_problems(explain)
    yield from present_problems(explain)
    yield from duration_problems(explain)
    os.mkdir(os.path.join(folder, "taken.svg"))
    for name, cause in (("none/p.svg", "No such file or directory (os error 2)"), ("taken.svg", FOLDER)):
        path = os.path.join(folder, name)
        error = of_file(path, cause) + b"central: device: write\n"
        yield f"explain: a picture that can't be written: {name}", list(differences(explain("--picture", path), b"", error, 3))


def unzoned_problems(explain):
    """An instant without a zone counts as UTC, and that is said."""
    start, at = b"central: --start has no zone and counts as UTC\n", b"central: --at has no zone and counts as UTC\n"
    for instant, said in (
        ("2025-01-03T12:00:00", start), ("2025-01-03 12:00:00", start), ("2025-01-03 12:00:00Z", b""), ("2025-01-03T13:00:00+01:00", b""),
    ):
        done = explain(day=[*DAY[:4], "--start", instant, *DAY[6:]])
        yield f"explain from {instant} on", list(differences(done, NIGHT_TABLE, said, 0))
    for instant, said in (("2025-01-03 11:00:00", at), ("2025-01-03 11:00:00Z", b""), ("2", b"")):
        yield f"explain at {instant}", list(differences(explain("--at", instant), NIGHT_TABLE, said, 0))


def present_problems(explain):
    """`explain --start now` prints what it prints of the clock's second, as a table and for programs."""

    def from_start(start, *more):
        return explain(*more, day=[*DAY[:4], "--start", start, *DAY[6:]])

    for name, more in (("for programs", ["--json"]), ("as a table", [])):
        before = int(time.time())
        done = from_start("now", *more)
        begins = [time.strftime("%Y-%m-%dT%H:%M:%SZ", time.gmtime(second)) for second in range(before, int(time.time()) + 1)]
        ok = done.stdout and any(not list(differences(done, from_start(start, *more).stdout, b"", 0)) for start in begins)
        yield f"explain from now on, {name}", [] if ok else [f"{done}"]


# Texts of one duration in each line, of which the first is its seconds.
DURATIONS = """\
1 +1 1s 001 PT1S P0DT1S
5400 90m +90m PT90M PT1H30M PT1H29M60S
86400 1d 24h 1440m 86400s P1D PT24H P0DT24H PT0H1440M
216000 60h PT60H P2DT12H P1DT35H59M60S
2678400 +2678400 31d 744h P31D P30DT24H
"""
NO_DURATIONS = (
    "", "0", "0d", "PT0S", "2678401", "32d", "745h", "P31DT1S", "2678400000000000000000", "-1", "++1", "1.5h", "1 h", "h", "d1", "1w",
    "1H", "1hh", "1h30m", "90min", "P", "PT", "P1", "P1DT", "PT1", "P1H", "PT1D", "PT1M1H", "PT1S1S", "P1M", "P1Y", "P1W", "PT1.5H",
    "PT1,5H", "p1d", "PT1h", "-PT1H", "+PT1H", "PT+1H", " 1", "1 ", "now", "\u0661",
)


def duration_problems(explain):
    """Texts of `--duration` that say the same print the same; others are refused."""

    def lasting(text):
        return explain("--json", day=[*DAY[:6], f"--duration={text}"])

    for line in DURATIONS.splitlines():
        seconds, *texts = line.split()
        wanted = lasting(seconds)
        ok = json.loads(wanted.stdout)["duration"] == int(seconds)
        failed = [text for text in texts if list(differences(lasting(text), wanted.stdout, b"", 0))]
        yield f"explain for {seconds} seconds", [] if ok and not failed else [f"{failed}, {wanted}"]
    error = b"central: command line: --duration is none from 1 second to 31 days, such as 3600, 90m, 12h, 2d or PT1H30M\n"
    failed = [text for text in NO_DURATIONS if list(differences(lasting(text), b"", error, 4))]
    yield "explain for no duration", [f"taken, or refused otherwise: {failed}"] if failed else []


def explain_order_problems(program, folder):
    """The order of `explain`'s faults: the command line, the site file, what is named in it, and then the script."""
    none, bad, good = (os.path.join(folder, name) for name in ("none", "blank", "good"))
    other, noon = ["--point", "CP9", *DAY[2:]], [*DAY[:4], "--start", "noon", *DAY[6:]]
    picture = b"central: command line: the name of a picture's file ends in .svg or .html\n"
    instant = b"central: command line: --start is no instant, such as 2025-01-01T12:00:00Z, and not now\n"
    zone = b"central: command line: --zone names no time zone of /usr/share/zoneinfo, such as Europe/Berlin\n"
    point = b"central: command line: no such point in the site file\n"
    for name, site, more, error, status in (
        ("a picture of another kind, and no site file", none, [*DAY, "--picture", "p.png"], picture, 4),
        ("no instant, and no site file", none, noon, instant, 4),
        ("no instant, and no duration", none, [*noon[:6], "--duration", "0"], instant, 4),
        ("no such zone, and no site file", none, [*DAY, "--zone", "Mars/Olympus"], zone, 4),
        ("no instant, and no such zone", none, [*noon, "--zone", "Mars/Olympus"], instant, 4),
        ("no site file, and no such point", none, other, of_file(none) + b"central: device: read\n", 3),
        ("a site file with a fault, and no such point", bad, other, b"central: site: NotAnObject\n", 1),
        ("no such point, and a script that can't be read", good, other, point, 4),
        ("a script that can't be read", good, DAY, b"central: device: read\n", 3),
    ):
        done = run_on(program, ["explain", "--site", site, *more], folder, False)
        yield f"explain: {name}", list(differences(done, b"", error, status))


FOLDER = "Is a directory (os error 21)"


def of_file(path, cause="No such file or directory (os error 2)"):
    """What is said of a file that can't be read or written."""
    return f"central: {path}: {cause}\n".encode()


def of_journal(folder, cause, did):
    """What is said where a folder's journal can't be read or written."""
    return f"central: {folder}/journal: {cause}\ncentral: device: {did}\n".encode()


def order_problems(program, folder):
    """The order of the faults of the other commands: the command line, the files that it names, then the script or the sockets."""
    none, bad, good = (os.path.join(folder, name) for name in ("none", "blank", "good"))
    read, words = b"central: device: read\n", b"central: command line: "
    no_file = of_file(none) + read
    url = b"central: url: not ws://HOST:PORT/PATH\n"
    # Nobody listens at port 9, and nothing can at `nowhere`.
    point = ["point", "--url", "ws://127.0.0.1:9", "--site"]
    call = ["call", "--url", "ws://127.0.0.1:9/operator/CP1", "--set-profile"]
    serve = ["serve", "--listen", "nowhere", "--workers", "1", "--sessions", "1", "--site"]
    for name, arguments, error, status in (
        ("show: no site file, and no script", ["show", "--site", none], no_file, 3),
        ("show: a site file with a fault, and no script", ["show", "--site", bad], b"central: site: NotAnObject\n", 1),
        ("show: no script", ["show", "--site", good], read, 3),
        ("show: a folder as site file", ["show", "--site", folder], of_file(folder, FOLDER) + read, 3),
        ("check: no site file, and no script", ["check", "--site", none], no_file, 3),
        ("show: no site file, and no script in a file", ["show", "--site", none, "--script", none], no_file, 3),
        ("point: a URL, and no site file", ["point", "--url", "http://x", "--site", none, "--id", "CP1"], url, 4),
        ("point: no site file, and nobody listens", [*point, none, "--id", "CP1"], no_file, 3),
        ("point: a site file with a fault, and no such point", [*point, bad, "--id", "CP9"], b"central: site: NotAnObject\n", 1),
        ("point: no such point, and nobody listens", [*point, good, "--id", "CP9"], words + b"no such point in the site file\n", 4),
        ("call: a URL, and no payload", ["call", "--url", "http://x", "--set-profile", none], url, 4),
        ("call: no payload, and nobody listens", [*call, none], no_file, 3),
        ("run: no site file, and no folder", ["run", "--site", none, "--data", good, "--listen", "nowhere"], no_file, 3),
        ("run: a file where the folder should be", ["run", "--site", good, "--data", good, "--listen", "nowhere"], of_journal(good, "Not a directory (os error 20)", "write"), 3),
        ("run: a site file with a fault, and no folder", ["run", "--site", bad, "--data", good, "--listen", "nowhere"], b"central: site: NotAnObject\ncentral: see central check --site " + bad.encode() + b"\n", 1),
        ("run: no port", ["run", "--site", good, "--data", os.path.join(folder, "run"), "--listen", "127.0.0.1"], words + b"--listen and --status want HOST:PORT, such as 127.0.0.1:9000\n", 4),
        ("run: no port of its status", ["run", "--site", good, "--data", os.path.join(folder, "run"), "--listen", "127.0.0.1:0", "--status", "localhost:x"], words + b"--listen and --status want HOST:PORT, such as 127.0.0.1:9000\n", 4),
        ("journal: no folder", ["journal", "--data", none], of_journal(none, "No such file or directory (os error 2)", "read"), 3),
        ("show: no folder", ["show", "--site", good, "--data", none], of_journal(none, "No such file or directory (os error 2)", "read"), 3),
        ("show: no place, and no site file", ["show", "--site", none, "--at", "noon"], words + b"--at is no number of lines, and no instant\n", 4),
        ("serve: no site file, and no address", [*serve, none], read, 3),
        ("serve: a site file with a fault, and no address", [*serve, bad], b"central: site: NotAnObject\n", 1),
        ("serve: no address", [*serve, good], b"central: device: socket\n", 3),
    ):
        yield name, list(differences(run_on(program, arguments, folder, False), b"", error, status))
    # What is found in a site file is told first.
    for name, site, found in (("a site file with a fault", bad, b"found a list"), ("a site file with a remark", good, b"remark: ")):
        done = run_on(program, ["check", "--site", site], folder, False)
        ok = (done.returncode, done.stderr) == (3, read) and found in done.stdout
        yield f"check: {name}, and no script", [] if ok else [f"{done}"]
        done = run_on(program, ["check", "--site", site, "--script", none], b"", False)
        ok = (done.returncode, done.stderr) == (3, no_file) and found in done.stdout
        yield f"check: {name}, and no script in a file", [] if ok else [f"{done}"]


def drawn_problems(program, folder):
    """The pictures in docs/pictures are those that the program draws of the examples today."""
    drawn = os.path.join(folder, "drawn")
    os.mkdir(drawn)
    subprocess.run([os.path.join(TOP, "tests", "pictures", "draw"), program, drawn], check=True)
    kept = os.path.join(TOP, "docs", "pictures")
    names = sorted(os.listdir(kept))
    ok = names == sorted(os.listdir(drawn)) and names
    differ = [name for name in names if bytes_of(os.path.join(kept, name)) != bytes_of(os.path.join(drawn, name))] if ok else names
    yield "pictures of the examples", [f"to be drawn anew: {differ}"] if differ or not ok else []
    yield from viewed_pictures([os.path.join(kept, name) for name in names])


def viewed_pictures(pictures):
    """The pictures in a viewer that isn't a browser: librsvg, where it is installed."""
    black = [name for name in pictures if b"var(" in bytes_of(name)]
    yield "pictures without variables, which browsers alone know", [f"with some: {black}"] if black else []
    if shutil.which("rsvg-convert") is None:
        yield "pictures by librsvg (not run: rsvg-convert isn't installed)", []
        return
    # They share a style sheet, and a picture takes seconds.
    for name in pictures[:2]:
        shares = shares_of_colours(subprocess.run(["rsvg-convert", name], capture_output=True, check=True).stdout)
        white, ink = (shares.get(colour, 0) for colour in ((255, 255, 255), (23, 32, 43)))
        ok = white > 0.4 and 0.001 < ink < 0.2
        yield f"{os.path.basename(name)} by librsvg", [] if ok else [f"{white:.0%} of it is white, {ink:.1%} as dark as the limit"]


CLEAR = b'2025-01-01T00:00:00Z operator CP1 [2,"a","ClearChargingProfile",{"chargingProfileId":9}]\n'


def check_and_show_problems(program, folder):
    """`check` by its statuses and by what it names, and `show` by what stands."""
    good, bad = (os.path.join(folder, name) for name in ("good", "blank"))
    heartbeat = b'2025-01-01T00:00:00Z point CP1 [2,"1","Heartbeat",{}]\n'
    for name, site, script, status, wanted in (
        ("nothing to find", good, b"", 0, ()),
        ("a clear of everything", good, CLEAR, 2, (b"script: line 1 (CP1): warning: ", b"clears EVERYTHING", b'"chargingProfileId"')),
        ("a line that says nothing", good, b"\n" + b"x\n", 1, (b"script: line 2: BadLine: ",)),
        ("an unknown point", good, heartbeat.replace(b"CP1", b"CP2"), 1, (b"line 1: UnknownPoint", b"CP1")),
        ("a site file with a fault", bad, CLEAR, 1, (b"found a list", b"an object such as")),
    ):
        done = run(program, ["check", "--site", site], script)
        ok = done.returncode == status and not done.stderr and all(text in done.stdout for text in wanted)
        yield f"check: {name}", [] if ok else [f"{done}"]
    yield from shared_remark_problems(program, folder)
    yield from given_up_problems(program, folder)
    traced = run(program, ["check", "--site", good, "--trace"], heartbeat).stdout
    ok = b"1     2025-01-01T00:00:00Z  CP1    point [2," in traced and b"* CP1 [2," in traced
    yield "check with a trace", [] if ok else [repr(traced)]
    shown = run(program, ["show", "--site", good], heartbeat)
    ok = shown.returncode == 0 and b"CP1" in shown.stdout and b"1 in flight" in shown.stdout
    yield "show", [] if ok else [f"{shown}"]
    yield from refused_line_problems(program, good)
    told = json.loads(run(program, ["show", "--site", good, "--at", "0", "--json"], heartbeat).stdout)
    yield "show for programs", [] if "CP1" in json.dumps(told) else [f"{told}"]


def given_up_problems(program, folder):
    """`check` says of the profile of a remote start that is given up, since its point has 200 profiles when the transaction begins."""
    at = '2025-01-01T00:00:0{} {} CP1 [2,"{}",'
    profile = (
        '"chargingProfileId":{},"stackLevel":{},"chargingProfilePurpose":"{}","chargingProfileKind":"Relative",'
        '"chargingSchedule":{{"chargingRateUnit":"A","chargingSchedulePeriod":[{{"startPeriod":0,"limit":6}}]}}'
    )
    asked = at.format("0Z", "operator", "a") + '"RemoteStartTransaction",{"connectorId":1,"idTag":"T1","chargingProfile":{%s}}]'
    start = at.format("9Z", "point", "s") + '"StartTransaction",{"connectorId":1,"idTag":"T1","meterStart":0,"timestamp":"2025-01-01T00:00:10Z"}]'
    for count, wanted in ((199, []), (200, ['TxProfile 5 of the remote start by idTag "T1" is given up: the point would have more than 200 profiles'])):
        lines = [asked % profile.format(5, 0, "TxProfile"), at.format("1Z", "point", "h") + '"Heartbeat",{}]']
        lines.append('2025-01-01T00:00:02Z point CP1 [3,"0",{"status":"Unknown"}]')
        for number in range(count):
            fields = '"SetChargingProfile",{"connectorId":%d,"csChargingProfiles":{%s}}]'
            row = profile.format(1_000 + number, number % 100, "TxDefaultProfile")
            lines.append(at.format("3Z", "operator", "i") + fields % (1 + number // 100, row))
        done = run(program, ["check", "--site", os.path.join(folder, "good")], "\n".join([*lines, start]).encode())
        found = [line for line in done.stdout.decode().splitlines() if line.startswith("script: ")]
        said = [f"script: line {count + 4} (CP1): warning: {text}" for text in wanted]
        ok = len(found) == len(said) and all(line.startswith(text) for line, text in zip(found, said))
        status = 2 if wanted else 0
        yield f"check of a remote start beside {count} profiles", [] if ok and done.returncode == status else [f"status {done.returncode}, {found}"]


def shared_remark_problems(program, folder):
    """Equal remarks on points of a site are one line; another point has its own."""
    points = [{"id": f"CP{number}", "ceiling": 63 if number != 20 else 62, "connectors": [32, 32]} for number in range(40)]
    site = os.path.join(folder, "many-remarks")
    with open(site, "w", encoding="utf-8") as file:
        json.dump({"unit": "A", "points": points}, file)
    remark = "remark: the connectors' ceilings are 64.0 together, more than the point's"
    ends = "; each connector alone is bounded by the point's\n"
    shared = f"{site}: points[0] (CP0) to points[39] (CP39), 39 points: {remark} 63.0{ends}"
    alone = f"{site}: points[20] (CP20): {remark} 62.0{ends}"
    done = run(program, ["check", "--site", site], b"")
    yield "check: equal remarks on points", list(differences(done, (shared + alone).encode(), b"", 0))


def refused_line_problems(program, site):
    """How many lines were refused stands on standard error. A schedule that is too long isn't counted: it isn't made."""
    periods = ",".join(f'{{"startPeriod":{step * 432},"limit":{6 + step % 2}}}' for step in range(200))
    install = (
        '2025-01-01T00:00:00Z operator CP1 [2,"i","SetChargingProfile",{"connectorId":0,"csChargingProfiles":{"chargingProfileId":1,'
        '"stackLevel":0,"chargingProfilePurpose":"TxDefaultProfile","chargingProfileKind":"Recurring","recurrencyKind":"Daily",'
        f'"chargingSchedule":{{"startSchedule":"2025-01-01T00:00:00Z","chargingRateUnit":"A","chargingSchedulePeriod":[{periods}]}}}}}}]\n'
    ).encode()
    too_long = b'2025-01-01T00:00:00Z operator CP1 [2,"l","GetCompositeSchedule",{"connectorId":1,"duration":2678400}]\n'
    played = run(program, ["replay", "--site", site], install + too_long).stdout
    yield "an ask whose schedule is too long", [] if b"ResultTooLong" in played else [repr(played)]
    checked = run(program, ["check", "--site", site], install + too_long).stdout
    yield "check of an ask whose schedule is too long", [] if b"ResultTooLong" in checked else [repr(checked)]
    for name, command in (("show", ["show", "--site", site]), ("explain", ["explain", "--site", site, *DAY])):
        done = run(program, command, install + too_long)
        ok = done.returncode == 0 and done.stdout and not done.stderr
        yield f"{name} of an ask whose schedule is too long", [] if ok else [f"{done}"]
        done = run(program, command, install + CLEAR.replace(b"CP1", b"CP9") + too_long + b"x\n")
        note = b"central: 2 of the script's lines have a fault or were refused: central check says which\n"
        ok = done.returncode == 2 and done.stdout and done.stderr == note
        yield f"{name} of lines that were refused", [] if ok else [f"{done}"]


def built_tests(program, crate):
    return os.path.join(os.path.dirname(program), "..", "..", crate, "out", f"{crate}_tests")


def allocations(library, test):
    """How many allocations a test makes, found by halving: none is refused past the last."""
    made, too_many = 0, 1 << 20
    while too_many - made > 1:
        number = (made + too_many) // 2
        environment = {**os.environ, "LD_PRELOAD": library, "REFUSED_ALLOCATION": str(number), "REPORT_REFUSED": ""}
        done = subprocess.run(test, capture_output=True, timeout=120, env=environment)
        # A test that is ended for want of memory aborts, and then nothing is reported.
        if done.returncode or b"an allocation was refused\n" in done.stderr:
            made = number
        else:
            too_many = number
    return made


def again_problems(library, test, in_a_row, least, numbers):
    """A test of what is tried again, refused its allocations from each in turn: it passes, unless it was set up without memory."""
    kinds = rb"OutOfMemory|AllocError|AllocFailed \{ \.\. \}|Io\(Kind\(OutOfMemory\)\)"
    no_memory = re.compile(rb"error: (" + kinds + rb")\n")
    problems, unready, refused, passes = [], 0, 0, 0
    for number in numbers:
        environment = {
            **os.environ,
            "LD_PRELOAD": library,
            "REFUSED_ALLOCATION": str(number),
            "REFUSED_IN_A_ROW": str(in_a_row),
            "REPORT_REFUSED": "",
        }
        done = subprocess.run(test, capture_output=True, timeout=120, env=environment)
        if done.returncode == 0:
            passes += 1
            refused += done.stderr == b"an allocation was refused\n"
        elif passes < 5 and no_memory.search(done.stdout + done.stderr):
            # A chunk of the site file's arena that is refused is asked for at half its size: that alone passes.
            unready, refused, passes = unready + 1, 0, 0
        else:
            problems.append(f"allocation {number}: status {done.returncode}, {done.stdout!r}, {done.stderr!r}")
            passes = 5
    if refused < least:
        problems.append(f"only {refused} runs were refused memory and passed")
    return f"{test[1]}: memory refused past the {unready} allocations of its beginning", problems


def ending_problems(library, test, step):
    """A test on threads, refused one of its allocations, each of so many in turn: it ends, whatever it finds."""
    problems, refused, unrefused = [], 0, 0
    for number in range(1, 20_000, step):
        environment = {**os.environ, "LD_PRELOAD": library, "REFUSED_ALLOCATION": str(number), "REPORT_REFUSED": ""}
        try:
            done = subprocess.run(test, capture_output=True, timeout=60, env=environment)
        except subprocess.TimeoutExpired:
            problems.append(f"allocation {number}: it doesn't end")
            break
        # A test that fails ends with 101, and an assertion in it with a signal.
        if done.returncode not in (0, 101, -signal.SIGABRT):
            problems.append(f"allocation {number}: status {done.returncode}, {done.stdout!r}, {done.stderr!r}")
        was_refused = done.returncode != 0 or b"an allocation was refused\n" in done.stderr
        refused, unrefused = refused + was_refused, 0 if was_refused else unrefused + 1
        if problems or unrefused == 3:
            break  # it went wrong, or three in a row had no effect: the test makes fewer allocations
    if refused < 30:
        problems.append(f"only {refused} runs were refused memory")
    return f"{test[1]}: it ends with each of {refused} allocations refused", problems


def refusals(program, library, case, more):
    """How many allocations the run of this case makes, with more options, and where a refused one ends it otherwise than it
    should."""
    arguments = [program, *case.words, *more]
    whole, nothing, status = case.wanted
    unrefused = (status, whole, nothing)
    refused, without_effect, problems = 0, 0, []
    for number in range(10_000):  # the run of number 0 refuses nothing
        environment = {**os.environ, "LD_PRELOAD": library, "REFUSED_ALLOCATION": str(number)}
        done = subprocess.run(arguments, input=case.script, capture_output=True, timeout=120, env=environment, cwd=case.folder)
        if (done.returncode, done.stdout, done.stderr) == unrefused:
            without_effect += number > 0
        else:
            refused, without_effect = refused + 1, 0
            if done.returncode != 3 or done.stderr != b"central: OutOfMemory\n" or not whole.startswith(done.stdout):
                problems.append(f"allocation {number}: status {done.returncode}, {done.stdout!r}, {done.stderr!r}")
        if problems or without_effect == 50:
            break  # it went wrong, or fifty in a row had no effect: the program makes fewer allocations
    return refused, problems


def case_problems(program, cases):
    """Each case with a command line, standard input, and what is wanted."""
    for name, arguments, given, *want in cases:
        yield name, list(differences(run(program, arguments, given), *want))


def main():
    if len(sys.argv) not in (2, 3) or sys.argv[2:] not in ([], ["cases"]):
        sys.exit(__doc__)
    program = os.path.abspath(sys.argv[1])
    results = list(played_cases(program))
    if len(sys.argv) == 2:
        results.extend(all_problems(program))
    for name, problems in results:
        for problem in problems:
            print(f"{name}: {problem}")
    failed = sum(1 for _, problems in results if problems)
    print(f"{len(results) - failed} passed, {failed} failed")
    sys.exit(1 if failed else 0)


def all_problems(program):
    """All but the cases."""
    results = []
    with tempfile.TemporaryDirectory() as folder:
        results.extend(case_problems(program, fault_cases(folder)))
        results.extend(site_check_problems(program, folder))
        results.extend(command_line_problems(program))
        results.extend(help_example_problems(program, folder))
        results.extend(first_schedule_problems(program, folder))
        results.extend(device_problems(program, folder))
        results.extend(failing_problems(program, folder))
        results.extend(closed_pipe_problems(program, folder))
        results.extend(explain_problems(program, folder))
        results.extend(order_problems(program, folder))
        results.extend(check_and_show_problems(program, folder))
        results.extend(drawn_problems(program, folder))
        results.extend(growth_problems(program, folder))
        results.extend(site_growth_problems(program, folder))
        if not UNPROVED:
            results.extend(memory_problems(program, folder))
    return results


main()
