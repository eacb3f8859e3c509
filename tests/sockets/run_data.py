"""The folder of a site that is run, how large the tests of it are, and what its readers say."""
import json
import os
import re
import subprocess
import sys
import tempfile

from serving import ENVIRONMENT, PATIENCE, expect, limit
from texts import call, plain_site

SITE = plain_site(2)
# How far a long reading is, on a busy machine perhaps any.
PROGRESS = re.compile(r"central: \d+ lines read\n")

# The unproved program looks for leaks when it ends, which it can't below strace.
NO_LEAKS = {"ASAN_OPTIONS": ENVIRONMENT["ASAN_OPTIONS"] + ":detect_leaks=0"}


def size(gate, unproved, large):
    """How much a test does: in the gate, on a program that isn't proved, and with `--large`."""
    if "LARGE" in os.environ:
        return large
    return unproved if "UNPROVED" in os.environ else gate


def tell(figures):
    """Prints what was measured beside a test, where somebody asked for it."""
    if "LARGE" in os.environ or "FIGURES" in os.environ:
        print(f"  {figures}", flush=True)


class Data:
    """The name of a folder that isn't there yet, in a folder of its own: in memory where that is said."""

    def __init__(self, in_memory=False):
        self.above = "/dev/shm" if in_memory and os.access("/dev/shm", os.W_OK) else None

    def __enter__(self):
        self.folder = tempfile.TemporaryDirectory(dir=self.above)
        self.path = os.path.join(self.folder.name, "data")
        return self

    def __exit__(self, *_):
        self.folder.cleanup()

    @property
    def journal(self):
        return os.path.join(self.path, "journal")

    def bytes(self):
        with open(self.journal, "rb") as file:
            return file.read()

    def write(self, content):
        os.makedirs(self.path, exist_ok=True)
        with open(self.journal, "wb") as file:
            file.write(content)

    def lines(self):
        """What follows the moment of each line behind the first."""
        whole = self.bytes().decode().split("\n")
        expect("behind the last line", whole[-1], "")
        return [line.partition(" ")[2] for line in whole[1:-1]]


class SmallDevice(Data):
    """The name of a folder on a device of 3 MiB, which can be filled; None where none can be made."""

    def __enter__(self):
        super().__enter__()
        made = subprocess.run(["mount", "-t", "tmpfs", "-o", "size=3m", "tmpfs", self.folder.name], capture_output=True, check=False)
        self.filler = os.path.join(self.folder.name, "filler")
        if made.returncode:
            print("  no device can be mounted here", file=sys.stderr)
        return None if made.returncode else self

    def __exit__(self, *problem):
        subprocess.run(["umount", self.folder.name], capture_output=True, check=False)
        super().__exit__(*problem)

    def fill(self):
        file = os.open(self.filler, os.O_CREAT | os.O_WRONLY | os.O_APPEND)
        try:
            while True:
                os.write(file, bytes(4_096))
        except OSError:
            os.close(file)

    def has_room_again(self):
        os.remove(self.filler)


class SiteFile:
    """A file of a site's text."""

    def __init__(self, text):
        self.text = text

    def __enter__(self):
        self.file = tempfile.NamedTemporaryFile("w", suffix=".json")
        self.file.write(self.text)
        self.file.flush()
        return self.file.name

    def __exit__(self, *_):
        self.file.close()


def once(program, data, of=SITE, limits=None):
    """Starts to run a site that isn't to begin. Its status, and what it said."""
    with SiteFile(of) as path:
        done = subprocess.run(
            run_words(program, data, path), capture_output=True, timeout=PATIENCE, check=False, env=ENVIRONMENT,
            preexec_fn=lambda: limit(limits or {}),
        )
    return done.returncode, done.stdout, done.stderr.decode()


def run_words(program, data, site_path):
    return [program, "run", "--site", site_path, "--data", data.path, "--listen", "127.0.0.1:0"]


def read(program, data, *command, of=SITE):
    """What a command says that reads the journal, but for how far it is. The site file is called F."""
    status, out, said = done_with(program, of, command, "", ("--data", data.path))
    return status, out, PROGRESS.sub("", said)


def of_script(program, script, *command, of=SITE):
    """What a command says of a script: its status, and what it prints."""
    return done_with(program, of, command, script)[:2]


def done_with(program, of, command, script, more=()):
    """The status of a command on a site and a script, what it prints, and what it says."""
    with SiteFile(of) as path:
        named = [] if command[0] == "journal" else ["--site", path]
        done = subprocess.run(
            [program, command[0], *named, *more, *command[1:]], input=script.encode(), capture_output=True, timeout=PATIENCE,
            check=False, env=ENVIRONMENT,
        )
        return done.returncode, done.stdout.decode().replace(path, "F"), done.stderr.decode()


def transaction_of(text):
    return json.loads(text)[2]["transactionId"]


def stop(message_id, transaction):
    return call(message_id, "StopTransaction", {"transactionId": transaction, "meterStop": 1, "timestamp": "2025-01-01T00:00:00Z"})
