"""The form of a case. tests/program.py plays all of them, tests/sockets/replays.py those of `replay` over sockets.

A case is a folder of examples/ or below tests/cases/ with these files:

- `script`: standard input;
- `stdout`: what has to be printed, byte for byte;
- `command`: the command and its options but for the site file, which `call` has none of; without it, `replay`;
- `site.json`: the site file; without it, the nearest one in a folder above;
- `status`: the exit status; without it, 0;
- `stderr`: what has to be on standard error; without it, nothing;
- `picture.svg`, `page.html`: lines that have to be in what the command draws with `--picture`, and behind `not ` what may not;
  without them, nothing is drawn.

The program runs in the folder. Where a script or a site file is that of another folder, `script.of` or `site.json.of` names that
folder instead. An example has files of its own, so that its commands work as they stand.
"""
import os

TOP = os.path.dirname(os.path.dirname(os.path.realpath(__file__)))


def found_in(folder, file):
    """The path of a folder's file, its own or that of the folder that `FILE.of` names, or None."""
    path = os.path.join(folder, file)
    if os.path.isfile(path):
        return path
    if not os.path.isfile(f"{path}.of"):
        return None
    with open(f"{path}.of", encoding="utf-8") as opened:
        return os.path.normpath(os.path.join(folder, opened.read().strip(), file))


class Case:
    def __init__(self, name):
        self.name = name
        self.folder = os.path.join(TOP, name)

    def path(self, file):
        return os.path.join(self.folder, file)

    def content(self, file, default=b""):
        path = found_in(self.folder, file)
        if path is None:
            return default
        with open(path, "rb") as opened:
            return opened.read()

    @property
    def site(self):
        folder = self.folder
        while found_in(folder, "site.json") is None:
            if folder == TOP:
                raise FileNotFoundError(f"{self.name}: no site.json here or above")
            folder = os.path.dirname(folder)
        return found_in(folder, "site.json")

    @property
    def words(self):
        """The command line behind the program, from the case's folder."""
        command, *more = self.content("command", b"replay").decode().split()
        if command == "call":
            return [command, *more]
        return [command, "--site", os.path.relpath(self.site, self.folder), *more]

    @property
    def script(self):
        return self.content("script")

    @property
    def wanted(self):
        """Standard output, standard error and the exit status."""
        return self.content("stdout"), self.content("stderr"), int(self.content("status", b"0"))


def all_cases():
    """Each case, by the order of their names."""
    for top in ("examples", "tests/cases"):
        for folder, folders, files in os.walk(os.path.join(TOP, top)):
            folders.sort()
            if "script" in files or "script.of" in files:
                yield Case(os.path.relpath(folder, TOP))
