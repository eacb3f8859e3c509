"""The crates of tests as one crate, so that the libraries below them are compiled once for all of their tests.

Each of them becomes a module of the crate `all_tests`, in a copy of the sources: `rt try --test` compiles all below a crate
anew, and most of its time is that.
"""
import os
import re
import shutil

NAME = "all_tests"
LINES = re.compile(r"^(\w+):(.*)$", re.MULTILINE)
TACTIC = "#![tactic(auto)]\n"


def copied_sources(top, folder):
    """Copies the sources there, with the crate of all tests beside them. The names of the crates that are its modules."""
    for name in ("crates.txt", "HANDLES"):
        shutil.copy(os.path.join(top, name), folder)
    crates = os.path.join(folder, "crates")
    shutil.copytree(os.path.join(top, "crates"), crates, ignore=shutil.ignore_patterns("out"))
    with open(os.path.join(folder, "crates.txt"), encoding="utf-8") as file:
        uses = {name: words.split() for name, words in LINES.findall(file.read())}
    of_tests = [name for name in uses if has_tests(os.path.join(crates, name))]
    put_modules(crates, of_tests)
    used = dict.fromkeys(library for name in of_tests for library in uses[name])
    with open(os.path.join(folder, "crates.txt"), "a", encoding="utf-8") as file:
        file.write(f"{NAME}: {' '.join(used)}\n")
    return of_tests


def sources_of(crate):
    """The path of each source below a crate's `src`."""
    for folder, _, files in os.walk(os.path.join(crate, "src")):
        for file in files:
            yield os.path.join(folder, file)


def has_tests(crate):
    return any("#[test]" in read(path) for path in sources_of(crate))


def put_modules(crates, of_tests):
    """Writes the crate of all tests: a module for each of these crates."""
    made = os.path.join(crates, NAME, "src")
    os.makedirs(made)
    for name in of_tests:
        for path in sources_of(os.path.join(crates, name)):
            within = os.path.relpath(path, os.path.join(crates, name, "src"))
            put = os.path.join(made, f"{name}.rt" if within == "lib.rt" else os.path.join(name, within))
            os.makedirs(os.path.dirname(put), exist_ok=True)
            write(put, re.sub(r"\bcrate::", f"crate::{name}::", read(path).replace(TACTIC, "")))
    modules = "".join(f"\n#[cfg(test)]\nmod {name};\n" for name in of_tests)
    write(os.path.join(made, "lib.rt"), f"//! All crates of tests.\n{TACTIC}{modules}")


def read(path):
    with open(path, encoding="utf-8") as file:
        return file.read()


def write(path, text):
    with open(path, "w", encoding="utf-8") as file:
        file.write(text)
