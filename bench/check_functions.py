#!/usr/bin/env python3
"""check_functions.py CLONE CRATE FUNCTION..: proves functions of a crate, and those that they call.

The crates below are read as `rt ci` built them in CLONE, so they aren't proved again, as `rt check` in a new clone does: a function
takes a minute, not an hour. Says if clauses below differ there: those of CLONE are used.
FUNCTION is a function, a type or a module by its path below the crate, or the end of it. The last line is `only=N proved=M`.
"""
import os
import sys

TOP = os.path.dirname(os.path.dirname(os.path.abspath(__file__)))
KIT = "/opt/rattle"
sys.path.insert(0, os.path.join(TOP, "tests"))
import mutant_records as records  # noqa: E402


def place_of(clone, library):
    built = os.path.join(clone, "crates", library, "out", "rlib", f"{library}.rlib")
    return built if os.path.isdir(built) else os.path.join(KIT, "rlibs", f"{library}.rlib")


def root_of(folder):
    return next(root for root in ("src/main.rt", "src/lib.rt") if os.path.exists(os.path.join(folder, root)))


def command(folder, crate, clone, functions):
    """The command, to be run in a crate's folder, that proves some of its functions over a clone's libraries."""
    uses = records.crates_of(TOP)
    words = [f"{KIT}/bin/rattle", "check", "--crate-name", crate, root_of(folder)]
    words += ["--extern", f"std={KIT}/rlibs/std.rlib", "-L", f"dependency={KIT}/rlibs"]
    for library in uses[crate]:
        words += ["--extern", f"{library}={place_of(clone, library)}"]
    for library in records.below(uses, crate):
        words += ["-L", f"dependency={os.path.dirname(place_of(clone, library))}"]
    words += ["--antt-project", f"{KIT}/rattle/logic/antt-project.json", "--logic-built", f"{KIT}/logic_built"]
    for function in functions:
        words += ["--only", function]
    return words


def main():
    if len(sys.argv) < 3:
        sys.exit(__doc__)
    clone, crate, *functions = os.path.abspath(sys.argv[1]), *sys.argv[2:]
    if records.sum_below(TOP, crate) != records.sum_below(clone, crate):
        print(f"check_functions: the clauses below {crate} aren't the same in {clone}", file=sys.stderr, flush=True)
    folder = os.path.join(TOP, "crates", crate)
    words = command(folder, crate, clone, functions)
    os.chdir(folder)
    os.execv(words[0], words)


if __name__ == "__main__":
    main()
