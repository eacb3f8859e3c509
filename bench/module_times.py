#!/usr/bin/env python3
"""module_times.py CRATE|FOLDER [N]: the N dearest functions and modules of the last `rt check --jobs 1` of a crate (30 each).

A check keeps each module in out/incremental when it is done with it, so that the time between two files is the later
one's. `--progress` names functions alone, and not the modules that come before all of them: the `Lts` of a function,
which says what it holds and drops at each of its steps, is the dearest of most. Next come its `Proof`, where a goal is
searched for long, and its `Tie`. A function's time is that of all its modules. A module of an earlier check counts
nothing, so for a whole crate remove out/incremental first. FOLDER is one that `rattle check --incremental` was given.
Times are those of the clock on the wall: beside other checks only their shares say something.
"""
import collections
import glob
import os
import re
import sys

TOP = os.path.dirname(os.path.dirname(os.path.abspath(__file__)))
# The modules that the prover makes of a function, perhaps one in another.
PART = re.compile(
    r"\.(decls|Lts(-.*)?|Proof|Tie|Answers|Layout|Kinds(-.*)?|Named|Code|Mir|Statement|Met|Invariants|Reads|Goals|Given"
    r"|View|Symbol|Key|TheLink)$"
)


def function_of(module):
    """The function, type or file that a module is of."""
    name = re.sub(r"^Rattle-\w+?-(proofs|specs)\.(contracts\.)?", "", module)
    while PART.search(name):
        name = PART.sub("", name)
    return name


def main():
    crate, most = sys.argv[1], int(sys.argv[2]) if len(sys.argv) > 2 else 30
    folder = crate if os.path.isdir(crate) else f"{TOP}/crates/{crate}/out/incremental"
    files = glob.glob(f"{folder}/*/*.oantt")
    times = sorted((os.stat(file).st_mtime, os.path.basename(file).removesuffix(".oantt")) for file in files)
    if not times:
        sys.exit(f"no check of {crate}")
    spent = [(later - earlier, name) for (earlier, _), (later, name) in zip(times, times[1:])]
    functions = collections.Counter()
    for seconds, name in spent:
        functions[function_of(name)] += seconds
    print(f"{len(times)} modules in {times[-1][0] - times[0][0]:.0f} s; functions:")
    for name, seconds in functions.most_common(most):
        print(f"{seconds:8.2f}  {name}")
    print("modules:")
    for seconds, name in sorted(spent, reverse=True)[:most]:
        print(f"{seconds:8.2f}  {name}")


if __name__ == "__main__":
    main()
