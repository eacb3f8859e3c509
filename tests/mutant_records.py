"""The mutants of a crate as files, and the record of when those outside the gate were last refused.

The record of a crate is one line, crates/CRATE/edits/REFUSED: how many mutants were refused, on which day, and two sums.

- `own`: of the crate's src/, specs/, proofs/ and of its edits.
- `below`: of what the libraries of the repository below it are stated by. That is their specs/, and of their src/ all but
  the bodies of functions, functions that no other crate can name, and what the code uses: so types, constants, models,
  and the signatures and clauses of public functions and of impls of traits. A proof sees nothing else of another crate.

Both leave out comments and empty lines. Neither has the kit in it: with another kit, all mutants are tried anew. Bodies
are found by the layout that `rt fmt` gives, which the gate demands: a body ends at a brace under the `fn` that it is of.
"""
import functools
import hashlib
import os
import re

RECORD = re.compile(r"(\w+) (\d{4}-\d\d-\d\d) refused=(\d+) own=([0-9a-f]{16}) below=([0-9a-f]{16})\n")
# A text or character, which may hold the signs of a comment, or a comment.
CODE = re.compile(
    r"""\br(?P<signs>\#*)"[\s\S]*?"(?P=signs) | "(?:\\[\s\S]|[^"\\])*" | '(?:\\.[^'\n]*|[^'\\\n])' | (?P<comment>//[^\n]*)""",
    re.VERBOSE,
)
SPEC = re.compile(r"""\"(?:\\.|[^"\\\n])*"|(?P<comment>(?<!\S)--+(?!\S)[^\n]*)""")
FUNCTION = re.compile(r"( *)(pub )?(?:pub\([a-z]+\) )?(?:const |unsafe |ghost )*fn ")
USES = re.compile(r"(?m)^ *(?:pub\([a-z]+\) )?(?:use [^;]*|mod \w+);\n")


def edits_of(top, crate, folder="edits"):
    """The names of the mutants in a folder of the crate."""
    place = os.path.join(top, "crates", crate, folder)
    return sorted(name for name in os.listdir(place) if name.endswith(".edit")) if os.path.isdir(place) else []


def crates_of(top):
    """Each crate of crates.txt, with the names that stand behind it."""
    with open(os.path.join(top, "crates.txt"), encoding="utf-8") as file:
        lines = [line.partition(":") for line in file if not line.startswith("#")]
    return {name.strip(): used.split() for name, colon, used in lines if colon}


def below(crates, crate):
    """The crates of the repository that a crate is built on, however far below."""
    found = {name for name in crates[crate] if name in crates}
    return sorted(found.union(*(below(crates, name) for name in found)))


def mutated(top, crate, edit):
    """The files that a mutant changes, with their texts then, and why it can't be applied, or None. It reads what rt reads."""
    texts, was = {}, {}
    why = mutate(os.path.join(top, "crates", crate), edit, texts, was)
    return texts, why or (None if texts != was else "it changes nothing")


def mutate(folder, edit, texts, was):
    """Reads the files that a mutant names into both, and changes them in the first. Why it can't, or None."""
    path, old = "", None
    for line in read(edit).split("\n"):
        if line.startswith("file: "):
            path = line.removeprefix("file: ").strip()
            if path not in texts:
                place = os.path.join(folder, path)
                if not path.startswith(("src/", "specs/", "proofs/")) or not os.path.isfile(place):
                    return f"there is no file {path}"
                texts[path] = was[path] = read(place)
        elif line.startswith("old: "):
            old = line.removeprefix("old: ")
        elif line.startswith("new:"):
            if not path or not old:
                return "a line 'new:' has no 'file:' or 'old:' before it"
            found = texts[path].count(old)
            if found != 1:
                return f"its old text is in {path} {found} times: {old}"
            texts[path], old = texts[path].replace(old, line.removeprefix("new:").removeprefix(" ")), None
    return None


def read(path):
    with open(path, encoding="utf-8") as file:
        return file.read()


@functools.lru_cache(maxsize=None)
def without_comments(path):
    """A file of code or definitions without its comments and empty lines; any other file as it is."""
    text = read(path)
    pattern = {".rt": CODE, ".antt": SPEC}.get(os.path.splitext(path)[1])
    if pattern is None:
        return text
    kept = pattern.sub(lambda found: "" if found["comment"] is not None else found[0], text)
    return "".join(f"{line.rstrip()}\n" for line in kept.split("\n") if line.strip())


def is_stated(header, function):
    """Whether other crates can name a function: it is public, or of a trait, or of an impl of a trait."""
    of_trait = re.match(r"(pub )?(unsafe )?trait ", header) or " for " in header
    return bool(function[2] or function[1] and of_trait)


def header_with(header, line):
    """The head of the item at the margin that a line belongs to; that of an impl may take several lines."""
    if header.startswith(("impl", "unsafe impl")) and not header.endswith(("{", "{}")):
        return header + line
    return line if line[:1].strip() and line != "}" else header


@functools.lru_cache(maxsize=None)
def statements_of(path):
    """What a file of code states to other crates: without bodies, functions of its own, and what the code uses."""
    kept, header, body_ends, fn = [], "", None, None
    for line in USES.sub("", without_comments(path)).split("\n"):
        if body_ends is not None:
            body_ends = None if line == body_ends else body_ends
            continue
        begins = FUNCTION.match(line)
        if begins and fn is None:
            fn, signature, depth = begins, [], 0
        if fn is None:
            header = header_with(header, line)
            kept.append(line)
            continue
        signature.append(line)
        # Braces of clauses are closed before a body begins.
        is_outside = depth == 0 and not line.removeprefix(fn[1]).startswith(" ")
        bare = CODE.sub("", line)
        depth += bare.count("{") - bare.count("}")
        has_body = is_outside and line.endswith("{")
        if has_body or is_outside and line.endswith("{}") or depth == 0 and line.endswith(";"):
            kept += signature if is_stated(header, fn) else []
            body_ends, fn = fn[1] + "}" if has_body else None, None
    if body_ends is not None or fn is not None:
        raise ValueError(f"{path}: a function's end isn't found: run rt fmt")
    return "\n".join(kept)


def files_below(folder):
    for at, folders, names in os.walk(folder):
        folders.sort()
        yield from (os.path.join(at, name) for name in sorted(names))


def lines_of(top, crate):
    """How many lines of code a crate has."""
    return sum(read(path).count("\n") for path in files_below(os.path.join(top, "crates", crate, "src")))


def sum_of(folder, texts):
    """A sum of texts and the names of their files in the folder, but for empty ones."""
    made = hashlib.sha256()
    for path, text in texts:
        if text.strip():
            made.update(repr((os.path.relpath(path, folder), text)).encode())
    return made.hexdigest()[:16]


def sums_of(top, crate):
    """The two sums of a crate as it stands: `own` and `below`."""
    folder = os.path.join(top, "crates", crate)
    own = sources_of(top, crate)
    own += [(path, read(path)) for path in (os.path.join(folder, "edits", name) for name in edits_of(top, crate))]
    return sum_of(folder, own), sum_below(top, crate)


def sources_of(top, crate):
    """The files that the proof of a crate reads, without their comments."""
    folder = os.path.join(top, "crates", crate)
    files = [path for part in ("src", "specs", "proofs") for path in files_below(os.path.join(folder, part))]
    return [(path, without_comments(path)) for path in files]


def sum_of_sources(top, crate):
    return sum_of(os.path.join(top, "crates", crate), sources_of(top, crate))


def changed_at(top, crate):
    """When the newest of the files that the proof of a crate reads was written."""
    return max(os.path.getmtime(path) for path, _ in sources_of(top, crate))


def sum_below(top, crate):
    """The sum of what the libraries below a crate state."""
    stated = []
    for library in below(crates_of(top), crate):
        place = os.path.join(top, "crates", library)
        stated += [(path, without_comments(path)) for path in files_below(os.path.join(place, "specs"))]
        stated += [(path, statements_of(path)) for path in files_below(os.path.join(place, "src"))]
    return sum_of(os.path.join(top, "crates"), stated)


def place_of(top, crate):
    return os.path.join(top, "crates", crate, "edits", "REFUSED")


def has_record(top, crate):
    return os.path.isfile(place_of(top, crate))


def why_left(top, crate):
    """Why a crate's mutants have to be tried, or None where its record fits."""
    if not has_record(top, crate):
        return "its mutants were never all refused"
    found = RECORD.fullmatch(read(place_of(top, crate)))
    if not found or found[1] != crate:
        return "its record can't be read"
    own, stated = sums_of(top, crate)
    changed = ["its files"] * (found[4] != own) + ["the clauses below it"] * (found[5] != stated)
    return f"{' and '.join(changed)} changed since {found[2]}" if changed else None


def write_record(top, crate, number, day, sums):
    with open(place_of(top, crate), "w", encoding="utf-8") as file:
        file.write(f"{crate} {day} refused={number} own={sums[0]} below={sums[1]}\n")
