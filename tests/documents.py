#!/usr/bin/env python3
"""documents.py [TOP]: compares the pages with the tree, and prints 'N passed, M failed'.

TOP is the repository, by default the one that this file stands in. First it prints a table: each page's size, the mean and
the longest of its sentences in words, and the words that it should do without. What is compared:

- each page with its size, its sentences and the words of WORDS; comments and the help with CODE_WORDS;
- the table of limits in COMMANDS with each crate's specs/Limits.antt and the limits of the command line, both ways; that
  no other page has one of the large numbers; the numbers in sentences and in the help with the limits;
- the actions in PROTOCOL, and those that DIFFERENCES says are there, with messages/specs/ActionKind.antt;
- the refusals in PROTOCOL with ocpp_scalars/specs/Refusal.antt, and each sentence with that of the code;
- the crates with ARCHITECTURE and with their own READMEs, which link to each caller of a library;
- the examples and cases that are named with the folders, and that no script or site file is there twice;
- the version in CHANGELOG with that of the program, and the kit with what the program prints;
- each path in a page with the tree, each name in brackets behind a file with that file, each link with its file and its
  heading, in the repository and in the Debian package;
- that no page names a paper, a request or a row by a number.
"""
import collections
import fnmatch
import os
import re
import subprocess
import sys
import tempfile

from markdown import (
    anchors_of, block_lines, links_of, prose_of, rows_of, section_of, sentences_of, tables_of, without_blocks, words_of,
)

HERE = os.path.dirname(os.path.dirname(os.path.abspath(__file__)))

# The most that a page may have, in KB of 1,024 bytes. README is counted in lines.
SIZES = {
    "docs/RUNNING.md": 17,
    "docs/COMMANDS.md": 17,
    "docs/PROTOCOL.md": 26,
    "docs/DIFFERENCES.md": 20,
    "docs/MEANING.md": 11,
    "docs/ARCHITECTURE.md": 17,
    "docs/WORKING.md": 15,
    "docs/REVIEWING.md": 9,
    "docs/PROOFS.md": 16,
    "docs/DECISIONS.md": 8,
    "bench/README.md": 7,
    "examples/README.md": 7,
    "examples/cookbook/README.md": 10,
    "examples/fleet/README.md": 7,
    "tests/README.md": 4,
}
OTHER_SIZE = 8
ALL_SIZE = 240
README_LINES = 110
MEAN_WORDS = 25
LONGEST_WORDS = 60
# Words that a page should do without, each with its pattern and what stands in its place.
WORDS = {
    "stands twice": (r"\b(?:stands?|stood) twice\b", "a duplicate field"),
    "told": (r"\b(?:told|tells?)\b(?! so or ended)", "answered, reported, printed, retransmitted"),
    "whoever": (r"\bwhoever\b", "a client, a contributor"),
    # The phrases left out stand in the section of the gate and that of cheap tests, which are written elsewhere.
    "What ..": (
        r"(?m)^(?:#+ )?What\b(?! (?:to watch$|keeps it cheap\b))|(?<=[.!?] )What\b(?! (?:fails ends|lies between)\b)",
        "a sentence or a heading that begins with its subject",
    ),
    # Four sentences of the program have it of connectors.
    "stands": (r"\bstands?\b(?! at (?:a |another )?connector)", "is, has"),
    "anew": (r"\banew\b(?! since\b)", "again, re-.."),
    "looked at": (r"\blooked at\b", "read, checked"),
    "Excepted": (r"\bExcepted\b", "This excludes .."),
    "want of memory": (r"\bwant of memory\b", "out of memory, a failed allocation"),
    "so many": (r"\bso many\b", "N"),
    "stretch": (r"\bstretch(?:es)?\b", "an interval"),
    "ask": (r"\b(?:an|the|each|every|one|its|this|held|\d+) ask\b|\b(?:the|its|held|two|\d+) asks\b|\basks of\b", "a request"),
    "plant": (r"\bplant(?:s|ed|ing)?\b", "a mutant"),
    "Owed": (r"\bOwed\b", "Open"),
}

# Definitions in Limits.antt that bound nothing which a user sends, and so have no row; the page that has the number.
NO_LIMITS = {
    "ocpp_scalars last_day": None,  # the day of the last second
    "profile day": "docs/MEANING.md",
    "profile week": "docs/MEANING.md",
    "version_store fold_from": None,  # when a history folds
    "version_store room": None,  # the memory that a history keeps
}
LIMITS_PAGE = "docs/COMMANDS.md"
# Pages in which a large limit is a link.
PAGES_WITHOUT_LIMITS = [
    f"docs/{page}.md" for page in ("RUNNING", "PROTOCOL", "MEANING", "DIFFERENCES", "DECISIONS", "ARCHITECTURE", "WORKING")
]
# Words of paths that stand for others, and what is built and so isn't in the tree.
PLACEHOLDERS = re.compile(r"[A-Z]{4,}/|/[A-Z]{3,}\b(?!\.md)|\*|\.\.\.|/out(/|$)|^out/|^NAME|CRATE")
FILE_ENDINGS = (".rt", ".antt", ".py", ".md", ".json", ".js", ".c", ".txt", ".edit")
TOP_FOLDERS = ("crates/", "docs/", "examples/", "tests/", "bench/", "packaging/")
NUMBER = re.compile(r"\d{4}-\d\d-\d\dT[\d:]+Z|-?\d[\d,]*(?:\.\d)?")
NUMBERED = re.compile(
    r"\b(?:document|paper|request|issue|ticket|row|requirement|theorem|wrong body)s?\s+#?\d+\b(?![,.]\d)"
    r"|(?<![\w.:-])[TRW]\d{1,2}\b|(?<![\w#])#\d+\b",
    re.IGNORECASE,
)


def text_of(top, path):
    """A file's text; none where there is no such file."""
    path = os.path.join(top, path)
    if not os.path.isfile(path):
        return ""
    with open(path, encoding="utf-8") as file:
        return file.read()


def files_of(top):
    """The files of the tree that git knows or would know; where it isn't git's, all but what is built."""
    command = ["git", "-C", top, "ls-files", "--cached", "--others", "--exclude-standard"]
    listed = subprocess.run(command, capture_output=True, text=True, check=False)
    if listed.returncode == 0:
        return [name for name in listed.stdout.split("\n") if name and os.path.exists(os.path.join(top, name))]
    names = []
    for folder, folders, files in os.walk(top):
        folders[:] = [name for name in folders if name not in (".git", "out", "target", "__pycache__")]
        names += [os.path.relpath(os.path.join(folder, name), top) for name in files]
    return names


def documents_of(files):
    """The pages: all Markdown."""
    return sorted(name for name in files if name.endswith(".md"))


# ---- sizes, sentences and words

def lengths_of(text):
    """The number of words of each sentence in running text and in cells of tables."""
    running = "\n".join("" if line.lstrip().startswith("|") else line for line in text.split("\n"))
    return [[len(words_of(sentence)) for sentence in sentences_of(part)] for part in (running, text)]


def forbidden_of(text):
    """The words of a page that it should do without, with how often."""
    prose = "\n".join([*prose_of(text), *(line for line in without_blocks(text) if line.startswith("#"))])
    found = {word: len(re.findall(pattern, prose, re.IGNORECASE if word.islower() else 0)) for word, (pattern, _) in WORDS.items()}
    return {word: count for word, count in found.items() if count}


def measures_of(top, page):
    """A page's size in KB, the mean and the longest of its sentences, and its forbidden words."""
    text = text_of(top, page)
    running, all_sentences = lengths_of(text)
    mean = sum(running) / len(running) if running else 0
    return len(text.encode()) / 1024, mean, max(all_sentences, default=0), forbidden_of(text)


def print_measures(top, files):
    print(f"{'page':40} {'KB':>5} {'mean':>5} {'longest':>7}  words")
    total = 0
    for page in documents_of(files):
        size, mean, longest, words = measures_of(top, page)
        total += size
        found = ", ".join(f"{word} {count}" for word, count in words.items())
        print(f"{page:40} {size:5.1f} {mean:5.1f} {longest:7}  {found}".rstrip())
    print(f"{'all':40} {total:5.1f}")


def size_problems(top, files):
    total = 0
    for page in sorted({*documents_of(files), *SIZES}):
        size = len(text_of(top, page).encode()) / 1024
        total += size
        most = SIZES.get(page, OTHER_SIZE)
        if not size:
            yield f"{page}: no such page"
        elif page == "README.md":
            lines = text_of(top, page).count("\n")
            if lines > README_LINES:
                yield f"{page}: {lines} lines, at most {README_LINES}"
        elif size > most:
            yield f"{page}: {size:.1f} KB, at most {most}"
    if total > ALL_SIZE:
        yield f"all pages: {total:.1f} KB, at most {ALL_SIZE}"


def sentence_problems(top, files):
    for page in documents_of(files):
        _, mean, longest, _ = measures_of(top, page)
        if mean > MEAN_WORDS:
            yield f"{page}: {mean:.1f} words a sentence, at most {MEAN_WORDS} in the mean"
        if longest > LONGEST_WORDS:
            found = max(sentences_of(text_of(top, page)), key=lambda sentence: len(words_of(sentence)))
            yield f"{page}: a sentence of {longest} words, at most {LONGEST_WORDS}: {found[:100]}.."


def word_problems(top, files):
    for page in documents_of(files):
        for word, count in measures_of(top, page)[3].items():
            yield f"{page}: '{word}' {count} times, in place of {WORDS[word][1]}"


COMMENT = re.compile(r"\s*(?:///|//!|//|--) ?(.*)")
# Words that a comment or the help should do without: those of pages but for two, which are names in code.
CODE_WORDS = {
    **{word: row for word, row in WORDS.items() if word not in ("ask", "plant")},
    "What ..": (r"(?:^|(?<=[.!?:] ))What\b", "a noun: the value, the lines that .."),
    "so long": (r"\bso (?:long|much)\b(?! as)", "N seconds, this long"),
    "nobody": (r"\b(?:nobody|somebody)\b", "no thread, no client, a user"),
}
HELP_FILES = ("crates/command_line/src/help_text.rt", "crates/command_line/src/command_rows.rt")


def comments_of(text):
    """The comments of a source: for each block of lines its first line's number, and its text with CODE for code."""
    block, first = [], 0
    for number, line in enumerate([*text.split("\n"), ""], 1):
        found = COMMENT.fullmatch(line)
        if found and found[1]:
            first = first if block else number
            block.append(found[1])
        elif block:
            yield first, re.sub(r"`[^`]*`", "CODE", " ".join(block))
            block = []


def code_word_problems(top, files):
    """The same in comments and in the help."""
    for name in files:
        if not re.fullmatch(r"crates/.*\.(?:rt|antt)", name):
            continue
        text = text_of(top, name)
        blocks = list(comments_of(text))
        if name in HELP_FILES:
            blocks += [(1 + text.count("\n", 0, found.start()), found[1]) for found in re.finditer(r'"((?:[^"\\\\]|\\\\.)*)"', text)]
        for number, block in blocks:
            for word, (pattern, better) in CODE_WORDS.items():
                if re.search(pattern, block, re.IGNORECASE if word.islower() else 0):
                    yield f"{name}:{number}: '{word}' in place of {better}"


# ---- limits

def limits_of(top, files):
    """The limits of the definitions: 'crate name' to its value."""
    limits = {}
    sources = [name for name in files if re.fullmatch(r"crates/\w+/specs/Limits\.antt", name)]
    for name in sources:
        crate = name.split("/")[1]
        for limit, value in re.findall(r"^(\w+) = ([\d_]+)$", text_of(top, name), re.MULTILINE):
            limits[f"{crate} {limit}"] = int(value.replace("_", ""))
    return limits


def written(limit, value):
    """How the page writes a limit."""
    if limit.endswith("max_tenths"):
        return f"{value / 10:,.1f}"
    if limit.endswith("last_second"):
        days, seconds = divmod(value, 86_400)
        assert (days, seconds) == (2_932_896, 86_399)
        return "9999-12-31T23:59:59Z"
    if limit.endswith("max_negative_whole"):
        return f"-{value:,}"
    return f"{value:,}"


def limit_problems(top, files):
    limits = limits_of(top, files)
    told = set()
    for what, cell, source in rows_of(section_of(text_of(top, LIMITS_PAGE), "Limits")):
        numbers = set(NUMBER.findall(re.sub(r"\b[01] to |^1970-01-01T00:00:00Z to ", "", cell)))
        cited = {f"{crate} {name}" for crate, name in re.findall(r"`(\w+)` `(\w+)`", source)}
        told |= cited
        for limit in sorted(cited - set(limits)):
            yield f"{LIMITS_PAGE}, {what}: no definition {limit}"
        values = {written(limit, limits[limit]) for limit in cited & set(limits)}
        if values != numbers and "by the library" not in source:
            yield f"{LIMITS_PAGE}, {what}: {cell}, but by {source} it is {', '.join(sorted(values))}"
    for limit in sorted(set(limits) - told - set(NO_LIMITS)):
        yield f"{LIMITS_PAGE}: no row for {limit} = {limits[limit]:,}"
    for limit, page in NO_LIMITS.items():
        if page and not re.search(rf"(?<![\d,]){limits.get(limit, -1):,}(?![\d,]*\d)", text_of(top, page)):
            yield f"{page}: {limit} isn't there, or with another number"


def repeated_limit_problems(top, files):
    large = {written(limit, value): limit for limit, value in limits_of(top, files).items()
             if value >= 100_000 and limit not in NO_LIMITS and not limit.endswith("last_second")}
    for page in PAGES_WITHOUT_LIMITS:
        for number, line in enumerate(without_blocks(text_of(top, page)), 1):
            for value in large:
                if re.search(rf"(?<![\d,.]){re.escape(value.lstrip('-'))}(?![\d,.]\d)", line):
                    yield f"{page}:{number}: the limit {value} ({large[value]}) stands in {LIMITS_PAGE}"


def numbers_in_literals(text):
    """The numbers above 9 in the string literals of a code text, instants left out."""
    for literal in re.findall(r'"((?:[^"\\]|\\.)*)"', text, re.DOTALL):
        for number in re.findall(r"(?<![\d.,-])\d[\d,]*(?:\.\d)?(?![\d-])", re.sub(r"\d{4}-\d\d-\d\d(?:T[\d:]+Z)?", "", literal)):
            plain = number.rstrip(",").replace(",", "")
            if float(plain) > 9:
                yield plain


def limit_in_words_problems(top, files):
    """A number in a sentence or in the help of an option is a limit: so a limit isn't changed without its words."""
    known = {written(limit, value).replace(",", "") for limit, value in limits_of(top, files).items()}
    help_text = text_of(top, "crates/command_line/src/help_text.rt")
    options = re.findall(r"pub const (?:\w+_HELP|STATUSES): &str =\s*\"(?:[^\"\\]|\\.)*\";", help_text, re.DOTALL)
    sources = (
        "crates/findings/src/site_sentences.rt", "crates/message_findings/src/sentences.rt", "crates/message_findings/src/field_fault.rt",
    )
    texts = {**{source: text_of(top, source) for source in sources}, "the help": "\n".join(options)}
    for where, text in texts.items():
        found = list(numbers_in_literals(text))
        if not found:
            yield f"{where}: no number was found"
        for number in found:
            if number not in known:
                yield f"{where}: {number} is no limit"


# ---- actions and refusals

def action_problems(top, files):
    definition = text_of(top, "crates/messages/specs/ActionKind.antt")
    rows = re.findall(r'^row_of (\w+) =\s+(?:with_fields|answered) (\w+)\s+\(codes "(\w+)"\)', definition, re.MULTILINE)
    known = {side: {name for kind, sender, name in rows if sender == side} for side in ("Operator", "Point")}
    if any(kind != name for kind, sender, name in rows) or len(rows) != definition.count("\nrow_of "):
        yield "ActionKind.antt: a row isn't read, or has another name than its action"
    protocol = text_of(top, "docs/PROTOCOL.md")
    headings = re.findall(r"^### (\w+) \((?:our own|(?:OCPP 1\.6, )?\d)", section_of(protocol, "An operator's actions"), re.MULTILINE)
    cells = [row[0] for row in rows_of(section_of(protocol, "A point's actions").split("\nNOW is")[0])]
    pages = {
        "Operator": set(headings),
        "Point": set(re.findall(r"(\w+) \(\d\.\d+\)", " ".join(cells))),
    }
    for side, page in pages.items():
        for name in sorted(page ^ known[side]):
            yield f"PROTOCOL: {name} is {'no action' if name in page else 'missing among those'} of the {side.lower()}"
    there = {side: set() for side in known}
    for header, rows in tables_of(section_of(text_of(top, "docs/DIFFERENCES.md"), "The actions of OCPP 1.6")):
        for row in rows if len(header) > 3 else []:
            if not row[3].startswith("no"):
                there["Point" if row[2] == "point" else "Operator"].update(re.findall(r"[A-Z]\w+", row[0]))
    for side in known:
        for name in sorted(there[side] ^ known[side]):
            yield f"DIFFERENCES: {name} is {'not there' if name in there[side] else 'there'}, by the code"


def refusals_of(top):
    return set(re.findall(r'codes "(\w+)"', text_of(top, "crates/ocpp_scalars/specs/Refusal.antt")))


def refusal_problems(top, files):
    known = refusals_of(top)
    section = section_of(text_of(top, "docs/PROTOCOL.md"), "Refusals")
    named = [name for row in rows_of(section) for name in re.findall(r"`(\w+)`", row[0])]
    for name in sorted(set(named) ^ known):
        yield f"PROTOCOL, Refusals: {name} is {'no refusal' if name in named else 'missing'}"
    for name in sorted(name for name in set(named) if named.count(name) > 1):
        yield f"PROTOCOL, Refusals: {name} has two rows"
    for page in ("README.md", "docs/RUNNING.md", "docs/COMMANDS.md", "docs/MEANING.md", "docs/DIFFERENCES.md", "docs/PROOFS.md"):
        for row in rows_of("\n".join(without_blocks(text_of(top, page)))):
            if row[0].strip("`") in known - {"OutOfMemory"}:
                yield f"{page}: a row for the refusal {row[0]}, whose home is PROTOCOL"


# ---- sentences of the program

# The functions with the tables of sentences, and the pages in which their tables may stand.
SENTENCES = (
    ("crates/findings/src/site_sentences.rt", ("site_sentence",)),
    ("crates/message_findings/src/sentences.rt", ("sentence", "line_sentence", "call_sentence", "never_sentence")),
    ("crates/explain_pages/src/words.rt", ("sentence", "why_not_sentence")),
)
SENTENCE_PAGES = ("docs/PROTOCOL.md", "docs/COMMANDS.md", "docs/RUNNING.md", "docs/MEANING.md")


def sentences_in(text, function):
    """The arms of a function of sentences: each name with its sentence."""
    body = re.search(rf"^(?:pub )?fn {function}\(.*?^\}}", text, re.MULTILINE | re.DOTALL)
    arms = re.findall(r'\w+::(\w+)(?:\(_\)| \{ \.\. \})? =>\s*(?:\{\s*)?"((?:[^"\\]|\\.)*)"', body.group(0) if body else "")
    return {(name, re.sub(r"\\(.)", r"\1", sentence)) for name, sentence in arms}


def program_sentence_problems(top, files):
    """Each sentence of the program has a row with its name; and where a table has a column of sentences, each is the program's."""
    known = set()
    for path, functions in SENTENCES:
        for function in functions:
            found = sentences_in(text_of(top, path), function)
            if not found:
                yield f"{path}: no sentences in {function}"
            known |= found
    there = set()
    for page in SENTENCE_PAGES:
        for header, rows in tables_of("\n".join(without_blocks(text_of(top, page)))):
            columns = [place for place, name in enumerate(header) if "sentence" in name.lower()]
            for row in rows:
                pairs = {(name, row[place]) for name in re.findall(r"`(\w+)`", row[0]) for place in range(1, len(row))}
                there |= pairs & known
                for place in columns:
                    if len(row) > place and not {(name, row[place]) for name, _ in pairs} & known:
                        yield f"{page}: {row[0]} is {row[place]!r}, which the program doesn't say"
    for name, sentence in sorted(known - there):
        yield f"no row for {name}: {sentence!r}"


# ---- crates, cases and versions

def crate_problems(top, files):
    """ARCHITECTURE names each crate but those of tests, and each of them has a README; the READMEs link to all callers."""
    page = text_of(top, "docs/ARCHITECTURE.md")
    crates = re.findall(r"^(\w+):", text_of(top, "crates.txt"), re.MULTILINE)
    linked = set()
    for crate in crates:
        if f"`{crate}`" not in page and not crate.startswith("test_"):
            yield f"docs/ARCHITECTURE.md: {crate} isn't named"
        readme = f"crates/{crate}/README.md"
        if readme in files:
            linked |= {os.path.normpath(os.path.join(os.path.dirname(readme), link)) for _, link in links_of(text_of(top, readme))}
        elif not crate.startswith("test_"):
            yield f"{readme}: no such page"
    for caller in files:
        if re.fullmatch(r"crates/test_\w+/src/callers/\w+\.rt", caller) and caller not in linked:
            yield f"{caller}: no README of a crate links to it"


def case_problems(top, files):
    examples = {name.split("/")[1] for name in files if re.fullmatch(r"examples/[^/]+/.+", name)}
    for name in sorted(examples - set(re.findall(r"\]\(([\w-]+)\)", text_of(top, "examples/README.md")))):
        yield f"examples/README.md: {name} is missing"
    cases = {os.path.basename(os.path.dirname(name)) for name in files if re.fullmatch(r"tests/cases/.*/script(\.of)?", name)}
    for word in re.findall(r"`([\w*]+(?:-[\w*]+)+)`", section_of(text_of(top, "tests/README.md"), "Cases")):
        if not fnmatch.filter(cases, word):
            yield f"tests/README.md: there is no case {word}"
    for header, rows in tables_of("\n".join(without_blocks(text_of(top, "docs/DIFFERENCES.md")))):
        for row in rows if header[-1] == "Case" else []:
            for word in re.findall(r"`([^`]+)`", row[-1]):
                if word not in cases and f"tests/sockets/{word}" not in files:
                    yield f"docs/DIFFERENCES.md: there is no case {word}"
    twice = collections.defaultdict(list)
    for name in files:
        path = os.path.join(top, name)
        if re.fullmatch(r"tests/cases/(?:.*/)?(?:script|site\.json)", name):
            with open(path, "rb") as file:
                twice[file.read()].append(name)
    for same in twice.values():
        if len(same) > 1:
            yield f"the same file byte for byte, so all but one have to name it by a file `.of`: {', '.join(sorted(same))}"


def version_problems(top, files):
    changelog = re.findall(r"^## \[(\d+\.\d+\.\d+)\]", text_of(top, "CHANGELOG.md"), re.MULTILINE)
    program = re.search(r'VERSION: &str = "(\d+\.\d+\.\d+)', text_of(top, "crates/command_line/src/help_text.rt"))
    if not changelog or program is None or changelog[0] != program.group(1):
        yield f"CHANGELOG's newest version {changelog[:1]} isn't the program's {program and program.group(1)}"


def kit_problems(top, files):
    """The program prints the kit and the logic that it was proved with; README and WORKING name the same."""
    source = text_of(top, "crates/command_line/src/help_text.rt")
    found = re.search(r"proved in the logic (\w+) of ([\w-]+)\"", source)
    if found is None:
        yield "help_text.rt names no logic and no kit"
        return
    for page in ("README.md", "docs/WORKING.md"):
        for word in (f"`{found[2]}`", f"`{found[1]}`"):
            if word not in text_of(top, page):
                yield f"{page}: it doesn't name {word}, as the program does"


# ---- paths and links

def suffixes_of(files):
    """Each file and folder of the tree by every end of its path."""
    ends = set()
    for name in files:
        parts = name.split("/")
        for last in range(1, len(parts) + 1):
            for first in range(last):
                ends.add("/".join(parts[first:last]))
    return ends


def is_path(word):
    if not re.fullmatch(r"[\w./-]+", word) or PLACEHOLDERS.search(word) or word.startswith("/") or word in FILE_ENDINGS:
        return False
    return word.endswith(FILE_ENDINGS) or word.startswith(TOP_FOLDERS)


def path_problems(top, files):
    ends = suffixes_of(files)
    for page in documents_of(files):
        text = text_of(top, page)
        spans = [(number, span) for number, line in enumerate(without_blocks(text), 1)
                 for span in re.findall(r"`([^`]+)`", line)]
        commands = [(number, word) for number, line in block_lines(text) for word in re.findall(r"[\w./-]+", line)
                    if re.sub(r"^(\.\./)+", "", word).startswith(TOP_FOLDERS)]
        for number, word in [*spans, *commands]:
            plain = re.sub(r"^(\.\.?/)+", "", word).rstrip("/")
            if is_path(word if word.endswith("/") else plain) and plain.rstrip(".") not in ends:
                yield f"{page}:{number}: no {word} in the tree"
        for number, line in enumerate(without_blocks(text), 1):
            yield from folder_problems(files, page, number, line)
            yield from name_problems(top, files, page, number, line)


def folder_problems(files, page, number, line):
    """In a row of a table, a file without a folder stands in the folder of the path before it in its cell."""
    for cell in line.strip().strip("|").split("|") if line.lstrip().startswith("|") else []:
        folder = ""
        for path in re.findall(r"`([\w./-]+\.(?:rt|antt))`", cell):
            folder = path.rpartition("/")[0] or folder
            whole = f"/{folder}/{path.rpartition('/')[2]}"
            if folder and not any(("/" + name).endswith(whole) for name in files):
                yield f"{page}:{number}: no {whole[1:]} in the tree"


def name_problems(top, files, page, number, line):
    """`FILE` (`name`, ..): each name has to stand in that file."""
    for path, given in re.findall(r"`([\w./-]+\.\w+)` \(((?:`\w+`(?:, )?)+)\)", line):
        texts = [text_of(top, name) for name in files if ("/" + name).endswith("/" + path)]
        for word in re.findall(r"\w+", given):
            if texts and not any(re.search(rf"\b{word}\b", text) for text in texts):
                yield f"{page}:{number}: no {word} in {path}"


def link_problems(top, files):
    """Each link of a page leads to a file or a folder, and to a heading in it if it names one."""
    names = set(files)
    for page in documents_of(files):
        for number, link in links_of(text_of(top, page)):
            path, _, anchor = link.partition("#")
            target = os.path.normpath(os.path.join(os.path.dirname(page), path)) if path else page
            folder = any(name.startswith(target + "/") for name in names)
            if target not in names and not folder:
                yield f"{page}:{number}: the link {link} leads nowhere"
            elif anchor and (folder or anchor not in anchors_of(text_of(top, target))):
                yield f"{page}:{number}: no heading for the link {link}"


def package_problems(top, files):
    """The same in the Debian package, with the pages and examples that it has."""
    with tempfile.TemporaryDirectory(prefix="central-pages-") as folder:
        subprocess.run([os.path.join(top, "packaging", "deb"), "--pages", folder], check=True)
        placed = [os.path.relpath(os.path.join(at, name), folder) for at, _, names in os.walk(folder) for name in names]
        if "README.md" not in placed:
            yield "the package has no README.md"
        yield from (f"in the package: {problem}" for problem in link_problems(folder, placed))


# ---- numbers of papers

def number_problems(top, files):
    for page in documents_of(files):
        for number, line in enumerate(without_blocks(text_of(top, page)), 1):
            for found in NUMBERED.findall(re.sub(r"\]\([^)]*\)", "]", line)):
                yield f"{page}:{number}: '{found}' cites something by its number"


TESTS = {
    "sizes": size_problems,
    "sentences": sentence_problems,
    "words": word_problems,
    "words in code": code_word_problems,
    "limits": limit_problems,
    "limits on one page": repeated_limit_problems,
    "limits in words": limit_in_words_problems,
    "actions": action_problems,
    "refusals": refusal_problems,
    "sentences of the program": program_sentence_problems,
    "crates": crate_problems,
    "cases": case_problems,
    "version": version_problems,
    "kit": kit_problems,
    "paths": path_problems,
    "links": link_problems,
    "links in the package": package_problems,
    "numbers of papers": number_problems,
}


def main():
    if len(sys.argv) > 2:
        sys.exit(__doc__)
    top = os.path.abspath(sys.argv[1]) if len(sys.argv) == 2 else HERE
    files = files_of(top)
    print_measures(top, files)
    failed = 0
    for name, test in TESTS.items():
        problems = list(test(top, files))
        for problem in problems:
            print(f"{name}: {problem}")
        failed += bool(problems)
    print(f"{len(TESTS) - failed} passed, {failed} failed")
    sys.exit(1 if failed else 0)


main()
