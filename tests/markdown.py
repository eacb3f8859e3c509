"""The parts of a Markdown page: its code blocks, sections, tables, anchors and links, and the sentences of its prose."""
import re

LINK = re.compile(r"(!?)\[((?:[^\[\]]|\[[^\]]*\])*)\]\(([^)\s]+)\)")
RULE = re.compile(r"\|[\s:|-]+\|?$")


def without_blocks(text):
    """The lines of a page, those of its code blocks left empty."""
    inside, lines = False, []
    for line in text.split("\n"):
        fence = line.lstrip().startswith("```")
        lines.append("" if inside or fence else line)
        inside = inside != fence
    return lines


def block_lines(text):
    """The lines of the code blocks of a page, each with its number."""
    inside = False
    for number, line in enumerate(text.split("\n"), 1):
        if line.lstrip().startswith("```"):
            inside = not inside
        elif inside:
            yield number, line


def section_of(text, heading):
    """What stands below a heading, up to the next one of its level or above."""
    level, lines, inside = 0, [], False
    for line in without_blocks(text):
        found = re.match(r"(#+) (.*)", line)
        if found and inside and len(found.group(1)) <= level:
            break
        if found and not inside and found.group(2) == heading:
            level, inside = len(found.group(1)), True
        elif inside:
            lines.append(line)
    return "\n".join(lines)


def cells_of(line):
    return [cell.strip() for cell in re.split(r"(?<!\\)\|", line.strip().strip("|"))]


def tables_of(text):
    """Each table of a text: its header and its rows, as their cells."""
    header, rows = None, []
    lines = [line.strip() for line in text.split("\n")]
    for line, follower in zip(lines, [*lines[1:], ""]):
        if line.startswith("|") and RULE.match(follower):
            header, rows = cells_of(line), []
        elif line.startswith("|") and header is not None and not RULE.match(line):
            rows.append(cells_of(line))
        elif not line.startswith("|") and header is not None:
            yield header, rows
            header = None
    if header is not None:
        yield header, rows


def rows_of(text):
    """The rows of all tables of a text, without headers."""
    for _, rows in tables_of(text):
        yield from rows


def anchors_of(text):
    """The anchors of a page's headings, as GitHub and GitLab make them."""
    anchors = set()
    for line in without_blocks(text):
        found = re.match(r"#+ (.*)", line)
        if found:
            plain = LINK.sub(r"\2", found.group(1)).replace("`", "")
            anchors.add(re.sub(r"[^\w\- ]", "", plain.lower()).replace(" ", "-"))
    return anchors


def links_of(text):
    """Each link of a page that leads to a file or a heading, with the number of its line."""
    for number, line in enumerate(without_blocks(text), 1):
        for found in LINK.finditer(line):
            # What a picture's link shows may itself be a link.
            for link in (found[3], *(inner[3] for inner in LINK.finditer(found[2]))):
                if not re.match(r"\w+:", link):
                    yield number, link


def prose_of(text):
    """The blocks of a page in which sentences stand: paragraphs, items of lists, and cells with more than a few words. A piece
    of code counts as one word, and is left as CODE."""
    block = []
    for line in [*without_blocks(text), ""]:
        plain = re.sub(r"`[^`]*`", "CODE", LINK.sub(r"\2", line)).replace("**", "").strip()
        begins = re.match(r"#|\||[-*] |\d+\. ", plain)
        if (begins or not plain) and block:
            yield " ".join(block)
            block = []
        if plain.startswith("|"):
            yield from (cell for cell in cells_of(plain) if len(cell.split()) > 5)
        elif plain and not plain.startswith("#"):
            block.append(re.sub(r"^(?:[-*]|\d+\.) ", "", plain))


def sentences_of(text):
    """The sentences of a page's prose."""
    for block in prose_of(text):
        for sentence in re.split(r"(?<=[.!?])[)\"']*\s+(?=[\"'(*_]*[A-Z0-9])", block):
            if re.search(r"\w", sentence):
                yield sentence


def words_of(sentence):
    return [word for word in sentence.split() if re.search(r"\w", word)]
