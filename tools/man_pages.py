#!/usr/bin/env python3
"""Makes the man pages from the documents.

    tools/man_pages.py FOLDER    writes turnaudit.1, turnprep.1, turnexplain.1, turnaudit-policy.5, turnaudit-certificate.5 and
                                 turnaudit-rules.7 there

The pages of programs are those of docs/man. The files' formats are sections of docs/FILES.md, and the rules docs/VERDICTS.md and docs/RULES.md.
A table becomes a list: the first cell of a row is the word, the others are what is said of it. The pages tell the release and date of
CHANGELOG.md and nothing of the time and place at which they are made.
"""

import re
import sys
import textwrap
from dataclasses import dataclass
from pathlib import Path

import markdown
from markdown import Code, Heading, Listing, Paragraph, Quote, Table

TOP = Path(__file__).resolve().parent.parent
DOCS = TOP / "docs"
# The date of the pages as long as CHANGELOG.md has none.
UNRELEASED = "2026-11-26"
WIDTH = 78

ESCAPES = {"\\": "\\e", "~": "\\(ti", "^": "\\(ha", "`": "\\(ga"}
LITERALS = {**ESCAPES, "-": "\\-", "'": "\\(aq"}
# Of a text: code, a link, an anchor, what is bold, what is emphasized, and a character that stands for itself.
SPAN = re.compile(
    r"(`+)(?P<code>.+?)\1(?!`)"
    r"|!?\[(?P<label>[^\]]*)\]\((?P<target>[^)\s]*)\)"
    r"|<(?P<address>https?://[^>\s]+)>"
    r"|(?P<anchor><a id=\"[\w-]+\"></a>)"
    r"|\*\*(?P<bold>.+?)\*\*"
    r"|(?<![\w*])\*(?![\s*])(?P<star>.+?)(?<![\s*])\*(?![\w*])"
    r"|(?<!\w)_(?!\s)(?P<line>.+?)(?<!\s)_(?!\w)"
    r"|\\(?P<itself>[!-/:-@\[-`{-~])"
)


@dataclass
class Page:
    name: str
    section: int
    about: str
    manual: str
    related: list


PAGES = [
    Page("turnaudit", 1, "", "User commands", []),
    Page("turnprep", 1, "", "User commands", []),
    Page("turnexplain", 1, "", "User commands", []),
    Page("turnaudit-policy", 5, "the policy, the users and the captures that turnaudit reads", "File formats", ["turnaudit-certificate(5)"]),
    Page("turnaudit-certificate", 5, "the certificate and the report of turnaudit", "File formats", ["turnaudit-policy(5)", "turnaudit-rules(7)"]),
    Page("turnaudit-rules", 7, "the rules by which turnaudit judges, and what breaks them", "Rules", ["turnaudit-policy(5)", "turnaudit-certificate(5)"]),
]


def release():
    """The version and date of the newest release in CHANGELOG.md."""
    for line in (TOP / "CHANGELOG.md").read_text(encoding="utf-8").splitlines():
        heading = re.match(r"## (\d+(?:\.\d+)*)", line)
        if heading:
            date = re.search(r"\d{4}-\d\d-\d\d", line)
            return heading[1], date[0] if date else UNRELEASED
    sys.exit("CHANGELOG.md has no release")


def escaped(text, literals=False):
    """Text as roff has it, in ASCII."""
    table = LITERALS if literals else ESCAPES
    return "".join(table.get(sign, sign if ord(sign) < 128 else f"\\[u{ord(sign):04X}]") for sign in text)


def in_font(inner, font, around):
    return f"\\f{font}{inner}\\f{around}"


def inline(text, font="R"):
    """A text with its emphasis, in a font to which it returns."""
    made, at = [], 0
    for span in SPAN.finditer(text):
        made.append(escaped(text[at:span.start()]))
        at = span.end()
        if span["code"] is not None:
            made.append(in_font(escaped(span["code"].strip() or span["code"], literals=True), "B", font))
        elif span["label"] is not None:
            made.append(inline(span["label"], font))
            if span["target"].startswith("http") and span["target"] != span["label"]:
                made.append(f" ({escaped(span['target'], literals=True)})")
        elif span["address"] is not None:
            made.append(escaped(span["address"], literals=True))
        elif span["anchor"] is not None:
            continue
        elif span["bold"] is not None:
            made.append(in_font(inline(span["bold"], "B"), "B", font))
        elif span["itself"] is not None:
            made.append(escaped(span["itself"], literals=True))
        else:
            made.append(in_font(inline(span["star"] or span["line"], "I"), "I", font))
    made.append(escaped(text[at:]))
    return "".join(made)


def plain(text):
    """A text without emphasis, for a heading."""
    return SPAN.sub(lambda span: span["code"] or span["label"] or span["address"] or span["bold"] or span["star"] or span["line"] or span["itself"] or "", text)


def protected(line):
    """A line that is no request."""
    return f"\\&{line}" if line.startswith((".", "'")) else line


def filled(text):
    """A text's lines."""
    lines = textwrap.wrap(inline(text), WIDTH, break_long_words=False, break_on_hyphens=False)
    return [protected(line) for line in lines]


def quoted(text):
    """A heading as a request's one word."""
    return '"' + escaped(plain(text)).replace('"', "\\(dq") + '"'


def code(block):
    return [".RS 4", ".EX", *[protected(escaped(line, literals=True)) for line in block.lines], ".EE", ".RE"]


def listing(block):
    made = []
    for number, item in enumerate(block.items, start=1):
        made.append(f".IP {number}. 4" if block.ordered else ".IP \\(bu 2")
        made += within(item)
    return made


def within(blocks):
    """What stands in an item or beside a table's word: the first paragraph needs no request before it."""
    made = []
    for number, block in enumerate(blocks):
        if isinstance(block, Paragraph):
            made += filled(block.text) if number == 0 else [".IP", *filled(block.text)]
        else:
            made += [".RS", *roff([block], 1), ".RE"]
    return made


def table(block):
    """A word and what is said of it for each row; of several things each begins with its column's heading."""
    made, head = [], block.head
    for row in block.rows:
        said = [(title, cell) for title, cell in zip(head[1:], row[1:]) if cell]
        made += [".TP", protected(in_font(inline(row[0], "B"), "B", "R"))]
        for number, (title, cell) in enumerate(said):
            named = f"{title}: {cell}" if len(head) > 2 and title else cell
            made += filled(named) if number == 0 else [".br", *filled(named)]
        if not said:
            made.append("\\&")
    return made


def heading(block, top):
    if block.level <= top:
        return [f".SH {quoted(block.text.upper())}"]
    if block.level == top + 1:
        return [f".SS {quoted(block.text)}"]
    return [".PP", protected(in_font(inline(block.text, "B"), "B", "R"))]


def roff(blocks, top):
    """The blocks of a document whose headings of the level `top` are the page's sections."""
    made = []
    for block in blocks:
        if isinstance(block, Heading):
            made += heading(block, top)
        elif isinstance(block, Paragraph):
            made += [".PP", *filled(block.text)]
        elif isinstance(block, Code):
            made += [".PP", *code(block)]
        elif isinstance(block, Listing):
            made += [*listing(block), ".PP"]
        elif isinstance(block, Table):
            made += [*table(block), ".PP"]
        elif isinstance(block, Quote):
            made += [".RS 4", *roff(block.blocks, top), ".RE"]
    return made


def tidy(lines):
    """The lines without paragraphs that are empty."""
    made = []
    for line in lines:
        opens = line.startswith((".SH", ".SS", ".PP", ".IP", ".TP", ".RE"))
        while opens and made and made[-1] == ".PP":
            made.pop()
        if line == ".PP" and made and made[-1].startswith((".SH", ".SS")):
            continue
        made.append(line)
    while made and made[-1] == ".PP":
        made.pop()
    return made


def document(name):
    return markdown.read((DOCS / name).read_text(encoding="utf-8"))


def lowered(blocks):
    """The blocks with each heading one level lower."""
    return [Heading(block.level + 1, block.text) if isinstance(block, Heading) else block for block in blocks]


def sections_of(name, words):
    """The front of a document and its sections whose titles have one of these words; it ends the program where a word is in none."""
    parts = markdown.sections(document(name), 2)
    made = [block for block in parts[0][1] if not isinstance(block, Heading)]
    for title, blocks in parts[1:]:
        if any(word in title.lower() for word in words):
            made += [Heading(2, title), *blocks]
    titles = " ".join(title for title, _ in parts[1:]).lower()
    missing = [word for word in words if word not in titles]
    if missing:
        sys.exit(f"docs/{name} has no section whose title says {', '.join(missing)}")
    return made


def body(page):
    """What stands between a page's name and what is related."""
    if page.name == "turnaudit-policy":
        return [Heading(2, "Description"), *sections_of("FILES.md", ["policy", "credentials", "captures"])]
    if page.name == "turnaudit-certificate":
        return [Heading(2, "Description"), *sections_of("FILES.md", ["certificate", "report"])]
    judged, asked = document("VERDICTS.md"), lowered(document("RULES.md"))
    return [Heading(2, "Description"), *[block for block in judged if not (isinstance(block, Heading) and block.level == 1)], *asked]


def text_of(page):
    """The page as a man page's source."""
    version, date = release()
    title = f'.TH {page.name.upper()} {page.section} {date} "turnaudit {version}" "{page.manual}"'
    if page.section == 1:
        blocks = [block for block in document(f"man/{page.name}.1.md") if not (isinstance(block, Heading) and block.level == 1)]
        lines = roff(blocks, 2)
    else:
        related = ", ".join(f"**{name[:-3]}**{name[-3:]}" for name in ["turnaudit(1)", *page.related])
        lines = [".SH NAME", f"{page.name} \\- {page.about}", *roff(body(page), 2), *roff([Heading(2, "See also"), Paragraph(related)], 2)]
    return "\n".join([title, ".ad l", *tidy(lines)]) + "\n"


def write(folder, programs=None):
    """Writes the pages, and returns their names; of programs only those that are named, or all."""
    folder.mkdir(parents=True, exist_ok=True)
    names = []
    for page in PAGES:
        if programs is not None and page.section == 1 and page.name not in programs:
            continue
        names.append(f"{page.name}.{page.section}")
        (folder / names[-1]).write_text(text_of(page), encoding="ascii")
    return names


def main(words):
    if len(words) != 1 or words[0].startswith("-"):
        print(__doc__.strip(), file=sys.stderr)
        return 2
    write(Path(words[0]))
    return 0


if __name__ == "__main__":
    sys.exit(main(sys.argv[1:]))
