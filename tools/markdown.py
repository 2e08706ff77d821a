"""Reads the Markdown of the documents: headings, paragraphs, lists, code, tables and quotes, as a list of blocks."""

import re
from dataclasses import dataclass, field

ITEM = re.compile(r"( {0,3})([-*+]|\d{1,4}[.)])( +)(?=\S)")
HEADING = re.compile(r"(#{1,6}) +(.*?)(?: +#+)?$")
FENCE = re.compile(r" {0,3}(```+|~~~+)")
RULER = re.compile(r"\|?[ :]*-[-: |]*\|[-: |]*$")
LINE = re.compile(r" {0,3}([-*_])(?: *\1){2,} *$")


@dataclass
class Heading:
    level: int
    text: str


@dataclass
class Paragraph:
    text: str


@dataclass
class Code:
    lines: list


@dataclass
class Quote:
    blocks: list


@dataclass
class Listing:
    """A list; each item is a list of blocks."""

    ordered: bool
    items: list = field(default_factory=list)


@dataclass
class Table:
    head: list
    rows: list


def cells_of(line):
    """A table's row, whose cells may have `\\|` for a bar."""
    inner = line.strip().removeprefix("|")
    if inner.endswith("|") and not inner.endswith("\\|"):
        inner = inner[:-1]
    return [cell.strip().replace("\\|", "|") for cell in re.split(r"(?<!\\)\|", inner)]


def indent_of(line):
    return len(line) - len(line.lstrip(" "))


class Reader:
    """Goes over the lines of a text, or of an item or a quote in it."""

    def __init__(self, lines):
        self.lines, self.at = lines, 0

    def line(self):
        return self.lines[self.at]

    def left(self):
        return self.at < len(self.lines)

    def starts_block(self):
        """Whether the line can't be a paragraph's second one."""
        line = self.line()
        return not line.strip() or HEADING.match(line) or FENCE.match(line) or ITEM.match(line) or line.startswith(">") or LINE.match(line)

    def blocks(self):
        found = []
        while self.left():
            block = self.block()
            if block is not None:
                found.append(block)
        return found

    def block(self):
        line = self.line()
        heading = HEADING.match(line)
        if not line.strip() or LINE.match(line):
            self.at += 1
            return None
        if line.lstrip().startswith("<!--"):
            return self.comment()
        if heading:
            self.at += 1
            return Heading(len(heading[1]), heading[2])
        if FENCE.match(line):
            return self.fenced()
        if indent_of(line) >= 4:
            return self.indented()
        if line.startswith(">"):
            return self.quote()
        if ITEM.match(line):
            return self.listing()
        if "|" in line and self.at + 1 < len(self.lines) and RULER.match(self.lines[self.at + 1].strip()):
            return self.table()
        return self.paragraph()

    def comment(self):
        while self.left() and "-->" not in self.line():
            self.at += 1
        self.at += 1

    def fenced(self):
        fence, taken = FENCE.match(self.line())[1], []
        self.at += 1
        while self.left() and not self.line().lstrip().startswith(fence):
            taken.append(self.line())
            self.at += 1
        self.at += 1
        return Code(taken)

    def indented(self):
        taken = []
        while self.left() and (indent_of(self.line()) >= 4 or not self.line().strip()):
            taken.append(self.line()[4:])
            self.at += 1
        while taken and not taken[-1].strip():
            taken.pop()
        return Code(taken)

    def quote(self):
        taken = []
        while self.left() and self.line().startswith(">"):
            taken.append(self.line()[1:].removeprefix(" "))
            self.at += 1
        return Quote(Reader(taken).blocks())

    def listing(self):
        found = Listing(ITEM.match(self.line())[2][-1] in ".)")
        while self.left() and ITEM.match(self.line()) and (ITEM.match(self.line())[2][-1] in ".)") == found.ordered:
            found.items.append(self.item())
            while self.left() and not self.line().strip():
                self.at += 1
        return found

    def item(self):
        """An item with all that is indented to it, and the lines of its first paragraph that aren't."""
        width = ITEM.match(self.line()).end()
        taken = [self.line()[width:]]
        self.at += 1
        while self.left():
            line = self.line()
            if line.strip() and indent_of(line) < width and (not taken[-1].strip() or self.starts_block()):
                break
            taken.append(line[min(width, indent_of(line)):])
            self.at += 1
        return Reader(taken).blocks()

    def table(self):
        head, rows = cells_of(self.line()), []
        self.at += 2
        while self.left() and "|" in self.line() and self.line().strip():
            rows.append(cells_of(self.line()))
            self.at += 1
        return Table(head, rows)

    def paragraph(self):
        taken = [self.line().strip()]
        self.at += 1
        while self.left() and not self.starts_block():
            taken.append(self.line().strip())
            self.at += 1
        return Paragraph(" ".join(taken))


def read(text):
    """The blocks of a document."""
    return Reader(text.expandtabs(4).splitlines()).blocks()


def sections(blocks, level):
    """The blocks by the headings of that level: (heading's text, blocks behind it), the front with None."""
    found = [(None, [])]
    for block in blocks:
        if isinstance(block, Heading) and block.level == level:
            found.append((block.text, []))
        else:
            found[-1][1].append(block)
    return found
