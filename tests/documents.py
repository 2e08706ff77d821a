#!/usr/bin/env python3
"""Measures README.md and docs/*.md: lines, sentences, the list of documents, and the files that they name.

    python3 tests/documents.py [--measures] [DOCUMENT..]    where none is named: README.md and docs/*.md

Of each document:

- lines have at most 100 characters. A line that holds one URL and nothing else may be longer, and so may the lines of a block
  that is fenced as `wireshark`: a filter is pasted as one line;
- README.md has at most 100 lines;
- of its sentences the median has under 25 words, and nine of ten have at most 35. Paragraphs, items of lists and quotations count,
  each by itself; headings, tables, code blocks and comments don't. What stands between backquotes is one word;
- its relative links, their headings among them, and the paths that it names (`docs/..`, `tests/..`, `bench/..`, `tools/..`,
  `crates/..`, `examples/..`, `NAME.md`, and `audit_x/specs/..` of a crate) are there. A part in capitals without a point, as in
  `tests/edits/CRATE`, stands for any name, and so does NAME before a point. Below a folder `out` everything is built.

docs/README.md has one line with a link to each other file of docs/ and its folders. With --measures it prints the numbers of each document.
Words that the RFCs and the field don't use in this sense (`told`, `asked`, `behind` and the like; docs/TERMS.md has the terms) are counted over
all documents, outside of code, and over the comments of all sources and definitions, and may not become more than they are. A comment's line has
at most 100 characters, too.
It imports no other file of this repository. The status is 1 where something fails.
"""

import math
import pathlib
import re
import statistics
import sys

TOP = pathlib.Path(__file__).resolve().parent.parent
LONGEST_LINE, README_LINES, MEDIAN, NINE_OF_TEN = 100, 100, 25, 35
# Lower it when a page is rewritten, and never raise it.
MOST_OF_DIALECT = 14
MOST_IN_COMMENTS = 7
# Words before a point that doesn't end a sentence: always, and where a small letter or a number follows.
NEVER_LAST = {"e.g", "i.e", "cf", "vs", "approx", "resp"}
SELDOM_LAST = {"etc", "no", "sec", "fig", "al", "incl"}

ITEM = re.compile(r"( *)([-*+]|\d+[.)])( +)")
CODE = re.compile(r"(`+)(?!`)(.+?)(?<!`)\1(?!`)", re.DOTALL)
LINK = re.compile(r"\[([^\]]*)\]\(([^)\s]*)\)")
URL = re.compile(r"https?://\S+")
COMMENT = re.compile(r"<!--.*?-->", re.DOTALL)
END = re.compile(r"[.!?][\"')\]]*(?=\s|$)")
DIALECT = re.compile(r"\b(?:tells?|told|asks?|asked|behind|beside|gives?|given)\b", re.IGNORECASE)
WORD = re.compile(r"\S*\w\S*")
PATH = re.compile(r"(?<![\w/.~-])((?:\.\./)?(?:docs|tests|bench|tools|crates|examples)/[\w.*/-]+)")
NAMED = re.compile(r"`(?:docs/)?([A-Z]+\.md)`")
OF_CRATE = re.compile(r"`((?:audit|bench|tests)_\w+|turnaudit)/((?:specs|src|proofs|must-fail)/[\w./-]+)`")


def blocks_of(text):
    """The lines of a document by kind: the numbers of the lines of code with the block's info string, and the prose, as lists of
    numbered lines, one for each paragraph and item."""
    text = COMMENT.sub(lambda found: re.sub(r"[^\n]", " ", found[0]), text)
    code, prose, block = {}, [], []
    fence = info = None
    offset, is_blank, is_code = 0, True, False

    def end():
        if block:
            prose.append(block[:])
            block.clear()

    for number, line in enumerate(text.split("\n"), 1):
        quoted = re.match(r" {0,3}> ?", line)
        if quoted:
            line = line[quoted.end():]
        mark = re.match(r" *(```+|~~~+)(\S*)", line)
        if fence:
            code[number] = info
            if mark and mark[1] == fence:
                fence = None
            continue
        if mark:
            end()
            fence, info = mark[1], mark[2]
            code[number] = info
            continue
        if not line.strip():
            end()
            is_blank = True
            continue
        indent = len(line) - len(line.lstrip())
        if is_blank and indent < offset:
            offset = 0
        if (is_blank or is_code) and not block and indent >= offset + 4:
            code[number] = ""
            is_code = True
            continue
        is_code = False
        item = ITEM.match(line)
        if item:
            end()
            offset = item.end()
            line = " " * item.end() + line[item.end():]
        elif re.match(r" {0,3}(#{1,6} |\||[-=]{3,}\s*$)", line):
            end()
            is_blank = False
            continue
        block.append((number, line))
        is_blank = False
    end()
    return code, prose


def masked(text):
    """The prose with each stretch of code as one word, links as their words, and nothing else moved."""
    text = CODE.sub(lambda found: "x" * len(found[0]), text)
    text = LINK.sub(lambda found: " " + found[1] + " " * (len(found[0]) - len(found[1]) - 1), text)
    text = URL.sub(lambda found: "x" * len(found[0].rstrip(".,;:)")) + found[0][len(found[0].rstrip(".,;:)")):], text)
    return text.replace("*", " ")


def sentences_of(block):
    """Each sentence of a block of prose: the number of its first line, its words, and the text."""
    text = "\n".join(line for _, line in block)
    hidden = masked(text)
    ends = []
    for found in END.finditer(hidden):
        before = re.search(r"[\w.]*$", hidden[:found.start()])[0].lower()
        after = hidden[found.end():].lstrip()[:1]
        is_short = before in NEVER_LAST or before in SELDOM_LAST and (after.islower() or after.isdigit())
        if not is_short and not hidden[:found.start()].endswith("."):
            ends.append(found.end())
    sentences = []
    for begin, last in zip([0, *ends], [*ends, len(text)]):
        words = len(WORD.findall(hidden[begin:last]))
        if words:
            begin += len(text[begin:last]) - len(text[begin:last].lstrip())
            line = block[text[:begin].count("\n")][0]
            sentences.append((line, words, " ".join(text[begin:last].split())))
    return sentences


def anchors_of(file):
    """The anchors of a document's headings, as they are linked to."""
    text = file.read_text(encoding="utf-8")
    headings = re.findall(r"^#{1,6} +(.*?)\s*$", text, re.MULTILINE)
    return {re.sub(r"[^\w\- ]", "", heading.lower()).replace(" ", "-") for heading in headings}


def is_there(path):
    """Whether a path that is named is there, or is to be built."""
    parts = path.split("/")
    if "out" in parts:
        return True
    pattern = "/".join("*" if re.fullmatch(r"[A-Z_]+", part) else part.replace("NAME.", "*.") for part in parts)
    return any(TOP.glob(pattern)) if "*" in pattern else (TOP / pattern).exists()


def wrong_names(file, text):
    """The links and paths of a document that name nothing, with their lines."""
    wrong = []
    for number, line in enumerate(text.split("\n"), 1):
        for target in [found[2] for found in LINK.finditer(CODE.sub("", line))]:
            path, _, anchor = target.partition("#")
            if re.match(r"\w+:", target):
                continue
            to = (file.parent / path) if path else file
            if not to.exists():
                wrong.append((number, f"the link {target} names nothing"))
            elif anchor and to.suffix == ".md" and anchor not in anchors_of(to):
                wrong.append((number, f"{to.name} has no heading #{anchor}"))
        without_links = LINK.sub(lambda found: found[1], line)
        paths = [found[1].removeprefix("../") for found in PATH.finditer(without_links)]
        paths = [path.rstrip("./") for path in paths]
        wrong += [(number, f"{path} is not there") for path in paths if not is_there(path)]
        for name in NAMED.findall(without_links):
            if not (TOP / "docs" / name).exists() and not (TOP / name).exists():
                wrong.append((number, f"{name} is not there"))
        for crate, path in OF_CRATE.findall(without_links):
            below = f"crates/{crate}/{path}".rstrip("./")
            if not any(is_there(below + ending) for ending in ("", ".antt", ".rt", ".edit")):
                wrong.append((number, f"{crate}/{path} is not there"))
    return wrong


def wrong_list(index):
    """The files of docs/ that docs/README.md doesn't have on one line each."""
    lines = index.read_text(encoding="utf-8").split("\n")
    links = [(number, found[2]) for number, line in enumerate(lines, 1) for found in LINK.finditer(line)]
    wrong = []
    for file in sorted(index.parent.rglob("*")):
        if not file.is_file() or file == index:
            continue
        name = str(file.relative_to(index.parent))
        where = [number for number, target in links if target == name]
        if not where:
            wrong.append((1, f"{name} is not listed"))
        wrong += [(number, f"{name} is listed again") for number in where[1:]]
    return wrong


def checks_of(file, has_measures):
    """Each check of a document: what is wrong, as pairs of a line and a text."""
    text = file.read_text(encoding="utf-8")
    lines = text.split("\n")
    code, prose = blocks_of(text)

    def may_be_long(number, line):
        return code.get(number) == "wireshark" or re.fullmatch(r"\s*(?:[-*] )?<?https?://\S+", line)

    yield [
        (number, f"{len(line)} characters")
        for number, line in enumerate(lines, 1)
        if len(line) > LONGEST_LINE and not may_be_long(number, line)
    ]
    if file == TOP / "README.md":
        yield [(len(lines) - 1, f"{len(lines) - 1} lines")] if len(lines) - 1 > README_LINES else []

    sentences = [sentence for block in prose for sentence in sentences_of(block)]
    counts = sorted(words for _, words, _ in sentences)
    if counts:
        median, tenth = statistics.median(counts), counts[math.ceil(0.9 * len(counts)) - 1]
        if has_measures:
            print(f"{file.relative_to(TOP)}: {len(lines) - 1} lines, {len(counts)} sentences, median {median:g}, nine of ten {tenth}")
        yield [(1, f"the median sentence has {median:g} words")] if median >= MEDIAN else []
        longest = [(line, f"{words} words: {told[:90]}") for line, words, told in sentences if words > NINE_OF_TEN]
        yield [(1, f"one of ten sentences has {tenth} words or more"), *longest] if tenth > NINE_OF_TEN else []
    yield wrong_names(file, text)
    if file == TOP / "docs" / "README.md":
        yield wrong_list(file)


def dialect_in(file):
    """How often the words of the dialect stand in a document's text, tables and headings among it."""
    text = file.read_text(encoding="utf-8")
    code, _ = blocks_of(text)
    lines = [line for number, line in enumerate(text.split("\n"), 1) if number not in code]
    return len(DIALECT.findall(masked("\n".join(lines))))


def comments_of(file):
    """The numbered lines of a source or a definition that are comments."""
    mark = "//" if file.suffix == ".rt" else "--"
    for number, line in enumerate(file.read_text(encoding="utf-8").split("\n"), 1):
        if line.lstrip().startswith(mark):
            yield number, line


def check_comments():
    """Prints what is wrong with the comments of sources and definitions, and returns whether nothing is."""
    dialect, is_right = 0, True
    for folder in ("src", "specs"):
        for file in sorted((TOP / "crates").glob(f"*/{folder}/**/*")):
            if file.suffix not in (".rt", ".antt"):
                continue
            for number, line in comments_of(file):
                dialect += len(DIALECT.findall(masked(line)))
                if len(line) > LONGEST_LINE:
                    print(f"{file.relative_to(TOP)}:{number}: a comment of {len(line)} characters")
                    is_right = False
    if dialect > MOST_IN_COMMENTS:
        print(f"words of the dialect in comments: {dialect}, at most {MOST_IN_COMMENTS}")
        is_right = False
    return is_right


def main(words):
    has_measures = "--measures" in words
    named = [pathlib.Path(word).resolve() for word in words if word != "--measures"]
    passed = failed = 0
    for file in named or [TOP / "README.md", *sorted((TOP / "docs").glob("*.md"))]:
        for wrong in checks_of(file, has_measures):
            for line, told in wrong:
                print(f"{file.relative_to(TOP)}:{line}: {told}")
            if wrong:
                failed += 1
            else:
                passed += 1
    if not named:
        dialect = sum(map(dialect_in, [TOP / "README.md", *(TOP / "docs").rglob("*.md")]))
        if dialect > MOST_OF_DIALECT:
            print(f"words of the dialect: {dialect}, at most {MOST_OF_DIALECT}")
            failed += 1
        else:
            passed += 1
        if check_comments():
            passed += 1
        else:
            failed += 1
    print(f"documents: {passed} passed, {failed} failed")
    return 1 if failed else 0


if __name__ == "__main__":
    sys.exit(main(sys.argv[1:]))
