#!/usr/bin/env python3
"""Makes docs/headline.txt, a reading copy of the definitions behind the headline, the counts of lines in docs/HEADLINE.md, and the
copy's digest in the code of `turnexplain evidence`.

    tools/reading_copy.py            writes the three
    tools/reading_copy.py --check    tells what would change, and writes nothing; its status is 1 where something would

docs/HEADLINE.md lists the files in which the definitions stand, and of some files the definitions that count. The copy has them in the
order of dependence, each behind what it uses: without imports, and with the records, choices and wire numbers of the code that they name.
"""

import hashlib
import re
import sys
from dataclasses import dataclass, field

import crates

PAGE = crates.TOP / "docs" / "HEADLINE.md"
COPY = crates.TOP / "docs" / "headline.txt"
# The code that states the copy's digest, and how.
CODE = crates.TOP / "crates" / "explain_program" / "src" / "evidence.rt"
DIGEST = re.compile(r'(?<=^const HEADLINE: &str = ")[0-9a-f]{64}(?=";$)', re.M)
# A file of the page's lists: `crate/specs/File` (so many lines; sections). What it says. Of it: `a`, `b`.
ENTRY = re.compile(r"^- `(?P<file>\w+/specs/\w+)` \((?P<count>\d+) lines?(?P<sections>;[^)]*)?\)\.(?P<rest>(?:.|\n(?!- |\n|[A-Z]))*)", re.M)
# What stands above a list of files: so many lines in all.
HEADING = re.compile(r"^[A-Z].*\(\d+ lines\)[.:]")
# The name that a definition gives, in the file's first column or in a module of it.
DEFINED = re.compile(r"^ *(?:(?:abbrev|unfoldable|opaque|record|data|pub) +)+(?P<name>[^\s:(){},]+)")
OF_CODE = re.compile(r"^use Rattle\.(?P<crate>\w+)\.specs\.declared\.(?P<path>[\w.]+?)\.(?P<item>\w+)(?:\.TheVariants|\.TheConstants)?(?:\.\{(?P<names>[^}]*)\}| as .*)$")


@dataclass
class Spec:
    """A file of definitions."""

    name: str
    sections: str
    wanted: list
    imports: list = field(default_factory=list)
    blocks: list = field(default_factory=list)

    def lines(self):
        return [line for block in self.blocks for line in block]


def is_import(line):
    return re.match(r"(?:pub )?use ", line) is not None


def blocks_of(text):
    """The parts of a file between blank lines, without imports."""
    block = []
    for line in [*text.splitlines(), ""]:
        if is_import(line):
            continue
        if line.strip():
            block.append(line)
        elif block:
            yield block
            block = []


def name_of(block):
    found = [DEFINED.match(line) for line in block]
    return next((it["name"] for it in found if it), None)


def read_spec(entry):
    """The file that an entry of the page names, as far as it counts."""
    wanted = re.findall(r"`([^`]+)`", entry["rest"].partition("Of it:")[2])
    spec = Spec(entry["file"], (entry["sections"] or "").lstrip("; "), wanted)
    crate, _, name = spec.name.partition("/specs/")
    text = (crates.TOP / "crates" / crate / "specs" / f"{name}.antt").read_text(encoding="utf-8")
    spec.imports = [line for line in text.splitlines() if is_import(line)]
    found = list(blocks_of(text))
    missing = set(wanted) - {name_of(block) for block in found}
    if missing:
        sys.exit(f"{spec.name} defines no {', '.join(sorted(missing))}, which docs/HEADLINE.md names")
    spec.blocks = [block for block in found if not wanted or name_of(block) in wanted]
    return spec


def specs_of(page):
    return [read_spec(entry) for entry in ENTRY.finditer(page)]


def in_order(specs):
    """The files in the order of dependence; of those that could come next, the one that stands last on the page."""
    known = {spec.name: spec for spec in specs}
    uses = {}
    for spec in specs:
        named = re.findall(r"use Rattle\.(\w+)\.specs\.(\w+)", "\n".join(spec.imports))
        uses[spec.name] = {f"{crate}/specs/{name}" for crate, name in named} & set(known) - {spec.name}
    done, left = [], [spec.name for spec in reversed(specs)]
    while left:
        ready = next((name for name in left if uses[name] <= set(done)), left[0])
        left.remove(ready)
        done.append(ready)
    return [known[name] for name in done]


def code_text(crate, path):
    """The text of a module of the code: its file, or that of the module around it."""
    file = crates.TOP / "crates" / crate / "src" / (path.replace(".", "/") + ".rt")
    file = file if file.is_file() else file.parent.with_suffix(".rt")
    return file.read_text(encoding="utf-8") if file.is_file() else ""


def item_of(crate, path, item):
    """The lines of a struct or an enum of the code, without what only the compiler reads."""
    lines = code_text(crate, path).splitlines()
    start = next((at for at, line in enumerate(lines) if re.match(rf"pub (?:struct|enum) {item}\b", line)), None)
    if start is None:
        return []
    end = start if lines[start].endswith((";", "}")) else next(at for at, line in enumerate(lines) if at > start and line == "}")
    comment = start
    while re.match(r"(///|#\[)", lines[comment - 1]):
        comment -= 1
    return [line for line in lines[comment : end + 1] if not re.match(r"\s*(#\[|ghost )", line)]


def constants_of(crate, path, names):
    """The constants of the code of these names."""
    text = code_text(crate, path)
    found = [re.search(rf"^ *(?:pub )?const {name}: .*;$", text, re.M) for name in names]
    return [it[0].strip() for it in found if it]


def code_of(spec, told):
    """What the file names of the code, unless it was told already."""
    for line in spec.imports:
        found = OF_CODE.match(line)
        if not found:
            continue
        crate, path, item = found["crate"], found["path"], found["item"]
        names = [name.partition(" as ")[0].strip() for name in (found["names"] or "").split(",")]
        if ".TheConstants" in line:
            path, key, lines = f"{path}.{item}", (crate, path, *names), None
            lines = constants_of(crate, path, names)
        else:
            key, lines = (crate, path, item), item_of(crate, path, item)
        fresh = [it for it in lines if (crate, path, it) not in told] if ".TheConstants" in line else lines * (key not in told)
        told.add(key)
        told.update((crate, path, it) for it in lines)
        yield from fresh


def copy_of(specs):
    """The text of the reading copy."""
    told, parts = set(), []
    parts.append("The definitions behind the headline, each behind what it uses. `docs/HEADLINE.md` says how to")
    parts.append("read them, and what to compare each with. tools/reading_copy.py made this file of the files named.")
    for spec in in_order(specs):
        sections = f"  ({spec.sections})" if spec.sections else ""
        parts += ["", f"==== {spec.name}{sections}", ""]
        code = list(code_of(spec, told))
        if code:
            parts += [f"  | {line}".rstrip() for line in code] + [""]
        for block in spec.blocks:
            parts += [*block, ""]
        parts.pop()
    return "\n".join(parts) + "\n"


def counted(page, specs):
    """The page with the counts of lines that the files have, and the sum of each list in its heading."""
    counts = {spec.name: len(spec.lines()) for spec in specs}
    page = ENTRY.sub(lambda it: it[0].replace(it["count"], str(counts[it["file"]]), 1), page)
    lines, heading, sums = page.splitlines(keepends=True), None, {}
    for at, line in enumerate(lines):
        if line.startswith("## "):
            heading = None
        elif HEADING.match(line):
            heading, sums[at] = at, 0
        elif heading is not None and ENTRY.match(line + "\n"):
            sums[heading] += int(ENTRY.match(line + "\n")["count"])
    for at, total in sums.items():
        lines[at] = re.sub(r"\(\d+ lines\)", f"({total} lines)", lines[at], count=1)
    return "".join(lines)


def main(words):
    if words not in ([], ["--check"]):
        print(__doc__.strip(), file=sys.stderr)
        return 2
    page = PAGE.read_text(encoding="utf-8")
    specs = specs_of(page)
    copy = copy_of(specs)
    digest = hashlib.sha256(copy.encode()).hexdigest()
    wanted = {PAGE: counted(page, specs), COPY: copy, CODE: DIGEST.sub(digest, CODE.read_text(encoding="utf-8"))}
    stale = [path for path, text in wanted.items() if not path.is_file() or path.read_text(encoding="utf-8") != text]
    if words:
        for path in stale:
            print(f"{path.relative_to(crates.TOP)} isn't what tools/reading_copy.py makes of the specs", file=sys.stderr)
        print(f"reading copy: {len(wanted) - len(stale)} passed, {len(stale)} failed")
        return 1 if stale else 0
    for path in stale:
        path.write_text(wanted[path], encoding="utf-8")
    return 0


if __name__ == "__main__":
    sys.exit(main(sys.argv[1:]))
