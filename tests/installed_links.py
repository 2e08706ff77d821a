#!/usr/bin/env python3
"""Follows each relative link of each document below a folder, and fails if one leads to nothing, or out of that folder.

    python3 tests/installed_links.py FOLDER    as share/doc/turnaudit of an installation or of a package

It also looks for what the documents' commands use of the repository and needs no kit.
"""

import pathlib
import re
import sys

LINK = re.compile(r"\[[^\]]*\]\(([^)\s]*)\)")
CODE = re.compile(r"(`+)(?!`)(.+?)(?<!`)\1(?!`)")
USED = (
    "docs/headline.txt",
    "docs/turnexplain.schema.json",
    "examples/fleet/run_case",
    "examples/fleet/by_parallel",
    "examples/coturn-send-data/cap.pcapng",
    "tests/plain/__main__.py",
    "tools/collect.py",
    "tools/second_opinion.py",
)


def links_of(document):
    """The files to which a document links, as they are written there."""
    text = CODE.sub("", document.read_text(encoding="utf-8"))
    targets = [target.partition("#")[0] for target in LINK.findall(text)]
    return [target for target in targets if target and not re.match(r"\w+:", target)]


def leads_nowhere(folder, document, target):
    place = (document.parent / target).resolve()
    return not place.exists() or not place.is_relative_to(folder)


def main(words):
    if len(words) != 1:
        sys.exit(__doc__.strip())
    folder = pathlib.Path(words[0]).resolve()
    links = [(document, target) for document in sorted(folder.rglob("*.md")) for target in links_of(document)]
    wrong = [f"{document.relative_to(folder)} links to {target}" for document, target in links if leads_nowhere(folder, document, target)]
    wrong += [f"{name} is missing" for name in USED if not (folder / name).is_file()]
    for line in wrong:
        print(f"failed: {line}")
    print(f"installed_links: {len(links)} links, {len(wrong)} failed")
    return 1 if wrong or not links else 0


if __name__ == "__main__":
    sys.exit(main(sys.argv[1:]))
