#!/usr/bin/env python3
"""Compares the lists of an unpacked package with its files: SHA256SUMS, and the bill of materials in SPDX 2.3's tag-value form.

    python3 tests/package_lists.py PREFIX PROGRAM    the package's usr, and the program that was packed

Each file is in SHA256SUMS once, with its digest. Each package of the bill has the tags that SPDX requires, an identity of its own, and no
location; each relationship is between two of them. The kit is that of PROGRAM's --version, and the ports are those of crates.txt.
"""

import hashlib
import pathlib
import re
import subprocess
import sys

HERE = pathlib.Path(__file__).resolve().parent
sys.dont_write_bytecode = True
sys.path.insert(0, str(HERE.parent / "tools"))

import crates

FOLDER = pathlib.Path("share/doc/turnaudit")
OF_DOCUMENT = ["SPDXVersion", "DataLicense", "SPDXID", "DocumentName", "DocumentNamespace", "Creator", "Created"]
OF_PACKAGE = ["PackageName", "SPDXID", "PackageDownloadLocation", "PackageLicenseConcluded", "PackageLicenseDeclared", "PackageCopyrightText"]


def wrong_sums(prefix):
    """What of SHA256SUMS differs from the files."""
    record = prefix / FOLDER / "SHA256SUMS"
    listed = [line.split("  ", 1) for line in record.read_text(encoding="utf-8").splitlines() if not line.startswith("#")]
    files = {str(file.relative_to(prefix)): file for file in prefix.rglob("*") if file.is_file() and file != record}
    wrong = [f"SHA256SUMS: {path} is listed again" for _, path in listed if [other for _, other in listed].count(path) > 1]
    wrong += [f"SHA256SUMS: {path} isn't listed" for path in files.keys() - {path for _, path in listed}]
    wrong += [f"SHA256SUMS: {path} isn't there" for path in {path for _, path in listed} - files.keys()]
    return wrong + [f"SHA256SUMS: {path} differs" for digest, path in listed if path in files and hashlib.sha256(files[path].read_bytes()).hexdigest() != digest]


def blocks_of(text):
    """The tags of each block, the document's first, as lists of pairs; a text of several lines is one."""
    text = re.sub(r"<text>.*?</text>", lambda found: found[0].replace("\n", " "), text, flags=re.DOTALL)
    return [[tuple(line.split(": ", 1)) for line in block.splitlines()] for block in text.strip().split("\n\n")]


def wrong_bill(prefix, program):
    head, *packages, relations = blocks_of((prefix / FOLDER / "turnaudit.spdx").read_text(encoding="utf-8"))
    found = {of["SPDXID"]: of for of in map(dict, packages)}
    wrong = [f"SPDX: the document has no {tag}" for tag in OF_DOCUMENT if tag not in dict(head)]
    wrong += [f"SPDX: {of['SPDXID']} has no {tag}" for of in found.values() for tag in OF_PACKAGE if not of.get(tag)]
    wrong += [f"SPDX: a location of {name}" for name, of in found.items() if of["PackageDownloadLocation"] != "NOASSERTION"]
    wrong += [] if len(found) == len(packages) else ["SPDX: two packages of one identity"]
    ends = {end for _, relation in relations for end in (relation.split()[0], relation.split()[2])}
    wrong += [f"SPDX: relationships differ from packages: {ends ^ (found.keys() | {'SPDXRef-DOCUMENT'})}"] if ends != found.keys() | {"SPDXRef-DOCUMENT"} else []
    kit = subprocess.run([program, "--version"], capture_output=True, text=True, check=True).stdout.strip().partition(", proved with ")[2]
    wrong += ["SPDX: another kit than the program's"] if found["SPDXRef-rattle-kit"].get("PackageVersion", "") != kit else []
    names = {of["PackageName"] for of in found.values()}
    wanted = {"turnaudit", "rattle-kit", "libc6", *crates.ports(["turnaudit", "turnprep", "turnexplain"])}
    return wrong + ([f"SPDX: {wanted - names} isn't there"] if wanted - names else [])


def main(words):
    if len(words) != 2:
        sys.exit(__doc__.strip())
    prefix = pathlib.Path(words[0])
    wrong = [*wrong_sums(prefix), *wrong_bill(prefix, words[1])]
    for line in wrong:
        print(f"failed: {line}")
    print(f"package_lists: {len(wrong)} failed")
    return 1 if wrong else 0


if __name__ == "__main__":
    sys.exit(main(sys.argv[1:]))
