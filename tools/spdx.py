"""The bill of materials of a package, in SPDX 2.3's tag-value form: the package, the kit that proved it, ports and libraries.

Where something was downloaded from isn't known here, so each location is NOASSERTION. The files of the package are in its SHA256SUMS.
"""

import hashlib
import re
import time
import uuid
from dataclasses import dataclass

PROVED_WITH = ", proved with "


@dataclass
class Part:
    """A thing of which the package consists, or that it needs: SPDX calls each a package."""

    name: str
    relation: str
    version: str = ""
    license: str = "NOASSERTION"
    copyright: str = "NOASSERTION"
    comment: str = ""

    def identity(self):
        return "SPDXRef-" + re.sub(r"[^A-Za-z0-9.-]", "-", self.name)

    def lines(self):
        version = [f"PackageVersion: {self.version}"] if self.version else []
        comment = [f"PackageComment: <text>{self.comment}</text>"] if self.comment else []
        return [
            f"PackageName: {self.name}", f"SPDXID: {self.identity()}", *version, "PackageDownloadLocation: NOASSERTION", "FilesAnalyzed: false",
            "PackageLicenseConcluded: NOASSERTION", f"PackageLicenseDeclared: {self.license}", f"PackageCopyrightText: {self.copyright}", *comment,
        ]


def kit(version_lines):
    """The Rattle kit, by the line that turnaudit's --version has of it. An unproved build names none."""
    line = version_lines[0].partition(PROVED_WITH)[2]
    comment = "Its toolchain proved and compiled the programs, and its library is part of them. The version is what `rt version` prints."
    return Part("rattle-kit", "{part} BUILD_TOOL_OF {package}", line, comment=comment if line else "The programs name no kit that proved them.")


def port(name):
    return Part(name, "{package} STATIC_LINK {part}", comment="A crate that is ported to Rattle, of the kit. crates.txt names it without a version.")


def library(need):
    """A library's package, of one dependency as Debian writes it: `libc6 (>= 2.34)`."""
    name, _, version = need.partition(" ")
    return Part(name, "{package} DYNAMIC_LINK {part}", comment=f"Needed at run time, as {need}." if version else "Needed at run time.")


def document(package, version_lines, ports, needs, sums, moment):
    """The text. `sums` are the digests of the package's files, from which the document's unique name is made."""
    parts = [kit(version_lines), *map(port, ports), *map(library, needs)]
    made = uuid.uuid5(uuid.NAMESPACE_URL, hashlib.sha256(f"{package.version}\n{sums}".encode()).hexdigest())
    head = [
        "SPDXVersion: SPDX-2.3", "DataLicense: CC0-1.0", "SPDXID: SPDXRef-DOCUMENT", f"DocumentName: {package.name}-{package.version}",
        f"DocumentNamespace: urn:uuid:{made}", "Creator: Tool: turnaudit-tools/package.py",
        f"Created: {time.strftime('%Y-%m-%dT%H:%M:%SZ', time.gmtime(moment))}",
    ]
    relations = ["SPDXRef-DOCUMENT DESCRIBES {package}", *(part.relation for part in parts)]
    names = [{"package": package.identity(), "part": part.identity()} for part in [package, *parts]]
    tail = [f"Relationship: {relation.format(**of)}" for relation, of in zip(relations, names)]
    blocks = [head, *(part.lines() for part in [package, *parts]), tail]
    return "\n\n".join("\n".join(block) for block in blocks) + "\n"
