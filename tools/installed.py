"""The record of an installation: share/doc/turnaudit/SHA256SUMS below the prefix.

It has a line for each file, as sha256sum writes it, with paths below the prefix. Lines that begin with `# folder ` name folders that the
installation made. `make uninstall` removes what the record names; `sha256sum -c` in the prefix's folder checks it. The record of a Debian
package begins with OF_PACKAGE, and nothing is installed over it or removed by it: dpkg does that.
"""

import hashlib
import re
import sys
from dataclasses import dataclass, field

RECORD = "share/doc/turnaudit/SHA256SUMS"
FILE = re.compile(r"(?P<digest>[0-9a-f]{64})  (?P<path>\S.*)")
FOLDER = "# folder "
OF_PACKAGE = "# of a Debian package"


@dataclass
class Installed:
    """The digest of each file, and the folders that weren't there before, all by their paths below the prefix."""

    files: dict = field(default_factory=dict)
    folders: set = field(default_factory=set)


def digest(file):
    return hashlib.sha256(file.read_bytes()).hexdigest()


def is_below(path):
    """Whether a path of a record stays below the prefix; `.` is the prefix's own folder."""
    return not path.startswith("/") and ".." not in path.split("/")


def read(root):
    """The record below a folder; an empty one if there is none. It ends the program at a line that no installation writes."""
    record = root / RECORD
    made = Installed()
    lines = record.read_text(encoding="utf-8").splitlines() if record.is_file() else []
    if OF_PACKAGE in lines:
        sys.exit(f"{record} is of a Debian package: `apt-get remove turnaudit` removes it")
    for number, line in enumerate(lines, 1):
        of_file = FILE.fullmatch(line)
        path = of_file["path"] if of_file else line.removeprefix(FOLDER)
        if not is_below(path) or not of_file and not line.startswith("#"):
            sys.exit(f"{record}:{number}: no line of an installation: {line}")
        if of_file:
            made.files[path] = of_file["digest"]
        elif line.startswith(FOLDER):
            made.folders.add(path)
    return made


def sums(files):
    return "".join(f"{files[path]}  {path}\n" for path in sorted(files))


def write(root, installed):
    """Writes the record in a file beside, and renames it."""
    record = root / RECORD
    made = record.with_name(record.name + ".new")
    text = sums(installed.files) + "".join(f"{FOLDER}{path}\n" for path in sorted(installed.folders))
    made.write_text(text, encoding="utf-8")
    made.chmod(0o644)
    made.replace(record)
