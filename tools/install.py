#!/usr/bin/env python3
"""Installs the programs that are built, the completions and man pages of each, the documents, and what the documents link to.

    tools/install.py --program FILE [--beside FILE..] [--prefix /usr/local] [--destdir FOLDER] [--zsh share/zsh/site-functions]
                     [--compressed] [--strip]

Everything is put below DESTDIR and the prefix: bin, share/man, share/bash-completion/completions, the folder of zsh's functions,
share/fish/vendor_completions.d and share/doc/turnaudit. The last has the documents, examples, and the tools that take Python alone, in the
folders of the repository. Its SHA256SUMS is the record that tools/uninstall.py reads. Nothing is proved or built here: a program that
isn't built is named, with the command that builds it. With --compressed the man pages are as Debian's packages have them.
"""

import argparse
import gzip
import os
import shutil
import subprocess
import sys
import tempfile
from pathlib import Path

import crates
import installed
import man_pages

TOP = Path(__file__).resolve().parent.parent
COMPLETIONS = TOP / "completions"
ZSH = "share/zsh/site-functions"
DOCUMENTS = "share/doc/turnaudit"
# The programs that may be next to turnaudit.
OTHERS = ("turnprep", "turnexplain")
BUILDS = "`make {name}` proves and builds it, which can take more than an hour"
# What is installed of the repository: the documents, what they link to, and what their commands use that takes no kit.
OF_REPOSITORY = ("README.md", "CHANGELOG.md", "LICENSE", "docs", "examples", "tests/plain", "tools/collect.py", "tools/second_opinion.py")


class Place:
    """The folder of the prefix, and the record of what is put there."""

    def __init__(self, root):
        self.root = root
        self.record = installed.read(root)
        # What an earlier installation put and this one doesn't is removed with it.
        self.record.files = {path: digest for path, digest in self.record.files.items() if (root / path).is_file()}

    def make_folder(self, folder):
        """Makes a folder, and records those that weren't there, the prefix's own among them."""
        missing = [one for one in (folder, *folder.parents) if one.is_relative_to(self.root) and not one.exists()]
        folder.mkdir(parents=True, exist_ok=True)
        self.record.folders.update(str(one.relative_to(self.root)) for one in missing)
        # Whoever installs may have an umask by which nobody else could read the folder.
        for one in missing:
            one.chmod(0o755)

    def put(self, source, path, mode=0o644):
        """Copies a file to a path below the prefix, beside an older one that may be running, and renames it."""
        place = self.root / path
        self.make_folder(place.parent)
        made = place.with_name(place.name + ".new")
        shutil.copyfile(source, made)
        made.chmod(mode)
        made.replace(place)
        self.record.files[path] = installed.digest(place)
        print(place)

    def write_record(self):
        self.make_folder((self.root / installed.RECORD).parent)
        installed.write(self.root, self.record)
        print(self.root / installed.RECORD)


def compressed(file):
    """The file as `gzip -9n` has it: without its name and time."""
    made = file.with_name(file.name + ".gz")
    with open(made, "wb") as into, gzip.GzipFile("", "wb", 9, into, mtime=0) as packed:
        packed.write(file.read_bytes())
    return made


def put_man_pages(place, names, packed):
    """The pages of these programs, and those of formats and rules."""
    with tempfile.TemporaryDirectory(prefix="install-") as room:
        for name in man_pages.write(Path(room), names):
            page = Path(room) / name
            place.put(compressed(page) if packed else page, f"share/man/man{name[-1]}/{name}{'.gz' * packed}")


def files_of(name):
    """The files of a document or a folder, without what Python compiled of them."""
    top = TOP / name
    files = sorted(top.rglob("*")) if top.is_dir() else [top]
    return [file for file in files if file.is_file() and file.parent.name != "__pycache__"]


def put_documents(place):
    for file in [file for name in OF_REPOSITORY for file in files_of(name)]:
        mode = 0o755 if os.access(file, os.X_OK) else 0o644
        place.put(file, f"{DOCUMENTS}/{file.relative_to(TOP)}", mode)


def put_program(place, program, name, strip):
    with tempfile.TemporaryDirectory(prefix="install-") as room:
        copy = Path(room) / name
        shutil.copyfile(program, copy)
        if strip:
            subprocess.run(["strip", "--strip-unneeded", "--remove-section=.comment", "--remove-section=.note", copy], check=True)
        place.put(copy, f"bin/{name}", 0o755)


def put_completions(place, name, zsh):
    """The completions of a program, if there are any: one of BESIDE may have any name."""
    if (COMPLETIONS / f"_{name}").is_file():
        place.put(COMPLETIONS / f"{name}.bash", f"share/bash-completion/completions/{name}")
        place.put(COMPLETIONS / f"_{name}", f"{zsh}/_{name}")
        place.put(COMPLETIONS / f"{name}.fish", f"share/fish/vendor_completions.d/{name}.fish")


def install(place, program, beside, zsh=ZSH, packed=False, strip=False):
    """Installs in a place. Programs of `beside` keep the names of their files."""
    programs = {"turnaudit": program, **{other.name: other for other in beside}}
    for name, file in programs.items():
        put_program(place, file, name, strip)
        put_completions(place, name, zsh)
    put_man_pages(place, programs, packed)
    put_documents(place)


def newer_source(program):
    """A source that changed after a program of this repository was built, or None."""
    if not program.resolve().is_relative_to(TOP / "crates"):
        return None
    folders = [TOP / "crates" / crate / kind for crate in [*crates.below([program.name]), program.name] for kind in ("src", "specs", "proofs")]
    files = [TOP / "crates.txt", *(file for folder in folders for file in sorted(folder.rglob("*.*")))]
    newer = [file for file in files if file.stat().st_mtime > program.stat().st_mtime]
    return newer[0].relative_to(TOP) if newer else None


def check_programs(program, beside):
    """Ends with status 1 if a program that is named isn't there. Names those that aren't built, and those that are older than their sources."""
    for name, file in [("turnaudit", program), *((other.name, other) for other in beside)]:
        if not file.is_file():
            sys.exit(f"{name} isn't built, there is no {file}: {BUILDS.format(name=name)}")
        source = newer_source(file)
        if source:
            print(f"{name} is older than {source}: {BUILDS.format(name=name)}", file=sys.stderr)
    for name in OTHERS:
        is_built = (TOP / "crates" / name / "out" / name).is_file()
        if not is_built and name not in [other.name for other in beside]:
            print(f"without {name}, which isn't built: {BUILDS.format(name=name)}", file=sys.stderr)


def main():
    words = argparse.ArgumentParser(description="Installs turnaudit, which is built already.")
    words.add_argument("--program", type=Path, required=True)
    words.add_argument("--beside", type=Path, nargs="*", default=[], help="turnprep and turnexplain, where they are built")
    words.add_argument("--prefix", default="/usr/local")
    words.add_argument("--destdir", default="")
    words.add_argument("--zsh", default=ZSH, help="where below the prefix zsh's functions are")
    words.add_argument("--compressed", action="store_true", help="compress the man pages")
    words.add_argument("--strip", action="store_true", help="leave out what the program has for debuggers")
    options = words.parse_args()
    if not options.prefix.startswith("/"):
        words.error("the prefix has to begin with /")
    check_programs(options.program, options.beside)
    place = Place(Path(options.destdir + options.prefix))
    try:
        install(place, options.program, options.beside, options.zsh, options.compressed, options.strip)
    except OSError as fault:
        sys.exit(f"install: {fault}")
    finally:
        # Also of an installation that failed, so that `make uninstall` removes what it put there.
        if place.record.files:
            place.write_record()


if __name__ == "__main__":
    main()
