#!/usr/bin/env python3
"""Removes what `make install` put below a prefix.

    tools/uninstall.py [--prefix /usr/local] [--destdir FOLDER]

It removes the files that the record share/doc/turnaudit/SHA256SUMS names, the record, and the folders that the installation made if they
are empty. A file that isn't the one that was installed stays, and is named; the status is then 1.
"""

import argparse
import sys
from pathlib import Path

import installed


def remove_files(root, files):
    """Removes the files that are as they were installed, and returns the others."""
    changed = []
    for path, digest in files.items():
        file = root / path
        if file.is_symlink() or file.is_dir() or file.is_file() and installed.digest(file) != digest:
            changed.append(file)
        elif file.is_file():
            file.unlink()
            print(file)
    return changed


def remove_folders(root, folders):
    """Removes those that are empty, the deepest first."""
    for path in sorted(folders, key=lambda path: len(Path(path).parts), reverse=True):
        folder = root / path
        if folder.is_dir() and not folder.is_symlink() and not any(folder.iterdir()):
            folder.rmdir()
            print(folder)


def uninstall(root):
    """Removes the installation below a folder, and returns the files that stay."""
    record = root / installed.RECORD
    if not record.is_file():
        sys.exit(f"nothing is installed: there is no {record}")
    made = installed.read(root)
    changed = remove_files(root, made.files)
    record.unlink()
    print(record)
    remove_folders(root, made.folders)
    return changed


def main():
    words = argparse.ArgumentParser(description="Removes what `make install` put below a prefix.")
    words.add_argument("--prefix", default="/usr/local")
    words.add_argument("--destdir", default="")
    options = words.parse_args()
    if not options.prefix.startswith("/"):
        words.error("the prefix has to begin with /")
    changed = uninstall(Path(options.destdir + options.prefix))
    for file in changed:
        print(f"uninstall: {file} stays: it isn't the file that was installed", file=sys.stderr)
    return 1 if changed else 0


if __name__ == "__main__":
    sys.exit(main())
