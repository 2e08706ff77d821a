#!/usr/bin/env python3
"""Makes a Debian package of a turnaudit that is built already, and prints its name.

    tools/package.py --program FILE [--beside FILE..] [--out out]

It takes dpkg-deb. What the package depends on is told by dpkg-shlibdeps, or, where that is missing, by the versions of the C library that
objdump finds in the program. DEBFULLNAME and DEBEMAIL name the maintainer, as in Debian's own tools. The one time in the package is
SOURCE_DATE_EPOCH, else that of the repository's commit, else the date of CHANGELOG.md's newest release: packages of the same programs from
one commit are the same, byte for byte. In share/doc/turnaudit, SHA256SUMS has the package's files, and turnaudit.spdx its bill of materials.
"""

import argparse
import calendar
import contextlib
import email.utils
import gzip
import hashlib
import os
import re
import shutil
import subprocess
import sys
import tempfile
import time
from pathlib import Path

import crates
import install
import installed
import man_pages
import spdx

REVISION = "1"
# Libraries that the program may need, and their packages, where dpkg-shlibdeps can't tell.
PACKAGES = {"libc.so.6": "libc6", "libm.so.6": "libc6", "libgcc_s.so.1": "libgcc-s1", "ld-linux-x86-64.so.2": "libc6", "ld-linux-aarch64.so.1": "libc6"}
# What lintian warns of and isn't so here.
OVERRIDES = """\
# The package isn't made for Debian's archive, in which a first upload closes a request for it.
turnaudit: initial-upload-closes-no-bugs
"""
SHORT = "judges captures of a TURN server by RFC 8656"
LONG = """\
 turnaudit reads pcapng captures of a TURN server and a policy that says which
 endpoints are the server's. It tells whether the server relayed anything for
 a client without an allocation and a permission or channel: "conforming", or
 "not shown" with the first rule that is broken and the datagram that shows it.
 .
 It judges UDP over IPv4, and long-term credentials by MD5 or SHA-256.
 .
 turnprep makes captures of relays in use ready for it, and turnexplain tells
 what a verdict means."""


def maintainer():
    name = os.environ.get("DEBFULLNAME", "turnaudit authors")
    return f"{name} <{os.environ.get('DEBEMAIL', 'turnaudit@users.noreply.moltzegar.example')}>"


def moment_of_commit():
    """The committer's time of the repository's commit, or None if this is no clone."""
    if not (man_pages.TOP / ".git").exists():
        return None
    found = subprocess.run(["git", "-C", man_pages.TOP, "log", "-1", "--format=%ct"], capture_output=True, text=True)
    return int(found.stdout) if found.returncode == 0 else None


def moment():
    """Seconds since 1970 of all that is in the package."""
    of_release = calendar.timegm(time.strptime(man_pages.release()[1], "%Y-%m-%d"))
    return int(os.environ.get("SOURCE_DATE_EPOCH") or moment_of_commit() or of_release)


def said_by(*words, **others):
    return subprocess.run(words, check=True, capture_output=True, text=True, **others).stdout.strip()


def depends_by_shlibdeps(programs):
    with tempfile.TemporaryDirectory(prefix="package-") as room:
        (Path(room) / "debian").mkdir()
        (Path(room) / "debian" / "control").write_text("Source: turnaudit\n\nPackage: turnaudit\nArchitecture: any\n")
        return said_by("dpkg-shlibdeps", "-O", *(f"-e{program}" for program in programs), cwd=room).removeprefix("shlibs:Depends=")


def depends_by_objdump(programs):
    """The packages of the libraries that are needed, libc6 from the newest version of its symbols on."""
    told = "\n".join(said_by("objdump", "-p", program) for program in programs)
    needed = {PACKAGES.get(name) or sys.exit(f"no package is known of {name}: install dpkg-dev") for name in re.findall(r"NEEDED\s+(\S+)", told)}
    versions = [tuple(int(part) for part in version.split(".")) for version in re.findall(r"GLIBC_([\d.]+)", told)]
    newest = f" (>= {'.'.join(map(str, max(versions)[:2]))})" if versions else ""
    return ", ".join(sorted(name + newest if name == "libc6" else name for name in needed))


def depends(programs):
    tell = depends_by_shlibdeps if shutil.which("dpkg-shlibdeps") else depends_by_objdump
    return tell([program.resolve() for program in programs])


def control(version, architecture, needs, size):
    return (
        f"Package: turnaudit\nVersion: {version}\nArchitecture: {architecture}\nMaintainer: {maintainer()}\nInstalled-Size: {size}\n"
        f"Depends: {needs}\nSection: net\nPriority: optional\nDescription: {SHORT}\n{LONG}\n"
    )


def changelog(version):
    date = email.utils.formatdate(moment(), localtime=False).replace("-0000", "+0000")
    return f"turnaudit ({version}) unstable; urgency=medium\n\n  * Release {version.split('-')[0]}: changelog.gz tells its changes.\n\n -- {maintainer()}  {date}\n"


def copyright_text():
    """LICENSE in the form of Debian's copyright files."""
    lines = (man_pages.TOP / "LICENSE").read_text(encoding="utf-8").splitlines()
    text = "\n".join(f" {line}" if line else " ." for line in lines[lines.index("", 2) + 1:])
    return (
        "Format: https://www.debian.org/doc/packaging-manuals/copyright-format/1.0/\nUpstream-Name: turnaudit\n\n"
        f"Files: *\nCopyright: {holder().replace('Copyright (c) ', '')}\nLicense: Expat\n\nLicense: Expat\n{text}\n"
    )


def pack(text, place):
    with open(place, "wb") as into, gzip.GzipFile("", "wb", 9, into, mtime=0) as packed:
        packed.write(text.encode("utf-8"))


def put_debian_files(root, version):
    """What Debian wants in share/doc beside the documents. CHANGELOG.md stays, too: README.md links to it."""
    folder = root / "usr" / "share" / "doc" / "turnaudit"
    (folder / "copyright").write_text(copyright_text(), encoding="utf-8")
    pack((folder / "CHANGELOG.md").read_text(encoding="utf-8"), folder / "changelog.gz")
    pack(changelog(version), folder / "changelog.Debian.gz")
    (folder / "LICENSE").unlink()
    overrides = root / "usr" / "share" / "lintian" / "overrides"
    overrides.mkdir(parents=True)
    (overrides / "turnaudit").write_text(OVERRIDES, encoding="utf-8")


def holder():
    """Whose copyright LICENSE names."""
    lines = (man_pages.TOP / "LICENSE").read_text(encoding="utf-8").splitlines()
    return next(line for line in lines if line.startswith("Copyright"))


def version_line(program):
    return said_by(program.resolve(), "--version")


def put_lists(root, version, programs, needs):
    """Writes the bill of materials, and SHA256SUMS, which has it, too."""
    prefix = root / "usr"
    folder = prefix / "share" / "doc" / "turnaudit"
    lines = [version_line(program) for program in programs.values()]
    package = spdx.Part("turnaudit", "", version, "MIT", f"<text>{holder()}</text>", "\n".join(lines))
    text = spdx.document(package, lines, crates.ports(list(programs)), needs.split(", "), sums_of(prefix), moment())
    (folder / "turnaudit.spdx").write_text(text, encoding="utf-8")
    (prefix / installed.RECORD).write_text(f"{installed.OF_PACKAGE}\n{sums_of(prefix)}", encoding="utf-8")


def sums_of(prefix):
    return installed.sums({str(file.relative_to(prefix)): installed.digest(file) for file in prefix.rglob("*") if file.is_file()})


def put_control(root, text):
    folder = root / "DEBIAN"
    folder.mkdir()
    (folder / "control").write_text(text, encoding="utf-8")
    files = sorted(file for file in root.rglob("*") if file.is_file() and folder not in file.parents)
    sums = "".join(f"{hashlib.md5(file.read_bytes()).hexdigest()}  {file.relative_to(root)}\n" for file in files)
    (folder / "md5sums").write_text(sums, encoding="utf-8")


def settle(root):
    """Gives every file and folder the mode that Debian wants, whatever the umask is, and the one time."""
    for place in [root, *root.rglob("*")]:
        place.chmod(0o755 if place.stat().st_mode & 0o100 else 0o644)
        os.utime(place, (moment(), moment()))


def make(program, beside, out):
    """Makes the package, and returns where it is."""
    version = f"{man_pages.release()[0]}-{REVISION}"
    architecture = said_by("dpkg", "--print-architecture")
    with tempfile.TemporaryDirectory(prefix="package-") as room:
        root = Path(room) / "turnaudit"
        with contextlib.redirect_stdout(None):
            install.install(install.Place(root / "usr"), program, beside, "share/zsh/vendor-completions", packed=True, strip=True)
        needs = depends([program, *beside])
        put_debian_files(root, version)
        put_lists(root, version, {"turnaudit": program, **{other.name: other for other in beside}}, needs)
        size = sum((file.stat().st_size + 1023) // 1024 for file in root.rglob("*") if file.is_file())
        put_control(root, control(version, architecture, needs, size))
        settle(root)
        out.mkdir(parents=True, exist_ok=True)
        package = out / f"turnaudit_{version}_{architecture}.deb"
        # By several threads xz writes other bytes.
        environment = {**os.environ, "SOURCE_DATE_EPOCH": str(moment()), "DPKG_DEB_THREADS_MAX": "1"}
        subprocess.run(["dpkg-deb", "--root-owner-group", "-Zxz", "-z2", "--build", root, package], check=True, env=environment, stdout=subprocess.DEVNULL)
        return package


def main():
    words = argparse.ArgumentParser(description="Makes a Debian package of turnaudit, which is built already.")
    words.add_argument("--program", type=Path, required=True)
    words.add_argument("--beside", type=Path, nargs="*", default=[], help="turnprep and turnexplain, where they are built")
    words.add_argument("--out", type=Path, default=man_pages.TOP / "out")
    options = words.parse_args()
    install.check_programs(options.program, options.beside)
    missing = [name for name in ("dpkg", "dpkg-deb", "strip", "objdump") if not shutil.which(name)]
    if missing:
        sys.exit(f"a package takes {', '.join(missing)}: apt-get install dpkg binutils")
    print(make(options.program, options.beside, options.out))


if __name__ == "__main__":
    main()
