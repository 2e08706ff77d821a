#!/usr/bin/env python3
"""Builds a program without proving it, in some two minutes, and runs it on its arguments.

    tools/unproved.py [ARGUMENT..]            builds out/turnaudit-unproved where the sources changed since, and runs it with these arguments
    tools/unproved.py turnprep [ARGUMENT..]   the same with out/turnprep-unproved
    tools/unproved.py turnexplain [ARGUMENT..]

This build is for trying a program out. No contract is proved of it. In place of that it stops, with a message, at an index out of range, at
a sum that wraps and at the other faults that a proof excludes, and it is slower than the proved program. `make turnaudit` proves and builds
the programs that a verdict should come from.
"""

import hashlib
import os
import shutil
import signal
import subprocess
import sys
import tempfile
import time
from pathlib import Path

import crates

# The programs, and a command of each that reads a file, whose name is FILE here, at once.
READING = {
    "turnaudit": ["check", "--policy", "FILE", "--cert", "FILE", "FILE"],
    "turnprep": ["policy", "--turnserver-conf", "FILE"],
    "turnexplain": ["faults", "--policy", "FILE", "/dev/null"],
}
# The crates whose line of the release says what they are proved with.
PAGES = ("audit_program", "prep_program", "explain_program")
PROVED_WITH = ", proved with "
PROVES = "`make turnaudit` proves and builds the programs (95 processor minutes), `make install` installs them"


def built(program):
    return crates.TOP / "out" / f"{program}-unproved"


def sources(program):
    """The files from which a program is built."""
    for name in [*crates.below([program]), program]:
        folder = crates.TOP / "crates" / name / "src"
        yield from sorted(file for file in folder.rglob("*.rt"))


def digest(program):
    total = hashlib.sha256()
    for file in sources(program):
        total.update(f"{file.relative_to(crates.TOP)} {hashlib.sha256(file.read_bytes()).hexdigest()}\n".encode())
    return total.hexdigest()


def without_claim(top):
    """Has the release lines of a copy of the repository say that the build isn't proved."""
    for crate in PAGES:
        file = top / "crates" / crate / "src" / "pages.rt"
        lines = file.read_text(encoding="utf-8").splitlines(keepends=True)
        claims = [number for number, line in enumerate(lines) if line.startswith("const RELEASE") and PROVED_WITH in line]
        if not claims:
            sys.exit(f"{file.relative_to(top)} has no release line that names what it is proved with")
        for number in claims:
            lines[number] = lines[number].partition(PROVED_WITH)[0] + ', not proved\\n";\n'
        file.write_text("".join(lines), encoding="utf-8")


def running(word):
    """Where the built program lies, once it runs with this word."""
    for pid in filter(str.isdigit, os.listdir("/proc")):
        try:
            words = Path(f"/proc/{pid}/cmdline").read_bytes().split(b"\0")
        except OSError:
            continue
        # `rt try` runs it by the toolchain's loader; its own words name no loader.
        if os.path.basename(words[0]).startswith(b"ld-linux") and word.encode() in words:
            return words[words.index(word.encode()) - 3].decode()
    return None


def build(program_name):
    """Has `rt try` build a program, and keeps what it built."""
    target = built(program_name)
    target.parent.mkdir(exist_ok=True)
    with tempfile.TemporaryDirectory(prefix="unproved-") as room:
        copy = Path(room) / "copy"
        copy.mkdir()
        shutil.copytree(crates.TOP / "crates", copy / "crates", ignore=shutil.ignore_patterns("out", "must-fail"))
        for name in ("crates.txt", "HANDLES"):
            shutil.copyfile(crates.TOP / name, copy / name)
        without_claim(copy)
        # `rt try` removes what it built as it ends. So the program is given a pipe to read, and is copied while it waits for that.
        pipe = f"{room}/policy"
        os.mkfifo(pipe)
        command = ["rt", "try", "--", *(pipe if word == "FILE" else word for word in READING[program_name])]
        environment = {**os.environ, "RT_SECONDS": "1800"}
        with open(f"{room}/said", "w+", encoding="utf-8") as said:
            tried = subprocess.Popen(command, cwd=copy / "crates" / program_name, stdin=subprocess.DEVNULL, stdout=said, stderr=said, env=environment, start_new_session=True)
            try:
                program = None
                while program is None and tried.poll() is None:
                    time.sleep(0.05)
                    program = running(pipe)
                if program is None:
                    said.seek(0)
                    sys.exit(f"{said.read()}\nThe program was not built.")
                made = target.with_suffix(".new")
                shutil.copyfile(program, made)
                made.chmod(0o755)
                made.rename(target)
            finally:
                if tried.poll() is None:
                    os.killpg(tried.pid, signal.SIGTERM)
                    tried.wait()


def main(words):
    program = words.pop(0) if words and words[0] in READING else "turnaudit"
    target = built(program)
    mark, now = target.with_suffix(".digest"), digest(program)
    new = not target.is_file() or not mark.is_file() or mark.read_text() != now
    if new and not shutil.which("rt"):
        sys.exit("there is no `rt` on the path: this takes the Rattle kit")
    first = " (it is built first, in some two minutes)" if new else ""
    print(f"out/{target.name} has run-time checks in place of proofs{first}: {PROVES}", file=sys.stderr, flush=True)
    if new:
        build(program)
        mark.write_text(now)
    return subprocess.run([target, *words], check=False).returncode


if __name__ == "__main__":
    sys.exit(main(sys.argv[1:]))
