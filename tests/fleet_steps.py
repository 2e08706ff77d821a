#!/usr/bin/env python3
"""Follows the steps of docs/FLEET.md word for word in a scratch folder, and compares what they print with what the page says.

    python3 tests/fleet_steps.py PROGRAM

The steps are the code blocks of the sections in SECTIONS; a block that begins with no command is what the one before it prints. Seconds and
megabytes, the last two columns of a table, may differ, and so may days. Without GNU parallel it isn't tried, which is told.
"""

import os
import pathlib
import re
import shutil
import subprocess
import sys
import tempfile

TOP = pathlib.Path(__file__).resolve().parent.parent
sys.dont_write_bytecode = True
sys.path.insert(0, str(TOP / "tools"))

import markdown

COMMAND = re.compile(r'\w+=|\./|mkdir|echo|cp |"\$repo')
SECTIONS = "Try it", "Add a server", "Compare with the night before", "Accept known faults"
MEASURES = re.compile(r" +\d+\.\d\d +\d+$")
DAY = re.compile(r"\d{4}-\d\d-\d\d")


def blocks_of(title):
    """The lines of each code block of a section of the page."""
    page = markdown.read((TOP / "docs" / "FLEET.md").read_text(encoding="utf-8"))
    return [block.lines for block in dict(markdown.sections(page, 2))[title] if isinstance(block, markdown.Code)]


def without_measures(line):
    return DAY.sub("DAY", MEASURES.sub("", line)).rstrip()


def told_by(shell, lines):
    """What the shell prints of these lines, up to a mark behind them."""
    shell.stdin.write("\n".join([*lines, "echo '== over'"]) + "\n")
    shell.stdin.flush()
    told = []
    for line in iter(shell.stdout.readline, ""):
        if line.strip() == "== over":
            return told
        told.append(without_measures(line.rstrip("\n")))
    return [*told, "the shell ended"]


def follow(shell):
    """The number of lines that the page says are printed, and those that aren't."""
    told, said, missing = [], 0, []
    for lines in [lines for title in SECTIONS for lines in blocks_of(title)]:
        if COMMAND.match(lines[0]):
            told = told_by(shell, lines)
            continue
        if lines[0].startswith("inputs "):
            told = [" ".join(told_by(shell, ["ls results/first/ams-1"]))]
            lines = [" ".join(lines[0].split())]
        said += len(lines)
        missing += [line for line in lines if without_measures(line) not in told]
    return said, missing


def main():
    if len(sys.argv) != 2:
        sys.exit(__doc__.strip())
    if not shutil.which("parallel"):
        print("fleet_steps: no GNU parallel, not tried")
        return 0
    with tempfile.TemporaryDirectory(prefix="fleet-steps-") as room:
        (pathlib.Path(room) / "turnaudit").symlink_to(TOP)
        program = str(pathlib.Path(sys.argv[1]).resolve())
        environment = {**os.environ, "HOME": room, "TURNAUDIT": program, "PYTHONDONTWRITEBYTECODE": "1", "LC_ALL": "C"}
        pipes = {"stdin": subprocess.PIPE, "stdout": subprocess.PIPE, "stderr": subprocess.STDOUT}
        with subprocess.Popen(["bash", "--norc"], cwd=room, env=environment, text=True, **pipes) as shell:
            said, missing = follow(shell)
            shell.stdin.close()
    for line in missing:
        print(f"failed: docs/FLEET.md says what isn't printed: {line}")
    print(f"fleet_steps: {said} lines of docs/FLEET.md, {len(missing)} failed")
    return 1 if missing or not said else 0


if __name__ == "__main__":
    sys.exit(main())
