#!/usr/bin/env python3
"""Answers that were worked out by hand: each folder of tests/answers is one command and what it has to print.

    python3 tests/answers.py PROGRAM

A folder has `args`, one word in each line, and the files that these name; `stdout`, `stderr` and `status` are what the program answers.
Where `stderr` is left out it is not compared, since it is the text of the library that reads words. The answers are of a model of RFC 8656
and of the report that was written apart from this program. Each command that may have workers is run by two of them, too, and has to answer
the same. The status is 1 where something fails.
"""

import pathlib
import subprocess
import sys

ANSWERS = pathlib.Path(__file__).resolve().parent / "answers"
# `live` takes no number of workers.
WITH_WORKERS = {"check", "audit", "find"}


def commands_of(words):
    """The words of a folder, and the same by two workers."""
    yield words
    if words[0] in WITH_WORKERS and "--policy" in words and "--workers" not in words:
        yield [words[0], "--workers", "2", *words[1:]]


def differences(program, folder, words):
    """What the program answers in another way than the folder says."""
    run = subprocess.run([program, *words], cwd=folder, capture_output=True, check=False)
    expected = folder / "stderr"
    if run.returncode != int((folder / "status").read_text()):
        yield f"status {run.returncode}"
    if run.stdout != (folder / "stdout").read_bytes():
        yield f"standard output {run.stdout!r}"
    if expected.exists() and run.stderr != expected.read_bytes():
        yield f"standard error {run.stderr!r}"


def main():
    program = pathlib.Path(sys.argv[1]).resolve()
    passed = failed = 0
    for folder in sorted(ANSWERS.iterdir()):
        for words in commands_of((folder / "args").read_text().split("\n")[:-1]):
            found = list(differences(program, folder, words))
            for difference in found:
                print(f"failed: {folder.name}, {' '.join(words)}: {difference}")
            passed += not found
            failed += bool(found)
    print(f"answers: {passed} passed, {failed} failed")
    sys.exit(failed > 0)


if __name__ == "__main__":
    main()
