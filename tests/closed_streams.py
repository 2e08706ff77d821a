#!/usr/bin/env python3
"""Runs the three programs with standard streams that are closed, and with empty names of files.

    tests/closed_streams.py TURNAUDIT TURNPREP TURNEXPLAIN

A report that can't be written ends with status 4, and no file is left that the call makes. An empty name is a usage error.
"""

import pathlib
import subprocess
import sys
import tempfile

HERE = pathlib.Path(__file__).resolve().parent
RINGS = [str(HERE / "prepare" / "inputs" / name) for name in ("ring1.pcapng", "ring2.pcapng")]
EXAMPLE = HERE.parent / "examples"
CLOSED = {"": "", "standard output": ">&-", "standard error": "2>&-", "both": ">&- 2>&-", "all": "<&- >&- 2>&-"}
# Closed streams without which a report isn't written, and without which a usage error isn't.
LACKS_OUTPUT = ("standard output", "both", "all")
LACKS_ERROR = ("standard error", "both", "all")


def run(words, closed="", folder=None):
    """What a call does with these streams closed."""
    return subprocess.run(["sh", "-c", f'"$@" {closed}', "sh", *words], cwd=folder, capture_output=True, check=False)


def folder_of_example():
    """An example with a policy, credentials and two captures, and its files."""
    for folder in sorted(EXAMPLE.iterdir()):
        captures = sorted(str(file) for file in folder.glob("*.pcapng"))
        if (folder / "policy").is_file() and (folder / "creds").is_file() and len(captures) == 2:
            return ["--policy", str(folder / "policy"), "--creds", str(folder / "creds"), *captures]
    sys.exit("no example has a policy, credentials and two captures")


def check_status(name, done, expected):
    if done.returncode == expected:
        return True
    print(f"FAILED {name}: status {done.returncode}, {expected} was expected: {done.stderr.decode()!r}")
    return False


def makes_a_file(name, words, made, room):
    """Whether a call makes the same file, `made`, and makes none and ends with status 4 if its report can't be written."""
    results, whole = [], None
    for number, (stream, closed) in enumerate(CLOSED.items()):
        folder = pathlib.Path(room) / f"{name.replace(' ', '-')}-{number}"
        folder.mkdir()
        done = run(words, closed, folder)
        results.append(check_status(f"{name}, closed: {stream}", done, 4 if stream in LACKS_OUTPUT else OK[name]))
        content = {file.name: file.read_bytes() for file in folder.iterdir()}
        whole = content if whole is None else whole
        is_right = content == ({} if stream in LACKS_OUTPUT else whole) and list(whole) == [made]
        if not is_right:
            print(f"FAILED {name}, closed: {stream}: other files: {sorted(content)}")
        results.append(is_right)
    return results


# The statuses with all streams open.
OK = {"turnprep join": 0, "turnexplain evidence": 0, "turnaudit audit": 0}


def reports(name, words):
    """Whether a call that makes no file ends with status 4 where its report can't be written."""
    return [check_status(f"{name}, closed: {stream}", run(words, closed), 4 if stream in LACKS_OUTPUT else OK[name]) for stream, closed in CLOSED.items()]


def misuses(name, words):
    """Whether a usage error ends with status 5, and with status 4 where it can't be written."""
    return [check_status(f"{name}, closed: {stream}", run(words, closed), 4 if stream in LACKS_ERROR else 5) for stream, closed in CLOSED.items()]


def refuses(name, words, status):
    """Whether a call is refused alike, whatever is closed."""
    return [check_status(f"{name}, closed: {stream}", run(words, closed), status) for stream, closed in CLOSED.items()]


def main(words):
    if len(words) != 3:
        sys.exit(__doc__.strip())
    audit, prepare, explain = (str(pathlib.Path(word).resolve()) for word in words)
    example = folder_of_example()
    policy, captures = example[1], example[4:]
    with tempfile.TemporaryDirectory() as room:
        OK["turnexplain evidence"] = OK["turnaudit audit"] = run([audit, "audit", *example]).returncode
        results = [
            *makes_a_file("turnprep join", [prepare, "join", "-o", "joined", *RINGS], "joined", room),
            *makes_a_file("turnexplain evidence", [explain, "evidence", *example, "-o", "page"], "page", room),
            *reports("turnaudit audit", [audit, "audit", *example]),
        ]
    for program in (audit, prepare, explain):
        results += misuses(f"{program} with a command that is none", [program, "none"])
    results += refuses("a policy that is none", [audit, "audit", "--policy", captures[0], *captures], 2)
    empty = {
        "join": [prepare, "join", "-o", "", *RINGS],
        "cut": [prepare, "cut", "--policy", policy, "-o", "", *captures],
        "translate": [prepare, "translate", "--policy", policy, "--external-ip", "198.18.0.1/192.0.2.1", "-o", "", *captures],
        "reassemble": [prepare, "reassemble", "-o", "", *captures],
        "a capture": [prepare, "look", ""],
        "a policy": [prepare, "look", "--policy", "", *captures],
        "a configuration": [prepare, "policy", "--turnserver-conf", ""],
        "evidence": [explain, "evidence", *example, "-o", ""],
        "verdict": [explain, "verdict", "--policy", "", *captures],
    }
    for name, call in empty.items():
        results.append(check_status(f"an empty name: {name}", run(call), 5))
    print(f"closed streams and empty names: {sum(results)} passed, {len(results) - sum(results)} failed")
    return 0 if all(results) else 1


if __name__ == "__main__":
    sys.exit(main(sys.argv[1:]))
