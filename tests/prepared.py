#!/usr/bin/env python3
"""Asks what an audit says of captures before turnprep, and of what it wrote.

    tests/prepared.py TURNPREP TURNAUDIT

Each line of tests/prepare/judged names a case of tests/prepare/cases, the policy of the audits (or that before, and that
behind), and what they say: of the captures that the case reads, and of those that it wrote. Where they conform, the list's last line has the same numbers.
Then each example whose captures conform is cut: they stay byte for byte, and the list names nothing. At last captures are cut in which
a server relays on behind a Refresh of 0 (tests/hang_ups.py), or breaks a rule where `cut` excludes datagrams (tests/leaks.py, tests/late_leaks.py).
"""

import pathlib
import subprocess
import sys
import tempfile

import cut_comments
import hang_ups
import late_leaks
import leaks

TOP = pathlib.Path(__file__).resolve().parent.parent
HERE = TOP / "tests" / "prepare"


def said_of(auditor, policy, users, captures):
    """`conforming ..`, the rule that is broken, or the refusal."""
    words = [auditor, "audit", "--policy", policy]
    if users:
        words += ["--creds", users]
    done = subprocess.run([*words, *captures], cwd=HERE, capture_output=True, text=True)
    if done.returncode == 2:
        return done.stderr.strip().removeprefix("turnaudit: ")
    verdict, _, rest = done.stdout.partition("\n")[2].partition("\n")
    return rest.partition("\n")[0].removeprefix("rule ") if verdict == "not shown" else verdict


def check_case(preparer, auditor, words, policies, before, after):
    """What is wrong with a case, if anything is."""
    inputs = [word for word in words if word.startswith("inputs/") and word.endswith(".pcapng")]
    said = said_of(auditor, f"inputs/{policies[0]}", "inputs/creds", inputs)
    if said != before:
        return f"says {said!r} before"
    with tempfile.TemporaryDirectory() as folder:
        done = subprocess.run([preparer, *(word.replace("OUT", folder) for word in words)], cwd=HERE, capture_output=True, text=True)
        written = sorted(str(file) for file in pathlib.Path(folder).glob("*.pcapng"))
        said = said_of(auditor, f"inputs/{policies[-1]}", "inputs/creds", written)
        if said != after:
            return f"says {said!r} of what was written"
        numbers = done.stdout.splitlines()[-1].removeprefix("kept ")
        if words[0] == "cut" and after.startswith("conforming") and after != f"conforming {numbers}":
            return f"kept {numbers}"
    return None


def check_example(preparer, example):
    """What is wrong with cutting captures that conform, if anything is."""
    captures = sorted(example.glob("*.pcapng"))
    with tempfile.TemporaryDirectory() as folder:
        done = subprocess.run([preparer, "cut", "--policy", example / "policy", "-o", folder, *captures], capture_output=True, text=True)
        if done.returncode != 0:
            return f"status {done.returncode}"
        for it in captures:
            written = (pathlib.Path(folder) / it.name).read_bytes()
            if cut_comments.parted(written)[0] != it.read_bytes():
                return "writes other captures"
            if fault := cut_comments.fault_of(written, it.read_bytes()):
                return fault
        if "\naside in 0 0 out 0 0\n" not in done.stdout:
            return "sets something aside"
    return None


def check_hang_up(preparer, auditor, relays, time, after):
    """What is wrong with cutting what is relayed behind a Refresh of 0, if anything is."""
    with tempfile.TemporaryDirectory() as room:
        folder = pathlib.Path(room)
        captures = hang_ups.build(folder, relays)
        words = ["--policy", folder / "policy", "-o", folder / "out", *captures]
        (folder / "out").mkdir()
        said = said_of(auditor, folder / "policy", folder / "creds", captures)
        if said != "R4 no allocation":
            return f"says {said!r} before"
        done = subprocess.run([preparer, "cut", "--released-ms", str(time), *words], capture_output=True, text=True)
        said = said_of(auditor, folder / "policy", folder / "creds", [folder / "out" / it.name for it in captures])
        numbers = done.stdout.splitlines()[-1].removeprefix("kept ")
        expected = f"conforming {numbers}" if after == "conforming" else after
        return None if said == expected else f"says {said!r} of what was written"


def check_leak(preparer, auditor, breach, options, is_reported):
    """What is wrong with what an audit says of a breach after `cut`, if anything is."""
    with tempfile.TemporaryDirectory() as room:
        folder = pathlib.Path(room)
        captures = leaks.build(folder, breach, options)
        (folder / "out").mkdir()
        words = ["--policy", folder / "policy", "-o", folder / "out", *captures]
        done = subprocess.run([preparer, "cut", *options, *words], capture_output=True, text=True)
        said = said_of(auditor, folder / "policy", folder / "creds", [folder / "out" / it.name for it in captures])
        if done.returncode != 0 or said.startswith("refused"):
            return f"status {done.returncode}, {said!r}"
        return f"says {said!r} of what was written" if said.startswith("conforming") == is_reported else None


def main():
    preparer, auditor = (pathlib.Path(word).resolve() for word in sys.argv[1:])
    cases = dict(line.split(" | ") for line in (HERE / "cases").read_text().splitlines())
    rows = [line.split(" | ") for line in (HERE / "judged").read_text().splitlines()]
    faults = {}
    for name, policies, before, after in rows:
        faults[name] = check_case(preparer, auditor, cases[name].split(), policies.split(), before, after)
    for example in sorted((TOP / "examples").iterdir()):
        expected = example / "expected"
        if expected.is_file() and "\nconforming " in expected.read_text():
            faults[example.name] = check_example(preparer, example)
    for relays, time, _, after in hang_ups.CASES:
        faults[f"{relays.__name__} {time}"] = check_hang_up(preparer, auditor, relays, time, after)
    for breach, options, is_reported in leaks.CASES + late_leaks.CASES:
        faults[f"{breach.__name__} {' '.join(options)}"] = check_leak(preparer, auditor, breach, options, is_reported)
    wrong = {name: fault for name, fault in faults.items() if fault}
    for name, fault in wrong.items():
        print(f"{name}: {fault}")
    print(f"prepared: {len(faults) - len(wrong)} passed, {len(wrong)} failed")
    return 1 if wrong else 0


if __name__ == "__main__":
    sys.exit(main())
