#!/usr/bin/env python3
"""Runs `turnaudit check` beside the plain slow checker of tests/plain, which shares no code with it, and compares the reports.

    python3 tests/beside_plain.py PROGRAM [--cases 20] [--seed 1] [--workers 1] FOLDER..

A folder has policy, certificate or cert (else `turnaudit find` writes one), perhaps creds, and captures: those that its file args
names, or else client.pcapng and peer.pcapng, or each *.pcapng. It is judged as it stands, and then with CASES changes of the certificate, of tolerances, of a
payload's byte or of the passwords, which are chosen by the seed. Input that turnaudit refuses is left out; both numbers are told.
"""

import argparse
import pathlib
import random
import subprocess
import sys
import tempfile

sys.path.insert(0, str(pathlib.Path(__file__).parent))

from plain.checker import Checker, report
from plain.reading import datagram_of, packets_of, read_certificate, read_credentials, read_policy, sightings_of


class Case:
    """Input of one run, in files of a folder."""

    def __init__(self, policy, users, certificate, captures):
        self.policy, self.users, self.certificate, self.captures = policy, users, certificate, captures

    def write(self, folder):
        (folder / "policy").write_text(self.policy)
        (folder / "cert").write_text(self.certificate)
        words = ["check", "--policy", "policy", "--cert", "cert"]
        if self.users is not None:
            (folder / "creds").write_bytes(self.users)
            words += ["--creds", "creds"]
        for number, capture in enumerate(self.captures):
            (folder / f"capture{number}").write_bytes(capture)
            words.append(f"capture{number}")
        return words


def changed_line(chance, line):
    """The line with a number of its own changed a little, or one of them put in the place of another."""
    words = line.split(" ")
    at = chance.randrange(1, len(words))
    if words[0] == "lane":
        return line
    if at >= len(words) - 2:
        by = chance.choice((1, 1_000, 100_000, 1_000_000, 1_000_000_000, 300_000_000_000))
        words[at] = str(max(0, int(words[at]) + chance.choice((-1, 1)) * (by if at == len(words) - 2 else 1)))
    else:
        interface, index = words[at].split(".")
        words[at] = f"{interface}.{max(0, int(index) + chance.choice((-1, 1)))}"
    return " ".join(words)


def changed_certificate(chance, text):
    lines = text.splitlines()
    for _ in range(chance.choice((1, 1, 1, 2, 4))):
        if len(lines) < 4:
            break
        at, other = chance.randrange(2, len(lines) - 1), chance.randrange(2, len(lines) - 1)
        way = chance.randrange(6)
        if way == 0:
            del lines[at]
        elif way == 1:
            lines.insert(at, lines[other])
        elif way == 2:
            lines[at], lines[other] = lines[other], lines[at]
        else:
            lines[at] = changed_line(chance, lines[at])
    return "\n".join(lines) + "\n"


def changed_payload(chance, policy, capture):
    """The capture with one byte of a datagram of the service changed."""
    places = []
    for _, _, frame, begin in packets_of(capture):
        seen = datagram_of(frame)
        if seen and seen[3] > seen[2] and policy.serves(seen[0]) != policy.serves(seen[1]):
            places.append((begin + seen[2], begin + seen[3]))
    if not places:
        return capture
    first, last = chance.choice(places)
    at = chance.randrange(first, last)
    return capture[:at] + bytes([capture[at] ^ 1 << chance.randrange(8)]) + capture[at + 1:]


def changed(chance, case, policy):
    way = chance.randrange(10)
    captures = list(case.captures)
    policy_text, certificate, users = case.policy, case.certificate, case.users
    if way < 5:
        certificate = changed_certificate(chance, certificate)
    elif way < 8:
        at = chance.randrange(len(captures))
        captures[at] = changed_payload(chance, policy, captures[at])
    elif way == 8:
        word = chance.choice(("skew-us 0", "skew-us 1000", "grace-ms 0", "grace-ms 600000", "hold-ms 0", "hold-ms 1"))
        kept = [line for line in policy_text.splitlines() if line.split(" ")[0] != word.split(" ")[0]]
        policy_text = "\n".join(kept + [word]) + "\n"
    elif users:
        users = users.replace(b"pass", b"pasz", 1)
    return Case(policy_text, users, certificate, captures)


def captures_in(folder):
    if (folder / "args").exists():
        words = (folder / "args").read_text().split("\n")
        return [folder / word for word in words if (folder / word).is_file() and word not in ("policy", "creds", "cert")]
    named = [folder / "client.pcapng", folder / "peer.pcapng"]
    return named if all(path.exists() for path in named) else sorted(folder.glob("*.pcapng"))


def certificate_of(program, folder, captures):
    """The text of the folder's certificate, or of the one that is found; None where there is none."""
    for path in (folder / "cert", folder / "certificate"):
        if path.exists():
            return path.read_text()
    words = [program, "find", "--policy", folder / "policy", *captures]
    if (folder / "creds").exists():
        words[4:4] = ["--creds", folder / "creds"]
    found = subprocess.run(words, capture_output=True, text=True)
    return found.stdout if found.returncode == 0 else None


def case_of(program, folder):
    """The folder's case, or None where it has no capture or no certificate, or its texts are none."""
    captures = captures_in(folder)
    if not captures or not (folder / "policy").exists():
        return None
    users = (folder / "creds").read_bytes() if (folder / "creds").exists() else None
    try:
        policy, certificate = (folder / "policy").read_text(), certificate_of(program, folder, captures)
    except UnicodeDecodeError:
        return None
    return Case(policy, users, certificate, [path.read_bytes() for path in captures]) if certificate else None


def compare(program, workers, case, folder):
    """None where the program refuses the input; else its report and the plain checker's, each with the status."""
    words = case.write(folder) + ["--workers", str(workers)]
    ran = subprocess.run([program, *words], cwd=folder, capture_output=True, text=True)
    if ran.returncode not in (0, 1):
        return None
    policy = read_policy(folder / "policy")
    keys = read_credentials(folder / "creds" if case.users is not None else None)
    judged = read_certificate(case.certificate)
    plain = report(Checker(policy, keys, sightings_of(policy, case.captures), *judged))
    return (ran.stdout, ran.returncode), plain


def main():
    words = argparse.ArgumentParser(description="Compares turnaudit with a plain slow checker.")
    words.add_argument("program", type=pathlib.Path)
    words.add_argument("folders", type=pathlib.Path, nargs="+")
    words.add_argument("--cases", type=int, default=20)
    words.add_argument("--seed", type=int, default=1)
    words.add_argument("--workers", type=int, default=1)
    asked = words.parse_args()
    program, rules, refused, differ = asked.program.resolve(), {}, 0, 0
    for folder in asked.folders:
        case = case_of(program, folder)
        if case is None:
            continue
        chance = random.Random(f"{asked.seed} {folder.name}")
        for number in range(asked.cases + 1):
            with tempfile.TemporaryDirectory() as place:
                place = pathlib.Path(place)
                if number == 1:
                    (place / "policy").write_text(case.policy)
                    policy = read_policy(place / "policy")
                tried = changed(chance, case, policy) if number else case
                both = compare(program, asked.workers, tried, place)
                if both is None:
                    refused += 1
                    if number == 0:
                        break
                    continue
                ours, plain = both
                rule = plain[0].split("\n")[2].split(" ")[1] if plain[1] else "conforming"
                rules[rule] = rules.get(rule, 0) + 1
                if ours != plain:
                    differ += 1
                    print(f"{folder} case {number}: turnaudit {ours}\n    plain {plain}")
    print(" ".join(f"{rule}:{count}" for rule, count in sorted(rules.items())))
    print(f"{sum(rules.values())} cases, {differ} differ, {refused} refused")
    sys.exit(1 if differ else 0)


if __name__ == "__main__":
    main()
