"""What tests/explain.py asks of the answers of `turnexplain --json`."""

import hashlib
import json
import sys
from pathlib import Path

import json_schema

TOP = Path(__file__).resolve().parent.parent
SCHEMA = json.loads((TOP / "docs" / "turnexplain.schema.json").read_text(encoding="utf-8"))
GOLDEN = TOP / "tests" / "explain"
# Answers that are kept whole; the others are only checked.
KEPT = {"permission-outlived", "permission-outlived-lanes-broken", "permission-outlived-client", "conforming-verdict", "r2-nasty-name", "s11-told-over-tcp", "s3-stranger"}


def unescaped(text):
    """The bytes that are told as `\\xHH` and as they are."""
    parts = text.split("\\x")
    return parts[0].encode() + b"".join(bytes([int(part[:2], 16)]) + part[2:].encode() for part in parts[1:])


def datagrams_in(value):
    """All datagrams of an answer."""
    if isinstance(value, dict):
        if "interface" in value and "index" in value:
            yield value
        for one in value.values():
            yield from datagrams_in(one)
    if isinstance(value, list):
        for one in value:
            yield from datagrams_in(one)


def check_datagrams(name, answer, frames):
    """Whether each frame has the ends and the stamp that are told with it."""
    for one in datagrams_in(answer):
        if one["frame"] is None:
            if one["from"] is not None:
                sys.exit(f"{name}: no frame is told of {one}")
            continue
        _, stamp, ends = frames[one["capture"]][one["frame"] - 1]
        if ends != [one["from"], one["to"]] or str(stamp) != one["stamp"]:
            sys.exit(f"{name}: frame {one['frame']} has {ends} and {stamp}, and not {one}")


def check_inputs(name, answer, folder):
    """Whether each file has the size and the digest that are printed; of users there are none."""
    for one in answer["inputs"]:
        if one["is"] == "users":
            if one["bytes"] is not None or one["sha256"] is not None:
                sys.exit(f"{name}: {one} lets its reader try passwords")
            continue
        data = (folder / unescaped(one["name"]).decode()).read_bytes()
        if one["bytes"] != len(data) or one["sha256"] != hashlib.sha256(data).hexdigest():
            sys.exit(f"{name}: {one} isn't what the file is")


def check(name, text, out, frames, folder, write):
    """Asks of an answer that it is one line of JSON, as the schema has it, with the facts of the text."""
    if out.count("\n") != 1 or not out.endswith("\n"):
        sys.exit(f"{name}: the answer in JSON isn't one line")
    answer = json.loads(out)
    for fault in json_schema.faults(answer, SCHEMA, SCHEMA):
        sys.exit(f"{name}: {fault}")
    head = text.split("\n", 1)[0]
    begins = answer["verdict"] if answer["rule"] is None else f"{answer['verdict']}  {answer['rule']} "
    if not head.startswith(begins):
        sys.exit(f"{name}: the text begins with {head}, the other answer has {begins}")
    check_datagrams(name, answer, frames)
    check_inputs(name, answer, folder)
    told = {one["frame"] for one in datagrams_in(answer)}
    for line in text.splitlines():
        words = line.split()
        if line.startswith("  ") and words[1:2] == ["frame"] and words[-1].endswith("]") and int(words[2]) not in told:
            sys.exit(f"{name}: the answer in JSON lacks frame {words[2]}")
    if name in KEPT:
        golden = GOLDEN / f"{name}.json"
        if write:
            golden.write_text(json.dumps(answer, indent=1, ensure_ascii=False) + "\n", encoding="utf-8")
        elif not golden.is_file() or json.loads(golden.read_text(encoding="utf-8")) != answer:
            print(json.dumps(answer, indent=1, ensure_ascii=False))
            sys.exit(f"{name}: that isn't what {golden} has")
    return 1
