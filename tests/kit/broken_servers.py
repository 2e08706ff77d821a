#!/usr/bin/env python3
"""Tries the situations of kit/ with a server that keeps to the RFCs, and with one that breaks them in one way after the other.

    python3 tests/kit/broken_servers.py PROGRAM TURNEXPLAIN

Nothing of it needs a network, root or another program: clients and peers call the server (tests/kit/virtual_net.py), time is a number, and
turnaudit judges what was captured. With the right server each situation has to be as expected. Each fault of tests/kit/faults.py has to
make its situation red by its rule; at least twenty rules are among them. Also tried are the files of situations, and what kit/run writes.
"""

from __future__ import annotations

import concurrent.futures
import datetime
import fnmatch
import json
import os
import pathlib
import random
import re
import subprocess
import sys
import tempfile
import xml.etree.ElementTree as ElementTree

HERE = pathlib.Path(__file__).resolve().parent
TOP = HERE.parent.parent
sys.path[:0] = [str(TOP), str(HERE)]

from faults import FAULTS  # noqa: E402
from turn_server import TurnServer  # noqa: E402
from virtual_net import VirtualNet  # noqa: E402

from kit import messages as stun  # noqa: E402
from kit.judge import BREACH, NOT_JUDGED, Programs, Result, audit, settle_verdict  # noqa: E402
from kit.report import failure_lines, write_json, write_junit  # noqa: E402
from kit.runner import drive  # noqa: E402
from kit.situation import FOLDER, Situation, all_situations  # noqa: E402
from kit.testbed import LISTEN, OTHER_USER, REALM, USER, Testbed  # noqa: E402

LEAST_SITUATIONS, LEAST_RULES = 60, 20
LINES = range(20, 61)
LONGEST_MODULE = 300
# What may be in each element, by the schema of Jenkins (junit-10.xsd): its attributes, and its elements.
JUNIT = {
    "testsuites": ({"name", "time", "tests", "failures", "disabled", "errors"}, {"testsuite"}),
    "testsuite": (
        {"name", "tests", "failures", "errors", "time", "disabled", "skipped", "timestamp", "hostname", "id", "package"},
        {"properties", "testcase", "system-out", "system-err"},
    ),
    "testcase": ({"name", "assertions", "time", "classname", "status"}, {"skipped", "error", "failure", "system-out", "system-err"}),
    "failure": ({"message", "type"}, set()),
    "error": ({"message", "type"}, set()),
    "skipped": ({"message", "type"}, set()),
    "system-out": (set(), set()),
}
USERS = {user.name: user.password for user in (USER, OTHER_USER)}


class Tries:
    """How many tries passed, and what failed."""

    def __init__(self):
        self.passed = self.failed = 0

    def same(self, name: str, wanted, got) -> None:
        if wanted == got:
            self.passed += 1
        else:
            self.failed += 1
            print(f"failed: {name}\n  wanted {wanted}\n  got    {got}")


def run_situation(situation: Situation, programs: Programs | None, broken: str = "", has_other_user: bool = True, seed: int = 1) -> Result:
    """One situation from its net to its verdict, with no socket. Without programs its checks alone count."""
    result = Result(situation.name, situation.section, situation.title)
    with tempfile.TemporaryDirectory() as room:
        folder = pathlib.Path(room)
        net = VirtualNet(folder, TurnServer(LISTEN, situation.relay, REALM, USERS, broken), bool(situation.loss))
        try:
            drive(situation, Testbed(net, has_other_user=has_other_user, chance=random.Random(seed)), result)
        finally:
            net.close()
        if result.verdict != NOT_JUDGED:
            if programs:
                audit(result, programs, folder, situation, net.names)
            settle_verdict(result)
    return result


def try_messages(tries: Tries) -> None:
    """The vectors of RFC 5769: the request of section 2.4, and the addresses of sections 2.2 and 2.3."""
    transaction = bytes.fromhex("78ad3433c6ad72c029da412e")
    user, realm, nonce = "\u30de\u30c8\u30ea\u30c3\u30af\u30b9", "example.org", b"f//499k954d6OL34oL9FSTvy64sA"
    attributes = [(stun.USERNAME, user.encode()), (stun.NONCE, nonce), (stun.REALM, realm.encode())]
    request = stun.encode(stun.BINDING | stun.REQUEST, transaction, attributes, stun.key_of(user, realm, "TheMatrIX"))
    tries.same("RFC 5769, section 2.4: the integrity", "f67024656dd64a3e02b8e0712e85c9a28ca89666", request[-20:].hex())
    tries.same("RFC 5769, section 2.4: the header", "000100602112a44278ad3433c6ad72c029da412e", request[:20].hex())
    transaction = bytes.fromhex("b7e7a701bc34d686fa87dfae")
    tries.same("RFC 5769, section 2.2: the address", "0001a147e112a643", stun.xor_address(("192.0.2.1", 32853), transaction).hex())
    far = ("2001:db8:1234:5678:11:2233:4455:6677", 32853)
    wanted = "0002a1470113a9faa5d3f179bc25f4b5bed2b9d9"
    tries.same("RFC 5769, section 2.3: the address", wanted, stun.xor_address(far, transaction).hex())


def try_files(tries: Tries, situations: list[Situation]) -> None:
    """The files of situations and the modules have their sizes."""
    tries.same("at least sixty situations", True, len(situations) >= LEAST_SITUATIONS)
    for situation in situations:
        count = len((FOLDER / f"{situation.name}.py").read_text().splitlines())
        tries.same(f"{situation.name} has 20 to 60 lines", True, count in LINES)
    for module in sorted((TOP / "kit").glob("*.py")):
        tries.same(f"{module.name} has under 300 lines", True, len(module.read_text().splitlines()) < LONGEST_MODULE)
    for fault in FAULTS:
        tries.same(f"the fault {fault.name} is of a situation", True, fault.situation in {situation.name for situation in situations})


def try_right_server(tries: Tries, pool, situations: list[Situation], programs: Programs) -> None:
    """Every situation is as expected with a server that keeps to the RFCs."""
    for result in pool.map(lambda situation: run_situation(situation, programs), situations):
        wrong = result.rule, result.reason, [(check.what, check.came) for check in result.failed_checks]
        tries.same(f"the right server in {result.name}", ("pass", ("", "", [])), (result.short, wrong))
        tries.same(f"something was judged in {result.name}", True, result.datagrams > 0)


def try_broken_servers(tries: Tries, pool, situations: list[Situation], programs: Programs) -> list[Result]:
    """Each fault makes its situation red, by its rule."""
    named = {situation.name: situation for situation in situations}
    results = list(pool.map(lambda fault: run_situation(named[fault.situation], programs, fault.name), FAULTS))
    for fault, result in zip(FAULTS, results):
        tries.same(f"the fault {fault.name} in {fault.situation}", fault.expected, result.short)
        tries.same(f"{fault.name} is not as expected", False, result.is_expected)
        if result.verdict == BREACH and programs.turnexplain:
            tries.same(f"{fault.name} is explained by its rule", True, result.rule in result.explanation)
        if fault.expected == "check":
            tries.same(f"a check of {fault.situation} sees {fault.name}", True, bool(result.failed_checks))
    rules = {fault.expected for fault in FAULTS} - {"check"}
    tries.same("at least twenty rules", True, len(rules) >= LEAST_RULES)
    return results


def try_silent_server(tries: Tries, situations: list[Situation]) -> None:
    """No situation is green with a server that never sends anything."""
    for situation in situations:
        result = run_situation(situation, None, "responds_to_nothing")
        tries.same(f"a silent server in {result.name}", "check", result.short)


def try_reports(tries: Tries, results: list[Result]) -> None:
    """What is written of results can be read again, and nothing is missing."""
    skipped = Result("not_judged", "RFC 8656, section 5", "t", verdict=NOT_JUDGED, reason="no \x1b[31mreason\x00")
    error = Result("in_error", "RFC 8656, section 5", "t", verdict="error", reason="first line\nsecond <line> & more")
    every = [*results, skipped, error]
    with tempfile.TemporaryDirectory() as room:
        xml, text = pathlib.Path(room, "junit.xml"), pathlib.Path(room, "results.json")
        repeats = {result.name: f"kit/run --only {result.name}" for result in every}
        write_junit(xml, "a <server> & its \x1b name", datetime.datetime(2026, 1, 2, 3, 4, 5), every, repeats)
        write_json(text, {"kit": 1}, every)
        root, loaded = ElementTree.parse(xml).getroot(), json.loads(text.read_text())
    suite = root.find("testsuite")
    cases = suite.findall("testcase")
    kinds = {kind: len(suite.findall(f"testcase/{kind}")) for kind in ("failure", "error", "skipped")}
    tries.same("JUnit: each result is a test case", [result.name for result in every], [case.get("name") for case in cases])
    counted = {"failure": int(suite.get("failures")), "error": int(suite.get("errors")), "skipped": int(suite.get("skipped"))}
    tries.same("JUnit: the counts are those of the cases", kinds, counted)
    tries.same("JUnit: one error, one skipped", (1, 1), (kinds["error"], kinds["skipped"]))
    tries.same("JUnit: as many failures as red results", sum(not result.is_expected for result in results), kinds["failure"])
    for element in root.iter():
        tries.same(f"JUnit: the attributes of {element.tag}", set(), set(element.attrib) - JUNIT[element.tag][0])
        tries.same(f"JUnit: the elements of {element.tag}", set(), {child.tag for child in element} - JUNIT[element.tag][1])
    tries.same("JUnit: the tests are counted", str(len(every)), root.get("tests"))
    tries.same("JUnit: a time of each", True, all(re.fullmatch(r"\d+\.\d{3}", case.get("time")) for case in cases))
    written = [(result["name"], result["short"]) for result in loaded["situations"]]
    tries.same("JSON: each result", [(result.name, result.short) for result in every], written)
    breach = next(result for result in results if result.verdict == BREACH)
    lines = "\n".join(failure_lines(breach, "kit/run --only this"))
    for what, part in (("rule", breach.rule), ("datagram", breach.datagram), ("command", "kit/run --only this"), ("title", breach.title)):
        tries.same(f"a failure names its {what}", True, part in lines)


def table_of(room: pathlib.Path, runs: list[tuple[str, list[Result]]]) -> subprocess.CompletedProcess:
    """What kit/servers_table makes of results."""
    paths = [room / f"{number}.json" for number in range(len(runs))]
    for path, (server, results) in zip(paths, runs):
        write_json(path, {"server": server, "begin": "2026-01-02T03:04:05+00:00"}, results)
    return subprocess.run([sys.executable, TOP / "kit" / "servers_table", *paths], capture_output=True, text=True, check=False)


def try_servers_table(tries: Tries, situations: list[Situation]) -> None:
    """A red has its rule, its proof, and its fault if kit/servers/reds.txt has it."""
    def red(name: str, **more) -> Result:
        return Result(name, "RFC 8656, section 8.2", "t", verdict=BREACH, rule="R4 no allocation", **more)

    skipped = Result("binding", "RFC 8489, section 2", "t", verdict=NOT_JUDGED, reason="no reason: more")
    first = [red("delete"), red("channel_again", explanation="text\nShown: no order"), skipped]
    second = [Result("delete", "s", "t"), red("channel_again"), skipped]
    with tempfile.TemporaryDirectory() as place:
        room = pathlib.Path(place)
        both = table_of(room, [("coturn 0", first), ("another 1", second)])
        differing = table_of(room, [("coturn 0", first), ("another 1", second[1:])])
    tries.same("the table: status", 0, both.returncode)
    for name, line in (
        ("counts", "| coturn 0 | 3 | 0 | 2 | 0 | 1 |"),
        ("a red that is reviewed", "| `delete` | R4 no allocation | no | 1 |"),
        ("a red that is proved", "| `channel_again` | R4 no allocation | yes | not reviewed |"),
        ("a red that isn't", "| `channel_again` | R4 no allocation | no | not reviewed |"),
        ("its fault", "FAULTS.md#coturn-461-an-allocation-outlives-its-refresh-of-0"),
        ("what isn't judged", "- `binding`, coturn 0, another 1: no reason"),
    ):
        tries.same(f"the table has {name}", True, line in both.stdout)
    tries.same("the table: other situations are refused", 1, differing.returncode)
    names = [situation.name for situation in situations]
    reviewed = [line.split(" | ")[1].split() for line in (TOP / "kit" / "servers" / "reds.txt").read_text().splitlines() if line[0] != "#"]
    for pattern in sorted({pattern for patterns in reviewed for pattern in patterns}):
        tries.same(f"{pattern} of reds.txt is a situation", True, bool(fnmatch.filter(names, pattern)))


def try_one_user(tries: Tries, situations: list[Situation], programs: Programs) -> None:
    """Without a second user the situations that need one aren't judged, which is said."""
    for situation in situations:
        if situation.name.startswith("other_user_"):
            result = run_situation(situation, programs, has_other_user=False)
            tries.same(f"{situation.name} without a second user", ("unjudged", True), (result.short, "{other_user}" in result.reason))


def main() -> None:
    if len(sys.argv) not in (2, 3):
        sys.exit(__doc__)
    programs = Programs(os.path.realpath(sys.argv[1]), os.path.realpath(sys.argv[2]) if len(sys.argv) == 3 else None)
    situations, tries = all_situations(), Tries()
    try_messages(tries)
    try_files(tries, situations)
    with concurrent.futures.ThreadPoolExecutor(os.cpu_count()) as pool:
        try_right_server(tries, pool, situations, programs)
        results = try_broken_servers(tries, pool, situations, programs)
    try_silent_server(tries, situations)
    try_reports(tries, results)
    try_servers_table(tries, situations)
    try_one_user(tries, situations, programs)
    print(f"kit, {len(situations)} situations and {len(FAULTS)} faults: {tries.passed} passed, {tries.failed} failed")
    sys.exit(1 if tries.failed else 0)


if __name__ == "__main__":
    main()
