"""What kit/run prints and writes: the table, the failures, JUnit's XML and JSON."""

from __future__ import annotations

import collections
import datetime
import json
import re
import sys
import xml.etree.ElementTree as ElementTree
from pathlib import Path

from kit.judge import BREACH, CHECK, ERROR, NOT_JUDGED, PASSED, Result
from kit.testbed import Check

COLUMNS = "{:<34} {:<11} {:<26} {:<10} {:>7}"
# What XML 1.0 doesn't allow.
NOT_IN_XML = re.compile(r"[^\t\n\r\x20-\ud7ff\ue000-\ufffd\U00010000-\U0010ffff]")


class Table:
    """The table, a line as each situation ends, and a progress line below it on a terminal."""

    def __init__(self, out=sys.stdout):
        self.out = out
        self.is_terminal = out.isatty()

    def write(self, text: str) -> None:
        if self.is_terminal:
            self.out.write("\r\x1b[K")
        self.out.write(text + "\n")
        self.out.flush()

    def heading(self) -> None:
        self.write(COLUMNS.format("situation", "verdict", "rule", "datagram", "seconds"))

    def row(self, result: Result) -> None:
        rule = result.rule
        if result.verdict == CHECK:
            rule = f"{len(result.failed_checks)} of {len(result.checks)} checks failed"
        datagram = result.datagram.partition(" ")[0]
        self.write(COLUMNS.format(result.name, result.verdict, rule or "-", datagram or "-", f"{result.seconds:.1f}"))

    def progress(self, ended: int, count: int) -> None:
        if self.is_terminal:
            self.out.write(f"\r\x1b[K{ended} of {count} situations have ended")
            self.out.flush()

    def failure(self, result: Result, repeat: str) -> None:
        """Why a situation isn't as expected, where its captures are, and how it is repeated."""
        self.write("")
        self.write("\n".join(failure_lines(result, repeat)))

    def summary(self, results: list[Result]) -> None:
        expected = [result for result in results if result.is_expected and result.verdict != NOT_JUDGED]
        known = sum(result.verdict != PASSED for result in expected)
        others = [result.verdict for result in results if not result.is_expected]
        for result in results:
            for note in result.notes:
                self.write(f"note: {result.name}: {note}")
        for result in results:
            if result.verdict == NOT_JUDGED:
                self.write(f"not judged: {result.name}: {result.reason}")
        for line in rule_lines(results):
            self.write(line)
        counts = [f"{len(expected)} as expected" + (f" ({known} of them red by --expect)" if known else "")]
        counts += [f"{others.count(BREACH)} not shown", f"{others.count(CHECK)} failed by a check of the kit"]
        counts += [f"{others.count(ERROR)} in error"]
        counts += [f"{others.count(PASSED)} green against --expect"] if PASSED in others else []
        counts += [f"{sum(result.verdict == NOT_JUDGED for result in results)} not judged"]
        self.write(f"{len(results)} situation{'' if len(results) == 1 else 's'}: {', '.join(counts)}")


def first_to_mend(names: list[str]) -> str:
    """The situation to begin with: one on which the others build, else the one of the shortest name."""
    return min(names, key=lambda name: (BASIC.index(name) if name in BASIC else len(BASIC), len(name), name))


def rule_lines(results: list[Result]) -> list[str]:
    """How many situations are red by each rule, and by a check of the kit, most first, with the one to begin with."""
    reds: dict[str, list[str]] = {}
    for result in results:
        if result.verdict in (BREACH, CHECK) and not result.is_expected:
            reds.setdefault(result.rule if result.verdict == BREACH else "a check of the kit", []).append(result.name)
    most_first = sorted(reds.items(), key=lambda item: -len(item[1]))
    return [f"red by {cause}: {len(names)}, begin with {first_to_mend(names)}" for cause, names in most_first]


# The situations on which the others build, in their order.
BASIC = ("binding", "allocate", "permission", "channel")
# What turnexplain says of captures in the field: the kit made the capture, the policy and the users itself.
FIELD_ONLY = "usual cause: "


def check_line(check: Check) -> str:
    return f"check: {check.what}; " + (f"instead: {check.came}" if check.came else "it isn't so")


def failure_lines(result: Result, repeat: str) -> list[str]:
    lines = [f"{result.name}: {result.section}, {result.title}"]
    if result.expected:
        lines.append(f"  expected: {' or '.join(result.expected)}, it is {result.short}")
    if result.verdict == BREACH:
        lines += [f"  turnaudit: not shown, rule {result.rule}", f"  datagram {result.datagram}"]
    if result.reason:
        lines += [f"  {line}" for line in result.reason.splitlines()]
    failed = collections.Counter(map(check_line, result.failed_checks))
    for text, count in failed.items():
        lines += [f"  {line}" for line in text.splitlines()]
        lines[-1] += f" ({count} times)" if count > 1 else ""
    if result.explanation:
        lines += [f"  | {line}" for line in result.explanation.rstrip().splitlines() if not line.startswith(FIELD_ONLY)]
    elif result.verdict == BREACH and not result.is_explained:
        lines.append("  turnexplain isn't built: `tools/unproved.py turnexplain --version` builds it, and it explains the verdict here")
    if result.folder:
        lines.append(f"  captures: {result.folder}")
    lines.append(f"  again: {repeat}")
    return lines


def write_json(path: Path, about: dict, results: list[Result]) -> None:
    path.write_text(json.dumps({**about, "situations": [result.as_json() for result in results]}, indent=1) + "\n")


def kind_of(result: Result) -> str:
    """The element of a test case in JUnit's XML; none if the situation is as expected."""
    if result.is_expected:
        return "skipped" if result.verdict == NOT_JUDGED else ""
    return "error" if result.verdict == ERROR else "failure"


def clean(text: str) -> str:
    return NOT_IN_XML.sub("?", text)


def write_junit(path: Path, name: str, begin: datetime.datetime, results: list[Result], repeats: dict[str, str]) -> None:
    """JUnit's XML, as Jenkins, GitLab and GitHub's actions read it."""
    counts = {
        "tests": len(results),
        "failures": sum(kind_of(result) == "failure" for result in results),
        "errors": sum(kind_of(result) == "error" for result in results),
        "skipped": sum(kind_of(result) == "skipped" for result in results),
    }
    seconds = f"{sum(result.seconds for result in results):.3f}"
    # The root has no count of skipped cases in the schema.
    root_counts = {key: str(value) for key, value in counts.items() if key != "skipped"}
    root = ElementTree.Element("testsuites", root_counts, name="turn kit", time=seconds)
    suite = ElementTree.SubElement(root, "testsuite", {key: str(value) for key, value in counts.items()}, name=clean(name), time=seconds)
    suite.set("timestamp", begin.strftime("%Y-%m-%dT%H:%M:%S"))
    suite.set("hostname", "localhost")
    for result in results:
        section = result.section.replace(",", "").replace(" ", "_")
        case = ElementTree.SubElement(suite, "testcase", name=result.name, classname=f"kit.{section}")
        case.set("time", f"{result.seconds:.3f}")
        text = clean("\n".join(failure_lines(result, repeats[result.name])))
        if kind_of(result) == "failure":
            message = f"rule {result.rule}" if result.rule else "; ".join(check.what for check in result.failed_checks)
            message = message or f"expected {' or '.join(result.expected)}, it is {result.short}"
            ElementTree.SubElement(case, "failure", message=clean(message), type=result.short).text = text
        elif kind_of(result) == "error":
            ElementTree.SubElement(case, "error", message=clean(result.reason.partition("\n")[0]), type="error").text = text
        elif kind_of(result) == "skipped":
            ElementTree.SubElement(case, "skipped", message=clean(result.reason))
        if result.notes:
            ElementTree.SubElement(case, "system-out").text = clean("\n".join(result.notes))
    ElementTree.indent(root)
    ElementTree.ElementTree(root).write(path, encoding="utf-8", xml_declaration=True)
