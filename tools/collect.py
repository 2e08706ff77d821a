#!/usr/bin/env python3
"""Makes one table of the results of a fleet's audits, which examples/fleet/run_case wrote.

    tools/collect.py CASES RESULTS [--csv FILE] [--before RESULTS] [--known FILE]

A row is a case: its status, the verdict's line, the rule that is broken, the datagram that shows it, the seconds on the wall and the memory in
MB. With --csv the same is written to FILE, with the datagram's endpoints, beside and renamed; - is standard output, in place of the table. It
may run while audits do: a case whose audit isn't over has no result yet.

--before names the results of another night, mostly of the last one. Each case then has a change: `new` if it fails, and didn't fail there by
this status and rule; `gone` if it failed there and doesn't; otherwise `same`. New failures are the first rows, then the other failures. A case
without a folder in those results didn't fail there. A case that has results there and isn't among CASES is named.

--known names a file of accepted faults. Blank lines and lines that begin with # are skipped; each other line is

    RULE CASES until YYYY-MM-DD: REASON

CASES is a name, or a pattern with *, ? and [..]. A case that isn't shown to conform by this rule is known up to that day, that day included.
Standard error has each line with its number of cases; a line whose day has passed is named as expired, and nothing is known by it.

It ends with the worst status of all cases that aren't known: 0 if there is none or each conforms, else the greatest of 1 to 5 (`turnaudit
--help`), 6 if a case has no result, and 128 and more if an audit was ended by a signal. `conforming 0 datagrams` counts as 1: nothing was
judged there. A usage error is 5, and so is a line of --known that has another form.
"""

import argparse
import csv
import fnmatch
import io
import os
import re
import sys
from collections import Counter
from dataclasses import dataclass, field, replace
from datetime import date
from pathlib import Path

NO_RESULT = 6
WRONG_WORDS = 5
# How often the files of a case are read again that an audit writes meanwhile.
TIMES = 20
COLUMNS = "change", "case", "status", "verdict", "rule", "datagram", "known", "seconds", "memory-mb"
RULES = {*(f"S{number}" for number in range(1, 14)), *(f"R{number}" for number in range(1, 23))}
KNOWN_LINE = re.compile(r"(?P<rule>\S+)\s+(?P<cases>\S+)\s+until\s+(?P<until>\d{4}-\d\d-\d\d):\s*(?P<reason>\S.*)")


@dataclass
class Row:
    case: str
    status: str = "-"
    verdict: str = "no result"
    rule: str = ""
    datagram: str = ""
    seconds: str = ""
    memory_mb: str = ""
    change: str = ""
    known: str = ""

    def worst(self):
        """What the row counts as, unless it is known."""
        if self.status == "-":
            return NO_RESULT
        return max(int(self.status), 1 if self.verdict.startswith("conforming 0 ") else 0)

    def counted(self):
        return 0 if self.known else self.worst()

    def fault(self):
        """What two nights are compared by: None of a case that doesn't fail, else the status, and the rule or the refusal."""
        code = self.rule or self.verdict.removeprefix("refused ") if self.worst() in (1, 2) else ""
        return (self.worst(), code.partition(" ")[0]) if self.worst() else None

    def rank(self):
        """Where the row is if nights are compared: new failures, other failures, known ones, what is gone, and the rest."""
        if self.fault():
            return 2 if self.known else 0 if self.change == "new" else 1
        return 3 if self.change == "gone" else 4

    def cells(self, columns):
        return [getattr(self, column.replace("-", "_")) for column in columns]


@dataclass
class Known:
    """A line of accepted faults, and the cases that are known by it, or would be if it hadn't expired."""

    rule: str
    cases: str
    until: date
    reason: str
    found: list = field(default_factory=list)

    def is_of(self, row):
        return row.worst() == 1 and row.rule.partition(" ")[0] == self.rule and fnmatch.fnmatchcase(row.case, self.cases)

    def has_expired(self):
        return self.until < date.today()

    def line(self):
        state = "expired" if self.has_expired() else "known"
        count = f"{len(self.found)} case{'' if len(self.found) == 1 else 's'}"
        return f"{state}, {count}: {self.rule} {self.cases} until {self.until}: {self.reason}"


def mark_of(file):
    """What tells a file from another one of the same name; None where there is none."""
    try:
        told = file.stat()
    except FileNotFoundError:
        return None
    return told.st_ino, told.st_mtime_ns


def text_of(file):
    return file.read_text(encoding="utf-8", errors="replace")


def row_of(results, name):
    """A case's row. The status is put there last and taken away first: while it stays, the other files are its own."""
    folder = results / name
    for _ in range(TIMES):
        mark = mark_of(folder / "status")
        if mark is None:
            return Row(name)
        try:
            row = row_in(folder, name)
        except FileNotFoundError:
            continue
        if mark_of(folder / "status") == mark:
            return row
    return Row(name)


def row_in(folder, name):
    row = Row(name, text_of(folder / "status").strip())
    report, told = text_of(folder / "report").splitlines(), text_of(folder / "stderr").splitlines()
    row.verdict = report[1] if len(report) > 1 else told[-1].removeprefix("turnaudit: ") if told else f"ended by signal {int(row.status) - 128}"
    for line in report[2:]:
        word, _, rest = line.partition(" ")
        if word == "rule":
            row.rule = rest
        if word == "datagram":
            row.datagram = rest
    row.seconds = text_of(folder / "seconds").strip()
    row.memory_mb = str(-(-int(text_of(folder / "memory-kb")) // 1024))
    return row


def rows_of(cases, results):
    names = sorted(folder.name for folder in cases.iterdir() if (folder / "policy").is_file())
    return [row_of(results, name) for name in names]


def compare(rows, before):
    """Says of each row what changed since the results of another night, and has new failures first."""
    for row in rows:
        then = row_of(before, row.case).fault() if (before / row.case).is_dir() else None
        row.change = "same" if row.fault() == then else "new" if row.fault() else "gone"
    rows.sort(key=lambda row: (row.rank(), row.case))


def lost_cases(rows, before):
    """The cases that have a result in those of another night, and no row."""
    names = {row.case for row in rows}
    return sorted(folder.name for folder in before.iterdir() if (folder / "status").is_file() and folder.name not in names)


def known_of(line):
    """What a line says that is accepted; it raises ValueError if it has another form, or a day that no calendar has."""
    found = KNOWN_LINE.fullmatch(line)
    if not found:
        raise ValueError("it isn't `RULE CASES until YYYY-MM-DD: REASON`")
    if found["rule"] not in RULES:
        raise ValueError(f"there is no rule {found['rule']}")
    return Known(found["rule"], found["cases"], date.fromisoformat(found["until"]), found["reason"])


def read_known(file):
    """The lines of accepted faults. It raises ValueError with the file and the line's number."""
    entries = []
    for number, line in enumerate(file.read_bytes().splitlines(), 1):
        try:
            text = line.decode("utf-8").strip()
            if text and not text.startswith("#"):
                entries.append(known_of(text))
        except ValueError as fault:
            raise ValueError(f"{file}:{number}: {fault}") from None
    return entries


def mark_known(rows, entries):
    """Marks the rows that are known by a line that hasn't expired, and notes them in it; other rows in the line that has."""
    for row in rows:
        matching = sorted((entry for entry in entries if entry.is_of(row)), key=Known.has_expired)
        if matching:
            matching[0].found.append(row.case)
            row.known = "" if matching[0].has_expired() else f"until {matching[0].until}"


def table(rows, columns):
    """The rows in columns, which are as wide as their widest cell; of a datagram only its name."""
    lines = [list(columns), *(replace(row, datagram=row.datagram.partition(" ")[0]).cells(columns) for row in rows)]
    widths = [max(len(line[at]) for line in lines) for at in range(len(lines[0]))]
    return "".join("  ".join(cell.ljust(width) for cell, width in zip(line, widths)).rstrip() + "\n" for line in lines)


def as_csv(rows, columns):
    made = io.StringIO()
    writer = csv.writer(made, lineterminator="\n")
    writer.writerows([columns, *(row.cells(columns) for row in rows)])
    return made.getvalue()


def summary(rows):
    """How many rows have each status, and how many are known."""
    counts = Counter(row.worst() for row in rows if not row.known)
    known = [f"{sum(1 for row in rows if row.known)} known"] if any(row.known for row in rows) else []
    return f"{len(rows)} cases: " + ", ".join([*(f"{count} of status {status}" for status, count in sorted(counts.items())), *known])


def notes(rows, before, entries):
    """What standard error has in addition to the summary: a line for the other night, its cases that are lost, and each accepted fault."""
    lines = []
    if before:
        changes = Counter(row.change for row in rows)
        lines.append(f"compared with {before}: " + ", ".join(f"{changes[change]} {change}" for change in ("new", "gone", "same")))
        lines += [f"no longer among the cases: {name}" for name in lost_cases(rows, before)]
    return [*lines, *(entry.line() for entry in entries)]


def write_csv(text, name):
    beside = Path(f"{name}.{os.getpid()}.new")
    beside.write_text(text, encoding="utf-8")
    beside.rename(name)


class Words(argparse.ArgumentParser):
    def error(self, message):
        self.print_usage(sys.stderr)
        self.exit(WRONG_WORDS, f"{self.prog}: {message}\n")


def options():
    """The options and, read from them, the rows and the accepted faults. It ends the program with status 5 if they can't be read."""
    words = Words(description="Makes one table of the results of a fleet's audits.")
    words.add_argument("cases", type=Path)
    words.add_argument("results", type=Path)
    words.add_argument("--csv", metavar="FILE")
    words.add_argument("--before", metavar="RESULTS", type=Path, help="the results of the night before")
    words.add_argument("--known", metavar="FILE", type=Path, help="the faults that are accepted")
    chosen = words.parse_args()
    for folder in [chosen.cases, *([chosen.before] if chosen.before else [])]:
        if not folder.is_dir():
            words.error(f"there is no folder {folder}")
    try:
        entries = read_known(chosen.known) if chosen.known else []
    except OSError as fault:
        words.error(f"{chosen.known} can't be read: {fault.strerror}")
    except ValueError as fault:
        words.error(str(fault))
    rows = rows_of(chosen.cases, chosen.results)
    if not rows:
        words.error(f"{chosen.cases} has no case")
    return chosen, rows, entries


def main():
    chosen, rows, entries = options()
    mark_known(rows, entries)
    if chosen.before:
        compare(rows, chosen.before)
    unused = {"change": not chosen.before, "known": not chosen.known}
    columns = [column for column in COLUMNS if not unused.get(column)]
    print(as_csv(rows, columns) if chosen.csv == "-" else table(rows, columns), end="")
    if chosen.csv not in (None, "-"):
        write_csv(as_csv(rows, columns), chosen.csv)
    for line in [summary(rows), *notes(rows, chosen.before, entries)]:
        print(line, file=sys.stderr)
    return max(row.counted() for row in rows)


if __name__ == "__main__":
    sys.exit(main())
