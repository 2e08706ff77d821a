#!/usr/bin/env python3
"""Makes the results of a fleet of 20 cases over five nights, and checks what tools/collect.py says of each night by the one before, and by
files of accepted faults. No program is needed.

    python3 tests/collect.py
"""

import csv
import datetime
import pathlib
import subprocess
import sys
import tempfile

COLLECT = pathlib.Path(__file__).resolve().parent.parent / "tools" / "collect.py"
CASES = [f"relay-{number:02}" for number in range(1, 21)]
CONFORMS = "0", "conforming 90 datagrams 1 lanes", ""
NOTHING = "0", "conforming 0 datagrams 0 lanes", ""
REFUSED = "2", "refused V1 in capture 0", ""
NO_RESULT = None
DELETED, OVER, OTHER_USER = (("1", "not shown", rule) for rule in ("R4 no allocation", "R7 permission over", "R3 other user"))
# What isn't as CONFORMS, by night. relay-07 has one fault each night; that of the last night in relay-19 is new.
NIGHTS = [
    {"relay-07": DELETED, "relay-12": OVER},
    {"relay-07": DELETED, "relay-12": OVER, "relay-03": REFUSED},
    {"relay-07": DELETED, "relay-15": NO_RESULT},
    {"relay-07": DELETED, "relay-15": NO_RESULT, "relay-02": NOTHING},
    {"relay-07": DELETED, "relay-19": OTHER_USER},
]
YESTERDAY = datetime.date.today() - datetime.timedelta(days=1)
KNOWN = "R4 relay-0* until 9999-12-31: relays for a second after a deletion"


class Checks:
    def __init__(self):
        self.count = self.failed = 0

    def same(self, name, wanted, found):
        self.count += 1
        if wanted != found:
            self.failed += 1
            print(f"failed: {name}: wanted {wanted!r}, found {found!r}")


def put_result(folder, status, verdict, rule):
    """What run_case writes of a case."""
    report = f"turnaudit-report 1\n{verdict}\n" + (f"rule {rule}\ndatagram 0.20 198.51.100.7:40004 to 192.0.2.1:3478 96 bytes\n" if rule else "")
    for name, text in {"report": report, "stderr": "", "seconds": "0.10\n", "memory-kb": "18000\n", "status": f"{status}\n"}.items():
        (folder / name).write_text(text)


def put_night(results, faults):
    for name in CASES:
        (results / name).mkdir(parents=True)
        result = faults.get(name, CONFORMS)
        if result:
            put_result(results / name, *result)


def collect(room, night, *options):
    """The status, the rows as dictionaries, and the lines on standard error."""
    words = [sys.executable, COLLECT, room / "cases", room / f"night-{night}", "--csv", "-", *options]
    ended = subprocess.run([str(word) for word in words], capture_output=True, text=True)
    return ended.returncode, list(csv.DictReader(ended.stdout.splitlines())), ended.stderr.splitlines()


def changes(rows):
    return [(row["change"], row["case"]) for row in rows if row["change"] != "same"]


def compare_nights(room, checks):
    """Each night by the one before."""
    wanted = [
        (2, [("new", "relay-03")], "relay-03 relay-07 relay-12", "1 new, 0 gone, 19 same"),
        (6, [("new", "relay-15"), ("gone", "relay-03"), ("gone", "relay-12")], "relay-15 relay-07 relay-03 relay-12", "1 new, 2 gone, 17 same"),
        (6, [("new", "relay-02")], "relay-02 relay-07 relay-15", "1 new, 0 gone, 19 same"),
        (1, [("new", "relay-19"), ("gone", "relay-02"), ("gone", "relay-15")], "relay-19 relay-07 relay-02 relay-15", "1 new, 2 gone, 17 same"),
    ]
    for night, (status, changed, first, count) in enumerate(wanted, 1):
        before = room / f"night-{night - 1}"
        ended, rows, notes = collect(room, night, "--before", before)
        checks.same(f"night {night}: the status", status, ended)
        checks.same(f"night {night}: the changes", changed, changes(rows))
        checks.same(f"night {night}: the order", first.split(), [row["case"] for row in rows][:len(first.split())])
        checks.same(f"night {night}: each case", CASES, sorted(row["case"] for row in rows))
        checks.same(f"night {night}: the count", [f"compared with {before}: {count}"], notes[1:])
    without = collect(room, 4)
    checks.same("without another night", (1, CASES, "20 cases: 18 of status 0, 2 of status 1"), (without[0], [row["case"] for row in without[1]], *without[2]))


def compare_changes(room, checks):
    """Another rule is a new fault; a case that is new or lost, and a night that isn't there."""
    put_night(room / "night-6", {"relay-07": OVER, "relay-19": OTHER_USER})
    for name, result in {"relay-21": DELETED, "relay-22": CONFORMS}.items():
        (room / "cases" / name).mkdir()
        (room / "cases" / name / "policy").touch()
        (room / "night-6" / name).mkdir()
        put_result(room / "night-6" / name, *result)
    (room / "night-4" / "relay-00").mkdir()
    put_result(room / "night-4" / "relay-00", *CONFORMS)
    ended, rows, notes = collect(room, 6, "--before", room / "night-4")
    checks.same("another rule, and a new case that fails", [("new", "relay-07"), ("new", "relay-21")], changes(rows))
    checks.same("a case that is lost", "no longer among the cases: relay-00", notes[2])
    ended, rows, notes = collect(room, 6, "--before", room / "night-9")
    checks.same("a night that isn't there", (5, []), (ended, rows))
    for name in ("relay-21", "relay-22"):
        (room / "cases" / name / "policy").unlink()


def with_known(room, night, text, *options):
    (room / "known").write_bytes(text if isinstance(text, bytes) else text.encode())
    return collect(room, night, "--known", room / "known", *options)


def accept(room, checks):
    """What is known counts as status 0, and nothing else does."""
    ended, rows, notes = with_known(room, 4, f"# accepted\n\n{KNOWN}\n", "--before", room / "night-3")
    checks.same("a new fault beside a known one", (1, ["relay-19", "relay-07"]), (ended, [row["case"] for row in rows][:2]))
    checks.same("which is known", ["relay-07"], [row["case"] for row in rows if row["known"] == "until 9999-12-31"])
    checks.same("the summary", "20 cases: 18 of status 0, 1 of status 1, 1 known", notes[0])
    checks.same("the known line", f"known, 1 case: {KNOWN}", notes[2])
    more = f"{KNOWN}\nR3\trelay-1[89]\tuntil\t{datetime.date.today()}:its users share a password\nR1 * until 9999-12-31: unused\n"
    ended, rows, notes = with_known(room, 4, more)
    checks.same("only known faults", (0, CASES), (ended, [row["case"] for row in rows]))
    counts = ["known, 1 case", "known, 1 case", "known, 0 cases"]
    checks.same("a line and a count of each", counts, [note.partition(":")[0] for note in notes[1:]])
    for text in ("R4 relay-06 until 9999-12-31: x", "R5 relay-07 until 9999-12-31: x", "R4 RELAY-07 until 9999-12-31: x"):
        checks.same(f"not known by {text}", 1, with_known(room, 4, f"{text}\nR3 * until 9999-12-31: x\n")[0])
    (room / "night-4" / "relay-07" / "status").write_text("137\n")
    checks.same("an audit that was killed is not known", 137, with_known(room, 4, more)[0])
    (room / "night-4" / "relay-07" / "status").write_text("1\n")
    for night, status in ((1, 2), (2, 6), (3, 6)):
        checks.same(f"night {night}: no rule, not known", status, with_known(room, night, f"{KNOWN}\nR7 * until 9999-12-31: x\n")[0])


def expire(room, checks):
    """A line whose day has passed is named, and another one of the same cases counts."""
    old = f"R4 * until {YESTERDAY}: repaired by then"
    ended, rows, notes = with_known(room, 4, f"{old}\nR3 * until 9999-12-31: x\n")
    checks.same("expired", (1, f"expired, 1 case: {old}", "known, 1 case: R3 * until 9999-12-31: x"), (ended, *notes[1:]))
    ended, rows, notes = with_known(room, 4, f"{old}\n{KNOWN}\nR3 * until 9999-12-31: x\n")
    checks.same("a later line counts", (0, f"expired, 0 cases: {old}", f"known, 1 case: {KNOWN}"), (ended, *notes[1:3]))


def refuse(room, checks):
    """Bad lines, each with its number, and a file that isn't there."""
    form, day = "it isn't `RULE CASES until YYYY-MM-DD: REASON`", "day is out of range for month"
    bad = {
        "R4 relay-07": form,
        "R4 relay-07 until 9999-12-31:": form,
        "R4 relay-07 until 9999-12-31 x": form,
        "R4 until 9999-12-31: x": form,
        "R4 relay 07 until 9999-12-31: x": form,
        "R4 relay-07 until 31.12.9999: x": form,
        "R4 relay-07 until 2027-02-30: x": day,
        "R23 relay-07 until 9999-12-31: x": "there is no rule R23",
        "r4 relay-07 until 9999-12-31: x": "there is no rule r4",
    }
    for line, fault in bad.items():
        ended, rows, notes = with_known(room, 4, f"# accepted\n{KNOWN}\n{line}\n")
        checks.same(f"refused: {line}", (5, [], f"collect.py: {room / 'known'}:3: {fault}"), (ended, rows, notes[-1]))
    ended, rows, notes = with_known(room, 4, b"R4 * until 9999-12-31: \xff\n")
    checks.same("refused: no UTF-8", (5, True), (ended, f"{room / 'known'}:1: 'utf-8'" in notes[-1]))
    ended, rows, notes = collect(room, 4, "--known", room / "missing")
    checks.same("refused: no file", (5, f"collect.py: {room / 'missing'} can't be read: No such file or directory"), (ended, notes[-1]))


def show_table(room, checks):
    """The table and the file that --csv writes have the same rows in the same order."""
    (room / "known").write_text(KNOWN + "\n")
    words = [sys.executable, COLLECT, room / "cases", room / "night-4", "--before", room / "night-3", "--known", room / "known", "--csv", room / "out.csv"]
    table = subprocess.run([str(word) for word in words], capture_output=True, text=True).stdout.splitlines()
    checks.same("the table's head", "change case status verdict rule datagram known seconds memory-mb".split(), table[0].split())
    checks.same("the new fault's row", "new relay-19 1 not shown R3 other user 0.20 0.10 18".split(), table[1].split())
    checks.same("the known fault's row", "same relay-07 1 not shown R4 no allocation 0.20 until 9999-12-31 0.10 18".split(), table[2].split())
    with open(room / "out.csv", newline="") as file:
        rows = list(csv.DictReader(file))
    checks.same("the file's rows", [line.split()[:2] for line in table[1:]], [[row["change"], row["case"]] for row in rows])


def main():
    checks = Checks()
    with tempfile.TemporaryDirectory(prefix="collect-") as name:
        room = pathlib.Path(name)
        for case in CASES:
            (room / "cases" / case).mkdir(parents=True)
            (room / "cases" / case / "policy").touch()
        for night, faults in enumerate(NIGHTS):
            put_night(room / f"night-{night}", faults)
        for check in (compare_nights, compare_changes, accept, expire, refuse, show_table):
            check(room, checks)
    print(f"collect: {checks.count - checks.failed} passed, {checks.failed} failed")
    return 1 if checks.failed else 0


if __name__ == "__main__":
    sys.exit(main())
