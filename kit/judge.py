"""The verdict of turnaudit on a situation's captures, and what turnexplain says about it."""

from __future__ import annotations

import json
import re
import shutil
import subprocess
from dataclasses import asdict, dataclass, field
from pathlib import Path

from kit.situation import Situation
from kit.testbed import GRACE, LISTEN, OTHER_USER, SERVER_ADDRESS, USER, Check

TOP = Path(__file__).resolve().parent.parent
SECONDS = 300
# Of the policy, in microseconds: both interfaces have one clock, so a stamp is hardly off its moment.
SKEW = 50

# What a situation's result is called, from the worst on.
BREACH, CHECK, ERROR, NOT_JUDGED, PASSED = "not shown", "check", "error", "not judged", "conforming"


@dataclass(frozen=True)
class Programs:
    """The programs that judge. turnexplain may be missing."""

    turnaudit: str
    turnexplain: str | None


@dataclass
class Result:
    """What a situation resulted in."""

    name: str
    section: str
    title: str
    verdict: str = PASSED
    rule: str = ""
    """As in the report: `R7 permission over`."""
    datagram: str = ""
    """The datagram's name in the report, and its addresses."""
    reason: str = ""
    """Why it is no verdict, or why it isn't judged."""
    seconds: float = 0.0
    datagrams: int = 0
    checks: list[Check] = field(default_factory=list)
    notes: list[str] = field(default_factory=list)
    explanation: str = ""
    """What `turnexplain verdict` prints."""
    faults: list[str] = field(default_factory=list)
    """The kinds of `turnexplain faults`, if it shows some."""
    is_explained: bool = False
    """Whether turnexplain was there."""
    folder: str = ""
    expected: tuple[str, ...] = ()
    """What is expected instead of a pass, by `--expect`."""

    @property
    def failed_checks(self) -> list[Check]:
        return [check for check in self.checks if not check.is_met]

    @property
    def is_expected(self) -> bool:
        return self.short in self.expected if self.expected else self.verdict in (PASSED, NOT_JUDGED)

    @property
    def is_proved(self) -> bool:
        """Whether turnexplain shows that no order explains the datagram: it is one that `turnexplain faults` prints."""
        return any(line.startswith("Shown: ") for line in self.explanation.splitlines())

    @property
    def short(self) -> str:
        """The verdict in one word, as stored expectations have it: `pass`, a rule, `check`, `unjudged` or `error`."""
        names = {PASSED: "pass", BREACH: self.rule.partition(" ")[0], CHECK: "check", NOT_JUDGED: "unjudged", ERROR: "error"}
        return names[self.verdict]

    def as_json(self) -> dict:
        return {**asdict(self), "short": self.short, "is_expected": self.is_expected, "is_proved": self.is_proved}


def find_programs(turnaudit: str | None, turnexplain: str | None) -> tuple[Programs | None, str]:
    """The programs as they are named, on the path, or built in this repository; or what is missing."""

    def built(name: str) -> str | None:
        places = [str(TOP / "crates" / name / "out" / name), str(TOP / "out" / f"{name}-unproved")]
        return shutil.which(name) or next((place for place in places if shutil.which(place)), None)

    auditor = shutil.which(turnaudit) if turnaudit else built("turnaudit")
    explainer = shutil.which(turnexplain) if turnexplain else built("turnexplain")
    if auditor is None:
        place = turnaudit or "turnaudit"
        builds = "`tools/unproved.py --version` builds one in two minutes, `make turnaudit` the proved one"
        return None, f"{place}: there is no such program; {builds}"
    if turnexplain and explainer is None:
        return None, f"{turnexplain}: there is no such program"
    return Programs(str(Path(auditor).resolve()), explainer and str(Path(explainer).resolve())), ""


def write_inputs(folder: Path, situation: Situation) -> list[str]:
    """Writes the policy and the users, and returns the arguments that name them."""
    low, high = situation.relay
    endpoints = f"listen {LISTEN[0]}:{LISTEN[1]}\nrelay {SERVER_ADDRESS}:{low}-{high}\n"
    (folder / "policy").write_text(f"turnaudit-policy 1\n{endpoints}skew-us {SKEW}\ngrace-ms {GRACE * 1000}\n")
    (folder / "users").write_text("".join(f"{user.name}\t{user.realm}\t{user.password}\n" for user in (USER, OTHER_USER)))
    return ["--policy", "policy", "--creds", "users"]


def run(program: str, arguments: list[str], folder: Path) -> tuple[int, str, str]:
    ran = subprocess.run([program, *arguments], cwd=folder, capture_output=True, text=True, errors="replace", timeout=SECONDS, check=False)
    return ran.returncode, ran.stdout, ran.stderr


def audit(result: Result, programs: Programs, folder: Path, situation: Situation, captures: list[str]) -> None:
    """Has turnaudit judge the captures, and writes what it says into the result."""
    inputs = write_inputs(folder, situation)
    status, report, error = run(programs.turnaudit, ["audit", *inputs, *captures], folder)
    (folder / "report").write_text(report + error)
    conforming = re.search(r"^conforming (\d+) datagrams (\d+) lanes$", report, re.MULTILINE)
    if status == 0 and conforming:
        result.datagrams = int(conforming[1])
        if result.datagrams == 0:
            result.verdict, result.reason = ERROR, "the capture has no datagram of the server"
    elif status == 1:
        result.verdict = BREACH
        result.rule = re.search(r"^rule (.+)$", report, re.MULTILINE)[1]
        result.datagram = re.search(r"^datagram (.+)$", report, re.MULTILINE)[1]
        explain(result, programs, folder, [*inputs, *captures])
    else:
        result.verdict, result.reason = ERROR, f"turnaudit ended with status {status}: {(error or report).strip()}"


def explain(result: Result, programs: Programs, folder: Path, arguments: list[str]) -> None:
    """What turnexplain says of a breach, and which faults it shows in every order."""
    if programs.turnexplain is None:
        return
    result.is_explained = True
    _, result.explanation, _ = run(programs.turnexplain, ["verdict", *arguments], folder)
    (folder / "explanation").write_text(result.explanation)
    _, faults, _ = run(programs.turnexplain, ["faults", *arguments], folder)
    result.faults = sorted({line.split(" ", 2)[2] for line in faults.splitlines() if line.startswith("fault ")})


def settle_verdict(result: Result) -> None:
    """A check that failed counts if turnaudit reports no breach."""
    if result.verdict == PASSED and result.failed_checks:
        result.verdict = CHECK


def read_expected(path: Path) -> dict[str, tuple[str, ...]]:
    """The results that each situation may have: lines of its name and these, as `short` has them."""
    lines = (line.split() for line in path.read_text().splitlines() if line.strip() and not line.startswith("#"))
    return {name: tuple(results) for name, *results in lines}


def load_results(path: Path) -> dict:
    """What `kit/run --json` wrote."""
    return json.loads(path.read_text())
