"""Runs situations: each with a server, a net and a capture of its own."""

from __future__ import annotations

import shutil
import time
import traceback
from collections.abc import Callable, Iterable
from concurrent.futures import FIRST_COMPLETED, Future, ThreadPoolExecutor, wait
from dataclasses import dataclass
from pathlib import Path

from kit.client import Blocked
from kit.judge import CHECK, ERROR, NOT_JUDGED, Programs, Result, audit, settle_verdict
from kit.net import Net, NetError
from kit.processes import Capture, CaptureError, Server, ServerError, has_other_user
from kit.situation import Situation
from kit.testbed import Check, NotJudged, Testbed

CAPTURE = "turn.pcapng"
# How often a net is made and captured, if that fails.
TRIES = 3


@dataclass(frozen=True)
class Plan:
    """How all situations are run."""

    command: str
    folder: Path
    programs: Programs
    jobs: int
    start_seconds: float
    patience: float
    keeps_all: bool
    has_netem: bool
    expected: dict[str, tuple[str, ...]]


def drive(situation: Situation, testbed: Testbed, result: Result) -> None:
    """Runs a situation's steps. What it checked is in the result, also if it can't go on."""
    try:
        situation.drive(testbed)
        # What the server may send late is captured, too.
        testbed.settle()
    except NotJudged as reason:
        result.verdict, result.reason = NOT_JUDGED, str(reason)
    except Blocked as blocked:
        result.checks.append(Check("the situation can go on", False, str(blocked)))
    result.checks = testbed.checks + result.checks
    result.notes = testbed.notes


def run_one(situation: Situation, plan: Plan) -> Result:
    """Runs one situation from its net to its verdict."""
    result = Result(situation.name, situation.section, situation.title, expected=plan.expected.get(situation.name, ()))
    begin = time.monotonic()
    folder = plan.folder / situation.name
    shutil.rmtree(folder, ignore_errors=True)
    folder.mkdir(parents=True)
    result.folder = str(folder)
    if situation.loss and not plan.has_netem:
        result.verdict, result.reason = NOT_JUDGED, "this kernel has no `tc netem`, the module sch_netem"
    else:
        try:
            capture_and_judge(situation, plan, folder, result)
        except (ServerError, CaptureError, NetError, OSError) as error:
            result.verdict, result.reason = ERROR, str(error)
        except Exception:
            result.verdict, result.reason = ERROR, f"the kit failed:\n{traceback.format_exc()}"
    result.seconds = time.monotonic() - begin
    if result.is_expected and not plan.keeps_all:
        shutil.rmtree(folder, ignore_errors=True)
        result.folder = ""
    return result


def captured_net(situation: Situation, folder: Path) -> tuple[Net, Capture]:
    """A net with dumpcap on it. A busy machine may refuse one, so it is tried again: the server hasn't started yet."""
    for remaining in reversed(range(TRIES)):
        net = None
        try:
            net = Net(situation.loss)
            return net, Capture(net, folder / CAPTURE)
        except (CaptureError, NetError, OSError):
            if net is not None:
                net.close()
            if remaining == 0:
                raise
            time.sleep(1)
    raise AssertionError("the last try returns or raises")


def capture_and_judge(situation: Situation, plan: Plan, folder: Path, result: Result) -> None:
    """Runs the server and the situation in a net of their own, and judges what was captured."""
    net, capture = captured_net(situation, folder)
    try:
        try:
            server = Server(net, plan.command, situation.relay, folder / "server.log", plan.start_seconds)
            net.has_server = lambda: not server.has_ended
            ended: list[bool] = []
            net.end_server = lambda: ended.append(server.end()) or ended[-1]
            testbed = Testbed(net, has_other_user=has_other_user(plan.command), patience=plan.patience)
            try:
                drive(situation, testbed, result)
            finally:
                has_died = server.has_ended and not ended
                status = server.process.popen.returncode
                server.end()
        finally:
            capture.end()
            # dumpcap's file is for its user alone: `sudo kit/run --keep` leaves one that CI's next step can't read.
            (folder / CAPTURE).chmod(0o644)
        if has_died:
            result.checks.append(Check("the server runs to the end", False, f"it ended with status {status}:\n{server.process.last_lines}"))
        if result.verdict != NOT_JUDGED:
            audit(result, plan.programs, folder, situation, [CAPTURE])
            settle_verdict(result)
    finally:
        net.close()


def run_all(
    situations: Iterable[Situation], plan: Plan, write_row: Callable[[Result], None], write_progress: Callable[[int, int], None]
) -> list[Result]:
    """Runs the slow ones side by side, all at once, and the others `jobs` at a time in the meantime."""
    situations = list(situations)
    slow = [situation for situation in situations if situation.is_slow]
    quick = [situation for situation in situations if not situation.is_slow]
    results: list[Result] = []
    with ThreadPoolExecutor(max(1, len(slow))) as at_once, ThreadPoolExecutor(plan.jobs) as by_jobs:
        waiting: set[Future] = {at_once.submit(run_one, situation, plan) for situation in slow}
        waiting |= {by_jobs.submit(run_one, situation, plan) for situation in quick}
        while waiting:
            done, waiting = wait(waiting, timeout=0.5, return_when=FIRST_COMPLETED)
            for future in done:
                results.append(future.result())
                write_row(results[-1])
            write_progress(len(results), len(situations))
    order = {situation.name: number for number, situation in enumerate(situations)}
    return sorted(results, key=lambda result: order[result.name])


__all__ = ["CAPTURE", "CHECK", "Plan", "drive", "run_all", "run_one"]
