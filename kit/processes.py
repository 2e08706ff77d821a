"""The programs that run during a situation: the server that is tested, and dumpcap, which captures."""

from __future__ import annotations

import contextlib
import os
import shlex
import signal
import subprocess
import time
from collections.abc import Iterable
from pathlib import Path

from kit.net import Namespace, Net
from kit.testbed import LISTEN, OTHER_USER, USER

POLL = 0.02
# What is added to a command without placeholders, in this order; and which other placeholders there are.
OTHERS = ("other_user", "other_password")
ARGUMENTS = ("listen", "relay_low", "relay_high", "realm", "user", "password", *OTHERS)
PLACEHOLDERS = (*ARGUMENTS, "address", "port")


class ServerError(Exception):
    """The server doesn't run as it has to."""


class CaptureError(Exception):
    """dumpcap doesn't capture."""


class Process:
    """A program in a namespace, in a session of its own, so that whatever it starts ends with it."""

    running: set["Process"] = set()

    def __init__(self, namespace: Namespace, command: list[str], log: Path):
        self.log = log
        with log.open("wb") as out:
            streams = {"stdin": subprocess.DEVNULL, "stdout": out, "stderr": out}
            self.popen = subprocess.Popen(namespace.command(*command), **streams, start_new_session=True)
        self.running.add(self)

    def end(self, number: int, seconds: float) -> bool:
        """Sends a signal, and then kills what is left. Whether the signal was enough."""
        with contextlib.suppress(ProcessLookupError):
            os.killpg(self.popen.pid, number)
        try:
            self.popen.wait(seconds)
            has_ended = True
        except subprocess.TimeoutExpired:
            has_ended = False
        with contextlib.suppress(ProcessLookupError, PermissionError):
            os.killpg(self.popen.pid, signal.SIGKILL)
        self.popen.wait()
        self.running.discard(self)
        return has_ended

    @classmethod
    def kill_all(cls) -> None:
        """For an interrupt: nothing goes on."""
        for process in list(cls.running):
            with contextlib.suppress(ProcessLookupError, PermissionError):
                os.killpg(process.popen.pid, signal.SIGKILL)

    @property
    def last_lines(self) -> str:
        lines = self.log.read_text(errors="replace").strip().splitlines()
        return "\n".join(lines[-5:]) or "(it printed nothing)"


def placeholder_values(relay: tuple[int, int]) -> dict[str, str]:
    """What replaces each placeholder of the server's command."""
    return {
        "listen": f"{LISTEN[0]}:{LISTEN[1]}",
        "address": LISTEN[0],
        "port": str(LISTEN[1]),
        "relay_low": str(relay[0]),
        "relay_high": str(relay[1]),
        "realm": USER.realm,
        "user": USER.name,
        "password": USER.password,
        "other_user": OTHER_USER.name,
        "other_password": OTHER_USER.password,
    }


def command_of(template: str, relay: tuple[int, int]) -> list[str]:
    """The server's command with its arguments. No shell reads it."""
    arguments, values = shlex.split(template), placeholder_values(relay)
    if not has_placeholder(template):
        return arguments + [values[name] for name in ARGUMENTS]
    for name, value in values.items():
        arguments = [argument.replace("{" + name + "}", value) for argument in arguments]
    return arguments


def has_placeholder(template: str, names: Iterable[str] = PLACEHOLDERS) -> bool:
    return any("{" + name + "}" in template for name in names)


def has_other_user(template: str) -> bool:
    """Whether the server gets to know the second user."""
    return not has_placeholder(template) or all(has_placeholder(template, [name]) for name in OTHERS)


class Server:
    """The server that is tested."""

    def __init__(self, net: Net, template: str, relay: tuple[int, int], log: Path, seconds: float):
        self.command = command_of(template, relay)
        self.process = Process(net.server, self.command, log)
        try:
            self.await_listening(seconds)
        except ServerError:
            self.process.end(signal.SIGKILL, 5)
            raise

    def await_listening(self, seconds: float) -> None:
        """Until the listen address is bound. Nothing is sent, so that the capture has what the situation sends alone."""
        end = time.monotonic() + seconds
        while not self.is_listening():
            status, printed = self.process.popen.poll(), f"{self.process.last_lines}\ncommand: {shlex.join(self.command)}"
            if status is not None:
                raise ServerError(f"the server ended with status {status} as it started:\n{printed}")
            if time.monotonic() > end:
                raise ServerError(f"the server didn't bind UDP {LISTEN[0]}:{LISTEN[1]} within {seconds:g} seconds:\n{printed}")
            time.sleep(POLL)

    def is_listening(self) -> bool:
        """Whether a socket of the server's host has the listen address, or all addresses, and its port."""
        number = int.from_bytes(bytes(int(part) for part in LISTEN[0].split(".")), "little")
        wanted = {f"{number:08X}:{LISTEN[1]:04X}", f"00000000:{LISTEN[1]:04X}", f"{'0' * 32}:{LISTEN[1]:04X}"}
        with contextlib.suppress(OSError):
            for name in ("udp", "udp6"):
                for line in Path(f"/proc/{self.process.popen.pid}/net/{name}").read_text().splitlines()[1:]:
                    if line.split()[1] in wanted:
                        return True
        return False

    @property
    def has_ended(self) -> bool:
        return self.process.popen.poll() is not None

    def end(self, seconds: float = 10) -> bool:
        """Whether it ends by SIGTERM in this time. It is killed otherwise."""
        return self.process.end(signal.SIGTERM, seconds)


class Capture:
    """dumpcap on both interfaces of the server's host: one process, one clock, one file."""

    def __init__(self, net: Net, file: Path, seconds: float = 30):
        self.net, self.file, self.seconds = net, file, seconds
        interfaces = [word for name in net.interfaces for word in ("-i", name)]
        command = ["dumpcap", *interfaces, "-q", "-N", "100000", "-B", "4", "-w", str(file)]
        self.process = Process(net.server, command, file.with_name("dumpcap.log"))
        try:
            self.await_mark(b"turn kit: the capture begins, ", is_repeated=True)
        except CaptureError:
            self.process.end(signal.SIGKILL, 5)
            raise

    def await_mark(self, payload: bytes, is_repeated: bool) -> None:
        """Sends a datagram by each interface, until both are in the file: what came before it is, too."""
        end, is_sent = time.monotonic() + self.seconds, False
        while not self.file.exists() or not self.has_marks(payload):
            if self.process.popen.poll() is not None:
                raise CaptureError(f"dumpcap ended with status {self.process.popen.returncode}:\n{self.process.last_lines}")
            if time.monotonic() > end:
                raise CaptureError(f"dumpcap wrote no datagram within {self.seconds:g} seconds:\n{self.process.last_lines}")
            if is_repeated and self.file.exists() or not is_sent:
                self.net.mark(payload)
                is_sent = True
            time.sleep(5 * POLL)

    def has_marks(self, payload: bytes) -> bool:
        written = self.file.read_bytes()
        return all(payload + side.encode() in written for side in self.net.sides)

    def end(self) -> None:
        """Waits until all is written, and has dumpcap write its statistics."""
        try:
            self.await_mark(b"turn kit: the capture ends, ", is_repeated=False)
        finally:
            self.process.end(signal.SIGINT, 30)
