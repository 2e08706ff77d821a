"""Three hosts in network namespaces: the server, its clients and its peers.

The clients' side is 198.51.100.0/24, the peers' side 203.0.113.0/24, and the server has 192.0.2.1 on both. A namespace is an open file of
this process: nothing of it is left when the process ends, however that happens.
"""

from __future__ import annotations

import contextlib
import ctypes
import os
import select
import shutil
import socket
import subprocess
import sys
import time
from collections.abc import Callable

from kit.testbed import SERVER_ADDRESS

CLONE_NEWNET = 0x40000000
C_LIBRARY = ctypes.CDLL(None, use_errno=True)
SIDES = {"client": ("clients", "198.51.100.0/24"), "peer": ("peers", "203.0.113.0/24")}
# So that no datagram is fragmented: turnaudit refuses fragments.
MTU = 65535
ROOM = 4 << 20
# The port to which datagrams are sent that mark where a capture begins and ends. It isn't the server's.
DISCARD = 9
# How often it is seen whether the server still runs, in seconds.
SLICE = 0.5


class NetError(Exception):
    """The net can't be made."""


def c_call(name: str, *arguments: int) -> None:
    if getattr(C_LIBRARY, name)(*arguments) != 0:
        number = ctypes.get_errno()
        raise OSError(number, f"{name}: {os.strerror(number)}")


def own_namespace() -> int:
    return os.open("/proc/thread-self/ns/net", os.O_RDONLY | os.O_CLOEXEC)


def may_make_namespaces() -> bool:
    """Whether this process may; a child tries."""
    child = os.fork()
    if child == 0:
        os._exit(0 if C_LIBRARY.unshare(CLONE_NEWNET) == 0 else 1)
    return os.waitpid(child, 0)[1] == 0


def enter_user_namespace(mark: str) -> None:
    """Runs this program again as root of a user namespace of its own, where it may make network namespaces."""
    if mark in os.environ or not shutil.which("unshare"):
        return
    tried = subprocess.run(["unshare", "-rn", "true"], capture_output=True, check=False)
    if tried.returncode == 0:
        os.execvpe("unshare", ["unshare", "-rn", sys.executable, *sys.argv], {**os.environ, mark: "1"})


class Namespace:
    """A network namespace, as an open file."""

    def __init__(self):
        home = own_namespace()
        try:
            c_call("unshare", CLONE_NEWNET)
            self.file = own_namespace()
        finally:
            c_call("setns", home, CLONE_NEWNET)
            os.close(home)
        # By this path other programs find it.
        self.path = f"/proc/{os.getpid()}/fd/{self.file}"

    @contextlib.contextmanager
    def entered(self):
        """This thread is in the namespace."""
        home = own_namespace()
        c_call("setns", self.file, CLONE_NEWNET)
        try:
            yield
        finally:
            c_call("setns", home, CLONE_NEWNET)
            os.close(home)

    def command(self, *arguments: str) -> list[str]:
        """The command that runs a program in the namespace."""
        return ["nsenter", f"--net={self.path}", "--", *arguments]

    def run(self, *arguments: str, text: str = "") -> None:
        ran = subprocess.run(self.command(*arguments), input=text, capture_output=True, text=True, check=False)
        if ran.returncode != 0:
            raise NetError(f"{' '.join(arguments)}: {(ran.stderr or ran.stdout).strip()}")

    def close(self) -> None:
        os.close(self.file)


class UdpSocket:
    """A socket of a client or a peer."""

    def __init__(self, namespace: Namespace, endpoint: tuple[str, int], is_waiting: Callable[[], bool] = lambda: True):
        self.is_waiting = is_waiting
        with namespace.entered():
            self.socket = socket.socket(socket.AF_INET, socket.SOCK_DGRAM | socket.SOCK_CLOEXEC)
        self.socket.setsockopt(socket.SOL_SOCKET, socket.SO_RCVBUF, ROOM)
        self.socket.bind(endpoint)
        self.endpoint = endpoint

    def send(self, payload: bytes, target: tuple[str, int]) -> None:
        self.socket.sendto(payload, target)

    def receive(self, seconds: float) -> tuple[bytes, tuple[str, int]] | None:
        """Nothing comes from a server that has ended, so that isn't waited for longer than a slice."""
        end = time.monotonic() + seconds
        while True:
            may_answer, remaining = self.is_waiting(), max(0.0, end - time.monotonic())
            ready, _, _ = select.select([self.socket], [], [], min(remaining, SLICE))
            if ready:
                return self.socket.recvfrom(65535)
            if remaining <= SLICE or not may_answer:
                return None

    def close(self) -> None:
        self.socket.close()


class Net:
    """The hosts of one situation."""

    def __init__(self, loss: str = ""):
        self.sockets: list[UdpSocket] = []
        self.end_server = lambda: None
        self.has_server = lambda: True
        self.server = Namespace()
        self.sides = {side: Namespace() for side in SIDES}
        setup = ["link set lo up"]
        for side, (interface, network) in SIDES.items():
            self.server.run("ip", "link", "add", interface, "type", "veth", "peer", "name", "server", "netns", self.sides[side].path)
            setup += [
                f"link set {interface} mtu {MTU} addrgenmode none up",
                f"addr add {SERVER_ADDRESS}/32 dev {interface}",
                f"route add {network} dev {interface} src {SERVER_ADDRESS}",
            ]
            far = [
                "link set lo up",
                f"link set server mtu {MTU} addrgenmode none up",
                f"route add local {network} dev lo",
                f"route add {SERVER_ADDRESS}/32 dev server",
            ]
            self.sides[side].run("ip", "-batch", "-", text="\n".join(far) + "\n")
            if loss:
                # Where the far side sends: what is lost there was never at the server, and isn't captured.
                self.sides[side].run("tc", "qdisc", "add", "dev", "server", "root", "netem", *loss.split())
        self.server.run("ip", "-batch", "-", text="\n".join(setup) + "\n")

    @property
    def interfaces(self) -> list[str]:
        """The server's interfaces, which are captured."""
        return [interface for interface, _ in SIDES.values()]

    def open_socket(self, side: str, endpoint: tuple[str, int]) -> UdpSocket:
        self.sockets.append(UdpSocket(self.sides[side], endpoint, lambda: self.has_server()))
        return self.sockets[-1]

    def mark(self, payload: bytes) -> None:
        """Sends a datagram by each side to a port of the server's host that isn't the server's."""
        for side, address in (("client", "198.51.100.253"), ("peer", "203.0.113.253")):
            marker = UdpSocket(self.sides[side], (address, DISCARD))
            marker.send(payload + side.encode(), (SERVER_ADDRESS, DISCARD))
            marker.close()

    def now(self) -> float:
        return time.monotonic()

    def wait(self, seconds: float) -> None:
        time.sleep(seconds)

    def close(self) -> None:
        for opened in self.sockets:
            opened.close()
        for namespace in (self.server, *self.sides.values()):
            namespace.close()


def has_netem() -> bool:
    """Whether the kernel has `tc netem`."""
    if not shutil.which("tc"):
        return False
    namespace = Namespace()
    try:
        namespace.run("tc", "qdisc", "add", "dev", "lo", "root", "netem", "loss", "1%")
        return True
    except NetError:
        return False
    finally:
        namespace.close()
