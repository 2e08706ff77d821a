"""The situations of kit/situations: one file each, whose first line names the section that it is about."""

from __future__ import annotations

import importlib.util
import re
from collections.abc import Callable
from dataclasses import dataclass
from pathlib import Path

from kit.testbed import Testbed

FOLDER = Path(__file__).resolve().parent / "situations"
FIRST_LINE = re.compile(r"(RFC 8656, section [\d.]+|RFC 8489, section [\d.]+): (.+)")
RELAY = (49152, 65535)


@dataclass(frozen=True)
class Situation:
    """One situation: what is done, and for how many seconds at most."""

    name: str
    section: str
    title: str
    text: str
    drive: Callable[[Testbed], None]
    seconds: int
    """How long it takes if that is over ten seconds, otherwise 0."""
    relay: tuple[int, int]
    """The relay range that the server has in it."""
    loss: str
    """The arguments of `tc netem` on the clients' and the peers' side, if it needs them."""

    @property
    def is_slow(self) -> bool:
        return self.seconds > 0


def load(path: Path) -> Situation:
    """Reads a situation's file."""
    spec = importlib.util.spec_from_file_location(f"kit.situations.{path.stem}", path)
    module = importlib.util.module_from_spec(spec)
    spec.loader.exec_module(module)
    text = (module.__doc__ or "").strip()
    heading = FIRST_LINE.fullmatch(text.partition("\n")[0])
    if not heading or not hasattr(module, "drive"):
        raise ValueError(f"{path}: its first line has to be `RFC NUMBER, section N: TITLE`, and it needs a function `drive`")
    about = {"seconds": getattr(module, "SECONDS", 0), "relay": getattr(module, "RELAY", RELAY), "loss": getattr(module, "LOSS", "")}
    return Situation(path.stem, heading[1], heading[2], text, module.drive, **about)


def all_situations(folder: Path = FOLDER) -> list[Situation]:
    """All situations, by name."""
    return [load(path) for path in sorted(folder.glob("[a-z]*.py"))]
