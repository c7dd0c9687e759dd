"""The planner's program: where it is, and a run of it that leaves nothing behind."""
from __future__ import annotations

import math
import os
import selectors
import shutil
import signal
import subprocess
import time
from dataclasses import dataclass
from typing import IO, Callable, Sequence

from .errors import ProgramNotFoundError

NAME = "pddlstream"
GONE_WITHIN = 5.0
"""Seconds that killed processes get to be gone."""


def find_program(given: str | os.PathLike[str] | None = None) -> str:
    """The path of the planner: the given one, else that of `$PDDLSTREAM`, else the one of PATH.

    ProgramNotFoundError where there is none, or where it can't be run.
    """
    named = os.fspath(given) if given is not None else os.environ.get("PDDLSTREAM")
    found = shutil.which(named or NAME)
    if found is None:
        looked = f"no program that can be run is at {named}" if named else f"there is no {NAME} on PATH"
        raise ProgramNotFoundError(
            f"{looked}: name the planner by solve(.., program=PATH) or $PDDLSTREAM. "
            "Built from its repository it is crates/pddlstream/out/pddlstream"
        )
    return os.path.abspath(found)


@dataclass(frozen=True)
class Ended:
    """How a run ended: its text, and its exit status; None where the time was up."""

    text: str
    status: int | None


def run_program(command: Sequence[str], max_time: float, tell: Callable[[str], None] | None = None) -> Ended:
    """Runs the command for so many seconds at most, and gives what it printed.

    It has a process group of its own; when this returns or raises, nothing of that group runs any more. `tell` is
    called with each piece of text as it comes.
    """
    deadline = time.monotonic() + max_time
    started = subprocess.Popen(command, stdin=subprocess.DEVNULL, stdout=subprocess.PIPE, start_new_session=True)
    assert started.stdout is not None
    try:
        pieces, is_late = _read(started.stdout, deadline, tell)
        status = None if is_late else _wait(started, deadline)
    finally:
        _end_group(started)
        started.stdout.close()
    return Ended(b"".join(pieces).decode("ascii", "replace"), status)


def _read(pipe: IO[bytes], deadline: float, tell: Callable[[str], None] | None) -> tuple[list[bytes], bool]:
    """What comes by the pipe until its end, and whether the deadline came before that."""
    pieces: list[bytes] = []
    with selectors.DefaultSelector() as waiting:
        waiting.register(pipe, selectors.EVENT_READ)
        while True:
            left = deadline - time.monotonic()
            if left <= 0 or not waiting.select(None if left == math.inf else min(left, 3600.0)):
                if deadline - time.monotonic() <= 0:
                    return pieces, True
                continue
            piece = os.read(pipe.fileno(), 65536)
            if not piece:
                return pieces, False
            pieces.append(piece)
            if tell is not None:
                tell(piece.decode("ascii", "replace"))


def _wait(started: subprocess.Popen[bytes], deadline: float) -> int | None:
    """The exit status; None where the deadline comes first. The process is still there for `_end_group`."""
    while True:
        ended = os.waitid(os.P_PID, started.pid, os.WEXITED | os.WNOWAIT | os.WNOHANG)
        if ended is not None:
            return ended.si_status if ended.si_code == os.CLD_EXITED else -ended.si_status
        if time.monotonic() >= deadline:
            return None
        time.sleep(0.002)


def _end_group(started: subprocess.Popen[bytes]) -> None:
    """Ends all that the command started, and itself, and waits until they are gone.

    The command is waited for last, so that its number, which is the group's, stays its own until then.
    """
    _signal_group(started.pid, signal.SIGKILL)
    started.wait()
    until = time.monotonic() + GONE_WITHIN
    while _signal_group(started.pid, 0) and time.monotonic() < until:
        time.sleep(0.002)


def _signal_group(group: int, number: int) -> bool:
    """Whether there is such a group; it gets the signal."""
    try:
        os.killpg(group, number)
    except (ProcessLookupError, PermissionError):
        return False
    return True
