"""Asking a generator by its line protocol, with time limits."""
from __future__ import annotations

import os
import random
import selectors
import subprocess
import time
from collections import defaultdict
from dataclasses import dataclass, field

AFTER = 0.005       # how long a second line is waited for, in seconds
WHOLE = 1.0         # how long the rest of a second line is waited for once it has begun
REST = 0.2          # how long more is waited for behind what came before the first request
LINE = 1024         # the most bytes of a line


@dataclass
class Patience:
    """How many seconds an answer is waited for, and how many a program is listened to before its first request."""

    answer: float
    silence: float


@dataclass
class Asked:
    """A request of a report, with the answer that it got; none where it is open."""

    number: int
    stream: str
    request: str
    said: str | None


@dataclass
class Findings:
    """What was found wrong, and how long each stream took."""

    faults: list[str] = field(default_factory=list)
    times: dict[str, list[float]] = field(default_factory=lambda: defaultdict(list))


class Child:
    """One process of a generator."""

    def __init__(self, program: list[str]):
        self.process = subprocess.Popen(program, stdin=subprocess.PIPE, stdout=subprocess.PIPE)
        assert self.process.stdin and self.process.stdout
        self.requests, self.answers = self.process.stdin, self.process.stdout
        self.held = b""
        self.selector = selectors.DefaultSelector()
        self.selector.register(self.answers, selectors.EVENT_READ)

    def hear(self, seconds: float) -> bool:
        """Takes what comes within so many seconds; no where nothing does, or the output has ended."""
        if not self.selector.select(seconds):
            return False
        more = os.read(self.answers.fileno(), 65536)
        self.held += more
        return bool(more)

    def line(self, seconds: float) -> bytes | None:
        """The next line, or nothing where none comes in that time."""
        end = time.monotonic() + seconds
        while b"\n" not in self.held and len(self.held) <= LINE:
            left = end - time.monotonic()
            if left <= 0 or not self.hear(left):
                return None
        line, _, self.held = self.held.partition(b"\n")
        return line

    def ask(self, request: str) -> bool:
        """Writes a request; no where the program takes none."""
        try:
            self.requests.write(request.encode() + b"\n")
            self.requests.flush()
        except OSError:
            return False
        return True

    def rest(self) -> bytes:
        """All that is held and not taken yet."""
        rest, self.held = self.held, b""
        return rest

    def close(self, seconds: float) -> bool:
        """Ends its input; whether it ended in that time."""
        try:
            self.requests.close()
        except OSError:
            pass
        end = time.monotonic() + seconds
        while time.monotonic() < end and self.hear(end - time.monotonic()):
            pass
        try:
            self.process.wait(max(end - time.monotonic(), 0.1))
            return True
        except subprocess.TimeoutExpired:
            self.process.kill()
            self.process.wait()
            return False
        finally:
            self.answers.close()


def normal(line: bytes) -> str:
    """A line as the planner takes it: fields with one space between, a carriage return at the end dropped."""
    text = line.decode("ascii", "backslashreplace")
    return " ".join((text[:-1] if text.endswith("\r") else text).split(" ")).strip()


def ask_all(
    program: list[str], asked: list[Asked], workers: int, patience: Patience, seed: int, findings: Findings
) -> None:
    """Asks the requests in an order by chance, of so many new processes in turn."""
    order = list(asked)
    random.Random(seed).shuffle(order)
    for share in (order[worker::workers] for worker in range(workers)):
        if share:
            _ask_share(program, share, patience, findings)


def _ask_share(program: list[str], share: list[Asked], patience: Patience, findings: Findings) -> None:
    child, seconds = Child(program), patience.answer
    if child.hear(patience.silence):
        while child.hear(REST):
            pass
        findings.faults.append(f"before any request it wrote {child.rest()!r}")
    for one in share:
        if not _ask_one(child, one, seconds, findings):
            return
    if not child.close(seconds):
        findings.faults.append(f"it hadn't ended {seconds:g} s after its input did")


def _ask_one(child: Child, one: Asked, seconds: float, findings: Findings) -> bool:
    """Asks one request; no where the process can't be asked further."""
    start = time.monotonic()
    line = child.line(seconds) if child.ask(one.request) else None
    if line is None:
        findings.faults.append(_silent(child, one, seconds))
        return False
    findings.times[one.stream].append(time.monotonic() - start)
    if len(line) > LINE:
        findings.faults.append(f"request {one.number}: {one.request}\n  a line of more than {LINE:,} bytes")
    elif one.said is not None and " ".join(normal(line).split()) != one.said:
        findings.faults.append(f"request {one.number}: {one.request}\n  now:    {normal(line)}\n  before: {one.said}")
    if child.held or child.hear(AFTER):
        while b"\n" not in child.held and len(child.held) <= LINE and child.hear(WHOLE):
            pass
        findings.faults.append(f"request {one.number}: {one.request}\n  more than one line; behind the first: "
                               f"{child.rest()!r}")
    return True


def _silent(child: Child, one: Asked, seconds: float) -> str:
    ended = child.process.poll() is not None
    child.close(seconds if not ended else 0.1)
    late = child.rest()
    here = f"request {one.number}: {one.request}\n  "
    if late:
        return f"{here}no line in {seconds:g} s, and {late[:80]!r} once its input ended: the line isn't flushed"
    if ended or child.process.returncode not in (None, -9):
        return f"{here}it ended (status {child.process.returncode}) and hadn't answered"
    return f"{here}no line in {seconds:g} s"
