"""Reports as data: what `solve` prints, whole or as far as it has come."""
from __future__ import annotations

import re
import sys
from dataclasses import dataclass, field
from typing import Callable, Iterable, Union


MODES = ("incremental", "focused", "binding", "adaptive")
WITHOUT_PLAN = ("no plan", "limit calls", "limit states", "limit instances")
FAULTS = re.compile(r"answer \d+ (word|count|value|too-long)|generator|memory")      # (those behind a report's first lines)


@dataclass
class Pool:
    """So many workers answer for these streams."""

    workers: int
    streams: list[str]


@dataclass
class Ask:
    """A request, and its answer once it has come."""

    number: int
    turn: int
    stream: str
    inputs: list[str]
    line: int
    answer: Union["Got", "Value", "End", None] = None

    @property
    def request(self) -> str:
        """The line that a generator reads."""
        return " ".join(["next", str(self.turn), self.stream, *self.inputs])


@dataclass
class Got:
    """The yield that answers a request: its tuples, of which version 1 has one."""

    number: int
    tuples: list[list[str]]
    line: int

    @property
    def said(self) -> str:
        """The line that the generator wrote."""
        return " ".join(["yield", *" | ".join(" ".join(one) for one in self.tuples).split()])


@dataclass
class Value:
    """The value that answers a request of a cost stream."""

    number: int
    value: int
    line: int

    @property
    def said(self) -> str:
        """The line that the generator wrote."""
        return f"value {self.value}"


@dataclass
class End:
    """Nothing more comes of the instance of a request."""

    number: int
    line: int
    said = "end"


@dataclass
class Use:
    """A supposed answer of a dream."""

    entry: int
    stream: str
    inputs: list[str]


@dataclass
class Dream:
    """A plan that rests on supposed answers."""

    number: int
    line: int
    uses: list[Use] = field(default_factory=list)
    steps: list[list[str]] = field(default_factory=list)


@dataclass
class Mark:
    """A line `level`, `none` or `reset`, or `pick J` or `retire J`."""

    word: str
    line: int
    skeleton: int = 0


Entry = Union[Ask, Got, Value, End, Dream, Mark]


@dataclass
class Outcome:
    """How a run ended that has no fault: `plan`, `no plan` or a limit.

    An origin is a request and one of its tuples, from 1.
    """

    kind: str
    steps: list[list[str]] = field(default_factory=list)
    cost: int | None = None
    origins: dict[str, tuple[int, int]] = field(default_factory=dict)


@dataclass
class Report:
    """All lines of a report; `fault` has the words of a last line `fault ..`."""

    version: int = 0
    mode: str = ""
    limits: tuple[int, int, int] = (0, 0, 0)
    pools: list[Pool] = field(default_factory=list)
    entries: list[Entry] = field(default_factory=list)
    asks: dict[int, Ask] = field(default_factory=dict)
    outcome: Outcome | None = None
    fault: list[str] | None = None
    is_done: bool = False
    lines: int = 0

    @property
    def plan(self) -> Outcome | None:
        """The outcome, where it is a plan and none of its lines is missing."""
        return self.outcome if self.is_done and self.outcome is not None and self.outcome.kind == "plan" else None

    def open_asks(self) -> list[Ask]:
        """The requests without an answer."""
        return [ask for ask in self.asks.values() if ask.answer is None]

    def dreams(self) -> list[Dream]:
        """The dreams in their order."""
        return [entry for entry in self.entries if isinstance(entry, Dream)]


class ReportFault(Exception):
    """A line that no report has at its place."""


def shown(text: str) -> str:
    """A line that is no report's, cut short and without bytes that a terminal would obey."""
    return text[:300].encode("unicode_escape").decode("ascii")


class _Reader:
    """Takes a report line by line."""

    def __init__(self) -> None:
        self.report = Report()
        self.dream_count = 0

    def take(self, text: str) -> None:
        self.report.lines += 1
        word, *fields = text.split(" ")
        if self.report.lines == 1 and word != "pddlstream":
            raise ReportFault(f"line 1 is no head of a report: {shown(text)} (explain.py says what it means)")
        if self.report.fault is not None or self.report.is_done:
            raise ReportFault(f"line {self.report.lines} stands behind the end: {shown(text)}")
        taker = TAKERS.get(word)
        if taker is None:
            raise ReportFault(f"line {self.report.lines} is no line of a report: {shown(text)}")
        try:
            taker(self, fields)
        except (ValueError, IndexError, AttributeError, KeyError, TypeError):
            raise ReportFault(f"line {self.report.lines} has no form that may stand there: {shown(text)}") from None

    def head(self, fields: list[str]) -> None:
        version, self.report.mode = fields
        self.report.version = int(version)
        if version not in ("1", "2") or self.report.mode not in MODES:
            raise ValueError

    def limits(self, fields: list[str]) -> None:
        calls, states, depth = map(int, fields)
        self.report.limits = (calls, states, depth)

    def pool(self, fields: list[str]) -> None:
        self.report.pools.append(Pool(int(fields[0]), fields[1:]))

    def ask(self, fields: list[str]) -> None:
        ask = Ask(int(fields[0]), int(fields[1]), fields[2], fields[3:], self.report.lines)
        self.report.asks[ask.number] = ask
        self.report.entries.append(ask)

    def answered(self, answer: Got | Value | End) -> None:
        self.report.asks[answer.number].answer = answer
        self.report.entries.append(answer)

    def got(self, fields: list[str]) -> None:
        tuples: list[list[str]] = [[]]
        for value in fields[1:]:
            if value == "|":
                tuples.append([])
            else:
                tuples[-1].append(value)
        self.answered(Got(int(fields[0]), tuples, self.report.lines))

    def value(self, fields: list[str]) -> None:
        number, value = map(int, fields)
        self.answered(Value(number, value, self.report.lines))

    def end(self, fields: list[str]) -> None:
        (number,) = map(int, fields)
        self.answered(End(number, self.report.lines))

    def dream(self, fields: list[str]) -> None:
        self.dream_count += 1
        self.report.entries.append(Dream(self.dream_count, self.report.lines))

    def last_dream(self) -> Dream:
        last = self.report.entries[-1]
        if not isinstance(last, Dream):
            raise ValueError
        return last

    def use(self, fields: list[str]) -> None:
        self.last_dream().uses.append(Use(int(fields[0]), fields[1], fields[2:]))

    def step(self, fields: list[str]) -> None:
        self.last_dream().steps.append(fields)

    def mark(self, word: str, fields: list[str]) -> None:
        self.report.entries.append(Mark(word, self.report.lines, *map(int, fields)))

    def plan(self, fields: list[str]) -> None:
        self.report.outcome = Outcome("plan")

    def outcome(self) -> Outcome:
        if self.report.outcome is None:
            raise ValueError
        return self.report.outcome

    def do(self, fields: list[str]) -> None:
        self.outcome().steps.append(fields)

    def cost(self, fields: list[str]) -> None:
        (self.outcome().cost,) = map(int, fields)

    def origin(self, fields: list[str]) -> None:
        place = int(fields[2]) if len(fields) > 2 else 1
        self.outcome().origins[fields[0]] = (int(fields[1]), place)

    def end_without_plan(self, word: str, fields: list[str]) -> None:
        self.report.outcome = Outcome(" ".join([word, *fields]))
        if self.report.outcome.kind not in WITHOUT_PLAN:
            raise ValueError

    def fault(self, fields: list[str]) -> None:
        if not FAULTS.fullmatch(" ".join(fields)):
            raise ValueError
        self.report.fault = fields

    def done(self, fields: list[str]) -> None:
        self.report.is_done = True


def _marks(word: str) -> Callable[[_Reader, list[str]], None]:
    return lambda reader, fields: reader.mark(word, fields)


TAKERS: dict[str, Callable[[_Reader, list[str]], None]] = {
    "pddlstream": _Reader.head, "limits": _Reader.limits, "pool": _Reader.pool,
    "ask": _Reader.ask, "got": _Reader.got, "value": _Reader.value, "end": _Reader.end,
    "dream": _Reader.dream, "use": _Reader.use, "step": _Reader.step,
    **{word: _marks(word) for word in ("level", "none", "reset", "pick", "retire")},
    "plan": _Reader.plan, "do": _Reader.do, "cost": _Reader.cost, "from": _Reader.origin,
    "no": lambda reader, fields: reader.end_without_plan("no", fields),
    "limit": lambda reader, fields: reader.end_without_plan("limit", fields),
    "fault": _Reader.fault, "done": _Reader.done,
}


def parse(lines: Iterable[str]) -> Report:
    """The report of these lines; a last line that isn't whole is left out."""
    reader = _Reader()
    for line in lines:
        if line.endswith("\n"):
            reader.take(line[:-1])
    if not reader.report.lines:
        raise ReportFault("there is no line of a report: the run hasn't begun, or couldn't write")
    return reader.report


def read_report(path: str | None) -> Report:
    """The report of a file, or of standard input where there is none or `-`."""
    if path is None or path == "-":
        return parse(sys.stdin)
    with open(path, encoding="utf-8", errors="replace", newline="\n") as file:
        return parse(file)
