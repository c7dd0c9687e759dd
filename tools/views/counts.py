"""Counts of a report: what was asked of each stream, what came, and which turns were made."""
from __future__ import annotations

from collections import Counter
from dataclasses import dataclass, field

from common.reports import Dream, End, Got, Mark, Report, Value

TURNS = ("level", "dream", "none", "reset", "pick", "retire")


@dataclass
class StreamCount:
    """How often a stream was asked, and how often each kind of answer came."""

    asked: int = 0
    yielded: int = 0
    tuples: int = 0
    ended: int = 0
    valued: int = 0
    unanswered: int = 0


@dataclass
class Counts:
    """The counts of each stream in the order of the pools, and of each kind of turn."""

    streams: dict[str, StreamCount] = field(default_factory=dict)
    turns: Counter = field(default_factory=Counter)


def count(report: Report) -> Counts:
    """Counts a report."""
    found = Counts({name: StreamCount() for pool in report.pools for name in pool.streams})
    for ask in report.asks.values():
        one = found.streams.setdefault(ask.stream, StreamCount())
        one.asked += 1
        one.unanswered += ask.answer is None
        one.yielded += isinstance(ask.answer, Got)
        one.ended += isinstance(ask.answer, End)
        one.valued += isinstance(ask.answer, Value)
        one.tuples += len(ask.answer.tuples) if isinstance(ask.answer, Got) else 0
    for entry in report.entries:
        if isinstance(entry, Dream):
            found.turns["dream"] += 1
        elif isinstance(entry, Mark):
            found.turns[entry.word] += 1
    return found


def ending(report: Report) -> str:
    """How the report ends, in a few words."""
    if report.fault is not None:
        return " ".join(["fault", *report.fault])
    if report.outcome is None:
        waiting = len(report.open_asks())
        return f"no end yet, {counted(waiting, 'request')} open" if waiting else "no end yet, no request open"
    if not report.is_done:
        return f"cut off behind `{report.outcome.kind}`"
    if report.outcome.kind != "plan":
        return report.outcome.kind
    return f"plan of {counted(len(report.outcome.steps), 'step')}, cost {report.outcome.cost}"


def counted(count: int, word: str) -> str:
    """A number with what it counts."""
    return f"{count} {word}{'' if count == 1 else 's'}"


def summary(report: Report) -> str:
    """The counts as text."""
    counts = count(report)
    width = max([len(name) for name in counts.streams] + [6])
    calls, states, depth = report.limits
    lines = [f"{report.mode} mode, version {report.version}, limits: {calls} calls, {states} states, depth {depth}",
             f"{'stream':{width}}   asked  yields    ends  values    open"]
    for name, one in counts.streams.items():
        numbers = (one.asked, one.yielded, one.ended, one.valued, one.unanswered)
        lines.append(f"{name:{width}}" + "".join(f"{number:8}" for number in numbers))
    total = len(report.asks)
    turns = ", ".join(f"{counts.turns[word]} {word}" for word in TURNS if counts.turns[word])
    lines.append(f"{counted(total, 'request')}{', ' if turns else ''}{turns}")
    lines.append(ending(report))
    return "\n".join(lines)
