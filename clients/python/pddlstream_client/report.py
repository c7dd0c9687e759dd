"""Reads a report, also one that breaks off."""
from __future__ import annotations

from dataclasses import dataclass, field


@dataclass
class Asked:
    """A request of a report and its answer: `got` with tuples, `value` with a number, `end`, or none yet (empty)."""

    stream: str
    inputs: tuple[str, ...]
    answer: str = ""
    tuples: tuple[tuple[str, ...], ...] = ()
    value: int = 0


@dataclass
class Report:
    """What a report says: its requests in order, and its outcome."""

    asked: list[Asked] = field(default_factory=list)
    steps: list[tuple[str, ...]] | None = None
    cost: int = 0
    outcome: str = ""
    """`plan`, `no plan`, `limit calls`, `limit states` or `limit instances`; empty where there is none."""


def read_report(text: str) -> Report:
    """Reads the whole lines of a report."""
    report = Report()
    for line in text.split("\n")[:-1]:
        _take(report, line.split(" "))
    return report


def _take(report: Report, fields: list[str]) -> None:
    match fields:
        case ["ask", _, _, stream, *inputs]:
            report.asked.append(Asked(stream, tuple(inputs)))
        case ["got", number, *values]:
            asked = report.asked[int(number) - 1]
            asked.answer, asked.tuples = "got", _tuples(values)
        case ["value", number, value]:
            asked = report.asked[int(number) - 1]
            asked.answer, asked.value = "value", int(value)
        case ["end", number]:
            report.asked[int(number) - 1].answer = "end"
        case ["plan", _]:
            report.outcome, report.steps = "plan", []
        case ["do", *step] if report.steps is not None:
            report.steps.append(tuple(step))
        case ["cost", number]:
            report.cost = int(number)
        case ["no", "plan"] | ["limit", _]:
            report.outcome = " ".join(fields)


def _tuples(values: list[str]) -> tuple[tuple[str, ...], ...]:
    """The tuples of a `got` line, of which version 1 has one."""
    tuples: list[list[str]] = [[]]
    for value in values:
        if value == "|":
            tuples.append([])
        else:
            tuples[-1].append(value)
    return tuple(map(tuple, tuples))
