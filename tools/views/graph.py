"""Which value led to which, as a graph for Graphviz, and what the plan's objects rest on."""
from __future__ import annotations

from common.reports import Ask, Got, Report


def first_givers(report: Report) -> dict[str, Ask]:
    """Each generated object with the first request that gave it."""
    found: dict[str, Ask] = {}
    for ask in report.asks.values():
        if isinstance(ask.answer, Got):
            for values in ask.answer.tuples:
                for value in values:
                    found.setdefault(f"#{value}", ask)
    return found


def led_to_plan(report: Report, givers: dict[str, Ask]) -> set[int]:
    """The numbers of the requests that gave the plan's objects, or objects that these came from."""
    if report.outcome is None:
        return set()
    found: set[int] = set()
    todo = list(report.outcome.origins)
    while todo:
        ask = givers.get(todo.pop())
        if ask is not None and ask.number not in found:
            found.add(ask.number)
            todo += [name for name in ask.inputs if name.startswith("#")]
    return found


def quoted(text: str) -> str:
    """A text as a name of Graphviz."""
    return '"' + text.replace("\\", "\\\\").replace('"', '\\"') + '"'


def graph(report: Report, is_whole: bool) -> str:
    """Edges from inputs to outputs: of what led to the plan, or of all where there is none or all is asked for."""
    kept = led_to_plan(report, first_givers(report))
    in_plan = set(report.outcome.origins) if report.outcome else set()
    lines = ["digraph values {", "  rankdir=LR;", "  node [shape=box, fontname=monospace];"]
    drawn: set[str] = set()
    for ask in report.asks.values():
        if not isinstance(ask.answer, Got) or (kept and not is_whole and ask.number not in kept):
            continue
        outputs = [f"#{value}" for values in ask.answer.tuples for value in values]
        if not outputs:
            continue
        for name in [*ask.inputs, *outputs]:
            if name not in drawn:
                drawn.add(name)
                lines.append(f"  {quoted(name)}{' [penwidth=3]' if name in in_plan else ''};")
        label = f" [label={quoted(f'{ask.stream} {ask.number}')}];"
        lines += [f"  {quoted(source)} -> {quoted(name)}{label}" for source in dict.fromkeys(ask.inputs)
                  for name in outputs]
    return "\n".join([*lines, "}"])
