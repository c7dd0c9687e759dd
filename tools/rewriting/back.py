"""Plans of a rewritten task with the names of the old one."""
from __future__ import annotations

from common.reports import Outcome


def old_names(table: list[str]) -> tuple[dict[str, str], dict[str, str]]:
    """The old actions and the old names of a table."""
    actions: dict[str, str] = {}
    names: dict[str, str] = {}
    for row in table:
        kind, *words = row.split(" ")
        if kind == "action":
            actions[words[0]] = words[1]
        elif kind == "name":
            names.setdefault(words[0], " ".join(words[1:]))
    return actions, names


def old_plan(plan: Outcome, table: list[str]) -> list[str]:
    """The steps of a plan in the old names."""
    actions, names = old_names(table)
    steps = ([actions.get(step[0], step[0]), *step[1:]] for step in plan.steps)
    return [f"({' '.join(names.get(name, name) for name in step)})" for step in steps]
