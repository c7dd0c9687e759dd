"""What `solve` returns."""
from __future__ import annotations

import reprlib
from typing import Any, Mapping, NamedTuple

_LONGEST = 40


class Action(NamedTuple):
    """A step of a plan: an action's name in lower case, and its values."""

    name: str
    args: tuple[Any, ...]


class Certificate(NamedTuple):
    """What a plan may rest on.

    all_facts: the facts of `init`, and behind them what the printed answers certify, in the order of the answers. A
        cost is `("=", (function, value, ..), number)`.
    objects: the values of the report's objects, by their names there.
    """

    all_facts: tuple[tuple[Any, ...], ...]
    objects: Mapping[str, Any]


class _Answer(NamedTuple):
    plan: list[Action] | None
    cost: float
    certificate: Certificate


class Solution(_Answer):
    """A plan, its cost and its certificate, as `plan, cost, certificate = solution`.

    Where there is no plan, `plan` is None and `cost` infinite. Beside these three, `outcome` is `plan`, `no plan`,
    `limit calls`, `limit states`, `limit instances`, or `time` where `max_time` was up, and `report` is all that was
    printed.
    """

    outcome: str
    report: str

    def __new__(
        cls, plan: list[Action] | None, cost: float, certificate: Certificate, outcome: str, report: str
    ) -> Solution:
        solution = super().__new__(cls, plan, cost, certificate)
        solution.outcome = outcome
        solution.report = report
        return solution


def print_solution(solution: Solution) -> None:
    """Prints the outcome, the cost and the steps, a line each; long values are cut short."""
    print(f"{solution.outcome}, cost {solution.cost}")
    for number, action in enumerate(solution.plan or [], 1):
        print(f"{number:3}. {action.name}", *map(_short, action.args))


def _short(value: Any) -> str:
    text = reprlib.repr(value)
    return text if len(text) <= _LONGEST else f"{text[:_LONGEST - 3]}..."
