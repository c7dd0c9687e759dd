"""A client of the planner `pddlstream`, for whoever writes its streams in Python.

`solve(PDDLProblem(..))` plans in this process. `serve({..})` makes a program that the planner starts as a generator.

    from pddlstream_client import PDDLProblem, from_fn, from_gen_fn, from_test, solve
    from pddlstream_client import serve     # takes standard input and output: only in a generator, before libraries
"""
from __future__ import annotations

from typing import TYPE_CHECKING, Any

from .chance import chance
from .conditions import TOTAL_COST, And, Equal, Exists, ForAll, Imply, Not, Or
from .errors import ProgramNotFoundError, SamplerError, SolveError, TextError, UnsupportedError
from .solution import Action, Certificate, Solution, print_solution
from .solving import solve
from .streams import from_cost_fn, from_fn, from_gen_fn, from_list_fn, from_sampler, from_test
from .task import PDDLProblem

if TYPE_CHECKING:
    from .generator import serve

__all__ = [
    "Action",
    "And",
    "Certificate",
    "Equal",
    "Exists",
    "ForAll",
    "Imply",
    "Not",
    "Or",
    "PDDLProblem",
    "ProgramNotFoundError",
    "SamplerError",
    "Solution",
    "SolveError",
    "TOTAL_COST",
    "TextError",
    "UnsupportedError",
    "chance",
    "from_cost_fn",
    "from_fn",
    "from_gen_fn",
    "from_list_fn",
    "from_sampler",
    "from_test",
    "print_solution",
    "solve",
]


def __getattr__(name: str) -> Any:
    """`serve` is imported where it is asked for, since that takes standard input and output."""
    if name == "serve":
        from .generator import serve

        return serve
    raise AttributeError(f"module {__name__!r} has no attribute {name!r}")
