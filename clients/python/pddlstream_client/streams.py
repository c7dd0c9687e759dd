"""Streams from Python functions, by PDDLStream's names."""
from __future__ import annotations

import itertools
from dataclasses import dataclass
from typing import Any, Callable, Iterable, Iterator, Sequence

Outputs = Sequence[Any]
"""The values of one answer, a tuple or a list with one value for each output of the stream."""


@dataclass(frozen=True)
class Stream:
    """A stream's answers: `answers(*inputs)` gives its tuples one after the other; a None among them is passed over.

    `is_ready` says that all of them are there once the first is, so that one line may tell several.
    """

    answers: Callable[..., Iterator[Outputs | None]]
    is_ready: bool = False


@dataclass(frozen=True)
class CostStream:
    """A cost stream's answer: `cost(*inputs)` gives a whole number, or None where there is none."""

    cost: Callable[..., int | None]


def from_gen_fn(function: Callable[..., Iterable[Outputs | None]]) -> Stream:
    """A stream of a generator function: it yields one tuple of outputs after the other."""

    def answers(*inputs: Any) -> Iterator[Outputs | None]:
        tuples = function(*inputs)
        if tuples is None:
            raise TypeError("the function gave None: it yields its tuples, or returns what has them one after the other")
        return iter(tuples)

    return Stream(answers)


def from_list_fn(function: Callable[..., Iterable[Outputs | None] | None]) -> Stream:
    """A stream of a function that returns all its tuples at once, as a list; None is an empty one."""
    return Stream(lambda *inputs: iter(function(*inputs) or ()), is_ready=True)


def from_fn(function: Callable[..., Outputs | None]) -> Stream:
    """A stream of a function that returns one tuple of outputs, or None where there is none."""

    def answers(*inputs: Any) -> Iterator[Outputs | None]:
        yield function(*inputs)

    return Stream(answers)


def from_test(function: Callable[..., bool]) -> Stream:
    """A stream without outputs: it holds where the function says True."""
    return from_fn(lambda *inputs: () if function(*inputs) else None)


def from_sampler(function: Callable[..., Outputs | None], max_attempts: float = float("inf")) -> Stream:
    """A stream that calls the function again and again, without end or so many times."""

    def answers(*inputs: Any) -> Iterator[Outputs | None]:
        for attempt in itertools.count():
            if attempt >= max_attempts:
                return
            yield function(*inputs)

    return Stream(answers)


def from_cost_fn(function: Callable[..., int | None]) -> CostStream:
    """A cost stream: the function returns a whole number from 0 to 1,000,000, or None where there is no cost.

    Where there is none, no step that has this cost can be taken.
    """
    return CostStream(function)
