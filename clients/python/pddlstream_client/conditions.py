"""Conditions as nested tuples, by PDDLStream's names.

An atom is a tuple `(predicate, value, ..)`. A text that begins with `?` is a variable.
"""
from __future__ import annotations

from typing import Any, Iterable

AND, OR, NOT, EXISTS, EQ = "and", "or", "not", "exists", "="
FORALL, IMPLY = "forall", "imply"
TOTAL_COST = "total-cost"
"""The function to which `increase` adds."""

Condition = tuple[Any, ...]
"""A condition, or an atom."""


def And(*conditions: Condition) -> Condition:
    """All of the conditions hold."""
    return conditions[0] if len(conditions) == 1 else (AND, *conditions)


def Or(*conditions: Condition) -> Condition:
    """One of the conditions holds."""
    return conditions[0] if len(conditions) == 1 else (OR, *conditions)


def Not(condition: Condition) -> Condition:
    """The condition doesn't hold. What no answer has certified counts as false."""
    return (NOT, condition)


def Exists(variables: Iterable[str], condition: Condition) -> Condition:
    """The condition holds of some objects in the place of the variables."""
    return (EXISTS, tuple(variables), condition)


def ForAll(variables: Iterable[str], condition: Condition) -> Condition:
    """The condition holds of all objects: there are none of which it doesn't."""
    return Not(Exists(variables, Not(condition)))


def Imply(premise: Condition, conclusion: Condition) -> Condition:
    """Where the premise holds, the conclusion does."""
    return Or(Not(premise), conclusion)


def Equal(first: Any, second: Any) -> Condition:
    """In a goal: the two are one object. In `init`: the function term `first`, a tuple, has the number `second`."""
    return (EQ, first, second)
