"""What PDDLStream takes and the planner doesn't: each by its name, with what to write in its place."""
from __future__ import annotations

import math
from typing import Any, Mapping

from .errors import UnsupportedError
from .pddl import Group, Word, all_groups, shown, where

DOMAIN_LISTS: dict[str, str] = {
    "forall": "in a condition write (not (exists (V) (not C))); an effect on all objects is an action for each",
    "imply": "for (imply A B) write (or (not A) B)",
    "when": "write two actions, one with the condition in its precondition and one with its negation",
    "either": "write a type that is above both, in :types",
    ":durative-action": "write an :action, with its duration as its cost",
    ":axiom": "write (:derived (P ?x) CONDITION)",
    "assign": "make a number that changes a chain of objects with a static relation of successors",
    "decrease": "make a number that changes a chain of objects with a static relation of successors",
}
"""Lists of a domain, by their first word."""

STREAM_ITEMS: dict[str, str] = {
    ":predicate": "write a test of the safe case with from_test, as (:stream clear :inputs (?a ?b) :domain D "
    ":certified (clear ?a ?b)), and want (clear ?a ?b) where you want (not (collides ?a ?b))",
    ":optimizer": "write a stream for each variable, and tests for its constraints",
    ":rule": "write it as a :stream without outputs, with from_test(lambda *inputs: True)",
    ":wild-stream": "write a :stream whose :certified names all that an answer makes known",
}
"""Items of a stream file, by their first word."""

STREAM_KEYS: dict[str, str] = {
    ":fluents": "a stream sees no state: make what it needs an input, and certify the answer for that input",
    ":negate": "certify the safe case, as (clear ?a ?b), and turn the test round in Python",
    ":effort": "leave it out",
    ":overhead": "leave it out",
}
"""Keys of an item of a stream file."""

_INFINITY = math.inf
ARGUMENTS: dict[str, tuple[tuple[Any, ...], str]] = {
    "constraints": ((None,), "write what a plan must be into the domain and the goal"),
    "stream_info": ((None, {}), "leave it out: streams have no weights, no bounds and no `negate` here"),
    "replan_actions": ((None, set(), frozenset(), ()), "cut the problem in two, and solve the second part later"),
    "success_cost": ((_INFINITY, None), "leave it out: the first plan is given, and no mode finds the cheapest"),
    "max_cost": ((_INFINITY, None), "leave it out: the first plan is given, and no mode finds the cheapest"),
    "max_iterations": ((_INFINITY, None), "write calls=N: the most requests"),
    "max_complexity": ((_INFINITY, None), "write depth=N: how often what is supposed may feed what is supposed next"),
    "initial_complexity": ((0, None), "leave it out; depth=N is how deep answers are supposed, from the start"),
    "complexity_step": ((1, None), "leave it out"),
    "max_skeletons": ((_INFINITY, None), "leave it out: adaptive mode keeps as many skeletons as it dreams"),
    "max_failures": ((None, 0), "leave it out"),
    "search_sample_ratio": ((None,), "leave it out: calls=N and states=N bound requests and searches"),
    "max_memory": ((_INFINITY, None), "set a limit around the whole process, as by `ulimit -v`"),
    "max_planner_time": ((_INFINITY, None), "write states=N: the most states of a search"),
    "planner": ((None,), "leave it out: there is one search"),
    "unit_efforts": ((False, None), "leave it out: streams have no efforts"),
    "max_effort": ((_INFINITY, None), "leave it out: streams have no efforts"),
    "effort_weight": ((None,), "leave it out: streams have no efforts"),
    "reorder": ((None, False, True), "leave it out"),
    "bind": ((None, False, True), 'write algorithm="binding" or algorithm="focused"'),
    "visualize": ((False, None), "leave it out: the report says what happened"),
    "debug": ((False, None), "write verbose=True, or keep=FOLDER"),
}
"""Arguments of PDDLStream's `solve`: the values that ask for nothing, and what to write in place of others."""


def refuse_arguments(given: Mapping[str, Any]) -> None:
    """UnsupportedError for an argument of PDDLStream's that asks for something; TypeError for one that nobody has."""
    for name, value in given.items():
        if name not in ARGUMENTS:
            raise TypeError(f"solve() has no argument {name!r}")
        neutral, advice = ARGUMENTS[name]
        if not any(type(value) is type(it) and value == it for it in neutral):
            raise UnsupportedError(f"solve({name}={value!r:.40}): {advice}")


def domain_refusals(tree: Group, text: str) -> list[str]:
    """Each list of the domain that the planner doesn't take."""
    found = [(group.head, group.items[0].place) for group in all_groups(tree) if group.head in DOMAIN_LISTS]
    return [_refused("domain", text, place, head, DOMAIN_LISTS[head]) for head, place in found]


def stream_refusals(tree: Group, text: str) -> list[str]:
    """Each item and each key of the stream file that the planner doesn't take."""
    found = []
    for item in tree.groups():
        if item.head in STREAM_ITEMS:
            found.append(_refused("streams", text, item.items[0].place, item.head, STREAM_ITEMS[item.head]))
            continue
        keys = [word for word in item.items[1:] if isinstance(word, Word) and word.low in STREAM_KEYS]
        found += [_refused("streams", text, word.place, word.low, STREAM_KEYS[word.low]) for word in keys]
    return found


def _refused(name: str, text: str, place: int, what: str, advice: str) -> str:
    return f"{where(text, name, place)}: `{what}` isn't there; {advice}\n{shown(text, place)}"
