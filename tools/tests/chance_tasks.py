"""Small tasks by chance, in the part of PDDL that is rewritten: forall, imply, either and when, one within another."""
from __future__ import annotations

from random import Random

PLACES = {"p": 1, "q": 2, "r": 0, "s": 1}
FACTS = ["(p a1)", "(p b1)", "(q a1 b1)", "(q c1 c1)", "(r)", "(p c1)", "(s a2)"]
SORTS = ["a", "b", "c", "object", "(either a b)"]


def atom(chance: Random, terms: list[str]) -> str:
    """An atom over some terms."""
    name = chance.choice(list(PLACES))
    return f"({' '.join([name, *(chance.choice(terms) for _ in range(PLACES[name]))])})"


def condition(chance: Random, terms: list[str], deep: int) -> str:
    """A condition of at most this depth."""
    kinds = ["atom", "atom", "not", "and", "or", "imply", "forall", "exists", "="]
    kind = chance.choice(kinds) if deep else "atom"
    if kind == "atom":
        return atom(chance, terms)
    if kind == "=":
        return f"(= {chance.choice(terms)} {chance.choice(terms)})"
    if kind in ("forall", "exists"):
        name = chance.choice(["?a", "?b", "?x"])
        return f"({kind} ({name} - {chance.choice(SORTS)}) {condition(chance, [*terms, name], deep - 1)})"
    count = {"not": 1, "imply": 2}.get(kind, chance.randint(0, 3))
    return f"({' '.join([kind, *(condition(chance, terms, deep - 1) for _ in range(count))])})"


def effect(chance: Random, terms: list[str], deep: int) -> str:
    """An effect of at most this depth."""
    kind = chance.choice(["atom", "atom", "and", "forall", "when"]) if deep else "atom"
    if kind == "and":
        return f"({' '.join(['and', *(effect(chance, terms, deep - 1) for _ in range(chance.randint(0, 2)))])})"
    if kind == "when":
        return f"(when {condition(chance, terms, 1)} {effect(chance, terms, deep - 1)})"
    if kind == "forall":
        name = chance.choice(["?a", "?x"])
        return f"(forall ({name} - {chance.choice(SORTS)}) {effect(chance, [*terms, name], deep - 1)})"
    return atom(chance, terms) if chance.random() < 0.5 else f"(not {atom(chance, terms)})"


def task(seed: int) -> tuple[str, str]:
    """A domain and a problem."""
    chance = Random(seed)
    actions = "\n".join(
        f"(:action act{number} :parameters (?x - {chance.choice(SORTS)}) :precondition {condition(chance, ['?x'], 2)} "
        f":effect {effect(chance, ['?x'], 3)})" for number in range(2))
    domain = f"(define (domain d) (:types a b - o c) (:predicates (p ?x) (q ?x ?y) (r) (s ?x))\n{actions})"
    problem = (f"(define (problem x) (:domain d) (:objects a1 a2 - a b1 - b c1 - c)\n"
               f"(:init {' '.join(chance.sample(FACTS, 3))}) (:goal {condition(chance, ['a1', 'b1', 'c1'], 2)}))")
    return domain, problem
