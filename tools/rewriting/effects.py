"""Effects without `forall` and `when`: an action becomes as many as its conditions have cases."""
from __future__ import annotations

import itertools
from dataclasses import dataclass, field
from typing import Callable

from common.tasks import typed
from common.texts import Group, Source, Tree, spelled
from common.trees import conjunction, negated, substituted, word
from .book import Book, NUMBER

MOST_CONDITIONS = 6
NUMERIC = ("assign", "decrease", "scale-up", "scale-down")


@dataclass
class Part:
    """A literal of an effect, or an `increase`, under a condition or none."""

    condition: Tree | None
    literal: Tree


@dataclass
class Objects:
    """The objects of each type, the types of which streams make more, and the objects that effects now name."""

    of: dict[str, list[str]]
    open: set[str]
    named: set[str] = field(default_factory=set)

    def of_any(self, sorts: list[str]) -> list[str]:
        """The objects of one of these types, each once."""
        return list(dict.fromkeys(name for sort in sorts for name in self.of.get(sort, [])))


class Effects:
    """Splits effects into parts and parts into cases."""

    def __init__(self, book: Book, objects: Objects, plain: Callable[[Source, Tree], Tree]):
        self.book, self.objects, self.plain = book, objects, plain

    def parts(self, source: Source, tree: Tree | None, condition: Tree | None = None) -> list[Part]:
        """The literals of an effect with their conditions."""
        if not isinstance(tree, Group) or not len(tree):
            return []
        if tree.head == "and":
            return [part for inner in tree[1:] for part in self.parts(source, inner, condition)]
        if tree.head == "forall" and len(tree) == 3:
            return self._forall(source, tree, condition)
        if tree.head == "when" and len(tree) == 3:
            self.book.note(source, tree.place, "when: an action for each case")
            own = self.plain(source, tree[1])
            both = own if condition is None else conjunction([condition, own])
            return self.parts(source, tree[2], both)
        if tree.head in NUMERIC or tree.head == "increase" and not self._is_cost(source, tree):
            self.book.refuse(source, tree.place, f"`{tree.head}` of a number",
                             "objects n0 n1 n2, static facts (next n0 n1), and an effect that goes from one to the next")
            return []
        return [Part(condition, tree)]

    def _is_cost(self, source: Source, tree: Group) -> bool:
        if len(tree) != 3 or spelled(tree[1]) not in ("(total-cost)", "total-cost"):
            return False
        amount = spelled(tree[2])
        if NUMBER.match(amount) and not amount.isdigit():
            self.book.refuse(source, tree.place, f"the cost {amount}", "whole numbers from 0 on, in a finer unit")
        elif isinstance(tree[2], Group) and tree[2].head in ("+", "-", "*", "/"):
            self.book.refuse(source, tree.place, "a sum or product as a cost",
                             "one `increase` for each, or a function of the result")
        return True

    def _forall(self, source: Source, tree: Group, condition: Tree | None) -> list[Part]:
        variables = sorts_of(source, tree[1].items if isinstance(tree[1], Group) else ())
        made = [sort for _, sorts in variables for sort in sorts if sort in self.objects.open]
        if made:
            self.book.refuse(source, tree.place, f"`forall` in an effect over {made[0]}",
                             "streams make objects of this type, so that they aren't known: keep one fact that says "
                             "which holds, and delete that")
            return []
        self.book.note(source, tree.place, "forall in an effect: one effect for each object of the problem")
        found: list[Part] = []
        for chosen in itertools.product(*(self.objects.of_any(sorts) for _, sorts in variables)):
            self.objects.named.update(chosen)
            values = {name: value for (name, _), value in zip(variables, chosen)}
            found += self.parts(source, substituted(tree[2], values), condition)
        return found


def sorts_of(source: Source, items: tuple[Tree, ...]) -> list[tuple[str, list[str]]]:
    """The variables of a typed list, each with its types; several where `either` stands."""
    plain = [word(spelled(item), item.place) for item in items]
    either = {spelled(item): [spelled(one) for one in item[1:]] for item in items if isinstance(item, Group)}
    return [(name, either.get(sort, [sort])) for name, sort in typed(source, tuple(plain))]


def simplified(parts: list[Part]) -> list[Part]:
    """`(when P (not P))` deletes P in any case, and `(when (not P) P)` adds it."""
    return [Part(None, part.literal) if part.condition is not None
            and spelled(negated(part.condition)) == spelled(part.literal)
            else part for part in parts]


def cases(parts: list[Part]) -> list[tuple[str, list[Tree], list[Tree]]]:
    """For each case the letters of its conditions (t or f), what holds in it, and its effects."""
    conditions = list(dict.fromkeys(spelled(part.condition) for part in parts if part.condition is not None))
    trees = {spelled(part.condition): part.condition for part in parts if part.condition is not None}
    found = []
    for letters in itertools.product("tf", repeat=len(conditions)):
        holds = dict(zip(conditions, letters))
        wanted = [trees[one] if holds[one] == "t" else negated(trees[one]) for one in conditions]
        effects = [part.literal for part in parts if part.condition is None or holds[spelled(part.condition)] == "t"]
        found.append(("".join(letters), wanted, effects))
    return found
