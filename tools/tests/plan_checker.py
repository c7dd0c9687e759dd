"""A small plan checker of the tests' own: PDDL with forall, imply, when, either and negative facts, read as it stands.

It shares nothing with the tools but the reader of parentheses.
"""
from __future__ import annotations

import itertools
from dataclasses import dataclass, field
from typing import Callable, Iterator

from common.texts import Group, Source, Word, read_tree, spelled

Atom = tuple[str, ...]


def pairs(items) -> list[tuple[str, list[str]]]:
    """The names of a typed list, each with its types; more than one where `either` stands."""
    found, waiting, at = [], [], 0
    items = list(items)
    while at < len(items):
        if isinstance(items[at], Word) and items[at].text == "-":
            sort = items[at + 1]
            sorts = [sort.text] if isinstance(sort, Word) else [one.text for one in sort[1:]]
            found += [(name, sorts) for name in waiting]
            waiting, at = [], at + 2
        else:
            waiting.append(spelled(items[at]))
            at += 1
    return found + [(name, ["object"]) for name in waiting]


@dataclass
class World:
    """A task: types, objects, actions, derived predicates, the initial state, the goal, and outside predicates."""

    above: dict[str, set[str]] = field(default_factory=dict)
    objects: dict[str, set[str]] = field(default_factory=dict)
    actions: dict[str, tuple] = field(default_factory=dict)
    derived: dict[str, list] = field(default_factory=dict)
    start: frozenset[Atom] = frozenset()
    values: dict[Atom, int] = field(default_factory=dict)
    goal: Group | None = None
    has_metric: bool = False
    outside: dict[str, Callable[..., bool]] = field(default_factory=dict)

    def up(self, sort: str) -> set[str]:
        """A type with all above it."""
        return {sort, "object"}.union(*(self.up(one) for one in self.above.get(sort, ()) if one != sort))

    def of(self, sorts: list[str]) -> list[str]:
        """The objects of one of these types."""
        return [name for name, own in self.objects.items() if any(sort in self.up(one) for one in own
                                                                  for sort in sorts)]

    def tuples(self, variables) -> Iterator[dict[str, str]]:
        """All values of typed variables."""
        listed = pairs(variables)
        for chosen in itertools.product(*(self.of(sorts) for _, sorts in listed)):
            yield dict(zip((name for name, _ in listed), chosen))

    def holds(self, tree, state: frozenset[Atom], env: dict[str, str]) -> bool:
        """Whether a condition is true."""
        if not len(tree):
            return True
        head = tree.head
        if head == "and":
            return all(self.holds(part, state, env) for part in tree[1:])
        if head == "or":
            return any(self.holds(part, state, env) for part in tree[1:])
        if head == "not":
            return not self.holds(tree[1], state, env)
        if head == "imply":
            return not self.holds(tree[1], state, env) or self.holds(tree[2], state, env)
        if head == "forall":
            return all(self.holds(tree[2], state, {**env, **more}) for more in self.tuples(tree[1]))
        if head == "exists":
            return any(self.holds(tree[2], state, {**env, **more}) for more in self.tuples(tree[1]))
        atom = self.atom(tree, env)
        if head == "=":
            return atom[1] == atom[2]
        return self.is_true(atom, state)

    def is_true(self, atom: Atom, state: frozenset[Atom]) -> bool:
        """Whether an atom is true: in the state, by a `:derived` item, or outside."""
        if atom[0] in self.outside:
            return self.outside[atom[0]](*atom[1:])
        for head, body in self.derived.get(atom[0], []):
            listed = pairs(head[1:])
            fits = all(value in self.of(sorts) for (_, sorts), value in zip(listed, atom[1:]))
            if fits and self.holds(body, state, dict(zip((name for name, _ in listed), atom[1:]))):
                return True
        return atom in state

    @staticmethod
    def atom(tree, env: dict[str, str]) -> Atom:
        """An atom with values in the place of variables."""
        return tuple(env.get(spelled(item), spelled(item)) for item in tree)

    def effects(self, tree, state, env) -> Iterator[tuple[str, object]]:
        """Pairs of `add`, `delete` or `cost` with what is meant."""
        if not len(tree):
            return
        if tree.head == "and":
            for part in tree[1:]:
                yield from self.effects(part, state, env)
        elif tree.head == "forall":
            for more in self.tuples(tree[1]):
                yield from self.effects(tree[2], state, {**env, **more})
        elif tree.head == "when":
            if self.holds(tree[1], state, env):
                yield from self.effects(tree[2], state, env)
        elif tree.head == "increase":
            yield "cost", int(tree[2].text) if isinstance(tree[2], Word) else self.values[self.atom(tree[2], env)]
        elif tree.head == "not":
            yield "delete", self.atom(tree[1], env)
        else:
            yield "add", self.atom(tree, env)

    def after(self, state: frozenset[Atom], step: Atom) -> tuple[frozenset[Atom], int] | None:
        """The state behind a step and its cost, or nothing where it can't be taken."""
        if step[0] not in self.actions:
            return None
        parameters, condition, effect = self.actions[step[0]]
        listed = pairs(parameters)
        if len(listed) != len(step) - 1 or not all(value in self.of(sorts) for (_, sorts),
                                                   value in zip(listed, step[1:])):
            return None
        env = dict(zip((name for name, _ in listed), step[1:]))
        if not self.holds(condition, state, env):
            return None
        made = list(self.effects(effect, state, env))
        deleted = {what for kind, what in made if kind == "delete"}
        added = {what for kind, what in made if kind == "add"}
        cost = sum(what for kind, what in made if kind == "cost") if self.has_metric else 1
        return frozenset(state - deleted | added), cost

    def steps(self) -> list[Atom]:
        """All steps that might be taken."""
        return [(name, *chosen) for name, (parameters, _, _) in self.actions.items()
                for chosen in itertools.product(*(self.of(sorts) for _, sorts in pairs(parameters)))]

    def cost_of(self, plan: list[Atom]) -> int | None:
        """What a plan costs, or nothing where it isn't valid."""
        state, total = self.start, 0
        for step in plan:
            made = self.after(state, step)
            if made is None:
                return None
            state, total = made[0], total + made[1]
        return total if self.holds(self.goal, state, {}) else None

    def plans(self, most: int) -> list[list[Atom]]:
        """All plans of at most so many steps that end where the goal is first true."""
        found, front = [], [([], self.start)]
        steps = self.steps()
        for _ in range(most + 1):
            following = []
            for plan, state in front:
                if self.holds(self.goal, state, {}):
                    found.append(plan)
                    continue
                following += [([*plan, step], made[0]) for step in steps
                              if (made := self.after(state, step)) is not None]
            front = following
        return found


def world(domain: str, problem: str, outside: dict[str, Callable[..., bool]] | None = None,
          facts: list[Atom] = ()) -> World:
    """The task of two texts, with further facts."""
    made = World(outside=outside or {})
    for item in read_tree(Source("domain", domain))[2:]:
        _take(made, item)
    atoms: set[Atom] = set(facts)
    for item in read_tree(Source("problem", problem))[2:]:
        if item.head == ":init":
            for fact in item[1:]:
                if fact.head == "=":
                    made.values[World.atom(fact[1], {})] = int(spelled(fact[2]).split(".")[0])
                elif fact.head != "not":
                    atoms.add(World.atom(fact, {}))
        elif item.head == ":goal":
            made.goal = item[1]
        elif item.head == ":metric":
            made.has_metric = True
        else:
            _take(made, item)
    made.start = frozenset(atoms)
    return made


def _take(made: World, item: Group) -> None:
    if item.head == ":types":
        for name, sorts in pairs(item[1:]):
            made.above.setdefault(name, set()).update(sorts)
    elif item.head in (":constants", ":objects"):
        for name, sorts in pairs(item[1:]):
            made.objects.setdefault(name, set()).update(sorts)
    elif item.head == ":action":
        keys = {spelled(key): value for key, value in zip(item[2::2], item[3::2])}
        empty = Group((), 0)
        parts = tuple(keys.get(key, empty) for key in (":parameters", ":precondition", ":effect"))
        made.actions[spelled(item[1])] = parts
    elif item.head == ":derived":
        made.derived.setdefault(item[1].head, []).append((item[1], item[2]))
