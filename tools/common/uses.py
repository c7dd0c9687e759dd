"""Where a task's conditions, effects and streams use its predicates, and under which sign."""
from __future__ import annotations

from dataclasses import dataclass, field
from typing import Callable

from .tasks import ROOT, Atom, Domain, Problem, Stream, Streams, atom_of, typed
from .texts import Group, Source, Tree

CONNECTIVES = ("and", "or", "not", "exists", "forall", "imply")


@dataclass
class Use:
    """An atom in a condition: where, under which variables' types, and whether under an odd number of `not`."""

    atom: Atom
    source: Source
    sorts: dict[str, str]
    is_negated: bool
    owner: str
    derived: str | None = None


@dataclass
class Uses:
    """All atoms of a task: in conditions, in effects, and the signs under which each predicate is wanted."""

    conditions: list[Use] = field(default_factory=list)
    effects: list[Use] = field(default_factory=list)
    signs: dict[str, set[bool]] = field(default_factory=dict)

    def wanted(self, name: str) -> set[bool]:
        """The signs under which an action or the goal wants a predicate: True is false wanted."""
        return self.signs.get(name, set())


def walk(source: Source, tree: Tree | None, sorts: dict[str, str], negated: bool,
         take: Callable[[Atom, dict[str, str], bool], None]) -> None:
    """Gives each atom of a condition with the types of its variables and its sign."""
    if not isinstance(tree, Group) or not len(tree) or tree.head == "=":
        return
    if tree.head in ("and", "or"):
        for part in tree[1:]:
            walk(source, part, sorts, negated, take)
    elif tree.head == "not":
        walk(source, tree[1], sorts, not negated, take)
    elif tree.head in ("exists", "forall"):
        inner = {**sorts, **dict(typed(source, tree[1].items))}
        walk(source, tree[2], inner, negated, take)
    elif tree.head == "imply":
        walk(source, tree[1], sorts, not negated, take)
        walk(source, tree[2], sorts, negated, take)
    else:
        take(atom_of(source, tree), sorts, negated)


def effect_atoms(source: Source, tree: Tree | None) -> list[Atom]:
    """The atoms that an effect adds or deletes."""
    if not isinstance(tree, Group) or not len(tree) or tree.head == "increase":
        return []
    if tree.head in ("and", "not"):
        return [atom for part in tree[1:] for atom in effect_atoms(source, part)]
    return [atom_of(source, tree)]


def uses_of(domain: Domain, problem: Problem) -> Uses:
    """All uses of a task's predicates."""
    found = Uses()

    def collect(source: Source, tree: Tree | None, sorts: dict[str, str], owner: str,
                derived: str | None = None) -> None:
        walk(source, tree, sorts, False, lambda atom, inner, negated: found.conditions.append(
            Use(atom, source, inner, negated, owner, derived)))

    for action in domain.actions:
        sorts = dict(action.parameters)
        collect(domain.source, action.condition, sorts, f"action {action.name}")
        for atom in effect_atoms(domain.source, action.effect):
            found.effects.append(Use(atom, domain.source, sorts, False, f"effect of {action.name}"))
    for item in domain.derived:
        collect(domain.source, item.condition, dict(item.parameters), f"derived {item.head.name}", item.head.name)
    collect(problem.source, problem.goal, {}, "goal")
    _find_signs(found)
    return found


def _find_signs(found: Uses) -> None:
    todo = [(use.atom.name, use.is_negated) for use in found.conditions if use.derived is None]
    while todo:
        name, sign = todo.pop()
        if sign in found.signs.setdefault(name, set()):
            continue
        found.signs[name].add(sign)
        todo += [(use.atom.name, use.is_negated != sign) for use in found.conditions if use.derived == name]


def feeds(domain: Domain, first: Stream, second: Stream) -> bool:
    """Whether what the first gives may be what the second wants: a domain fact, or an object of an input's type."""
    if {atom.name for atom in first.certified} & {atom.name for atom in second.domain}:
        return True
    given = {up for _, sort in first.outputs for up in domain.above(sort)} - {ROOT}
    return any(sort in given for _, sort in second.inputs)


def longest_chain(domain: Domain, streams: Streams) -> list[str]:
    """The names of the most streams of which each feeds the next."""
    known: dict[str, list[str]] = {}

    def chain(last: Stream) -> list[str]:
        if last.name not in known:
            known[last.name] = [last.name]      # (streams that feed themselves are refused)
            before = [chain(one) for one in streams.items if one is not last and feeds(domain, one, last)]
            known[last.name] = max(before, key=len, default=[]) + [last.name]
        return known[last.name]

    return max((chain(one) for one in streams.items), key=len, default=[])
