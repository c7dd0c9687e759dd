"""What the items of a stream file say, and how the streams feed one another."""
from __future__ import annotations

from dataclasses import dataclass
from typing import Iterable, Mapping

from .pddl import Group, atoms_of, keys_of, spelled, typed

LEAST_DEPTH, MOST_DEPTH = 3, 8
"""The planner's own depth, and its greatest."""


@dataclass(frozen=True)
class StreamForm:
    """What a stream's item says. `value` is the term that a cost stream gives a number, None of another stream."""

    name: str
    inputs: tuple[str, ...]
    input_types: tuple[str, ...]
    outputs: tuple[str, ...]
    output_types: tuple[str, ...]
    domain: tuple[Group, ...]
    certified: tuple[Group, ...]
    value: Group | None

    @classmethod
    def of_item(cls, item: Group) -> StreamForm:
        """Reads `(:stream NAME ..)` or `(:cost-stream NAME ..)`."""
        keys = keys_of(item)
        value = keys.get(":value") if item.head == ":cost-stream" else None
        inputs, outputs = typed(keys.get(":inputs")), typed(keys.get(":outputs"))
        return cls(
            spelled(item.items[1]).lower() if len(item.items) > 1 else "",
            tuple(name for name, _ in inputs),
            tuple(sort for _, sort in inputs),
            tuple(name for name, _ in outputs),
            tuple(sort for _, sort in outputs),
            tuple(atoms_of(keys.get(":domain"))),
            tuple(atoms_of(keys.get(":certified"))),
            value if isinstance(value, Group) else None,
        )

    def feeds(self, other: StreamForm, above: Mapping[str, set[str]]) -> bool:
        """Whether an answer of this stream may give the other one something to be asked about: a fact or an object."""
        if {atom.head for atom in self.certified} & {atom.head for atom in other.domain}:
            return True
        held = {word for atom in other.domain for word, _ in typed(atom, 1)}
        wanted = {sort for name, sort in zip(other.inputs, other.input_types) if sort != "object" or name not in held}
        return any(wanted & ({sort, "object"} | above.get(sort, set())) for sort in self.output_types)


def types_above(domain: Group) -> dict[str, set[str]]:
    """For each type of a domain those above it, itself among them."""
    direct: dict[str, set[str]] = {}
    for group in domain.groups():
        if group.head == ":types":
            for name, sort in typed(group, 1):
                direct.setdefault(name, {name}).add(sort)
    changed = True
    while changed:
        grown = {name: sorts.union(*(direct.get(sort, set()) for sort in sorts)) for name, sorts in direct.items()}
        changed, direct = grown != direct, grown
    return direct


def depth_of(forms: Iterable[StreamForm], domain: Group) -> int:
    """How many streams the longest chain has, each feeding the next; 3 at least and 8 at most."""
    all_forms, above = list(forms), types_above(domain)
    lengths: dict[str, int] = {}

    def length(form: StreamForm) -> int:
        if form.name not in lengths:
            lengths[form.name] = 1
            before = [length(other) for other in all_forms if other.name != form.name and other.feeds(form, above)]
            lengths[form.name] = 1 + max(before, default=0)
        return lengths[form.name]

    return min(MOST_DEPTH, max([LEAST_DEPTH, *map(length, all_forms)]))
