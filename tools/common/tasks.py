"""Domains, problems and stream files as data, for texts that the program accepts: one that it refuses may pass."""
from __future__ import annotations

from dataclasses import dataclass, field

from .texts import Group, Source, TextFault, Tree, Word, read_source, read_tree

ROOT = "object"


@dataclass(frozen=True)
class Atom:
    """A predicate or a function with its terms, and where it stands."""

    name: str
    terms: tuple[str, ...]
    place: int

    def __str__(self) -> str:
        return f"({' '.join((self.name, *self.terms))})"


@dataclass
class Action:
    """An action; its condition and its effect are kept as trees."""

    name: str
    parameters: list[tuple[str, str]]
    condition: Tree | None
    effect: Tree | None
    place: int


@dataclass
class Derived:
    """One `:derived` item."""

    head: Atom
    parameters: list[tuple[str, str]]
    condition: Tree
    place: int


@dataclass
class Domain:
    """What a domain declares; `types` has the types above each listed one."""

    source: Source
    name: str = ""
    types: dict[str, list[str]] = field(default_factory=dict)
    constants: list[tuple[str, str]] = field(default_factory=list)
    predicates: dict[str, list[tuple[str, str]]] = field(default_factory=dict)
    functions: dict[str, list[tuple[str, str]]] = field(default_factory=dict)
    actions: list[Action] = field(default_factory=list)
    derived: list[Derived] = field(default_factory=list)
    places: dict[str, int] = field(default_factory=dict)

    def above(self, sort: str) -> set[str]:
        """A type with all above it."""
        found, open_sorts = {ROOT}, [sort]
        while open_sorts:
            one = open_sorts.pop()
            if one not in found or one == sort:
                found.add(one)
                open_sorts += [up for up in self.types.get(one, []) if up not in found]
        return found

    def all_types(self) -> list[str]:
        """Each type once, `object` left out."""
        named = [up for ups in self.types.values() for up in ups]
        return [sort for sort in dict.fromkeys([*self.types, *named]) if sort != ROOT]


@dataclass
class Problem:
    """What a problem declares."""

    source: Source
    name: str = ""
    objects: list[tuple[str, str]] = field(default_factory=list)
    facts: list[Atom] = field(default_factory=list)
    values: list[tuple[Atom, int]] = field(default_factory=list)
    goal: Tree | None = None
    has_metric: bool = False


@dataclass
class Stream:
    """A stream, a test or a cost stream."""

    name: str
    is_cost: bool
    inputs: list[tuple[str, str]]
    outputs: list[tuple[str, str]]
    domain: list[Atom]
    certified: list[Atom]
    value: Atom | None
    place: int

    @property
    def is_test(self) -> bool:
        """Whether it has no outputs and answers yes or no."""
        return not self.is_cost and not self.outputs


@dataclass
class Streams:
    """The streams of a stream file, in its order."""

    source: Source
    items: list[Stream]

    def named(self, name: str) -> Stream | None:
        """The stream of that name."""
        return next((one for one in self.items if one.name == name), None)


def typed(source: Source, trees: tuple[Tree, ...]) -> list[tuple[str, str]]:
    """The names of a typed list with their types."""
    found: list[tuple[str, str]] = []
    waiting: list[str] = []
    words = [word_of(source, tree) for tree in trees]
    at = 0
    while at < len(words):
        if words[at] == "-" and at + 1 < len(words):
            found += [(name, words[at + 1]) for name in waiting]
            waiting, at = [], at + 1
        else:
            waiting.append(words[at])
        at += 1
    return found + [(name, ROOT) for name in waiting]


def word_of(source: Source, tree: Tree) -> str:
    """A word's text."""
    if isinstance(tree, Group):
        raise TextFault(source, tree.place, "a word is due")
    return tree.text


def group_of(source: Source, tree: Tree) -> Group:
    """A tree that has to be a list."""
    if isinstance(tree, Word):
        raise TextFault(source, tree.place, "a list is due")
    return tree


def atom_of(source: Source, tree: Tree) -> Atom:
    """A list of words as an atom."""
    group = group_of(source, tree)
    if not group.head:
        raise TextFault(source, group.place, "an atom is due")
    return Atom(group.head, tuple(word_of(source, term) for term in group[1:]), group.place)


def atoms_of(source: Source, tree: Tree | None) -> list[Atom]:
    """The atoms of a stream's `:domain` or `:certified`."""
    whole = group_of(source, tree) if tree is not None else Group((), 0)
    if not len(whole):
        return []
    if whole.head == "and":
        return [atom for part in whole[1:] for atom in atoms_of(source, part)]
    return [atom_of(source, whole)]


def keys_of(source: Source, trees: tuple[Tree, ...]) -> dict[str, Tree]:
    """Keys with what follows each."""
    found: dict[str, Tree] = {}
    for key, tree in zip(trees[::2], trees[1::2]):
        found.setdefault(word_of(source, key), tree)
    return found


def items_of(source: Source, kind: str) -> tuple[str, list[Group]]:
    """The name of a text that begins `(define (KIND NAME)`, and its items."""
    top = read_tree(source)
    if top.head != "define" or len(top) < 2 or not isinstance(top[1], Group) or top[1].head != kind:
        raise TextFault(source, top.place, f"(define ({kind} NAME) .. is due")
    name = word_of(source, top[1][1]) if len(top[1]) > 1 else ""
    return name, [group_of(source, item) for item in top[2:]]


def read_domain(path: str) -> Domain:
    """The domain of a file."""
    source = read_source(path)
    name, items = items_of(source, "domain")
    domain = Domain(source, name)
    for item in items:
        _take_item(domain, item)
    return domain


def _take_item(domain: Domain, item: Group) -> None:
    source = domain.source
    if item.head == ":types":
        for name, above in typed(source, item[1:]):
            domain.types.setdefault(name, []).append(above)
    elif item.head == ":constants":
        domain.constants += typed(source, item[1:])
    elif item.head == ":predicates":
        for signature in item[1:]:
            group = group_of(source, signature)
            domain.predicates[group.head] = typed(source, group[1:])
            domain.places[group.head] = group.place
    elif item.head == ":functions":
        for signature in item[1:]:
            if isinstance(signature, Group):
                domain.functions[signature.head] = typed(source, signature[1:])
    elif item.head == ":action":
        domain.actions.append(_action(source, item))
    elif item.head == ":derived" and len(item) == 3:
        head = group_of(source, item[1])
        parameters = typed(source, head[1:])
        atom = Atom(head.head, tuple(name for name, _ in parameters), head.place)
        domain.derived.append(Derived(atom, parameters, item[2], item.place))


def _action(source: Source, item: Group) -> Action:
    keys = keys_of(source, item[2:])
    parameters = typed(source, group_of(source, keys[":parameters"]).items) if ":parameters" in keys else []
    name = word_of(source, item[1]) if len(item) > 1 else ""
    return Action(name, parameters, keys.get(":precondition"), keys.get(":effect"), item.place)


def read_problem(path: str) -> Problem:
    """The problem of a file."""
    source = read_source(path)
    name, items = items_of(source, "problem")
    problem = Problem(source, name)
    for item in items:
        if item.head == ":objects":
            problem.objects += typed(source, item[1:])
        elif item.head == ":init":
            for fact in item[1:]:
                _take_fact(problem, group_of(source, fact))
        elif item.head == ":goal" and len(item) > 1:
            problem.goal = item[1]
        elif item.head == ":metric":
            problem.has_metric = True
    return problem


def _take_fact(problem: Problem, fact: Group) -> None:
    if fact.head != "=":
        problem.facts.append(atom_of(problem.source, fact))
        return
    number = word_of(problem.source, fact[2]) if len(fact) > 2 else ""
    if not number.isdigit():
        raise TextFault(problem.source, fact.place, "a number is due")
    problem.values.append((atom_of(problem.source, fact[1]), int(number)))


def read_streams(path: str) -> Streams:
    """The streams of a file."""
    source = read_source(path)
    _, items = items_of(source, "stream")
    return Streams(source, [_stream(source, item) for item in items if item.head in (":stream", ":cost-stream")])


def _stream(source: Source, item: Group) -> Stream:
    keys = keys_of(source, item[2:])

    def variables(key: str) -> list[tuple[str, str]]:
        return typed(source, group_of(source, keys[key]).items) if key in keys else []

    return Stream(
        word_of(source, item[1]) if len(item) > 1 else "", item.head == ":cost-stream",
        variables(":inputs"), variables(":outputs"),
        atoms_of(source, keys.get(":domain")), atoms_of(source, keys.get(":certified")),
        atom_of(source, keys[":value"]) if ":value" in keys else None, item.place)
