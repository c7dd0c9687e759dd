"""A problem in Python as the three texts that the planner reads."""
from __future__ import annotations

import re
from dataclasses import dataclass
from typing import Any, Iterable, Mapping, NamedTuple, Sequence

from .answers import MOST_COST
from .conditions import AND, EQ, EXISTS, FORALL, IMPLY, NOT, OR, ForAll, Imply
from .errors import UnsupportedError
from .forms import StreamForm, depth_of
from .names import key_of, literal_name, type_word
from .pddl import Group, all_groups, read_tree, spelled, typed
from .refusals import domain_refusals, stream_refusals

_NAME = re.compile(r"[A-Za-z][A-Za-z0-9_-]*\Z")
_AT_WORD = re.compile(r"(?<![^\s()])@([A-Za-z][A-Za-z0-9_-]*)")


class PDDLProblem(NamedTuple):
    """A problem, as PDDLStream's users write it.

    domain_pddl: the domain's text.
    constant_map: the values of the domain's constants, by name, with or without `@` in front.
    stream_pddl: the stream file's text, several of them, or None.
    stream_map: for each stream its answers, made by `from_gen_fn` and its like; a cost stream's may be a function.
    init: the initial facts, tuples `(predicate, value, ..)`.
    goal: the goal, a nested tuple.
    """

    domain_pddl: str
    constant_map: Mapping[str, Any]
    stream_pddl: str | Sequence[str] | None
    stream_map: Mapping[str, Any]
    init: Iterable[Sequence[Any]]
    goal: Any


class Objects:
    """The values that a problem begins with, and a name of the planner's for each.

    A text names itself where it can. Other names are made of what the value looks like, as `v0_5` of 0.5, with a number
    behind where two look alike.
    """

    def __init__(self, constants: Mapping[str, Any]) -> None:
        self.values: dict[str, Any] = {}
        self._names: dict[Any, str] = {}
        for name, value in constants.items():
            self._enter(name.removeprefix("@").lower(), value)
        self._constants = len(self.values)

    @property
    def declared(self) -> list[str]:
        """The names but for the domain's constants."""
        return list(self.values)[self._constants :]

    def name_of(self, value: Any) -> str:
        """The value's name, a new one where it has none."""
        key = key_of(value)
        if key not in self._names:
            word, name, count = _word_of(value), _word_of(value), 1
            while name in self.values:
                count += 1
                name = f"{word}-{count}"
            self._enter(name, value)
        return self._names[key]

    def has(self, value: Any) -> bool:
        """Whether the value has a name."""
        return key_of(value) in self._names

    def _enter(self, name: str, value: Any) -> None:
        self.values[name] = value
        self._names.setdefault(key_of(value), name)


def _word_of(value: Any) -> str:
    """A name's first form: small letters, digits, `_` and `-`, a letter in front."""
    if isinstance(value, str):
        text = value
    else:
        text = f"v{value!r}" if literal_name(value) else type_word(value)
    minus = re.sub(r"(?<![a-uw-z0-9])-(?=\d)", "m", text.lower())
    word = re.sub(r"[^a-z0-9_-]+", "_", minus).strip("_-")[:40]
    return word if word[:1].isalpha() else f"v{word}"


@dataclass(frozen=True)
class Task:
    """The three texts of a problem, its initial values by name, what its streams say, and how long their chains are."""

    domain: str
    problem: str
    streams: str
    objects: Mapping[str, Any]
    forms: Mapping[str, StreamForm]
    depth: int


def task_of(problem: PDDLProblem, types: Mapping[str, Iterable[Any]] | None = None, unit_costs: bool = False) -> Task:
    """The task of a problem. UnsupportedError, ValueError or TypeError where it can't be one."""
    domain_text = _without_at(problem.domain_pddl)
    domain = read_tree(domain_text, "domain")
    stream_texts = _texts_of(problem.stream_pddl)
    trees = [read_tree(text, "streams") for text in stream_texts]
    refused = [domain_refusals(domain, domain_text), *map(stream_refusals, trees, stream_texts)]
    if any(refused):
        raise UnsupportedError("\n".join(line for lines in refused for line in lines))
    streams_text, forms = _streams_of(stream_texts, trees)
    objects = Objects(problem.constant_map or {})
    if types is None and any(group.head == ":types" and group.items[1:] for group in domain.groups()):
        raise ValueError(
            "the domain has :types: say which initial values have which, as solve(.., types={'cup': ['mug']})"
        )
    sorts = {objects.name_of(value): sort for sort, values in (types or {}).items() for value in values}
    facts = [_fact_text(fact, objects) for fact in problem.init]
    goal = condition_text(problem.goal, objects)
    has_metric = not unit_costs and any(group.head == "increase" for group in all_groups(domain))
    text = _problem_text(_domain_name(domain), objects, sorts, facts, goal, has_metric)
    return Task(domain_text, text, streams_text, objects.values, forms, depth_of(forms.values(), domain))


def _without_at(text: str) -> str:
    """The text with each word `@name` as `name`, and all places as they were."""
    return _AT_WORD.sub(r"\1 ", text)


def _domain_name(domain: Group) -> str:
    for group in domain.groups():
        if group.head == "domain" and len(group.items) == 2:
            return spelled(group.items[1])
    raise ValueError("the domain text has no (domain NAME)")


def _texts_of(given: str | Sequence[str] | None) -> list[str]:
    """The texts of stream files, without `@`."""
    texts = [given] if isinstance(given, str) else list(given or ())
    if not all(isinstance(text, str) for text in texts):
        raise TypeError("stream_pddl is a text, several texts, or None")
    return [_without_at(text) for text in texts]


def _streams_of(texts: list[str], trees: list[Group]) -> tuple[str, dict[str, StreamForm]]:
    """The stream file's text and what its streams say. The one text stays as it is where nothing has another form."""
    items = [item for tree in trees for item in tree.groups() if item.head.startswith(":")]
    as_it_is = len(texts) == 1 and not any(item.head == ":function" for item in items)
    lines = [_function_item(item) if item.head == ":function" else spelled(item) for item in items]
    whole = texts[0] if as_it_is else "\n  ".join(["(define (stream asked)", *lines]) + ")\n"
    forms = [StreamForm.of_item(item) for item in read_tree(whole, "streams").groups() if item.head.startswith(":")]
    return whole, {form.name: form for form in forms}


def _function_item(item: Group) -> str:
    """`(:function (F ?a ?b) DOMAIN)` as a cost stream of that name."""
    term = item.items[1] if len(item.items) > 1 else None
    if not isinstance(term, Group) or not term.head or len(item.items) > 3:
        raise ValueError(f"{spelled(item)}: a function is (:function (NAME VARIABLES) DOMAIN)")
    inputs = " ".join(map(spelled, term.items[1:]))
    domain = spelled(item.items[2]) if len(item.items) == 3 else "()"
    value = " ".join([spelled(term.items[0]), *(name for name, _ in typed(term, 1))])
    return f"(:cost-stream {spelled(term.items[0])} :inputs ({inputs}) :domain {domain} :value ({value}))"


def _problem_text(
    domain: str, objects: Objects, sorts: Mapping[str, str], facts: list[str], goal: str, has_metric: bool
) -> str:
    declared = [
        f"{name} - {sorts[name]}" if name in sorts else name
        for name in sorted(objects.declared, key=lambda name: name not in sorts)
    ]
    lines = [
        f"(define (problem asked) (:domain {domain})",
        f"  (:objects {' '.join(declared)})",
        "\n    ".join(["  (:init", *facts]) + ")",
        f"  (:goal {goal})",
    ]
    return "\n".join([*lines, "  (:metric minimize (total-cost))"] if has_metric else lines) + ")\n"


def _head_of(expression: Any, what: str) -> str:
    if not isinstance(expression, (tuple, list)) or not expression or not isinstance(expression[0], str):
        raise ValueError(f"{what} has {expression!r:.80}, which is no tuple that begins with a name")
    return expression[0]


def _atom_text(atom: Sequence[Any], objects: Objects, what: str) -> str:
    head = _head_of(atom, what)
    if not _NAME.match(head):
        raise ValueError(f"{what} has {atom!r:.80}: {head!r} is no name of a predicate or function")
    return f"({' '.join([head, *(_term_text(value, objects, what) for value in atom[1:])])})"


def _term_text(value: Any, objects: Objects, what: str) -> str:
    if what == "goal" and isinstance(value, str) and value.startswith("?"):
        return value
    return objects.name_of(value)


def _fact_text(fact: Any, objects: Objects) -> str:
    head = _head_of(fact, "init").lower()
    if head == EQ:
        term, number = fact[1:] if len(fact) == 3 else (None, None)
        if type(number) is not int or not 0 <= number <= MOST_COST:
            raise ValueError(
                f"init has {fact!r:.80}: write Equal((function, value, ..), N) with a whole number N from 0 to "
                f"{MOST_COST:,}; of a float a smaller unit, as round(1000 * cost)"
            )
        return f"(= {_atom_text(term, objects, 'init')} {number})"
    if head in (AND, OR, NOT, EXISTS, FORALL, IMPLY):
        raise ValueError(f"init has {fact!r:.80}: only facts stand there; what isn't said is false")
    return _atom_text(fact, objects, "init")


def condition_text(condition: Any, objects: Objects) -> str:
    """The text of a condition of nested tuples."""
    head, parts = _head_of(condition, "goal").lower(), condition[1:]
    if head in (AND, OR):
        return f"({' '.join([head, *(condition_text(part, objects) for part in parts)])})"
    if head in (NOT, EXISTS, FORALL, IMPLY, EQ) and len(parts) != (1 if head == NOT else 2):
        raise ValueError(f"the goal has {condition!r:.80}, with another number of parts than `{head}` has")
    if head == NOT:
        return f"(not {condition_text(parts[0], objects)})"
    if head == EXISTS:
        return f"(exists ({' '.join(parts[0])}) {condition_text(parts[1], objects)})"
    if head in (FORALL, IMPLY):
        return condition_text((ForAll if head == FORALL else Imply)(*parts), objects)
    if head == EQ:
        return f"(= {_term_text(parts[0], objects, 'goal')} {_term_text(parts[1], objects, 'goal')})"
    return _atom_text(condition, objects, "goal")
