"""A task over what a report certifies, as plain PDDL."""
from __future__ import annotations

import itertools
import re
from dataclasses import dataclass, field

from .reports import Ask, Got, Report, ReportFault, Value
from .tasks import Action, Atom, Derived, Domain, Problem, ROOT, Stream, Streams, typed
from .texts import Group, Tree, spelled
from .trees import conjunction, group, printed

PREFIXES = ("g", "gen", "value", "made")
REQUIREMENTS = [
    ":strips", ":typing", ":equality", ":negative-preconditions", ":disjunctive-preconditions",
    ":existential-preconditions", ":derived-predicates", ":action-costs"]


@dataclass
class PlainTask:
    """The texts of a domain and a problem, and of a plan where there is one."""

    domain: str
    problem: str
    plan: str | None


@dataclass
class Certified:
    """What the answers of a report make known: objects with their types, facts, and the least value of each term."""

    sorts: dict[str, set[str]] = field(default_factory=dict)
    facts: dict[tuple[str, ...], None] = field(default_factory=dict)
    values: dict[tuple[str, ...], int] = field(default_factory=dict)

    def add_value(self, term: tuple[str, ...], value: int) -> None:
        """Of several values of a term the least counts."""
        self.values[term] = min(value, self.values.get(term, value))


def certified(problem: Problem, streams: Streams, report: Report) -> Certified:
    """The initial facts and what the report's answers certify."""
    found = Certified()
    for fact in problem.facts:
        found.facts[(fact.name, *fact.terms)] = None
    for term, value in problem.values:
        found.add_value((term.name, *term.terms), value)
    for ask in report.asks.values():
        stream = streams.named(ask.stream)
        if stream is not None:
            _learn(found, stream, ask)
    return found


def _learn(found: Certified, stream: Stream, ask: Ask) -> None:
    if len(ask.inputs) != len(stream.inputs):
        raise ReportFault(f"line {ask.line}: {stream.name} has {len(stream.inputs)} inputs in the stream file")
    names = dict(zip((name for name, _ in stream.inputs), ask.inputs))
    if isinstance(ask.answer, Value) and stream.value is not None:
        found.add_value(_filled(stream.value, names), ask.answer.value)
    if not isinstance(ask.answer, Got):
        return
    for values in ask.answer.tuples:
        if len(values) != len(stream.outputs):
            raise ReportFault(f"line {ask.answer.line}: {stream.name} has {len(stream.outputs)} outputs in the stream file")
        outputs = {name: f"#{value}" for (name, _), value in zip(stream.outputs, values)}
        for name, sort in stream.outputs:
            found.sorts.setdefault(outputs[name], set()).add(sort)
        for atom in stream.certified:
            found.facts[_filled(atom, {**names, **outputs})] = None


def _filled(atom: Atom, names: dict[str, str]) -> tuple[str, ...]:
    return (atom.name, *(names.get(term, term) for term in atom.terms))


class Writer:
    """Writes a task; types stand as types, or as predicates where PDDL has no such types."""

    def __init__(self, domain: Domain, problem: Problem, known: Certified):
        self.domain, self.problem, self.known = domain, problem, known
        self.declared: dict[str, set[str]] = {}
        for name, sort in [*domain.constants, *problem.objects]:
            self.declared.setdefault(name, set()).add(sort)
        self.is_typed = self._has_plain_types()
        self.names = self._new_names()

    def _has_plain_types(self) -> bool:
        one_above = all(len(set(above) - {ROOT}) <= 1 for above in self.domain.types.values())
        return one_above and all(self._lowest(sorts) for sorts in [*self.declared.values(), *self.known.sorts.values()])

    def _lowest(self, sorts: set[str]) -> str | None:
        """The one type that is below all others of these."""
        return next((one for one in sorts if sorts <= self.domain.above(one)), None)

    def _new_names(self) -> dict[str, str]:
        prefix = next(one for one in itertools.chain(PREFIXES, (f"made-{n}-" for n in itertools.count()))
                      if not any(re.fullmatch(re.escape(one) + r"\d+", name) for name in self.declared))
        return {name: f"{prefix}{number}" for number, name in enumerate(self.known.sorts, 1)}

    def variables(self, variables: list[tuple[str, str]]) -> tuple[Group, list[Tree]]:
        """A list of variables, and what else has to hold of them."""
        if self.is_typed:
            return group(*(text for name, sort in variables for text in (name, "-", sort))), []
        guards: list[Tree] = [group(self.sort_name(sort), name) for name, sort in variables if sort != ROOT]
        return group(*(name for name, _ in variables)), guards

    def sort_name(self, sort: str) -> str:
        """The predicate that stands for a type."""
        name = f"is-{sort}"
        return name if name not in self.domain.predicates else f"is-a-{sort}"

    def condition(self, tree: Tree | None) -> Tree:
        """A condition with its variables' types as they are written."""
        if not isinstance(tree, Group) or not len(tree):
            return group("and")
        if tree.head == "exists":
            variables, guards = self.variables(typed(self.domain.source, tree[1].items))
            return group("exists", variables, conjunction([*guards, self.condition(tree[2])]))
        if tree.head in ("and", "or", "not"):
            return group(tree.head, *(self.condition(part) for part in tree[1:]))
        return tree

    def effect(self, tree: Tree | None) -> Tree:
        """An effect, without its costs where the problem has no metric."""
        if not isinstance(tree, Group) or not len(tree):
            return group("and")
        if tree.head == "and":
            parts = [self.effect(part) for part in tree[1:]]
            return group("and", *(part for part in parts if spelled(part) != "(and)"))
        return tree if tree.head != "increase" or self.problem.has_metric else group("and")

    def action(self, action: Action) -> Group:
        """An action."""
        variables, guards = self.variables(action.parameters)
        condition = conjunction([*guards, self.condition(action.condition)])
        return group(":action", action.name, ":parameters", variables, ":precondition", condition,
                     ":effect", self.effect(action.effect))

    def derived(self, item: Derived) -> Group:
        """A `:derived` item."""
        variables, guards = self.variables(item.parameters)
        head = group(item.head.name, *variables)
        return group(":derived", head, conjunction([*guards, self.condition(item.condition)]))

    def signature(self, name: str, variables: list[tuple[str, str]]) -> Group:
        """A declaration of a predicate or a function."""
        return group(name, *self.variables(variables)[0])

    def domain_text(self) -> str:
        """The text of the domain."""
        domain = self.domain
        items: list[Tree] = [group(":requirements", *REQUIREMENTS)]
        if self.is_typed and domain.all_types():
            rows = [(name, (set(domain.types.get(name, [])) - {ROOT} or {ROOT}).pop()) for name in domain.all_types()]
            items.append(group(":types", *(text for name, above in rows for text in (name, "-", above))))
        constants = dict(domain.constants)
        if constants:
            items.append(group(":constants", *self._objects(constants)))
        predicates = [self.signature(name, variables) for name, variables in domain.predicates.items()]
        if not self.is_typed:
            predicates += [group(self.sort_name(sort), "?x") for sort in domain.all_types()]
        items.append(group(":predicates", *predicates))
        if self.problem.has_metric:
            functions: dict[str, list[tuple[str, str]]] = {"total-cost": [], **domain.functions}
            signatures: list[Tree | str] = []
            for name, variables in functions.items():
                signatures += [self.signature(name, variables), "-", "number"]
            items.append(group(":functions", *signatures))
        items += [*map(self.derived, domain.derived), *map(self.action, domain.actions)]
        return printed(group("define", group("domain", domain.name), *items)) + "\n"

    def _objects(self, names: dict[str, str] | list[str]) -> list[str]:
        sorts = {**self.declared, **self.known.sorts}
        written = [(self.names.get(name, name), self._lowest(sorts[name]) or ROOT) for name in names]
        return [text for name, sort in written for text in ((name, "-", sort) if self.is_typed else (name,))]

    def problem_text(self) -> str:
        """The text of the problem."""
        constants = {name for name, _ in self.domain.constants}
        objects = [*dict.fromkeys(name for name, _ in self.problem.objects if name not in constants), *self.known.sorts]
        facts: list[Tree] = [group(*(self.names.get(name, name) for name in fact)) for fact in self.known.facts]
        facts += self._sort_facts()
        if self.problem.has_metric:
            values: dict[tuple[str, ...], int] = {**self.known.values, ("total-cost",): 0}
            facts += [group("=", group(*(self.names.get(name, name) for name in term)), str(value))
                      for term, value in values.items()]
        items = [group(":domain", self.domain.name), group(":objects", *self._objects(objects)), group(":init", *facts),
                 group(":goal", self.condition(self.problem.goal))]
        if self.problem.has_metric:
            items.append(group(":metric", "minimize", group("total-cost")))
        notes = "".join(f"; {new} is {old}\n" for old, new in self.names.items())
        return notes + printed(group("define", group("problem", self.problem.name), *items)) + "\n"

    def _sort_facts(self) -> list[Tree]:
        if self.is_typed:
            return []
        found: list[Tree] = []
        for name, sorts in {**self.declared, **self.known.sorts}.items():
            above = dict.fromkeys(up for sort in sorted(sorts) for up in sorted(self.domain.above(sort)) if up != ROOT)
            found += [group(self.sort_name(sort), self.names.get(name, name)) for sort in above]
        return found

    def plan_text(self, report: Report) -> str | None:
        """The steps of the plan, and its cost as a comment."""
        plan = report.plan
        if plan is None:
            return None
        steps = [f"({' '.join(self.names.get(name, name) for name in step)})\n" for step in plan.steps]
        return "".join([*steps, f"; cost = {plan.cost}\n"])


def plain_task(domain: Domain, problem: Problem, streams: Streams, report: Report) -> PlainTask:
    """The task over what the report certifies, and the report's plan."""
    writer = Writer(domain, problem, certified(problem, streams, report))
    return PlainTask(writer.domain_text(), writer.problem_text(), writer.plan_text(report))
