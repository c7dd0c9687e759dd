"""A whole task rewritten: the items of its domain, its problem and its streams."""
from __future__ import annotations

from dataclasses import dataclass, field

from common.tasks import ROOT, keys_of, typed
from common.texts import Group, Source, TextFault, Tree, Word, read_tree, spelled
from common.trees import conjunction, group, printed, word
from .book import Book, Either, with_plain_names
from .conditions import Conditions, Signs, in_safe_terms
from .effects import MOST_CONDITIONS, Effects, Objects, cases, simplified
from .streams import StreamFile, StreamItems, cost_of, names_of, test_of

DOMAIN_INSTEAD = {
    ":durative-action": "an action without a duration; what has to go on beside it is a step of its own",
    ":constraints": "a precondition of each action",
    ":axiom": "(:derived (P ?x) C)",
    ":process": "nothing: time isn't there", ":event": "nothing: time isn't there",
}


@dataclass
class Rewritten:
    """The new texts; the stream file is missing where none was given."""

    domain: str
    problem: str
    streams: str | None
    book: Book


@dataclass
class Action:
    """One case of an action."""

    name: str
    parameters: Group
    condition: Tree
    effects: list[Tree]


@dataclass
class Task:
    """What is read of all texts, conditions plain already."""

    types: list[Tree] = field(default_factory=list)
    constants: list[Tree] = field(default_factory=list)
    predicates: list[Tree] = field(default_factory=list)
    functions: list[Tree] = field(default_factory=list)
    derived: list[Group] = field(default_factory=list)
    actions: list[Action] = field(default_factory=list)
    objects: list[Tree] = field(default_factory=list)
    facts: list[Tree] = field(default_factory=list)
    goal: Tree = field(default_factory=lambda: group("and"))
    metric: Group | None = None


class Rewriter:
    """Rewrites a task's texts."""

    def __init__(self, domain: Source, problem: Source, streams: Source | None):
        self.book = Book()
        self.either = Either(self.book)
        self.conditions = Conditions(self.book, self.either)
        self.sources = {"domain": domain, "problem": problem, **({"stream": streams} if streams is not None else {})}
        self.task, self.items = Task(), StreamItems()

    def top(self, kind: str) -> tuple[str, list[Group]]:
        """The name and the items of a text, with plain names."""
        source = self.sources[kind]
        tree = with_plain_names(self.book, read_tree(source))
        name = tree[1] if tree.head == "define" and len(tree) > 1 else tree
        if not isinstance(name, Group) or name.head != kind or len(name) != 2:
            raise TextFault(source, tree.place, f"(define ({kind} NAME) .. is due")
        for item in tree[2:]:
            if not isinstance(item, Group) or not item.head:
                raise TextFault(source, item.place, "an item such as (:objects ..) is due")
        return spelled(name[1]), list(tree[2:])

    def rewritten(self) -> Rewritten:
        """The new texts."""
        domain, domain_items = self.top("domain")
        problem, problem_items = self.top("problem")
        stream_name, stream_items = self.top("stream") if "stream" in self.sources else ("", [])
        if "stream" in self.sources:
            reader = StreamFile(self.book, self.sources["stream"], self.either)
            for item in stream_items:
                reader.take(item)
            self.items = reader.found
        for item in [it for it in domain_items if it.head not in (":action", ":derived")]:
            self._declaration(item)
        for item in problem_items:
            self._problem_item(item)
        effects = Effects(self.book, self._objects(), self.conditions.plain)
        for item in domain_items:
            if item.head == ":action":
                self._action(item, effects)
            elif item.head == ":derived":
                self._derived(item)
        self._name_constants(effects.objects.named)
        self._refuse_recursion()
        self._take_predicates()
        self._take_functions()
        streams = printed(group("define", group("stream", stream_name), *self.items.streams)) + "\n"
        texts = self._domain_text(domain), self._problem_text(problem, domain), streams if stream_name else None
        return Rewritten(*texts, self.book)

    # ---- declarations

    def _typed(self, source: Source, items: tuple[Tree, ...]) -> list[Tree]:
        return self.either.typed(source, items)

    def _declaration(self, item: Group) -> None:
        source, task = self.sources["domain"], self.task
        if item.head == ":types":
            task.types += self._typed(source, item[1:])
        elif item.head == ":constants":
            task.constants += self._declared(source, item)
        elif item.head == ":predicates":
            task.predicates += [Group(tuple(self._typed(source, one.items)), one.place) for one in item[1:]
                                if isinstance(one, Group)]
        elif item.head == ":functions":
            task.functions += self._function_rows(source, item)
        elif item.head != ":requirements":
            self.book.refuse(source, item.place, f"`{item.head}`",
                             DOMAIN_INSTEAD.get(item.head, "nothing of it is known here"))

    def _declared(self, source: Source, item: Group) -> list[Tree]:
        for one in item[1:]:
            if isinstance(one, Group):
                self.book.refuse(source, one.place, "an object of `either`",
                                 "one of the types, or a type of its own below all of them")
        return [one if isinstance(one, Word) else word(ROOT) for one in item[1:]]

    def _function_rows(self, source: Source, item: Group) -> list[Tree]:
        found: list[Tree] = []
        for at, one in enumerate(item[1:], 1):
            if isinstance(one, Group):
                found += [Group(tuple(self._typed(source, one.items)), one.place), word("-"), word("number")]
            elif one.text not in ("-", "number"):
                self.book.refuse(source, one.place, f"a function of type `{one.raw}`",
                                 "a predicate of its arguments and its value")
        return found

    def _objects(self) -> Objects:
        source = self.sources["domain"]
        above: dict[str, set[str]] = {}
        for name, sort in [*typed(source, tuple(self.task.types)),
                           *((one, up) for up, sorts in self.either.made.items() for one in sorts)]:
            above.setdefault(name, set()).add(sort)
        def up(sort: str) -> set[str]:
            return {sort, ROOT}.union(*(up(one) for one in above.get(sort, ()) if one != sort))
        found = Objects({}, set())
        for name, sort in [*typed(source, tuple(self.task.constants)), *typed(source, tuple(self.task.objects))]:
            for one in sorted(up(sort)):
                if name not in found.of.setdefault(one, []):
                    found.of[one].append(name)
        for stream in self.items.streams:
            outputs = keys_of(source, stream[2:]).get(":outputs")
            for _, sort in typed(source, outputs.items if isinstance(outputs, Group) else ()):
                found.open |= up(sort)
        return found

    def _name_constants(self, named: set[str]) -> None:
        """Objects that an effect names are constants of the domain too."""
        for name, sort in typed(self.sources["problem"], tuple(self.task.objects)):
            if name in named:
                self.task.constants = [*self._closed(self.task.constants), word(name), word("-"), word(sort)]

    @staticmethod
    def _closed(rows: list[Tree]) -> list[Tree]:
        """A typed list whose last names have a type, so that more may follow."""
        is_open = rows and (len(rows) < 2 or spelled(rows[-2]) != "-")
        return [*rows, word("-"), word(ROOT)] if is_open else rows

    # ---- actions and derived predicates

    def _action(self, item: Group, effects: Effects) -> None:
        source, name = self.sources["domain"], spelled(item[1])
        keys = keys_of(source, item[2:])
        for key, tree in keys.items():
            if key not in (":parameters", ":precondition", ":effect"):
                self.book.refuse(source, tree.place, f"`{key}` of an action",
                                 "parameters, for which the precondition holds")
        given = keys.get(":parameters", group())
        parameters = Group(tuple(self._typed(source, given.items if isinstance(given, Group) else ())), given.place)
        condition = self.conditions.plain(source, keys[":precondition"]) if ":precondition" in keys else group("and")
        parts = simplified(effects.parts(source, keys.get(":effect")))
        count = len({spelled(part.condition) for part in parts if part.condition is not None})
        if count > MOST_CONDITIONS:
            self.book.refuse(source, item.place, f"{count} conditional effects, so {2 ** count} actions",
                             f"at most {MOST_CONDITIONS}: an effect of another step, or a derived predicate that says "
                             f"what follows")
            return
        for letters, wanted, literals in cases(parts):
            case = f"{name}--{letters}" if letters else name
            if letters:
                self.book.row("action", case, name)
            self.task.actions.append(Action(case, parameters, conjunction([condition, *wanted]), literals))

    def _derived(self, item: Group) -> None:
        source = self.sources["domain"]
        if len(item) != 3 or not isinstance(item[1], Group):
            raise TextFault(source, item.place, "(:derived (P ..) C) is due")
        head = Group(tuple(self._typed(source, item[1].items)), item[1].place)
        self.task.derived.append(group(":derived", head, self.conditions.plain(source, item[2]), place=item.place))

    def _refuse_recursion(self) -> None:
        signs = {name: Signs(set(), self._bodies()) for name in self._bodies()}
        for item in self.task.derived:
            own = signs[item[1].head]
            own.want(item[2])
            if item[1].head in own.wanted:
                self.book.refuse(self.sources["domain"], item.place, f"`{item[1].head}` rests on itself",
                                 "a predicate for each number of steps, or a relation that the :init states whole")

    def _bodies(self) -> dict[str, list[Tree]]:
        found: dict[str, list[Tree]] = {}
        for item in self.task.derived:
            found.setdefault(item[1].head, []).append(item[2])
        return found

    # ---- the problem

    def _problem_item(self, item: Group) -> None:
        source, task = self.sources["problem"], self.task
        if item.head == ":objects":
            task.objects += self._declared(source, item)
        elif item.head == ":init":
            for fact in item[1:]:
                self._fact(source, fact)
        elif item.head == ":goal" and len(item) == 2:
            task.goal = self.conditions.plain(source, item[1])
        elif item.head == ":metric":
            self._metric(source, item)
        elif item.head not in (":domain", ":requirements", ":length"):
            self.book.refuse(source, item.place, f"`{item.head}`",
                             DOMAIN_INSTEAD.get(item.head, "nothing of it is known here"))

    def _fact(self, source: Source, fact: Tree) -> None:
        if not isinstance(fact, Group):
            raise TextFault(source, fact.place, "a fact is due")
        if fact.head == "not":
            self.book.note(source, fact.place, "a negative fact is left out: what isn't there is false")
        elif fact.head == "at" and len(fact) == 3 and isinstance(fact[2], Group):
            self.book.refuse(source, fact.place, "a timed initial literal", "a step that makes it true")
        elif fact.head == "=":
            self._value(source, fact)
        else:
            self.task.facts.append(fact)

    def _value(self, source: Source, fact: Group) -> None:
        number = spelled(fact[2]) if len(fact) > 2 else ""
        whole = number[:number.index(".")] if "." in number and not number.partition(".")[2].strip("0") else number
        if not whole.isdigit() or int(whole) > 1_000_000:
            self.book.refuse(source, fact.place, f"the value {number}",
                             "a whole number from 0 to 1,000,000, in a finer or coarser unit")
            return
        self.task.facts.append(group("=", fact[1], whole))

    def _metric(self, source: Source, item: Group) -> None:
        if [spelled(one) for one in item[1:]] in (["minimize", "(total-cost)"], ["minimize", "total-cost"]):
            self.task.metric = item
        else:
            self.book.refuse(source, item.place, "this metric",
                             "(:metric minimize (total-cost)), with an `increase` of total-cost in each action")

    # ---- PDDLStream's predicates and functions

    def _take_predicates(self) -> None:
        signs = Signs(set(self.items.predicates), self._bodies())
        for action in self.task.actions:
            signs.want(action.condition)
        signs.want(self.task.goal)
        for stream in self.items.streams:
            signs.want(keys_of(self.sources["domain"], stream[2:]).get(":domain", group()))
        opposites = {name: f"not-{name}" for name in self.items.predicates}
        for action in self.task.actions:
            action.condition = in_safe_terms(action.condition, signs.predicates, opposites, False)
        self.task.goal = in_safe_terms(self.task.goal, signs.predicates, opposites, False)
        self.task.derived = [self._safe_derived(item, signs, opposites) for item in self.task.derived]
        for name, found in self.items.predicates.items():
            self._tests(name, found, signs.wanted.get(name, set()))

    def _safe_derived(self, item: Group, signs: Signs, opposites: dict[str, str]) -> Group:
        head, wanted = item[1].head, signs.wanted.get(item[1].head, {False})
        inner = Signs(signs.predicates)
        inner.want(item[2])
        if len(wanted) > 1 and set(inner.wanted) & signs.predicates:
            self.book.refuse(self.sources["domain"], item.place,
                             f"`{head}` is wanted true and false, and rests on a PDDLStream predicate",
                             "two derived predicates, one for each")
        return group(":derived", item[1], in_safe_terms(item[2], signs.predicates, opposites, True in wanted),
                     place=item.place)

    def _tests(self, name: str, found, wanted: set[bool]) -> None:
        source = self.sources["stream"]
        taken = {spelled(stream[1]) for stream in self.items.streams}
        for sign in sorted(wanted):
            certified = f"not-{name}" if sign else name
            test = f"test-{certified}"
            while test in taken:
                test += "-x"
            self.items.streams.append(test_of(found, test, certified))
            self.book.note(source, found.place, f":predicate {name}: the test {test}")
            self.book.row("stream", test, f"answers `yield` where {name} is {'false' if sign else 'true'}, else `end`")
            if sign:
                self.task.predicates.append(group(certified, *names_of(found.variables)))

    def _take_functions(self) -> None:
        declared = {one.head for one in self.task.functions if isinstance(one, Group)}
        taken = {spelled(stream[1]) for stream in self.items.streams}
        for name, found in self.items.functions.items():
            stream = name if name not in taken else f"{name}-cost"
            self.items.streams.append(cost_of(found, stream))
            self.book.note(self.sources["stream"], found.place, f":function {name}: the cost stream {stream}")
            self.book.row("stream", stream, f"answers `value N` with {name} as a whole number from 0 to 1,000,000")
            if name not in declared:
                self.task.functions += [group(name, *names_of(found.variables)), word("-"), word("number")]

    # ---- the texts

    def _domain_text(self, name: str) -> str:
        task = self.task
        items: list[Tree] = []
        rows = [*self._closed(task.types), *self.either.rows()] if self.either.made else task.types
        if rows:
            items.append(group(":types", *rows))
        if task.constants:
            items.append(group(":constants", *task.constants))
        if task.predicates:
            items.append(group(":predicates", *task.predicates))
        if task.functions:
            items.append(group(":functions", *task.functions))
        items += task.derived
        items += [group(":action", one.name, ":parameters", one.parameters, ":precondition", one.condition,
                        ":effect", conjunction(one.effects)) for one in task.actions]
        return printed(group("define", group("domain", name), *items)) + "\n"

    def _problem_text(self, name: str, domain: str) -> str:
        task = self.task
        items: list[Tree] = [group(":domain", domain)]
        if task.objects:
            items.append(group(":objects", *task.objects))
        items += [group(":init", *task.facts), group(":goal", task.goal)]
        if task.metric is not None:
            items.append(group(":metric", "minimize", group("total-cost")))
        return printed(group("define", group("problem", name), *items)) + "\n"
