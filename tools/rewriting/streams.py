"""Stream files: PDDLStream's `:predicate`, `:function` and `:rule` as tests and cost streams."""
from __future__ import annotations

from dataclasses import dataclass, field

from common.tasks import keys_of
from common.texts import Group, Source, Tree, Word, spelled
from common.trees import group
from .book import Book, Either

KEYS = (":inputs", ":outputs", ":domain", ":certified", ":value")
NOT_KNOWN = "nothing of it is known here"
INSTEAD = {
    ":optimizer": "nothing: each sampler answers by itself",
    ":fluents": "a test of each pair, as (clear ?t ?o ?p), and a derived predicate that is true where some object "
                "stands where the "
                "test hasn't passed",
    ":wild-stream": "a stream for each predicate that it certifies",
}


@dataclass
class Found:
    """A `:predicate` or `:function` of a stream file."""

    name: str
    variables: list[Tree]
    domain: Tree
    place: int


@dataclass
class StreamItems:
    """The items of a stream file as they are written, and what PDDLStream's own items say."""

    streams: list[Group] = field(default_factory=list)
    predicates: dict[str, Found] = field(default_factory=dict)
    functions: dict[str, Found] = field(default_factory=dict)
    rules: int = 0


class StreamFile:
    """Reads the items of a stream file."""

    def __init__(self, book: Book, source: Source, either: Either):
        self.book, self.source, self.either = book, source, either
        self.found = StreamItems()

    def take(self, item: Group) -> None:
        """One item."""
        if item.head in (":predicate", ":function") and len(item) >= 2 and isinstance(item[1], Group):
            domain = item[2] if len(item) > 2 else group("and")
            one = Found(item[1].head, list(item[1][1:]), self._atoms(domain), item.place)
            (self.found.predicates if item.head == ":predicate" else self.found.functions)[one.name] = one
        elif item.head == ":rule":
            self._rule(item)
        elif item.head in (":stream", ":cost-stream"):
            self._stream(item)
        else:
            self.book.refuse(self.source, item.place, f"`{item.head}`", INSTEAD.get(item.head, NOT_KNOWN))

    def _rule(self, item: Group) -> None:
        self.found.rules += 1
        name = f"rule-{self.found.rules}"
        self.book.note(self.source, item.place, f":rule: the test {name}, whose answer is always yes")
        self.book.row("stream", name, "answers `yield` to each request")
        self._stream(Group((Word(":stream", ":stream", item.place), Word(name, name, item.place), *item[1:]),
                           item.place))

    def _stream(self, item: Group) -> None:
        keys = keys_of(self.source, item[2:])
        parts: list[Tree] = [item[0], item[1]]
        for key, tree in keys.items():
            if key not in KEYS:
                self.book.refuse(self.source, tree.place, f"`{key}` of a stream", INSTEAD.get(key, NOT_KNOWN))
                continue
            parts.append(Word(key, key, item.place))
            if key in (":inputs", ":outputs") and isinstance(tree, Group):
                parts.append(Group(tuple(self.either.typed(self.source, tree.items)), tree.place))
            else:
                parts.append(self._atoms(tree) if key != ":value" else tree)
        self.found.streams.append(Group(tuple(parts), item.place))

    def _atoms(self, tree: Tree) -> Tree:
        """A conjunction of atoms, and a refusal where it is none."""
        if not isinstance(tree, Group) or not len(tree):
            return tree
        if tree.head == "and":
            return Group((tree[0], *map(self._atoms, tree[1:])), tree.place)
        if tree.head in ("not", "or", "exists", "forall", "imply", "="):
            self.book.refuse(self.source, tree.place, f"`{tree.head}` in a stream's atoms",
                             "a predicate of its own, which a test or the :init certifies, or the question left to the "
                             "generator")
        return tree


def test_of(found: Found, name: str, certified: str) -> Group:
    """The test that certifies a predicate, or its opposite, of a `:predicate` item."""
    atom = group(certified, *names_of(found.variables))
    return group(":stream", name, ":inputs", Group(tuple(found.variables), found.place), ":domain", found.domain,
                 ":certified", atom, place=found.place)


def cost_of(found: Found, name: str) -> Group:
    """The cost stream of a `:function` item."""
    term = group(found.name, *names_of(found.variables))
    return group(":cost-stream", name, ":inputs", Group(tuple(found.variables), found.place), ":domain", found.domain,
                 ":value", term, place=found.place)


def names_of(variables: list[Tree]) -> list[str]:
    """The variables of a typed list."""
    return [text for text in map(spelled, variables) if text.startswith("?")]
