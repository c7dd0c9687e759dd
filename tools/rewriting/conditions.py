"""Conditions without `forall` and `imply`, and PDDLStream's predicates by the sign under which they are wanted."""
from __future__ import annotations

from dataclasses import dataclass, field

from common.texts import Group, Source, Tree, Word
from common.trees import group, negated
from .book import Book, Either

NUMERIC = ("<", ">", "<=", ">=")


class Conditions:
    """Rewrites conditions; `either` is shared by the whole task."""

    def __init__(self, book: Book, either: Either):
        self.book, self.either = book, either

    def plain(self, source: Source, tree: Tree) -> Tree:
        """A condition in `and`, `or`, `not`, `exists`, `=` and atoms."""
        if isinstance(tree, Word):
            self.book.refuse(source, tree.place, f"`{tree.raw}` in a condition", "a list in parentheses is due")
            return group("and")
        handler = {"forall": self._forall, "imply": self._imply, "exists": self._exists}.get(tree.head)
        if handler:
            return handler(source, tree)
        if tree.head in ("and", "or", "not"):
            return Group((tree[0], *(self.plain(source, part) for part in tree[1:])), tree.place)
        if tree.head in NUMERIC or tree.head == "=" and any(isinstance(part, Group) for part in tree[1:]):
            self.book.refuse(source, tree.place, "a comparison of numbers",
                             "objects for the values, a static predicate such as (less ?a ?b), and a fact that says "
                             "which value is")
        elif tree.head == "preference":
            self.book.refuse(source, tree.place, "a preference", "leave it out, or want it by the goal")
        return tree

    def _variables(self, source: Source, tree: Group) -> Group:
        inner = tree[1] if len(tree) > 1 and isinstance(tree[1], Group) else Group((), tree.place)
        return Group(tuple(self.either.typed(source, inner.items)), inner.place)

    def _exists(self, source: Source, tree: Group) -> Tree:
        return group("exists", self._variables(source, tree), self.plain(source, tree[2]), place=tree.place)

    def _forall(self, source: Source, tree: Group) -> Tree:
        self.book.note(source, tree.place, "forall: (not (exists .. (not ..)))")
        inner = negated_plain(self.plain(source, tree[2]))
        return group("not", group("exists", self._variables(source, tree), inner), place=tree.place)

    def _imply(self, source: Source, tree: Group) -> Tree:
        self.book.note(source, tree.place, "imply: (or (not ..) ..)")
        return group("or", negated(self.plain(source, tree[1])), self.plain(source, tree[2]), place=tree.place)


def negated_plain(tree: Tree) -> Tree:
    """The negation of a plain condition; of an `or`, which an `imply` may have been, all parts negated."""
    if isinstance(tree, Group) and tree.head == "or":
        return group("and", *map(negated, tree[1:]), place=tree.place)
    return negated(tree)


@dataclass
class Signs:
    """Under which signs PDDLStream's predicates are wanted: True is that the predicate is to be false."""

    predicates: set[str]
    bodies: dict[str, list[Tree]] = field(default_factory=dict)
    wanted: dict[str, set[bool]] = field(default_factory=dict)

    def want(self, tree: Tree, sign: bool = False) -> None:
        """Notes what a condition that has to be true (or, with the sign, false) wants, through derived predicates."""
        if not isinstance(tree, Group) or not len(tree):
            return
        if tree.head in ("and", "or"):
            for part in tree[1:]:
                self.want(part, sign)
        elif tree.head == "not":
            self.want(tree[1], not sign)
        elif tree.head == "exists":
            self.want(tree[2], sign)
        elif sign not in self.wanted.setdefault(tree.head, set()):
            self.wanted[tree.head].add(sign)
            for body in self.bodies.get(tree.head, []):
                self.want(body, sign)


def in_safe_terms(tree: Tree, predicates: set[str], opposites: dict[str, str], sign: bool) -> Tree:
    """A condition in which what is wanted false of a predicate is said by its opposite, which a test certifies."""
    if not isinstance(tree, Group) or not len(tree):
        return tree
    if tree.head == "not":
        inner = in_safe_terms(tree[1], predicates, opposites, not sign)
        return negated(inner)
    if tree.head in ("and", "or"):
        return Group((tree[0], *(in_safe_terms(part, predicates, opposites, sign) for part in tree[1:])), tree.place)
    if tree.head == "exists":
        return group("exists", tree[1], in_safe_terms(tree[2], predicates, opposites, sign), place=tree.place)
    if tree.head in predicates and sign:
        return group("not", group(opposites[tree.head], *tree[1:]), place=tree.place)
    return tree
