"""Making trees, and printing them in lines of some length."""
from __future__ import annotations

from .texts import Group, Tree, Word, spelled

WIDE = 110
# The second part of these stands beside their head.
NAMED = ("define", ":action", ":stream", ":cost-stream", ":derived", "exists")


def word(text: str, place: int = 0) -> Word:
    """A word that a tool made."""
    return Word(text.lower(), text, place)


def group(*items: Tree | str, place: int = 0) -> Group:
    """A list that a tool made; texts stand for words."""
    return Group(tuple(word(item, place) if isinstance(item, str) else item for item in items), place)


def negated(tree: Tree) -> Tree:
    """The negation of a condition, without two `not` one in another."""
    if isinstance(tree, Group) and tree.head == "not" and len(tree) == 2:
        return tree[1]
    return group("not", tree, place=tree.place)


def conjunction(parts: list[Tree]) -> Tree:
    """All of some conditions: one alone stands for itself."""
    flat = [inner for part in parts
            for inner in (part[1:] if isinstance(part, Group) and part.head == "and" else (part,))
            if not (isinstance(inner, Group) and not len(inner))]
    return flat[0] if len(flat) == 1 else group("and", *flat)


def substituted(tree: Tree, values: dict[str, str]) -> Tree:
    """A tree with names in the place of variables, save where an inner quantifier has the variable."""
    if isinstance(tree, Word):
        return word(values[tree.text], tree.place) if tree.text in values else tree
    if tree.head in ("exists", "forall") and len(tree) > 1 and isinstance(tree[1], Group):
        own = {item.text for item in tree[1] if isinstance(item, Word)}
        inner = {name: value for name, value in values.items() if name not in own}
        return Group((tree[0], tree[1], *(substituted(item, inner) for item in tree[2:])), tree.place)
    return Group(tuple(substituted(item, values) for item in tree), tree.place)


def printed(tree: Tree, indent: int = 0) -> str:
    """A tree as text: in one line where it fits, else each further part in a line of its own."""
    flat = spelled(tree)
    if isinstance(tree, Word) or indent + len(flat) <= WIDE or not len(tree):
        return flat
    parts = list(tree)
    first = 2 if tree.head in NAMED and len(parts) > 2 else 1
    head = " ".join(spelled(part) for part in parts[:first])
    pad = "\n" + " " * (indent + 2)
    return f"({head}{''.join(pad + text for text in _rows(parts[first:], indent + 2))})"


def _is_key(tree: Tree) -> bool:
    return isinstance(tree, Word) and tree.text.startswith(":")


def _rows(parts: list[Tree], indent: int) -> list[str]:
    rows: list[str] = []
    at = 0
    while at < len(parts):
        one = parts[at]
        if isinstance(one, Word) and _is_key(one) and at + 1 < len(parts) and not _is_key(parts[at + 1]):
            rows.append(f"{one.text} {printed(parts[at + 1], indent + len(one.text) + 1)}")
            at += 2
        elif isinstance(one, Word) and rows and rows[-1][-1] != ")" and len(rows[-1]) + len(one.text) < WIDE - indent:
            rows[-1] += f" {one.text}"
            at += 1
        else:
            rows.append(printed(one, indent))
            at += 1
    return rows
