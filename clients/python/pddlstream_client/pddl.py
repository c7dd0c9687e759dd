"""Texts in parentheses, as trees whose words know their places."""
from __future__ import annotations

import re
from dataclasses import dataclass
from typing import Iterator, Union

_TOKEN = re.compile(r";[^\n]*|[()]|[^\s();]+")


@dataclass(frozen=True)
class Word:
    """A word as it is written, and the place of its first character."""

    text: str
    place: int

    @property
    def low(self) -> str:
        """The word in lower case, as the planner reads it."""
        return self.text.lower()


@dataclass(frozen=True)
class Group:
    """A list in parentheses, and the place of the opening one."""

    items: tuple["Node", ...]
    place: int

    @property
    def head(self) -> str:
        """The first item in lower case; empty where it is no word."""
        return self.items[0].low if self.items and isinstance(self.items[0], Word) else ""

    def groups(self) -> Iterator["Group"]:
        """The items that are lists."""
        return (item for item in self.items if isinstance(item, Group))


Node = Union[Word, Group]


def read_tree(text: str, name: str) -> Group:
    """The one list that the text spells. ValueError, with the text's name and the line, where it isn't closed."""
    open_lists: list[tuple[int, list[Node]]] = [(0, [])]
    for match in _TOKEN.finditer(text):
        token, place = match[0], match.start()
        if token == "(":
            open_lists.append((place, []))
        elif token == ")" and len(open_lists) == 1:
            raise ValueError(f"{where(text, name, place)}: this parenthesis closes nothing")
        elif token == ")":
            start, items = open_lists.pop()
            open_lists[-1][1].append(Group(tuple(items), start))
        elif token[0] != ";":
            open_lists[-1][1].append(Word(token, place))
    if len(open_lists) > 1:
        raise ValueError(f"{where(text, name, open_lists[-1][0])}: this list isn't closed")
    found = open_lists[0][1]
    if len(found) != 1 or not isinstance(found[0], Group):
        raise ValueError(f"the {name} text isn't one list in parentheses")
    return found[0]


def all_groups(group: Group) -> Iterator[Group]:
    """The list itself and all lists inside of it, as they are written."""
    yield group
    for inner in group.groups():
        yield from all_groups(inner)


def keys_of(group: Group, first: int = 2) -> dict[str, Node]:
    """What stands behind each key word of an item, as `:inputs`, from the item number `first` on."""
    keys: dict[str, Node] = {}
    for at in range(first, len(group.items) - 1):
        word = group.items[at]
        if isinstance(word, Word) and word.text.startswith(":"):
            keys.setdefault(word.low, group.items[at + 1])
    return keys


def typed(node: Node | None, first: int = 0) -> list[tuple[str, str]]:
    """The words of a list with types, each with its type in lower case; `object` where none is said."""
    words = [word.low for word in node.items[first:] if isinstance(word, Word)] if isinstance(node, Group) else []
    found: list[tuple[str, str]] = []
    group: list[str] = []
    rest = iter(words)
    for word in rest:
        if word == "-":
            sort = next(rest, "object")
            found += [(name, sort) for name in group]
            group = []
        else:
            group.append(word)
    return found + [(name, "object") for name in group]


def atoms_of(node: Node | None) -> list[Group]:
    """The atoms of a conjunction of atoms."""
    if not isinstance(node, Group) or not node.items:
        return []
    return [atom for inner in node.groups() for atom in atoms_of(inner)] if node.head == "and" else [node]


def spelled(node: Node) -> str:
    """The text of a tree, on one line."""
    return node.text if isinstance(node, Word) else f"({' '.join(map(spelled, node.items))})"


def where(text: str, name: str, place: int) -> str:
    """The line and the column of a place, with the text's name, as `domain, line 3, column 7`."""
    before = text[:place]
    return f"{name}, line {before.count(chr(10)) + 1}, column {place - before.rfind(chr(10))}"


def shown(text: str, place: int) -> str:
    """The line of a place, and a caret below it."""
    start = text.rfind("\n", 0, place) + 1
    end = text.find("\n", place)
    line = text[start : end if end >= 0 else len(text)]
    return f"    {line.expandtabs(1)}\n    {' ' * (place - start)}^"
