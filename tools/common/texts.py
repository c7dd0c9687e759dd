"""PDDL texts as trees whose words and lists know their places."""
from __future__ import annotations

import re
from dataclasses import dataclass, field
from typing import Iterator, Union

TOKEN = re.compile(r"[ \t\r\n]+|;[^\n]*|[()]|[^ \t\r\n();]+")


@dataclass(frozen=True)
class Source:
    """A text with the name of its file."""

    path: str
    text: str

    def at(self, place: int) -> str:
        """FILE:LINE:COL of a place, lines and columns counted from 1."""
        before = self.text[:place]
        return f"{self.path}:{before.count(chr(10)) + 1}:{place - before.rfind(chr(10))}"

    def shown(self, place: int) -> str:
        """The line of a place with a caret below the place."""
        start = self.text.rfind("\n", 0, place) + 1
        end = self.text.find("\n", place)
        line = self.text[start:] if end < 0 else self.text[start:end]
        return f"  {line.replace(chr(9), ' ')}\n  {' ' * (place - start)}^"


class TextFault(Exception):
    """A place of a text that can't be read, with what is wrong there."""

    def __init__(self, source: Source, place: int, why: str):
        super().__init__(f"{source.at(place)}: {why}")
        self.source, self.place, self.why = source, place, why


@dataclass(frozen=True)
class Word:
    """A word: folded to lower case, as it stood, and where."""

    text: str
    raw: str
    place: int


@dataclass(frozen=True)
class Group:
    """A list in parentheses, from its place to behind its end."""

    items: tuple["Tree", ...]
    place: int
    end: int = 0

    def __iter__(self) -> Iterator["Tree"]:
        return iter(self.items)

    def __len__(self) -> int:
        return len(self.items)

    def __getitem__(self, at):
        return self.items[at]

    @property
    def head(self) -> str:
        """The first word, or nothing where the list is empty or begins with a list."""
        return self.items[0].text if self.items and isinstance(self.items[0], Word) else ""


Tree = Union[Word, Group]


@dataclass
class _Open:
    """A list whose end hasn't come."""

    place: int
    items: list[Tree] = field(default_factory=list)


def read_source(path: str) -> Source:
    """The text of a file; bytes that are no UTF-8 stand as they are."""
    with open(path, encoding="utf-8", errors="surrogateescape", newline="") as file:
        return Source(path, file.read())


def read_tree(source: Source) -> Group:
    """The one list of a text."""
    opened: list[_Open] = [_Open(-1)]
    for match in TOKEN.finditer(source.text):
        token, place = match.group(), match.start()
        if token == "(":
            opened.append(_Open(place))
        elif token == ")":
            if len(opened) == 1:
                raise TextFault(source, place, "a ) that nothing opened")
            last = opened.pop()
            opened[-1].items.append(Group(tuple(last.items), last.place, match.end()))
        elif token[0] != ";" and not token.isspace():
            opened[-1].items.append(Word(token.lower(), token, place))
    if len(opened) > 1:
        raise TextFault(source, opened[-1].place, "a ( that isn't closed")
    return _only_list(source, opened[0].items)


def _only_list(source: Source, items: list[Tree]) -> Group:
    if not items:
        raise TextFault(source, 0, "there is no list")
    first = items[0]
    if not isinstance(first, Group):
        raise TextFault(source, first.place, "a list is due")
    if len(items) > 1:
        raise TextFault(source, items[1].place, "something stands behind the list")
    return first


def spelled(tree: Tree) -> str:
    """A tree in one line, in lower case."""
    return tree.text if isinstance(tree, Word) else f"({' '.join(map(spelled, tree))})"
