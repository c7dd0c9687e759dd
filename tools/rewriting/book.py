"""What a rewriting says: places that can't be rewritten, notes, and the table of names."""
from __future__ import annotations

import re
from dataclasses import dataclass, field

from common.texts import Group, Source, Tree, Word
from common.trees import group, word

NAME = re.compile(r"[a-z][a-z0-9_-]*\Z")
NUMBER = re.compile(r"-?\d+(\.\d+)?\Z|-?\.\d+\Z")


@dataclass
class Book:
    """All that is told, and the table: rows `action NEW OLD`, `name NEW OLD`, `stream NEW what it answers`."""

    refused: list[str] = field(default_factory=list)
    notes: list[str] = field(default_factory=list)
    table: list[str] = field(default_factory=list)
    renamed: dict[str, str] = field(default_factory=dict)

    def refuse(self, source: Source, place: int, what: str, instead: str) -> None:
        """A place that can't be rewritten, and what to write there."""
        line = f"{source.at(place)}: {what}: {instead}"
        if line not in self.refused:
            self.refused.append(line)

    def note(self, source: Source, place: int, what: str) -> None:
        """Something that was rewritten."""
        line = f"{source.at(place)}: {what}"
        if line not in self.notes:
            self.notes.append(line)

    def row(self, *words: str) -> None:
        """A row of the table, once."""
        line = " ".join(words)
        if line not in self.table:
            self.table.append(line)


def with_plain_names(book: Book, tree: Group) -> Group:
    """The tree with names of letters, digits, - and _ in lower case; the table says what each was."""
    def renamed(item: Tree) -> Tree:
        if isinstance(item, Group):
            return Group(tuple(map(renamed, item)), item.place, item.end)
        text = item.text
        if text[0] in ":-?" or NUMBER.match(text) or text in ("=", "<", ">", "<=", ">=", "+", "*", "/"):
            return item
        plain = text if NAME.match(text) else _plain(book, text)
        if plain != item.raw:
            book.row("name", plain, item.raw)
        return Word(plain, item.raw, item.place)

    return Group(tuple(map(renamed, tree)), tree.place, tree.end)


def _plain(book: Book, text: str) -> str:
    if text not in book.renamed:
        made = re.sub(r"[^a-z0-9_-]", "-", text)
        made = made if made[0].isalpha() else f"n{made}"
        while made in book.renamed.values():
            made += "-x"
        book.renamed[text] = made
    return book.renamed[text]


class Either:
    """Types that stand for `either`: a type above all of the listed ones."""

    def __init__(self, book: Book):
        self.book = book
        self.made: dict[str, list[str]] = {}

    def typed(self, source: Source, items: tuple[Tree, ...]) -> list[Tree]:
        """A typed list with one word for each `either`."""
        return [self.sort(source, item) if isinstance(item, Group) and item.head == "either" else item
                for item in items]

    def sort(self, source: Source, tree: Group) -> Word:
        """The type for one `either`."""
        sorts = list(dict.fromkeys(item.text for item in tree[1:] if isinstance(item, Word)))
        if len(sorts) == 1 or "object" in sorts:
            return word("object" if "object" in sorts else sorts[0], tree.place)
        name = f"either-{'-'.join(sorts)}"
        self.made[name] = sorts
        self.book.note(source, tree.place, f"either: the type {name} above {', '.join(sorts)}")
        return word(name, tree.place)

    def rows(self) -> list[Tree]:
        """What `:types` says of the made types."""
        return [word(text) for name, sorts in self.made.items() for text in (*sorts, "-", name)]


def signature(name: str, variables: list[str]) -> Group:
    """A declaration without types."""
    return group(name, *variables)
