#!/usr/bin/env python3
"""Prints what contracts are made of: the definitions in crates/NAME/specs, by crate and file, each with its own comment.

With no names, all of them, in the order of crates.txt (lowest crates first): under each crate its files with the first
comment of each, and under each file a line a definition, `NAME: what its comment says`. A name of a crate prints that
crate's alone. Any other name prints each definition of that name whole, with its place; `crate/specs/Module` prints the
file's definitions whole.

With --dead it reads pages, and prints each word in backquotes that names a definition, a function, a type, a file or a
crate of another time: one that stands nowhere in the tree. It ends with 1 where there is any.
"""

import argparse
import collections
import os
import re
import sys

ROOT = os.path.dirname(os.path.dirname(os.path.abspath(__file__)))
HEAD = re.compile(r"^(\s*)(abbrev|unfoldable|opaque)? ?pub (?:(record|data) )?([\w'-]+)(?=[ :]|$)")
FIELD = re.compile(r"^\s+pub [\w' -]+ :")

Definition = collections.namedtuple("Definition", "crate module line name sort comment text")


def crates_of(root):
    """Returns the crates that crates.txt lists, lowest first."""
    with open(f"{root}/crates.txt", encoding="utf-8") as file:
        rows = (line.split("#")[0].strip() for line in file)
        return [row.split(":")[0].split()[0] for row in rows if row]


def comment_above(lines, at):
    """Returns the comment that stands right above a line, as one text."""
    first = at
    while first > 0 and lines[first - 1].strip().startswith("--") and not lines[first - 1].strip().startswith("-- ----"):
        first -= 1
    return " ".join(line.strip().lstrip("-").strip() for line in lines[first:at])


def body_from(lines, at):
    """Returns a definition's lines: up to an empty line, or the head of another one of no deeper indent."""
    depth, own = len(lines[at]) - len(lines[at].lstrip()), [lines[at]]
    for line in lines[at + 1 :]:
        found = HEAD.match(line)
        if not line.strip() or (found and not FIELD.match(line) and len(found[1]) <= depth):
            break
        own.append(line)
    while own[-1].strip().startswith("--"):
        own.pop()
    return "\n".join(own)


def definitions_of(crate, path):
    """Returns the first comment of a file of specs/, and its definitions in their order."""
    with open(path, encoding="utf-8") as file:
        lines = file.read().split("\n")
    module, found, inside = os.path.basename(path)[: -len(".antt")], [], False
    for at, line in enumerate(lines):
        inside = inside and bool(line.strip())
        head = HEAD.match(line)
        if head is None or line.lstrip().startswith("pub mod") or (inside and FIELD.match(line)):
            continue
        if not (head[2] or head[3]):
            continue
        inside = head[3] == "record"
        sort = head[3] or "definition"
        found.append(Definition(crate, module, at + 1, head[4], sort, comment_above(lines, at), body_from(lines, at)))
    first = next((at for at, line in enumerate(lines) if not line.startswith("--")), 0)
    return comment_above(lines, first), found


def modules_of(root, crate):
    """Returns the file, the first comment and the definitions of each module of a crate's specs/."""
    folder = f"{root}/crates/{crate}/specs"
    names = sorted(name for name in os.listdir(folder) if name.endswith(".antt")) if os.path.isdir(folder) else []
    return [(name[: -len(".antt")], *definitions_of(crate, f"{folder}/{name}")) for name in names if name != "Lib.antt"]


def outline(root, crates):
    """Yields the lines that tell each definition of these crates in its own words."""
    for crate in crates:
        modules = [it for it in modules_of(root, crate) if it[2]]
        if modules:
            yield f"\n# {crate}"
        for module, about, found in modules:
            yield f"\n{crate}/specs/{module}" + (f": {about}" if about else "")
            yield from (f"  {it.name}" + (f": {it.comment}" if it.comment else "") for it in found)


def whole(definition):
    """Returns a definition with its place and its comment."""
    said = [f"-- {definition.comment}"] if definition.comment else []
    place = f"crates/{definition.crate}/specs/{definition.module}.antt:{definition.line}"
    return "\n".join([place, *said, definition.text, ""])


def named(root, crates, name):
    """Returns the definitions that have this name, or stand in this file, named `crate/specs/Module`."""
    every = (it for crate in crates for _, _, found in modules_of(root, crate) for it in found)
    return [it for it in every if name in (it.name, f"{it.crate}/specs/{it.module}")]


def words_of_tree(root):
    """Returns each word that stands in the code, the definitions, the proofs or a file's name."""
    words = set()
    for folder in ("crates", "bench", "tools", "clients", "examples", "docs"):
        for at, below, names in os.walk(f"{root}/{folder}"):
            below[:] = [it for it in below if it not in ("out", "__pycache__")]
            words.update(os.path.basename(at).split("."))
            for name in names:
                words.update(re.findall(r"[\w'-]+", name))
                if name.endswith((".rt", ".antt", ".edit", ".py", ".sh")) or folder != "docs" and name.endswith(".txt"):
                    with open(f"{at}/{name}", encoding="utf-8", errors="replace") as file:
                        words.update(re.findall(r"[A-Za-z_][\w'-]*", file.read()))
    return words


def dead_words(page, words):
    """Yields the line and the word of each name in backquotes on a page that stands nowhere in the tree."""
    with open(page, encoding="utf-8") as file:
        fenced = False
        for at, line in enumerate(file, 1):
            fenced = fenced != line.startswith("```")
            if fenced or line.startswith("    "):
                continue
            for quoted in re.findall(r"`([^`]+)`", line):
                for word in re.findall(r"(?<![\w.-])(?:[A-Z][a-z]+[A-Z]\w*|[a-z]+_\w+)(?![\w=-])", quoted):
                    if word not in words:
                        yield at, word


def main():
    parser = argparse.ArgumentParser(description=__doc__, formatter_class=argparse.RawDescriptionHelpFormatter)
    parser.add_argument("--dead", action="store_true", help="the names are pages; print names in them that are gone")
    parser.add_argument("names", nargs="*", metavar="NAME", help="a crate, a definition, or crate/specs/Module")
    given = parser.parse_args()
    if given.dead:
        words = words_of_tree(ROOT)
        rows = [(page, at, word) for page in given.names for at, word in dead_words(page, words)]
        for page, at, word in rows:
            print(f"{page}:{at}: {word}")
        return int(bool(rows))
    crates = crates_of(ROOT)
    if not given.names:
        print("\n".join(outline(ROOT, crates)).lstrip())
    status = 0
    for name in given.names:
        if name in crates:
            print("\n".join(outline(ROOT, [name])).lstrip())
            continue
        found = named(ROOT, crates, name)
        print("\n".join(map(whole, found)) if found else f"{name}: no such crate, definition or file of definitions")
        status = status if found else 1
    return status


if __name__ == "__main__":
    try:
        sys.exit(main())
    except BrokenPipeError:
        os.dup2(os.open(os.devnull, os.O_WRONLY), 1)
