#!/usr/bin/env python3
"""Shows what is dear to prove, by what `rt check` keeps in crates/NAME/out/incremental.

The folder has a file for each module that was checked; those of one function's proof bear its path. The first table
has a row for each crate: its functions, the MB kept of them, the seconds from the first module to the last, and the
seconds a function. The second has a row for each function (or cycle of calls) above a size: the MB of its modules,
the largest of them, and the seconds that they took.

Seconds are wall time, read off the moments at which the files were written, one behind the other. They are right
where one job wrote them (`rt check --jobs 1`, from nothing), and processor seconds only where nothing ran beside it.
A pause of more than --pause seconds is taken for the time between two checks, and left out. Where a crate was checked
again over kept work, modules that went out of use are counted too: remove out/ and check anew for right figures.
"""

import argparse
import collections
import os
import re
import sys

MB = 1_000_000
MODULE = re.compile(r"Rattle-(\w+)-proofs\.(.+?)(\.decls)?\.oantt\Z")
CODE = re.compile(r"(.+)\.Code(-[^.]+)?\Z")

Module = collections.namedtuple("Module", "path size at")
Function = collections.namedtuple("Function", "crate name size largest seconds")
Crate = collections.namedtuple("Crate", "name functions size seconds")


def modules_of(folder):
    """Returns the modules kept below the folder, in the order in which they were written."""
    found = []
    for at, _, names in os.walk(folder):
        for name in names:
            if name.endswith(".oantt"):
                told = os.stat(f"{at}/{name}")
                found.append(Module(name, told.st_size, told.st_mtime))
    return sorted(found, key=lambda it: it.at)


def path_of(module):
    """Returns the path of the item that the module belongs to, or None where it is no module of a proof."""
    found = MODULE.match(module.path)
    return found[2] if found else None


def roots_of(paths):
    """Returns the paths of the functions: those that have code, and the cycles, whose last word begins with '+'."""
    roots = set()
    for path in paths:
        code = CODE.match(path)
        if code:
            roots.add(code[1])
        words = path.split(".")
        cycle = next((at for at, word in enumerate(words) if word.startswith("+")), None)
        if cycle is not None:
            roots.add(".".join(words[: cycle + 1]))
    return roots


def root_of(path, roots):
    """Returns the longest of the roots that the path stands at or below, or None."""
    words = path.split(".")
    for count in range(len(words), 0, -1):
        root = ".".join(words[:count])
        if root in roots:
            return root
    return None


def seconds_of(modules, pause):
    """Returns for each module the seconds since the one before it, and none behind a pause."""
    gaps = [0.0]
    for before, after in zip(modules, modules[1:]):
        gap = after.at - before.at
        gaps.append(gap if gap <= pause else 0.0)
    return gaps


def read_crate(name, folder, pause):
    """Returns the crate with its functions."""
    modules = modules_of(folder)
    gaps = seconds_of(modules, pause)
    roots = roots_of(filter(None, map(path_of, modules)))
    sizes, largest, seconds = (collections.defaultdict(float) for _ in range(3))
    for module, gap in zip(modules, gaps):
        path = path_of(module)
        root = root_of(path, roots) if path else None
        if root:
            sizes[root] += module.size
            largest[root] = max(largest[root], module.size)
            seconds[root] += gap
    functions = [Function(name, it, sizes[it], largest[it], seconds[it]) for it in roots]
    return Crate(name, len(roots), sum(sizes.values()), sum(gaps)), functions


def crates_with_work(root, names):
    """Returns the named crates that have kept work, or all, with its folder."""
    found = []
    for name in names or sorted(os.listdir(f"{root}/crates")):
        folder = f"{root}/crates/{name}/out/incremental"
        if os.path.isdir(folder):
            found.append((name, folder))
        elif names:
            print(f"{name}: nothing is kept of it: run rt check --jobs 1 there", file=sys.stderr)
    return found


def shown(name):
    """Returns the path as the table has it: a cycle by the function that names it."""
    path, is_cycle, first = name.rpartition(".+")
    return f"{path}.{first} and its cycle" if is_cycle else name


def show_crates(crates):
    """Prints the table of crates, the dearest functions first."""
    print("| Crate | functions | MB | seconds | seconds a function |\n|---|---|---|---|---|")
    for it in sorted(crates, key=lambda it: -it.seconds / max(it.functions, 1)):
        each = it.seconds / max(it.functions, 1)
        print(f"| {it.name} | {it.functions} | {it.size / MB:.0f} | {it.seconds:.0f} | {each:.1f} |")


def show_functions(functions, least):
    """Prints the functions whose modules come to at least so many MB, the largest first."""
    print(f"\n| Crate | function, from {least:g} MB on | MB | largest module | seconds |\n|---|---|---|---|---|")
    for it in sorted(functions, key=lambda it: -it.size):
        if it.size >= least * MB:
            print(f"| {it.crate} | {shown(it.name)} | {it.size / MB:.1f} | {it.largest / MB:.1f} | {it.seconds:.0f} |")


def main():
    here = os.path.dirname(os.path.dirname(os.path.realpath(__file__)))
    words = argparse.ArgumentParser(description=__doc__, formatter_class=argparse.RawDescriptionHelpFormatter)
    add = words.add_argument
    add("names", nargs="*", metavar="NAME", help="crates; without any, all that have kept work")
    add("--root", default=here, help="the repository (default: this one)")
    add("--least", type=float, default=5.0, metavar="MB", help="from which size a function is shown (default: 5)")
    add("--pause", type=float, default=300.0, metavar="SECONDS", help="the most that a module may take (default: 300)")
    asked = words.parse_args()
    read = [read_crate(name, folder, asked.pause) for name, folder in crates_with_work(asked.root, asked.names)]
    show_crates([crate for crate, _ in read])
    show_functions([it for _, functions in read for it in functions], asked.least)
    return 0 if read else 1


if __name__ == "__main__":
    sys.exit(main())
