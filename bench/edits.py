#!/usr/bin/env python3
"""Tries the edits beside the gate, crates/NAME/edits/*.edit: the prover must refuse each. No part of the gate.

  bench/edits.sh [--gate] [--behind-ci] [--jobs N] [NAME..]    of these crates, or of all that have some

It works in a clone, so it tries what is committed. Libraries that `rt check` built here (out/rlib) are taken over; others
are proved first, in the clone. With --behind-ci all libraries are taken over as `rt ci` left them, with their statements
alone, as the gate does when it tries an edit: a run of `rt ci` over this commit has to have passed here. With --gate the
edits in must-fail/ are tried. N crates are at work at a time, with a check each (1 where nothing is said), those with the
most edits first.

An edit in a function's body leaves the contracts as they are, so that it can't touch the proof of another function. Edits
of functions of their own are therefore made together, and one check tells of each function whether it is proved. One of
which the check only says that what it calls isn't proved is tried again, without what was refused. An edit outside of the
functions' bodies, and any that is left over, is made alone, and the whole crate checked.

Each edit has a line; below that of one that wasn't refused stands what the check said. Behind them stands how many
checks the crate took, and their seconds. The last line is 'N refused, M failed'.
"""

import argparse
import collections
import concurrent.futures
import glob
import importlib
import os
import re
import shutil
import subprocess
import sys
import tempfile
import threading
import time

ROOT = os.path.dirname(os.path.dirname(os.path.realpath(__file__)))

Edit = collections.namedtuple("Edit", "name file pairs function")
Said = collections.namedtuple("Said", "status lines")

FUNCTION = re.compile(r"^ *(?:pub(?:\([a-z]+\))? )?(?:const )?(?:unsafe )?fn (\w+)", re.M)
IMPL = re.compile(r"^impl(?:<[^{]*?>)? (?:(\S+) for )?(\w+)[^{]*\{", re.M)
# What a check says of a function that is refused for itself, and not since what it calls is.
REFUSED = re.compile(r"fn \w+::(\S+): (?:not proved|no proof: (?!it calls))")
ERROR = re.compile(r"(?:\./)?proofs/(\S+)/\w+\.antt:\d+:\d+: error: ")
MISSING = re.compile(r"has no field|is not in scope|has no `|was not admitted")
GOAL = re.compile(r"note: src/\S+:\d+:\d+: it is not proved|fn \S+: no proof: .*did not prove")


# ---- edits


def read(file):
    """Returns the text of a file."""
    with open(file, encoding="utf-8") as it:
        return it.read()


def write(file, text):
    """Writes the text of a file."""
    with open(file, "w", encoding="utf-8") as it:
        it.write(text)


def read_edit(file, crate):
    """Returns the edit in the file. Its function is None where a line of it stands outside of a body."""
    lines = read(file).splitlines()
    place = next(it[6:].strip() for it in lines if it.startswith("file: "))
    olds, news = ([it[5:] for it in lines if it.startswith(word)] for word in ("old: ", "new: "))
    text = read(f"{crate}/{place}")
    found = {function_at(text, place, it) for it in olds if not it.startswith("use ")}
    function = found.pop() if len(found) == 1 else None
    return Edit(os.path.basename(file).removesuffix(".edit"), place, list(zip(olds, news)), function)


def function_at(text, file, old):
    """Returns the path, below the crate, of the function in whose body this stands, or None."""
    at = text.find(old)
    heads = [it for it in FUNCTION.finditer(text) if it.start() <= at]
    if at < 0 or not heads or not file.startswith("src/"):
        return None
    head = heads[-1]
    indent = re.match(" *", head[0])[0]
    body, end = text.find(f"\n{indent}{{\n", head.end()), text.find(f"\n{indent}}}\n", head.end())
    body = head.end() + text[head.end():].find("{\n") if body < 0 or body > end >= 0 else body
    if not body < at < end:
        return None
    path = [it for it in file.removeprefix("src/").removesuffix(".rt").split("/") if it not in ("lib", "main", "mod")]
    if indent:
        impls = [it for it in IMPL.finditer(text) if it.start() < at]
        if not impls or impls[-1][1]:
            return None
        path.append(impls[-1][2])
    return "::".join([*path, head[1]])


# ---- checks


def over_proved_libraries(_crate, flags):
    """Returns the words of a check that proves the libraries first, where they aren't built."""
    return ["rt", "check", *flags]


def over_built_libraries():
    """Returns what gives the words of the check that `rt check` makes behind that, over libraries as they stand."""
    sys.path.append(os.path.dirname(os.path.realpath(shutil.which("rt"))))
    rtlib = importlib.import_module("rtlib")
    # (only the main thread may ask for it)
    guarded = rtlib.guarded()

    def words(crate, flags):
        it = rtlib.Crate(crate, os.path.dirname(os.path.dirname(crate)), {})
        return [*guarded, rtlib.RATTLE, "check", *it.words(flags, keeps=False), *rtlib.KEPT]

    return words


def check(crate, functions, words):
    """Checks these functions of the crate, or all where there are none, and returns what was said."""
    only = [word for it in functions for word in ("--only", it)]
    how = {"cwd": crate, "stdout": subprocess.PIPE, "stderr": subprocess.STDOUT, "text": True, "errors": "replace"}
    ran = subprocess.run(words(crate, [*only, "--jobs", "1"]), check=False, **how)
    return Said(ran.returncode, ran.stdout.splitlines())


def refused_in(said):
    """Returns the functions that the check refused for themselves, by their paths below the crate, each with whether more
    is told of it than that a proof file names what the edit takes away."""
    found, has_goal, wrong = {}, False, set()
    for line in said.lines:
        error = ERROR.match(line)
        if error and not MISSING.search(line):
            wrong.add(error[1].replace("/", "::"))
        has_goal = has_goal or bool(GOAL.match(line))
        refused = REFUSED.match(line)
        if refused:
            found[refused[1]] = has_goal
        if line.startswith("fn "):
            has_goal = False
    return {function: told or function in wrong for function, told in found.items()}


class Crate:
    """A crate in the clone, with the edits that are left to try, and what gives the words of a check."""

    def __init__(self, clone, name, kind, words):
        self.folder, self.name, self.words = f"{clone}/crates/{name}", name, words
        self.left = [read_edit(it, self.folder) for it in sorted(glob.glob(f"{self.folder}/{kind}/*.edit"))]
        self.texts, self.refused, self.failed, self.checks = {}, [], [], 0

    def apply(self, edit):
        """Makes the edit, and returns whether each of its lines stood there once."""
        text = read(f"{self.folder}/{edit.file}")
        self.texts.setdefault(edit.file, text)
        for old, new in edit.pairs:
            if text.count(old) != 1:
                return False
            text = text.replace(old, new)
        write(f"{self.folder}/{edit.file}", text)
        return True

    def check(self, functions):
        """Checks the crate and takes its edits back. Returns what was said."""
        said = check(self.folder, functions, self.words)
        self.checks += 1
        for file, text in self.texts.items():
            write(f"{self.folder}/{file}", text)
        self.texts = {}
        return said

    def try_all(self):
        """Tries each edit."""
        while True:
            group = self.next_group()
            if len(group) < 2 or not self.try_together(group):
                break
        for edit in self.left:
            self.try_alone(edit)

    def next_group(self):
        """Returns edits of functions of their own, one each."""
        first = {}
        for edit in self.left:
            if edit.function:
                first.setdefault(edit.function, edit)
        return list(first.values())

    def try_together(self, group):
        """Tries the edits in one check, and returns whether one was refused."""
        made = [it for it in group if self.apply(it)]
        told = refused_in(self.check([it.function for it in made]))
        settled = [it for it in made if it.function in told]
        self.refused += [(it, told[it.function]) for it in settled]
        self.left = [it for it in self.left if it not in settled]
        return bool(settled)

    def try_alone(self, edit):
        """Tries the edit over its function, or over the whole crate where it stands in no body."""
        if not self.apply(edit):
            self.failed.append((edit, ["a line of it doesn't stand there just once"]))
            return
        said = self.check([edit.function] if edit.function else [])
        if said.status == 2 and edit.function and self.apply(edit):
            # (the function has no path)
            said = self.check([])
        told = refused_in(said)
        if said.status == 1 and told:
            self.refused.append((edit, any(told.values())))
        else:
            self.failed.append((edit, said.lines[-8:]))


# ---- the whole


def take_libraries(clone, are_all):
    """Links the libraries that `rt check` built here into the clone, or all."""
    for made in glob.glob(f"{ROOT}/crates/*/out/rlib"):
        if not are_all and not os.path.isfile(f"{made}/stamp"):
            continue
        to = f"{clone}/{os.path.relpath(made, ROOT)}"
        if os.path.isdir(os.path.dirname(os.path.dirname(to))):
            shutil.copytree(made, to, copy_function=os.link)


def show(crate, seconds):
    """Prints what came of a crate's edits."""
    for edit, has_goal in crate.refused:
        print(f"{crate.name}/{edit.name}: refused{'' if has_goal else ', only since a proof file names what it takes away'}")
    for edit, lines in crate.failed:
        print(f"{crate.name}/{edit.name}: FAILED", *lines, sep="\n    ")
    print(f"{crate.name}: {len(crate.refused)} refused in {crate.checks} checks, {seconds:.0f} s", flush=True)


def main():
    parser = argparse.ArgumentParser(description=__doc__, formatter_class=argparse.RawDescriptionHelpFormatter)
    parser.add_argument("--gate", action="store_true")
    parser.add_argument("--behind-ci", action="store_true")
    parser.add_argument("--jobs", type=int, default=1)
    parser.add_argument("names", nargs="*", metavar="NAME")
    options = parser.parse_args()
    kind = "must-fail" if options.gate else "edits"
    words = over_built_libraries() if options.behind_ci else over_proved_libraries
    refused, failed, printing = [], [], threading.Lock()
    with tempfile.TemporaryDirectory() as folder:
        clone = f"{folder}/clone"
        subprocess.run(["git", "clone", "-q", ROOT, clone], check=True)
        take_libraries(clone, options.behind_ci)
        tried = collections.Counter(it.split("/")[-3] for it in glob.glob(f"{clone}/crates/*/{kind}/*.edit"))
        every = [name for name, _ in tried.most_common()]

        def work(name):
            begun, crate = time.time(), Crate(clone, name, kind, words)
            crate.try_all()
            with printing:
                show(crate, time.time() - begun)
                refused.extend(crate.refused)
                failed.extend(crate.failed)

        with concurrent.futures.ThreadPoolExecutor(options.jobs) as pool:
            for it in [pool.submit(work, it) for it in options.names or every]:
                it.result()
    print(f"{len(refused)} refused, {len(failed)} failed")
    return 1 if failed else 0


if __name__ == "__main__":
    sys.exit(main())
