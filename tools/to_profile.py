#!/usr/bin/env python3
"""Rewrites PDDL and PDDLStream files into what the program reads, or says what can't be.

    python3 tools/to_profile.py domain.pddl problem.pddl streams.pddl --out plain
    python3 tools/to_profile.py --back plain/names report

Rewritten are `forall` and `imply` in conditions, `either`, `when` (an action for each case), `forall` in effects over
the problem's objects, negative initial facts, names with other letters, and of PDDLStream `:predicate` (a test of what
is wanted, true or false), `:function` (a cost stream) and `:rule`. Into the folder come domain.pddl, problem.pddl,
streams.pddl and `names`: what each new name stands for and what new streams answer. What can't be rewritten is told as
FILE:LINE:COL with what to write in its place; then nothing is written, and it ends with 1. With --back the plan of a
report is printed with the old names.
"""
from __future__ import annotations

import argparse
import os
import sys

from common.reports import Report, ReportFault, read_report
from common.texts import TextFault, read_source
from rewriting.back import old_plan
from rewriting.task import Rewriter


def write(folder: str, texts: dict[str, str]) -> None:
    """Writes the files into the folder."""
    os.makedirs(folder, exist_ok=True)
    for name, text in texts.items():
        with open(os.path.join(folder, name), "w", encoding="utf-8") as file:
            file.write(text)
        print(os.path.join(folder, name))


def rewrite(domain: str, problem: str, streams: str | None, folder: str) -> int:
    """Rewrites a task, and says what it did to standard error."""
    made = Rewriter(read_source(domain), read_source(problem), read_source(streams) if streams else None).rewritten()
    if made.book.refused:
        print("\n".join(made.book.refused), file=sys.stderr)
        return 1
    for note in made.book.notes:
        print(note, file=sys.stderr)
    texts = {"domain.pddl": made.domain, "problem.pddl": made.problem,
             "names": "".join(f"{row}\n" for row in made.book.table)}
    if made.streams is not None:
        texts["streams.pddl"] = made.streams
    write(folder, texts)
    return 0


def print_back(report: Report, names: str) -> int:
    """Prints the plan of a report with the old names; with 1 where it has none."""
    if report.plan is None:
        print("the report has no plan", file=sys.stderr)
        return 1
    with open(names, encoding="utf-8") as file:
        print("".join(f"{step}\n" for step in old_plan(report.plan, file.read().split("\n"))), end="")
    return 0


def main(words: list[str]) -> int:
    """Rewrites a task, or a plan back."""
    parser = argparse.ArgumentParser(prog="to_profile.py", description=__doc__,
                                     formatter_class=argparse.RawDescriptionHelpFormatter)
    parser.add_argument("domain", help="the domain (with --back the report)")
    parser.add_argument("problem", nargs="?", help="the problem")
    parser.add_argument("streams", nargs="?", help="the stream file, where there is one")
    parser.add_argument("--out", metavar="FOLDER", default="plain", help="where the files come (plain)")
    parser.add_argument("--back", metavar="NAMES", help="the table of an earlier rewriting")
    got = parser.parse_args(words)
    if got.back:
        return print_back(read_report(got.domain), got.back)
    if not got.problem:
        parser.error("a problem is due")
    return rewrite(got.domain, got.problem, got.streams, got.out)


if __name__ == "__main__":
    try:
        sys.exit(main(sys.argv[1:]))
    except (OSError, TextFault, ReportFault) as error:
        sys.exit(f"to_profile.py: {error}")
