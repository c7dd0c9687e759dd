#!/usr/bin/env python3
"""Says in words how a run ended.

    pddlstream solve domain.pddl problem.pddl streams.pddl -- PROGRAM > report
    python3 tools/explain.py report domain.pddl problem.pddl streams.pddl -- PROGRAM

A fault of a text is shown with its line; of a map, with the pool or the stream; of an answer or a generator, with the
request and a command that asks it by hand. Of a report that has no end yet it is said on whom it waits. What `replay`
printed is explained with --of REPORT. Words that mean no command: `python3 tools/explain.py --words solve d.pddl ..`.
"""
from __future__ import annotations

import argparse
import sys

from common.explaining import Run, explained
from common.words import usage_cause


def run_of(words: list[str]) -> Run:
    """The run that the words name."""
    program = words[words.index("--") + 1:] if "--" in words else []
    words = words[:words.index("--")] if "--" in words else words
    parser = argparse.ArgumentParser(
        prog="explain.py", description=__doc__, formatter_class=argparse.RawDescriptionHelpFormatter,
        usage="explain.py REPORT [DOMAIN PROBLEM STREAMS [MAP]] [--grid FILE] [--of REPORT] [-- PROGRAM WORDS]\n"
              "       explain.py --words WORDS")
    parser.add_argument("report", help="what the run printed; - is standard input")
    for name in ("domain", "problem", "streams", "map"):
        parser.add_argument(name, nargs="?", help=f"the {name} file of the run")
    parser.add_argument("--grid", metavar="FILE", help="the grid file of the run")
    parser.add_argument("--of", metavar="REPORT", help="the report that `replay` judged")
    got = parser.parse_args(words)
    if got.report == "-":
        text = sys.stdin.read()
    else:
        with open(got.report, encoding="utf-8", errors="replace", newline="\n") as file:
            text = file.read()
    paths = {name: getattr(got, name) for name in ("domain", "problem", "streams", "map", "grid")}
    return Run(text, {name: path for name, path in paths.items() if path}, program, got.of)


def main(words: list[str]) -> int:
    """Explains, and ends with 0."""
    if words and words[0] == "--words":
        cause = usage_cause(words[1:])
        print(f"fault usage: {cause}" if cause else "these words mean a command; the program takes them")
    else:
        print("\n".join(explained(run_of(words))))
    return 0


if __name__ == "__main__":
    try:
        sys.exit(main(sys.argv[1:]))
    except OSError as error:
        sys.exit(f"explain.py: {error}")
