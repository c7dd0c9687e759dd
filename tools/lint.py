#!/usr/bin/env python3
"""Tells what the planner accepts and is yet likely a mistake.

    python3 tools/lint.py domain.pddl problem.pddl streams.pddl

A line is FILE:LINE:COL: KIND: what is likely wrong. Kinds: `type` (an argument whose type isn't the declared one),
`negation` (a fact that answers certify is wanted false), `never-asked` (a stream whose :domain nothing gives),
`never-true` (an atom that a condition wants and nothing gives), `unused` (a certified predicate that nothing wants),
`depth` (the longest chain of streams is longer than --depth by default). It ends with 1 where it told something.
"""
from __future__ import annotations

import argparse
import sys

from common.linting import lint
from common.tasks import read_domain, read_problem, read_streams
from common.texts import TextFault
from common.uses import longest_chain


def main(words: list[str]) -> int:
    """Prints what it finds, and the longest chain of streams."""
    parser = argparse.ArgumentParser(prog="lint.py", description=__doc__,
                                     formatter_class=argparse.RawDescriptionHelpFormatter)
    for name in ("domain", "problem", "streams"):
        parser.add_argument(name)
    got = parser.parse_args(words)
    domain, problem, streams = read_domain(got.domain), read_problem(got.problem), read_streams(got.streams)
    told = lint(domain, problem, streams)
    print("\n".join(told), end="\n" if told else "")
    longest = longest_chain(domain, streams)
    print(f"longest chain: {len(longest)} streams{': ' if longest else ''}{' > '.join(longest)}")
    return 1 if told else 0


if __name__ == "__main__":
    try:
        sys.exit(main(sys.argv[1:]))
    except (OSError, TextFault) as error:
        sys.exit(f"lint.py: {error}")
