#!/usr/bin/env python3
"""Writes the task over what a report certifies as plain PDDL, and the plan as VAL reads it.

    python3 tools/to_pddl.py domain.pddl problem.pddl streams.pddl report --out plain
    Validate plain/domain.pddl plain/problem.pddl plain/plan

Into the folder come domain.pddl, problem.pddl and, where the report has a plan, plan. Generated objects get names of
PDDL; comments at the head of the problem say which. Where an object has two types, or a type two above it, types are
written as predicates. What the tools of others say of the plan, they say of these texts: that the report certifies what they
take for granted is what `pddlstream replay` judges.
"""
from __future__ import annotations

import argparse
import os
import sys

from common.plain import PlainTask, plain_task
from common.reports import ReportFault, read_report
from common.tasks import read_domain, read_problem, read_streams
from common.texts import TextFault


def write(folder: str, task: PlainTask) -> list[str]:
    """Writes the files, and answers their paths."""
    os.makedirs(folder, exist_ok=True)
    texts = {"domain.pddl": task.domain, "problem.pddl": task.problem,
             **({"plan": task.plan} if task.plan is not None else {})}
    for name, text in texts.items():
        with open(os.path.join(folder, name), "w", encoding="utf-8") as file:
            file.write(text)
    return [os.path.join(folder, name) for name in texts]


def main(words: list[str]) -> int:
    """Writes, and says what."""
    parser = argparse.ArgumentParser(prog="to_pddl.py", description=__doc__,
                                     formatter_class=argparse.RawDescriptionHelpFormatter)
    for name in ("domain", "problem", "streams", "report"):
        parser.add_argument(name)
    parser.add_argument("--out", metavar="FOLDER", default="plain", help="where the files come (plain)")
    got = parser.parse_args(words)
    task = plain_task(read_domain(got.domain), read_problem(got.problem), read_streams(got.streams),
                      read_report(got.report))
    print("\n".join(write(got.out, task)))
    return 0


if __name__ == "__main__":
    try:
        sys.exit(main(sys.argv[1:]))
    except (OSError, TextFault, ReportFault) as error:
        sys.exit(f"to_pddl.py: {error}")
