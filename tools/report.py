#!/usr/bin/env python3
"""Shows a report: as counts, as JSON, as a graph, or as a page to look at.

    pddlstream solve domain.pddl problem.pddl streams.pddl -- PROGRAM > report
    python3 tools/report.py report
    python3 tools/report.py --html report > report.html

A report that has no end yet will do, also on standard input. The page is one HTML file without anything from
elsewhere: the plan as a row of steps with each object's origin, a lane for each stream with its requests in rounds,
and the dreams with what became of them.
"""
from __future__ import annotations

import argparse
import sys

from common.reports import ReportFault, read_report
from views.as_json import as_json
from views.counts import summary
from views.graph import graph
from views.page import page


def main(words: list[str]) -> int:
    """Prints one view of a report."""
    parser = argparse.ArgumentParser(prog="report.py", description=__doc__,
                                     formatter_class=argparse.RawDescriptionHelpFormatter)
    parser.add_argument("report", nargs="?", help="the report; standard input where none or - stands")
    kinds = parser.add_mutually_exclusive_group()
    kinds.add_argument("--summary", action="store_true", help="counts of each stream and of the turns (so where no "
                                                              "view is named)")
    kinds.add_argument("--json", action="store_true", help="all of it as JSON")
    kinds.add_argument("--dot", action="store_true", help="which value led to which, for Graphviz: of the plan's "
                                                          "objects, where there is a plan")
    kinds.add_argument("--html", action="store_true", help="a page to look at")
    parser.add_argument("--all", action="store_true", help="with --dot: of all values")
    got = parser.parse_args(words)
    report = read_report(got.report)
    name = got.report if got.report not in (None, "-") else "report"
    if got.json:
        print(as_json(report))
    elif got.dot:
        print(graph(report, got.all))
    elif got.html:
        sys.stdout.write(page(report, name))
    else:
        print(summary(report))
    return 0


if __name__ == "__main__":
    try:
        sys.exit(main(sys.argv[1:]))
    except (OSError, ReportFault) as error:
        sys.exit(f"report.py: {error}")
