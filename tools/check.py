#!/usr/bin/env python3
"""Asks a generator a report's requests again, shuffled, of new processes, and says where it answers otherwise.

    pddlstream solve domain.pddl problem.pddl streams.pddl -- PROGRAM > report
    python3 tools/check.py report -- PROGRAM

With --map FILE in place of a program each pool's program is asked its own streams. What is told: another answer than
before, a second line to one request, a line before the first request, an answer that comes only when the input ends (it
isn't flushed), none at all, and a program that doesn't end when its input does. Behind that, the requests of each
stream with their mean and their greatest time. It ends with 1 where something is wrong.
"""
from __future__ import annotations

import argparse
import sys

from common.asking import Asked, Findings, Patience, ask_all
from common.maps import pools_of
from common.reports import Report, ReportFault, read_report


def asked_of(report: Report, streams: set[str] | None) -> list[Asked]:
    """The requests of these streams or of all; of one that is open any answer will do."""
    return [Asked(ask.number, ask.stream, ask.request, ask.answer.said if ask.answer is not None else None)
            for ask in report.asks.values() if streams is None or ask.stream in streams]


def jobs_of(got: argparse.Namespace, program: list[str], report: Report) -> list[tuple[list[str], list[Asked]]]:
    """Each program with the requests that it is asked."""
    only = set(got.only.lower().split(",")) if got.only else None
    if not got.map:
        return [(program, asked_of(report, only))]
    with open(got.map, encoding="utf-8") as file:
        pools = pools_of(file.read())       # (a ValueError where it is no map)
    named = [(pool, set(pool.streams) if only is None else only & set(pool.streams)) for pool in pools]
    return [(pool.run, asked_of(report, streams)) for pool, streams in named if pool.run[0] != "@grid"]


def print_times(findings: Findings) -> None:
    """A line for each stream."""
    for stream, times in sorted(findings.times.items()):
        mean, most = 1000 * sum(times) / len(times), 1000 * max(times)
        print(f"{stream:24} {len(times):6} requests, mean {mean:9.2f} ms, most {most:9.2f} ms")


def main(words: list[str]) -> int:
    """Asks all, and ends with 0 where nothing is wrong."""
    program = words[words.index("--") + 1:] if "--" in words else []
    words = words[:words.index("--")] if "--" in words else words
    parser = argparse.ArgumentParser(
        prog="check.py", description=__doc__, formatter_class=argparse.RawDescriptionHelpFormatter,
        usage="check.py REPORT [OPTIONS] -- PROGRAM WORDS\n       check.py REPORT [OPTIONS] --map FILE")
    parser.add_argument("report", help="a report; one without an end will do, also one whose last request is open")
    parser.add_argument("--map", metavar="FILE", help="the map whose programs are asked")
    parser.add_argument("--only", metavar="STREAMS", help="ask only these streams, with commas between them")
    parser.add_argument("--seconds", type=float, default=10, help="how long to wait for an answer (10)")
    parser.add_argument("--silence", type=float, default=0.5, help="how long to listen before the first request (0.5)")
    parser.add_argument("--workers", type=int, default=2, help="how many processes share the requests (2)")
    parser.add_argument("--seed", type=int, default=1, help="of the order in which they are asked (1)")
    got = parser.parse_args(words)
    if bool(program) == bool(got.map):
        parser.error("name a program behind --, or a map")
    findings = Findings()
    jobs = jobs_of(got, program, read_report(got.report))
    if not any(asked for _, asked in jobs):
        of = f" of {got.only}" if got.only else " that a program of the map answers" if got.map else ""
        print(f"the report has no request{of}: nothing was asked")
        return 1
    for run, asked in jobs:
        ask_all(run, asked, got.workers, Patience(got.seconds, got.silence), got.seed, findings)
    print("\n".join(findings.faults), end="\n" if findings.faults else "")
    print_times(findings)
    print("same" if not findings.faults else f"{len(findings.faults)} fault{'s' * (len(findings.faults) > 1)}")
    return 1 if findings.faults else 0


if __name__ == "__main__":
    try:
        sys.exit(main(sys.argv[1:]))
    except (OSError, ReportFault, ValueError) as error:
        sys.exit(f"check.py: {error}")
