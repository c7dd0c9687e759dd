#!/usr/bin/env python3
"""Compares the validator with replay, on plans that the planner finds and on these plans with a step changed.

usage: plans.py PDDLSTREAM PDDL_VALIDATE FOLDER [SECONDS [PLANS]]

Each folder in FOLDER is a task: its files `domain` and `problem`; where it has streams, `streams` too, and `words`, the
generator's words, one a line, with what they name. The planner has SECONDS for each (60) and may go through 100,000
states. A found plan is written as a plan file, and has to be valid at the cost that it claims, which is its report's;
where there are streams the report is named. Then steps are dropped, doubled and exchanged with the next one, up to PLANS
plans a task (60), taken evenly from all that there are, and what the validator says of such a plan has to be what replay
says of the report with these steps:

    valid C           valid, or a wrong cost where C isn't the report's
    invalid N KIND    a wrong plan in the line of step N
    invalid goal      a wrong plan in the line of its cost

A line for each task, and at the end one for all. No part of the gate; a test of tools makes the same comparison of a few
tasks."""
from __future__ import annotations

import pathlib
import subprocess
import sys
import tempfile
from dataclasses import dataclass

STATES = ["--states", "100000"]
TEXTS = ["domain", "problem", "streams"]
PLAN, COST = "7", "8"  # kinds of a wrong report


@dataclass
class Found:
    """A report that has a plan: its lines before the plan, the steps, the cost, and each `from` line by its object."""

    head: list[str]
    steps: list[str]
    cost: str
    origins: dict[str, str]


def read_report(text: str) -> Found | None:
    """The report, where it has a plan."""
    lines = text.splitlines()
    first = next((place for place, line in enumerate(lines) if line.startswith("plan ")), None)
    if first is None or lines[-1] != "done":
        return None
    tail = lines[first + 1 :]
    return Found(
        head=lines[:first],
        steps=[line[3:] for line in tail if line.startswith("do ")],
        cost=next(line[5:] for line in tail if line.startswith("cost ")),
        origins={line.split(" ")[1]: line for line in tail if line.startswith("from ")},
    )


def report_text(found: Found, steps: list[str]) -> str:
    """The report with these steps in place of its own."""
    named = {word for step in steps for word in step.split(" ")}
    origins = [line for name, line in sorted(found.origins.items(), key=lambda it: it[0].encode()) if name in named]
    plan = [f"plan {len(steps)}", *(f"do {step}" for step in steps), f"cost {found.cost}"]
    return "".join(line + "\n" for line in [*found.head, *plan, *origins, "done"])


def plan_text(found: Found, steps: list[str]) -> str:
    """The steps as a plan file: numbered, in upper case but for generated objects, and with a time in brackets."""
    lines = ["; a plan"]
    for place, step in enumerate(steps):
        words = [word if word.startswith("#") else word.upper() for word in step.split(" ")]
        lines.append(f"{place}: ({' '.join(words)}) [1]")
    return "\n".join([*lines, f"; cost = {found.cost}", ""])


def changed(steps: list[str]):
    """Each plan in which a step is dropped, doubled, or exchanged with the next one."""
    for place, step in enumerate(steps):
        yield steps[:place] + steps[place + 1 :]
        yield steps[: place + 1] + steps[place:]
        if place + 1 < len(steps):
            yield steps[:place] + [steps[place + 1], step] + steps[place + 2 :]


def some(plans: list, most: int) -> list:
    """At most so many of them, evenly."""
    return plans if len(plans) <= most else [plans[place * len(plans) // most] for place in range(most)]


class Task:
    """A task in a folder that the programs run in, where reports and plans are written."""

    def __init__(self, planner: str, validator: str, folder: pathlib.Path, has_streams: bool):
        self.planner, self.validator, self.folder, self.has_streams = planner, validator, folder, has_streams

    def said(self, *words: str) -> list[str]:
        """The lines that a program prints."""
        done = subprocess.run(words, cwd=self.folder, capture_output=True, text=True)
        return done.stdout.splitlines()

    def judged(self, found: Found, steps: list[str]) -> list[str]:
        """What the validator says of these steps."""
        (self.folder / "plan").write_text(plan_text(found, steps))
        report = ["report", "streams"] if self.has_streams else []
        return self.said(self.validator, "domain", "problem", "plan", *report)

    def replayed(self, found: Found, steps: list[str]) -> str:
        """What replay says of the report with these steps, in the validator's words."""
        (self.folder / "other").write_text(report_text(found, steps))
        words = self.said(self.planner, "replay", *TEXTS, "other", *STATES)[0].split(" ")
        if words == ["valid"]:
            return f"valid {found.cost}"
        if words[0] != "invalid" or words[2] not in (PLAN, COST):
            return " ".join(words)
        number = int(words[1]) - len(found.head) - 1
        if words[2] == COST:
            return "another cost"
        return f"invalid {number}" if number <= len(steps) else "invalid goal"

    def differs(self, found: Found, steps: list[str]) -> str | None:
        """What both say of these steps, where that differs."""
        mine, theirs = self.judged(found, steps)[0], self.replayed(found, steps)
        if theirs == "another cost":
            agree = mine.startswith("valid ") and mine != f"valid {found.cost}"
        elif theirs.startswith("invalid ") and theirs != "invalid goal":
            agree = mine != "invalid goal" and mine.split(" ")[:2] == theirs.split(" ")
        else:
            agree = mine == theirs
        return None if agree else f"the validator says {mine}, replay {theirs}"

    def compare(self, report: str, most: int) -> tuple[int, list[str]] | None:
        """How many plans were compared, and what differs; nothing where the report has no plan."""
        found = read_report(report)
        if found is None:
            return None
        (self.folder / "report").write_text(report)
        whole = self.judged(found, found.steps)
        wrong = [] if whole == [f"valid {found.cost}"] else [f"the validator says {whole} of the plan itself"]
        plans = [found.steps, *some(list(changed(found.steps)), most)]
        return len(plans), wrong + [it for it in (self.differs(found, steps) for steps in plans) if it]


def solved(planner: str, folder: pathlib.Path, words: list[str], seconds: float) -> str:
    """What solve prints; nothing where it has no end in time."""
    call = [planner, "solve", *TEXTS, *STATES, *(["--", *words] if words else [])]
    try:
        done = subprocess.run(
            call, cwd=folder, stdin=subprocess.DEVNULL, capture_output=True, text=True, timeout=seconds
        )
    except subprocess.TimeoutExpired:
        return ""
    return done.stdout


def main() -> int:
    if len(sys.argv) not in (4, 5, 6):
        print(__doc__, file=sys.stderr)
        return 2
    planner, validator = (str(pathlib.Path(word).resolve()) for word in sys.argv[1:3])
    seconds = float(sys.argv[4]) if len(sys.argv) > 4 else 60
    most = int(sys.argv[5]) if len(sys.argv) > 5 else 60
    found = count = wrong = 0
    for source in sorted(path for path in pathlib.Path(sys.argv[3]).iterdir() if path.is_dir()):
        with tempfile.TemporaryDirectory(prefix="plans-") as made:
            folder = pathlib.Path(made)
            for file in source.iterdir():
                (folder / file.name).write_bytes(file.read_bytes())
            has_streams = (folder / "streams").exists()
            if not has_streams:
                (folder / "streams").write_text("(define (stream none))\n")
            words = (folder / "words").read_text().split("\n")[:-1] if (folder / "words").exists() else []
            task = Task(planner, validator, folder, has_streams)
            result = task.compare(solved(planner, folder, words, seconds), most)
        if result is None:
            print(f"{source.name}: no plan within {seconds:g} s", flush=True)
            continue
        print(f"{source.name}: {result[0]} plans, {len(result[1])} verdicts differ", flush=True)
        for line in result[1]:
            print(f"  {line}", flush=True)
        found, count, wrong = found + 1, count + result[0], wrong + len(result[1])
    print(f"{found} tasks with a plan, {count} plans, {wrong} verdicts differ")
    return 1 if wrong else 0


if __name__ == "__main__":
    sys.exit(main())
