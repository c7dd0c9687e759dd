"""Reports of each mode and version, with each end that a report can have, and each text that is printed in place of one.

The task is the shelf of `crates/row_runs/data`. The reports are written by hand from the rules of the modes; where the
planner is there, a test has `replay` judge them.
"""
from __future__ import annotations

import itertools
import os
from dataclasses import dataclass

from support import MODES, ROOT

DREAM = "dream 2 1\nuse 1 spot cup\nuse 3 apart cup @1.1 corner\nstep put cup @1.1 corner\n"
SECOND_DREAM = "dream 1 1\nuse 2 apart cup #{spot} corner\nstep put cup #{spot} corner\n"
FOUR = SECOND_DREAM.format(spot=4)
TWO = SECOND_DREAM.format(spot=2)
FIRST, PAIR = "ask 1 0 spot cup\ngot 1 2\n", "ask 1 0 spot cup\ngot 1 2 | 4\n"
NEXT = "ask 3 1 spot cup\ngot 3 4\n"
NO, YES = "ask 2 0 apart cup #2 corner\nend 2\n", "ask 4 0 apart cup #4 corner\ngot 4\n"
THIRD = "ask 3 0 apart cup #4 corner\ngot 3\n"

LEVELS = """level
ask 1 0 spot cup
got 1 2
ask 2 0 spot pan
got 2 2
level
ask 3 1 spot cup
got 3 4
ask 4 1 spot pan
got 4 4
ask 5 0 apart cup #2 corner
end 5
ask 6 0 apart pan #2 corner
end 6
level
ask 7 2 spot cup
got 7 6
ask 8 2 spot pan
got 8 6
ask 9 0 apart cup #4 corner
got 9
ask 10 0 apart pan #4 corner
got 10
"""
LEVELS_OF_TWO = """level
ask 1 0 spot cup
got 1 2 | 4
ask 2 0 spot pan
got 2 2
level
ask 3 2 spot cup
got 3 6
ask 4 1 spot pan
got 4 4
ask 5 0 apart cup #2 corner
end 5
ask 6 0 apart cup #4 corner
got 6
ask 7 0 apart pan #2 corner
end 7
"""
# Behind which a plan stands: of each version and mode.
FOUND = {
    (1, "incremental"): LEVELS,
    (1, "focused"): DREAM + FIRST + TWO + NO + "none\nreset\n" + DREAM + NEXT + FOUR + YES,
    (1, "binding"): DREAM + FIRST + NO + "none\nreset\n" + DREAM + NEXT + YES,
    (1, "adaptive"): DREAM + "pick 1\n" + FIRST + NO + "none\npick 1\n" + NEXT + YES,
    (2, "incremental"): LEVELS_OF_TWO,
    (2, "focused"): DREAM + PAIR + TWO + NO + FOUR + THIRD,
    (2, "binding"): DREAM + PAIR + NO + FOUR + THIRD,
    (2, "adaptive"): DREAM + "pick 1\n" + PAIR + NO + FOUR + "pick 2\n" + THIRD,
}
ENDED = "ask 1 0 spot cup\nend 1\n"
LAST = "none\nlevel\nask 2 0 spot pan\nend 2\n"
# Behind which nothing is due.
SPENT = {
    "incremental": "level\n" + ENDED + "ask 2 0 spot pan\nend 2\n",
    "focused": DREAM + ENDED + "none\nreset\n" + LAST,
    "binding": DREAM + ENDED + "none\nreset\n" + LAST,
    "adaptive": DREAM + "pick 1\n" + ENDED + "none\npick 1\nretire 1\nnone\nreset\n" + LAST,
}
# The first request, open.
BEGUN = {mode: text[:text.index("got 1")] for (version, mode), text in FOUND.items() if version == 1}
GIVER = {(1, "incremental"): "3", (1, "focused"): "3", (1, "binding"): "3", (1, "adaptive"): "3",
         **{(2, mode): "1 2" for mode in MODES}}
ANSWER_FAULTS = ("word", "count", "value", "too-long")


@dataclass(frozen=True)
class Printed:
    """A report, or what is left of one: how it ends, its text, its requests, and what `replay` says of it."""

    version: int
    mode: str
    ending: str
    text: str
    verdict: str | None = None

    @property
    def name(self) -> str:
        """What it is, in a line."""
        return f"version {self.version}, {self.mode} mode: {self.ending}"

    @property
    def outcome(self) -> str | None:
        """The kind of its outcome, also where it is cut off behind that."""
        is_outcome = self.ending in ("plan", "no plan") or self.ending.startswith("limit")
        return self.ending if is_outcome else "plan" if self.ending.startswith("cut off") else None

    @property
    def is_done(self) -> bool:
        """Whether its last line is `done`."""
        return self.text.endswith("\ndone\n")

    @property
    def asks(self) -> list[str]:
        """The lines of its requests."""
        return [line for line in self.text.split("\n") if line.startswith("ask ")]


def head(version: int, mode: str, limits: str = "10000 100000 3") -> str:
    """The lines before the first turn."""
    return f"pddlstream {version} {mode}\nlimits {limits}\npool 1 spot apart\n"


def false_at(text: str, before: int) -> str:
    """What `replay` says of a claim that is false, so many lines before the last."""
    return f"invalid {text.count(chr(10)) - before} 10"


def of(version: int, mode: str) -> list[Printed]:
    """All endings of one version and mode."""
    plan = f"plan 1\ndo put cup #4 corner\ncost 1\nfrom #4 {GIVER[version, mode]}\ndone\n"
    first = PAIR if version == 2 else FIRST
    begun = BEGUN[mode]
    open_one, whole = head(version, mode) + begun, head(version, mode) + FOUND[version, mode]
    answered = begun.replace("ask 1 0 spot cup\n", first)
    found: list[tuple[str, str, str | None]] = [
        ("plan", whole + plan, "valid"),
        ("no plan", head(version, mode) + SPENT[mode] + "no plan\ndone\n", "valid"),
        ("limit calls", head(version, mode, "1 100000 3") + answered + "limit calls\ndone\n", "valid"),
        ("cut off behind `plan`", whole + plan.replace("done\n", ""), None),
        ("cut off behind `plan`", whole + "plan 1\ndo put cup", None),
        ("fault generator", f"{open_one}fault generator\n", None),
        ("fault generator", f"{head(version, mode)}fault generator\n", None),
        ("fault memory", f"{open_one}fault memory\n", None),
        ("no end yet, 1 request open", open_one, None),
        ("no end yet, 1 request open", open_one + "got 1 ", None),
        ("no end yet, no request open", head(version, mode) + answered, None)]
    for limit in ("limit states", "limit instances"):
        text = head(version, mode) + SPENT[mode] + f"{limit}\ndone\n"
        found.append((limit, text, false_at(text, 1)))
    found += [(f"fault answer 1 {why}", f"{open_one}fault answer 1 {why}\n", None) for why in ANSWER_FAULTS]
    return [Printed(version, mode, *one) for one in found]


REPORTS = [one for version, mode in itertools.product((1, 2), MODES) for one in of(version, mode)]

TEXT_KINDS = ("bad-byte", "unclosed", "extra", "too-deep", "shape", "unsupported", "number", "unknown", "arity",
              "duplicate", "type-cycle", "derived-cycle", "effect-on-static", "too-many", "stream-cycle")
MAP_KINDS = ("json", "shape", "workers", "unknown", "doubled", "unserved")
GRID_KINDS = ("form", "number", "outside", "duplicate", "too-many")
FILES = ("domain", "problem", "streams", "map", "grid", "report")
# What is printed in place of a report, and the status.
OTHERS: dict[str, int] = {
    "": 8,
    "fault usage\nusage: pddlstream solve DOMAIN PROBLEM STREAMS [OPTIONS] [-- PROGRAM WORDS]\n"
    "usage: pddlstream replay DOMAIN PROBLEM STREAMS REPORT [--states N]\nusage: pddlstream generate N\n"
    "usage: pddlstream deorder DOMAIN PROBLEM STREAMS REPORT [--states N]\n"
    "usage: pddlstream play DOMAIN PROBLEM STREAMS REPORT GRID [--states N]\n": 3,
    **{f"fault input {text} {kind} 0\n": 4 for text in FILES[:3] for kind in TEXT_KINDS},
    **{f"fault input map {kind}\n": 4 for kind in MAP_KINDS},
    **{f"fault input grid {kind} 1\n": 4 for kind in GRID_KINDS},
    **{f"fault read {file} {why}\n": 6 for file in FILES for why in ("failed", "too-long")},
    "fault generator\n": 7,
    "fault memory\n": 9,
    "valid\n": 0,
    **{f"invalid 1 {kind}\n": 10 for kind in range(1, 11)},
    "limit states\n": 2,
    **{f"generate 3 {outcome} levels 2 asks 54\n": status for outcome, status in (
        ("plan", 0), ("no-plan", 1), ("limit-calls", 2), ("limit-states", 2), ("limit-instances", 2))},
    "order 2 1 2\ndo take cup\ndo drop cup\nbefore 1 2\nstage 1 1\nstage 2 2\ndone\n": 0,
    "order 0 0 0\ndone\n": 0,
    "order none\n": 0,
    "order too-long\n": 2,
    "play none\n": 0,
    "held 1 b1\nat 2 b1 0 4\nsafe\ndone\n": 0,
    **{f"held 1 b1\nat 2 b1 0 4\n{fault}\ndone\n": 10 for fault in ("outside 2 b1", "obstacle 2 b1", "clash 2 b1 b2")},
    "clash 0 b1 b2\ndone\n": 10,
    "strange 1\ndone\n": 10,
}


def rows(name: str, *sections: str) -> list[tuple[str, str]]:
    """The lines `> TEXT => WHAT` of some sections of the rows that the gate proves, with the escapes of TEXT undone."""
    found, section = [], ""
    with open(os.path.join(ROOT, "crates", name, "stdout"), encoding="utf-8") as file:
        for line in file.read().split("\n"):
            if line.startswith("# "):
                section = line[2:]
            elif line.startswith("> ") and section in sections:
                text, _, wanted = line[2:].rpartition(" => ")
                found.append((text.encode("ascii").decode("unicode_escape"), wanted))
    return found
