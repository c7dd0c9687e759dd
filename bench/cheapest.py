#!/usr/bin/env python3
"""What it takes to find the cheapest plan: states and seconds of three tasks, with and without --optimal.

usage: cheapest.py PDDLSTREAM

Six blocks in towers by chance, a tour of eleven cities with roads of length, and a walk over all cells of a grid of four by
four. The states are the least limit with which a plan is found, which is tried out; the seconds are the least of three runs
with that limit. It prints the rows of the table in docs/PERFORMANCE.md. No part of the gate."""
from __future__ import annotations

import itertools
import pathlib
import random
import subprocess
import sys
import tempfile
import time

MOST_STATES = 200_000
STREAMS = "(define (stream none))\n"

BLOCKS = """(define (domain blocks)
  (:predicates (on ?x ?y) (table ?x) (clear ?x) (free) (held ?x))
  (:action lift :parameters (?x) :precondition (and (clear ?x) (table ?x) (free))
    :effect (and (held ?x) (not (clear ?x)) (not (table ?x)) (not (free))))
  (:action put :parameters (?x) :precondition (held ?x)
    :effect (and (table ?x) (clear ?x) (free) (not (held ?x))))
  (:action unstack :parameters (?x ?y) :precondition (and (on ?x ?y) (clear ?x) (free))
    :effect (and (held ?x) (clear ?y) (not (on ?x ?y)) (not (clear ?x)) (not (free))))
  (:action stack :parameters (?x ?y) :precondition (and (held ?x) (clear ?y))
    :effect (and (on ?x ?y) (clear ?x) (free) (not (held ?x)) (not (clear ?y)))))
"""

WAYS = """(define (domain ways)
  (:predicates (at ?x) (road ?x ?y) (seen ?x))
  (:functions (length ?x ?y) - number (total-cost) - number)
  (:action go :parameters (?x ?y) :precondition (and (at ?x) (road ?x ?y))
    :effect (and (at ?y) (seen ?y) (not (at ?x)) (increase (total-cost) (length ?x ?y)))))
"""


def towers(names: list[str], chance: random.Random) -> list[list[str]]:
    """The blocks in towers, each from the bottom up."""
    found: list[list[str]] = []
    for name in chance.sample(names, len(names)):
        if found and chance.random() < 0.6:
            chance.choice(found).append(name)
        else:
            found.append([name])
    return found


def blocks(count: int, seed: int) -> tuple[str, str]:
    """A task of blocks: the domain and the problem."""
    chance = random.Random(seed)
    names = [f"b{n}" for n in range(1, count + 1)]
    start, goal = towers(names, chance), towers(names, chance)
    init = ["(free)"]
    for tower in start:
        init += [f"(table {tower[0]})", f"(clear {tower[-1]})"]
        init += [f"(on {above} {below})" for below, above in itertools.pairwise(tower)]
    wanted = [f"(on {above} {below})" for tower in goal for below, above in itertools.pairwise(tower)]
    problem = (f"(define (problem p) (:domain blocks) (:objects {' '.join(names)})\n"
               f"  (:init {' '.join(init)})\n  (:goal (and {' '.join(wanted)})))\n")
    return BLOCKS, problem


def ways(places: list[str], roads: dict[tuple[str, str], int]) -> tuple[str, str]:
    """A task in which all places are to be seen, from the first one on."""
    init = [f"(at {places[0]}) (seen {places[0]})"]
    init += [f"(road {x} {y}) (= (length {x} {y}) {cost})" for (x, y), cost in roads.items()]
    problem = (f"(define (problem p) (:domain ways) (:objects {' '.join(places)})\n"
               f"  (:init {' '.join(init)})\n  (:goal (and {' '.join(f'(seen {x})' for x in places)}))\n"
               f"  (:metric minimize (total-cost)))\n")
    return WAYS, problem


def tour(count: int, seed: int) -> tuple[str, str]:
    """Cities at places by chance, a road between any two, as long as they are apart."""
    chance = random.Random(seed)
    at = {f"c{n}": (chance.randrange(100), chance.randrange(100)) for n in range(1, count + 1)}
    roads = {(x, y): round(((at[x][0] - at[y][0]) ** 2 + (at[x][1] - at[y][1]) ** 2) ** 0.5)
             for x, y in itertools.permutations(at, 2)}
    return ways(list(at), roads)


def walk(side: int) -> tuple[str, str]:
    """A grid whose cells are all to be seen; each step costs 1."""
    cells = {(x, y): f"p{x}{y}" for x in range(side) for y in range(side)}
    roads = {(cells[x, y], cells[x + dx, y + dy]): 1 for x, y in cells for dx, dy in ((1, 0), (-1, 0), (0, 1), (0, -1))
             if (x + dx, y + dy) in cells}
    return ways(list(cells.values()), roads)


class Planner:
    """The planner on one task, in a folder of its own."""

    def __init__(self, program: str, task: tuple[str, str], words: list[str]):
        self.room = tempfile.TemporaryDirectory(prefix="cheapest-")
        for name, text in zip(("domain", "problem", "streams"), (*task, STREAMS)):
            pathlib.Path(self.room.name, name).write_text(text, encoding="utf-8")
        self.words = [str(pathlib.Path(program).resolve()), "solve", *words, "domain", "problem", "streams"]

    def report(self, states: int) -> str:
        """The report within so many states."""
        words = [*self.words, "--states", str(states), "--", "never-started"]
        return subprocess.run(words, cwd=self.room.name, capture_output=True, text=True, check=False).stdout

    def cost(self, states: int) -> int | None:
        """What the plan costs; nothing where none is found."""
        found = [line for line in self.report(states).splitlines() if line.startswith("cost ")]
        return int(found[0].split(" ")[1]) if found else None

    def least(self) -> int:
        """The least limit of states with which a plan is found."""
        low, high = 0, MOST_STATES
        while high - low > 1:
            middle = (low + high) // 2
            low, high = (low, middle) if self.cost(middle) is not None else (middle, high)
        return high

    def seconds(self, states: int) -> float:
        """The least time of three runs."""
        times = []
        for _ in range(3):
            start = time.monotonic()
            self.report(states)
            times.append(time.monotonic() - start)
        return min(times)


def main() -> None:
    if len(sys.argv) != 2:
        sys.exit(__doc__)
    print("| Task | cost | states | seconds | with `--optimal`: cost | states | seconds |\n|---|---|---|---|---|---|---|")
    for name, task in (("six blocks", blocks(6, 1)), ("a tour of eleven cities", tour(11, 1)), ("a walk of 4 by 4", walk(4))):
        row = [name]
        for words in ([], ["--optimal"]):
            planner = Planner(sys.argv[1], task, words)
            states = planner.least()
            row += [str(planner.cost(states)), f"{states:,}", f"{planner.seconds(states):.3f}"]
        print(f"| {' | '.join(row)} |")


if __name__ == "__main__":
    main()
