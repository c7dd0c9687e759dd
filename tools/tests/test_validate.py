"""The validator says of each plan what replay says of the report that has it, and what a checker says that shares nothing
with it."""
from __future__ import annotations

import os
import pathlib
import shutil
import subprocess
import sys
import unittest
from random import Random

from support import FETCH, GRID, MODES, PROGRAM, ROOT, SHELF, TRAY, Folder, needs_program, solve, task
from common.texts import Source, read_tree
from plan_checker import World, pairs, world

sys.path.insert(0, os.path.join(ROOT, "bench"))
import plans

VALIDATOR = os.path.join(ROOT, "crates", "pddl_validate", "out", "pddl_validate")
PLAIN = os.path.join(ROOT, "crates", "validate_runs", "data")
MOST = 45  # changed plans of a task
needs_validator = unittest.skipUnless(os.path.exists(VALIDATOR), f"there is no {VALIDATOR}")


@needs_program
@needs_validator
class SameVerdict(Folder):
    def compare(self, texts: list[str], report: str, has_streams: bool) -> None:
        for name, path in zip(plans.TEXTS, texts):
            shutil.copyfile(path, os.path.join(self.folder, name))
        judged = plans.Task(PROGRAM, VALIDATOR, pathlib.Path(self.folder), has_streams).compare(report, MOST)
        assert judged is not None, "the report has no plan"
        self.assertGreater(judged[0], 2)
        self.assertEqual(judged[1], [])

    def test_of_classical_tasks(self):
        none = self.put("none.pddl", "(define (stream none))\n")
        for name in ("blocks", "gripper", "miconic", "transport"):
            with self.subTest(name):
                texts = [os.path.join(PLAIN, f"{name}.domain"), os.path.join(PLAIN, f"{name}.problem"), none]
                self.compare(texts, solve(texts), False)

    def test_over_what_generators_gave(self):
        for folder, words in ((SHELF, ["sh", "shelf.sh"]), (FETCH, ["sh", "-c", "read x; echo yield left"]),
                              (GRID, ["@grid", "grid.txt"])):
            for mode in MODES:
                with self.subTest(os.path.basename(folder), mode=mode):
                    report = solve(task(folder), "--algorithm", mode, "--", *words, folder=folder)
                    self.compare(task(folder), report, True)

    def test_of_a_report_that_was_kept(self):
        with open(os.path.join(TRAY, "report"), encoding="utf-8") as file:
            self.compare(task(TRAY), file.read(), True)


# ---- another checker

DOMAIN = """(define (domain chance) (:types a b - o c) (:constants k - a)
  (:predicates (p ?x) (q ?x ?y) (r) (s ?x) (near ?x) (far)) (:functions (total-cost) (weight ?x))
  (:derived (near ?x) {near}) (:derived (far) {far})
  {actions})"""
PROBLEM = """(define (problem small) (:domain chance) (:objects a1 - a b1 b2 - b c1 - c)
  (:init {facts} (= (weight a1) 3) (= (weight k) 5) (= (weight b1) 0) (= (total-cost) 0)) (:goal {goal}){metric})"""
PLACES = {"p": 1, "q": 2, "r": 0, "s": 1}
FACTS = ["(p a1)", "(p b1)", "(q a1 k)", "(q c1 c1)", "(q b2 b1)", "(r)", "(s c1)", "(s k)"]
OBJECTS = ["a1", "b1", "b2", "c1", "k"]


def an_atom(chance: Random, terms: list[str], places: dict[str, int]) -> str:
    name = chance.choice(sorted(places))
    return f"({' '.join([name, *(chance.choice(terms) for _ in range(places[name]))])})"


def a_condition(chance: Random, terms: list[str], places: dict[str, int], deep: int) -> str:
    """A condition of at most this depth."""
    kind = chance.choice(["atom", "atom", "=", "not", "and", "and", "or", "exists"]) if deep else "atom"
    if kind == "atom":
        return an_atom(chance, terms, places)
    if kind == "=":
        return f"(= {chance.choice(terms)} {chance.choice(terms)})"
    if kind == "exists":
        name = f"?v{deep}"
        sort = chance.choice(["a", "b", "c", "o", "object"])
        return f"(exists ({name} - {sort}) {a_condition(chance, [*terms, name], places, deep - 1)})"
    count = 1 if kind == "not" else chance.randint(1, 3)
    return f"({' '.join([kind, *(a_condition(chance, terms, places, deep - 1) for _ in range(count))])})"


def an_action(chance: Random, number: int, has_metric: bool) -> str:
    sorts = [chance.choice(["a", "b", "o", "object"]) for _ in range(chance.randint(0, 2))]
    names = [f"?x{place}" for place in range(len(sorts))]
    terms = [*names, "k"]
    everything = {**PLACES, "near": 1, "far": 0}
    effects = [an_atom(chance, terms, PLACES) for _ in range(chance.randint(1, 3))]
    effects = [effect if chance.random() < 0.5 else f"(not {effect})" for effect in effects]
    if has_metric and chance.random() < 0.7:
        effects.append(f"(increase (total-cost) (weight {chance.choice(terms)}))")
    typed = " ".join(f"{name} - {sort}" for name, sort in zip(names, sorts))
    condition = a_condition(chance, terms, everything, 3)
    return f"(:action do{number} :parameters ({typed}) :precondition {condition} :effect (and {' '.join(effects)}))"


def a_task(chance: Random) -> tuple[str, str]:
    """A domain and a problem, with derived predicates, one over the other, and costs that some objects lack."""
    near = a_condition(chance, ["?x", "k"], PLACES, 2)
    far = a_condition(chance, ["k"], {**PLACES, "near": 1}, 2)
    has_metric = chance.random() < 0.7
    actions = "\n  ".join(an_action(chance, number, has_metric) for number in range(3))
    domain = DOMAIN.format(near=near, far=far, actions=actions)
    goal = a_condition(chance, OBJECTS, {**PLACES, "near": 1, "far": 0}, 2)
    metric = " (:metric minimize (total-cost))" if has_metric else ""
    return domain, PROBLEM.format(facts=" ".join(chance.sample(FACTS, 4)), goal=goal, metric=metric)


def a_plan(chance: Random, made: World) -> list[tuple[str, ...]]:
    """Steps of which most can be taken."""
    plan, state = [], made.start
    for _ in range(chance.randint(0, 8)):
        good = [step for step in made.steps() if fault_of(made, state, step) is None]
        kind = chance.random()
        if good and kind < 0.9:
            step = chance.choice(good)
            state = made.after(state, step)[0]
        elif made.steps() and kind < 0.95:
            step = chance.choice(made.steps())
        else:
            step = (chance.choice(["do0", "do1", "do2", "do3"]), *chance.choices([*OBJECTS, "d1"], k=chance.randint(0, 2)))
        plan.append(step)
    return plan


def fault_of(made: World, state, step: tuple[str, ...]) -> str | None:
    """The first test that a step fails, by the other checker."""
    if step[0] not in made.actions:
        return "action"
    listed = pairs(made.actions[step[0]][0])
    if len(listed) != len(step) - 1:
        return "args"
    if not all(name in made.objects for name in step[1:]):
        return "object"
    if not all(name in made.of(sorts) for (_, sorts), name in zip(listed, step[1:])):
        return "type"
    if not made.holds(made.actions[step[0]][1], state, dict(zip((name for name, _ in listed), step[1:]))):
        return "condition"
    try:
        made.after(state, step)
    except KeyError:
        return "cost"
    return None


@needs_validator
class AnotherChecker(Folder):
    def judged(self, plan: list[tuple[str, ...]], chance: Random) -> list[str]:
        lines = [f"{chance.choice(['', '1: ', '0.5:'])}({' '.join(step)}){chance.choice(['', ' [2]', ' ; so'])}" for step in plan]
        lines = [line.upper() if chance.random() < 0.3 else line for line in lines]
        self.put("plan", "\n".join(lines) + chance.choice(["", "\n", "\n; nothing\n"]))
        done = subprocess.run([VALIDATOR, "domain", "problem", "plan"], cwd=self.folder, capture_output=True, text=True)
        return done.stdout.splitlines()

    def part_is_false(self, made: World, state, part: str) -> None:
        """The part that is told is a condition by itself, no `and`, and false."""
        tree = read_tree(Source("part", part))
        self.assertNotEqual(tree.head, "and")
        self.assertFalse(made.holds(tree, state, {}))

    def compare(self, made: World, plan: list[tuple[str, ...]], said: list[str]) -> str:
        """Compares what is said of a plan with what the other checker finds, and answers the kind of the verdict."""
        state, total = made.start, 0
        for number, step in enumerate(plan, 1):
            fault = fault_of(made, state, step)
            if fault:
                self.assertEqual(said[0], f"invalid {number} {fault}")
                self.assertEqual(len(said), 2 if fault == "condition" else 1)
                if fault == "condition":
                    self.part_is_false(made, state, said[1])
                return fault
            state, cost = made.after(state, step)
            total += cost
        if made.holds(made.goal, state, {}):
            self.assertEqual(said, [f"valid {total}"])
            return "valid"
        self.assertEqual(said[0], "invalid goal")
        self.part_is_false(made, state, said[1])
        return "goal"

    def test_of_tasks_by_chance(self):
        found: dict[str, int] = {}
        for seed in range(120):
            chance = Random(seed)
            domain, problem = a_task(chance)
            self.put("domain", domain)
            self.put("problem", problem)
            made = world(domain, problem)
            for _ in range(5):
                plan = a_plan(chance, made)
                with self.subTest(seed=seed, plan=plan):
                    kind = self.compare(made, plan, self.judged(plan, chance))
                    found[kind] = found.get(kind, 0) + 1
        self.assertEqual(set(found), {"valid", "goal", "action", "args", "object", "type", "condition", "cost"})


if __name__ == "__main__":
    unittest.main()
