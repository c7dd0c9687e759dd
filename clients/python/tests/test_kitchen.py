"""The kitchen of examples/kitchen: planned in each algorithm, each report judged by `replay`, each plan carried out."""
from __future__ import annotations

import math
import shutil
import subprocess
import sys
from types import ModuleType
from typing import Any, Sequence

from .support import ALGORITHMS, PACKAGE, PROGRAM, InFolder, environment, needs_program, solved

FOLDER = PACKAGE / "examples/kitchen"


def example() -> tuple[ModuleType, ModuleType]:
    """The modules `run` and `kitchen` of the example."""
    sys.path.insert(0, str(FOLDER))
    try:
        import kitchen
        import run
    finally:
        sys.path.remove(str(FOLDER))
    return run, kitchen


def carried_out(kitchen: Any, plan: Sequence[Any]) -> tuple[Any, set[str], int]:
    """Where the arm is after the plan, what was done to the celery, and what it costs; each step is checked by hand."""
    conf, at, held, done, cost = kitchen.REST, kitchen.START["celery"], None, set(), 0
    for name, args in plan:
        if name == "move":
            before, way, conf_after = args
            assert way[0] == before == conf and math.dist(way[-1], conf_after) < 1e-9
            hands = [kitchen.hand(point) for point in way]
            assert all(math.dist(hand, kitchen.START["radish"]) > kitchen.RADIUS["radish"] for hand in hands)
            cost += round(1000 * sum(abs(b - a) for one, two in zip(way, way[1:]) for a, b in zip(one, two)))
            conf = conf_after
            continue
        cost += 10
        if name in ("pick", "place"):
            food, pose, grasp, used = args
            x, y = kitchen.hand(used)
            reached = (x - kitchen.GRIP * math.cos(grasp), y - kitchen.GRIP * math.sin(grasp))
            assert food == "celery" and used == conf and math.dist(reached, pose) < 0.001
            assert (at, held) == ((pose, None) if name == "pick" else (None, grasp))
            at, held = (None, grasp) if name == "pick" else (pose, None)
        else:
            x0, y0, x1, y1 = kitchen.REGIONS["sink" if name == "clean" else "stove"]
            assert at is not None and x0 <= at[0] <= x1 and y0 <= at[1] <= y1
            assert name == "clean" or "clean" in done
            done.add(name)
    return conf, done, cost


@needs_program
class KitchenTest(InFolder):
    def test_the_celery_is_cooked_in_each_algorithm(self) -> None:
        run, kitchen = example()
        for algorithm in ALGORITHMS:
            with self.subTest(algorithm):
                solution = solved(run.problem(), algorithm, types=run.TYPES, keep=self.folder / algorithm)
                self.assertIn("limits 10000 100000 4\n", solution.report)
                self.assertEqual(self.replayed(self.folder / algorithm), "valid\n")
                self.assertEqual(
                    carried_out(kitchen, solution.plan or []), (kitchen.REST, {"clean", "cook"}, solution.cost)
                )

    def test_the_generator_answers_alike_with_two_workers(self) -> None:
        shutil.copytree(FOLDER, self.folder / "kitchen", ignore=shutil.ignore_patterns("__pycache__"))
        assert PROGRAM is not None
        plans = []
        for workers in ("1", "2"):
            words = [
                PROGRAM,
                "solve",
                "domain.pddl",
                "problem.pddl",
                "stream.pddl",
                "--algorithm",
                "adaptive",
                "--depth",
                "4",
                "--workers",
                workers,
                "--",
                sys.executable,
                "generator.py",
            ]
            done = subprocess.run(
                words, cwd=self.folder / "kitchen", env=environment(), capture_output=True, text=True, timeout=600
            )
            self.assertEqual((done.stderr, done.returncode), ("", 0))
            plans.append(done.stdout[done.stdout.index("\nplan ") :])
        self.assertEqual(plans[0], plans[1])
