"""Tasks over what reports certify, as plain PDDL."""
import os
import unittest

from support import GRID, MODES, SHELF, TRAY, Folder, needs_program, solve, task, tool
from plan_checker import world
import to_pddl

TWO_TYPES = ("(define (domain d) (:types a b c) (:predicates (p ?x - a) (q ?x - b) (done))\n"
             "  (:action go :parameters (?x - a) :precondition (exists (?y - b) (and (= ?x ?y) (p ?x) (q ?y))) :effect "
             "(done)))\n",
             "(define (problem p) (:domain d) (:objects o - c) (:init) (:goal (done)))\n",
             "(define (stream s) (:stream one :inputs (?o - c) :outputs (?x - a) :certified (p ?x))\n"
             "  (:stream two :inputs (?o - c) :outputs (?x - b) :certified (q ?x)))\n")
SAID = ("pddlstream 1 incremental\nlimits 9 9 3\npool 1 one two\nlevel\nask 1 0 one o\ngot 1 v\nask 2 0 two o\ngot 2 "
        "v\n"
        "plan 1\ndo go #v\ncost 1\nfrom #v 1\ndone\n")


class ToPddl(Folder):
    def judged(self, files: list[str], report: str):
        """What a plan checker says of the written plan over the written task: its cost, or nothing."""
        status, _, err = tool(to_pddl.main, *files, report, "--out", os.path.join(self.folder, "plain"))
        self.assertEqual((status, err), (0, ""))
        texts = {}
        for name in os.listdir(os.path.join(self.folder, "plain")):
            with open(os.path.join(self.folder, "plain", name), encoding="utf-8") as file:
                texts[name] = file.read()
        steps = [tuple(line.strip("()\n").split()) for line in texts.get("plan", "").split("\n")
                 if line.startswith("(")]
        return world(texts["domain.pddl"], texts["problem.pddl"]).cost_of(steps), texts

    def test_stored_plans_are_valid_at_their_costs(self):
        for folder, cost in ((TRAY, 6306), (GRID, 4), (SHELF, 1)):
            with self.subTest(folder):
                self.assertEqual(self.judged(task(folder), os.path.join(folder, "report"))[0], cost)

    def test_a_changed_plan_is_not(self):
        with open(os.path.join(TRAY, "report"), encoding="utf-8") as file:
            text = file.read()
        report = self.put("report", text.replace("do put mug #0.212,0.183", "do put mug #0.203,0.159"))
        self.assertIsNone(self.judged(task(TRAY), report)[0])

    def test_an_object_of_two_types(self):
        files = [self.put(f"{name}.pddl", text) for name, text in zip(("domain", "problem", "streams"), TWO_TYPES)]
        cost, texts = self.judged(files, self.put("report", SAID))
        self.assertEqual(cost, 1)
        self.assertIn("(is-a g1)", texts["problem.pddl"])
        self.assertNotIn(":types", texts["domain.pddl"])

    def test_new_names_are_new(self):
        files = [self.put(f"{name}.pddl", text.replace("objects o", "objects o g1")) for name,
                 text in zip(("domain", "problem", "streams"), TWO_TYPES)]
        cost, texts = self.judged(files, self.put("report", SAID))
        self.assertEqual((cost, "; gen1 is #v" in texts["problem.pddl"]), (1, True))

    def test_a_report_without_a_plan(self):
        report = self.put("report", SAID[:SAID.index("plan 1")] + "no plan\ndone\n")
        files = [self.put(f"{name}.pddl", text) for name, text in zip(("domain", "problem", "streams"), TWO_TYPES)]
        self.assertNotIn("plan", self.judged(files, report)[1])

    @needs_program
    def test_each_mode(self):
        for folder, words in ((TRAY, ("python3", "tray.py")), (SHELF, ("sh", "shelf.sh")),
                              (GRID, ("@grid", "grid.txt"))):
            for mode in MODES:
                with self.subTest((folder, mode)):
                    text = solve(task(folder), "--algorithm", mode, "--", *words, folder=folder)
                    cost = int(next(line for line in text.split("\n") if line.startswith("cost ")).split()[1])
                    self.assertEqual(self.judged(task(folder), self.put("report", text))[0], cost)


if __name__ == "__main__":
    unittest.main()
