"""Files rewritten into what the program reads: a plan of the new task is a plan of the old one, and there is one."""
import itertools
import os
import subprocess
import unittest

from support import PROGRAM, Folder, needs_program, tool
import chance_tasks
from plan_checker import world
import to_profile
from common.tasks import read_streams

PLAIN = "(define (domain d) (:types room box)\n  (:predicates (at ?b - box ?r - room) (lit ?r - room) (open ?r - room) (done))\n  %s)"
SMALL = "(define (problem p) (:domain d) (:objects k h - room b c - box) (:init (at b k) (at c h) (lit h)) (:goal %s))"

FORMS = {
    "forall in a condition": (PLAIN % "(:action light :parameters (?r - room) :precondition (not (lit ?r)) :effect "
                                      "(lit ?r))\n"
                              "(:action end :precondition (forall (?r - room) (lit ?r)) :effect (done))",
                              SMALL % "(done)"),
    "imply": (PLAIN % "(:action light :parameters (?r - room) :effect (lit ?r))\n(:action end :parameters (?b - box)\n"
              ":precondition (forall (?r - room) (imply (at ?b ?r) (lit ?r))) :effect (done))", SMALL % "(done)"),
    "imply under not": (PLAIN % "(:action end :parameters (?r - room) :precondition (not (imply (lit ?r) (open ?r))) "
                                ":effect (done))", SMALL % "(done)"),
    "forall of or": (PLAIN % "(:action light :parameters (?r - room) :effect (open ?r))",
                     SMALL % "(forall (?r - room) (or (lit ?r) (open ?r)))"),
    "either": (PLAIN.replace("(open ?r - room)", "(open ?r - (either room box))") % "(:action open :parameters (?r - "
                                                                                    "(either room box)) :effect (open "
                                                                                    "?r))",
               SMALL % "(and (open k) (open b) (exists (?x - (either box room)) (open ?x)))"),
    "either of types": (PLAIN.replace("room box", "room box - object lid - (either room box)")
                        % "(:action end :parameters (?r - (either lid room)) :effect (done))", SMALL % "(done)"),
    "when": (PLAIN % "(:action press :parameters (?r - room) :effect (and (open ?r) (when (lit ?r) (done)) (when (not "
                     "(lit ?r)) (lit ?r))))", SMALL % "(and (done) (lit k))"),
    "when of what is deleted": (PLAIN % "(:action press :parameters (?r - room) :effect (and (open ?r) (when (lit ?r) "
                                        "(not (lit ?r)))))", SMALL % "(and (open h) (not (lit h)))"),
    "when in when": (PLAIN % "(:action press :parameters (?r - room) :effect (when (lit ?r) (and (open ?r) (when (at c "
                             "?r) (done)))))".replace("at c ?r", "open ?r"), SMALL % "(done)"),
    "forall in an effect": (PLAIN % "(:action off :effect (and (forall (?r - room) (not (lit ?r))) (done)))",
                            SMALL % "(and (done) (not (lit h)))"),
    "forall and when": (PLAIN % "(:action move :parameters (?to - room) :effect (forall (?b - box) (when (lit ?to) "
                                "(and (at ?b ?to) (open ?to)))))", SMALL % "(and (at b h) (open h))"),
    "forall with an inner variable of the same name": (PLAIN % "(:action off :effect (forall (?r - room) (when (exists "
                                                               "(?r - room) (lit ?r)) (open ?r))))",
                                                               SMALL % "(and (open k) (open h))"),
    "negative facts": (PLAIN % "(:action end :parameters (?r - room) :precondition (not (lit ?r)) :effect (done))",
                       (SMALL % "(done)").replace("(lit h)", "(lit h) (not (lit k))")),
    "upper case": (PLAIN.replace("done", "Done") % "(:action End :parameters (?R - room) :precondition (Lit ?r) "
                                                   ":effect (DONE))",
                   (SMALL % "(Done)").replace(" k ", " K ").replace("k)", "K)")),
    "a derived predicate with forall": (PLAIN % "(:derived (done) (forall (?r - room) (imply (open ?r) (lit ?r))))\n"
                                        "(:action open :parameters (?r - room) :precondition (not (open ?r)) :effect "
                                        "(open ?r))", SMALL % "(and (open h) (done))"),
    "costs": ((PLAIN % "(:functions (dear ?r - room) (total-cost))\n(:action end :parameters (?r - room) :effect (and "
                       "(done) (increase (total-cost) (dear ?r)) (when (lit ?r) (increase (total-cost) 3))))"),
              (SMALL % "(done)").replace("(lit h)", "(lit h) (= (total-cost) 0) (= (dear k) 2.0) (= (dear h) 4)")[:-1] + " (:metric minimize (total-cost)))"),
}

REFUSED = {
    "numbers that change": ("(:functions (fuel) - number)\n  (:action a :effect (decrease (fuel) 1))",
                            "4:22: `decrease` of a number: objects n0 n1 n2"),
    "comparisons": ("(:action a :precondition (> (fuel) 0) :effect (done))", "3:28: a comparison of numbers"),
    "durative actions": ("(:durative-action a)", "3:3: `:durative-action`: an action without a duration"),
    "recursion": ("(:derived (done) (and (done) (done)))", "3:3: `done` rests on itself"),
    "preferences": ("(:action a :precondition (preference x (done)))", "3:28: a preference"),
    "constraints": ("(:constraints (always (done)))", "3:3: `:constraints`"),
    "fractions": ("(:action a :effect (increase (total-cost) 0.5))", "3:22: the cost 0.5: whole numbers"),
    "sums": ("(:action a :effect (increase (total-cost) (+ 1 2)))", "3:22: a sum or product as a cost"),
    "too many conditions": (
        "(:action a :parameters (?r - room) :effect (and %s))" % " ".join(f"(when (lit ?r{n}) (done))" for n in range(7)),
        "3:3: 7 conditional effects, so 128 actions",
    ),
}


def taken(made, state) -> list[tuple]:
    """Each step that can be taken in a state, with the state behind it and its cost."""
    return [(step, *after) for step in made.steps() if (after := made.after(state, step)) is not None]


class Rewriting(Folder):
    def rewritten(self, domain: str, problem: str, streams: str | None = None):
        """The status, what was told, and the new texts."""
        files = [self.put(f"{name}.pddl", text) for name,
                 text in (("d", domain), ("p", problem), ("s", streams)) if text is not None]
        out = os.path.join(self.folder, "plain")
        status, _, err = tool(to_profile.main, *files, "--out", out)
        texts = {}
        if status == 0:
            for name in os.listdir(out):
                with open(os.path.join(out, name), encoding="utf-8") as file:
                    texts[name] = file.read()
        return status, err.replace(f"{self.folder}/", ""), texts

    @staticmethod
    def old_step(texts: dict[str, str], step: tuple[str, ...]) -> tuple[str, ...]:
        """A step with the old action's name; names in lower case."""
        actions = {row.split()[1]: row.split()[2].lower() for row in texts["names"].split("\n")
                   if row.startswith("action ")}
        return (actions.get(step[0], step[0]), *step[1:])


class Forms(Rewriting):
    def test_plans_of_the_new_task_are_plans_of_the_old_one(self):
        for name, (domain, problem) in FORMS.items():
            with self.subTest(name):
                status, err, texts = self.rewritten(domain, problem)
                self.assertEqual(status, 0, err)
                old, new = world(domain, problem), world(texts["domain.pddl"], texts["problem.pddl"])
                plans = new.plans(2)
                self.assertTrue(plans)
                mapped = [[self.old_step(texts, step) for step in plan] for plan in plans]
                for plan, shown in zip(plans, mapped):
                    self.assertEqual(old.cost_of(shown), new.cost_of(plan), shown)
                self.assertEqual(sorted(map(tuple, old.plans(2))), sorted(set(map(tuple, mapped))))

    def test_tasks_by_chance_have_the_same_steps_and_goals(self):
        for seed in range(60):
            with self.subTest(seed):
                domain, problem = chance_tasks.task(seed)
                status, err, texts = self.rewritten(domain, problem)
                if status:
                    self.assertIn("conditional effects, so", err)
                    continue
                old, new = world(domain, problem), world(texts["domain.pddl"], texts["problem.pddl"])
                reached = {old.start} | {after for _, after, _ in taken(old, old.start)}
                self.assertEqual(old.start, new.start)
                for state in reached:
                    self.assertEqual(old.holds(old.goal, state, {}), new.holds(new.goal, state, {}))
                    mapped = {(self.old_step(texts, step), *rest) for step, *rest in taken(new, state)}
                    self.assertEqual(set(taken(old, state)), mapped)

    def test_what_can_not_be_is_told_with_its_place(self):
        for name, (items, wanted) in REFUSED.items():
            with self.subTest(name):
                status, err, texts = self.rewritten(PLAIN % items, SMALL % "(done)")
                self.assertEqual((status, texts), (1, {}))
                self.assertIn(f"d.pddl:{wanted}", err)

    def test_problems_that_can_not_be(self):
        for old, new, wanted in (("(lit h)", "(lit h) (= (dear h) -1)", "p.pddl:1:98: the value -1"),
                                 ("(lit h)", "(lit h) (at 5 (lit k))", "a timed initial literal"),
                                 ("b c - box", "b - box c - (either box room)", "an object of `either`"),
                                 ("(:goal", "(:metric maximize (f)) (:goal", "this metric")):
            with self.subTest(new):
                status, err, _ = self.rewritten(PLAIN % "", (SMALL % "(done)").replace(old, new))
                self.assertEqual(status, 1)
                self.assertIn(wanted, err)

    def test_a_plan_is_printed_with_the_old_names(self):
        domain, problem = FORMS["upper case"]
        _, _, texts = self.rewritten(domain, problem)
        report = self.put("report", "pddlstream 1 incremental\nlimits 1 1 1\nplan 1\ndo end h\ncost 1\ndone\n")
        _, out, _ = tool(to_profile.main, report, "--back", self.put("names", texts["names"]))
        self.assertEqual(out, "(End h)\n")

    @needs_program
    def test_the_program_reads_what_is_written(self):
        streams = self.put("none.pddl", "(define (stream s))")
        for name, (domain, problem) in FORMS.items():
            with self.subTest(name):
                _, _, texts = self.rewritten(domain, problem)
                files = [self.put(f"new-{part}", texts[part]) for part in ("domain.pddl", "problem.pddl")]
                done = subprocess.run([PROGRAM, "solve", *files, streams], capture_output=True, text=True)
                self.assertEqual(done.returncode, 0, done.stdout)


KITCHEN = """(define (domain kitchen)
  (:predicates (Block ?b) (Pose ?b ?p) (AtPose ?b ?p) (Placed ?b) (Collides ?b ?p ?o ?q) (Unsafe ?b ?p) (Free))
  (:functions (Dist ?p))
  (:derived (Unsafe ?b ?p) (exists (?o ?q) (and (AtPose ?o ?q) (not (= ?o ?b)) (Collides ?b ?p ?o ?q))))
  (:derived (Placed ?b) (exists (?p) (AtPose ?b ?p)))
  (:action put :parameters (?b ?p) :precondition (and (Pose ?b ?p) (not (Unsafe ?b ?p)) (not (Placed ?b)))
    :effect (and (AtPose ?b ?p) (increase (total-cost) (Dist ?p)))))
"""
BLOCKS = """(define (problem two) (:domain kitchen) (:objects A B) (:init (Block A) (Block B) (= (total-cost) 0))
  (:goal (forall (?b) (imply (Block ?b) (Placed ?b)))) (:metric minimize (total-cost)))
"""
STREAMS = """(define (stream kitchen)
  (:stream sample-pose :inputs (?b) :domain (Block ?b) :outputs (?p) :certified (Pose ?b ?p))
  (:predicate (Collides ?b ?p ?o ?q) (and (Pose ?b ?p) (Pose ?o ?q)))
  (:function (Dist ?p) ())
  (:rule :inputs (?b ?p) :domain (Pose ?b ?p) :certified (Known ?b)))
""".replace("(:function (Dist ?p) ())", "(:function (Dist ?p) (Somewhere ?p))").replace("certified (Pose ?b ?p))\n",
                                                                                        "certified (and (Pose ?b ?p) "
                                                                                        "(Somewhere ?p)))\n")
ANSWERS = '''
import sys
for line in sys.stdin:
    _, k, stream, *inputs = line.split()
    k = int(k)
    if stream == "sample-pose":
        print(f"yield {k}" if k < 3 else "end", flush=True)
    elif stream == "test-not-collides":
        print("yield" if inputs[1] != inputs[3] else "end", flush=True)
    elif stream == "dist":
        print(f"value {5 + int(inputs[0][1:])}", flush=True)
    else:
        print("yield", flush=True)
'''


class PddlStream(Rewriting):
    def test_predicates_functions_and_rules(self):
        status, err, texts = self.rewritten(KITCHEN.replace("(Free)", "(Free) (Known ?b) (Somewhere ?p)"), BLOCKS,
                                            STREAMS)
        self.assertEqual(status, 0, err)
        made = read_streams(self.put("new.pddl", texts["streams.pddl"]))
        self.assertEqual([stream.name for stream in made.items], ["sample-pose", "rule-1", "test-not-collides", "dist"])
        self.assertEqual([str(atom) for atom in made.named("test-not-collides").certified], ["(not-collides ?b ?p ?o "
                                                                                             "?q)"])
        self.assertTrue(made.named("dist").is_cost)
        self.assertIn("(not (not-collides ?b ?p ?o ?q))", texts["domain.pddl"])
        self.assertIn("stream test-not-collides answers `yield` where collides is false, else `end`", texts["names"])

    def test_a_plan_over_certified_facts_is_a_plan_where_the_predicate_is_computed(self):
        _, _, texts = self.rewritten(KITCHEN.replace("(Free)", "(Free) (Known ?b) (Somewhere ?p)"), BLOCKS, STREAMS)
        poses = ["#0", "#1"]
        facts = [("pose", block, pose) for block in "ab" for pose in poses]
        tests = [("not-collides", b, p, o, q) for b, p, o, q in itertools.product("ab", poses, "ab", poses) if p != q]
        costs = {("dist", pose): 5 for pose in poses}
        old = world(KITCHEN, BLOCKS, {"collides": lambda b, p, o, q: p == q}, facts)
        new = world(texts["domain.pddl"], texts["problem.pddl"], None, [*facts, *tests])
        for made in (old, new):
            made.values.update(costs)
            made.objects.update({pose: {"object"} for pose in poses})
        self.assertEqual(sorted(map(tuple, new.plans(2))), sorted(map(tuple, old.plans(2))))
        self.assertEqual(len(new.plans(2)), 4)

    def test_a_predicate_that_is_wanted_true_and_false(self):
        domain = KITCHEN.replace("(Free)", "(Free) (Known ?b) (Somewhere ?p)").replace("(not (Placed ?b)))",
                                                                                       "(not (Placed ?b)) (Collides ?b "
                                                                                       "?p ?b ?p))")
        _, _, texts = self.rewritten(domain, BLOCKS, STREAMS)
        names = [stream.name for stream in read_streams(self.put("new.pddl", texts["streams.pddl"])).items]
        self.assertEqual(names[2:4], ["test-collides", "test-not-collides"])

    def test_a_derived_predicate_that_is_wanted_true_and_false(self):
        domain = KITCHEN.replace("(Free)", "(Free) (Known ?b) (Somewhere ?p)").replace("(not (Placed ?b)))",
                                                                                       "(not (Placed ?b)) (Unsafe ?b "
                                                                                       "?p))")
        status, err, _ = self.rewritten(domain, BLOCKS, STREAMS)
        self.assertEqual(status, 1)
        self.assertIn("d.pddl:4:3: `unsafe` is wanted true and false", err)

    def test_what_can_not_be(self):
        for old, new, wanted in ((":domain (Block ?b)", ":domain (Block ?b) :fluents (AtPose)",
                                  "`:fluents` of a stream: a test of each pair"),
                                 ("(:rule", "(:optimizer", "`:optimizer`"),
                                 (":domain (Block ?b)", ":domain (not (Block ?b))", "`not` in a stream's atoms")):
            with self.subTest(new):
                status, err, _ = self.rewritten(KITCHEN, BLOCKS, STREAMS.replace(old, new))
                self.assertEqual(status, 1)
                self.assertIn(wanted, err)
                self.assertIn("s.pddl:", err)

    def test_a_forall_in_an_effect_over_what_streams_make(self):
        domain = KITCHEN.replace(":effect (and", ":effect (and (forall (?q) (not (AtPose ?b ?q)))")
        status, err, _ = self.rewritten(domain, BLOCKS, STREAMS)
        self.assertEqual(status, 1)
        self.assertIn("d.pddl:7:18: `forall` in an effect over object: streams make objects of this type", err)

    @needs_program
    def test_the_program_solves_it(self):
        _, _, texts = self.rewritten(KITCHEN.replace("(Free)", "(Free) (Known ?b) (Somewhere ?p)"), BLOCKS, STREAMS)
        files = [self.put(f"new-{part}", texts[part]) for part in ("domain.pddl", "problem.pddl", "streams.pddl")]
        answers = self.put("answers.py", ANSWERS)
        for mode in ("incremental", "adaptive"):
            done = subprocess.run([PROGRAM, "solve", *files, "--algorithm", mode, "--depth", "4", "--", "python3",
                                   answers], capture_output=True, text=True)
            self.assertEqual((done.returncode, done.stdout.count("\ndo put ")), (0, 2), done.stdout)


if __name__ == "__main__":
    unittest.main()
