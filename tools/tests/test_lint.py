"""What is accepted and likely a mistake."""
import unittest

from support import GRID, SHELF, TRAY, Folder, task, tool
import lint

DOMAIN = """(define (domain d) (:types cup pose)
  (:predicates (at ?c - cup ?p - pose) (pose ?c - cup ?p - pose) (clear ?c - cup ?p - pose) (bad ?c - cup ?p - pose) (seen ?p - pose))
  (:derived (seen ?p - pose) (exists (?c - cup) (not (bad ?c ?p))))
  (:action put :parameters (?c - cup ?p - pose) :precondition (and (clear ?c ?p) (seen ?p)) :effect (at ?c ?p)))
"""
PROBLEM = "(define (problem p) (:domain d) (:objects mug - cup) (:init) (:goal (exists (?p - pose) (at mug ?p))))\n"
STREAMS = """(define (stream s)
  (:stream place :inputs (?c - cup) :outputs (?p - pose) :certified (pose ?c ?p))
  (:stream clear :inputs (?c - cup ?p - pose) :domain (pose ?c ?p) :certified (clear ?c ?p))
  (:stream bad :inputs (?c - cup ?p - pose) :domain (pose ?c ?p) :certified (bad ?c ?p)))
"""


class Lint(Folder):
    def told(self, domain: str = DOMAIN, problem: str = PROBLEM, streams: str = STREAMS) -> list[str]:
        """The lines that are told, without the folder."""
        files = [self.put(f"{name}.pddl", text) for name,
                 text in (("domain", domain), ("problem", problem), ("streams", streams))]
        status, out, _ = tool(lint.main, *files)
        lines = [line.replace(f"{self.folder}/", "") for line in out.split("\n")[:-1]]
        self.assertEqual(status, 1 if len(lines) > 1 else 0)
        return lines

    def has(self, lines: list[str], beginning: str) -> None:
        self.assertTrue(any(line.startswith(beginning) for line in lines), f"{beginning!r} is none of {lines}")

    def test_a_test_that_is_wanted_false_through_a_derived_predicate(self):
        self.has(self.told(), "domain.pddl:3:54: negation: derived seen: `bad` is wanted false")

    def test_the_safe_case_is_not_told(self):
        safe = DOMAIN.replace("(not (bad ?c ?p))", "(clear ?c ?p)")
        self.assertEqual([line for line in self.told(safe) if ": negation:" in line], [])

    def test_types_that_are_swapped(self):
        self.has(self.told(DOMAIN.replace("(and (clear ?c ?p)", "(and (clear ?p ?c)")), "domain.pddl:4:68: type: "
                                                                                        "action put: (clear ?p ?c) has "
                                                                                        "?p - pose where cup is "
                                                                                        "declared")
        self.has(self.told(streams=STREAMS.replace(":domain (pose ?c ?p) :certified (clear",
                                                   ":domain (pose ?p ?c) :certified (clear")),
                                                   "streams.pddl:3:55: type: stream clear")
        self.has(self.told(problem=PROBLEM.replace("(:init)", "(:init (seen mug))")), "problem.pddl:1:61: type: init: "
                                                                                      "(seen mug)")

    def test_a_type_below_or_above_fits(self):
        lines = self.told(DOMAIN.replace("(:types cup pose)", "(:types cup - item pose item)").replace("(at ?c - cup",
                                                                                                       "(at ?c - item"))
        self.assertEqual([line for line in lines if ": type:" in line], [])

    def test_a_stream_that_is_never_asked(self):
        self.has(self.told(streams=STREAMS.replace(":domain (pose ?c ?p) :certified (clear",
                                                   ":domain (seen ?p) :certified (clear")),
                 "streams.pddl:3:55: never-asked: stream clear wants (seen ?p)")
        self.has(self.told(problem=PROBLEM.replace("mug - cup", "mug")), "streams.pddl:2:3: never-asked: stream place "
                                                                         "wants ?c - cup")

    def test_an_atom_that_nothing_gives(self):
        self.has(self.told(streams=STREAMS.replace("certified (clear ?c ?p)", "certified (bad ?c ?p)")),
                 "domain.pddl:4:68: never-true: action put wants (clear ?c ?p)")

    def test_a_predicate_that_nothing_wants(self):
        self.has(self.told(DOMAIN.replace("(and (clear ?c ?p) (seen ?p))", "(seen ?p)")), "streams.pddl:3:79: unused: "
                                                                                          "stream clear certifies "
                                                                                          "(clear ?c ?p)")

    def test_the_longest_chain(self):
        self.assertEqual(self.told()[-1], "longest chain: 2 streams: place > clear")

    def test_a_chain_past_the_default_depth(self):
        _, out, _ = tool(lint.main, *task(TRAY))
        self.assertIn("depth: place > clear > reach > turn is a chain of 4 streams", out)
        self.assertIn("--depth 4", out)

    def test_examples_without_mistakes(self):
        for folder in (GRID, SHELF):
            self.assertEqual(tool(lint.main, *task(folder))[0], 0)


if __name__ == "__main__":
    unittest.main()
