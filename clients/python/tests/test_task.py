"""Problems as texts: which text a problem becomes, and what is refused, with what to write in its place."""
from __future__ import annotations

import unittest
from typing import Any

from pddlstream_client import (
    And,
    Equal,
    Exists,
    ForAll,
    Imply,
    Not,
    Or,
    PDDLProblem,
    UnsupportedError,
    from_fn,
    from_test,
    solve,
)
from pddlstream_client.task import Objects, condition_text, task_of

from .support import FETCH_DOMAIN, FETCH_STREAM, fetch_problem

DOMAIN = """(define (domain d) ; a comment with ) and @sink
  (:constants @sink table)
  (:predicates (p ?x) (q ?x ?y) (at ?x))
  (:functions (f ?x) (total-cost))
  (:action a :parameters (?x) :precondition (p @sink) :effect (and (at ?x) (increase (total-cost) (f ?x)))))
"""


def problem(
    *, domain: str = DOMAIN, constants: Any = None, streams: Any = None, init: Any = (), goal: Any = ("p", 1)
) -> PDDLProblem:
    return PDDLProblem(domain, constants or {}, streams, {}, init, goal)


class TextsTest(unittest.TestCase):
    def test_a_problem_has_objects_facts_goal_and_metric(self) -> None:
        task = task_of(
            problem(
                init=[("P", "cup"), ("q", "cup", 0.5), Equal(("f", "cup"), 7)], goal=And(("p", "cup"), Not(("at", 0.5)))
            )
        )
        self.assertEqual(
            task.problem,
            "(define (problem asked) (:domain d)\n  (:objects cup v0_5)\n  (:init\n    (P cup)\n"
            "    (q cup v0_5)\n    (= (f cup) 7))\n  (:goal (and (p cup) (not (at v0_5))))\n"
            "  (:metric minimize (total-cost)))\n",
        )
        self.assertEqual(dict(task.objects), {"cup": "cup", "v0_5": 0.5})

    def test_without_costs_in_the_domain_there_is_no_metric(self) -> None:
        self.assertNotIn(":metric", task_of(fetch_problem(from_fn(lambda x: None))).problem)

    def test_nor_with_unit_costs(self) -> None:
        self.assertNotIn(":metric", task_of(problem(), unit_costs=True).problem)

    def test_constants_lose_their_mark_and_keep_their_place_and_value(self) -> None:
        task = task_of(problem(constants={"@sink": (1, 2)}, init=[("p", (1, 2))]))
        self.assertEqual(len(task.domain), len(DOMAIN))
        self.assertIn("(:constants sink  table)", task.domain)
        self.assertIn("(p sink )", task.domain)
        self.assertIn("(p sink))", task.problem)
        self.assertEqual(task.objects["sink"], (1, 2))

    def test_each_form_of_a_condition(self) -> None:
        objects = Objects({})
        forms = {
            Or(("p", "a"), ("p", "b")): "(or (p a) (p b))",
            And(("p", "a")): "(p a)",
            Exists(
                ["?x", "?y"], And(("q", "?x", "?y"), Not(Equal("?x", "?y")))
            ): "(exists (?x ?y) (and (q ?x ?y) (not (= ?x ?y))))",
            ForAll(["?x"], ("p", "?x")): "(not (exists (?x) (not (p ?x))))",
            ("forall", ("?x",), ("p", "?x")): "(not (exists (?x) (not (p ?x))))",
            Imply(("p", "a"), ("p", "b")): "(or (not (p a)) (p b))",
            ("imply", ("p", "a"), ("p", "b")): "(or (not (p a)) (p b))",
            And(): "(and)",
        }
        for condition, text in forms.items():
            self.assertEqual(condition_text(condition, objects), text)

    def test_conditions_may_be_lists(self) -> None:
        self.assertEqual(
            condition_text(["and", ["p", "a"], ["not", ["p", "b"]]], Objects({})), "(and (p a) (not (p b)))"
        )

    def test_values_that_look_alike_have_names_of_their_own(self) -> None:
        objects = Objects({"a": "the constant"})
        values = ["a", "A", 1, 1.0, True, "1", (1,), -1, "tür", "t_r", object(), object(), "", None, {}, "x" * 99]
        names = [objects.name_of(value) for value in values]
        self.assertEqual(len(set(names) | {"a"}), len(values) + 1)
        for name in names:
            self.assertRegex(name, r"[a-z][a-z0-9_-]*\Z")
        self.assertEqual([objects.name_of(value) for value in values], names)

    def test_values_have_the_types_that_are_said(self) -> None:
        domain = "(define (domain d) (:types cup) (:predicates (p ?x - cup)))"
        task = task_of(
            problem(domain=domain, init=[("p", "mug"), ("p", 1)], goal=("p", "mug")), types={"cup": ["mug", "jug"]}
        )
        self.assertIn("(:objects mug - cup jug - cup v1)", task.problem)

    def test_a_domain_with_types_wants_the_types_of_values(self) -> None:
        with self.assertRaisesRegex(ValueError, "the domain has :types: say which initial values have which"):
            task_of(problem(domain="(define (domain d) (:types cup) (:predicates (p ?x - cup)))"))


class StreamTextsTest(unittest.TestCase):
    def test_a_stream_file_stays_as_it_is(self) -> None:
        self.assertEqual(task_of(fetch_problem(from_fn(lambda x: None))).streams, FETCH_STREAM)

    def test_a_function_becomes_a_cost_stream(self) -> None:
        task = task_of(
            problem(streams="(define (stream s) (:function (Turn ?a ?b) (and (P ?a) (P ?b))) (:function (F ?x)))")
        )
        self.assertEqual(
            task.streams,
            "(define (stream asked)\n  (:cost-stream Turn :inputs (?a ?b) :domain (and (P ?a) (P ?b))"
            " :value (Turn ?a ?b))\n  (:cost-stream F :inputs (?x) :domain () :value (F ?x)))\n",
        )

    def test_several_stream_files_are_one(self) -> None:
        task = task_of(
            problem(
                streams=[
                    "(define (stream a) (:stream s :outputs (?x)))",
                    "(define (stream b) (:stream t :outputs (?x)))",
                ]
            )
        )
        self.assertEqual(list(task.forms), ["s", "t"])
        self.assertIn(":stream t", task.streams)

    def test_the_depth_is_the_longest_chain_of_streams(self) -> None:
        links = [
            f"(:stream s{n} :inputs (?x) :domain (p{n} ?x) :outputs (?y) :certified (p{n + 1} ?y))" for n in range(5)
        ]
        for count, depth in ((0, 3), (1, 3), (3, 3), (4, 4), (5, 5)):
            text = f"(define (stream s) {' '.join(reversed(links[:count]))})"
            self.assertEqual(task_of(problem(streams=text)).depth, depth)

    def test_streams_feed_one_another_by_the_types_of_their_outputs_too(self) -> None:
        links = [f"(:stream s{n} :inputs (?x - t{n}) :outputs (?y - low{n + 1}))" for n in range(5)]
        domain = f"(define (domain d) (:types t0 {' '.join(f'low{n} - t{n}' for n in range(1, 6))}))"
        task = task_of(problem(domain=domain, streams=f"(define (stream s) {' '.join(links)})", goal=And()), types={})
        self.assertEqual(task.depth, 5)

    def test_an_object_of_any_type_feeds_only_what_wants_nothing_of_it(self) -> None:
        links = [
            "(:stream a :outputs (?x))",
            "(:stream b :inputs (?x) :domain (p ?x) :outputs (?y))",
            "(:stream c :inputs (?x) :domain (p ?x) :outputs (?y))",
            "(:stream d :inputs (?x) :domain (p ?x) :outputs (?y))",
        ]
        self.assertEqual(task_of(problem(streams=f"(define (stream s) {' '.join(links)})")).depth, 3)
        links = [
            f"(:stream s{n} :inputs (?x) :domain (p{n} ?x) :outputs (?y) :certified (p{n + 1} ?y))" for n in range(3)
        ]
        self.assertEqual(
            task_of(problem(streams=f"(define (stream s) {' '.join(links)} (:stream e :inputs (?x)))")).depth, 4
        )

    def test_streams_that_feed_themselves_have_a_depth_still(self) -> None:
        text = "(define (stream s) (:stream a :inputs (?x) :domain (P ?x) :outputs (?y) :certified (p ?y)))"
        self.assertEqual(task_of(problem(streams=text)).depth, 3)


class RefusedTest(unittest.TestCase):
    def refused(self, advice: str, **parts: Any) -> None:
        with self.assertRaisesRegex(UnsupportedError, advice):
            task_of(problem(**parts))

    def test_lists_of_a_domain(self) -> None:
        for text, advice in {
            "(:action a :precondition (forall (?x) (p ?x)))": r"`forall` isn't there; .*not \(exists \(V\) \(not C\)",
            "(:action a :precondition (imply (p a) (p b)))": r"`imply` isn't there; .*\(or \(not A\) B\)",
            "(:action a :effect (when (p a) (p b)))": "`when` isn't there; write two actions",
            "(:predicates (p ?x - (either a b)))": "`either` isn't there; write a type that is above both",
            "(:durative-action a)": "`:durative-action` isn't there; write an :action",
        }.items():
            self.refused(advice, domain=f"(define (domain d)\n  {text})")

    def test_items_and_keys_of_a_stream_file(self) -> None:
        for text, advice in {
            "(:predicate (Hits ?a) (p ?a))": "`:predicate` isn't there; write a test of the safe case",
            "(:stream s :inputs (?a) :fluents (at))": "`:fluents` isn't there; a stream sees no state: make what",
            "(:stream s :negate true)": "`:negate` isn't there; certify the safe case",
            "(:optimizer o)": "`:optimizer` isn't there; write a stream for each variable",
            "(:rule :inputs (?a) :domain (p ?a) :certified (q ?a))": "`:rule` isn't there; write it as a :stream",
            "(:wild-stream s)": "`:wild-stream` isn't there",
        }.items():
            self.refused(advice, streams=f"(define (stream s)\n  {text})")

    def test_all_of_them_are_told_at_once(self) -> None:
        with self.assertRaises(UnsupportedError) as told:
            task_of(
                problem(
                    domain="(define (domain d)\n(:action a :precondition (imply (p) (forall (?x) (q ?x)))))",
                    streams="(define (stream s)\n(:stream a :fluents (p) :negate true)\n(:rule))",
                )
            )
        places = [line.split(";")[0] for line in str(told.exception).splitlines() if "isn't there" in line]
        wanted = [("domain", 2, 27, "imply"), ("domain", 2, 38, "forall"), ("streams", 2, 12, ":fluents")]
        wanted += [("streams", 2, 25, ":negate"), ("streams", 3, 2, ":rule")]
        self.assertEqual(
            places, [f"{name}, line {row}, column {at}: `{what}` isn't there" for name, row, at, what in wanted]
        )

    def test_the_place_is_told_and_shown(self) -> None:
        with self.assertRaises(UnsupportedError) as told:
            task_of(problem(domain="(define (domain d)\n  (:action a\n    :effect (when (p) (q))))"))
        self.assertTrue(str(told.exception).startswith("domain, line 3, column 14: `when` isn't there;"))
        self.assertTrue(str(told.exception).endswith("\n        :effect (when (p) (q))))\n                 ^"))

    def test_arguments_of_pddlstreams_solve(self) -> None:
        for name, value in {
            "planner": "ff-astar",
            "success_cost": 10,
            "stream_info": {"s": 1},
            "max_skeletons": 5,
            "constraints": object(),
            "max_iterations": 3,
            "search_sample_ratio": 1.0,
        }.items():
            with self.assertRaisesRegex(UnsupportedError, rf"solve\({name}=.*\): (write|leave it out)"):
                solve(fetch_problem(from_fn(lambda x: None)), **{name: value})

    def test_an_argument_that_nobody_has(self) -> None:
        with self.assertRaisesRegex(TypeError, "solve\\(\\) has no argument 'max_tme'"):
            solve(fetch_problem(from_fn(lambda x: None)), max_tme=3)

    def test_an_algorithm_that_is_not_there(self) -> None:
        with self.assertRaisesRegex(ValueError, "algorithm is one of adaptive, binding, focused, incremental"):
            solve(fetch_problem(from_fn(lambda x: None)), algorithm="hpn")

    def test_costs_that_are_not_whole(self) -> None:
        for cost in (0.5, -1, 1_000_001, True, "7"):
            with self.assertRaisesRegex(ValueError, r"whole number N from 0 to 1,000,000; .*round\(1000 \* cost\)"):
                task_of(problem(init=[Equal(("f", 1), cost)]))


class WrongProblemsTest(unittest.TestCase):
    def wrong(self, message: str, **parts: Any) -> None:
        with self.assertRaisesRegex(ValueError, message):
            task_of(problem(**parts))

    def test_what_is_no_fact(self) -> None:
        self.wrong("init has 'p', which is no tuple", init=["p"])
        self.wrong("init has .*, which is no tuple that begins with a name", init=[(1, 2)])
        self.wrong("only facts stand there; what isn't said is false", init=[Not(("p", 1))])
        self.wrong("'a b' is no name of a predicate", init=[("a b", 1)])

    def test_what_is_no_condition(self) -> None:
        self.wrong("the goal has .*, with another number of parts than `not` has", goal=("not",))
        self.wrong("goal has None, which is no tuple", goal=And(("p", 1), None))

    def test_texts_that_are_not_closed(self) -> None:
        self.wrong(
            "domain, line 2, column 1: this list isn't closed",
            domain="(define (domain d)\n(:predicates)\n".replace("s)", "s"),
        )
        self.wrong("streams, line 1, column 20: this parenthesis closes nothing", streams="(define (stream s)))")
        self.wrong("the domain text isn't one list", domain="")
        self.wrong(r"the domain text has no \(domain NAME\)", domain="(define)")

    def test_streams_that_no_function_answers(self) -> None:
        with self.assertRaisesRegex(ValueError, "stream_map has no grip"):
            solve(fetch_problem(from_fn(lambda x: None))._replace(stream_map={}), program="/bin/true")

    def test_functions_that_answer_another_kind_of_stream(self) -> None:
        with self.assertRaisesRegex(TypeError, r"stream_map\['grip'\] is a function: make it by from_gen_fn"):
            solve(fetch_problem(lambda x: iter(())), program="/bin/true")
        costs = PDDLProblem(
            FETCH_DOMAIN,
            {},
            "(define (stream s) (:function (f ?x) (item ?x)))",
            {"f": from_test(lambda x: True)},
            [],
            ("free",),
        )
        with self.assertRaisesRegex(TypeError, r"stream_map\['f'\] is a Stream: make it by from_cost_fn"):
            solve(costs, program="/bin/true")


if __name__ == "__main__":
    unittest.main()
