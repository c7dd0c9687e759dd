"""`solve`: what it returns for each outcome, and what it raises for each fault."""
from __future__ import annotations

import io
import math
import subprocess
import sys
import time
import unittest
from contextlib import redirect_stdout
from typing import Any, Iterator
from unittest import mock

from pddlstream_client import (
    Action,
    Equal,
    Exists,
    Not,
    PDDLProblem,
    ProgramNotFoundError,
    SamplerError,
    SolveError,
    TextError,
    chance,
    from_fn,
    from_gen_fn,
    from_list_fn,
    from_test,
    print_solution,
    solve,
)

from .support import (
    ALGORITHMS,
    FETCH_DOMAIN,
    FETCH_STREAM,
    PACKAGE,
    PROGRAM,
    InFolder,
    environment,
    fetch_problem,
    needs_program,
    processes_with,
    solved,
)


class Grip:
    """A value that can neither be pickled nor told by its content."""

    def __init__(self) -> None:
        self.hold = lambda: self


@needs_program
class OutcomesTest(InFolder):
    def test_a_plan_its_cost_and_its_certificate(self) -> None:
        for algorithm in ALGORITHMS:
            grip = Grip()
            solution = solved(fetch_problem(from_fn(lambda cup: (grip,))), algorithm, keep=self.folder / algorithm)
            plan, cost, certificate = solution
            self.assertEqual(plan, [Action("take", ("cup", grip)), Action("drop", ("cup", grip))])
            self.assertEqual((cost, solution.outcome), (2, "plan"))
            self.assertEqual(certificate.all_facts, (("item", "cup"), ("free",), ("grip", "cup", grip)))
            self.assertEqual(dict(certificate.objects), {"cup": "cup", "#~Grip-1": grip})
            self.assertTrue(solution.report.startswith(f"pddlstream 1 {algorithm}\nlimits 10000 100000 3\n"))
            self.assertEqual(self.replayed(self.folder / algorithm), "valid\n")

    def test_adaptive_is_the_algorithm_where_none_is_said(self) -> None:
        self.assertIn(
            "pddlstream 1 adaptive\n", solve(fetch_problem(from_fn(lambda cup: ("left",))), program=PROGRAM).report
        )

    def test_no_plan_is_none_at_infinite_cost(self) -> None:
        for algorithm in ALGORITHMS:
            solution = solved(fetch_problem(from_fn(lambda cup: None)), algorithm)
            self.assertEqual((solution.plan, solution.cost, solution.outcome), (None, math.inf, "no plan"))
            self.assertEqual(solution.certificate.all_facts, (("item", "cup"), ("free",)))

    def test_a_limit_is_no_plan_either(self) -> None:
        endless = fetch_problem(from_gen_fn(lambda cup: ((at,) for at in range(10**9))))._replace(
            goal=("done", "pan")
        )
        solution = solved(endless, calls=5)
        self.assertEqual((solution.plan, solution.cost, solution.outcome), (None, math.inf, "limit calls"))
        self.assertEqual(solution.certificate.all_facts[2:], tuple(("grip", "cup", at) for at in range(5)))

    def test_a_plan_without_steps_is_a_list(self) -> None:
        solution = solved(fetch_problem(from_fn(lambda cup: None))._replace(goal=("free",)))
        self.assertEqual((solution.plan, solution.cost), ([], 0))

    def test_a_task_without_streams_starts_no_relay(self) -> None:
        problem = PDDLProblem(
            "(define (domain light) (:predicates (on)) (:action press :precondition (not (on)) :effect (on)))",
            {},
            None,
            {},
            [],
            ("on",),
        )
        self.assertEqual(solved(problem).plan, [Action("press", ())])

    def test_costs_are_those_of_functions_and_of_init(self) -> None:
        domain = FETCH_DOMAIN.replace("(:action take", "(:functions (effort ?g) (rent ?x))\n (:action take").replace(
            "(not (free))", "(not (free)) (increase (total-cost) (Effort ?g)) (increase (total-cost) (rent ?x))"
        )
        streams = FETCH_STREAM.rstrip()[:-1] + " (:function (Effort ?g) (grip cup ?g)))"
        problem = fetch_problem(from_fn(lambda cup: (0.25,)))._replace(
            domain_pddl=domain.replace("(:predicates", "(:constants cup) (:predicates"),
            constant_map={"cup": "cup"},
            stream_pddl=streams,
            init=[("item", "cup"), ("free",), Equal(("rent", "cup"), 30)],
            stream_map={"grip": from_fn(lambda cup: (0.25,)), "Effort": lambda grip: round(1000 * grip)},
        )
        solution = solved(problem)
        self.assertEqual(solution.cost, 280)
        self.assertIn(("=", ("Effort", 0.25), 250), solution.certificate.all_facts)
        self.assertEqual(solved(problem, unit_costs=True).cost, 2)

    def test_a_goal_with_variables(self) -> None:
        solution = solved(
            fetch_problem(from_fn(lambda cup: ("left",)))._replace(goal=Exists(["?g"], ("hold", "cup", "?g")))
        )
        self.assertEqual(solution.plan, [Action("take", ("cup", "left"))])

    def test_any_value_may_be_what_is_planned_with(self) -> None:
        for cup in (
            0.5,
            (1, (2.0,)),
            None,
            "two words",
            "Tür",
            b"\0",
            "x" * 500,
            float("nan"),
            [1, 2],
            {},
            object(),
            lambda: 1,
        ):
            plan, _, _ = solved(fetch_problem(from_fn(lambda given: (given,) if given is cup else None), cup))
            assert plan is not None
            self.assertIs(plan[0].args[0], cup)
            self.assertIs(plan[0].args[1], cup)

    def test_the_report_is_printed_as_it_comes(self) -> None:
        told = io.StringIO()
        with redirect_stdout(told):
            solution = solved(fetch_problem(from_fn(lambda cup: ("left",))), verbose=True)
        self.assertEqual(told.getvalue(), solution.report)

    def test_a_solution_is_printed_with_long_values_cut_short(self) -> None:
        told = io.StringIO()
        with redirect_stdout(told):
            print_solution(solved(fetch_problem(from_fn(lambda cup: ("x" * 500,)))))
            print_solution(solved(fetch_problem(from_fn(lambda cup: None))))
        lines = told.getvalue().splitlines()
        self.assertEqual((lines[0], lines[3]), ("plan, cost 2", "no plan, cost inf"))
        self.assertRegex(lines[1], r"\A  1\. take 'cup' 'x+\.\.\.x+'\Z")
        self.assertLessEqual(len(lines[1]), 60)

    def test_seeds_draw_differently(self) -> None:
        problem = fetch_problem(from_fn(lambda cup: (chance().random(),)))
        reports = [solved(problem, seed=seed).report for seed in (1, 2, 1)]
        self.assertEqual(reports[0], reports[2])
        self.assertNotEqual(reports[0], reports[1])

    def test_many_workers_answer_at_once(self) -> None:
        def grips(item: str) -> Iterator[tuple[Any]]:
            time.sleep(0.01)
            yield (chance().random(),)

        problem = fetch_problem(from_gen_fn(grips))
        items = [("item", f"cup{number}") for number in range(6)]
        problem = problem._replace(init=[*items, ("free",)], goal=("done", "cup5"))
        one, many = solved(problem, workers=1), solved(problem, workers=6)
        self.assertIn("pool 6 grip\n", many.report)
        self.assertEqual((one.plan, one.certificate.all_facts), (many.plan, many.certificate.all_facts))

    def test_a_list_function_tells_its_tuples_in_one_line(self) -> None:
        problem = fetch_problem(from_list_fn(lambda cup: [(0.25,), (0.5,)]))
        for algorithm in ALGORITHMS:
            solution = solved(problem, algorithm, protocol=2, keep=self.folder / algorithm)
            self.assertTrue(solution.report.startswith(f"pddlstream 2 {algorithm}\n"))
            self.assertIn("got 1 =0.25 | =0.5\n", solution.report)
            self.assertEqual(solution.certificate.all_facts[2:], (("grip", "cup", 0.25), ("grip", "cup", 0.5)))
            self.assertEqual(solution.outcome, "plan")
            self.assertEqual(self.replayed(self.folder / algorithm), "valid\n")

    def test_it_may_be_called_from_several_solves_at_once(self) -> None:
        def fetch(item: str) -> tuple[Any]:
            inner = solved(fetch_problem(from_list_fn(lambda cup: [("inner",)])))
            return (inner.cost,)

        self.assertEqual(
            solved(fetch_problem(from_fn(fetch))).plan, [Action("take", ("cup", 2)), Action("drop", ("cup", 2))]
        )


@needs_program
class FaultsTest(InFolder):
    def test_what_a_function_raises_is_the_cause(self) -> None:
        for algorithm in ALGORITHMS:
            with self.assertRaises(SamplerError) as told:
                solved(fetch_problem(from_fn(lambda cup: 1 / 0)), algorithm)
            error = told.exception
            self.assertIsInstance(error.__cause__, ZeroDivisionError)
            self.assertEqual((error.request, error.last_line, error.status), ("next 0 grip cup", "fault generator", 7))
            self.assertEqual(
                str(error), "fault generator: ZeroDivisionError: division by zero\nat the request: next 0 grip cup"
            )

    def test_the_values_of_the_request_are_shown(self) -> None:
        problem = fetch_problem(from_fn(lambda cup: 1 / 0))._replace(init=[("item", 0.5), ("free",)], goal=("done", 0.5))
        with self.assertRaisesRegex(SamplerError, r"at the request: next 0 grip v0_5\nwith the inputs \(0\.5\)\Z"):
            solved(problem)

    def test_another_number_of_values_is_told(self) -> None:
        with self.assertRaisesRegex(SamplerError, "grip gave 2 values, and its number of outputs is 1"):
            solved(fetch_problem(from_fn(lambda cup: (1, 2))))

    def test_what_is_no_tuple_is_told(self) -> None:
        with self.assertRaisesRegex(SamplerError, "grip gave 'left': an answer is a tuple of its outputs"):
            solved(fetch_problem(from_fn(lambda cup: "left")))

    def test_a_function_that_ends_the_program_only_ends_the_run(self) -> None:
        def leave(cup: str) -> None:
            raise SystemExit(3)

        with self.assertRaises(SamplerError) as told:
            solved(fetch_problem(from_fn(leave)))
        self.assertIsInstance(told.exception.__cause__, SystemExit)

    def test_a_text_that_the_planner_refuses_is_shown(self) -> None:
        problem = fetch_problem(from_fn(lambda cup: None))._replace(init=[("item", "cup"), ("fre",)])
        with self.assertRaises(TextError) as told:
            solved(problem)
        self.assertRegex(
            str(told.exception),
            r"\Afault input problem unknown \d+: problem, line 5, column 6: this name isn't declared",
        )
        self.assertTrue(str(told.exception).endswith("\n        (fre))\n         ^"))
        self.assertEqual(told.exception.status, 4)

    def test_streams_that_feed_themselves_are_told(self) -> None:
        with self.assertRaisesRegex(
            TextError, "fault input streams stream-cycle .* streams feed themselves: give each round"
        ):
            solved(
                fetch_problem(from_test(lambda *it: True))._replace(
                    stream_pddl="(define (stream s) (:stream grip :inputs (?x) :domain (item ?x) :certified (item ?x)))"
                )
            )

    def test_an_option_out_of_its_range_is_told(self) -> None:
        with self.assertRaisesRegex(SolveError, "fault usage: an option is out of its range"):
            solved(fetch_problem(from_fn(lambda cup: None)), calls=0)
        with self.assertRaisesRegex(SolveError, "fault usage: an option is out of its range"):
            solved(fetch_problem(from_fn(lambda cup: None)), depth=0)

    def test_texts_and_report_of_a_fault_are_kept_too(self) -> None:
        with self.assertRaises(SamplerError):
            solved(fetch_problem(from_fn(lambda cup: 1 / 0)), keep=self.folder / "kept")
        self.assertTrue((self.folder / "kept/report").read_text().endswith("ask 1 0 grip cup\nfault generator\n"))
        self.assertEqual((self.folder / "kept/domain.pddl").read_text(), FETCH_DOMAIN)

    def test_negation_of_what_nobody_certified_holds(self) -> None:
        problem = fetch_problem(from_fn(lambda cup: None))._replace(goal=Not(("grip", "cup", "cup")))
        self.assertEqual(solved(problem).plan, [])


class ProgramsTest(InFolder):
    """Programs that aren't there, or aren't the planner."""

    PROBLEM = fetch_problem(from_fn(lambda cup: ("left",)))

    def test_a_program_that_is_not_there(self) -> None:
        with self.assertRaisesRegex(
            ProgramNotFoundError, r"no program that can be run is at /nowhere/pddlstream: .*\$PDDLSTREAM"
        ):
            solve(self.PROBLEM, program="/nowhere/pddlstream")

    def test_a_file_that_cannot_be_run(self) -> None:
        (self.folder / "program").write_text("text")
        with self.assertRaises(ProgramNotFoundError):
            solve(self.PROBLEM, program=self.folder / "program")

    def test_a_program_that_says_nothing(self) -> None:
        with self.assertRaisesRegex(SolveError, "the program ended without a report: is it the planner?"):
            solve(self.PROBLEM, program=self.program_of("exit 0"))

    def test_a_program_that_dies(self) -> None:
        with self.assertRaisesRegex(SolveError, "the planner was ended by signal 9") as told:
            solve(self.PROBLEM, program=self.program_of("echo pddlstream 1 adaptive; kill -9 $$"))
        self.assertEqual((told.exception.last_line, told.exception.status), ("pddlstream 1 adaptive", -9))

    def test_a_program_that_fails(self) -> None:
        with self.assertRaisesRegex(SolveError, "fault memory: memory is wanting"):
            solve(self.PROBLEM, program=self.program_of("echo fault memory; exit 9"))

    def test_a_report_that_breaks_off(self) -> None:
        with self.assertRaises(SolveError):
            solve(self.PROBLEM, program=self.program_of("printf 'pddlstream 1 adaptive\\nplan 2\\ndo ta'; exit 0"))

    def test_a_program_that_hangs_is_ended_with_all_that_it_started(self) -> None:
        mark = f"sleep 98.{time.time_ns()}"
        began = time.monotonic()
        solution = solve(
            self.PROBLEM, program=self.program_of(f"echo pddlstream 1 adaptive; {mark} & {mark}"), max_time=0.5
        )
        self.assertEqual((solution.plan, solution.cost, solution.outcome), (None, math.inf, "time"))
        self.assertEqual(solution.report, "pddlstream 1 adaptive\n")
        self.assertLess(time.monotonic() - began, 30)
        self.assertEqual(processes_with(mark), [])


@needs_program
class TimeTest(InFolder):
    def test_a_function_that_hangs_ends_with_the_time(self) -> None:
        running: list[str] = []

        def hang(cup: str) -> None:
            running.extend(processes_with(str(self.folder)))
            time.sleep(60)

        began = time.monotonic()
        with mock.patch("tempfile.tempdir", str(self.folder)):
            solution = solved(fetch_problem(from_fn(hang)), max_time=5)
        self.assertEqual((solution.plan, solution.outcome), (None, "time"))
        self.assertLess(time.monotonic() - began, 40)
        self.assertTrue(solution.report.endswith("ask 1 0 grip cup\n"), solution.report)
        self.assertEqual(len(running), 2, "the planner and its relay")
        self.assertEqual(processes_with(str(self.folder)), [])
        self.assertEqual(list(self.folder.iterdir()), [])

    def test_a_caller_that_is_killed_leaves_no_planner_behind(self) -> None:
        script = (
            "import time\nfrom pddlstream_client import *\nfrom tests.support import fetch_problem\n"
            "def hang(cup):\n    print('asked', flush=True)\n    time.sleep(60)\n"
            "solve(fetch_problem(from_fn(hang)), 'focused')\n"
        )
        with subprocess.Popen(
            [sys.executable, "-c", script],
            stdout=subprocess.PIPE,
            cwd=PACKAGE,
            env=environment(TMPDIR=str(self.folder)),
        ) as started:
            assert started.stdout is not None
            self.assertEqual(started.stdout.readline(), b"asked\n")
            self.assertEqual(len(processes_with(str(self.folder))), 2, "the planner and its relay")
            started.kill()
        until = time.monotonic() + 30
        while processes_with(str(self.folder)) and time.monotonic() < until:
            time.sleep(0.1)
        self.assertEqual(processes_with(str(self.folder)), [])

    def test_an_error_in_the_caller_ends_the_program(self) -> None:
        class Full(io.StringIO):
            def write(self, text: str) -> int:
                raise OSError("no room")

        with redirect_stdout(Full()), self.assertRaisesRegex(OSError, "no room"):
            solved(fetch_problem(from_fn(lambda cup: time.sleep(60))), verbose=True)


if __name__ == "__main__":
    unittest.main()
