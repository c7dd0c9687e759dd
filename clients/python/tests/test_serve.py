"""`serve` as a program: its lines, what it tells on standard error, and how the planner takes it."""
from __future__ import annotations

import subprocess
import sys
import unittest

from .support import FETCH_DOMAIN, FETCH_STREAM, PROGRAM, InFolder, environment, needs_program, run_python

HEAD = "from pddlstream_client import from_cost_fn, from_fn, from_gen_fn, from_test, serve\n"
FETCH_PROBLEM = "(define (problem one) (:domain fetch) (:objects cup) (:init (item cup) (free)) (:goal (done cup)))"


class ServeTest(InFolder):
    def served(self, script: str, requests: str) -> subprocess.CompletedProcess[str]:
        return run_python(HEAD + script, requests, folder=str(self.folder))

    def test_each_request_gets_one_line(self) -> None:
        done = self.served(
            "serve({'grip': from_gen_fn(lambda item: iter([('left',), ('right',)])),"
            "'turn': from_cost_fn(lambda item: 7), 'clear': from_test(lambda item: item == 'cup')})",
            "next 0 grip cup\nnext 1 grip cup\nnext 2 grip cup\nnext 0 turn cup\nnext 0 clear cup\nnext 0 clear pan\n",
        )
        self.assertEqual(
            (done.stdout, done.stderr, done.returncode), ("yield left\nyield right\nend\nvalue 7\nyield\nend\n", "", 0)
        )

    def test_what_is_printed_goes_to_standard_error(self) -> None:
        done = self.served(
            "import os, subprocess, sys\nprint('as it starts')\n"
            "def grip(item):\n    print('in Python'); os.write(1, b'below Python\\n')\n"
            "    subprocess.run(['sh', '-c', 'echo by a program; cat'])\n    return ('left',)\n"
            "serve({'grip': from_fn(grip)})",
            "next 0 grip cup\nnext 0 grip pan\n",
        )
        self.assertEqual((done.stdout, done.returncode), ("yield left\nyield left\n", 0))
        self.assertEqual(done.stderr, "as it starts\n" + 2 * "in Python\nbelow Python\nby a program\n")

    def test_an_answer_is_there_before_the_next_request(self) -> None:
        words = [sys.executable, "-c", HEAD + "serve({'grip': from_fn(lambda item: (item,))})"]
        with subprocess.Popen(
            words, stdin=subprocess.PIPE, stdout=subprocess.PIPE, text=True, env=environment()
        ) as started:
            assert started.stdin and started.stdout
            for item in ("cup", "pan"):
                started.stdin.write(f"next 0 grip {item}\n")
                started.stdin.flush()
                self.assertEqual(started.stdout.readline(), f"yield {item}\n")
            started.stdin.close()
            self.assertEqual(started.wait(20), 0)

    def test_an_error_is_told_with_its_request(self) -> None:
        done = self.served("serve({'grip': from_fn(lambda item: 1 / 0)})", "next 0 grip cup\nnext 0 grip pan\n")
        self.assertEqual((done.stdout, done.returncode), ("", 1))
        self.assertIn("pddlstream_client: at the request: next 0 grip cup\n", done.stderr)
        self.assertIn("ZeroDivisionError", done.stderr)
        self.assertNotIn("pan", done.stderr)

    def test_a_function_that_ends_the_program_is_told(self) -> None:
        done = self.served("import sys\nserve({'grip': from_fn(lambda item: sys.exit('no robot'))})", "next 0 grip cup\n")
        self.assertEqual((done.stdout, done.returncode), ("", 1))
        self.assertIn("ended the program (sys.exit: no robot), at the request: next 0 grip cup\n", done.stderr)

    def test_a_request_that_takes_too_long_stops_the_generator(self) -> None:
        done = self.served(
            "import time\ndef grip(item):\n    try:\n        time.sleep(40)\n    except Exception:\n        pass\n"
            "serve({'grip': from_fn(grip)}, seconds=0.2)",
            "next 0 grip cup\n",
        )
        self.assertEqual((done.stdout, done.returncode), ("", 1))
        self.assertIn("no answer within 0.2 seconds, at the request: next 0 grip cup", done.stderr)

    def test_or_its_instance_is_given_up(self) -> None:
        done = self.served(
            "import time\nserve({'grip': from_fn(lambda item: time.sleep(40) if item == 'cup' else (item,))},"
            "seconds=0.5, late='end')",
            "next 0 grip cup\nnext 0 grip pan\nnext 0 grip cup\n",
        )
        self.assertEqual((done.stdout, done.returncode), ("end\nyield pan\nend\n", 0))
        self.assertEqual(
            done.stderr, "pddlstream_client: no answer within 0.5 seconds, at the request: next 0 grip cup\n"
        )

    def test_values_are_found_by_another_worker(self) -> None:
        script = (
            "serve({'plan': from_fn(lambda item: ({'way': [item, None]},)),"
            "'look': from_fn(lambda it: (it['way'][0],))})"
        )
        name = self.served(script, "next 0 plan cup\n").stdout.split()[1]
        self.assertRegex(name, r"~dict-[0-9a-f]{32}\Z")
        self.assertEqual(self.served(script, f"next 0 look #{name}\n").stdout, "yield cup\n")
        self.assertTrue((self.folder / "pddlstream-store" / name).exists())

    def test_the_store_is_where_it_is_named(self) -> None:
        script = "serve({'plan': from_fn(lambda: ('two words',))}%s)"
        for words, folder in (("", "by-variable"), (", store='by-argument'", "by-argument")):
            run_python(HEAD + script % words, "next 0 plan\n", folder=str(self.folder), PDDLSTREAM_STORE="by-variable")
            self.assertEqual(len(list((self.folder / folder).iterdir())), 1)

    def test_it_ends_quietly_where_the_planner_has_gone(self) -> None:
        words = [
            sys.executable,
            "-c",
            HEAD + "import time\nserve({'grip': from_fn(lambda: (time.sleep(0.5), ('a',))[1])})",
        ]
        with subprocess.Popen(
            words, stdin=subprocess.PIPE, stdout=subprocess.PIPE, stderr=subprocess.PIPE, env=environment()
        ) as started:
            assert started.stdin and started.stdout and started.stderr
            started.stdin.write(b"next 0 grip\n")
            started.stdin.flush()
            started.stdout.close()
            self.assertEqual(started.wait(20), 0)
            self.assertEqual(started.stderr.read(), b"")

    def test_the_package_alone_leaves_standard_output_as_it_is(self) -> None:
        done = run_python(
            "import pddlstream_client\nfrom pddlstream_client import *\nprint('here')\n"
            "from pddlstream_client import serve\nprint('there')"
        )
        self.assertEqual((done.stdout, done.stderr), ("here\n", "there\n"))


@needs_program
class ServedPlannerTest(InFolder):
    """The planner starts such a program."""

    def solve(self, script: str, *words: str) -> subprocess.CompletedProcess[str]:
        for name, text in {"d": FETCH_DOMAIN, "p": FETCH_PROBLEM, "s": FETCH_STREAM, "grip.py": HEAD + script}.items():
            (self.folder / name).write_text(text)
        assert PROGRAM is not None
        return subprocess.run(
            [PROGRAM, "solve", "d", "p", "s", *words, "--", sys.executable, "grip.py"],
            cwd=self.folder,
            env=environment(),
            capture_output=True,
            text=True,
            timeout=120,
        )

    def test_a_plan_comes(self) -> None:
        done = self.solve("serve({'grip': from_fn(lambda item: (0.25,))})")
        self.assertEqual(
            done.stdout.splitlines()[-6:],
            ["plan 2", "do take cup #=0.25", "do drop cup #=0.25", "cost 2", "from #=0.25 1", "done"],
        )
        self.assertEqual((done.stderr, done.returncode), ("", 0))

    def test_another_number_of_outputs_is_the_planners_fault_count(self) -> None:
        done = self.solve("serve({'grip': from_fn(lambda item: (1, 2))})")
        self.assertEqual((done.stdout.splitlines()[-1], done.returncode), ("fault answer 1 count", 5))

    def test_an_error_is_the_planners_fault_generator(self) -> None:
        done = self.solve("serve({'grip': from_fn(lambda item: 1 / 0)})")
        self.assertEqual((done.stdout.splitlines()[-1], done.returncode), ("fault generator", 7))
        self.assertIn("at the request: next 0 grip cup", done.stderr)

    def test_a_report_is_the_same_with_many_workers(self) -> None:
        script = (
            "import random\ndef grips(item):\n    for _ in range(5):\n"
            "        yield (random.random(),) if item == 'cup' else None\n"
            "serve({'grip': from_gen_fn(grips)})"
        )
        reports = [self.solve(script, "--workers", workers).stdout for workers in ("1", "6")]
        self.assertEqual(
            [line for line in reports[0].splitlines() if not line.startswith("pool")],
            [line for line in reports[1].splitlines() if not line.startswith("pool")],
        )
        self.assertTrue(reports[0].endswith("done\n"))


if __name__ == "__main__":
    unittest.main()
