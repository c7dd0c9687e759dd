"""Reports of both versions, as `solve` reads them."""
from __future__ import annotations

import re
import unittest

from pddlstream_client import Action, from_list_fn, solve
from pddlstream_client.report import read_report

from .support import InFolder, fetch_problem

HEAD = "pddlstream {} incremental\nlimits 10000 100000 3\npool 1 grip\nlevel\nask 1 0 grip cup\n"
PLAN = "plan 2\ndo take cup #right\ndo drop cup #right\ncost 2\nfrom #right {}\ndone\n"


class ReadTest(unittest.TestCase):
    def tuples(self, line: str) -> tuple[tuple[str, ...], ...]:
        """The tuples of this answer to the first request."""
        (asked,) = read_report(f"ask 1 0 grip cup\n{line}\n").asked
        self.assertEqual(asked.answer, "got")
        return asked.tuples

    def test_a_line_has_one_tuple_or_several(self) -> None:
        self.assertEqual(self.tuples("got 1 left"), (("left",),))
        self.assertEqual(self.tuples("got 1 left up"), (("left", "up"),))
        self.assertEqual(self.tuples("got 1 left up | right down"), (("left", "up"), ("right", "down")))

    def test_a_test_has_one_empty_tuple(self) -> None:
        self.assertEqual(self.tuples("got 1"), ((),))

    def test_other_answers_have_none(self) -> None:
        ended, priced, waiting = read_report("ask 1 0 a\nask 2 0 b\nask 3 0 c\nend 1\nvalue 2 7\n").asked
        self.assertEqual((ended.answer, ended.tuples), ("end", ()))
        self.assertEqual((priced.answer, priced.tuples, priced.value), ("value", (), 7))
        self.assertEqual((waiting.answer, waiting.tuples), ("", ()))


class SolutionTest(InFolder):
    """Over a program in the planner's place, which asks one request and prints a report."""

    def asking(self, report: str) -> str:
        """A program that asks for a grip, keeps the answer in the folder, and prints this report."""
        answer = self.folder / "answer"
        return self.program_of(
            'while [ "$1" != -- ]; do shift; done; shift\n'
            f"{{ echo next 0 grip cup; until [ -s {answer} ]; do sleep 0.02; done; }} | \"$@\" > {answer}\n"
            f"cat <<'END'\n{report}END"
        )

    def test_each_tuple_is_certified(self) -> None:
        program = self.asking(HEAD.format(2) + "got 1 left | right\n" + PLAN.format("1 2"))
        grips = from_list_fn(lambda cup: [("left",), ("right",)])
        plan, cost, certificate = solve(fetch_problem(grips), "incremental", protocol=2, program=program)
        self.assertEqual((self.folder / "answer").read_text(), "yield left | right\n")
        self.assertEqual(plan, [Action("take", ("cup", "right")), Action("drop", ("cup", "right"))])
        self.assertEqual(cost, 2)
        self.assertEqual(certificate.all_facts[2:], (("grip", "cup", "left"), ("grip", "cup", "right")))
        self.assertEqual(dict(certificate.objects), {"cup": "cup", "#left": "left", "#right": "right"})

    def test_the_planner_is_told_the_protocol_where_it_is_another(self) -> None:
        written = self.folder / "words"
        program = self.program_of(f'echo "$@" > {written}\necho no plan\necho done\nexit 1')
        for protocol, wanted in ((1, []), (2, ["2"])):
            solve(fetch_problem(from_list_fn(lambda cup: [])), protocol=protocol, program=program)
            self.assertEqual(re.findall(r"--protocol (\S+)", written.read_text()), wanted)

    def test_there_are_two_protocols(self) -> None:
        with self.assertRaisesRegex(ValueError, "protocol is 1 or 2, and not 3"):
            solve(fetch_problem(from_list_fn(lambda cup: [])), protocol=3, program=self.program_of("exit 1"))


if __name__ == "__main__":
    unittest.main()
