"""Answers from a file."""
import os
import sys
import unittest

from support import TRAY, Folder, needs_program, solve, task, tool
import cached

GENERATOR = "import sys\nfor line in sys.stdin:\n    print('yield', len(line), flush=True)\n    print(line, end='', file=open(sys.argv[1], 'a'))\n"


class Cached(Folder):
    def answers(self, requests: str) -> tuple[int, str]:
        """What is answered to some requests."""
        program = self.put("generator.py", GENERATOR)
        status, out, _ = tool(cached.main, os.path.join(self.folder, "answers"), "--", sys.executable, program,
                              os.path.join(self.folder, "asked"), given=requests)
        return status, out

    def asked(self) -> str:
        """What the generator was asked so far."""
        path = os.path.join(self.folder, "asked")
        if not os.path.exists(path):
            return ""
        with open(path, encoding="utf-8") as file:
            return file.read()

    def test_only_what_is_new_is_asked(self):
        self.assertEqual(self.answers("next 0 a\nnext 1 a\nnext 0 a\n"), (0, "yield 9\nyield 9\nyield 9\n"))
        self.assertEqual(self.asked(), "next 0 a\nnext 1 a\n")
        self.assertEqual(self.answers("next 1 a\nnext 0 bb\n"), (0, "yield 9\nyield 10\n"))
        self.assertEqual(self.asked(), "next 0 a\nnext 1 a\nnext 0 bb\n")

    def test_a_line_that_was_cut_off_counts_for_nothing(self):
        self.put("answers", "next 0 a\tyield x\nnext 1 a\tyie")
        self.assertEqual(self.answers("next 0 a\nnext 2 a\n"), (0, "yield x\nyield 9\n"))
        self.assertEqual(self.answers("next 1 a\nnext 2 a\n"), (0, "yield 9\nyield 9\n"))
        self.assertEqual(self.asked(), "next 2 a\nnext 1 a\n")

    def test_a_generator_that_ends(self):
        status, out, _ = tool(cached.main, os.path.join(self.folder, "answers"), "--", "true", given="next 0 a\n")
        self.assertEqual((status, out), (1, ""))

    @needs_program
    def test_a_second_run_asks_nothing(self):
        tool_path = os.path.join(os.path.dirname(cached.__file__), "cached.py")
        words = ("--workers", "2", "--", sys.executable, tool_path, os.path.join(self.folder, "answers"), "--")
        first = solve(task(TRAY), *words, "python3", "tray.py", folder=TRAY)
        self.assertEqual(solve(task(TRAY), *words, "false", folder=TRAY), first)
        self.assertTrue(first.endswith("done\n"))


if __name__ == "__main__":
    unittest.main()
