"""The inputs and the rows of bench/runs.py."""
import importlib.util
import os
import re
import stat
import unittest

from support import Folder, ROOT, PROGRAM, needs_program

PATH = os.path.join(ROOT, "bench", "runs.py")
SPEC = importlib.util.spec_from_file_location("runs", PATH)
runs = importlib.util.module_from_spec(SPEC)
SPEC.loader.exec_module(runs)


class Runs(Folder):
    def program(self, name: str, text: str) -> str:
        """A program of the shell."""
        path = self.put(name, f"#!/bin/sh\n{text}\n")
        os.chmod(path, os.stat(path).st_mode | stat.S_IXUSR)
        return path

    def test_the_rows_are_those_of_the_page(self):
        with open(os.path.join(ROOT, "docs", "PERFORMANCE.md"), encoding="utf-8") as file:
            table = file.read().split("| Run | plain |")[1].split("\n\n")[0]
        listed = re.findall(r"^\| (.*?)(?: \*)? \| [\d.]+ \|", table, re.M)
        self.assertEqual([row[0] for row in runs.ROWS], listed)

    def test_each_text_is_one_list_below_its_limit(self):
        for name, texts in runs.inputs().items():
            for part in ("domain", "problem", "streams"):
                depth = [0]
                for paren in re.findall(r"[()]", re.sub(r";[^\n]*", "", texts[part])):
                    depth.append(depth[-1] + (1 if paren == "(" else -1))
                with self.subTest(name, part=part):
                    self.assertEqual((depth[-1], depth[1:].count(0), min(depth)), (0, 1, 0))
                    self.assertLess(len(texts[part]), 4 << 20)

    def test_another_outcome_is_told_and_another_plan_is_none(self):
        said = {name: self.program(name, text) for name, text in (
            ("one", "echo plan 1; echo do a; echo done"), ("other", "echo plan 2; echo do b; echo do c; echo done"),
            ("none", "echo no plan; echo done; exit 1"))}
        row = ("one", "generate", "1", [])
        for beside, told in (("other", r"\| one \| [\d.]+ \| [\d.]+ \| [\d.]+ \| [\d.]+ \|"),
                             ("none", r"\| one \| [\d.]+ \| [\d.]+ \| other statuses or lines \| \|")):
            done = [[runs.run(said[name], runs.words_of(*row[1:3]), self.folder)] for name in ("one", beside)]
            self.assertRegex(runs.shown("one", *done, (2.0, 1.0)), told)

    @needs_program
    def test_the_program_takes_each_input(self):
        runs.make_inputs(self.folder, PROGRAM, "blocks")
        for name, words in (("cup", ["--", "yes", "yield left"]), ("hops", runs.NEVER), ("three-lamps", runs.NEVER),
                            ("grid-3", ["--", "@grid", "grid-3/grid"])):
            _, (status, lines) = runs.run(PROGRAM, [*runs.words_of("solve", name), *words], self.folder)
            self.assertEqual((name, status, lines[-2]), (name, 0, "done"))


if __name__ == "__main__":
    unittest.main()
