"""The manual page and the completions have what the pages have."""
import os
import re
import shutil
import subprocess
import unittest

from support import ROOT, TOOLS
from common.words import MODES, NUMBERS, OPTIONS, TEXTS


def read(*names: str) -> str:
    """A file of the repository."""
    with open(os.path.join(ROOT, *names), encoding="utf-8") as file:
        return file.read()


class Manual(unittest.TestCase):
    def setUp(self) -> None:
        self.using, self.report = read("docs", "USING.md"), read("docs", "REPORT.md")
        self.manual = read("tools", "pddlstream.1").replace("\\-", "-")

    def test_the_options_are_those_of_the_page(self):
        listed = re.findall(r"^\| `(--\w+)` \|", self.using, re.M)
        self.assertEqual(sorted(listed), sorted(OPTIONS["solve"]))
        self.assertEqual(re.findall(r"^\.BI (--\w+)", self.manual, re.M), listed)

    def test_ranges_and_defaults_are_those_of_the_page(self):
        for option, least, most, default in re.findall(r"^\| `(--\w+)` \| (\d) to ([\d,]+) \| ([\d,]+) \|", self.using,
                                                       re.M):
            self.assertEqual((int(least), int(most.replace(",", ""))), NUMBERS[option])
            part = self.manual[self.manual.index(f".BI {option}"):][:250]
            self.assertIn(f"{least} to {most}; {default} where none is given", part)

    def test_the_statuses_are_those_of_the_page(self):
        statuses = re.findall(r"^(\d+)\t(.*)$", self.manual, re.M)
        self.assertEqual([number for number, _ in statuses], [str(number) for number in range(11)])
        for number, meaning in statuses:
            self.assertIn((number, meaning), re.findall(r"^\| (\d+) \| (.*?) \|", self.report, re.M))

    def test_statuses_and_kinds_of_the_validator_are_those_of_its_page(self):
        page, manual = read("docs", "VALIDATING.md"), read("tools", "pddl_validate.1")
        listed = {status for status in re.findall(r"^\| [^|]* \| (\d+) \|", page, re.M)}
        self.assertEqual(set(re.findall(r"^(\d+)\t", manual, re.M)), listed)
        kinds = re.findall(r"^\| `(\w+)` \| [^|]* \|$", page, re.M)
        steps, reports = ["action", "args", "object", "type", "condition", "cost"], ["text", "ask", "answer"]
        self.assertEqual(kinds, steps + reports)
        self.assertEqual(re.findall(r"^\.BR? (\w+)", manual[manual.index("Step N"):], re.M)[:6], steps)
        self.assertEqual(re.findall(r"^\.RB \( (\w+) \)", manual, re.M), reports)

    @unittest.skipUnless(shutil.which("man"), "there is no man")
    def test_the_pages_are_set_without_a_warning(self):
        for page in ("pddlstream.1", "pddl_validate.1"):
            done = subprocess.run(["man", "--warnings", "-l", os.path.join(TOOLS, page)], capture_output=True, text=True,
                                  env={**os.environ, "MANPAGER": "cat", "LC_ALL": "C.UTF-8"})
            self.assertEqual((page, done.returncode, done.stderr), (page, 0, ""))


class Completions(unittest.TestCase):
    def completed(self, *words: str) -> list[str]:
        """What bash offers for the last word."""
        script = (f'. "{TOOLS}/completions/pddlstream.bash"; COMP_WORDS=("$@"); COMP_CWORD=$(($# - 1)); _pddlstream; '
                  'printf "%s\\n" "${COMPREPLY[@]}"')
        done = subprocess.run(["bash", "-c", script, "bash", "pddlstream", *words], capture_output=True, text=True,
                              cwd=TOOLS)
        return done.stdout.split("\n")[:-1]

    def test_commands_options_and_modes(self):
        self.assertEqual(self.completed(""), list(TEXTS))
        self.assertEqual(self.completed("solve", "d", "p", "s", "--a"), ["--algorithm"])
        self.assertEqual(set(self.completed("solve", "--")), {*OPTIONS["solve"], "--"})
        self.assertEqual(self.completed("solve", "--algorithm", ""), list(MODES))
        self.assertEqual(self.completed("solve", "--protocol", ""), ["1", "2"])
        self.assertEqual(self.completed("replay", "-"), OPTIONS["replay"])
        self.assertEqual(self.completed("play", "-"), OPTIONS["play"])
        self.assertEqual(self.completed("generate", "1"), ["1", "10", "11", "12"])

    def test_files(self):
        self.assertEqual(self.completed("solve", "expl"), ["explain.py"])
        self.assertIn("explain.py", self.completed("solve", "d", "p", "s", "--", "expl"))

    def test_zsh_has_the_same_options(self):
        self.assertEqual(sorted(set(re.findall(r"'(--\w+)[=\[]", read("tools", "completions", "_pddlstream")))),
                         sorted(OPTIONS["solve"]))

    @unittest.skipUnless(shutil.which("zsh"), "there is no zsh")
    def test_zsh_reads_it(self):
        done = subprocess.run(["zsh", "-n", os.path.join(TOOLS, "completions", "_pddlstream")], capture_output=True,
                              text=True)
        self.assertEqual((done.returncode, done.stderr), (0, ""))


if __name__ == "__main__":
    unittest.main()
