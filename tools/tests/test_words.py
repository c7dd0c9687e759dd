"""Why words mean no command."""
import os
import unittest

from support import ROOT
from common.words import usage_cause


def rows() -> list[tuple[list[str], bool]]:
    """The lines of words that the rows of commands have, and whether they are refused."""
    found, is_command = [], False
    with open(os.path.join(ROOT, "crates", "part_rows", "stdout"), encoding="utf-8") as file:
        for line in file.read().split("\n"):
            if line.startswith("# "):
                is_command = line == "# command"
            elif is_command and line.startswith("> "):
                words, _, wanted = line[2:].partition(" => ")
                found.append((["" if word == "_" else word for word in words.split(" ")], wanted == "usage"))
    return found


class Words(unittest.TestCase):
    def test_a_cause_is_told_where_the_program_refuses(self):
        listed = rows()
        self.assertGreater(len(listed), 150)
        for words, is_refused in listed:
            with self.subTest(" ".join(words)):
                self.assertEqual(usage_cause(words) is not None, is_refused)

    def test_the_cause_names_the_word(self):
        for line, wanted in (("solv d p s", "`solv`"), ("solve d p", "STREAMS is missing"),
                             ("solve d p s --call 5", "`--call`"),
                             ("solve d p s --calls 0", "`--calls 0`"), ("solve d p s --depth", "no value"),
                             ("solve d p s --depth 2 --depth 3", "twice"), ("solve d p s --algorithm fast", "`fast`"),
                             ("solve d p s --map m -- g", "`g` stands beside"), ("solve d p s sh -c x", "put `--`"),
                             ("solve d p s --protocol 3", "1 to 2"), ("solve d p s --optimal=true", "no value"),
                             ("solve d p s --restarts 1001", "0 to 1,000"), ("replay d p s r --restarts 1", "no option"),
                             ("solve d p s --optimal --algorithm binding", "`--algorithm binding`"),
                             ("replay d p s r --optimal --optimal", "twice"), ("play d p s r g --optimal", "no option"),
                             ("migrate", "REPORT is missing"),
                             ("migrate r x", "`x` is a word too many"), ("migrate r --protocol 2", "no option of migrate"),
                             ("generate 13", "1 to 12"), ("replay d p s r --calls 3", "no option of replay")):
            with self.subTest(line):
                self.assertIn(wanted, usage_cause(line.split(" ")) or "")


if __name__ == "__main__":
    unittest.main()
