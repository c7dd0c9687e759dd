"""The pages that name definitions, and the script that prints them."""

import contextlib
import importlib.util
import io
import pathlib
import re
import sys
import unittest
from unittest import mock

ROOT = pathlib.Path(__file__).resolve().parents[2]
PAGES = [ROOT / "README.md", *(ROOT / "docs" / f"{name}.md" for name in ("ARCHITECTURE", "DECISIONS", "DEFINITIONS", "GLOSSARY"))]


def load():
    """Returns the script as a module."""
    spec = importlib.util.spec_from_file_location("definitions", ROOT / "bench" / "definitions.py")
    made = importlib.util.module_from_spec(spec)
    spec.loader.exec_module(made)
    return made


definitions = load()


def printed(*words):
    """Returns the status and the text of a call of the script."""
    out = io.StringIO()
    with mock.patch.object(sys, "argv", ["definitions.py", *words]), contextlib.redirect_stdout(out):
        return definitions.main(), out.getvalue()


class Pages(unittest.TestCase):
    def test_no_page_names_what_is_gone(self):
        words = definitions.words_of_tree(str(ROOT))
        pages = [*PAGES, *sorted((ROOT / "crates").glob("*/README.md"))]
        found = [f"{page.relative_to(ROOT)}:{at}: {word}" for page in pages for at, word in definitions.dead_words(page, words)]
        self.assertEqual(found, [])

    def test_a_name_that_is_gone_is_told(self):
        page = io.StringIO("It is `IsGoneForGood`, not `IsValid`.\n")
        with mock.patch("builtins.open", return_value=page):
            self.assertEqual(list(definitions.dead_words("page", {"IsValid"})), [(1, "IsGoneForGood")])

    def test_each_hop_of_the_headline_is_defined_in_its_file(self):
        text = (ROOT / "docs" / "DEFINITIONS.md").read_text(encoding="utf-8")
        hops = re.findall(r"^\| `(\w+)` \| (`[\w/]+`|same file) \|", text, re.M)
        self.assertEqual(len(hops), 13)
        place = None
        for name, where in hops:
            place = where.strip("`") if where != "same file" else place
            crate, _, module = place.split("/")
            with self.subTest(name=name):
                self.assertIn((crate, module), [(it.crate, it.module) for it in definitions.named(str(ROOT), [crate], name)])


class Printing(unittest.TestCase):
    def test_each_definition_of_a_crate_is_told_once(self):
        status, text = printed("task_model")
        self.assertEqual(status, 0)
        self.assertEqual(len(re.findall(r"^  IsStep: ", text, re.M)), 1)
        self.assertIn("task_model/specs/Steps: What one action does and costs (PDDL 2.1", text)

    def test_a_definition_is_printed_whole(self):
        status, text = printed("IsValid")
        self.assertEqual(status, 0)
        self.assertRegex(text, r"\Acrates/task_model/specs/Plans\.antt:\d+\n-- The plan can be executed")
        self.assertIn("Executes task known (initial_state task) steps end cost × IsGoal task known end", text)

    def test_an_unknown_name_is_told(self):
        status, text = printed("IsNowhereDefined")
        self.assertEqual(status, 1)
        self.assertIn("IsNowhereDefined: no such", text)


if __name__ == "__main__":
    unittest.main()
