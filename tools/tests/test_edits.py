"""The edits that the prover has to refuse, and how bench/edits.py tries them."""
import glob
import importlib.util
import os
import unittest

from support import ROOT

SPEC = importlib.util.spec_from_file_location("edits", os.path.join(ROOT, "bench", "edits.py"))
edits = importlib.util.module_from_spec(SPEC)
SPEC.loader.exec_module(edits)

TEXT = """const MOST: usize = 3;

pub fn alone(alloc: Global) -> usize
    ensures { result ≡ 3 }
{
    let most = MOST;
    most
}

impl<'a> Nest {
    pub fn depth(&self) -> usize
        ensures { result ≡ depth self.now }
    {
        self.outer.len()
    }

    fn short(&self) -> bool {
        self.depth() < MOST
    }
}

impl Drop for Nest {
    fn drop(&mut self) {
        self.close();
    }
}
"""

SAID = """./proofs/nest/alone/Answers.antt:7:3: error: `returns`: record `Lts` has no field `push`
./proofs/nest/deep/Answers.antt:9:3: error: `returns`: as printed, the two types first differ where one has 64
note: src/nest.rt:54:5: it is not proved that what the function ensures holds when it returns (`returns`)
fn low::nest::Nest::depth: not proved
fn low::nest::Nest::short: no proof: it calls `low::nest::Nest::depth`, which is not proved
fn low::nest::alone: not proved
fn low::nest::read: no proof: expected answers in ./proofs/nest/read/Answers.antt; `search` did not prove `returns`
fn low::nest::deep: not proved
fn low::nest::other: proved
""".splitlines()


class Edits(unittest.TestCase):
    def test_each_line_that_an_edit_takes_away_stands_once(self):
        for file in glob.glob(os.path.join(ROOT, "crates", "*", "*", "*.edit")):
            crate = os.path.dirname(os.path.dirname(file))
            edit = edits.read_edit(file, crate)
            text = edits.read(os.path.join(crate, edit.file))
            with self.subTest(file):
                self.assertTrue(edit.pairs)
                for old, new in edit.pairs:
                    self.assertEqual(text.count(old), 1)
                    self.assertNotEqual(old, new)
                    text = text.replace(old, new)

    def test_an_edit_is_known_by_the_function_in_whose_body_it_stands(self):
        for line, function in (
            ("let most = MOST", "nest::alone"),
            ("self.outer.len()", "nest::Nest::depth"),
            ("self.depth() < MOST", "nest::Nest::short"),
            ("self.close()", None),
            ("const MOST", None),
            ("ensures { result ≡ 3 }", None),
            ("ensures { result ≡ depth self.now }", None),
            ("nowhere", None),
        ):
            with self.subTest(line):
                self.assertEqual(edits.function_at(TEXT, "src/nest.rt", line), function)
        self.assertEqual(edits.function_at(TEXT, "src/lib.rt", "let most = MOST"), "alone")

    def test_what_only_calls_a_refused_function_is_not_told_as_refused(self):
        told = edits.refused_in(edits.Said(1, SAID))
        self.assertEqual(told, {"nest::Nest::depth": True, "nest::alone": False, "nest::read": True, "nest::deep": True})


if __name__ == "__main__":
    unittest.main()
