"""The log, the table and the prices of bench/gate.py."""
import glob
import importlib.util
import io
import os
import unittest
from contextlib import redirect_stdout

from support import Folder, ROOT

SPEC = importlib.util.spec_from_file_location("gate", os.path.join(ROOT, "bench", "gate.py"))
gate = importlib.util.module_from_spec(SPEC)
SPEC.loader.exec_module(gate)

LOG = """   1.0 rt: must-fail low/wrong.edit: refused
cost low proof 120.0
cost low first 90.0
cost low edits 30.0
cost gone proof 600.0
edit low wrong 90.0
edit low none 30.0
whole 250.0 300.0
   2.0 7 passed, 0 failed
"""


class Gate(Folder):
    def test_each_edit_is_known_by_the_copy_that_it_was_made_in(self):
        for file in glob.glob(os.path.join(ROOT, "crates", "*", "must-fail", "*.edit")):
            crate = os.path.dirname(os.path.dirname(file))
            edit = gate.read_text(file)
            place = next(it[6:].strip() for it in edit.splitlines() if it.startswith("file: "))
            os.makedirs(os.path.join(self.folder, os.path.dirname(place)), exist_ok=True)
            self.put(place, gate.edited(gate.read_text(os.path.join(crate, place)), edit))
            with self.subTest(file):
                self.assertEqual(gate.edit_in(self.folder, os.path.basename(crate)), os.path.basename(file)[:-5])
            self.put(place, gate.read_text(os.path.join(crate, place)))
            self.assertEqual(gate.edit_in(self.folder, os.path.basename(crate)), "none")
            os.remove(os.path.join(self.folder, place))

    def test_the_table_has_a_log_and_the_prices_of_edits(self):
        costs = gate.read_log(self.put("log", LOG))
        self.assertEqual((costs.edits, costs.said, costs.prices["low", "wrong"]), (1, "7 passed, 0 failed", 90.0))
        shown = io.StringIO()
        with redirect_stdout(shown):
            gate.show_table(costs)
            gate.show_prices(costs)
        self.assertIn("| gone | 10 | - | - | 10 |\n| low | 2 | - | 2 | 4 |", shown.getvalue())
        self.assertIn("| low | wrong 90, without an edit 30 |", shown.getvalue())

    def test_of_logs_in_parts_the_later_counts(self):
        texts = {name: f"cost lemmas proof {it}\nwhole {it} 60\n" for name, it in (("one", 60), ("two", 120))}
        files = [self.put(name, text) for name, text in texts.items()]
        costs = gate.join_logs(files)
        self.assertEqual((costs.minutes["lemmas", "proof"], costs.whole, costs.parts), (2.0, 3.0, 2))


if __name__ == "__main__":
    unittest.main()
