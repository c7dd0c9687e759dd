"""Asking generators again."""
import os
import sys
import unittest

from support import SHELF, TRAY, Folder, tool
import check

HEAD = "pddlstream 1 incremental\nlimits 10000 100000 3\npool 1 grip turn\nlevel\n"
REPORT = HEAD + "ask 1 0 grip cup\ngot 1 left\nask 2 1 grip cup\nend 2\nask 3 0 turn #left\nvalue 3 7\n"
GOOD = """
import sys
for line in sys.stdin:
    _, k, stream, *inputs = line.split()
    print("value 7" if stream == "turn" else "yield left" if k == "0" else "end", flush=True)
"""


class Check(Folder):
    def asked(self, program: str, *words: str, seconds: str = "30") -> tuple[int, str]:
        """What is said of a program in Python."""
        report = self.put("report", REPORT)
        status, out, _ = tool(check.main, report, "--seconds", seconds, *words, "--", sys.executable, "-u", "-c", program)
        return status, out

    def test_the_same_answers(self):
        status, out = self.asked(GOOD)
        self.assertEqual((status, out.split("\n")[-2]), (0, "same"))
        self.assertIn("turn                          1 requests, mean", out)

    def test_another_answer(self):
        status, out = self.asked(GOOD.replace("left", "right"))
        self.assertEqual(status, 1)
        self.assertIn("request 1: next 0 grip cup\n  now:    yield right\n  before: yield left", out)

    def test_a_second_line(self):
        status, out = self.asked(GOOD.replace("flush=True)", "end='\\nend\\n', flush=True)"))
        self.assertEqual(status, 1)
        self.assertIn("more than one line; behind the first: b'end\\n'", out)

    def test_a_second_line_in_two_pieces(self):
        pieces = "end='\\ne', flush=True); __import__('time').sleep(0.1); print('nd', flush=True)"
        status, out = self.asked(GOOD.replace("flush=True)", pieces))
        self.assertEqual(status, 1)
        self.assertIn("more than one line; behind the first: b'end\\n'", out)

    def test_a_line_before_the_first_request(self):
        status, out = self.asked("print('hello')" + GOOD, "--silence", "20", "--workers", "1")
        self.assertEqual(status, 1)
        self.assertIn("before any request it wrote b'hello\\n'", out)

    def test_a_missing_flush(self):
        kept_back = "import sys, io\nsys.stdout = io.TextIOWrapper(open(1, 'wb'))"
        status, out = self.asked(GOOD.replace(", flush=True", "").replace("import sys", kept_back), seconds="5")
        self.assertEqual(status, 1)
        self.assertIn("the line isn't flushed", out)

    def test_a_missing_flush_at_the_first_request(self):
        report = self.put("report", HEAD + "ask 1 0 grip cup\n")
        kept_back = GOOD.replace(", flush=True", "").replace("import sys", "import sys, io\nsys.stdout = io.TextIOWrapper(open(1, 'wb'))")
        status, out, _ = tool(check.main, report, "--seconds", "5", "--", sys.executable, "-c", kept_back)
        self.assertEqual(status, 1)
        self.assertIn("b'yield left\\n' once its input ended: the line isn't flushed", out)

    def test_an_open_request_has_no_answer_to_compare(self):
        report = self.put("report", HEAD + "ask 1 0 grip cup\n")
        status, out, _ = tool(check.main, report, "--", sys.executable, "-c", GOOD)
        self.assertEqual((status, out.split("\n")[-2]), (0, "same"))

    def test_a_program_that_does_not_end(self):
        status, out = self.asked(GOOD + "\nimport time; time.sleep(60)", seconds="5")
        self.assertEqual(status, 1)
        self.assertIn("it hadn't ended 5 s after its input did", out)

    def test_a_program_that_ends_early(self):
        status, out = self.asked("input(); raise SystemExit(3)")
        self.assertEqual(status, 1)
        self.assertIn("hadn't answered", out)

    def test_a_program_that_counts_its_calls(self):
        status, out = self.asked("""
import sys
count = 0
for line in sys.stdin:
    count += "grip" in line
    print("value 7" if "turn" in line else "yield left" if count == 1 else "end", flush=True)
""", "--seed", "3", "--workers", "1")
        self.assertEqual((status, "now:" in out), (1, True))

    def test_a_map(self):
        path = self.put("map.json", '{"pools": [{"run": ["sh", "%s/shelf.sh"], "streams": ["spot", "apart"]}]}' % SHELF)
        status, out, _ = tool(check.main, os.path.join(SHELF, "report"), "--map", path)
        self.assertEqual((status, out.split("\n")[-2]), (0, "same"))

    def test_only_some_streams(self):
        status, out, _ = tool(check.main, os.path.join(TRAY, "report"), "--only", "turn", "--", sys.executable,
                              os.path.join(TRAY, "tray.py"))
        self.assertEqual(status, 0)
        self.assertEqual([line.split()[0] for line in out.split("\n")[:-1]], ["turn", "same"])


if __name__ == "__main__":
    unittest.main()
