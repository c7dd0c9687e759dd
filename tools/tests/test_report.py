"""Reports as data, counts, JSON, graphs and pages."""
import json
import re
import unittest

from support import GRID, MODES, SHELF, TRAY, Folder, needs_program, solve, task, tool
import report
from common.reports import ReportFault, parse
from views.dreams import fate, stories
from views.page import page

DREAMED = """pddlstream 1 adaptive
limits 10000 100000 3
pool 2 spot apart
dream 2 1
use 1 spot cup
use 3 apart cup @1.1 corner
step put cup @1.1 corner
pick 1
ask 1 0 spot cup
got 1 2
ask 2 0 apart cup #2 corner
end 2
none
pick 1
ask 3 1 spot cup
got 3 4
ask 4 0 apart cup #4 corner
got 4
plan 1
do put cup #4 corner
cost 1
from #4 3
done
"""


def read(text: str):
    """The report of a text."""
    return parse(text.splitlines(keepends=True))


class Reading(unittest.TestCase):
    def test_a_report_is_read(self):
        got = read(DREAMED)
        self.assertEqual((got.version, got.mode, got.limits), (1, "adaptive", (10000, 100000, 3)))
        self.assertEqual([(pool.workers, pool.streams) for pool in got.pools], [(2, ["spot", "apart"])])
        self.assertEqual(got.asks[3].request, "next 1 spot cup")
        self.assertEqual([ask.answer.said for ask in got.asks.values()], ["yield 2", "end", "yield 4", "yield"])
        self.assertEqual((got.outcome.steps, got.outcome.cost, got.outcome.origins),
                         ([["put", "cup", "#4", "corner"]], 1, {"#4": (3, 1)}))
        self.assertTrue(got.is_done)

    def test_a_report_of_version_2_is_read(self):
        text = DREAMED.replace("pddlstream 1", "pddlstream 2").replace("got 1 2", "got 1 2 | 3").replace("from #4 3",
                                                                                                         "from #4 3 2")
        got = read(text)
        self.assertEqual((got.asks[1].answer.tuples, got.outcome.origins), ([["2"], ["3"]], {"#4": (3, 2)}))
        self.assertEqual(got.asks[1].answer.said, "yield 2 | 3")

    def test_each_front_of_a_report_is_read(self):
        for end in range(DREAMED.index("\n") + 1, len(DREAMED)):
            read(DREAMED[:end])

    def test_what_is_no_report_is_told(self):
        for text in ("hello\n", DREAMED + "more\n", "got 1 2\n", "ask x 0 s\n", "use 1 s\n", "do a\n", "pool\n"):
            with self.subTest(text):
                self.assertRaises(ReportFault, read, text)


class Stories(unittest.TestCase):
    def test_what_became_of_a_dream(self):
        got = read(DREAMED)
        (story,) = stories(got)
        self.assertEqual([trial.asks for trial in story.trials], [[1, 2], [3, 4]])
        self.assertEqual(fate(story, got.asks), "tried 2 times, the last time 2 of 2 asked, all answered: the plan came")

    def test_a_dream_that_was_given_up(self):
        got = read(DREAMED[:DREAMED.index("ask 3")] + "retire 1\nnone\nreset\n")
        (story,) = stories(got)
        self.assertTrue(story.is_retired)
        self.assertEqual(fate(story, got.asks), "2 of 2 asked; apart ended (request 2); given up")


class Views(Folder):
    def shown(self, text: str, *words: str) -> str:
        """What the tool prints of a report."""
        status, out, _ = tool(report.main, *words, self.put("report", text))
        self.assertEqual(status, 0)
        return out

    def test_counts(self):
        lines = self.shown(DREAMED).split("\n")
        self.assertIn("spot         2       2       0       0       0", lines)
        self.assertIn("apart        2       1       1       0       0", lines)
        self.assertIn("4 requests, 1 dream, 1 none, 2 pick", lines)
        self.assertIn("plan of 1 step, cost 1", lines)

    def test_standard_input(self):
        status, out, _ = tool(report.main, given=DREAMED)
        self.assertEqual((status, "4 requests" in out), (0, True))

    def test_json(self):
        made = json.loads(self.shown(DREAMED, "--json"))
        self.assertEqual(made["entries"][0]["uses"][1], {"entry": 3, "stream": "apart",
                                                         "inputs": ["cup", "@1.1", "corner"]})
        self.assertEqual(made["entries"][2], {"ask": 1, "turn": 0, "stream": "spot", "inputs": ["cup"], "line": 9})
        self.assertEqual(made["outcome"]["from"], {"#4": {"ask": 3, "tuple": 1}})
        self.assertTrue(made["done"])

    def test_a_graph_has_what_led_to_the_plan(self):
        self.assertIn('"cup" -> "#4" [label="spot 3"];', self.shown(DREAMED, "--dot"))
        self.assertNotIn('"#2"', self.shown(DREAMED, "--dot"))
        self.assertIn('"cup" -> "#2" [label="spot 1"];', self.shown(DREAMED, "--dot", "--all"))

    def test_a_graph_quotes_what_it_has_to(self):
        made = self.shown(DREAMED.replace("got 3 4", 'got 3 "\\'), "--dot", "--all")
        self.assertIn('"#\\"\\\\"', made)

    def test_a_page_has_all_in_itself(self):
        made = self.shown(DREAMED, "--html")
        self.assertEqual(re.findall(r'(?:src|href)=', made), [])
        data = page_data(made)
        self.assertEqual((data["rounds"], data["lanes"], data["kinds"]), (4, [0, 1, 0, 1], [1, 2, 1, 1]))
        self.assertEqual(data["plan"]["steps"], [{"name": "put", "args": [["cup", -1], ["#4", 2], ["corner", -1]]}])
        self.assertEqual(data["dreams"][0]["uses"], [["spot cup", 2], ["apart cup @1.1 corner", 3]])

    def test_a_value_can_not_end_the_data_of_a_page(self):
        made = page(read(DREAMED.replace("got 3 4", "got 3 </script><script>x<!--")), "</title><b>")
        self.assertEqual(made.count("</script>"), 2)
        self.assertEqual(made.count("<script"), 2)
        self.assertNotIn("<b>", made)
        self.assertIn("yield </script><script>x<!--", page_data(made)["lines"])

    def test_reports_without_an_end(self):
        for kind in ((), ("--json",), ("--dot",), ("--html",)):
            for end in (DREAMED[:30], DREAMED[:200], DREAMED[:300] + "fault generator\n"):
                with self.subTest((kind, end)):
                    self.shown(end if end.endswith("\n") else end[:end.rfind("\n") + 1], *kind)

    @needs_program
    def test_each_mode(self):
        for folder, words in ((TRAY, ("python3", "tray.py")), (SHELF, ("sh", "shelf.sh")),
                              (GRID, ("@grid", "grid.txt"))):
            for mode in MODES:
                with self.subTest((folder, mode)):
                    text = solve(task(folder), "--algorithm", mode, "--", *words, folder=folder)
                    asked = sum(line.startswith("ask ") for line in text.split("\n"))
                    self.assertEqual(len(page_data(self.shown(text, "--html"))["lanes"]), asked)
                    self.assertIn(f"{asked} requests", self.shown(text))
                    self.assertEqual(back_from_json(self.shown(text, "--json")),
                                     [line for line in text.split("\n")
                                      if line.startswith(("ask", "got", "end", "value"))])


def page_data(text: str) -> dict:
    """The data in a page."""
    return json.loads(re.search(r'<script type="application/json" id="data">(.*?)</script>', text, re.S)[1])


def back_from_json(text: str) -> list[str]:
    """The lines of requests and answers that a JSON text stands for."""
    found = []
    for entry in json.loads(text)["entries"]:
        if "ask" in entry:
            found.append(" ".join(["ask", str(entry["ask"]), str(entry["turn"]), entry["stream"], *entry["inputs"]]))
        elif "got" in entry:
            found.append(" ".join(["got", str(entry["got"]), *" | ".join(map(" ".join, entry["tuples"])).split()]))
        elif "end" in entry:
            found.append(f"end {entry['end']}")
        elif "value" in entry:
            found.append(f"value {entry['value']} {entry['number']}")
    return found


if __name__ == "__main__":
    unittest.main()
