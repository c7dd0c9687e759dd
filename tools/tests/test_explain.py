"""How runs ended, in words."""
import unittest

from support import FETCH, MODES, SHELF, TRAY, Folder, needs_program, solve, task, tool
import explain

HEAD = "pddlstream 1 incremental\nlimits 10000 100000 3\npool 1 grip\nlevel\nask 1 0 grip cup\n"


class Explained(Folder):
    def said(self, text: str, *words: str) -> str:
        """What is said of a printed text."""
        status, out, _ = tool(explain.main, self.put("printed", text), *words)
        self.assertEqual(status, 0)
        return out

    def test_a_fault_of_a_text_is_shown_with_its_line(self):
        problem = self.put("problem.pddl", "(define (problem one) (:domain fetch)\n  (:init (item mug))\n  (:goal "
                                           "(done cup)))\n")
        place = len("(define (problem one) (:domain fetch)\n  (:init (item ")
        said = self.said(f"fault input problem unknown {place}\n", task(FETCH)[0], problem)
        self.assertIn(f"{problem}:2:16: unknown", said)
        self.assertIn("  (:init (item mug))\n" + " " * 17 + "^", said)

    def test_a_fault_at_the_end_of_a_text(self):
        domain = self.put("domain.pddl", "(define (domain d)\n")
        self.assertIn(f"{domain}:2:1: unclosed", self.said("fault input domain unclosed 19\n", domain))

    def test_bytes_that_are_no_text_keep_their_places(self):
        domain = self.put("domain.pddl", "; é\n(define (domain d) (:p))\n")
        with open(domain, "rb") as file:
            place = file.read().index(b"(:p)")
        self.assertIn(f"{domain}:2:20: unsupported", self.said(f"fault input domain unsupported {place}\n", domain))

    def test_an_answer_is_shown_with_a_command_that_asks_it(self):
        said = self.said(HEAD + "fault answer 1 count\n", "--", "sh", "-c", "read x; echo yield left right")
        self.assertIn("printf '%s\\n' 'next 0 grip cup' | sh -c 'read x; echo yield left right'", said)
        self.assertIn("too few values or too many", said)

    def test_a_dead_generator_is_shown_with_its_open_request(self):
        self.assertIn("open: request 1: next 0 grip cup", self.said(HEAD + "fault generator\n"))

    def test_a_program_that_is_not_there(self):
        said = self.said("pddlstream 1 incremental\nlimits 1 1 1\npool 1 grip\nlevel\nfault generator\n", "--",
                         "/no/such")
        self.assertIn("/no/such: there is no such program", said)

    def test_a_run_that_stands(self):
        self.assertIn("1 request waits for an answer", self.said(HEAD))
        self.assertIn("no request is open, so the planner is at work", self.said(HEAD + "got 1 left\n"))
        self.assertIn("no request is open", self.said(HEAD + "got 1 left\nask 2 0 gr"))

    def test_outcomes(self):
        self.assertIn("A plan of 1 step at cost 1 was found after 1 request ", self.said(HEAD + "got 1 a\nplan 1\ndo x "
                                                                                                "#a\ncost 1\nfrom #a 1\ndone\n"))
        self.assertIn("(status 1)", self.said(HEAD + "end 1\nno plan\ndone\n"))
        for limit in ("calls", "states", "instances"):
            self.assertIn("(status 2)", self.said(HEAD + f"end 1\nlimit {limit}\ndone\n"))

    def test_a_stream_that_is_never_asked_is_named(self):
        self.assertIn("Never asked: apart", self.said(HEAD.replace("grip\nlevel",
                                                                   "grip apart\nlevel") + "end 1\nno plan\ndone\n"))

    def test_bytes_that_a_terminal_would_obey_are_shown_as_text(self):
        said = self.said("\x1b[2Jhello\n")
        self.assertIn(r"no head of a report: \x1b[2Jhello", said)
        self.assertNotIn("\x1b", said)

    def test_a_none_before_the_first_request_is_told(self):
        head = "pddlstream 1 focused\nlimits 10000 100000 3\npool 1 grip\n"
        said = self.said(head + "none\nlevel\nask 1 0 grip cup\nend 1\nno plan\ndone\n")
        self.assertIn("`none` stands before the first request", said)
        self.assertIn("--depth, 3 here", said)
        later = head + "dream 1 0\nuse 1 grip cup\nask 1 0 grip cup\nend 1\nnone\nreset\nno plan\ndone\n"
        self.assertNotIn("`none` stands", self.said(later))

    def test_verdicts(self):
        self.assertIn("valid", self.said("valid\n"))
        self.assertIn("more states", self.said("limit states\n"))
        report = self.put("report", HEAD)
        said = self.said("invalid 5 3\n", "--of", report)
        self.assertIn("line 5 (status 10): ask", said)
        self.assertIn(">      5 ask 1 0 grip cup", said)

    def test_other_faults(self):
        self.assertIn("first word is none of", self.said("fault usage\nusage: pddlstream solve ..\n"))
        self.assertIn("couldn't be read", self.said("fault read domain failed\n", "nowhere"))
        self.assertIn("too long", self.said("fault read report too-long\n"))
        self.assertIn("Memory", self.said("fault memory\n"))
        self.assertIn("status 8", self.said(""))
        self.assertIn("3 blocks ended with `no plan` after 2 levels and 54 requests",
                      self.said("generate 3 no-plan levels 2 asks 54\n"))

    def test_a_fault_of_a_grid_is_shown_with_its_line(self):
        grid = self.put("grid", "grid 4 4\nblock a 9 1 0 0\n")
        self.assertIn(f"{grid}:2: outside", self.said("fault input grid outside 2\n", "--grid", grid))
        self.assertIn("block a 9 1 0 0", self.said("fault input grid outside 2\n", "--grid", grid))

    def test_words(self):
        status, out, _ = tool(explain.main, "--words", "solve", "d", "p", "s", "--calls", "0")
        self.assertEqual((status, "--calls 0" in out), (0, True))


MAPS = {
    "json": '{"pools": [}',
    "shape": '{"pools": [{"run": ["x"], "streams": ["spot", "apart"], "worker": 2}]}',
    "workers": '{"pools": [{"run": ["x"], "streams": ["spot", "apart"], "workers": 17}]}',
    "unknown": '{"pools": [{"run": ["x"], "streams": ["spot", "apart", "spit"]}]}',
    "doubled": '{"pools": [{"run": ["x"], "streams": ["spot", "apart"]}, {"run": ["x"], "streams": ["Spot"]}]}',
    "unserved": '{"pools": [{"run": ["x"], "streams": ["spot"]}]}',
}


class Maps(Folder):
    def test_each_fault_of_a_map_is_found(self):
        for kind, text in MAPS.items():
            with self.subTest(kind):
                path = self.put("map.json", text)
                status, out, _ = tool(explain.main, self.put("printed", f"fault input map {kind}\n"), *task(SHELF),
                                      path)
                self.assertEqual(status, 0)
                self.assertIn(f"map.json: {kind}: ", out)

    @needs_program
    def test_the_program_tells_the_same_faults(self):
        more = ['{"pools": [{"run": ["@grid"], "streams": ["spot"]}]}', '{"pools": [], "x": 1}', '{"pools": 3}', "[]",
                "",
                '{"pools": [{"run": [], "streams": ["spot"]}]}', '{"pools": [{"run": ["x"], "streams": []}]}',
                '{"pools": [{"run": ["x"], "streams": ["spot"], "workers": 1.5}]}', '{"pools": [{"run": ["x"], '
                                                                                    '"streams": ["spot"], "workers": '
                                                                                    '0}]}',
                '{"pools": [{"run": ["x"], "workers": 9, "streams": ["spot"]}, {"run": ["x"], "workers": 9, "streams": '
                '["apart"]}]}',
                '{"pools": [{"run": ["@grid", "f"], "workers": 2, "streams": ["spot"]}]}',
                '{"pools": [{"run": ["@grid", "f"], "streams": ["spot"]}, {"run": ["@grid", "f"], "streams": '
                '["apart"]}]}']
        for text in [*MAPS.values(), *more]:
            with self.subTest(text):
                path = self.put("map.json", text)
                said = solve(task(SHELF), "--map", path)
                _, out, _ = tool(explain.main, self.put("printed", said), *task(SHELF), path)
                self.assertIn(f"map.json: {said.split()[3]}: ", out)


@needs_program
class Runs(Folder):
    def test_each_mode(self):
        for mode in MODES:
            with self.subTest(mode):
                said = solve(task(TRAY), "--algorithm", mode, "--", "python3", "tray.py", folder=TRAY)
                _, out, _ = tool(explain.main, self.put("report", said), *task(TRAY))
                self.assertIn("A plan of 2 steps at cost 6306", out)

    def test_refused_texts(self):
        for text in ("(define (domain d) (:action a :precondition (forall (?x) (p ?x))))", "(define (domain d)",
                     "(define (domain d)))",
                     "(define (domain d) (:predicates (p)) (:derived (p) (p)))", "(define (domain d) (:action a "
                                                                                 ":effect (increase (total-cost) 1.5)))",
                     "\u00e9", "(define (domain d) (:types a - b b - a))", "(define (domain d) (:predicates (p) (p)))"):
            with self.subTest(text):
                domain = self.put("domain.pddl", text)
                said = solve([domain, *task(FETCH)[1:]])
                _, out, _ = tool(explain.main, self.put("printed", said), domain)
                self.assertIn(f"{domain}:1:", out)
                self.assertIn(f": {said.split()[3]}: ", out)


if __name__ == "__main__":
    unittest.main()
