"""Each tool on a report of each mode, version and end, and on each text that is printed in place of one."""
from __future__ import annotations

import itertools
import json
import os
import re
import shutil
import subprocess
import sys
import unittest
from random import Random
from typing import Callable

from support import MODES, PROGRAM, SHELF, Folder, needs_program, task, tool
from catalogue import ANSWER_FAULTS, FILES, GIVER, OTHERS, REPORTS, TEXT_KINDS, Printed, rows
from common.meanings import ANSWER_FAULTS as MEANINGS, TEXT_FAULTS
from common.reports import ReportFault
from plan_checker import world
from test_report import back_from_json, page_data
import check
import explain
import report
import to_pddl
import to_profile

STATUSES = {"plan": 0, "no plan": 1, "limit calls": 2, "limit states": 2, "limit instances": 2, "fault generator": 7,
            "fault memory": 9, **{f"fault answer 1 {why}": 5 for why in ANSWER_FAULTS}}
# What `explain` says of an end, besides the status.
SAID = {"plan": "A plan of 1 step at cost 1", "no plan": "No plan exists", "limit calls": "1 requests were made",
        "limit states": "100000 states", "limit instances": "1,000,000 stream instances",
        "fault generator": "couldn't be started", "fault memory": "Memory is wanting",
        **{f"fault answer 1 {why}": MEANINGS[why] for why in ANSWER_FAULTS},
        "cut off behind `plan`": "the report was cut off",
        "no end yet, 1 request open": "next 0 spot cup", "no end yet, no request open": "the planner is at work"}
# Answers of a file of lines `REQUEST<tab>ANSWER`.
ANSWERING = """
import sys
said = dict(line.rstrip("\\n").split("\\t") for line in open(sys.argv[1]))
for line in sys.stdin:
    print(said[line.strip()], flush=True)
"""


# Generators in the shell with a fault, by the last line that comes of each.
FAULTY = {"fault answer 1 word": "read x; echo hello", "fault answer 1 count": "read x; echo yield a b",
          "fault answer 1 value": "read x; echo 'yield a#b'",
          "fault answer 1 too-long": "read x; head -c 1025 /dev/zero | tr '\\0' x; sleep 1",
          "fault generator": "read x"}
PLACED = tuple(f"fault input {text} " for text in (*FILES[:3], "map"))


class EachReport(Folder):
    """What each tool makes of each report of the catalogue."""

    def on_each(self, judge: Callable[[Printed, str], None]) -> None:
        """Judges what a tool makes of each report, with the report's file."""
        for one in REPORTS:
            with self.subTest(one.name):
                judge(one, self.put("report", one.text))

    def test_the_catalogue_has_each_mode_version_and_end(self):
        found = {(one.version, one.mode, one.ending) for one in REPORTS}
        self.assertEqual(len(found), 2 * 4 * len(SAID))
        words = {line.split(" ")[0] for one in REPORTS for line in one.text.split("\n")[:-1]}
        self.assertEqual(words, {"pddlstream", "limits", "pool", "level", "ask", "got", "end", "dream", "use", "step",
                                 "none", "reset", "pick", "retire", "plan", "do", "cost", "from", "no", "limit",
                                 "fault", "done"})

    def explained(self, one: Printed, path: str) -> None:
        status, out, err = tool(explain.main, path, *task(SHELF), "--", "sh", "shelf.sh")
        self.assertEqual((status, err), (0, ""))
        self.assertIn(SAID[one.ending], out)
        if one.ending in STATUSES:
            self.assertIn(f"(status {STATUSES[one.ending]})", out)
        if one.ending.startswith(("fault answer", "no end yet, 1")):
            self.assertIn("printf '%s\\n' 'next 0 spot cup' | sh shelf.sh", out)

    def counted(self, one: Printed, path: str) -> None:
        status, out, err = tool(report.main, path)
        self.assertEqual((status, err), (0, ""))
        self.assertIn(f"{one.mode} mode, version {one.version}, limits: ", out)
        asked = [line for line in out.split("\n") if line.startswith(("spot ", "apart "))]
        self.assertEqual(sum(int(line.split()[1]) for line in asked), len(one.asks))
        self.assertEqual(out.split("\n")[-2], "plan of 1 step, cost 1" if one.ending == "plan" else one.ending)

    def as_json(self, one: Printed, path: str) -> None:
        out = tool(report.main, "--json", path)[1]
        made = json.loads(out)
        self.assertEqual((made["version"], made["mode"], made["done"]), (one.version, one.mode, one.is_done))
        self.assertEqual(back_from_json(out), [line for line in one.text.split("\n")[:-1]
                                               if line.startswith(("ask ", "got ", "end "))])
        self.assertEqual(made["fault"], one.ending.split(" ")[1:] if one.ending.startswith("fault") else None)
        self.assertEqual((made["outcome"] or {}).get("kind"), one.outcome)
        if one.ending == "plan":
            ask, _, place = GIVER[one.version, one.mode].partition(" ")
            self.assertEqual(made["outcome"]["from"], {"#4": {"ask": int(ask), "tuple": int(place or "1")}})

    def as_a_graph(self, one: Printed, path: str) -> None:
        out = tool(report.main, "--dot", "--all", path)[1]
        self.assertTrue(out.startswith("digraph") and out.count("{") == out.count("}"))
        given = {value for line in one.text.split("\n")[:-1] if line.startswith("got ")
                 for value in line.split(" ")[2:] if value != "|"}
        self.assertEqual(set(re.findall(r'-> "#(\w+)"', out)), given)

    def as_a_page(self, one: Printed, path: str) -> None:
        data = page_data(tool(report.main, "--html", path)[1])
        self.assertEqual((data["mode"], len(data["lanes"])), (one.mode, len(one.asks)))
        self.assertEqual(data["dreamCount"], len(re.findall(r"^dream ", one.text, re.M)))
        self.assertEqual(data["plan"] is not None, one.outcome == "plan")
        if one.ending == "plan":
            giver = int(GIVER[one.version, one.mode].split(" ")[0])
            self.assertEqual(data["plan"]["steps"],
                             [{"name": "put", "args": [["cup", -1], ["#4", giver - 1], ["corner", -1]]}])

    def as_plain_pddl(self, one: Printed, path: str) -> None:
        out = os.path.join(self.folder, "plain")
        status, told, _ = tool(to_pddl.main, *task(SHELF), path, "--out", out)
        self.assertEqual((status, "plan\n" in told), (0, one.ending == "plan"))
        texts = {}
        for name in os.listdir(out):
            with open(os.path.join(out, name), encoding="utf-8") as file:
                texts[name] = file.read()
        made = world(texts["domain.pddl"], texts["problem.pddl"])
        if one.ending == "plan":
            steps = [tuple(line.strip("()").split()) for line in texts["plan"].split("\n") if line.startswith("(")]
            self.assertEqual((len(steps), made.cost_of(steps)), (1, 1))
        self.assertEqual(len(made.plans(1)), int(one.outcome == "plan"))
        shutil.rmtree(out)

    def back(self, one: Printed, path: str) -> None:
        status, out, err = tool(to_profile.main, path, "--back", self.put("names", "action put Put\nname cup CUP\n"))
        if one.ending == "plan":
            self.assertEqual((status, out, err), (0, "(Put CUP #4 corner)\n", ""))
        else:
            self.assertEqual((status, out, err), (1, "", "the report has no plan\n"))

    def unchecked(self, one: Printed, path: str) -> None:
        if not one.asks:
            self.assertEqual(tool(check.main, path, "--", "false")[:2],
                             (1, "the report has no request: nothing was asked\n"))

    def test_explain(self):
        self.on_each(self.explained)

    def test_report(self):
        for judge in (self.counted, self.as_json, self.as_a_graph, self.as_a_page):
            with self.subTest(judge.__name__):
                self.on_each(judge)

    def test_to_pddl(self):
        self.on_each(self.as_plain_pddl)

    def test_to_profile_back(self):
        self.on_each(self.back)

    def test_check_of_a_report_without_a_request(self):
        self.on_each(self.unchecked)

    def checked(self, one: Printed, lie: bool) -> tuple[int, str]:
        """What `check` says of a generator that has the report's answers, or one of them otherwise."""
        asked = dict(re.findall(r"^ask (\d+) (.*)$", one.text, re.M))
        said = [line.split(" ") for line in one.text.split("\n") if line.startswith(("got ", "end "))]
        rows = [f"next {asked[number]}\t{'end' if word == 'end' else ' '.join(['yield', *values])}\n"
                for word, number, *values in said]
        table = self.put("answers", "".join(rows).replace("yield 2", "yield 3" if lie else "yield 2"))
        status, out, _ = tool(check.main, self.put("report", one.text), "--silence", "0", "--workers", "1", "--seconds",
                              "30", "--", sys.executable, "-c", ANSWERING, table)
        return status, out

    def test_check(self):
        for one in REPORTS:
            if one.ending == "plan":
                with self.subTest(one.name):
                    status, out = self.checked(one, False)
                    self.assertEqual((status, out.split("\n")[-2]), (0, "same"))
                    status, out = self.checked(one, True)
                    self.assertEqual((status, "\n  before: yield 2" in out), (1, True))

    @needs_program
    def test_each_fault_of_a_generator_in_each_mode(self):
        for mode, (ending, script) in itertools.product(MODES, [*FAULTY.items(), ("fault generator", "")]):
            with self.subTest((mode, ending)):
                words = ["sh", "-c", script] if script else ["/no/such/program"]
                done = subprocess.run([PROGRAM, "solve", *task(SHELF), "--algorithm", mode, "--", *words],
                                      capture_output=True, text=True)
                last = done.stdout.split("\n")[-2]
                self.assertEqual((last, done.returncode), (ending, STATUSES[ending]))
                out = tool(explain.main, self.put("report", done.stdout), *task(SHELF), "--", *words)[1]
                self.assertIn(SAID[ending], out)
                self.assertIn("next 0 spot cup" if script else "/no/such/program: there is no such program", out)
                self.assertIn(f"\n{ending}\n", tool(report.main, os.path.join(self.folder, "report"))[1])

    @needs_program
    def test_replay_finds_the_catalogue_as_it_is_meant(self):
        for one in REPORTS:
            if one.verdict is not None:
                with self.subTest(one.name):
                    done = subprocess.run([PROGRAM, "replay", *task(SHELF), self.put("report", one.text)],
                                          capture_output=True, text=True)
                    self.assertEqual((done.stdout, done.returncode),
                                     (f"{one.verdict}\n", 0 if one.verdict == "valid" else 10))


class EachOtherText(Folder):
    """What is printed in place of a report."""

    def test_explain_says_what_it_means_and_the_status(self):
        files = [self.put(f"{name}.pddl", "(define)\n") for name in FILES[:3]]
        more = [self.put("map.json", "{}"), "--grid", self.put("grid", "grid\n"), "--of", self.put("report", "x\n")]
        for text, status in OTHERS.items():
            for words in ([], [*files, *more]):
                with self.subTest(f"{text.split(chr(10))[0]}, {len(words)} files"):
                    ended, out, err = tool(explain.main, self.put("printed", text), *words)
                    self.assertEqual((ended, err), (0, ""))
                    if not (words and text.startswith(PLACED)):     # (these begin with FILE:LINE:COL)
                        self.assertIn(f"(status {status})", out)

    def test_the_tools_that_read_reports_say_that_it_is_none(self):
        for text in OTHERS:
            path = self.put("printed", text)
            for main, words in ((report.main, [path]), (report.main, ["--json", path]), (report.main, ["--dot", path]),
                                (report.main, ["--html", path]), (check.main, [path, "--", "false"]),
                                (to_pddl.main, [*task(SHELF), path, "--out", self.folder]),
                                (to_profile.main, [path, "--back", self.put("names", "")])):
                with self.subTest((text, main.__module__, words)):
                    self.assertRaises(ReportFault, tool, main, *words)

    def test_each_fault_of_a_text_is_shown_at_its_place(self):
        found = set()
        for text in FILES[:3]:
            name = text.removesuffix("s")
            for marked, wanted in rows("part_rows", f"{text} marked", f"{text}-form marked", f"{name}-form marked", text):
                match = re.fullmatch(r"([a-z-]+) (\d+)", wanted)
                if match is None or match[1] not in TEXT_KINDS:
                    continue
                kind, place = match[1], int(match[2])
                written = marked.replace("@", "", 1) if marked.find("@") == place else marked
                path = self.put(f"{text}.pddl", written)
                words = [self.put(f"{other}.pddl", "") for other in FILES[:FILES.index(text)]] + [path]
                with self.subTest(written):
                    _, out, _ = tool(explain.main, self.put("printed", f"fault input {text} {kind} {place}\n"), *words)
                    line, column = written[:place].count("\n") + 1, place - written.rfind("\n", 0, place)
                    self.assertTrue(out.startswith(f"{path}:{line}:{column}: {kind}: {TEXT_FAULTS[kind]}"), out)
                    found.add(kind)
        self.assertEqual(found, set(TEXT_KINDS) - {"too-deep"})

    def test_reports_of_the_reader_s_rows(self):
        listed = rows("part_rows", "report")
        self.assertGreater(len([wanted for _, wanted in listed if wanted == "a report"]), 10)
        for text, wanted in listed:
            with self.subTest(text):
                path = self.put("report", text)
                if wanted == "a report" and not re.search(r"^(got|end|value) ", text, re.M):
                    self.assertEqual(tool(report.main, path)[0], 0)


def changed(chance: Random) -> str:
    """A text of the catalogue with one to three lines or words left out, put in, or in the place of others."""
    lines = chance.choice([*(one.text for one in REPORTS), *OTHERS]).split("\n")
    strange = [line.split(" ")[0] for line in lines] + ["-1", "99", "#4", "@1.1", "|", "", "\u00e9"]
    for _ in range(chance.randint(1, 3)):
        at = chance.randrange(len(lines))
        words = lines[at].split(" ")
        place = chance.randrange(len(words))
        words[place:place + chance.randint(0, 1)] = chance.choices(strange, k=chance.randint(0, 1))
        lines[at:at + chance.randint(0, 1)] = [" ".join(words)] * chance.randint(0, 2)
        lines = lines or [""]
    return "\n".join(lines)


class ChangedReports(Folder):
    """Texts that no planner prints: each tool reads them or says what is wrong, and none breaks off."""

    def test_each_tool_reads_or_refuses(self):
        names, refused, read = self.put("names", ""), 0, 0
        for seed in range(300):
            path = self.put("report", changed(Random(seed)))
            with self.subTest(seed):
                self.assertEqual(tool(explain.main, path, *task(SHELF), "--of", path)[0], 0)
                for main, words in ((report.main, []), (report.main, ["--json"]), (report.main, ["--dot", "--all"]),
                                    (report.main, ["--html"]), (to_profile.main, ["--back", names]),
                                    (to_pddl.main, ["--out", self.folder])):
                    try:
                        tool(main, *(task(SHELF) if main is to_pddl.main else []), path, *words)
                        read += 1
                    except ReportFault:
                        refused += 1
        self.assertGreater(min(refused, read), 300)


if __name__ == "__main__":
    unittest.main()
