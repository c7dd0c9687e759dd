"""How a run ended, in words."""
from __future__ import annotations

import re
import shlex
import shutil
from dataclasses import dataclass, field

from .maps import MapPool, map_fault, pools_of
from .meanings import ANSWER_FAULTS, BREACHES, GRID_FAULTS, MAP_FAULTS, OUTCOMES, STATUSES, TEXT_FAULTS
from .reports import Ask, Mark, Report, ReportFault, parse, shown
from .tasks import read_streams
from .texts import Source, TextFault

USAGE = [
    "The words mean no command (status 3). `explain.py --words` with the same words behind it says the likely reason. "
    "It is one of:",
    "  the first word is none of solve, replay, generate, migrate, deorder and play",
    "  a text is missing, or a command other than solve has a word too many",
    "  an option that the command hasn't, or that is misspelled; none is shortened",
    "  an option that stands twice",
    "  an option without its value, or a number that isn't one to seven digits or is out of its range",
    "  another mode than incremental, focused, binding and adaptive",
    "  a program or --workers beside --map",
    "  a word of the program begins with - and no -- stands before the program",
]


# The lines that stand in the place of a report.
ALONE = re.compile("|".join((
    r"valid", r"invalid \d+ ([1-9]|10)", r"fault (memory|generator)",
    r"generate \d+ (plan|no-plan|limit-calls|limit-states|limit-instances) levels \d+ asks \d+",
    r"fault read (domain|problem|streams|map|grid|report) (failed|too-long)",
    rf"fault input (domain|problem|streams) ({'|'.join(TEXT_FAULTS)}) \d+",
    rf"fault input map ({'|'.join(MAP_FAULTS)})", rf"fault input grid ({'|'.join(GRID_FAULTS)}) \d+")))

# What came of a plan that was acted out: the line before `done`.
PLAYED = {r"safe": "Nothing went wrong (status 0).",
          r"strange (\d+)": "Step {} is no move that could be made (status 10).",
          r"outside (\d+) (\S+)": "Step {} left {} with a cell outside of the grid (status 10).",
          r"obstacle (\d+) (\S+)": "Step {} left {} on an obstacle (status 10).",
          r"clash (\d+) (\S+) (\S+)": "After step {}, {} and {} shared a cell (status 10)."}


@dataclass
class Run:
    """What a run printed, its files, the program behind `--`, and the report that `replay` judged."""

    text: str
    paths: dict[str, str] = field(default_factory=dict)
    program: list[str] = field(default_factory=list)
    judged: str | None = None


def explained(run: Run) -> list[str]:
    """The lines that say how the run ended."""
    lines = run.text.split("\n")
    if "fault usage" in lines:
        return USAGE
    last = next((line for line in reversed(lines) if line), "")
    words = last.split()
    if not words:
        return ["Nothing was printed: the report couldn't be written (status 8), memory was wanting (status 9), or the "
                "program was stopped or never ran."]
    if (words[0] in ("valid", "invalid", "generate") or lines[0].startswith("fault")) and not ALONE.fullmatch(last):
        return [f"This is no line that the planner prints: {shown(last)}"]
    if words[0] in ("valid", "invalid") or last == lines[0] == "limit states":
        return _verdict(run, words)
    if words[0] == "generate":
        return _generated(words)
    if re.match(r"(order|play|held|at|safe|strange|outside|obstacle|clash)\b", lines[0]):
        return _of_plan([line for line in lines if line])
    if ALONE.fullmatch(last) and words[1:2] in (["input"], ["read"], ["memory"]):
        return _fault(run, words[1:])
    if last == lines[0] == "fault generator":
        return _fault_of_generator(run, Report(fault=["generator"]))
    try:
        report = parse(run.text.splitlines(keepends=True))
    except ReportFault as error:
        return [f"This is no report: {error}"]
    return _of_report(run, report)


def _verdict(run: Run, words: list[str]) -> list[str]:
    if words[0] == "valid":
        return ["The report is valid: all that it claims is right (status 0)."]
    if words[0] == "limit":
        return ["A claim of the report wants a search through more states than replay may make; give more by --states "
                "(status 2)."]
    line, kind = int(words[1]), int(words[2])
    said = [f"The report is wrong at line {line} (status 10): {BREACHES[kind]}."]
    if run.judged:
        with open(run.judged, encoding="utf-8", errors="replace") as file:
            text = file.read().split("\n")
        around = range(max(line - 2, 0), min(line + 1, len(text)))
        said += [f"{'>' if at == line - 1 else ' '} {at + 1:6} {shown(text[at])}" for at in around]
    return said


def _generated(words: list[str]) -> list[str]:
    number, outcome, levels, asks = words[1], words[2].replace("-", " "), words[4], words[6]
    return [f"The grid's task with {number} blocks ended with `{outcome}` after {levels} levels and {asks} requests "
            f"(status {STATUSES[outcome]})."]


def _of_plan(lines: list[str]) -> list[str]:
    """What `deorder` or `play` printed of a right report."""
    if lines in (["order none"], ["play none"]):
        return ["The report is right and has no plan (status 0)."]
    if lines == ["order too-long"]:
        return ["The report is right, and its plan has more than 2,000 steps, whose order isn't told (status 2)."]
    if lines[-1] != "done":
        return [f"This ends within a line or before `done`: {shown(lines[-1])}"]
    order = re.fullmatch(r"order (\d+) (\d+) (\d+)", lines[0])
    if order:
        steps, pairs, stages = (int(number) for number in order.groups())
        return [f"The plan has {steps} {_plural(steps, 'step')} in {stages} {_plural(stages, 'stage')}, and {pairs} "
                f"{_plural(pairs, 'pair')} of them must stay in order; steps of one stage may change places (status 0)."]
    played = [(re.fullmatch(pattern, lines[-2]), said) for pattern, said in PLAYED.items()]
    said = [said.format(*match.groups()) for match, said in played if match]
    return said or [f"This is no line that the planner prints: {shown(lines[-2])}"]


def _fault(run: Run, words: list[str]) -> list[str]:
    if words[0] == "memory":
        return ["Memory is wanting (status 9): a smaller --states or fewer objects need less."]
    if words[0] == "read":
        path = run.paths.get(words[1], "")
        why = {"failed": "couldn't be read: is it there, a file, and may it be read?",
               "too-long": "is too long: a text has at most 4 MiB, a report 256 MiB"}[words[2]]
        return [f"The {words[1]} file {path} {why} (status 6).".replace("  ", " ")]
    if words[1] == "map":
        return _fault_of_map(run, words[2])
    if words[1] == "grid":
        return _fault_of_grid(run, words[2], int(words[3]))
    return _fault_of_text(run, words[1], words[2], int(words[3]))


def _fault_of_text(run: Run, text: str, kind: str, place: int) -> list[str]:
    meaning = f"{kind}: {TEXT_FAULTS[kind]}"
    if text not in run.paths:
        return [f"The {text} is refused at byte {place} (status 4). {meaning}",
                f"Name the {text} file to see the line."]
    with open(run.paths[text], "rb") as file:
        data = file.read()
    source = Source(run.paths[text], data.decode("utf-8", "replace"))
    at = len(data[:place].decode("utf-8", "replace"))
    return [f"{source.at(at)}: {meaning}", source.shown(at)]


def _fault_of_map(run: Run, kind: str) -> list[str]:
    meaning = f"The map, or the program's words, are refused (status 4): {kind}."
    streams = _stream_names(run)
    if "map" not in run.paths:
        return [meaning, _fault_of_words(run, kind, streams)]
    with open(run.paths["map"], "rb") as file:
        fault = map_fault(file.read(), streams)
    if fault is None:
        return [meaning, "This map has no fault for these streams: was another one given?"]
    return [f"{run.paths['map']}: {fault.kind}: {fault.where} (status 4)"]


def _fault_of_words(run: Run, kind: str, streams: list[str]) -> str:
    if kind == "unserved":
        named = f" ({', '.join(streams)})" if streams else ""
        return (f"The task has streams{named} and no program was named: put `-- PROGRAM WORDS` behind the texts, "
                "or --map FILE.")
    if kind == "workers":
        return "@grid has one worker."
    return "@grid has one file behind it, and a program at most 64 words."


def _stream_names(run: Run) -> list[str]:
    if "streams" not in run.paths:
        return []
    try:
        return [stream.name for stream in read_streams(run.paths["streams"]).items]
    except TextFault:
        return []


def _fault_of_grid(run: Run, kind: str, line: int) -> list[str]:
    said = f"{run.paths.get('grid', 'the grid')}:{line}: {kind}: {GRID_FAULTS[kind]} (status 4)"
    if "grid" not in run.paths:
        return [said]
    with open(run.paths["grid"], encoding="utf-8", errors="replace") as file:
        lines = file.read().split("\n")
    return [said, f"  {lines[line - 1]}" if line <= len(lines) else "  (the text ends before)"]


def _of_report(run: Run, report: Report) -> list[str]:
    if report.fault is not None:
        return _fault_of_generator(run, report)
    if report.outcome is None or not report.is_done:
        return _standing(run, report)
    if report.outcome.kind == "plan":
        steps, cost = len(report.outcome.steps), report.outcome.cost
        asks = len(report.asks)
        return [f"A plan of {steps} {_plural(steps, 'step')} at cost {cost} was found after {asks} "
                f"{_plural(asks, 'request')} "
                f"(status 0)."]
    calls, states, _ = report.limits
    kind = report.outcome.kind
    return [f"{OUTCOMES[kind].format(calls=calls, states=states)} (status {STATUSES[kind]})", *_hint(report)]


def _plural(count: int, word: str) -> str:
    return word if count == 1 else f"{word}s"


def _hint(report: Report) -> list[str]:
    first = next(iter(report.entries), None)
    said = []
    if isinstance(first, Mark) and first.word == "none":
        said.append(f"`none` stands before the first request: no plan was found over what the streams may be supposed to "
                    f"answer. Either --depth, {report.limits[2]} here, is below the longest chain of streams (lint.py says "
                    f"it), or the goal wants something that no answer can give.")
    asked = {ask.stream for ask in report.asks.values()}
    never = [name for pool in report.pools for name in pool.streams if name not in asked]
    if never:
        said.append(f"Never asked: {', '.join(never)}. Nothing gives what their :domain wants.")
    return said


def _fault_of_generator(run: Run, report: Report) -> list[str]:
    words = report.fault or []
    if words[0] == "answer":
        ask = report.asks.get(int(words[1]))
        if ask is None:
            return [f"This is no report: it ends with `fault {' '.join(words)}`, and has no request {words[1]}"]
        return [f"The answer to request {ask.number} is none (status 5): {ANSWER_FAULTS[words[2]]}.",
                f"  {ask.request}", *_by_hand(run, ask)]
    if words[0] != "generator":
        return [f"fault {' '.join(words)}"]
    said = ["A generator couldn't be started, took no request, or ended before it answered (status 7). What it wrote "
            "to "
            "standard error stands there, not in the report."]
    for ask in report.open_asks():
        said += [f"  open: request {ask.number}: {ask.request}", *_by_hand(run, ask)]
    if report.open_asks():
        return said
    said.append("  No printed request was open: it ended before it took one, or couldn't be started.")
    return said + [f"  {word}: {_found(word)}" for word in dict.fromkeys(_programs(run))]


def _found(word: str) -> str:
    path = shutil.which(word)
    return f"it is at {path}" if path else "there is no such program, or it may not be run"


def _programs(run: Run) -> list[str]:
    if run.program:
        return run.program[:1]
    return [pool.run[0] for pool in _pools(run)]


def _pools(run: Run) -> list[MapPool]:
    """The pools of the map, where one was named and has a form that may be."""
    if "map" not in run.paths:
        return []
    with open(run.paths["map"], encoding="utf-8", errors="replace") as file:
        try:
            return pools_of(file.read())
        except ValueError:
            return []


def _by_hand(run: Run, ask: Ask) -> list[str]:
    words = run.program or next((pool.run for pool in _pools(run) if ask.stream in pool.streams), [])
    program = shlex.join(words) if words else "PROGRAM"
    return [f"  ask it by hand: printf '%s\\n' {shlex.quote(ask.request)} | {program}"]


def _standing(run: Run, report: Report) -> list[str]:
    if report.outcome is not None:
        return ["The outcome is there and its last line isn't: the report was cut off (status 8 where it couldn't be "
                "written)."]
    opened = report.open_asks()
    if opened:
        said = [f"The run hasn't ended, or was stopped: {len(opened)} {_plural(len(opened), 'request')} "
                f"{'waits' if len(opened) == 1 else 'wait'} for an answer, so a generator is at work, hangs, or "
                f"doesn't flush."]
        first = opened[0]
        return said + [f"  the first: request {first.number}: {first.request}", *_by_hand(run, first),
                       "  check.py, with the report and the same words, says whether it answers, and flushes what it answers"]
    return ["The run hasn't ended, or was stopped: no request is open, so the planner is at work (a search, or the "
            "next request)."]
