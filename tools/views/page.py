"""A report as one HTML page: its data, and the template that shows them."""
from __future__ import annotations

import html
import json
import os

from common.reports import Ask, Dream, End, Got, Mark, Report, Value
from .counts import TURNS, count, ending, summary
from .dreams import DreamStory, fate, stories
from .graph import first_givers, led_to_plan

HERE = os.path.dirname(os.path.abspath(__file__))
MOST_DREAMS = 2000      # how many dreams the page has; the others are counted


KINDS = {type(None): 0, Got: 1, End: 2, Value: 3}


def asks_data(report: Report, streams: dict[str, int]) -> dict:
    """The requests as columns (stream, round, kind of answer as in `KINDS`) and as lines, two for each."""
    lanes, rounds, kinds, lines, turns = [], [], [], [], []
    current, was_answer = 0, True
    for entry in report.entries:
        if isinstance(entry, Ask):
            current += was_answer
            was_answer = False
            lanes.append(streams.setdefault(entry.stream, len(streams)))
            rounds.append(current - 1)
            kinds.append(KINDS[type(entry.answer)])
            lines += [" ".join(["ask", str(entry.number), str(entry.turn), entry.stream, *entry.inputs]),
                      entry.answer.said if entry.answer else "no answer"]
        elif isinstance(entry, (Got, End, Value)):
            was_answer = True
        else:
            turns.append([current, TURNS.index(entry.word if isinstance(entry, Mark) else "dream"), turn_number(entry)])
            was_answer = True
    return {"lanes": lanes, "at": rounds, "kinds": kinds, "lines": "\n".join(lines), "rounds": current, "turns": turns}


def turn_number(entry: Mark | Dream) -> int:
    """The number of a dream, or of the skeleton that is picked or given up."""
    return entry.number if isinstance(entry, Dream) else entry.skeleton


def plan_data(report: Report, places: dict[int, int]) -> dict | None:
    """The steps, with the request of each generated object, and the requests on which the plan's objects rest."""
    if report.outcome is None or report.outcome.kind != "plan":
        return None
    origins = {name: places.get(ask, -1) for name, (ask, _) in report.outcome.origins.items()}
    steps = [{"name": step[0], "args": [[name, origins.get(name, -1)] for name in step[1:]]}
             for step in report.outcome.steps]
    led = led_to_plan(report, first_givers(report))
    return {"steps": steps, "cost": report.outcome.cost, "led": sorted(places[ask] for ask in led)}


def dream_data(story: DreamStory, report: Report, places: dict[int, int]) -> dict:
    """A dream with the request of each `use` in its last trial."""
    asked = story.trials[-1].asks if story.trials else [0] * len(story.dream.uses)
    uses = [[" ".join([use.stream, *use.inputs]), places.get(number, -1)] for use,
            number in zip(story.dream.uses, asked)]
    return {"n": story.dream.number, "uses": uses, "steps": [" ".join(step) for step in story.dream.steps],
            "fate": fate(story, report.asks), "won": story.led_to_plan}


def page_data(report: Report, name: str) -> dict:
    """All that the page shows. Requests go by their place, from 0."""
    streams = {stream: place for place, stream in enumerate(stream for pool in report.pools for stream in pool.streams)}
    places = {number: place for place, number in enumerate(report.asks)}
    columns = asks_data(report, streams)
    told = stories(report)
    counts = count(report)
    rows = [[name, one.asked, one.yielded, one.ended, one.valued, one.unanswered] for name,
            one in counts.streams.items()]
    return {
        "name": name, "mode": report.mode, "limits": report.limits, "ending": ending(report), "turnWords": TURNS,
        "counts": rows, "turnCounts": [counts.turns[word] for word in TURNS], **columns,
        "plan": plan_data(report, places),
        "dreams": [dream_data(story, report, places) for story in told[:MOST_DREAMS]], "dreamCount": len(told),
        "streams": list(streams),
    }


def part(name: str) -> str:
    """A file of the template."""
    with open(os.path.join(HERE, name), encoding="utf-8") as file:
        return file.read()


def page(report: Report, name: str) -> str:
    """The page of a report; nothing that a generator named can end the data or become a tag."""
    data = json.dumps(page_data(report, name), separators=(",", ":")).replace("<", "\\u003c")
    filled = part("page.html")
    for word, text in (("TITLE", html.escape(name)), ("STYLE", part("page.css")),
                       ("SUMMARY", html.escape(summary(report))),
                       ("SCRIPT", part("page.js")), ("DATA", data)):
        filled = filled.replace(f"<!--{word}-->", text, 1)
    return filled
