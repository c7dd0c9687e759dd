"""What became of each dream: which of its supposed answers were asked, and what came."""
from __future__ import annotations

import re
from dataclasses import dataclass, field

from common.reports import Ask, Dream, End, Got, Mark, Report, Use

PLACEHOLDER = re.compile(r"@(\d+)\.(\d+)$")


@dataclass
class Trial:
    """One time that a dream's requests were made: of each `use` the request, or 0."""

    asks: list[int]


@dataclass
class DreamStory:
    """A dream with its trials, and whether it was given up or the plan came behind its last trial."""

    dream: Dream
    trials: list[Trial] = field(default_factory=list)
    is_retired: bool = False
    led_to_plan: bool = False


class _Matcher:
    """Finds of each request of a trial the `use` that it is."""

    def __init__(self, uses: list[Use]):
        self.uses = uses
        self.trial = Trial([0] * len(uses))
        self.values: dict[tuple[int, int], str] = {}

    def real(self, name: str) -> str:
        match = PLACEHOLDER.match(name)
        return self.values.get((int(match[1]), int(match[2])), name) if match else name

    def take(self, ask: Ask) -> None:
        for at, use in enumerate(self.uses):
            if self.trial.asks[at] or use.stream != ask.stream or [self.real(name)
                                                                   for name in use.inputs] != ask.inputs:
                continue
            self.trial.asks[at] = ask.number
            if isinstance(ask.answer, Got) and ask.answer.tuples:
                for place, value in enumerate(ask.answer.tuples[0], 1):
                    self.values[use.entry, place] = f"#{value}"
            return


def stories(report: Report) -> list[DreamStory]:
    """Each dream of a report with what became of it."""
    found: list[DreamStory] = []
    matcher: _Matcher | None = None
    last: DreamStory | None = None
    for entry in report.entries:
        if isinstance(entry, Dream):
            last, matcher = DreamStory(entry), None
            found.append(last)
        elif isinstance(entry, Mark):
            matcher = None
            if entry.word in ("pick", "retire") and 1 <= entry.skeleton <= len(found):
                last = found[entry.skeleton - 1]
                last.is_retired |= entry.word == "retire"
            elif entry.word != "retire":
                last = None
        elif isinstance(entry, Ask) and last is not None:
            if matcher is None:
                matcher = _Matcher(last.dream.uses)
                last.trials.append(matcher.trial)
            matcher.take(entry)
    if last is not None and report.outcome is not None and report.outcome.kind == "plan":
        last.led_to_plan = True
    return found


def fate(story: DreamStory, asks: dict[int, Ask]) -> str:
    """What became of a dream, in a few words."""
    if not story.trials:
        return "given up: nothing of it was left to ask" if story.is_retired else "nothing of it was asked"
    made = [asks[number] for number in story.trials[-1].asks if number]
    ended = [ask for ask in made if isinstance(ask.answer, End)]
    waiting = [ask for ask in made if ask.answer is None]
    said = f"{len(made)} of {len(story.dream.uses)} asked"
    if len(story.trials) > 1:
        said = f"tried {len(story.trials)} times, the last time {said}"
    if waiting:
        return f"{said}; no answer of {waiting[0].stream}"
    if story.led_to_plan and not ended:
        return f"{said}, all answered: the plan came"
    if ended:
        said += f"; {ended[0].stream} ended (request {ended[0].number})"
    return f"{said}{'; given up' if story.is_retired else ''}"
