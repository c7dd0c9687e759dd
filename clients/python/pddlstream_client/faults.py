"""What a run's last line says, in words."""
from __future__ import annotations

from typing import Mapping

from .errors import SolveError, TextError
from .pddl import shown, where
from .program import Ended

KINDS: dict[str, str] = {
    "bad-byte": "a byte that may not stand outside of a comment",
    "unclosed": "the list isn't closed",
    "extra": "something stands before or behind the list",
    "too-deep": "a 65th list within another",
    "shape": "this can't stand here, or a list ends too early",
    "unsupported": "this part of PDDL is left out",
    "number": "a number is digits alone and at most 1,000,000; of a float write a smaller unit",
    "unknown": "this name isn't declared in the domain: a predicate goes into :predicates, a function into :functions",
    "arity": "another number of arguments than the domain declares",
    "duplicate": "this stands a second time, or a term has two values",
    "type-cycle": "a type is above itself",
    "derived-cycle": "a derived predicate rests on itself",
    "effect-on-static": "a stream's facts are of predicates that no action changes and that aren't derived; nor does "
    "an effect or :init set a derived one",
    "too-many": "more than 8 variables of a predicate, a function or a side of a stream, 16 in scope, or 64 derived "
    "predicates",
    "stream-cycle": "streams feed themselves: give each round a predicate of its own",
}
"""The kinds of `fault input`."""

STATUSES: dict[int, str] = {
    3: "an option is out of its range",
    5: "a generator's line is no answer",
    7: "a generator couldn't be started, or ended before it answered",
    9: "memory is wanting",
}
"""What other exit statuses mean."""


def fault_of(ended: Ended, texts: Mapping[str, str]) -> SolveError:
    """The error of a run that has no outcome."""
    lines = ended.text.splitlines()
    fault = next((line for line in reversed(lines) if line.startswith("fault ")), "")
    match fault.split():
        case ["fault", "input", name, kind, place] if name in texts:
            return TextError(f"{fault}: {_told(texts[name], name, kind, int(place))}", ended.text, ended.status)
    status = ended.status or 0
    if status < 0:
        return SolveError(f"the planner was ended by signal {-status}; its last line: {lines[-1:]}", ended.text, status)
    meaning = STATUSES.get(status, f"the planner ended with status {status}")
    return SolveError(f"{fault or lines[-1:]}: {meaning}", ended.text, status)


def _told(text: str, name: str, kind: str, place: int) -> str:
    """Where the fault is, what it is, and the line; PLACE counts bytes."""
    at = len(text.encode("utf-8")[:place].decode("utf-8", "ignore"))
    return f"{where(text, name, at)}: {KINDS.get(kind, kind)}\n{shown(text, at)}"
