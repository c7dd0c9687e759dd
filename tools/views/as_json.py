"""A report as JSON."""
from __future__ import annotations

import json

from common.reports import Ask, Dream, End, Entry, Got, Mark, Report, Value


def entry_object(entry: Entry) -> dict:
    """One entry as an object whose first key is its word."""
    if isinstance(entry, Ask):
        return {"ask": entry.number, "turn": entry.turn, "stream": entry.stream, "inputs": entry.inputs,
                "line": entry.line}
    if isinstance(entry, Got):
        return {"got": entry.number, "tuples": entry.tuples, "line": entry.line}
    if isinstance(entry, Value):
        return {"value": entry.number, "number": entry.value, "line": entry.line}
    if isinstance(entry, End):
        return {"end": entry.number, "line": entry.line}
    if isinstance(entry, Dream):
        uses = [{"entry": use.entry, "stream": use.stream, "inputs": use.inputs} for use in entry.uses]
        return {"dream": entry.number, "uses": uses, "steps": entry.steps, "line": entry.line}
    assert isinstance(entry, Mark)
    found: dict = {entry.word: entry.skeleton or True}
    return {**found, "line": entry.line}


def report_object(report: Report) -> dict:
    """A report as an object."""
    calls, states, depth = report.limits
    outcome = None
    if report.outcome is not None:
        origins = {name: {"ask": ask, "tuple": place} for name, (ask, place) in report.outcome.origins.items()}
        outcome = {"kind": report.outcome.kind, "steps": report.outcome.steps, "cost": report.outcome.cost,
                   "from": origins}
    return {
        "version": report.version, "mode": report.mode, "limits": {"calls": calls, "states": states, "depth": depth},
        "pools": [{"workers": pool.workers, "streams": pool.streams} for pool in report.pools],
        "entries": [entry_object(entry) for entry in report.entries],
        "outcome": outcome, "fault": report.fault, "done": report.is_done,
    }


def as_json(report: Report) -> str:
    """A report as a JSON text."""
    return json.dumps(report_object(report), indent=1)
