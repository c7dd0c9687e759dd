"""What several tests use: where the planner is, and small tasks."""
from __future__ import annotations

import os
import shutil
import subprocess
import sys
import tempfile
import unittest
from pathlib import Path
from typing import Any

from pddlstream_client import PDDLProblem, Solution, solve

PACKAGE = Path(__file__).resolve().parents[1]
ROOT = PACKAGE.parents[1]
ALGORITHMS = ("adaptive", "binding", "focused", "incremental")

FETCH_DOMAIN = """(define (domain fetch)
  (:predicates (item ?x) (hold ?x ?g) (grip ?x ?g) (free) (done ?x))
  (:action take :parameters (?x ?g)
    :precondition (and (free) (grip ?x ?g))
    :effect (and (hold ?x ?g) (not (free))))
  (:action drop :parameters (?x ?g) :precondition (hold ?x ?g)
    :effect (and (done ?x) (free) (not (hold ?x ?g)))))
"""
FETCH_STREAM = """(define (stream fetch) (:stream grip :inputs (?x) :domain (item ?x)
  :outputs (?g) :certified (grip ?x ?g)))
"""
"""A cup is to be fetched, and a stream says how it can be gripped."""


def _find() -> str | None:
    built = ROOT / "crates/pddlstream/out/pddlstream"
    named = os.environ.get("PDDLSTREAM") or (str(built) if built.exists() else "pddlstream")
    found = shutil.which(named)
    if found is None and "PDDLSTREAM" in os.environ:
        raise FileNotFoundError(f"$PDDLSTREAM names no program: {named}")
    return os.path.abspath(found) if found else None


PROGRAM = _find()
needs_program = unittest.skipUnless(PROGRAM, "there is no planner: name it by $PDDLSTREAM")


def fetch_problem(grip: Any, cup: Any = "cup") -> PDDLProblem:
    """The cup's problem, with this stream for its grips."""
    return PDDLProblem(FETCH_DOMAIN, {}, FETCH_STREAM, {"grip": grip}, [("item", cup), ("free",)], ("done", cup))


def solved(problem: PDDLProblem, algorithm: str = "incremental", **options: Any) -> Solution:
    """The solution by the planner that the tests run."""
    return solve(problem, algorithm=algorithm, program=PROGRAM, **options)


def environment(**more: str) -> dict[str, str]:
    """The environment of a program that imports the package and starts the planner."""
    path = os.pathsep.join([str(PACKAGE), *filter(None, [os.environ.get("PYTHONPATH")])])
    named = {"PDDLSTREAM": PROGRAM} if PROGRAM else {}
    return {**os.environ, "PYTHONPATH": path, "PYTHONDONTWRITEBYTECODE": "1", **named, **more}


def run_python(
    script: str, given: str = "", *, folder: str | None = None, **more: str
) -> subprocess.CompletedProcess[str]:
    """Runs a script with this text as its standard input."""
    return subprocess.run(
        [sys.executable, "-c", script],
        input=given,
        capture_output=True,
        text=True,
        cwd=folder,
        timeout=60,
        env=environment(**more),
    )


def processes_with(text: str) -> list[str]:
    """The command lines of running processes that have this text."""
    found = []
    for entry in Path("/proc").glob("[0-9]*/cmdline"):
        try:
            words = entry.read_bytes().replace(b"\0", b" ").decode("utf-8", "replace")
        except OSError:
            continue
        if text in words:
            found.append(words)
    return found


class InFolder(unittest.TestCase):
    """A test with a folder of its own, `self.folder`, which is gone afterwards."""

    def setUp(self) -> None:
        held = tempfile.TemporaryDirectory(prefix="pddlstream-test-")
        self.addCleanup(held.cleanup)
        self.folder = Path(held.name)

    def program_of(self, script: str) -> str:
        """A program of these lines of shell."""
        path = self.folder / "program"
        path.write_text(f"#!/bin/sh\n{script}\n")
        path.chmod(0o755)
        return str(path)

    def replayed(self, folder: Path) -> str:
        """What the planner says of the report in a folder that `keep` names."""
        assert PROGRAM is not None
        words = [
            PROGRAM,
            "replay",
            *(str(folder / name) for name in ("domain.pddl", "problem.pddl", "streams.pddl", "report")),
        ]
        return subprocess.run(words, capture_output=True, text=True, timeout=120).stdout
