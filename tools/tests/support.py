"""What the tests share: where things are, running tools and the program."""
from __future__ import annotations

import contextlib
import io
import os
import shutil
import subprocess
import sys
import tempfile
import unittest

TOOLS = os.path.dirname(os.path.dirname(os.path.abspath(__file__)))
ROOT = os.path.dirname(TOOLS)
sys.path.insert(0, TOOLS)

TRAY = os.path.join(ROOT, "examples", "tray")
GRID = os.path.join(ROOT, "examples", "grid")
SHELF = os.path.join(ROOT, "crates", "row_runs", "data", "shelf")
FETCH = os.path.join(ROOT, "crates", "pddlstream", "data")
MODES = ("incremental", "focused", "binding", "adaptive")
PROGRAM = os.path.abspath(shutil.which(os.environ.get("PDDLSTREAM", "")) or "/no/program")
needs_program = unittest.skipUnless(os.path.exists(PROGRAM), "PDDLSTREAM names no program")


def task(folder: str) -> list[str]:
    """The three texts of an example."""
    return [os.path.join(folder, f"{name}.pddl") for name in ("domain", "problem", "streams")]


def solve(files: list[str], *words: str, folder: str = ROOT) -> str:
    """What `solve` prints."""
    done = subprocess.run([PROGRAM, "solve", *files, *words], cwd=folder, capture_output=True, text=True)
    return done.stdout


def tool(main, *words: str, given: str | None = None) -> tuple[int, str, str]:
    """The status of a tool, and what it prints to standard output and to standard error."""
    out, err = io.StringIO(), io.StringIO()
    before = sys.stdin
    sys.stdin = io.StringIO(given or "")
    try:
        with contextlib.redirect_stdout(out), contextlib.redirect_stderr(err):
            try:
                status = main(list(words))
            except SystemExit as ended:
                status = ended.code if isinstance(ended.code, int) else 1
    finally:
        sys.stdin = before
    return status, out.getvalue(), err.getvalue()


class Folder(unittest.TestCase):
    """A test with a folder of its own."""

    def setUp(self) -> None:
        made = tempfile.TemporaryDirectory()
        self.addCleanup(made.cleanup)
        self.folder = made.name

    def put(self, name: str, text: str) -> str:
        """A file of the folder."""
        path = os.path.join(self.folder, name)
        with open(path, "w", encoding="utf-8", newline="\n") as file:
            file.write(text)
        return path
