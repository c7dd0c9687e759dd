#!/usr/bin/env python3
"""Answers requests from a file, and asks a generator only for what isn't there.

    pddlstream solve domain.pddl problem.pddl streams.pddl -- python3 tools/cached.py answers -- PROGRAM WORDS

Each answer of the generator is put behind the file at once, a line `REQUEST<tab>ANSWER`; so a run that was stopped goes
on where it was when it is started again. Several workers may share one file. It serves generators that answer by the
request alone: where the generator or what it computes changes, remove the file.
"""
from __future__ import annotations

import os
import subprocess
import sys


def known(path: str) -> dict[str, str]:
    """The answers of a file; a last line that isn't whole counts for nothing."""
    if not os.path.exists(path):
        return {}
    with open(path, encoding="utf-8") as file:
        rows = [line[:-1].split("\t") for line in file if line.endswith("\n")]
    return {row[0]: row[1] for row in rows if len(row) == 2}


def is_cut_off(path: str) -> bool:
    """Whether the last line of a file isn't whole."""
    with open(path, "rb") as file:
        text = file.read()
    return bool(text) and not text.endswith(b"\n")


class Cache:
    """The file, and the generator once it is needed."""

    def __init__(self, path: str, program: list[str]):
        self.answers, self.program = known(path), program
        self.file = os.open(path, os.O_WRONLY | os.O_CREAT | os.O_APPEND, 0o644)
        if is_cut_off(path):
            os.write(self.file, b"\t\t\n")        # (a row of more than two fields counts for nothing)
        self.child: subprocess.Popen | None = None

    def answer(self, request: str) -> str | None:
        """The answer to a request, or nothing where the generator gives none."""
        if request not in self.answers:
            said = self.ask(request)
            if said is None:
                return None
            self.answers[request] = said
            os.write(self.file, f"{request}\t{said}\n".encode())
        return self.answers[request]

    def ask(self, request: str) -> str | None:
        """What the generator answers."""
        if self.child is None:
            self.child = subprocess.Popen(self.program, stdin=subprocess.PIPE, stdout=subprocess.PIPE, text=True)
        requests, answers = self.child.stdin, self.child.stdout
        assert requests and answers
        try:
            requests.write(f"{request}\n")
            requests.flush()
        except OSError:
            return None
        line = answers.readline()
        return line.rstrip("\r\n") if line.endswith("\n") else None

    def close(self) -> None:
        """Ends the generator."""
        if self.child is not None and self.child.stdin is not None:
            self.child.stdin.close()
            self.child.wait()


def main(words: list[str]) -> int:
    """Answers until the input ends; with 1 where the generator gave no answer."""
    if len(words) < 3 or words[1] != "--":
        print(__doc__ if words in (["-h"], ["--help"]) else "usage: cached.py FILE -- PROGRAM WORDS")
        return 0 if words in (["-h"], ["--help"]) else 2
    cache = Cache(words[0], words[2:])
    for line in sys.stdin:
        said = cache.answer(line.rstrip("\n"))
        if said is None:
            return 1
        print(said, flush=True)
    cache.close()
    return 0


if __name__ == "__main__":
    sys.exit(main(sys.argv[1:]))
