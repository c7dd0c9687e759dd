"""The page README.md: its files are written and its commands run, in their order, in a copy of the clone's folders."""
from __future__ import annotations

import importlib.util
import os
import re
import shutil
import subprocess
import sys
import unittest
from pathlib import Path

from .support import PACKAGE, PROGRAM, ROOT, InFolder, environment, needs_program

PAGE = PACKAGE / "README.md"
MARK = "---- next command ----"
HAS_VENV = importlib.util.find_spec("ensurepip") is not None
INSTALLING = ("python3 -m venv", ". planning", "pip install")


def files_of(page: str) -> dict[str, str]:
    """The page's files: a block of Python whose paragraph above ends with its name and a colon."""
    return dict(re.findall(r"`(\w+\.py)`[^\n]*:\n\n```python\n(.*?)```", page, re.DOTALL))


def commands_of(page: str) -> list[tuple[str, str]]:
    """Each command of the page and what the page says that it prints."""
    found: list[tuple[str, str]] = []
    for shown in re.findall(r"(?:^    .*\n)+", re.sub(r"```.*?```", "", page, flags=re.DOTALL), re.MULTILINE):
        for command, printed in re.findall(r"    \$ (.*\n)((?:    (?!\$ ).*\n)*)", shown):
            found.append((command.rstrip("\n"), "".join(line[4:] for line in printed.splitlines(True))))
    return found


class PageTest(InFolder):
    def clone(self) -> Path:
        """A folder with what the commands name of a clone, and the page's files."""
        clone = self.folder / "clone"
        (clone / "crates/pddlstream/out").mkdir(parents=True)
        shutil.copytree(ROOT / "crates/pddlstream/data", clone / "crates/pddlstream/data")
        shutil.copytree(PACKAGE, clone / "clients/python", ignore=shutil.ignore_patterns("__pycache__", "tests"))
        assert PROGRAM is not None
        os.symlink(PROGRAM, clone / "crates/pddlstream/out/pddlstream")
        for name, text in files_of(PAGE.read_text(encoding="utf-8")).items():
            (clone / name).write_text(text)
        return clone

    def printed(self, commands: list[str]) -> list[str]:
        """What each command prints, all of them in one shell."""
        script = self.folder / "script"
        script.write_text("".join(f"{command}\nprintf '%s\\n' '{MARK}'\n" for command in commands))
        names = {
            "PIP_DISABLE_PIP_VERSION_CHECK": "1",
            "LC_ALL": "C.UTF-8",
            "PATH": os.pathsep.join([str(Path(sys.executable).parent), os.environ["PATH"]]),
        }
        if HAS_VENV:
            names["PYTHONPATH"] = ""
        done = subprocess.run(
            ["bash", str(script)],
            stdin=subprocess.DEVNULL,
            cwd=self.clone(),
            capture_output=True,
            text=True,
            timeout=300,
            env=environment(TMPDIR=str(self.folder), **names),
        )
        self.assertEqual(done.stderr, "")
        return done.stdout.split(f"{MARK}\n")[:-1]

    @needs_program
    def test_each_command_prints_what_the_page_shows(self) -> None:
        commands = commands_of(PAGE.read_text(encoding="utf-8"))
        if not HAS_VENV:
            commands = [it for it in commands if not it[0].startswith(INSTALLING)]
        printed = self.printed([command for command, _ in commands])
        self.assertEqual(len(printed), len(commands))
        for (command, shown), got in zip(commands, printed):
            with self.subTest(command):
                self.assertEqual(got, shown)
        if not HAS_VENV:
            self.skipTest("this Python has no ensurepip: the page's install isn't tested, all else of it is")

    def test_the_page_has_its_files_and_commands(self) -> None:
        page = PAGE.read_text(encoding="utf-8")
        self.assertEqual(list(files_of(page)), ["first.py", "grips.py"])
        self.assertGreater(len(commands_of(page)), 10)

    def test_each_block_of_python_runs(self) -> None:
        for block in re.findall(r"```python\n(.*?)```", PAGE.read_text(encoding="utf-8"), re.DOTALL):
            done = subprocess.run(
                [sys.executable, "-c", block.replace("__main__", "not run")],
                input="",
                capture_output=True,
                text=True,
                env=environment(),
                cwd=self.folder,
                timeout=60,
            )
            self.assertEqual((done.returncode, done.stderr), (0, ""))

    def test_the_arguments_and_names_of_the_page_are_those_of_the_package(self) -> None:
        import inspect

        import pddlstream_client

        page = PAGE.read_text(encoding="utf-8")
        arguments = set(inspect.signature(pddlstream_client.solve).parameters) - {"problem", "others"}
        rows = re.search(r"\| Argument \|.*?\n\n", page, re.DOTALL)
        assert rows is not None
        self.assertEqual(
            {name for row in rows[0].strip().split("\n")[2:] for name in re.findall(r"`(\w+)`", row.split("|")[1])},
            arguments,
        )
        for name in pddlstream_client.__all__:
            self.assertTrue(f"`{name}" in page or f" {name}" in page, name)


if __name__ == "__main__":
    unittest.main()
