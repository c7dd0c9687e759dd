"""Runs each command of the guides and compares what it prints with what the page shows.

usage: python3 examples/pages.py PROGRAM [PAGES]

PROGRAM is a built pddlstream; the validator is the one that lies beside it, or in the crate's own out/, and where there is
none its commands are skipped. A command is an indented line `$ COMMAND` of a page, and its output are the indented
lines below it. It is run in the folder that the page named last, in backticks, or in the one above, whichever has its files;
in a copy of the repository without its code, one for each page, so that nothing is written here. It ends with 1
where one differs.
"""
import os
import re
import shutil
import subprocess
import sys
import tempfile

PAGES = ["docs/TUTORIAL.md", "docs/GENERATORS.md", "docs/USING.md", "docs/RUNNING.md", "docs/REPORT.md",
         "docs/FROM_PDDLSTREAM.md", "docs/VALIDATING.md", "examples/README.md", "tools/README.md", "SECURITY.md"]
VALIDATOR = "pddl_validate"


def commands(page):
    """The folder, the command and the output, for each command of a page."""
    folder, shown = ".", []
    lines = open(page).read().split("\n") + [""]
    for at, line in enumerate(lines):
        if not line.startswith("    "):
            for name in re.findall(r"`([\w./-]+)`", line):
                if os.path.isdir(name):
                    folder = name
        elif line.startswith("    $ "):
            output = []
            for more in lines[at + 1:]:
                if not more.startswith("    ") or more.startswith("    $ "):
                    break
                output.append(more[4:])
            shown.append((folder, line[6:], output))
    return shown


def place(folder, command):
    """The folder in which the command's files are."""
    words = [word for word in command.split() if re.search(r"\w\.\w|\w/\w", word)]
    for there in (folder, os.path.dirname(folder) or "."):
        if any(os.path.exists(os.path.join(there, word)) for word in words):
            return there
    return folder


def run(programs, there, command):
    """What the command prints in that folder, with the programs of another folder to be found first."""
    env = {**os.environ, "PATH": f"{programs}:{os.environ['PATH']}"}
    done = subprocess.run(["bash", "-c", command], cwd=there, env=env, stdin=subprocess.DEVNULL, capture_output=True,
                          text=True)
    return done.stdout.split("\n")[:-1]


def check(page, programs, copy):
    """Whether each command of a page prints what the page shows, in a copy of the repository."""
    well = True
    shutil.copytree(".", copy, ignore=shutil.ignore_patterns("out", ".git", "__pycache__", "src", "specs", "proofs"))
    for folder, command, output in commands(page):
        there = place(folder, command)
        if command.startswith(VALIDATOR) and not os.path.exists(os.path.join(programs, VALIDATOR)):
            print(f"skipped: {page}, in {there}: {command}: no {VALIDATOR} is built", flush=True)
            continue
        got = run(programs, os.path.join(copy, there), command)
        print("same:" if got == output else "differs:", f"{page}, in {there}: {command}", flush=True)
        if got != output:
            print("\n".join(["  shown:", *output, "  printed:", *got]))
            well = False
    shutil.rmtree(copy)
    return well


def link_programs(programs, program):
    """Puts the program into a folder, and the validator where one is built."""
    os.symlink(program, os.path.join(programs, "pddlstream"))
    for folder in (os.path.dirname(program), f"crates/{VALIDATOR}/out"):
        found = os.path.abspath(os.path.join(folder, VALIDATOR))
        if os.path.isfile(found) and os.access(found, os.X_OK):
            os.symlink(found, os.path.join(programs, VALIDATOR))
            return


def main():
    if len(sys.argv) < 2:
        sys.exit(__doc__)
    program, pages = os.path.abspath(sys.argv[1]), sys.argv[2:] or PAGES
    os.chdir(os.path.join(os.path.dirname(os.path.abspath(__file__)), ".."))
    with tempfile.TemporaryDirectory() as work:
        programs = os.path.join(work, "bin")
        os.mkdir(programs)
        link_programs(programs, program)
        well = [check(page, programs, os.path.join(work, str(number))) for number, page in enumerate(pages)]
    sys.exit(0 if all(well) else 1)


if __name__ == "__main__":
    main()
