#!/usr/bin/env python3
"""Measures what the gate costs, and writes the table of docs/PERFORMANCE.md ('What the gate costs').

  bench/gate.py run [--log FILE]    runs `rt ci` at the top of the repository, and writes its log and the table
  bench/gate.py table LOG [LOG..]   writes the table of a log that `run` wrote, or of a run in parts: each over what those
                                    before it passed, so that of a check which two of them made the later counts

What `rt ci` prints has no times. So `run` looks every two seconds at the processes below it, and takes the processor
time of each check as it was when last seen: of a check in crates/NAME it is the crate's proof, or its tests where it
has `--test`; of a check in a folder rt-edit-* it is an edit. What a check takes in its last seconds is missed; the
text below the table says how much was, of all that the kernel counted.

In the log each line of `rt ci` stands behind the seconds since its start. The last lines are those of the costs:
'cost NAME KIND SECONDS', where KIND is proof, tests, first (a crate's first edit, a whole proof from nothing) or edits
(the others, with the check behind the last), 'edit NAME EDIT SECONDS' for each check of an edit (EDIT is none for the
check behind the last), and 'whole PROCESSOR_SECONDS WALL_SECONDS'. `table` writes the prices of edits below the table.
"""

import argparse
import collections
import glob
import os
import re
import resource
import subprocess
import sys
import threading
import time

TICKS = os.sysconf("SC_CLK_TCK")
ROOT = os.path.dirname(os.path.dirname(os.path.realpath(__file__)))
KINDS = ("proof", "tests", "first", "edits")

# From how many minutes on a crate has a row of its own.
LEAST = 3.0

Process = collections.namedtuple("Process", "pid parent seconds words folder")
Costs = collections.namedtuple("Costs", "minutes whole wall edits said parts prices")


# ---- looking at processes


def read_process(pid):
    """Returns the process, with the processor seconds of itself and of its children that have ended, or None."""
    try:
        with open(f"/proc/{pid}/stat", encoding="utf-8", errors="replace") as it:
            told = it.read().rpartition(")")[2].split()
        with open(f"/proc/{pid}/cmdline", encoding="utf-8", errors="replace") as it:
            words = it.read().split("\0")
        folder = os.readlink(f"/proc/{pid}/cwd")
    except OSError:
        return None
    seconds = sum(int(it) for it in told[11:15]) / TICKS
    return Process(pid, int(told[1]), seconds, words, folder)


def processes_below(top):
    """Returns the processes that stand below this one."""
    found = filter(None, map(read_process, [int(it) for it in os.listdir("/proc") if it.isdigit()]))
    by_parent = collections.defaultdict(list)
    for it in found:
        by_parent[it.parent].append(it)
    below, todo = [], [top]
    while todo:
        for it in by_parent[todo.pop()]:
            below.append(it)
            todo.append(it.pid)
    return below


def is_check(process):
    """Whether the process is a check or a build of a crate."""
    return os.path.basename(process.words[0]) == "rattle" and "--crate-name" in process.words


def checks_in(processes):
    """Yields each check with the processor seconds of all that stands below it (a check forks copies of itself)."""
    by_pid = {it.pid: it for it in processes}
    sums = collections.defaultdict(float)
    for it in processes:
        top = it.pid if is_check(it) else None
        parent = by_pid.get(it.parent)
        while parent:
            top = parent.pid if is_check(parent) else top
            parent = by_pid.get(parent.parent)
        if top:
            sums[top] += it.seconds
    for pid, seconds in sums.items():
        yield by_pid[pid], seconds


def place_of(check):
    """Returns the crate of a check, what it is for, and the folder of an edit."""
    name = check.words[check.words.index("--crate-name") + 1]
    room = os.path.basename(check.folder)
    if room.startswith("rt-edit-"):
        return name, "edits", room
    return name, "tests" if "--test" in check.words else "proof", ""


def read_text(file):
    """Returns the text of a file, or None where it can't be read."""
    try:
        with open(file, encoding="utf-8") as it:
            return it.read()
    except (OSError, UnicodeDecodeError):
        return None


def edited(text, edit):
    """Returns the text with the pairs of lines 'old: ' and 'new: ' of an edit replaced, in their order."""
    old = None
    for line in edit.splitlines():
        if line.startswith("old: "):
            old = line[5:]
        elif line.startswith("new: ") and old is not None:
            text, old = text.replace(old, line[5:]), None
    return text


def edit_in(folder, name):
    """Returns which edit of the crate was made in this copy of it, or 'none'."""
    crate = f"{ROOT}/crates/{name}"
    for file in sorted(glob.glob(f"{crate}/must-fail/*.edit")):
        edit = read_text(file) or ""
        place = next((it[6:].strip() for it in edit.splitlines() if it.startswith("file: ")), "")
        text, now = read_text(f"{crate}/{place}"), read_text(f"{folder}/{place}")
        if text is not None and now is not None and text != now and edited(text, edit) == now:
            return os.path.basename(file).removesuffix(".edit")
    return "none"


class Seen:
    """What the checks of a run had taken when each was last seen."""

    def __init__(self):
        self.seconds = {}
        self.first = {}
        self.edits = {}

    def look(self, top):
        """Looks at all checks below the process."""
        for check, seconds in checks_in(processes_below(top)):
            name, kind, room = place_of(check)
            if room:
                kind = "first" if self.first.setdefault(name, room) == room else "edits"
                if (name, room) not in self.edits:
                    self.edits[name, room] = edit_in(check.folder, name)
            key = (name, kind, room or check.pid)
            self.seconds[key] = max(seconds, self.seconds.get(key, 0))

    def sums(self):
        """Returns the seconds by crate and kind."""
        found = collections.defaultdict(float)
        for (name, kind, _), seconds in self.seconds.items():
            found[name, kind] += seconds
        return found

    def prices(self):
        """Yields the crate, the edit and the seconds of each check in a room of its own."""
        for (name, _, room), seconds in self.seconds.items():
            if (name, room) in self.edits:
                yield name, self.edits[name, room], seconds


# ---- a run


def stamp_lines(source, log, begun):
    """Writes each line to the log behind the seconds since the start, and to standard output."""
    for line in source:
        print(line, end="", flush=True)
        print(f"{time.time() - begun:8.1f} {line}", end="", file=log, flush=True)


def run_gate(log_file, every):
    """Runs the gate and writes its log. Returns its status."""
    begun, seen = time.time(), Seen()
    with open(log_file, "w", encoding="utf-8") as log:
        how = {"cwd": ROOT, "stdout": subprocess.PIPE, "stderr": subprocess.STDOUT, "text": True, "errors": "replace"}
        with subprocess.Popen(["rt", "ci"], **how) as gate:
            copying = threading.Thread(target=stamp_lines, args=(gate.stdout, log, begun))
            copying.start()
            while gate.poll() is None:
                seen.look(gate.pid)
                time.sleep(every)
            copying.join()
        for (name, kind), seconds in sorted(seen.sums().items()):
            print(f"cost {name} {kind} {seconds:.1f}", file=log)
        for name, edit, seconds in seen.prices():
            print(f"edit {name} {edit} {seconds:.1f}", file=log)
        used = resource.getrusage(resource.RUSAGE_CHILDREN)
        print(f"whole {used.ru_utime + used.ru_stime:.1f} {time.time() - begun:.1f}", file=log)
    return gate.returncode


# ---- the table


def read_log(file):
    """Returns what a log says of a run, or stops where it has no costs."""
    minutes, prices, whole, wall, edits, said = collections.defaultdict(float), {}, 0.0, 0.0, 0, ""
    with open(file, encoding="utf-8", errors="replace") as log:
        for line in log:
            words = line.split()
            if words[:1] == ["cost"] and len(words) == 4 and words[2] in KINDS:
                minutes[words[1], words[2]] += float(words[3]) / 60
            elif words[:1] == ["edit"] and len(words) == 4:
                prices[words[1], words[2]] = float(words[3])
            elif words[:1] == ["whole"] and len(words) == 3:
                whole, wall = float(words[1]) / 60, float(words[2]) / 60
            elif re.search(r"\brt: must-fail \S+: refused", line):
                edits += 1
            elif re.search(r"\d+ passed, \d+ failed$", line.rstrip()):
                said = re.search(r"\d+ passed, \d+ failed", line)[0]
    if not minutes:
        sys.exit(f"{file} has no line 'cost NAME KIND SECONDS': only 'bench/gate.py run' writes such a log")
    return Costs(minutes, whole, wall, edits, said, 1, prices)


def listed_crates():
    """Returns the names of the crates that crates.txt lists."""
    with open(f"{ROOT}/crates.txt", encoding="utf-8") as lines:
        return {line.split(":")[0].split()[0] for line in lines if ":" in line.partition("#")[0]}


def join_logs(files):
    """Returns what the logs of a run in parts say together. A crate that isn't listed any more doesn't count."""
    parts, listed = [read_log(it) for it in files], listed_crates()
    minutes, prices = collections.defaultdict(float), {}
    for part in parts:
        minutes.update({key: it for key, it in part.minutes.items() if key[0] in listed})
        prices.update({key: it for key, it in part.prices.items() if key[0] in listed})
    sums = [sum(it) for it in zip(*((part.whole, part.wall, part.edits) for part in parts))]
    return Costs(minutes, *sums, parts[-1].said, len(parts), prices)


def told(minutes):
    """Returns the minutes as the table has them."""
    if minutes < 0.05:
        return "-"
    return f"{minutes:.0f}" if minutes >= 2 else f"{minutes:.1f}"


def rows_of(costs):
    """Returns a row for each crate, the dearest first: its name, and its minutes for proof, tests, edits, together."""
    rows = []
    for name in {name for name, _ in costs.minutes}:
        proof, tests, first, edits = (costs.minutes.get((name, kind), 0.0) for kind in KINDS)
        rows.append((name, proof, tests, first + edits, proof + tests + first + edits))
    return sorted(rows, key=lambda it: (-it[4], it[0]))


def show_table(costs):
    """Prints the table, and the sums below it."""
    rows = rows_of(costs)
    dear, others = [it for it in rows if it[4] >= LEAST], [it[1:] for it in rows if it[4] < LEAST]
    if others:
        dear.append((f"the other {len(others)}", *map(sum, zip(*others))))
    print("| Crate | proof | tests | edits | together |\n|---|---|---|---|---|")
    for name, *parts in dear:
        print(f"| {name} | {' | '.join(map(told, parts))} |")
    proof, tests, first, edits = (sum(m for (_, k), m in costs.minutes.items() if k == kind) for kind in KINDS)
    crates = len({name for name, kind in costs.minutes if kind == "first"})
    together = proof + tests + first + edits
    parts = f" in {costs.parts} parts" if costs.parts > 1 else ""
    print(f"""
Together {together:.0f} processor minutes: {proof:.0f} for proofs and programs, {tests:.0f} for tests, {first:.0f} for the
first edits of the {crates} crates that have some, each a proof from nothing, and {edits:.0f} for the other edits and the
checks behind a crate's last (of {costs.edits} edits it was told what came of them). The kernel counted {costs.whole:.0f} for all that `rt ci` did.
It took {costs.wall:.0f} minutes{parts}, and its last line is `{costs.said or 'missing'}`.""")


def show_prices(costs):
    """Prints the processor seconds of each edit, crate by crate, in the order in which they were tried."""
    by_crate = collections.defaultdict(list)
    for (name, edit), seconds in costs.prices.items():
        by_crate[name].append(f"without an edit {seconds:.0f}" if edit == "none" else f"{edit} {seconds:.0f}")
    if by_crate:
        print("\n| Crate | its edits, with the processor seconds of each |\n|---|---|")
    for name, told_of in sorted(by_crate.items()):
        print(f"| {name} | {', '.join(told_of)} |")


def main():
    words = argparse.ArgumentParser(description=__doc__, formatter_class=argparse.RawDescriptionHelpFormatter)
    verbs = words.add_subparsers(dest="verb", required=True)
    run = verbs.add_parser("run", help="run the gate, and write its log and the table")
    run.add_argument("--log", default="/tmp/gate.log", metavar="FILE", help="the log (default: /tmp/gate.log)")
    run.add_argument("--every", type=float, default=2.0, metavar="SECONDS", help="how often to look (default: 2)")
    table = verbs.add_parser("table", help="write the table of a log, or of the logs of a run in parts")
    table.add_argument("logs", nargs="+", metavar="LOG")
    asked = words.parse_args()
    if asked.verb == "table":
        costs = join_logs(asked.logs)
        show_table(costs)
        show_prices(costs)
        return 0
    status = run_gate(asked.log, asked.every)
    costs = read_log(asked.log)
    show_table(costs)
    show_prices(costs)
    return status


if __name__ == "__main__":
    sys.exit(main())
