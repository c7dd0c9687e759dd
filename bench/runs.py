#!/usr/bin/env python3
"""Times whole runs of the program, alone or beside another program that takes the same words.

  bench/runs.py [--program FILE] [--beside FILE] [--runs N] [--only WORD]

It makes the inputs in a folder of its own, does each row's run N times (5), of both programs in turn, and prints the
table of docs/PERFORMANCE.md: the least seconds of each, their ratio, and the ratio of the most memory held, of one run
more below /usr/bin/time. Where they end with another status, or print other lines than a plan's, a row says so in place
of its ratios. Run it with nothing beside it.
"""

import argparse
import os
import subprocess
import sys
import tempfile
import time

ROOT = os.path.dirname(os.path.dirname(os.path.abspath(__file__)))
MOST = (4 << 20) - 20_000  # bytes of a text that is just below 4 MiB
NEVER = ["--", "never-started"]
JOIN = "(and (e ?a ?b) (e ?b ?c) (e ?c ?d))"
TIME = "/usr/bin/time"
FREE = ("plan", "do", "from", "cost", "step", "use")  # lines that differ from plan to plan

GRID = {
    "domain": """(define (domain grid) (:types block region pose side cell)
  (:predicates (fits ?b - block ?r - region) (pose ?b - block ?p - pose) (in ?b - block ?p - pose ?r - region)
    (grasp ?b - block ?g - side) (reach ?b - block ?p - pose ?g - side ?c - cell)
    (clear ?b - block ?p - pose ?o - block ?q - pose) (at ?b - block ?p - pose)
    (held ?b - block ?g - side) (free) (blocked ?b - block ?p - pose) (placed ?b - block ?r - region))
  (:derived (blocked ?b - block ?p - pose)
    (exists (?o - block ?q - pose) (and (at ?o ?q) (not (= ?o ?b)) (not (clear ?b ?p ?o ?q)))))
  (:derived (placed ?b - block ?r - region) (exists (?p - pose) (and (at ?b ?p) (in ?b ?p ?r))))
  (:action pick :parameters (?b - block ?p - pose ?g - side ?c - cell)
    :precondition (and (free) (at ?b ?p) (reach ?b ?p ?g ?c)) :effect (and (held ?b ?g) (not (free)) (not (at ?b ?p))))
  (:action put :parameters (?b - block ?p - pose ?g - side ?c - cell)
    :precondition (and (held ?b ?g) (reach ?b ?p ?g ?c) (not (blocked ?b ?p)))
    :effect (and (at ?b ?p) (free) (not (held ?b ?g)))))
""",
    "streams": """(define (stream grid)
  (:stream place :inputs (?b - block ?r - region) :domain (fits ?b ?r) :outputs (?p - pose)
    :certified (and (pose ?b ?p) (in ?b ?p ?r)))
  (:stream grasp :inputs (?b - block) :outputs (?g - side) :certified (grasp ?b ?g))
  (:stream reach :inputs (?b - block ?p - pose ?g - side) :domain (and (pose ?b ?p) (grasp ?b ?g))
    :outputs (?c - cell) :certified (reach ?b ?p ?g ?c))
  (:stream clear :inputs (?b - block ?p - pose ?o - block ?q - pose) :domain (and (pose ?b ?p) (pose ?o ?q))
    :certified (clear ?b ?p ?o ?q)))
""",
}


# ---- inputs


def task(domain, problem, streams="(define (stream s))\n"):
    """Returns the three texts of a task."""
    return {"domain": domain, "problem": problem, "streams": streams}


def line_of_objects(count, goal):
    """Returns a problem of objects in a row, each with an edge to the next."""
    names = " ".join(f"o{n}" for n in range(count))
    edges = " ".join(f"(e o{n} o{n + 1})" for n in range(count - 1))
    return f"(define (problem p) (:domain d) (:objects {names}) (:init {edges}) (:goal {goal}))\n"


def walks(count):
    """Returns a task whose stream has four inputs that stand in a row."""
    streams = f"(define (stream s) (:stream walk :inputs (?a ?b ?c ?d) :domain {JOIN} :certified (q ?a ?d)))\n"
    return task("(define (domain d) (:predicates (e ?x ?y) (q ?x ?y)))\n", line_of_objects(count, "(q o0 o0)"), streams)


def hops(count):
    """Returns a task whose action has four parameters that stand in a row."""
    domain = f"""(define (domain d) (:predicates (e ?x ?y) (won ?x))
  (:action hop :parameters (?a ?b ?c ?d) :precondition {JOIN} :effect (won ?d)))\n"""
    return task(domain, line_of_objects(count, "(won o3)"))


def lamps(count, goal):
    """Returns a task of lamps that can be turned on."""
    domain = """(define (domain d) (:predicates (on ?x) (never))
  (:action turn :parameters (?x) :precondition (not (on ?x)) :effect (on ?x)))\n"""
    names = " ".join(f"l{n}" for n in range(count))
    return task(domain, f"(define (problem p) (:domain d) (:objects {names}) (:init) (:goal {goal}))\n")


def dear_lamps(count):
    """Returns the same task, where turning a lamp on costs what a function says of it, and the goal is never reached."""
    domain = """(define (domain d) (:predicates (on ?x) (never)) (:functions (price ?x) - number (total-cost) - number)
  (:action turn :parameters (?x) :precondition (not (on ?x)) :effect (and (on ?x) (increase (total-cost) (price ?x)))))\n"""
    names = [f"l{n}" for n in range(count)]
    prices = " ".join(f"(= (price {name}) {n})" for n, name in enumerate(names))
    return task(domain, f"""(define (problem p) (:domain d) (:objects {' '.join(names)}) (:init {prices})
  (:goal (never)) (:metric minimize (total-cost)))\n""")


def priced(count, goal):
    """Returns a task of things to be bought, whose prices a cost stream gives."""
    domain = """(define (domain d) (:predicates (item ?x) (bought ?x) (never)) (:functions (price ?x) - number (total-cost) - number)
  (:action buy :parameters (?x) :precondition (item ?x) :effect (and (bought ?x) (increase (total-cost) (price ?x)))))\n"""
    streams = "(define (stream s) (:cost-stream ask :inputs (?x) :domain (item ?x) :value (price ?x)))\n"
    names = [f"o{n}" for n in range(count)]
    facts = " ".join(f"(item {name})" for name in names)
    return task(domain, f"""(define (problem p) (:domain d) (:objects {' '.join(names)}) (:init {facts}) (:goal {goal})
  (:metric minimize (total-cost)))\n""", streams)


def chain(goal):
    """Returns a counter of five digits: 100,000 states, each with one step to the next."""
    places, digits = [f"p{n}" for n in range(5)], [f"n{n}" for n in range(10)]
    actions = []
    for at, place in enumerate(places):
        lower = " ".join(f"(d {low} n9)" for low in places[:at])
        back = " ".join(f"(not (d {low} n9)) (d {low} n0)" for low in places[:at])
        actions.append(f"""  (:action inc-{place} :parameters (?a ?b) :precondition (and (next ?a ?b) (d {place} ?a) {lower})
    :effect (and (not (d {place} ?a)) (d {place} ?b) {back}))\n""")
    domain = f"""(define (domain d) (:constants {' '.join(places + digits)})
  (:predicates (d ?p ?n) (next ?a ?b) (lost) (never) (over))
  (:derived (over) (never))
  (:action lose :parameters () :precondition (lost) :effect (never))
{''.join(actions)})\n"""
    init = " ".join([f"(next n{n} n{n + 1})" for n in range(9)] + [f"(d {place} n0)" for place in places])
    return task(domain, f"(define (problem p) (:domain d) (:init {init}) (:goal {goal}))\n")


def filled(piece):
    """Returns pieces by their numbers, as many as fit into a text."""
    found, size = [], 0
    while size < MOST:
        found.append(piece(len(found)))
        size += len(found[-1]) + 1
    return " ".join(found[:-1])


def large(objects, init, goal):
    """Returns a large problem of objects with types, and of links between them."""
    domain = "(define (domain d) (:types t) (:predicates (link ?x ?y)))\n"
    return task(domain, f"(define (problem p) (:domain d) (:objects {objects}) (:init {init}) (:goal {goal}))\n")


def grid(count):
    """Returns a task of blocks on a grid, each to be put into a region of two cells, one of which has an obstacle."""
    numbers = range(1, count + 1)
    facts = " ".join(f"(fits b{n} r{n}) (pose b{n} home-b{n}) (at b{n} home-b{n})" for n in numbers)
    names = [" ".join(f"{kind}{n}" for n in numbers) for kind in ("b", "r", "home-b")]
    problem = f"""(define (problem p) (:domain grid)
  (:objects {names[0]} - block {names[1]} - region {names[2]} - pose)
  (:init (free) {facts}) (:goal (and {' '.join(f"(placed b{n} r{n})" for n in numbers)})))\n"""
    lines = [f"block b{n} 1 1 {2 * n - 2} 1\nregion r{n} {2 * n - 2} 4 2 1\nobstacle {2 * n - 2} 4 1 1\n" for n in numbers]
    return {**GRID, "problem": problem, "grid": f"grid {2 * count} 6\n" + "".join(lines)}


def inputs():
    """Returns each task by its name."""
    some = [f"o{n}" for n in range(1000)]
    objects = filled(lambda n: f"object-{n}" + (" - t" if n % 100 == 99 else ""))
    ends = " ".join(f"(d p{n} n9)" for n in range(5))
    start = "(:init (s a))"
    return {
        "cup": {name: read(f"crates/pddlstream/data/{name}.pddl") for name in ("domain", "problem", "streams")},
        "levels": task("(define (domain d) (:predicates (s ?x) (p ?x) (q ?x)))\n",
                       f"(define (problem p) (:domain d) (:objects a) {start} (:goal (exists (?x) (q ?x))))\n",
                       "(define (stream s) (:stream mk :inputs (?x) :domain (s ?x) :outputs (?y) :certified (p ?y)))\n"),
        "pairs": task("(define (domain d) (:predicates (s ?x) (p ?x) (q ?x ?y)))\n",
                      f"""(define (problem p) (:domain d) (:objects a) {start}
  (:goal (exists (?x ?y) (and (q ?x ?y) (not (= ?x ?y))))))\n""",
                      """(define (stream s) (:stream mk :inputs (?x) :domain (s ?x) :outputs (?y) :certified (p ?y))
  (:stream pair :inputs (?x ?y) :domain (and (p ?x) (p ?y)) :certified (q ?x ?y)))\n"""),
        "walks": walks(1000), "walks-20": walks(20_000), "hops": hops(1000), "hops-20": hops(20_000),
        "dear-lamps": dear_lamps(16), "prices": priced(10_000, "(never)"), "one-price": priced(10_000, "(bought o0)"),
        "three-lamps": lamps(23, "(and (on l0) (on l1) (on l2))"), "lamps": lamps(16, "(never)"),
        "chain": chain("(never)"), "derived": chain("(over)"), "ends": chain(f"(and {ends})"),
        "objects": large(objects, "", "()"), "refused": large(objects, "", "(nope)"),
        "facts": large(" ".join(some), filled(lambda n: f"(link {some[n % 1000]} {some[n // 1000]})"), "()"),
        "grid-3": grid(3), "grid-12": grid(12),
    }


def read(path):
    """Returns a file of the repository."""
    with open(os.path.join(ROOT, path), encoding="utf-8") as file:
        return file.read()


# ---- runs

SED = "s/^next \\([0-9]*\\) mk .*/yield v\\1/;t;s/.*/end/"
ROWS = [  # the row, the command, the task, further words
    ("one cup", "solve", "cup", ["--", "yes", "yield left"]),
    ("`generate 1`", "generate", "1", []), ("`generate 3`", "generate", "3", []), ("`generate 12`", "generate", "12", []),
    ("three blocks on a grid, focused", "solve", "grid-3", ["--algorithm", "focused", "--", "@grid", "grid-3/grid"]),
    ("twelve blocks on a grid, focused", "solve", "grid-12", ["--algorithm", "focused", "--", "@grid", "grid-12/grid"]),
    ("1,000 levels of one request", "solve", "levels", ["--calls", "1000", "--", "yes", "yield x"]),
    ("pairs of generated objects, 10,000 requests", "solve", "pairs", ["--", "sed", "-u", SED]),
    ("a stream with four inputs over 1,000 objects", "solve", "walks", ["--", "yes", "end"]),
    ("the same, answered by `sed`", "solve", "walks", ["--", "sed", "-u", "s/.*/end/"]),
    ("the same over 20,000 objects", "solve", "walks-20", ["--calls", "1", "--", "yes", "end"]),
    ("an action with four parameters over 1,000 objects", "solve", "hops", NEVER),
    ("the same over 20,000 objects", "solve", "hops-20", NEVER),
    ("three lamps among 23, within 200 states", "solve", "three-lamps", ["--states", "200", *NEVER]),
    ("lamps, 65,536 states", "solve", "lamps", NEVER),
    ("a chain of 100,000 states", "solve", "chain", NEVER),
    ("the same with a derived goal", "solve", "derived", NEVER),
    ("the same past its limit of states", "solve", "chain", ["--states", "99999", *NEVER]),
    ("the same with a plan of 99,999 steps", "solve", "ends", NEVER),
    ("many objects read", "solve", "objects", NEVER),
    ("many objects, refused", "solve", "refused", NEVER),
    ("many facts read", "solve", "facts", NEVER),
    ("replay of the stream with four inputs", "replay", "walks", ["walks/report"]),
    ("replay of a plan of 99,999 steps", "replay", "ends", ["ends/report"]),
    ("replay of 2,000 levels", "replay", "levels", ["levels/report"]),
]
COSTS = [  # rows of the program alone
    ("lamps, each at a price of its own", "solve", "dear-lamps", NEVER),
    ("a cost stream, 10,000 requests in a level", "solve", "prices", ["--", "sed", "-u", "s/.*/value 1/"]),
    ("a dream over 10,000 prices, focused", "solve", "one-price", ["--algorithm", "focused", "--", "yes", "value 1"]),
]
REPORTS = [("walks", ["--", "yes", "end"]), ("ends", NEVER), ("levels", ["--calls", "2000", "--", "yes", "yield x"])]


def words_of(command, name):
    """Returns the first words of a command over a task."""
    if command == "generate":
        return [command, name]
    return [command, *(f"{name}/{part}" for part in ("domain", "problem", "streams"))]


def run(program, words, folder):
    """Runs a program, and returns its seconds, and its status with the lines that no plan changes."""
    begun = time.perf_counter()
    with open(os.path.join(folder, "out"), "w+b") as out:
        done = subprocess.run([program, *words], cwd=folder, stdin=subprocess.DEVNULL, stdout=out, stderr=subprocess.DEVNULL)
        took = time.perf_counter() - begun
        out.seek(0)
        lines = [line for line in out.read().decode(errors="replace").split("\n") if line.split(" ")[0] not in FREE]
    return took, (done.returncode, lines)


def held(program, words, folder):
    """Returns the most MiB that a run holds. A process that Python starts counts Python's own, so a small one starts it."""
    told = os.path.join(folder, "held")
    subprocess.run([TIME, "-q", "-f", "%M", "-o", told, program, *words], cwd=folder, stdin=subprocess.DEVNULL,
                   stdout=subprocess.DEVNULL, stderr=subprocess.DEVNULL)
    with open(told, encoding="utf-8") as file:
        return int(file.read()) / 1024


def shown(name, ours, others, memory):
    """Returns a row of the table, of the runs of one program or of both, and of the MiB that each holds."""
    here = min(one[0] for one in ours)
    if not others:
        return f"| {name} | {here:.4f} | {memory[0]:.0f} MiB |"
    there = min(one[0] for one in others)
    if ours[0][1] != others[0][1]:
        return f"| {name} | {there:.4f} | {here:.4f} | other statuses or lines | |"
    return f"| {name} | {there:.4f} | {here:.4f} | {here / there:.2f} | {memory[0] / memory[1]:.2f} |"


def table(folder, programs, only, runs):
    """Yields the rows of the table."""
    for row, command, name, further in ROWS if len(programs) > 1 else ROWS + COSTS:
        words = [*words_of(command, name), *further]
        if only in row:
            done = [[run(program, words, folder) for program in programs] for _ in range(runs)]
            memory = [held(program, words, folder) for program in programs]
            yield shown(row, [one[0] for one in done], [one[1] for one in done if len(one) > 1], memory)


def make_inputs(folder, program, only):
    """Writes the tasks, and the reports that rows want, by the program."""
    for name, texts in inputs().items():
        os.mkdir(os.path.join(folder, name))
        for part, text in texts.items():
            with open(os.path.join(folder, name, part), "w", encoding="utf-8") as file:
                file.write(text)
    for name, words in REPORTS:
        if any(only in row[0] for row in ROWS if row[3] == [f"{name}/report"]):
            run(program, [*words_of("solve", name), *words], folder)
            os.rename(os.path.join(folder, "out"), os.path.join(folder, name, "report"))


def main():
    parser = argparse.ArgumentParser(description=__doc__, formatter_class=argparse.RawDescriptionHelpFormatter)
    parser.add_argument("--program", default=os.path.join(ROOT, "crates/pddlstream/out/pddlstream"))
    parser.add_argument("--beside", metavar="FILE", help="another program that takes the same words")
    parser.add_argument("--runs", type=int, default=5)
    parser.add_argument("--only", default="", metavar="WORD", help="the rows that have this word")
    given = parser.parse_args()
    programs = [os.path.abspath(it) for it in (given.program, given.beside) if it]
    for program in (*programs, TIME):
        if not os.access(program, os.X_OK):
            parser.error(f"{program} is no program")
    heads = ("Run", "other", "here", "time", "memory") if given.beside else ("Run", "seconds", "memory")
    print(f"| {' | '.join(heads)} |\n{'|---' * len(heads)}|")
    with tempfile.TemporaryDirectory() as folder:
        make_inputs(folder, programs[0], given.only)
        for row in table(folder, programs, given.only, given.runs):
            print(row, flush=True)


if __name__ == "__main__":
    sys.exit(main())
