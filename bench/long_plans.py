#!/usr/bin/env python3
"""Times the validator on long plans: 100,000 steps over 10,000 objects, and 100,000 lines of which one or each is no step.

usage: long_plans.py PDDL_VALIDATE [RUNS]

It makes the inputs, from a fixed seed, in a folder of its own, and does each RUNS times (5). A line has the least seconds
of processor time, which others at work make no longer, the most memory, and what the validator said; it has to be what is
written beside the input here. No part of the gate."""
import os
import pathlib
import random
import subprocess
import sys
import tempfile

BLOCKS = """(define (domain blocks)
  (:predicates (on ?x ?y) (ontable ?x) (clear ?x) (handempty) (holding ?x) (block ?x))
  (:action pick-up :parameters (?x) :precondition (and (block ?x) (clear ?x) (ontable ?x) (handempty))
    :effect (and (not (ontable ?x)) (not (clear ?x)) (not (handempty)) (holding ?x)))
  (:action put-down :parameters (?x) :precondition (and (block ?x) (holding ?x))
    :effect (and (not (holding ?x)) (clear ?x) (handempty) (ontable ?x)))
  (:action stack :parameters (?x ?y) :precondition (and (block ?x) (block ?y) (holding ?x) (clear ?y))
    :effect (and (not (holding ?x)) (not (clear ?y)) (clear ?x) (handempty) (on ?x ?y)))
  (:action unstack :parameters (?x ?y)
    :precondition (and (block ?x) (block ?y) (on ?x ?y) (clear ?x) (handempty))
    :effect (and (holding ?x) (clear ?y) (not (clear ?x)) (not (handempty)) (not (on ?x ?y)))))
"""
TRUCKS = """(define (domain trucks)
  (:types truck package place - object)
  (:predicates (road ?a ?b - place) (at ?x - object ?p - place) (in ?k - package ?t - truck) (full ?t - truck){predicate})
  (:functions (total-cost) (length ?a ?b - place)){derived}
  (:action drive :parameters (?t - truck ?a ?b - place) :precondition (and (at ?t ?a) (road ?a ?b){drive})
    :effect (and (at ?t ?b) (not (at ?t ?a)) (increase (total-cost) (length ?a ?b))))
  (:action load :parameters (?t - truck ?k - package ?p - place) :precondition (and (at ?t ?p) (at ?k ?p) {free})
    :effect (and (in ?k ?t) (full ?t) (not (at ?k ?p)) (increase (total-cost) 1)))
  (:action unload :parameters (?t - truck ?k - package ?p - place) :precondition (and (at ?t ?p) (in ?k ?t))
    :effect (and (at ?k ?p) (not (full ?t)) (not (in ?k ?t)) (increase (total-cost) 1))))
"""
PLAIN = TRUCKS.format(predicate="", derived="", drive="", free="(not (full ?t))")
READY = "\n  (:derived (ready ?t - truck) (not (full ?t)))"
DERIVED = TRUCKS.format(predicate=" (ready ?t - truck)", derived=READY, drive="", free="(ready ?t)")
EXISTS = TRUCKS.format(predicate="", derived="", drive=" (exists (?u - truck) (at ?u ?a))", free="(not (full ?t))")
STEPS = 100_000


def blocks(chance):
    """10,000 blocks on the table, and a plan that stacks two of them and takes them apart again and again."""
    names = [f"b{number}" for number in range(10_000)]
    init = "\n".join(f"(block {name}) (ontable {name}) (clear {name})" for name in names)
    goal = " ".join(f"(ontable {name})" for name in names[:500])
    problem = f"(define (problem p) (:domain blocks) (:objects {' '.join(names)})\n(:init {init} (handempty))\n(:goal (and {goal})))\n"
    plan = []
    while len(plan) < STEPS:
        a, b = chance.sample(names, 2)
        plan += [f"(pick-up {a})", f"(stack {a} {b})", f"(unstack {a} {b})", f"(put-down {a})"]
    return problem, plan


def trucks(chance):
    """100 trucks, 4,900 packages and 5,000 places, each with three roads; a plan that drives, loads and unloads; its cost."""
    vans, packs, places = ([f"{kind}{number}" for number in range(many)] for kind, many in (("t", 100), ("k", 4900), ("p", 5000)))
    roads = {place: {to: chance.randint(1, 99) for to in chance.sample(places, 3) if to != place} for place in places}
    at = {thing: chance.choice(places) for thing in vans + packs}
    init = "\n".join(f"(road {a} {b}) (= (length {a} {b}) {far})" for a, ways in roads.items() for b, far in ways.items())
    init += "\n" + "\n".join(f"(at {thing} {place})" for thing, place in at.items())
    lying, held, plan, cost = {}, {}, [], 0
    for pack in packs:
        lying.setdefault(at[pack], []).append(pack)
    while len(plan) < STEPS:
        van = chance.choice(vans)
        here = at[van]
        if van in held and chance.random() < 0.5:
            pack = held.pop(van)
            lying.setdefault(here, []).append(pack)
            plan.append(f"(unload {van} {pack} {here})")
            cost += 1
        elif van not in held and lying.get(here):
            pack = held[van] = lying[here].pop()
            plan.append(f"(load {van} {pack} {here})")
            cost += 1
        else:
            at[van] = chance.choice(sorted(roads[here]))
            plan.append(f"(drive {van} {here} {at[van]})")
            cost += roads[here][at[van]]
    objects = f"{' '.join(vans)} - truck {' '.join(packs)} - package {' '.join(places)} - place"
    problem = (f"(define (problem p) (:domain trucks) (:objects {objects})\n(:init {init} (= (total-cost) 0))\n"
               f"(:goal (at t0 {at['t0']}))\n(:metric minimize (total-cost)))\n")
    return problem, plan, cost


def rows():
    """Each row's name, its domain, problem and plan, and what has to be said of it."""
    chance = random.Random(1)
    table, moves = blocks(chance)
    town, ways, cost = trucks(chance)
    plan, route = "\n".join(moves) + "\n", "\n".join(ways) + "\n"
    yield "blocks", BLOCKS, table, plan, f"valid {STEPS}"
    yield "trucks, types and costs", PLAIN, town, route, f"valid {cost}"
    yield "trucks, a derived atom in a condition", DERIVED, town, route, f"valid {cost}"
    yield "trucks, an exists in a condition", EXISTS, town, route, f"valid {cost}"
    yield "100,000 words", BLOCKS, table, "rubbish\n" * STEPS, "fault plan extra 0"
    yield "100,000 steps, and a line that isn't closed", BLOCKS, table, plan + "(pick-up\n", f"fault plan unclosed {len(plan)}"
    yield "100,000 unknown actions", BLOCKS, table, "(throw b1)\n" * STEPS, "invalid 1 action"
    yield "100,000 unknown objects", BLOCKS, table, "(pick-up x)\n" * STEPS, "invalid 1 object"
    yield "100,000 comments, and a word", BLOCKS, table, "; nothing\n" * STEPS + "x", f"fault plan extra {10 * STEPS}"
    yield "a line of 100,000 lists within lists", BLOCKS, table, "(" * STEPS, "fault plan too-deep 0"
    yield "32 MiB of zeros", BLOCKS, table, "\0" * (32 << 20), "fault plan bad-byte 0"


def timed(words, folder):
    """What a run prints, its seconds of processor time, and the most KiB that it held."""
    with open(folder / "said", "wb") as said:
        child = subprocess.Popen(words, cwd=folder, stdout=said)
        _, _, used = os.wait4(child.pid, 0)
        child.returncode = 0
    return (folder / "said").read_text().split("\n")[0], used.ru_utime + used.ru_stime, used.ru_maxrss


def main():
    if len(sys.argv) not in (2, 3):
        print(__doc__, file=sys.stderr)
        return 2
    program, runs = str(pathlib.Path(sys.argv[1]).resolve()), int(sys.argv[2]) if len(sys.argv) == 3 else 5
    wrong = 0
    with tempfile.TemporaryDirectory(prefix="long-plans-") as made:
        folder = pathlib.Path(made)
        for name, domain, problem, plan, wanted in rows():
            for file, text in (("domain", domain), ("problem", problem), ("plan", plan)):
                (folder / file).write_text(text)
            done = [timed([program, "domain", "problem", "plan"], folder) for _ in range(runs)]
            right = all(said == wanted for said, _, _ in done)
            wrong += not right
            seconds, most = min(it[1] for it in done), max(it[2] for it in done)
            print(f"{name:45} {seconds:6.2f} s {most >> 10:5} MiB  {done[0][0]}{'' if right else f', and not {wanted}'}", flush=True)
    return 1 if wrong else 0


if __name__ == "__main__":
    sys.exit(main())
