"""Cooks the celery, planned in this process.

usage: python3 run.py [ALGORITHM]
"""
from __future__ import annotations

import sys
from pathlib import Path
from typing import Any

from pddlstream_client import And, PDDLProblem, print_solution, solve

import kitchen
from streams import CELERY_START, RADISH_START, STREAMS

HERE = Path(__file__).parent
TYPES: dict[str, list[Any]] = {
    "food": ["celery", "radish"],
    "region": ["sink", "stove"],
    "pose": [CELERY_START, RADISH_START],
    "conf": [kitchen.REST],
}


def problem() -> PDDLProblem:
    """The celery is to be washed and cooked, and the arm to be at rest again; the radish stands in the way."""
    init = [
        ("HandEmpty",),
        ("CanMove",),
        ("Conf", kitchen.REST),
        ("AtConf", kitchen.REST),
        ("Sink", "sink"),
        ("Stove", "stove"),
        ("Stackable", "celery", "sink"),
        ("Stackable", "celery", "stove"),
        ("Graspable", "celery"),
        ("Pose", "celery", CELERY_START),
        ("AtPose", "celery", CELERY_START),
        ("Obstacle", "radish", RADISH_START),
    ]
    goal = And(("Cooked", "celery"), ("AtConf", kitchen.REST))
    return PDDLProblem((HERE / "domain.pddl").read_text(), {}, (HERE / "stream.pddl").read_text(), STREAMS, init, goal)


if __name__ == "__main__":
    print_solution(solve(problem(), algorithm=(sys.argv[1:] or ["adaptive"])[0], types=TYPES))
