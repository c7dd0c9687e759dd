"""The kitchen: an arm of two links over a sink and a stove, seen from above, and what its streams compute.

Lengths are metres and angles radians. The arm turns about the origin. A pose is a point, a grasp the angle from which
the hand holds, a configuration the angles of shoulder and elbow, and a trajectory a tuple of configurations.
"""
from __future__ import annotations

import math
import random
from typing import Iterator

Point = tuple[float, float]
Conf = tuple[float, float]
Traj = tuple[Conf, ...]

LINKS = (0.60, 0.45)  # upper arm and forearm
REGIONS = {  # least x, least y, greatest x, greatest y
    "sink": (0.45, -0.15, 0.75, 0.15),
    "stove": (-0.75, -0.15, -0.45, 0.15),
}
RADIUS = {"celery": 0.05, "radish": 0.05}
GRIP = 0.07  # from the hand's middle to the food's
GAP = 0.01  # what stays free between two things
STEP = 0.05  # the most that a joint turns from one point of a trajectory to the next
REST: Conf = (1.5, 2.0)
START: dict[str, Point] = {"celery": (-0.20, 0.60), "radish": (0.45, 0.50)}


def sample_pose(food: str, region: str) -> Iterator[tuple[Point]]:
    """Points of the region at which the whole food lies in it."""
    x0, y0, x1, y1 = REGIONS[region]
    r = RADIUS[food]
    for _ in range(3):
        yield (round(random.uniform(x0 + r, x1 - r), 3), round(random.uniform(y0 + r, y1 - r), 3)),


def sample_grasp(food: str) -> list[tuple[float]]:
    """The angles from which the food is held."""
    return [(0.0,), (3.1416,)]


def inverse_kinematics(food: str, pose: Point, grasp: float) -> Iterator[tuple[Conf]]:
    """The configurations whose hand holds the food there, with the elbow to either side."""
    x, y = pose[0] + GRIP * math.cos(grasp), pose[1] + GRIP * math.sin(grasp)
    upper, fore = LINKS
    cosine = (x * x + y * y - upper * upper - fore * fore) / (2 * upper * fore)
    if abs(cosine) > 1:
        return
    for elbow in (-math.acos(cosine), math.acos(cosine)):
        shoulder = math.atan2(y, x) - math.atan2(fore * math.sin(elbow), upper + fore * math.cos(elbow))
        yield (round((shoulder + math.pi / 2) % (2 * math.pi) - math.pi / 2, 4), round(elbow, 4)),


def hand(conf: Conf) -> Point:
    """Where the hand is."""
    shoulder, elbow = conf
    upper, fore = LINKS
    return (
        upper * math.cos(shoulder) + fore * math.cos(shoulder + elbow),
        upper * math.sin(shoulder) + fore * math.sin(shoulder + elbow),
    )


def line(start: Conf, goal: Conf) -> Traj:
    """The joints turn evenly, all the way in small steps."""
    count = max(1, math.ceil(max(abs(b - a) for a, b in zip(start, goal)) / STEP))
    (shoulder, elbow), (turn_by, bend_by) = start, (goal[0] - start[0], goal[1] - start[1])
    parts = [at / count for at in range(count + 1)]
    return tuple((round(shoulder + part * turn_by, 4), round(elbow + part * bend_by, 4)) for part in parts)


def plan_motion(start: Conf, goal: Conf) -> tuple[Traj] | None:
    """The straight way through the joints' angles, where the hand keeps off the arm's base."""
    way = line(start, goal)
    return (way,) if start != goal and all(math.hypot(*hand(conf)) > 0.2 for conf in way) else None


def cfree_pose(food: str, pose: Point, other: str, there: Point) -> bool:
    """Whether the two foods have a gap between them."""
    return math.dist(pose, there) >= RADIUS[food] + RADIUS[other] + GAP


def cfree_traj(way: Traj, other: str, there: Point) -> bool:
    """Whether the hand, and food in it, stays off the other food all the way."""
    return all(math.dist(hand(conf), there) >= GRIP + RADIUS[other] + GAP for conf in way)


def turn(way: Traj) -> int:
    """How far both joints turn, in thousandths of a radian."""
    return round(1000 * sum(abs(b - a) for one, two in zip(way, way[1:]) for a, b in zip(one, two)))
