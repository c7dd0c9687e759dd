"""The generator of the tray: samples places for cups, tests collisions, solves the arm's inverse kinematics.

Lengths are metres and angles radians; a pose is `X,Y` and a configuration `SHOULDER,ELBOW`, as in `#0.132,0.207`.
Run as: python3 tray.py
"""
import math
import random
import sys

TRAY = (0.45, 0.30)                       # its size; the corner is the origin
RADIUS = {"mug": 0.045, "glass": 0.035}   # of each cup
BOTTLE = (0.20, 0.085, 0.04)              # where it stands, and its radius
BASE = (0.20, -0.15)                      # of the arm
LINKS = (0.30, 0.25)                      # its upper arm and its forearm
REST = (math.pi / 2, 0.0)                 # its angles before each movement
GAP = 0.01                                # between things that stand side by side


def point(name):
    """The numbers of a pose or a configuration: `#0.132,0.207`."""
    x, y = name[1:].split(",")
    return float(x), float(y)


def place(turn, cup):
    """A sample of the places where the whole cup is on the tray. The source of chance is made anew of the request."""
    chance = random.Random(f"place {cup} {turn}")
    r = RADIUS[cup]
    x = chance.uniform(r, TRAY[0] - r)
    y = chance.uniform(r, TRAY[1] - r)
    return [f"{x:.3f},{y:.3f}"]


def clear(turn, cup, pose):
    """Whether the cup keeps its gap to the bottle."""
    x, y = point(pose)
    wide = RADIUS[cup] + BOTTLE[2] + GAP
    return [] if turn == 0 and math.dist((x, y), BOTTLE[:2]) >= wide else None


def apart(turn, cup, pose, other, there):
    """Whether two cups keep their gap."""
    wide = RADIUS[cup] + RADIUS[other] + GAP
    return [] if turn == 0 and math.dist(point(pose), point(there)) >= wide else None


def reach(turn, cup, pose):
    """The angles with which the hand is at the pose: first with the elbow to the right, then to the left."""
    x, y = point(pose)
    x, y = x - BASE[0], y - BASE[1]
    upper, fore = LINKS
    cosine = (x * x + y * y - upper * upper - fore * fore) / (2 * upper * fore)
    if turn > 1 or abs(cosine) > 1:
        return None
    elbow = math.acos(cosine) * (1 if turn == 0 else -1)
    shoulder = math.atan2(y, x) - math.atan2(fore * math.sin(elbow), upper + fore * math.cos(elbow))
    return [f"{shoulder:.3f},{elbow:.3f}"]


def turn_cost(turn, pose, conf):
    """How far the joints turn from rest, in thousandths of a radian."""
    shoulder, elbow = point(conf)
    return round(1000 * (abs(shoulder - REST[0]) + abs(elbow - REST[1])))


def answer(turn, stream, inputs):
    """The line that answers a request."""
    if stream == "turn":
        return f"value {turn_cost(turn, *inputs)}"
    streams = {"place": place, "clear": clear, "apart": apart, "reach": reach}
    values = streams[stream](turn, *inputs) if stream in streams else None
    return "end" if values is None else " ".join(["yield", *values])


if __name__ == "__main__":
    for line in sys.stdin:
        _, k, stream, *inputs = line.split()
        print(answer(int(k), stream, inputs), flush=True)
