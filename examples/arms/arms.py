"""The generator of the two arms: places on a table, each arm's inverse kinematics, and whether blocks touch.

Lengths are metres and angles radians; a pose is `X,Y` and a configuration `SHOULDER,ELBOW`.
Run as: python3 arms.py
"""
import math
import random
import sys

ZONES = {"left": (-0.60, -0.25), "middle": (-0.15, 0.15), "right": (0.25, 0.60)}    # from one x to another
DEPTH = (0.10, 0.40)                                                                # from one y to another
START = {"at-red": (-0.45, 0.25), "at-blue": (0.45, 0.25)}
BASES = {"west": (-0.55, 0.0), "east": (0.55, 0.0)}
LINKS = (0.38, 0.36)    # upper arm and forearm: across the middle, and no further
SIDE = 0.06             # of a block
GAP = 0.02              # between blocks


def point(name):
    """Where a pose is: a declared one by the table above, a generated one by its name."""
    if name in START:
        return START[name]
    x, y = name[1:].split(",")
    return float(x), float(y)


def place(turn, block, zone):
    """A sample of the places in a zone, 50 at most; the source of chance is made anew of the request."""
    if turn >= 50:
        return None
    chance = random.Random(f"place {block} {zone} {turn}")
    return [f"{chance.uniform(*ZONES[zone]):.3f},{chance.uniform(*DEPTH):.3f}"]


def reach(turn, arm, block, pose):
    """The angles with the elbow outwards, where the arm is long enough."""
    x, y = point(pose)
    x, y = x - BASES[arm][0], y - BASES[arm][1]
    upper, fore = LINKS
    cosine = (x * x + y * y - upper * upper - fore * fore) / (2 * upper * fore)
    if turn > 0 or abs(cosine) > 1:
        return None
    elbow = math.acos(cosine) * (1 if arm == "west" else -1)
    shoulder = math.atan2(y, x) - math.atan2(fore * math.sin(elbow), upper + fore * math.cos(elbow))
    return [f"{shoulder:.3f},{elbow:.3f}"]


def apart(turn, block, pose, other, there):
    """Whether two blocks keep their gap, whichever way they are turned."""
    return [] if turn == 0 and math.dist(point(pose), point(there)) >= SIDE * math.sqrt(2) + GAP else None


def answer(turn, stream, inputs):
    """The line that answers a request."""
    values = {"place": place, "reach": reach, "apart": apart}[stream](turn, *inputs)
    return "end" if values is None else " ".join(["yield", *values])


if __name__ == "__main__":
    for line in sys.stdin:
        _, k, stream, *inputs = line.split()
        print(answer(int(k), stream, inputs), flush=True)
