"""The generator of the bin: proposes grasps of an item in batches, as a network does that sees a picture, and tests them.

Lengths are metres; a grasp is an angle in degrees, `#060`, at which two fingers close on the item from both sides.
Run as: python3 bin.py [MOST]     MOST is how many grasps a line may have, 1 to 16, and 1 where it is left out;
                                  with more than one the planner has to run with --protocol 2
"""
import math
import sys

BIN = (0.40, 0.30)                        # its size; the corner is the origin
ITEMS = {                                 # where each lies, and its radius
    "can": (0.05, 0.15, 0.034),
    "jar": (0.16, 0.09, 0.045),
    "tin": (0.06, 0.25, 0.040),
    "cap": (0.05, 0.08, 0.010),
}
FINGER = 0.010                            # the radius of a finger
ANGLES = range(0, 180, 15)


def fingers(item, angle):
    """Where both fingers stand."""
    x, y, radius = ITEMS[item]
    reach = radius + FINGER
    across, up = reach * math.cos(math.radians(angle)), reach * math.sin(math.radians(angle))
    return [(x + across, y + up), (x - across, y - up)]


def others(item):
    """What else lies in the bin."""
    return [place for name, place in ITEMS.items() if name != item]


def score(item, angle):
    """How good a grasp looks: how far its fingers are from the middles of all else, sizes and walls left aside."""
    return min(math.dist(finger, other[:2]) for finger in fingers(item, angle) for other in others(item))


def batch(item):
    """All grasps of an item, the best first. A network would be run here: once for many grasps, and not for each."""
    return sorted(ANGLES, key=lambda angle: (-round(score(item, angle), 6), angle))


def propose(turn, most, item):
    """The grasps from this one on, as many as a line may have, with `|` between them."""
    grasps = batch(item)[turn:turn + most]
    return " ".join(["yield", " | ".join(f"{angle:03}" for angle in grasps)]) if grasps else "end"


def free(item, grasp):
    """Whether the fingers touch nothing else and stay within the bin."""
    for x, y in fingers(item, int(grasp[1:])):
        if not (FINGER <= x <= BIN[0] - FINGER and FINGER <= y <= BIN[1] - FINGER):
            return "end"
        if any(math.dist((x, y), other[:2]) < FINGER + other[2] for other in others(item)):
            return "end"
    return "yield"


def answer(turn, stream, inputs, most):
    """The line that answers a request."""
    if stream == "propose":
        return propose(turn, most, *inputs)
    return free(*inputs) if stream == "free" and turn == 0 else "end"


if __name__ == "__main__":
    most = int(sys.argv[1]) if len(sys.argv) > 1 else 1
    for line in sys.stdin:
        _, k, stream, *inputs = line.split()
        print(answer(int(k), stream, inputs, most), flush=True)
