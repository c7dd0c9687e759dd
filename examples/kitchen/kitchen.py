"""The kitchen: its generator, and its problem as text, both made of one scene.

    python3 kitchen.py scene.json             answers requests
    python3 kitchen.py scene.json --problem   prints the problem

Lengths are metres and angles radians; a pose is `X,Y`, a configuration `SHOULDER,ELBOW`. Where a thing stands at the
start is an object of the problem, `at-carrot`, which the generator knows by its name.
"""
import json
import math
import random
import sys

GAP = 0.01      # between things that stand side by side
REACH = 0.06    # how far the hand's centre is from what it holds
SIDES = {"front": 0.0, "left": math.pi / 2, "right": -math.pi / 2}


class Kitchen:
    """Answers of the streams, each by its inputs and the turn alone."""

    def __init__(self, scene):
        self.scene = scene

    def point(self, name):
        """The numbers behind an object: declared ones by the scene, generated ones by their names."""
        if name.startswith("at-"):
            return tuple(self.scene["food"][name[3:]]["at"])
        x, y = name[1:].split(",")
        return float(x), float(y)

    def radius(self, food):
        return self.scene["food"][food]["radius"]

    def place(self, turn, food, region):
        """A sample of the places where the thing is in the region; the source of chance is made of the request."""
        chance = random.Random(f"place {food} {region} {turn}")
        (x, y), (width, height) = self.scene["regions"][region]["corner"], self.scene["regions"][region]["size"]
        radius = self.radius(food)
        if turn >= 100:
            return None
        x = chance.uniform(x + radius, x + width - radius)
        y = chance.uniform(y + radius, y + height - radius)
        return [f"{x:.3f},{y:.3f}"]

    def grip(self, turn, food):
        """The sides, one after the other."""
        return [list(SIDES)[turn]] if turn < len(SIDES) else None

    def reach(self, turn, food, pose, side):
        """The angles with which the hand is beside the thing, with the elbow to the right and then to the left."""
        (x, y), (bx, by) = self.point(pose), self.scene["base"]
        heading = math.atan2(y - by, x - bx) + SIDES[side[1:]]
        away = REACH + self.radius(food)
        x, y = x - bx - away * math.cos(heading), y - by - away * math.sin(heading)
        upper, fore = self.scene["links"]
        cosine = (x * x + y * y - upper * upper - fore * fore) / (2 * upper * fore)
        if turn > 1 or abs(cosine) > 1:
            return None
        elbow = math.acos(cosine) * (1 if turn == 0 else -1)
        shoulder = math.atan2(y, x) - math.atan2(fore * math.sin(elbow), upper + fore * math.cos(elbow))
        return [f"{shoulder:.3f},{elbow:.3f}"]

    def apart(self, turn, food, pose, other, there):
        """Whether two things keep their gap."""
        wide = self.radius(food) + self.radius(other) + GAP
        return [] if turn == 0 and math.dist(self.point(pose), self.point(there)) >= wide else None

    def answer(self, turn, stream, inputs):
        """The line that answers a request."""
        values = getattr(self, stream)(turn, *inputs)
        return "end" if values is None else " ".join(["yield", *values])


def problem(scene):
    """The problem of a scene, in which what dinner wants is cooked."""
    food, regions = scene["food"], scene["regions"]
    poses = [f"at-{name}" for name in food]
    facts = ["(empty)", "(sink sink)", "(stove stove)"]
    facts += [f"(pose {name} {pose}) (at {name} {pose})" for name, pose in zip(food, poses)]
    facts += [f"(in {name} {pose} {region})" for name, pose in zip(food, poses) for region in regions
              if inside(scene, name, region)]
    goal = " ".join(f"(cooked {name})" for name in scene["dinner"])
    return (f"(define (problem dinner) (:domain kitchen)\n"
            f"  (:objects {' '.join(food)} - food {' '.join(regions)} - region {' '.join(poses)} - pose)\n"
            f"  (:init {chr(10).join(facts).replace(chr(10), chr(10) + '    ')})\n"
            f"  (:goal (and {goal})))")


def inside(scene, food, region):
    """Whether a thing stands in a region at the start."""
    (x, y), (width, height) = scene["regions"][region]["corner"], scene["regions"][region]["size"]
    at = scene["food"][food]["at"]
    return x <= at[0] <= x + width and y <= at[1] <= y + height


if __name__ == "__main__":
    with open(sys.argv[1]) as file:
        kitchen = Kitchen(json.load(file))
    if "--problem" in sys.argv:
        print(problem(kitchen.scene))
    else:
        for line in sys.stdin:
            _, k, stream, *inputs = line.split()
            print(kitchen.answer(int(k), stream, inputs), flush=True)
