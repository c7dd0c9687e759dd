"""Blocks on a line: poses, collisions and distances. Run as: python3 line.py"""
import sys

WIDE = 2


def x_of(pose):
    return int(pose[1:])


for line in sys.stdin:
    _, k, stream, *inputs = line.split()
    if stream == "sample-pose":                    # as a PDDLStream generator function: 0, 1, 2 .. 9
        print(f"yield {k}" if int(k) < 10 else "end", flush=True)
    elif stream == "test-not-collision":           # yes where they do NOT collide
        _, pose, _, other = inputs
        print("yield" if abs(x_of(pose) - x_of(other)) >= WIDE else "end", flush=True)
    elif stream == "distance":                     # a whole number
        print(f"value {100 * x_of(inputs[0])}", flush=True)
