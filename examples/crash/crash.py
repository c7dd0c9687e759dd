"""A generator that dies: each process of it ends at its third request, before it answers, as simulators do.

It answers by the request alone, so it may be started again: with --restarts 3 the report is that of one that doesn't die.
Run as: python3 crash.py [MOST]     MOST is how many requests a process answers, and 2 where it is left out
"""
import sys

SPOTS = ["edge", "tray", "table"]       # what the camera sees, in this order


def see(turn):
    """The next spot."""
    return f"yield {SPOTS[turn]}" if turn < len(SPOTS) else "end"


def simulate(spot):
    """Whether a cup stays on the spot. A simulator would be run here."""
    return "yield" if spot == "#table" else "end"


def answer(turn, stream, inputs):
    """The line that answers a request."""
    if stream == "see":
        return see(turn)
    return simulate(inputs[1]) if stream == "simulate" and turn == 0 else "end"


if __name__ == "__main__":
    most = int(sys.argv[1]) if len(sys.argv) > 1 else 2
    for count, line in enumerate(sys.stdin):
        if count == most:
            sys.exit("crash.py: out of memory, it says")
        _, k, stream, *inputs = line.split()
        print(answer(int(k), stream, inputs), flush=True)
