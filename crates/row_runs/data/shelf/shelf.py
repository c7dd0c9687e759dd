"""Answers the streams `spot` and `apart`. Run as: python3 shelf.py"""
import sys


def spot(turn, item):
    """The places of an item, from the left: 2, 4, 6 and 8."""
    return [str(2 * turn + 2)] if turn < 4 else None


def apart(turn, item, place, lamp):
    """A place as `#4`; the lamp stands at 0."""
    return [] if turn == 0 and int(place[1:]) > 2 else None


streams = {"spot": spot, "apart": apart}
for line in sys.stdin:
    _, turn, stream, *inputs = line.split()
    values = streams[stream](int(turn), *inputs) if stream in streams else None
    print("end" if values is None else " ".join(["yield", *values]), flush=True)
