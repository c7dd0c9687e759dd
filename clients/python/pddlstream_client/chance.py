"""Chance, made anew for each draw, so that every worker draws the same."""
from __future__ import annotations

import hashlib
import random
import sys
from contextlib import contextmanager, nullcontext
from contextvars import ContextVar
from typing import Iterator

_source: ContextVar[random.Random] = ContextVar("source")


def chance() -> random.Random:
    """The draw's own source: made of the stream, its inputs, how many tuples came before, and the seed.

    It is the one to take where several threads draw at once. `numpy.random.default_rng(chance().getrandbits(64))` makes
    one of numpy's from it. Outside of a draw there is none, which is a LookupError.
    """
    return _source.get()


@contextmanager
def _shared_made_anew(seed: str) -> Iterator[None]:
    """Makes Python's `random` and numpy's `numpy.random` anew for what happens inside, and puts them back behind it."""
    numpy = sys.modules.get("numpy")
    before = random.getstate(), numpy.random.get_state() if numpy is not None else None
    random.seed(seed)
    if numpy is not None:
        numpy.random.seed(int.from_bytes(hashlib.sha256(seed.encode()).digest()[:4], "big"))
    try:
        yield
    finally:
        random.setstate(before[0])
        if numpy is not None:
            numpy.random.set_state(before[1])


@contextmanager
def draw_of(seed: str, is_alone: bool) -> Iterator[None]:
    """Lets what happens inside draw from sources that are made of the seed.

    `chance()` is such a source always. Where this is the only thread that draws (`is_alone`), so are Python's `random`
    and, where it is imported, numpy's `numpy.random`.
    """
    token = _source.set(random.Random(seed))
    try:
        with _shared_made_anew(seed) if is_alone else nullcontext():
            yield
    finally:
        _source.reset(token)
