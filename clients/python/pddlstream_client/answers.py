"""Answers to requests, line by line, as docs/GENERATORS.md of the planner defines them."""
from __future__ import annotations

import operator
import reprlib
import threading
from collections.abc import Iterator
from typing import Any, Mapping, NamedTuple

from .chance import draw_of
from .store import Store
from .streams import CostStream, Outputs, Stream

MOST_COST = 1_000_000
"""The greatest cost that the planner takes."""
MOST_TUPLES = 16
"""The most tuples of a line of protocol 2."""
LONGEST_LINE = 1_024
"""The most bytes of a line, without its line feed."""


class Request(NamedTuple):
    """A line `next K STREAM INPUTS`: the answer number `turn`, from 0, of the stream with these inputs."""

    turn: int
    stream: str
    inputs: tuple[str, ...]

    @classmethod
    def of_line(cls, line: str) -> Request:
        """Reads a line; ValueError where it is no request."""
        match line.split():
            case ["next", turn, stream, *inputs] if turn.isascii() and turn.isdigit():
                return cls(int(turn), stream, tuple(inputs))
        raise ValueError(f"no request: {line.strip()!r}")

    @property
    def instance(self) -> str:
        """The stream and its inputs, as one text."""
        return " ".join((self.stream, *self.inputs))


class _Instance:
    """The tuples that one stream instance has given so far, each as the names of its values."""

    def __init__(self) -> None:
        self.lock = threading.Lock()
        self.tuples: list[list[str]] = []
        self.rest: Iterator[Outputs | None] | None = None
        self.has_ended = False


class Responder:
    """Answers requests out of streams. The answer depends on the request alone, whichever requests came before.

    Several threads may ask at once (`is_alone` is False then, and `random` isn't made anew for each draw).

    streams: what answers for each name. Capital letters don't count, as in the planner.
    store: which value a name stands for.
    objects: the values of declared objects; one that isn't among them is its name.
    widths: how many outputs each stream has, where that is known.
    seed: another seed gives other draws.
    protocol: 1 is one tuple a line; with 2 a list function's line has up to 16.
    """

    def __init__(
        self,
        streams: Mapping[str, Stream | CostStream],
        store: Store,
        *,
        objects: Mapping[str, Any] | None = None,
        widths: Mapping[str, int] | None = None,
        seed: object = "",
        protocol: int = 1,
        is_alone: bool = True,
    ) -> None:
        if protocol not in (1, 2):
            raise ValueError(f"protocol is 1 or 2, and not {protocol!r}")
        self._streams = checked_streams(streams)
        self._store = store
        self._objects = dict(objects or {})
        self._widths = dict(widths or {})
        self._seed = str(seed)
        self._most = 1 if protocol == 1 else MOST_TUPLES
        self._is_alone = is_alone
        self._lock = threading.Lock()
        self._instances: dict[str, _Instance] = {}

    def answer(self, line: str) -> str:
        """The line that answers a request. What the stream's function raises comes through."""
        request = Request.of_line(line)
        stream = self._streams.get(request.stream)
        if stream is None:
            raise LookupError(f"no stream {request.stream} is here; there are: {' '.join(self._streams) or 'none'}")
        if isinstance(stream, CostStream):
            return self._cost(stream, request)
        instance = self._instance_of(request)
        with instance.lock:
            self._draw(stream, request, instance)
            told = instance.tuples[request.turn :]
        return tuples_line(told, self._most) if told else "end"

    def give_up(self, line: str) -> str:
        """Ends the instance of a request, and gives the line that says so."""
        instance = self._instance_of(Request.of_line(line))
        with instance.lock:
            instance.has_ended = True
        return "end"

    def value_of(self, word: str) -> Any:
        """The value of an object, a declared one or one with `#` in front."""
        return self._store.value_of(word[1:]) if word.startswith("#") else self._objects.get(word, word)

    def inputs_text(self, line: str) -> str:
        """The values of a request's inputs, where one is another than its name; a long value is cut short."""
        request = Request.of_line(line)
        values = [self.value_of(word) for word in request.inputs]
        if all(isinstance(value, str) and value == word for word, value in zip(request.inputs, values)):
            return ""
        return f"\nwith the inputs ({', '.join(map(reprlib.repr, values))})"

    def _instance_of(self, request: Request) -> _Instance:
        with self._lock:
            return self._instances.setdefault(request.instance, _Instance())

    def _seed_of(self, request: Request, turn: int) -> str:
        return f"{self._seed} {turn} {request.instance}"

    def _draw(self, stream: Stream, request: Request, instance: _Instance) -> None:
        """Draws until the tuple that is asked for is there, or the stream has ended."""
        while not instance.has_ended and len(instance.tuples) <= request.turn:
            with draw_of(self._seed_of(request, len(instance.tuples)), self._is_alone):
                if instance.rest is None:
                    instance.rest = iter(stream.answers(*map(self.value_of, request.inputs)))
                self._take(stream, request, instance, instance.rest)

    def _take(self, stream: Stream, request: Request, instance: _Instance, rest: Iterator[Outputs | None]) -> None:
        """Takes the next tuple, or all of them where they are there."""
        for outputs in rest:
            if outputs is not None:
                instance.tuples.append(self._names(request.stream, outputs))
                if not (stream.is_ready and self._most > 1):
                    return
        instance.has_ended = True

    def _names(self, stream: str, outputs: Outputs) -> list[str]:
        if not isinstance(outputs, (tuple, list)):
            hint = "; a function that yields is made a stream by from_gen_fn" if isinstance(outputs, Iterator) else ""
            raise TypeError(
                f"{stream} gave {outputs!r:.60}: an answer is a tuple of its outputs; one output is `(value,)`{hint}"
            )
        width = self._widths.get(stream, len(outputs))
        if len(outputs) != width:
            raise ValueError(
                f"{stream} gave {len(outputs)} values, and its number of outputs is {width}: {outputs!r:.60}"
            )
        return [self._store.name_of(value) for value in outputs]

    def _cost(self, stream: CostStream, request: Request) -> str:
        with draw_of(self._seed_of(request, 0), self._is_alone):
            cost = stream.cost(*map(self.value_of, request.inputs))
        return "end" if cost is None else f"value {whole_cost(request.stream, cost)}"


def checked_streams(streams: Mapping[str, Stream | CostStream]) -> dict[str, Stream | CostStream]:
    """The streams by their names in lower case. TypeError where one isn't made by a `from_` function."""
    checked: dict[str, Stream | CostStream] = {}
    for name, stream in streams.items():
        if not isinstance(stream, (Stream, CostStream)):
            raise TypeError(
                f"the stream {name} is a {type(stream).__name__}: make it by from_gen_fn, from_list_fn, "
                "from_fn, from_test or from_cost_fn"
            )
        if name.lower() in checked:
            raise ValueError(f"two streams are named {name.lower()}; capital letters don't count")
        checked[name.lower()] = stream
    return checked


def whole_cost(name: str, cost: Any) -> int:
    """The cost as a number that the planner takes; TypeError or ValueError where it is none."""
    try:
        number = operator.index(cost)
    except TypeError:
        number = None
    if number is None or type(cost) is bool:
        raise TypeError(
            f"{name} gave {cost!r:.60}: a cost is a whole number. Of a float write it in a smaller unit, "
            "as round(1000 * cost)"
        )
    if not 0 <= number <= MOST_COST:
        raise ValueError(f"{name} gave {number}: a cost is at least 0 and at most {MOST_COST:,}")
    return number


def tuples_line(tuples: list[list[str]], most: int) -> str:
    """The line that tells the first of these tuples, so many at most; fewer where the line would be too long.

    A tuple without values stands alone, since it can't be told from its neighbour.
    """
    line = " ".join(["yield", *tuples[0]])
    for values in tuples[1:most] if tuples[0] else []:
        longer = " ".join([line, "|", *values])
        if len(longer) > LONGEST_LINE:
            break
        line = longer
    return line
