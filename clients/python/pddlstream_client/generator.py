"""`serve`: makes a program a generator of the planner.

Importing this module (as `from pddlstream_client import serve` does) takes standard input and output for the requests
and the answers. From then on what anything else prints, C libraries too, goes to standard error, and a program that is
started here reads nothing. So import it before a library that prints as it is imported.
"""
from __future__ import annotations

import os
import signal
import sys
import traceback
from contextlib import contextmanager
from typing import Any, Iterator, Mapping, TextIO

from .answers import Responder
from .store import FileStore, Store
from .streams import CostStream, Stream

STORE_FOLDER = "pddlstream-store"
"""Where values are kept if neither `store` nor `$PDDLSTREAM_STORE` says it."""


def _take_pipes() -> tuple[TextIO, TextIO]:
    """The pipes to the planner; their usual numbers lead to nothing and to standard error from now on."""
    requests = os.fdopen(os.dup(0), "r", encoding="ascii", errors="replace", newline="\n")
    answers = os.fdopen(os.dup(1), "w", encoding="ascii", newline="\n")
    nothing = os.open(os.devnull, os.O_RDONLY)
    os.dup2(nothing, 0)
    os.close(nothing)
    os.dup2(2, 1)
    if hasattr(sys.stdout, "reconfigure"):
        sys.stdout.reconfigure(line_buffering=True)
    return requests, answers


_requests, _answers = _take_pipes()


def _tell(text: str) -> None:
    print(f"pddlstream_client: {text}", file=sys.stderr, flush=True)


class _Late(BaseException):
    """The time limit of a request has passed. No `except Exception` of a function takes it."""


@contextmanager
def _time_limit(seconds: float | None) -> Iterator[None]:
    """Raises `_Late` inside once so many seconds have passed."""
    if seconds is None:
        yield
        return

    def ring(number: int, frame: Any) -> None:
        raise _Late(f"no answer within {seconds} seconds")

    before = signal.signal(signal.SIGALRM, ring)
    signal.setitimer(signal.ITIMER_REAL, seconds)
    try:
        yield
    finally:
        signal.setitimer(signal.ITIMER_REAL, 0)
        signal.signal(signal.SIGALRM, before)


def _reply(responder: Responder, line: str, seconds: float | None, late: str) -> str | None:
    """The line that answers, or None where the generator has to stop; what went wrong is told on standard error."""
    try:
        with _time_limit(seconds):
            return responder.answer(line)
    except _Late as error:
        _tell(f"{error}, at the request: {line.strip()}")
        if late == "end":
            return responder.give_up(line)
        traceback.print_exc()
    except SystemExit as error:
        _tell(f"the function ended the program (sys.exit: {error.code}), at the request: {line.strip()}")
    except Exception:
        _tell(f"at the request: {line.strip()}")
        traceback.print_exc()
    return None


def _drop_answers() -> None:
    """Lets what is still to be written go nowhere, since nobody reads it."""
    nothing = os.open(os.devnull, os.O_WRONLY)
    os.dup2(nothing, _answers.fileno())
    os.close(nothing)


def serve(
    streams: Mapping[str, Stream | CostStream],
    *,
    objects: Mapping[str, Any] | None = None,
    store: str | os.PathLike[str] | Store | None = None,
    seconds: float | None = None,
    late: str = "stop",
    seed: object = "",
    protocol: int = 1,
) -> None:
    """Answers the planner's requests out of these streams until there are no more.

    streams: for each stream of the task its answers, made by `from_gen_fn` and its like.
    objects: values of objects that the problem declares, by name; of others the functions get the name.
    store: the folder of values that are no short texts; `$PDDLSTREAM_STORE`, or `pddlstream-store`, where it is None.
    seconds: a time limit for each request. It needs the main thread of a Unix system.
    late: what becomes of a request that takes longer: `"stop"` ends the generator, and so the run, with a fault;
        `"end"` answers `end`, which says that the instance has nothing more to give.
    seed: another seed gives other draws.
    protocol: 2 tells up to 16 tuples of a list function in one line.

    Where a function raises, the request and the traceback are printed to standard error, and the program ends with 1.
    """
    if late not in ("stop", "end"):
        raise ValueError(f'late is "stop" or "end", and not {late!r}')
    if store is None:
        store = os.environ.get("PDDLSTREAM_STORE", STORE_FOLDER)
    kept = FileStore(store) if isinstance(store, (str, os.PathLike)) else store
    responder = Responder(streams, kept, objects=objects, seed=seed, protocol=protocol)
    try:
        for line in _requests:
            reply = _reply(responder, line, seconds, late)
            if reply is None:
                sys.exit(1)
            print(reply, file=_answers, flush=True)
    except BrokenPipeError:
        _drop_answers()
    except KeyboardInterrupt:
        sys.exit(130)
