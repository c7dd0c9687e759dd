"""`solve`: PDDLStream's call, over the planner's program."""
from __future__ import annotations

import math
import os
import shutil
import sys
import tempfile
from contextlib import contextmanager
from pathlib import Path
from typing import Any, Iterable, Iterator, Mapping

from .answers import Responder
from .errors import SamplerError, SolveError
from .faults import fault_of
from .forms import StreamForm
from .host import Host
from .pddl import Group, spelled
from .program import Ended, find_program, run_program
from .refusals import refuse_arguments
from .report import Asked, Report, read_report
from .solution import Action, Certificate, Solution
from .store import MemoryStore
from .streams import CostStream, Stream
from .task import PDDLProblem, Task, task_of

ALGORITHMS = ("adaptive", "binding", "focused", "incremental")
_MOST_PATH = 100


def solve(
    problem: PDDLProblem,
    algorithm: str = "adaptive",
    *,
    max_time: float = math.inf,
    unit_costs: bool = False,
    calls: int | None = None,
    states: int | None = None,
    depth: int | None = None,
    workers: int = 1,
    protocol: int = 1,
    seed: object = "",
    types: Mapping[str, Iterable[Any]] | None = None,
    program: str | os.PathLike[str] | None = None,
    verbose: bool = False,
    keep: str | os.PathLike[str] | None = None,
    **others: Any,
) -> Solution:
    """Plans by the planner's program, and answers its requests from `problem.stream_map` in this process.

    problem: a PDDLProblem, or six values in its order.
    algorithm: `adaptive`, `binding`, `focused` or `incremental`.
    max_time: seconds until program and relays are ended. A function that is running then is let run, in its thread.
    unit_costs: each step costs 1; else what `increase` says, where an action of the domain has one.
    calls, states: the most requests, and the most states of a search; the planner's own where None.
    depth: how often what is supposed may feed what is supposed next; where None, as many as the longest chain of
        streams has, at least 3.
    workers: how many requests are answered at once, each in a thread. With more than one the functions have to bear
        that, and draw from `chance()`.
    protocol: 2 tells up to 16 tuples of a list function in one line.
    seed: another seed gives other draws.
    types: for a domain with :types, the initial values of each type.
    program: the planner; where None, `$PDDLSTREAM` or `pddlstream` on PATH.
    verbose: prints the report as it comes.
    keep: a folder for the texts and the report, which `replay` judges.

    UnsupportedError names what PDDLStream takes and this doesn't. A fault of the planner is a SolveError, of its texts
    a TextError, of a stream's function a SamplerError with what the function raised.
    """
    refuse_arguments(others)
    if algorithm not in ALGORITHMS:
        raise ValueError(f"algorithm is one of {', '.join(ALGORITHMS)}, and not {algorithm!r}")
    found = find_program(program)
    problem = PDDLProblem(*problem)
    problem = problem._replace(init=list(problem.init))
    task = task_of(problem, types, unit_costs)
    responder = _responder(problem.stream_map, task, seed, workers, protocol)
    options = {
        "algorithm": algorithm,
        "calls": calls,
        "states": states,
        "depth": task.depth if depth is None else depth,
        "protocol": None if protocol == 1 else protocol,
    }
    options |= {"workers": workers} if task.forms else {}
    with _folder() as folder:
        ended, host = _run(found, folder, task, options, responder, max_time, verbose)
        _keep(keep, folder, ended.text)
    report = read_report(ended.text)
    _raise_fault(ended, host, task, responder)
    return _solution(problem, task, responder, ended, report)


def _responder(
    stream_map: Mapping[str, Any], task: Task, seed: object, workers: int, protocol: int
) -> Responder:
    """What answers the requests of a task."""
    return Responder(
        _streams_of(stream_map, task.forms),
        MemoryStore(),
        objects=task.objects,
        widths={form.name: len(form.outputs) for form in task.forms.values() if form.value is None},
        seed=seed,
        protocol=protocol,
        is_alone=workers == 1,
    )


def _streams_of(given: Mapping[str, Any], forms: Mapping[str, StreamForm]) -> dict[str, Stream | CostStream]:
    """The streams that the task has, by name; a plain function of a cost stream is taken as one."""
    by_name = {name.lower(): stream for name, stream in given.items()}
    missing = [name for name in forms if name not in by_name]
    if missing:
        raise ValueError(f"stream_map has no {', '.join(missing)}")
    streams: dict[str, Stream | CostStream] = {}
    for name, form in forms.items():
        stream, is_cost = by_name[name], form.value is not None
        if is_cost and callable(stream):
            stream = CostStream(stream)
        if not isinstance(stream, CostStream if is_cost else Stream):
            makers = "from_cost_fn" if is_cost else "from_gen_fn, from_list_fn, from_fn or from_test"
            raise TypeError(f"stream_map[{name!r}] is a {type(stream).__name__}: make it by {makers}")
        streams[name] = stream
    return streams


@contextmanager
def _folder() -> Iterator[Path]:
    """A folder for the texts and the socket, which is gone afterwards. A socket's path has to be short."""
    path = tempfile.mkdtemp(prefix="pddlstream-")
    if len(path) > _MOST_PATH - len("/socket"):
        os.rmdir(path)
        path = tempfile.mkdtemp(prefix="pddlstream-", dir="/tmp")
    try:
        yield Path(path)
    finally:
        shutil.rmtree(path, ignore_errors=True)


def _run(
    found: str,
    folder: Path,
    task: Task,
    options: Mapping[str, Any],
    responder: Responder,
    max_time: float,
    verbose: bool,
) -> tuple[Ended, Host]:
    """Runs the planner with relays as its generators."""
    texts = {"domain.pddl": task.domain, "problem.pddl": task.problem, "streams.pddl": task.streams}
    for name, text in texts.items():
        (folder / name).write_text(text, encoding="utf-8")
    command = [found, "solve", *(str(folder / name) for name in texts)]
    for name, value in options.items():
        command += [] if value is None else [f"--{name}", str(value)]
    socket = str(folder / "socket")
    if task.forms:
        command += ["--", sys.executable or "python3", "-I", "-S", str(Path(__file__).with_name("relay.py")), socket]
    host = Host(socket, responder.answer)
    try:
        tell = (lambda text: print(text, end="", flush=True)) if verbose else None
        return run_program(command, max_time, tell), host
    finally:
        host.close()


def _keep(keep: str | os.PathLike[str] | None, folder: Path, report: str) -> None:
    if keep is not None:
        os.makedirs(keep, exist_ok=True)
        for text in folder.glob("*.pddl"):
            shutil.copy(text, keep)
        Path(keep, "report").write_text(report, encoding="ascii", errors="replace")


def _raise_fault(ended: Ended, host: Host, task: Task, responder: Responder) -> None:
    """Raises what the run's end says, unless it has an outcome or its time was up."""
    failure = host.failure
    if failure is not None:
        last = ended.text.splitlines()[-1:] or ["no line"]
        raised = f"{type(failure.error).__name__}: {failure.error}"
        asked = f"at the request: {failure.request}{responder.inputs_text(failure.request)}"
        raise SamplerError(
            f"{last[0]}: {raised}\n{asked}", ended.text, ended.status, failure.request
        ) from failure.error
    if ended.status not in (None, 0, 1, 2):
        raise fault_of(ended, {"domain": task.domain, "problem": task.problem, "streams": task.streams})
    if ended.status is not None and not ended.text.endswith("\ndone\n"):
        raise SolveError("the program ended without a report: is it the planner?", ended.text, ended.status)


def _solution(problem: PDDLProblem, task: Task, responder: Responder, ended: Ended, report: Report) -> Solution:
    plan = None
    if report.steps is not None and ended.status is not None:
        plan = [Action(name, tuple(map(responder.value_of, args))) for name, *args in report.steps]
    facts = [tuple(fact) for fact in problem.init]
    names = {f"#{value}" for asked in report.asked for values in asked.tuples for value in values}
    for asked in report.asked:
        facts += _certified(asked, task.forms[asked.stream], responder)
    objects = {**task.objects, **{name: responder.value_of(name) for name in sorted(names)}}
    cost = math.inf if plan is None else report.cost
    outcome = "time" if ended.status is None else report.outcome
    return Solution(plan, cost, Certificate(tuple(facts), objects), outcome, ended.text)


def _certified(asked: Asked, form: StreamForm, responder: Responder) -> list[tuple[Any, ...]]:
    """What an answer makes known."""
    terms = dict(zip(form.inputs, map(responder.value_of, asked.inputs)))
    if asked.answer == "value" and form.value is not None:
        return [("=", _fact(form.value, terms, responder), asked.value)]
    facts = []
    for values in asked.tuples:
        terms.update(zip(form.outputs, (responder.value_of(f"#{value}") for value in values)))
        facts += [_fact(atom, terms, responder) for atom in form.certified]
    return facts


def _fact(atom: Group, terms: Mapping[str, Any], responder: Responder) -> tuple[Any, ...]:
    """An atom with values in the place of its variables; its constants have theirs too."""
    head, *words = map(spelled, atom.items)
    return (
        head,
        *(terms[word.lower()] if word.startswith("?") else responder.value_of(word.lower()) for word in words),
    )
