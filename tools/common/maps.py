"""Maps: which program answers which stream, and what is wrong with a map."""
from __future__ import annotations

import json
from dataclasses import dataclass

MOST_WORKERS = 16


@dataclass
class MapPool:
    """A program with its words, and the streams that it answers."""

    run: list[str]
    workers: int
    streams: list[str]


@dataclass
class MapFault:
    """The first fault of a map: its kind as the program tells it, and where it is, in words."""

    kind: str
    where: str


def pools_of(text: str) -> list[MapPool]:
    """The pools of a map. A ValueError says of one that has no such form what is wrong."""
    made = json.loads(text)
    shape = _top_fault(made)
    if shape:
        raise ValueError(shape)
    return [MapPool(one["run"], one.get("workers", 1), [name.lower() for name in one["streams"]])
            for one in made["pools"]]


def map_fault(data: bytes, streams: list[str]) -> MapFault | None:
    """The first fault of a map for these streams, in the order in which the program tells faults."""
    try:
        text = data.decode("utf-8")
        made = json.loads(text)
    except UnicodeDecodeError as error:
        return MapFault("json", f"byte {error.start} is no UTF-8")
    except json.JSONDecodeError as error:
        return MapFault("json", f"line {error.lineno}, column {error.colno}: {error.msg}")
    shape = _top_fault(made)
    if shape:
        return MapFault("shape", shape)
    return _workers_fault(made["pools"]) or _streams_fault(pools_of(text), streams)


def _top_fault(made: object) -> str | None:
    if not isinstance(made, dict):
        return "the map is no object { .. }"
    if list(made) != ["pools"]:
        return f"the map has the keys {', '.join(made) or '(none)'}; `pools` alone is due"
    if not isinstance(made["pools"], list):
        return "`pools` is no list [ .. ]"
    found = (_pool_fault(number, pool) for number, pool in enumerate(made["pools"], 1))
    return next((fault for fault in found if fault), None)


def _pool_fault(number: int, pool: object) -> str | None:
    here = f"pool {number}"
    if not isinstance(pool, dict):
        return f"{here} is no object {{ .. }}"
    strange = [key for key in pool if key not in ("run", "workers", "streams")]
    if strange:
        return f"{here} has the key `{strange[0]}`; run, workers and streams are known"
    for key in ("run", "streams"):
        if not _is_words(pool.get(key)):
            return f"{here}: `{key}` is no list of words, or an empty one"
    if len(pool["run"]) > 64:
        return f"{here}: `run` has {len(pool['run'])} words, and 64 are the most"
    if type(pool.get("workers", 1)) is not int:
        return f"{here}: `workers` is no integer"
    if pool["run"][0] == "@grid" and len(pool["run"]) != 2:
        return f"{here}: `@grid` has one file behind it"
    return None


def _is_words(value: object) -> bool:
    return isinstance(value, list) and bool(value) and all(isinstance(word, str) for word in value)


def _workers_fault(pools: list[dict]) -> MapFault | None:
    together, grids = 0, 0
    for number, pool in enumerate(pools, 1):
        count, is_grid = pool.get("workers", 1), pool["run"][0] == "@grid"
        grids += is_grid
        together += 0 if is_grid else count
        if not 1 <= count <= (1 if is_grid else MOST_WORKERS):
            return MapFault("workers", f"pool {number} has {count} workers")
        if grids > 1 or together > MOST_WORKERS:
            many = f"with it there are {together} workers, and {MOST_WORKERS} are the most"
            return MapFault("workers", f"pool {number}: {'a second @grid' if grids > 1 else many}")
    return None


def _streams_fault(pools: list[MapPool], streams: list[str]) -> MapFault | None:
    named = [(number, name) for number, pool in enumerate(pools, 1) for name in pool.streams]
    for number, name in named:
        if name not in streams:
            return MapFault("unknown", f"pool {number} names `{name}`, which is no stream of the task: "
                                       f"{', '.join(streams) or 'it has none'}")
    seen: dict[str, int] = {}
    for number, name in named:
        if name in seen:
            return MapFault("doubled", f"pool {number} names `{name}`, which stands in pool {seen[name]} already")
        seen[name] = number
    missing = [name for name in streams if name not in seen]
    return MapFault("unserved", f"no pool names {', '.join(missing)}") if missing else None
