"""The words of a command line of `pddlstream`: why they mean no command."""
from __future__ import annotations

from dataclasses import dataclass

MODES = ("incremental", "focused", "binding", "adaptive")
NUMBERS = {"--calls": (1, 100_000), "--states": (1, 200_000), "--depth": (1, 8), "--workers": (1, 16), "--protocol": (1, 2),
           "--restarts": (0, 1_000)}
FLAGS = ("--optimal",)
TEXTS = {"solve": ["DOMAIN", "PROBLEM", "STREAMS"], "replay": ["DOMAIN", "PROBLEM", "STREAMS", "REPORT"],
         "generate": ["N"], "migrate": ["REPORT"], "deorder": ["DOMAIN", "PROBLEM", "STREAMS", "REPORT"],
         "play": ["DOMAIN", "PROBLEM", "STREAMS", "REPORT", "GRID"]}
OPTIONS: dict[str, list[str]] = {"solve": ["--map", "--algorithm", *NUMBERS, *FLAGS], "replay": ["--states", *FLAGS],
                                 "generate": [], "migrate": [], "deorder": ["--states"], "play": ["--states"]}


@dataclass
class Words:
    """Words as options with their values and what stands beside them."""

    options: list[tuple[str, str | None]]
    others: list[str]


def split_words(command: str, words: list[str]) -> Words:
    """What of the words behind the command are options: all before `--` that begin with `-`, and the values of some."""
    found = Words([], [])
    at = 0
    while at < len(words):
        word = words[at]
        at += 1
        if word == "--":
            found.others += words[at:]
            break
        if not _is_option(word):
            found.others.append(word)
            continue
        name, equals, value = word.partition("=")
        if equals:
            found.options.append((name, value))
        elif _takes_value(command, name) and at < len(words) and not _is_option(words[at]):
            found.options.append((name, words[at]))
            at += 1
        else:
            found.options.append((name, None))
    return found


def _takes_value(command: str, name: str) -> bool:
    return name in OPTIONS[command] and name not in FLAGS


def _is_option(word: str) -> bool:
    return word.startswith("-") and word != "-"


def usage_cause(words: list[str]) -> str | None:
    """The likely reason why words mean no command, or nothing where they mean one."""
    if not words or words[0] not in TEXTS:
        first = f"`{words[0]}`" if words else "nothing"
        return f"the first word is {first}; the commands are {', '.join(TEXTS)}, and there is no help"
    command, texts = words[0], TEXTS[words[0]]
    split = split_words(command, words[1:])
    causes = [_option_cause(command, name, value) for name, value in split.options]
    causes += [_twice(split.options), _missing(command, texts, split.others), _beside_map(split), _beside_mode(split)]
    return next((cause for cause in causes if cause), None)


def _option_cause(command: str, name: str, value: str | None) -> str | None:
    if name not in OPTIONS[command]:
        if command == "solve" and not name.startswith("--"):
            return f"`{name}` is no option: put `--` before the program, since one of its words begins with `-`"
        known = " ".join(OPTIONS[command]) or "none"
        return f"`{name}` is no option of {command}, which has {known}; words of the program stand behind `--`"
    if name in FLAGS:
        return None if value is None else f"`{name}` takes no value"
    if value is None:
        return f"`{name}` has no value"
    if name == "--algorithm" and value not in MODES:
        return f"`{value}` is no mode: {', '.join(MODES)}"
    if name in NUMBERS and not is_number(value, *NUMBERS[name]):
        least, most = NUMBERS[name]
        return f"`{name} {value}`: a number from {least} to {most:,} is due, one to seven digits"
    return None


def is_number(word: str, least: int, most: int) -> bool:
    """Whether a word is one to seven digits with a value from the least to the most."""
    return word.isascii() and word.isdigit() and len(word) <= 7 and least <= int(word) <= most


def _twice(options: list[tuple[str, str | None]]) -> str | None:
    names = [name for name, _ in options]
    return next((f"`{name}` stands twice" for name in names if names.count(name) > 1), None)


def _missing(command: str, texts: list[str], others: list[str]) -> str | None:
    if len(others) < len(texts):
        return f"{texts[len(others)]} is missing: {command} {' '.join(texts)}"
    if command != "solve" and len(others) > len(texts):
        return f"`{others[len(texts)]}` is a word too many: {command} {' '.join(texts)}"
    if command == "generate" and not is_number(others[0], 1, 12):
        return f"`{others[0]}` is no number from 1 to 12"
    return None


def _beside_map(split: Words) -> str | None:
    names = [name for name, _ in split.options]
    if "--map" not in names:
        return None
    if "--workers" in names:
        return "`--workers` stands beside `--map`: the map says how many workers each pool has"
    if len(split.others) > 3:
        return f"the program `{split.others[3]}` stands beside `--map`: the map names the programs"
    return None


def _beside_mode(split: Words) -> str | None:
    mode = dict(split.options).get("--algorithm")
    if ("--optimal", None) in split.options and mode not in (None, "incremental"):
        return f"`--optimal` stands beside `--algorithm {mode}`: incremental mode alone looks for the cheapest plan"
    return None
