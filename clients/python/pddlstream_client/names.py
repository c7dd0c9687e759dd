"""Names of values: what stands for a Python value in a request, an answer and a report.

A text that may stand there as it is names itself. A number, a truth value, None, and a short tuple or list of such are
written out behind `=`, as `=0.25` and `=<0.25,1.5>` (a tuple is bracketed by `<` and `>`). Of all other values the name
is made of the type and of a hash of the content, as `~ndarray-..`. So equal values of one type have one name, whoever
makes it, and no two others share one.
"""
from __future__ import annotations

import ast
import hashlib
import math
import re
import sys
from typing import Any, Hashable

LONGEST = 64
"""The most bytes of a value's name."""

_PLAIN = re.compile(r"[!-~]{1,64}\Z")
_RESERVED = re.compile(r"[()#;@|]|\A[=~]")
_TO_NAME = str.maketrans("()", "<>", " ")
_FROM_NAME = str.maketrans("<>", "()")


def is_plain(text: str) -> bool:
    """Whether the text may stand as a name of its own."""
    return bool(_PLAIN.match(text)) and not _RESERVED.search(text)


def _is_literal(value: Any) -> bool:
    kind = type(value)
    if kind in (tuple, list):
        return len(value) < LONGEST and all(_is_literal(item) for item in value)
    if kind is float:
        return math.isfinite(value)
    return value is None or kind is bool or kind is int and abs(value) < 10**LONGEST


def literal_name(value: object) -> str | None:
    """The value written out, as `=<0.25,1.5>`; None where it isn't made of numbers alone or is too long."""
    if not _is_literal(value):
        return None
    name = "=" + repr(value).translate(_TO_NAME)
    return name if len(name) <= LONGEST else None


def literal_value(name: str) -> Any:
    """The value of a name that `literal_name` gave."""
    return ast.literal_eval(name[1:].translate(_FROM_NAME))


def _joined(tag: str, parts: list[bytes]) -> bytes:
    sized = b"".join(b"%d:" % len(part) + part for part in parts)
    return tag.encode() + b"[" + sized + b"]"


def _array_content(value: Any) -> bytes | None:
    """The content of an array or a scalar of numpy that holds no Python objects."""
    numpy = sys.modules.get("numpy")
    if numpy is None or type(value) is not numpy.ndarray and not isinstance(value, numpy.generic):
        return None
    if value.dtype.hasobject:
        return None
    head = f"{type(value).__name__} {value.dtype.str} {value.shape}"
    return _joined(head, [value.tobytes()])


def _parts(value: Any) -> list[bytes] | None:
    """The contents of a container's members, in an order of their own where the container has none."""
    members = [item for pair in value.items() for item in pair] if type(value) is dict else list(value)
    contents: list[bytes] = []
    for item in members:
        part = _content(item)
        if part is None:
            return None
        contents.append(part)
    if type(value) is dict:
        return sorted(_joined("pair", contents[at : at + 2]) for at in range(0, len(contents), 2))
    return sorted(contents) if type(value) in (set, frozenset) else contents


def _content(value: Any) -> bytes | None:
    kind = type(value)
    if kind is int:
        return _joined("int", [hex(value).encode()])
    if value is None or kind in (bool, float, complex):
        return _joined(kind.__name__, [repr(value).encode()])
    if kind is str:
        return _joined("str", [value.encode("utf-8", "surrogatepass")])
    if kind in (bytes, bytearray):
        return _joined(kind.__name__, [bytes(value)])
    if kind in (tuple, list, set, frozenset, dict):
        parts = _parts(value)
        return None if parts is None else _joined(kind.__name__, parts)
    return _array_content(value)


def content(value: object) -> bytes | None:
    """Bytes that equal values of one type share and no two others; None for a type that isn't known here.

    Known are numbers, texts, bytes, None, truth values, numpy's arrays, and containers of what is known. Every
    not-a-number is the same value.
    """
    try:
        return _content(value)
    except RecursionError:
        return None


def type_word(value: object) -> str:
    """The type's name as a word of letters, digits and `_`, at most 24 of them."""
    return re.sub(r"[^A-Za-z0-9_]", "_", type(value).__name__)[:24]


def hashed_name(value: object, data: bytes) -> str:
    """The name of a value with this content."""
    return f"~{type_word(value)}-{hashlib.sha256(data).hexdigest()[:32]}"


def short_name(value: object) -> str | None:
    """The name of a value that needs no store: a text that is plain, or a literal; else None."""
    if type(value) is str:
        return value if is_plain(value) else None
    return literal_name(value)


def key_of(value: object) -> Hashable:
    """What tells this value from others: its content, else itself where it can be hashed, else which object it is.

    Whoever keeps a key keeps the value too, so that no other object gets its place in memory.
    """
    data = content(value)
    if data is not None:
        return data
    try:
        hash(value)
    except TypeError:
        return ("same object", id(value))
    return (type(value), value)
