"""Stores: which value a name stands for."""
from __future__ import annotations

import functools
import os
import pickle
import tempfile
import threading
from pathlib import Path
from typing import Any, Protocol

from .names import content, hashed_name, key_of, literal_value, short_name, type_word


class Store(Protocol):
    """Names of values, and the values of names. A name is 1 to 64 bytes and has no `#` in front."""

    def name_of(self, value: Any) -> str:
        """The name of the value, which is kept from now on."""

    def value_of(self, name: str) -> Any:
        """The value of the name; LookupError where it isn't kept."""


class FileStore:
    """Keeps values in a folder, a file each, so that every worker finds what another one named.

    Texts that are plain and short tuples of numbers need no file. The others are pickled: whoever can write into the
    folder can run code in those who read it.
    """

    def __init__(self, folder: str | os.PathLike[str]) -> None:
        self.folder = Path(folder)
        self._load = functools.lru_cache(maxsize=1024)(self._read)

    def name_of(self, value: Any) -> str:
        name = short_name(value)
        if name is not None:
            return name
        data = content(value)
        if data is None:
            data = self._pickle(value)
        name = hashed_name(value, data)
        if not (self.folder / name).exists():
            self._write(name, self._pickle(value))
        return name

    def value_of(self, name: str) -> Any:
        if name.startswith("="):
            return literal_value(name)
        return self._load(name) if name.startswith("~") else name

    @staticmethod
    def _pickle(value: Any) -> bytes:
        try:
            return pickle.dumps(value, protocol=4)
        except Exception as error:
            raise TypeError(
                f"a {type(value).__name__} can't be kept in a file ({error}): yield what pickle takes, "
                "or call solve, which keeps any value"
            ) from error

    def _write(self, name: str, pickled: bytes) -> None:
        self.folder.mkdir(parents=True, exist_ok=True)
        with tempfile.NamedTemporaryFile(dir=self.folder, prefix="part-", delete=False) as part:
            try:
                part.write(pickled)
                part.flush()
                os.replace(part.name, self.folder / name)
            except BaseException:
                os.unlink(part.name)
                raise

    def _read(self, name: str) -> Any:
        try:
            pickled = (self.folder / name).read_bytes()
        except FileNotFoundError:
            raise LookupError(
                f"the value {name} isn't in the store {self.folder}: give every worker the same folder, "
                "by serve(.., store=FOLDER) or $PDDLSTREAM_STORE"
            ) from None
        return pickle.loads(pickled)


class MemoryStore:
    """Keeps values in this process, whatever they are. Several threads may use it.

    Values with the same content have one name. Of other types, equal values have one name where they can be hashed, and
    else each object has its own, numbered as they come.
    """

    def __init__(self) -> None:
        self._lock = threading.Lock()
        self._values: dict[str, Any] = {}
        self._numbered: dict[Any, str] = {}

    def name_of(self, value: Any) -> str:
        name = short_name(value)
        with self._lock:
            if name is None:
                data = content(value)
                name = hashed_name(value, data) if data is not None else self._number(value)
            self._values.setdefault(name, value)
        return name

    def value_of(self, name: str) -> Any:
        with self._lock:
            return self._values[name]

    def _number(self, value: Any) -> str:
        key = key_of(value)
        if key not in self._numbered:
            self._numbered[key] = f"~{type_word(value)}-{len(self._numbered) + 1}"
        return self._numbered[key]
