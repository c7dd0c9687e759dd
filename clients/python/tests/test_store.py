"""Stores: what is kept in one place is found in another."""
from __future__ import annotations

import os
import threading
import unittest
from dataclasses import dataclass
from fractions import Fraction

from pddlstream_client.store import FileStore, MemoryStore

from .support import InFolder, run_python

try:
    import numpy
except ImportError:
    numpy = None


@dataclass(frozen=True)
class Pose:
    """Equal where its numbers are."""

    x: float
    y: float


class Body:
    """Equal to itself alone."""


class FileStoreTest(InFolder):
    def test_another_store_of_the_folder_finds_each_value(self) -> None:
        values = [
            None,
            "a b",
            "tür",
            b"\0\xff",
            {"a": (1, 2)},
            tuple(range(60)),
            float("inf"),
            Pose(1.0, 2.0),
            Fraction(1, 3),
        ]
        store = FileStore(self.folder)
        names = [store.name_of(value) for value in values]
        self.assertEqual([FileStore(self.folder).value_of(name) for name in names], values)

    def test_another_process_gives_the_same_name_and_finds_the_value(self) -> None:
        script = (
            "import sys\nfrom pddlstream_client.store import FileStore\n"
            "store = FileStore(sys.stdin.readline().strip())\n"
            "print(store.name_of({'b', 'a', 'c'}), store.value_of(sys.stdin.readline().strip()))"
        )
        store = FileStore(self.folder)
        kept = store.name_of({"text": "two words"})
        for hash_seed in ("1", "2"):
            done = run_python(script, f"{self.folder}\n{kept}\n", PYTHONHASHSEED=hash_seed)
            self.assertEqual(done.stdout, f"{store.name_of(set('abc'))} {{'text': 'two words'}}\n", done.stderr)

    def test_plain_texts_and_literals_need_no_file(self) -> None:
        store = FileStore(self.folder / "store")
        for value in ("left", 0.5, (1, 2), None):
            self.assertEqual(store.value_of(store.name_of(value)), value)
        self.assertFalse((self.folder / "store").exists())

    def test_a_value_is_one_whole_file(self) -> None:
        store = FileStore(self.folder)
        self.assertEqual([store.name_of("two words"), store.name_of("two words")], os.listdir(self.folder) * 2)

    def test_what_cannot_be_pickled_is_told(self) -> None:
        with self.assertRaisesRegex(TypeError, "a function can't be kept in a file"):
            FileStore(self.folder).name_of(lambda: None)
        self.assertEqual(os.listdir(self.folder), [])

    def test_a_name_without_a_file_is_told(self) -> None:
        with self.assertRaisesRegex(LookupError, r"~x-0 isn't in the store .*\$PDDLSTREAM_STORE"):
            FileStore(self.folder).value_of("~x-0")

    @unittest.skipIf(numpy is None, "numpy isn't installed: arrays in files aren't tested")
    def test_an_array_is_found(self) -> None:
        array = numpy.arange(12.0).reshape(3, 4)
        found = FileStore(self.folder).value_of(FileStore(self.folder).name_of(array))
        self.assertTrue((found == array).all() and found.dtype == array.dtype)


class MemoryStoreTest(unittest.TestCase):
    def test_equal_values_that_can_be_hashed_are_one(self) -> None:
        store = MemoryStore()
        self.assertEqual(store.name_of(Pose(1, 2)), store.name_of(Pose(1, 2)))
        self.assertNotEqual(store.name_of(Pose(1, 2)), store.name_of(Pose(1, 3)))

    def test_other_objects_are_each_their_own(self) -> None:
        store = MemoryStore()
        bodies = [Body(), Body()]
        self.assertEqual(len({store.name_of(body) for body in bodies + bodies}), 2)

    def test_what_cannot_be_hashed_is_told_by_which_object_it_is(self) -> None:
        store = MemoryStore()
        one, other = [Body()], [Body()]
        self.assertEqual(len({store.name_of(it) for it in (one, other, one)}), 2)

    def test_a_name_that_nobody_gave_is_a_lookup_error(self) -> None:
        with self.assertRaises(LookupError):
            MemoryStore().value_of("left")

    def test_many_threads_name_a_value_once(self) -> None:
        store, bodies, names = MemoryStore(), [Body() for _ in range(50)], []
        threads = [
            threading.Thread(target=lambda: names.append([store.name_of(body) for body in bodies])) for _ in range(8)
        ]
        for thread in threads:
            thread.start()
        for thread in threads:
            thread.join()
        self.assertEqual(names, [names[0]] * 8)
        self.assertEqual(len(set(names[0])), 50)


if __name__ == "__main__":
    unittest.main()
