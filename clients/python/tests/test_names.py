"""Names of values: which are one object and which aren't, and that names have the protocol's form."""
from __future__ import annotations

import re
import unittest

from pddlstream_client.names import content, is_plain, literal_name, literal_value
from pddlstream_client.store import MemoryStore

try:
    import numpy
except ImportError:
    numpy = None

VALUE = re.compile(r"[!-~]{1,64}\Z")
RESERVED = set("();#@|")

ODD_VALUES = [
    None,
    True,
    False,
    0,
    1,
    -1,
    10**70,
    0.5,
    -0.0,
    1e-300,
    float("inf"),
    float("nan"),
    1j,
    "",
    "a b",
    "tür",
    "x" * 65,
    "a#b",
    "~x",
    "=1",
    "\ud800",
    b"bytes",
    bytearray(b"more"),
    (),
    (1,),
    (1.5, 2),
    [1, 2],
    [[]],
    {"a": [1, 2]},
    {1, 2},
    frozenset("ab"),
    tuple(range(100)),
    object(),
    lambda: None,
    NotImplementedError("x"),
]


class NamesTest(unittest.TestCase):
    def test_each_name_has_the_form_of_a_value(self) -> None:
        store = MemoryStore()
        for value in ODD_VALUES:
            name = store.name_of(value)
            self.assertRegex(name, VALUE)
            self.assertFalse(RESERVED & set(name), name)

    def test_values_of_other_type_or_content_have_other_names(self) -> None:
        store = MemoryStore()
        names = [store.name_of(value) for value in ODD_VALUES]
        self.assertEqual(len(set(names)), len(names))

    def test_each_name_leads_to_its_value(self) -> None:
        store = MemoryStore()
        for value in ODD_VALUES:
            self.assertIs(store.value_of(store.name_of(value)), value)

    def test_a_plain_text_names_itself(self) -> None:
        for text in ("left", "0.25,1.5", "A-b_c", "x" * 64):
            self.assertTrue(is_plain(text))
            self.assertEqual(MemoryStore().name_of(text), text)

    def test_texts_with_reserved_bytes_or_marks_are_not_plain(self) -> None:
        for text in ("", "a b", "a#b", "(", ")", ";", "a@b", "a|b", "tür", "x" * 65, "~a", "=a", "a\n"):
            self.assertFalse(is_plain(text), text)

    def test_numbers_and_short_tuples_are_written_out(self) -> None:
        self.assertEqual(literal_name(0.25), "=0.25")
        self.assertEqual(literal_name((0.25, -1.5)), "=<0.25,-1.5>")
        self.assertEqual(literal_name([(1, 2), None]), "=[<1,2>,None]")
        self.assertEqual(literal_name((True,)), "=<True,>")

    def test_what_is_written_out_is_read_back(self) -> None:
        for value in (0.1 + 0.2, -0.0, 7, (0.25, (1, [2.5, None])), [], (), (3,), True):
            name = literal_name(value)
            assert name is not None
            self.assertEqual(repr(literal_value(name)), repr(value))

    def test_texts_infinities_and_long_tuples_are_not_written_out(self) -> None:
        for value in ("a", ("a", 1), float("nan"), (float("inf"),), tuple(range(50)), 10**70, b"x", {1: 2}):
            self.assertIsNone(literal_name(value), value)

    def test_equal_contents_made_twice_have_one_name(self) -> None:
        pairs = [
            ("tür", "tü" + "r"),
            ({"a": 1, "b": [2]}, {"b": [2], "a": 1}),
            ({"x", "y", "z"}, {"z", "y", "x"}),
            (tuple(range(99)), tuple(list(range(99)))),
            (float("nan"), -float("nan") * 0),
        ]
        for one, other in pairs:
            self.assertEqual(MemoryStore().name_of(one), MemoryStore().name_of(other))

    def test_containers_are_told_apart_by_how_they_nest(self) -> None:
        self.assertNotEqual(content(("ab", "c")), content(("a", "bc")))
        self.assertNotEqual(content([["a"], "b"]), content([["a", "b"]]))
        self.assertNotEqual(content({"a": "b"}), content({"b": "a"}))
        self.assertNotEqual(content(("a",)), content(["a"]))

    def test_a_list_that_holds_itself_has_no_content(self) -> None:
        loop: list[object] = []
        loop.append(loop)
        self.assertIsNone(content(loop))


@unittest.skipIf(numpy is None, "numpy isn't installed: values that are arrays aren't tested")
class ArrayNamesTest(unittest.TestCase):
    def test_equal_arrays_have_one_name(self) -> None:
        one, other = MemoryStore(), MemoryStore()
        self.assertEqual(one.name_of(numpy.array([1.0, 2.0])), other.name_of(numpy.array([1.0, 2.0])))
        self.assertEqual(
            one.name_of(numpy.arange(6).reshape(2, 3).T), other.name_of(numpy.array([[0, 3], [1, 4], [2, 5]]))
        )

    def test_shape_and_kind_of_numbers_tell_arrays_apart(self) -> None:
        store = MemoryStore()
        arrays = [
            numpy.zeros(4),
            numpy.zeros((2, 2)),
            numpy.zeros(4, dtype="f4"),
            numpy.zeros(4, dtype="i8"),
            numpy.float64(0),
        ]
        self.assertEqual(len({store.name_of(array) for array in arrays}), len(arrays))

    def test_an_array_of_objects_has_no_content(self) -> None:
        self.assertIsNone(content(numpy.array([object()])))


if __name__ == "__main__":
    unittest.main()
