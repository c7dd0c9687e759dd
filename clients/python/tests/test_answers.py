"""Answers: each depends on its request alone, and has a form that the protocol allows."""
from __future__ import annotations

import random
import unittest
from typing import Any, Iterator

from pddlstream_client import chance, from_cost_fn, from_fn, from_gen_fn, from_list_fn, from_sampler, from_test
from pddlstream_client.answers import Request, Responder
from pddlstream_client.store import MemoryStore

try:
    import numpy
except ImportError:
    numpy = None


def responder(streams: dict[str, Any], **options: Any) -> Responder:
    return Responder(streams, MemoryStore(), **options)


def drawn() -> Iterator[tuple[float]]:
    while True:
        yield (random.random(),)


class AnswersTest(unittest.TestCase):
    def test_a_generator_function_gives_one_tuple_after_the_other(self) -> None:
        asked = responder({"grip": from_gen_fn(lambda item: (("left", item), ("right", item)))})
        self.assertEqual(
            [asked.answer(f"next {k} grip cup\n") for k in range(3)], ["yield left cup", "yield right cup", "end"]
        )

    def test_none_among_the_tuples_is_passed_over(self) -> None:
        asked = responder({"grip": from_gen_fn(lambda: iter([None, ("a",), None, ("b",), None]))})
        self.assertEqual([asked.answer(f"next {k} grip") for k in range(3)], ["yield a", "yield b", "end"])

    def test_a_function_gives_one_tuple_or_none(self) -> None:
        asked = responder({"double": from_fn(lambda word: (word * 2,) if word == "a" else None)})
        self.assertEqual(
            [asked.answer(line) for line in ("next 0 double a", "next 1 double a", "next 0 double b")],
            ["yield aa", "end", "end"],
        )

    def test_a_list_function_gives_its_tuples_one_a_line(self) -> None:
        asked = responder({"all": from_list_fn(lambda: [("a",), ("b",)]), "no": from_list_fn(lambda: None)})
        self.assertEqual(
            [asked.answer(line) for line in ("next 0 all", "next 1 all", "next 2 all", "next 0 no")],
            ["yield a", "yield b", "end", "end"],
        )

    def test_a_test_holds_or_ends(self) -> None:
        asked = responder({"clear": from_test(lambda word: word == "a")})
        self.assertEqual(
            [asked.answer(line) for line in ("next 0 clear a", "next 1 clear a", "next 0 clear b")],
            ["yield", "end", "end"],
        )

    def test_a_sampler_is_called_as_often_as_it_may_be(self) -> None:
        asked = responder({"once": from_sampler(lambda: ("a",), max_attempts=2), "more": from_sampler(lambda: ("a",))})
        self.assertEqual([asked.answer(f"next {k} once") for k in range(3)], ["yield a", "yield a", "end"])
        self.assertEqual(asked.answer("next 40 more"), "yield a")

    def test_a_cost_is_a_whole_number_or_none(self) -> None:
        costs = {"a": 7, "b": 0, "c": 1_000_000, "d": None}
        asked = responder({"turn": from_cost_fn(costs.get)})
        self.assertEqual(
            [asked.answer(f"next 0 turn {word}") for word in "abcd"], ["value 7", "value 0", "value 1000000", "end"]
        )

    def test_a_cost_that_the_planner_does_not_take_is_told(self) -> None:
        for cost, error in (
            (1.5, TypeError),
            (True, TypeError),
            ("7", TypeError),
            (-1, ValueError),
            (1_000_001, ValueError),
        ):
            with self.assertRaises(error):
                responder({"turn": from_cost_fn(lambda: cost)}).answer("next 0 turn")

    def test_inputs_arrive_as_the_objects_that_outputs_were(self) -> None:
        seen: list[Any] = []
        value = {"way": [1.5, None], "name": "Tür"}
        asked = responder(
            {"plan": from_fn(lambda: (value,)), "look": from_test(lambda *it: seen.append(it) or True)},
            objects={"q0": (0.0, 1.0)},
        )
        name = asked.answer("next 0 plan").split()[1]
        asked.answer(f"next 0 look #{name} q0 cup")
        self.assertEqual(seen, [(value, (0.0, 1.0), "cup")])
        self.assertIs(seen[0][0], value)

    def test_capital_letters_of_a_stream_do_not_count(self) -> None:
        self.assertEqual(responder({"Sample-Pose": from_fn(lambda: ("a",))}).answer("next 0 sample-pose"), "yield a")
        with self.assertRaisesRegex(ValueError, "two streams are named grip"):
            responder({"grip": from_fn(lambda: ("a",)), "Grip": from_fn(lambda: ("b",))})

    def test_what_is_no_tuple_is_told(self) -> None:
        for outputs in ("left", 0.5, {"a"}, iter(())):
            with self.assertRaisesRegex(TypeError, r"one output is `\(value,\)`"):
                responder({"grip": from_fn(lambda: outputs)}).answer("next 0 grip")

    def test_generators_at_the_wrong_place_are_told(self) -> None:
        with self.assertRaisesRegex(TypeError, "a function that yields is made a stream by from_gen_fn"):
            responder({"grip": from_fn(lambda: iter([("a",)]))}).answer("next 0 grip")
        with self.assertRaisesRegex(TypeError, "the function gave None: it yields its tuples"):
            responder({"grip": from_gen_fn(lambda: None)}).answer("next 0 grip")

    def test_values_of_every_kind_make_a_line_that_the_protocol_allows(self) -> None:
        values = ["Tür ☃", "two words", "", "x" * 100_000, "a\nb", "\0", 0.1, 10**100, float("nan"), b"\xff", [], {}, None]
        asked = responder({"any": from_list_fn(lambda: [(value,) for value in values])})
        for turn, value in enumerate(values):
            line = asked.answer(f"next {turn} any")
            self.assertRegex(line, r"\Ayield [!-~]{1,64}\Z")
            self.assertFalse(set(line[6:]) & set("();#@|"))
            self.assertIs(type(asked.value_of(f"#{line[6:]}")), type(value))

    @unittest.skipIf(numpy is None, "numpy isn't installed: its scalars aren't tested")
    def test_scalars_of_numpy_are_taken(self) -> None:
        asked = responder(
            {
                "angle": from_fn(lambda: (numpy.float64(0.5),)),
                "clear": from_test(lambda: numpy.bool_(True)),
                "turn": from_cost_fn(lambda: numpy.int64(7)),
            }
        )
        name = asked.answer("next 0 angle").split()[1]
        self.assertEqual((type(asked.value_of(f"#{name}")), asked.value_of(f"#{name}")), (numpy.float64, 0.5))
        self.assertEqual([asked.answer("next 0 clear"), asked.answer("next 0 turn")], ["yield", "value 7"])

    def test_another_number_of_outputs_is_told_where_it_is_known(self) -> None:
        with self.assertRaisesRegex(ValueError, "grip gave 2 values, and its number of outputs is 1"):
            responder({"grip": from_fn(lambda: (1, 2))}, widths={"grip": 1}).answer("next 0 grip")

    def test_a_stream_that_is_not_there_is_told(self) -> None:
        with self.assertRaisesRegex(LookupError, "no stream grab is here; there are: grip"):
            responder({"grip": from_fn(lambda: ("a",))}).answer("next 0 grab cup")

    def test_a_plain_function_is_no_stream(self) -> None:
        with self.assertRaisesRegex(TypeError, "grip is a function: make it by from_gen_fn"):
            responder({"grip": lambda: iter([("a",)])})

    def test_a_line_that_is_no_request_is_told(self) -> None:
        for line in ("", "next", "next 0", "next -1 grip", "next x grip", "last 0 grip", "next ² grip"):
            with self.assertRaisesRegex(ValueError, "no request"):
                Request.of_line(line)


class ChanceTest(unittest.TestCase):
    REQUESTS = [
        f"next {turn} {stream} {item}" for stream in ("place", "other") for item in ("cup", "pan") for turn in range(4)
    ]

    def answers(self, streams: dict[str, Any], requests: list[str], **options: Any) -> dict[str, str]:
        asked = responder(streams, **options)
        return {line: asked.answer(line) for line in requests}

    def test_each_answer_is_the_same_in_whatever_order_workers_are_asked(self) -> None:
        streams = {"place": from_gen_fn(lambda item: drawn()), "other": from_sampler(lambda item: (chance().random(),))}
        whole = self.answers(streams, self.REQUESTS)
        for order in range(5):
            mixed = random.Random(order).sample(self.REQUESTS, len(self.REQUESTS))
            self.assertEqual(self.answers(streams, mixed), whole)
            random.seed(99)
            self.assertEqual(self.answers(streams, mixed[::2]), {line: whole[line] for line in mixed[::2]})

    def test_instances_and_turns_draw_differently(self) -> None:
        whole = self.answers(
            {"place": from_gen_fn(lambda item: drawn()), "other": from_gen_fn(lambda item: drawn())}, self.REQUESTS
        )
        self.assertEqual(len(set(whole.values())), len(self.REQUESTS))

    def test_another_seed_draws_differently(self) -> None:
        streams = {"place": from_gen_fn(lambda item: drawn())}
        answers = [self.answers(streams, ["next 0 place cup"], seed=seed)["next 0 place cup"] for seed in (1, 2, 1)]
        self.assertEqual(answers[0], answers[2])
        self.assertNotEqual(answers[0], answers[1])

    def test_what_else_draws_goes_on_as_if_there_had_been_no_request(self) -> None:
        random.seed(5)
        wanted = [random.random() for _ in range(4)]
        random.seed(5)
        asked = responder({"place": from_gen_fn(lambda item: drawn())})
        for turn, number in enumerate(wanted):
            self.assertEqual(random.random(), number)
            asked.answer(f"next {turn} place cup")

    def test_outside_of_a_draw_there_is_no_chance(self) -> None:
        with self.assertRaises(LookupError):
            chance()

    @unittest.skipIf(numpy is None, "numpy isn't installed: its chance isn't tested")
    def test_chance_of_numpy_is_made_anew_too(self) -> None:
        streams = {"place": from_sampler(lambda item: (float(numpy.random.random()),))}
        requests = [f"next {turn} place cup" for turn in range(4)]
        whole = self.answers(streams, requests)
        numpy.random.seed(5)
        wanted = list(numpy.random.random(2))
        numpy.random.seed(5)
        self.assertEqual(numpy.random.random(), wanted[0])
        self.assertEqual(self.answers(streams, requests[::-1]), whole)
        self.assertEqual(numpy.random.random(), wanted[1])
        self.assertEqual(len(set(whole.values())), 4)


class SecondProtocolTest(unittest.TestCase):
    """The forms that docs/GENERATORS.md and the protocol's definition give: 1 to 16 tuples with `|` between them."""

    def test_a_list_function_tells_up_to_sixteen_tuples_a_line(self) -> None:
        asked = responder({"all": from_list_fn(lambda: [(str(n), "x") for n in range(20)])}, protocol=2)
        first = "yield " + " | ".join(f"{n} x" for n in range(16))
        self.assertEqual(asked.answer("next 0 all"), first)
        self.assertEqual(asked.answer("next 16 all"), "yield 16 x | 17 x | 18 x | 19 x")
        self.assertEqual(asked.answer("next 20 all"), "end")

    def test_no_line_is_longer_than_the_protocol_allows(self) -> None:
        asked = responder({"all": from_list_fn(lambda: [(letter * 64,) * 3 for letter in "abcdefgh"])}, protocol=2)
        lines, turn = [], 0
        while (line := asked.answer(f"next {turn} all")) != "end":
            lines.append(line)
            turn += line.count("|") + 1
        self.assertEqual(turn, 8)
        self.assertTrue(all(len(line) <= 1024 for line in lines))
        self.assertLess(len(lines), 4)

    def test_other_streams_tell_one_tuple_a_line(self) -> None:
        asked = responder(
            {"one": from_gen_fn(lambda: iter([("a",), ("b",)])), "test": from_test(lambda: True)}, protocol=2
        )
        self.assertEqual(
            [asked.answer(line) for line in ("next 0 one", "next 1 one", "next 0 test")],
            ["yield a", "yield b", "yield"],
        )

    def test_tuples_without_values_stand_alone(self) -> None:
        self.assertEqual(responder({"t": from_list_fn(lambda: [(), ()])}, protocol=2).answer("next 0 t"), "yield")

    def test_there_are_two_protocols(self) -> None:
        with self.assertRaisesRegex(ValueError, "protocol is 1 or 2, and not 3"):
            responder({}, protocol=3)


if __name__ == "__main__":
    unittest.main()
