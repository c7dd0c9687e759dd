"""Problems in the form of PDDLStream's examples, in each algorithm; each plan is carried out to see what it does."""
from __future__ import annotations

from typing import Any, Iterator, Sequence

from pddlstream_client import And, Equal, PDDLProblem, from_fn, from_gen_fn, from_list_fn, from_test

from .support import ALGORITHMS, InFolder, needs_program, solved

try:
    import numpy
except ImportError:
    numpy = None

LINE_DOMAIN = """
(define (domain pick-and-place)
  (:requirements :strips :equality)
  (:constants @rest)
  (:predicates (Conf ?q) (Block ?b) (Pose ?p) (Kin ?q ?p) (CFree ?p1 ?p2)
    (AtPose ?b ?p) (AtConf ?q) (Holding ?b) (HandEmpty) (CanMove) (Unsafe ?p))
  (:functions (Distance ?q1 ?q2) (total-cost))
  (:action move :parameters (?q1 ?q2)
    :precondition (and (Conf ?q1) (Conf ?q2) (AtConf ?q1) (CanMove))
    :effect (and (AtConf ?q2) (not (AtConf ?q1)) (not (CanMove)) (increase (total-cost) (Distance ?q1 ?q2))))
  (:action pick :parameters (?b ?p ?q)
    :precondition (and (Block ?b) (Kin ?q ?p) (AtConf ?q) (AtPose ?b ?p) (HandEmpty))
    :effect (and (Holding ?b) (CanMove) (not (AtPose ?b ?p)) (not (HandEmpty)) (increase (total-cost) 1)))
  (:action place :parameters (?b ?p ?q)
    :precondition (and (Block ?b) (Kin ?q ?p) (AtConf ?q) (Holding ?b) (not (Unsafe ?p)))
    :effect (and (AtPose ?b ?p) (HandEmpty) (CanMove) (not (Holding ?b)) (increase (total-cost) 1)))
  (:derived (Unsafe ?p) (exists (?b2 ?p2) (and (Pose ?p) (AtPose ?b2 ?p2) (not (CFree ?p ?p2))))))
"""
LINE_STREAMS = """
(define (stream discrete)
  (:stream sample-pose :outputs (?p) :certified (Pose ?p))
  (:stream inverse-kinematics :inputs (?p) :domain (Pose ?p) :outputs (?q) :certified (and (Conf ?q) (Kin ?q ?p)))
  (:stream test-cfree :inputs (?p1 ?p2) :domain (and (Pose ?p1) (Pose ?p2)) :certified (CFree ?p1 ?p2))
  (:function (Distance ?q1 ?q2) (and (Conf ?q1) (Conf ?q2))))
"""


class Line:
    """A robot above a line moves block a to where block b stands. Poses and configurations are tuples of floats."""

    rest = (0.5, 3.0)
    start = {"a": (0.0, 0.0), "b": (1.0, 0.0)}
    goal = (1.0, 0.0)

    def problem(self) -> PDDLProblem:
        init = [
            ("CanMove",),
            ("HandEmpty",),
            ("Conf", self.rest),
            ("AtConf", self.rest),
            Equal(("total-cost",), 0),
            *(("Block", block) for block in self.start),
            *(("Pose", pose) for pose in self.start.values()),
            *(("AtPose", block, pose) for block, pose in self.start.items()),
        ]
        stream_map = {
            "sample-pose": from_gen_fn(lambda: (((float(x), 0.0),) for x in (0, 2))),
            "inverse-kinematics": from_fn(lambda pose: ((pose[0], pose[1] + 1.0),)),
            "test-cfree": from_test(lambda one, other: one != other),
            "Distance": lambda one, other: round(1000 * (abs(one[0] - other[0]) + abs(one[1] - other[1]))),
        }
        goal = And(("AtPose", "a", self.goal), ("AtConf", self.rest))
        return PDDLProblem(LINE_DOMAIN, {"@rest": self.rest}, LINE_STREAMS, stream_map, init, goal)

    def carried_out(self, plan: Sequence[Any]) -> tuple[dict[str, Any], Any, int]:
        """Where the blocks and the robot are after the plan, and what it costs by hand."""
        at, conf, cost = dict(self.start), self.rest, 0
        for name, args in plan:
            if name == "move":
                assert args[0] == conf
                conf, cost = args[1], cost + round(1000 * sum(abs(x - y) for x, y in zip(args[0], args[1])))
            elif name == "pick":
                assert at.pop(args[0]) == args[1] and args[2] == conf == (args[1][0], args[1][1] + 1.0)
                cost += 1
            else:
                assert args[1] not in at.values() and args[2] == conf == (args[1][0], args[1][1] + 1.0)
                at[args[0]], cost = args[1], cost + 1
        return at, conf, cost


BLOCKS_DOMAIN = """
(define (domain blocks)
  (:predicates (Block ?b) (Region ?r) (Pose ?b ?p) (Contained ?b ?p ?r) (CFree ?b1 ?p1 ?b2 ?p2)
    (AtPose ?b ?p) (Moved ?b) (In ?b ?r) (Unsafe ?b ?p))
  (:action put :parameters (?b ?p1 ?p2)
    :precondition (and (Pose ?b ?p1) (Pose ?b ?p2) (AtPose ?b ?p1) (not (= ?p1 ?p2)) (not (Unsafe ?b ?p2)))
    :effect (and (AtPose ?b ?p2) (not (AtPose ?b ?p1))))
  (:derived (In ?b ?r) (exists (?p) (and (Contained ?b ?p ?r) (AtPose ?b ?p))))
  (:derived (Unsafe ?b1 ?p1) (exists (?b2 ?p2)
    (and (Pose ?b1 ?p1) (Pose ?b2 ?p2) (not (= ?b1 ?b2)) (AtPose ?b2 ?p2) (not (CFree ?b1 ?p1 ?b2 ?p2))))))
"""
BLOCKS_STREAMS = """
(define (stream blocks)
  (:stream sample-region :inputs (?b ?r) :domain (and (Block ?b) (Region ?r))
    :outputs (?p) :certified (and (Pose ?b ?p) (Contained ?b ?p ?r)))
  (:stream test-cfree :inputs (?b1 ?p1 ?b2 ?p2) :domain (and (Pose ?b1 ?p1) (Pose ?b2 ?p2))
    :certified (CFree ?b1 ?p1 ?b2 ?p2)))
"""


class Blocks:
    """Two blocks go into one region, which has room for both. Poses are arrays, or lists where there is no numpy."""

    width = 1.0
    region = ("shelf", 10.0, 13.0)

    def __init__(self, is_array: bool) -> None:
        self.pose = numpy.array if is_array else list
        self.start = {"red": self.pose([0.0, 0.0]), "blue": self.pose([2.0, 0.0])}

    def samples(self, block: str, region: Any) -> Iterator[tuple[Any]]:
        _, low, high = region
        for at in (low + 1.0, low, high - self.width):
            yield (self.pose([at, 0.0]),)

    def problem(self) -> PDDLProblem:
        stream_map = {
            "sample-region": from_gen_fn(self.samples),
            "test-cfree": from_test(lambda b1, p1, b2, p2: b1 == b2 or abs(p1[0] - p2[0]) >= self.width),
        }
        init = [("Region", self.region)]
        for block, pose in self.start.items():
            init += [("Block", block), ("Pose", block, pose), ("AtPose", block, pose)]
        goal = And(*(("In", block, self.region) for block in self.start))
        return PDDLProblem(BLOCKS_DOMAIN, {}, BLOCKS_STREAMS, stream_map, init, goal)

    def carried_out(self, plan: Sequence[Any]) -> dict[str, float]:
        """Where the blocks are after the plan, no two in one place on the way."""
        at = {block: float(pose[0]) for block, pose in self.start.items()}
        for name, (block, before, after) in plan:
            assert name == "put" and type(after) is type(self.start[block]) and at[block] == before[0]
            at[block] = float(after[0])
            assert abs(at["red"] - at["blue"]) >= self.width
        return at


@needs_program
class ProblemsTest(InFolder):
    def test_task_and_motion_planning_in_one_dimension(self) -> None:
        line = Line()
        for algorithm in ALGORITHMS:
            with self.subTest(algorithm):
                solution = solved(line.problem(), algorithm, keep=self.folder)
                self.assertEqual(self.replayed(self.folder), "valid\n")
                at, conf, cost = line.carried_out(solution.plan or [])
                self.assertEqual((at["a"], conf, cost), (line.goal, line.rest, solution.cost))

    def blocks(self, is_array: bool) -> None:
        blocks = Blocks(is_array)
        for algorithm in ALGORITHMS:
            with self.subTest(algorithm):
                solution = solved(blocks.problem(), algorithm, keep=self.folder)
                self.assertEqual(self.replayed(self.folder), "valid\n")
                at = blocks.carried_out(solution.plan or [])
                self.assertTrue(all(10.0 <= place <= 12.0 for place in at.values()), at)
                self.assertEqual(solution.cost, len(solution.plan or []))

    def test_blocks_whose_poses_are_lists(self) -> None:
        self.blocks(False)

    def test_blocks_whose_poses_are_arrays(self) -> None:
        if numpy is None:
            self.skipTest("numpy isn't installed: a problem over arrays isn't tested")
        self.blocks(True)

    def test_no_plan_where_no_sample_is_free(self) -> None:
        blocks = Blocks(False)
        problem = blocks.problem()
        problem = problem._replace(
            stream_map={**problem.stream_map, "sample-region": from_list_fn(lambda b, r: [(11.0,)])}
        )
        problem = problem._replace(
            stream_map={**problem.stream_map, "test-cfree": from_test(lambda b1, p1, b2, p2: p1 != p2)}
        )
        for algorithm in ALGORITHMS:
            with self.subTest(algorithm):
                self.assertEqual(solved(problem, algorithm).outcome, "no plan")
