"""The kitchen's streams, and the values that its task begins with."""
from __future__ import annotations

from pddlstream_client import from_cost_fn, from_fn, from_gen_fn, from_list_fn, from_test

import kitchen

STREAMS = {
    "sample-pose": from_gen_fn(kitchen.sample_pose),
    "sample-grasp": from_list_fn(kitchen.sample_grasp),
    "inverse-kinematics": from_gen_fn(kitchen.inverse_kinematics),
    "plan-motion": from_fn(kitchen.plan_motion),
    "test-cfree-pose": from_test(kitchen.cfree_pose),
    "test-cfree-traj": from_test(kitchen.cfree_traj),
    "turn": from_cost_fn(kitchen.turn),
}

CELERY_START, RADISH_START = kitchen.START["celery"], kitchen.START["radish"]
