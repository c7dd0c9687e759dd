"""The kitchen's streams as a generator, for the task of problem.pddl.

usage: pddlstream solve domain.pddl problem.pddl stream.pddl --algorithm adaptive --depth 4 -- python3 generator.py
"""
from pddlstream_client import serve  # first, so that nothing else writes to standard output

import kitchen
from streams import CELERY_START, RADISH_START, STREAMS

serve(STREAMS, objects={"rest": kitchen.REST, "celery-start": CELERY_START, "radish-start": RADISH_START})
