"""Tests of pddlstream_client: `python3 -m unittest` in clients/python runs them.

The planner is `$PDDLSTREAM`, else the one that the repository's gate built, else the one of PATH. Where there is none,
the tests that run it are skipped, and say so.
"""
