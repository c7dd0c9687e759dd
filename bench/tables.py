#!/usr/bin/env python3
"""Runs over tables of answers, worked out by the definition of plain runs.

A fixed rule makes a hundred small tables: what is made of two objects, turn by turn, which pairs of what was
made pass a test, the goal, and the limit of calls. From each the plain run is worked out, level by level: all
that is due, in the order of the names. By one, two and five workers its requests and answers are cut into
rounds of as many.

    bench/tables.py rows     prints crates/row_runs/data/tables.rows
    bench/tables.py due      prints what is due of these rows, as it stands in crates/row_runs/stdout
"""
import sys

TABLES = 100
WORKERS = {1: 'one worker', 2: 'two workers', 5: 'five workers'}
PIECES = [1, 3, 64]

OBJECTS = ['a', 'b']
VALUES = ['10', '9', 'u']
MOST_MADE = 3

DOMAIN = '(define (domain j) (:predicates (start ?x) (p ?x) (q ?x ?y)))'
STREAMS = '''(define (stream j)
  (:stream mk :inputs (?x) :domain (start ?x) :outputs (?y) :certified (p ?y))
  (:stream pair :inputs (?x ?y) :domain (and (p ?x) (p ?y)) :certified (q ?x ?y)))'''
PROBLEM = '''(define (problem t) (:domain j) (:objects b a) (:init (start b) (start a))
  (:goal %s))'''

# A pair of two objects that passes its test; an object that passes it with itself; a pair that is never tested.
GOALS = {
    'two': '(exists (?x ?y) (and (q ?x ?y) (not (= ?x ?y))))',
    'same': '(exists (?x) (q ?x ?x))',
    'never': '(q a b)',
}

ENDS = {
    'plan': (['plan 0', 'cost 0', 'done'], 0),
    'none': (['no plan', 'done'], 1),
    'calls': (['limit calls', 'done'], 2),
}


class Table:
    """The table of a number: what generators answer, and the goal and the limit of calls of the run."""

    def __init__(self, number):
        self.last = number
        self.makes = [[self.draw_made() for _ in range(MOST_MADE)] for _ in OBJECTS]
        self.passes = [[self.draw(3) == 0 for _ in VALUES] for _ in VALUES]
        self.goal = list(GOALS)[self.draw(3)]
        self.calls = self.draw(16) + 1

    def draw(self, below):
        """The next number of a list in which each follows from the one before."""
        self.last = (self.last * 1_664_525 + 1_013_904_223) % 2**32
        return (self.last >> 16) % below

    def draw_made(self):
        """What is made at a turn: a value, or nothing more."""
        drawn = self.draw(5)
        return drawn if drawn < len(VALUES) else None


class State:
    """What is known after some answers."""

    def __init__(self):
        self.turns = [0, 0]
        self.ended = [False, False]
        self.known = set()
        self.tested = set()
        self.passed = set()

    def is_solved(self, goal):
        """Whether the goal holds; no action changes that."""
        if goal == 'two':
            return any(x != y for x, y in self.passed)
        return goal == 'same' and any(x == y for x, y in self.passed)

    def due(self):
        """What may still be made, and then the pairs that weren't tested, in the order of the names."""
        makes = [('mk', place) for place in range(len(OBJECTS)) if not self.ended[place]]
        pairs = [('pair', x, y) for x in sorted(self.known) for y in sorted(self.known)]
        return makes + [pair for pair in pairs if pair[1:] not in self.tested]

    def ask(self, table, call):
        """The request's words behind its number, what the report says of the answer, and what is known by it."""
        if call[0] == 'mk':
            place, turn = call[1], self.turns[call[1]]
            made = table.makes[place][turn] if turn < MOST_MADE else None
            return f'{turn} mk {OBJECTS[place]}', made
        _, x, y = call
        return f'0 pair #{VALUES[x]} #{VALUES[y]}', table.passes[x][y] or None

    def take(self, call, answer):
        """Takes an answer: what was made, whether a pair passed, or None where nothing more comes."""
        if call[0] == 'pair':
            self.tested.add(call[1:])
            if answer:
                self.passed.add(call[1:])
        elif answer is None:
            self.ended[call[1]] = True
        else:
            self.turns[call[1]] += 1
            self.known.add(answer)


def values_of(call, answer):
    """The values of an answer, each behind a space; None where nothing more comes."""
    if answer is None:
        return None
    return f' {VALUES[answer]}' if call[0] == 'mk' else ''


def plain_run(table):
    """The levels of the plain run, each a list of requests with the values of their answers, and its end."""
    state = State()
    levels = []
    left = table.calls
    while not state.is_solved(table.goal):
        due = state.due()
        if not due:
            return levels, 'none'
        if left == 0:
            return levels, 'calls'
        level = [(call, *state.ask(table, call)) for call in due[:left]]
        for call, _, answer in level:
            state.take(call, answer)
        levels.append([(ask, values_of(call, answer)) for call, ask, answer in level])
        if left < len(due):
            return levels, 'calls'
        left -= len(due)
    return levels, 'plan'


def rounds_of(level, workers):
    """The rounds of a level: as many requests at once as there are workers."""
    return [level[place:place + workers] for place in range(0, len(level), workers)]


def report(table, levels, end, workers):
    """The lines of the report, and the status."""
    lines = ['pddlstream 1 incremental', f'limits {table.calls} 100000 3', f'pool {workers} mk pair']
    number = 1
    for level in levels:
        lines.append('level')
        for asked in rounds_of(level, workers):
            lines += [f'ask {number + place} {ask}' for place, (ask, _) in enumerate(asked)]
            lines += [f'end {number + place}' if values is None else f'got {number + place}{values}'
                      for place, (_, values) in enumerate(asked)]
            number += len(asked)
    last, status = ENDS[end]
    return lines + last + [f'-- {status}']


def said(levels, workers, child):
    """The lines that a child says: the answers at its place of each round."""
    return ['end' if values is None else f'yield{values}'
            for level in levels for place, (_, values) in enumerate(level) if place % workers == child]


def text_lines(text):
    """The lines of a row for a text whose last line has no line feed."""
    lines = text.split('\n')
    return ['|' + line for line in lines[:-1]] + ['\\' + lines[-1]]


def name_of(number, workers):
    return f'table {number}, {WORKERS[workers]}'


def files(goal):
    """The lines of a row for the files of the task with this goal."""
    texts = [('d', DOMAIN), ('p', PROBLEM % GOALS[goal]), ('s', STREAMS)]
    return [line for path, text in texts for line in [f'file {path}', *text_lines(text)]]


def ordered():
    """The tables in the order of their rows: those of one goal together."""
    tables = [(number, Table(number)) for number in range(TABLES)]
    return [entry for goal in GOALS for entry in tables if entry[1].goal == goal]


def rows():
    """The text of the rows."""
    lines = ['; Runs over tables of answers. bench/tables.py makes these rows, and works out what is due of them.']
    begun = set()
    for number, table in ordered():
        levels, _ = plain_run(table)
        for workers in WORKERS:
            lines += ['', f'{"=>" if table.goal in begun else "=="} {name_of(number, workers)}',
                      f'words solve d p s --calls {table.calls} --workers {workers} -- g']
            if table.goal not in begun:
                begun.add(table.goal)
                lines += [*files(table.goal), 'piece ' + ' '.join(map(str, PIECES))]
            for child in range(workers):
                lines += [f'child {child}', *('|' + line for line in said(levels, workers, child))]
    return '\n'.join(lines)


def due():
    """The text that is due of them."""
    lines = []
    for number, table in ordered():
        levels, end = plain_run(table)
        for workers in WORKERS:
            lines += [f'== {name_of(number, workers)}', *report(table, levels, end, workers)]
    return '\n'.join(lines)


def main(words):
    if words == ['rows']:
        print(rows())
    elif words == ['due']:
        print(due())
    else:
        sys.exit(__doc__)


if __name__ == '__main__':
    main(sys.argv[1:])
