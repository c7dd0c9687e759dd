#!/usr/bin/env python3
"""Looks for the cases of crates of tests that are rows of row_runs now.

    bench/rows.py COMMIT

reads the tables of start_tests, plain_run_tests, grid_run_tests, replay_tests and worked_runs as they stood at
that commit, and the rows of crates/row_runs with what is due of them as they stand here. It prints how many
cases each crate had and how many rows carry them, and each case without a row of the same input and the same
due lines.
"""
import os
import subprocess
import sys

sys.dont_write_bytecode = True

import tables
from rust_tables import constants

HERE = os.path.dirname(os.path.dirname(os.path.abspath(__file__)))
ROWS = os.path.join(HERE, 'crates', 'row_runs')

CODES = ['Plan', 'NoPlan', 'Limit', 'Usage', 'Input', 'BadAnswer', 'ReadFault', 'GeneratorFault', 'WriteFault']


# ---- rows

class Row:
    """A row: its name, and what its lines say."""

    def __init__(self, name, lines):
        self.name = name
        self.words = []
        self.files = {}
        self.open = None
        self.changes = {}
        self.children = {}
        self.replies = {}
        self.needs = []
        self.flags = []
        self.part = None
        self.unit = ''
        for line in lines:
            self.take(line)

    def add(self, text):
        kind, place = self.part
        if kind == 'file':
            self.files[place] += text
        elif kind == 'line':
            self.changes[place] += text
        elif kind == 'unit':
            self.unit += text
        elif kind == 'reply':
            self.replies[place] += text
        else:
            self.children[place] += text

    def take(self, line):
        if line.startswith(('|', '\\')):
            self.add(line[1:] + ('\n' if line[0] == '|' else ''))
            return
        key, _, rest = line.partition(' ')
        if key == '.':
            self.add(''.join(chr(int(number)) for number in rest.split(' ')))
        elif key == '*':
            times, _, text = rest.partition(' ')
            self.add(text.replace('~', '\n') * int(times))
        elif key == 'words':
            self.words = rest.split(' ')
        elif key == 'word':
            self.words.append(rest)
        elif key in ('file', 'load'):
            text = read(os.path.join(ROWS, 'data', rest)) if key == 'load' else ''
            self.files[rest], self.open, self.part = text, rest, ('file', rest)
        elif key == 'line':
            self.changes[int(rest)], self.part = '', ('line', int(rest))
        elif key == 'unit':
            self.unit, self.part = '', ('unit', None)
        elif key == 'repeat':
            self.part = ('file', self.open)
            self.files[self.open] += ''.join(copy_of(self.unit, count) for count in range(int(rest)))
        elif key == 'child':
            self.children[int(rest)], self.part = '', ('child', int(rest))
        elif key == 'reply':
            self.replies[rest], self.part = '', ('reply', rest)
        elif key == 'needs':
            self.needs.append((self.part[1], *map(int, rest.split(' '))))
        else:
            self.flags.append(line)

    def text(self, path):
        """The text of a file, with the changes where it is the open one."""
        text = self.files.get(path, '')
        if path != self.open:
            return text
        lines = text.splitlines(keepends=True)
        return ''.join(self.changes.get(number, line) for number, line in enumerate(lines, 1))


def copy_of(unit, count):
    """The copy of a unit: for each `<A B>` stands A + B * count."""
    first, *parts = unit.split('<')
    text = first
    for part in parts:
        numbers, _, rest = part.partition('>')
        start, _, step = numbers.partition(' ')
        text += str(int(start) + int(step or 0) * count) + rest
    return text


def read(path):
    with open(path, encoding='utf-8') as file:
        return file.read()


def rows_in(text):
    """The rows of a file, those that vary one with its lines first."""
    found, shared, name, lines, varies = [], [], None, [], False
    for line in text.split('\n') + ['== ']:
        if line.startswith(('== ', '=> ')):
            if name is not None:
                found.append(Row(name, shared + lines if varies else lines))
                if not varies:
                    shared = lines
            name, lines, varies = line[3:], [], line.startswith('=> ')
        elif line and not line.startswith(';'):
            lines.append(line)
    return found


def all_rows():
    """All rows with the lines that are due of each."""
    source = read(os.path.join(ROWS, 'src', 'main.rt'))
    subjects = constants(source, {})['SUBJECTS']
    rows = [row for subject in subjects for row in rows_in(read(os.path.join(ROWS, 'data', subject)))]
    due = []
    for line in read(os.path.join(ROWS, 'stdout')).splitlines():
        if line.startswith('== '):
            due.append((line[3:], []))
        else:
            due[-1][1].append(line)
    assert [row.name for row in rows] == [name for name, _ in due], 'stdout has other rows'
    for row, (_, lines) in zip(rows, due):
        row.due = lines
    return rows


# ---- the crates as they stood

class Old:
    """The crates at a commit."""

    def __init__(self, commit):
        self.commit = commit

    def text(self, path):
        command = ['git', '-C', HERE, 'show', f'{self.commit}:crates/{path}']
        return subprocess.run(command, check=True, capture_output=True, text=True).stdout

    def constants(self, *paths):
        known = {}
        for path in paths:
            constants(self.text(path), known)
        return known


def cut_lines(text):
    """The lines that are due of a text: behind a last line without a line feed stands a backslash."""
    return (text if not text or text.endswith('\n') else text + '\\').splitlines()


def files_of(given):
    texts = given['texts']
    files = {'d': texts['domain'], 'p': texts['problem'], 's': texts['streams'], 'f': given['grid'], 'm': given['map']}
    return {path: text for path, text in files.items() if text}


def same_files(row, files):
    return all(row.text(path) == text for path, text in files.items())


def start_cases(old):
    known = old.constants('worked_tasks/src/texts.rt', 'run_rows/src/given.rt', 'start_tests/src/starts.rt')
    for given, text, starts, calls, status in known['ROWS'] + known['STOPPED']:
        children = {0: given['answers'], **dict(enumerate(given['others'], 1))}
        fails = [f'host {call}' for call in given['host_fails']] + [f'sink {call}' for call in given['sink_fails']]
        due = [*cut_lines(text), f'-- {CODES.index(status.split("::")[1])}',
               *(f'start {line}' for line in starts.splitlines()),
               'writes {} reads {} stops {}'.format(*calls)]

        def fits(row, given=given, children=children, fails=fails, due=due):
            return (row.words == given['words'] and row.due == due and same_files(row, files_of(given))
                    and all(row.children.get(child, '') == said for child, said in children.items())
                    and row.flags == ['log', *fails])

        yield f'{fails or given["answers"]}', fits


def plain_cases(_):
    own = {row.name: row for row in rows_in(tables.rows())}
    for number, table in tables.ordered():
        for workers in tables.WORKERS:
            name = tables.name_of(number, workers)
            lines = tables.report(table, *tables.plain_run(table), workers)
            for piece in tables.PIECES:

                def fits(row, name=name, lines=lines, piece=piece):
                    pieces = [flag.split(' ')[1:] for flag in row.flags if flag.startswith('piece')]
                    return (row.name == name and row.due == lines and [str(piece)] in [[p] for p in sum(pieces, [])]
                            and row.children == own[name].children and row.words == own[name].words
                            and row.files == own[name].files)

                yield f'{name}, pieces of {piece}', fits


def rounds_report(levels, workers):
    """The lines of the report up to its plan: rounds of as many requests as there are workers."""
    lines = ['pddlstream 1 incremental', 'limits 10000 100000 3', f'pool {workers} place grasp reach clear']
    number = 1
    for level in levels:
        lines.append('level')
        for asked in tables.rounds_of(level, workers):
            lines += [f'ask {number + place} {ask}' for place, (ask, _) in enumerate(asked)]
            lines += [f'got {number + place}{answer[5:]}' if answer.startswith('yield') else f'end {number + place}'
                      for place, (_, answer) in enumerate(asked)]
            number += len(asked)
    return lines + ['plan', '-- 0']


def grid_cases(old):
    known = old.constants('worked_tasks/src/texts.rt', 'run_rows/src/given.rt', 'grid_run_tests/src/grid.rt')
    levels = [known['FIRST'], known['SECOND']]
    runs = [('answers', *row, []) for row in known['MAPS']]
    runs += [('needs', *known['MAPS'][2], [(0, 0, 2, 1), (1, 0, 2, 1)])]
    runs += [('by file', given, 1, 54, []) for given in known['BY_FILE']]
    for kind, given, workers, _, needs in runs:
        due = rounds_report(levels, workers)

        def fits(row, kind=kind, given=given, needs=needs, due=due):
            return (row.words == given['words'] and row.due == due and same_files(row, files_of(given))
                    and row.needs == needs and ('real' in row.flags) == (kind == 'by file'))

        yield f'{kind}, {workers} workers', fits
    for number, asks in (1, 10), (3, 54):
        due = [f'generate {number} plan levels 2 asks {asks}', '-- 0']
        yield f'generate {number}', lambda row, number=number, due=due: (
            row.words == ['generate', str(number)] and row.due == due and row.flags == ['real'])


def worked_cases(old):
    known = old.constants('worked_tasks/src/texts.rt', 'run_rows/src/given.rt', 'grid_run_tests/src/grid.rt',
                          'worked_runs/src/reports.rt', 'worked_runs/src/grid.rt')
    lines = old.text('worked_runs/stdout').splitlines()
    starts = [place for place, line in enumerate(lines) if line.startswith('pddlstream ')]
    made = next(place for place, line in enumerate(lines) if line.startswith('generate '))
    reports = [lines[starts[0]:starts[1]], lines[starts[1]:made], [lines[made]]]
    for words, report in zip([known['LIFT'], known['SHELF'], known['MADE']], reports):
        yield ' '.join(words[:2]), lambda row, words=words, report=report: (
            row.words == words and row.due == [*report, '-- 0'] and 'real' in row.flags)
    for workers, own in enumerate(known['MAPS'], 1):
        due = rounds_report([known['FIRST'], known['SECOND']], workers)
        rounds = sum(1 for place, line in enumerate(due) if line.startswith('ask ') and due[place - 1][:4] != 'ask ')
        assert lines[made + workers] == f'{rounds} plan'
        yield f'{workers} processes', lambda row, own=own, due=due: (
            row.text('m') == own and row.due == due and 'real' in row.flags)


# ---- reports

TABLES = ['fetch', 'two', 'plan', 'value', 'lamp', 'level', 'arm', 'dream']


def verdict(said):
    return [said, f'-- {dict(valid=0).get(said, 2 if said.startswith("limit") else 10)}']


def judges(texts, limit, report, due):
    """Whether a row judges this report of the task within so many states, and this is due of it."""
    files = {'d': texts['domain'], 'p': texts['problem'], 's': texts['streams'], 'r': report}
    words = ['replay', 'd', 'p', 's', 'r']
    words = [words, [*words, '--states', str(limit)]][limit != 100_000]
    return lambda row: row.words == words and row.due == due and same_files(row, files)


def changed(report, changes):
    """The report with its changes; empty lines fall away."""
    first = {}
    for place, text in changes:
        first.setdefault(place, text)
    lines = [first.get(place, line) for place, line in enumerate(report.split('\n'), 1)]
    return ''.join(line + '\n' for line in lines if line)


def fronts_due(report):
    """What is due of the fronts of a report: behind so many line feeds the next line is missing."""
    lines = verdict('invalid 1 1')
    for place in range(1, len(report)):
        if report[place - 1] == '\n':
            lines += [f'front {place}', *verdict(f'invalid {report[:place].count(chr(10)) + 1} 1')]
    return lines


def large_texts(known):
    """The problem and the report of many requests, by the loops of the test."""
    requests, values, steps = known['REQUESTS'], known['VALUES'], known['STEPS']
    objects, first = known['OBJECTS'], known['FIRST']
    names = [f'i{first + number}' for number in range(requests)]
    problem = ('(define (problem many) (:domain large) (:objects' + ''.join(f' {name}' for name in names) + ') (:init'
               + ''.join(f' (item {name})' for name in names) + ') (:goal (done)))')
    lines = ['pddlstream 1 incremental', f'limits {requests} 100000 3', 'pool 1 make', 'level']
    for number, name in enumerate(names):
        made = range(first + number * values, first + number * values + values)
        lines += [f'ask {number + 1} 0 make {name}', f'got {number + 1} ' + ' '.join(map(str, made))]
    lines.append(f'plan {steps}')
    for number in range(steps):
        used = range(first + number * objects, first + number * objects + objects)
        lines.append('do use ' + ' '.join(f'#{value}' for value in used))
    lines.append(f'cost {steps}')
    lines += [f'from #{first + number} {number // values + 1}' for number in range(requests * values)]
    return problem, '\n'.join([*lines, 'done', ''])


def replay_cases(old):
    shared = ['worked_tasks/src/texts.rt', 'replay_tests/src/texts.rt', 'replay_tests/src/rows.rt']
    for name in TABLES:
        own = constants(old.text(f'replay_tests/src/{name}_tests.rt'), old.constants(*shared))
        for table in (table for value in own.values() if isinstance(value, list)
                      for table in value if isinstance(table, dict)):
            for place, (changes, said) in enumerate(table['rows'], 1):
                report = changed(table['report'], changes)
                yield f'{table["shows"]}, {place}', judges(table['texts'], table['limit'], report, verdict(said))
    known = old.constants(*shared, 'replay_tests/src/front_tests.rt', 'replay_tests/src/large_tests.rt')
    for texts, text in known['REPORTS']:
        report = changed(text, [])
        fits = judges(texts, 100_000, report, fronts_due(report))
        for count in range(len(report)):
            yield f'front of {count} bytes', lambda row, fits=fits: row.flags[-1:] == ['fronts'] and fits(row)
    problem, report = large_texts(known)
    texts = {'domain': known['DOMAIN'], 'problem': problem, 'streams': known['STREAMS']}
    yield 'many origins', judges(texts, 100_000, report, verdict('valid'))


CRATES = {
    'start_tests': start_cases,
    'plain_run_tests': plain_cases,
    'grid_run_tests': grid_cases,
    'replay_tests': replay_cases,
    'worked_runs': worked_cases,
}


def main(words):
    if len(words) != 1:
        sys.exit(__doc__)
    rows = all_rows()
    missing = 0
    print(f'{"crate":<16} {"cases":>6} {"rows":>5}')
    for crate, cases in CRATES.items():
        count, carrying = 0, set()
        for name, fits in cases(Old(words[0])):
            count += 1
            found = next((row.name for row in rows if fits(row)), None)
            if found is None:
                missing += 1
                print(f'  no row has: {name}')
            carrying.add(found)
        print(f'{crate:<16} {count:>6} {len(carrying - {None}):>5}')
    sys.exit(1 if missing else 0)


if __name__ == '__main__':
    main(sys.argv[1:])
