#!/usr/bin/env python3
"""Counts what five crates of tests asserted, and the rows of plan_rows that carry it.

Run in the root of the repository. The crates are read from the last commit that has them, so git's history is needed.
Of each test the assertions that it runs are counted: one in a loop over a table counts once a row of the table. The table
CARRIED names the rows of each test. Wrong is: a test without rows, a row that isn't there or has no answer, a row of a
carried file that no test names, and a row of the former stored output that isn't there as it was.
"""
import re
import subprocess
import sys

LAST = '7afa0542'

# Of each crate its files, and of each of their tests the file of rows and the rows that carry it.
# the first row of a file that came later, behind those that were carried
LATER = {'searches': 'what stands in the way of a block is moved'}
CARRIED = {
    'session_tests': {
        'levels.rt': {
            'a_level_has_the_instances_that_are_due_in_their_order': ('levels', [
                'a level is in the order of streams and then of names',
                'an instance is asked once a level, with its turn']),
            'an_instance_is_reachable_where_its_domain_facts_are_known': ('levels', [
                'an instance is reachable where its domain facts are known, its input is an object and its stream is there']),
        },
        'queues.rt': {
            'an_instance_finishes_by_its_end_and_a_test_by_its_yes': ('levels', [
                "a test that said nothing isn't finished", 'a test that yields is finished',
                "a stream with outputs isn't finished by what it yields", 'a stream with outputs is finished by its end',
                "of a stream that isn't there nothing has finished"]),
            'tuples_are_counted_for_each_instance': ('levels', ['tuples are counted for each instance']),
            'a_copy_of_an_ask_is_equal': ('states', ['a copy of an ask is equal']),
        },
        'sessions.rt': {
            'a_session_asks_and_learns_level_by_level': ('sessions', [
                'two children are answered in turn', "the order of events doesn't matter",
                'a test is finished by its yes, and others are asked again', 'a line of version 2 has several tuples',
                'a level has the pairs of two generated objects']),
            'a_line_of_version_1_has_one_tuple': ('sessions', ['a line of version 1 has one tuple']),
            'what_waits_for_its_round_is_asked_in_the_next': ('sessions', ['what waits for its round is asked in the next']),
            'a_value_is_known_once_its_domain_fact_is_certified': ('sessions', [
                'a value is asked for once its domain fact is certified: not yet',
                'a value is asked for once its domain fact is certified',
                "a value is never asked for whose domain fact isn't certified"]),
        },
        'turns.rt': {
            'the_answer_of_another_child_is_never_taken': ('sessions', [
                'child 1 has answered, and child 0 is awaited', 'child 0 has answered, and child 1 is awaited',
                "the answer of a child that wasn't asked is never taken",
                "the answer of a child that isn't there is never taken", 'a request is never sent twice']),
            'a_session_fails_by_a_line_that_is_no_answer': ('sessions', [
                'a session fails by a yield with one value too many', 'a session fails by a word that is none',
                "a session doesn't fail by an answer"]),
            'a_session_fails_by_a_line_that_is_too_long': ('sessions', ['a session fails by a line that is too long']),
            'a_round_has_no_more_asks_than_calls_are_left': ('sessions', ['a round has no more asks than calls are left']),
        },
    },
    'planning_tests': {
        'facts.rt': {
            'names_have_numbers': ('facts', ['names have numbers']),
            'facts_are_found': ('facts', ['facts are found']),
        },
        'generated.rt': {
            'truth_is_judged_over_generated_objects_too': ('facts', [
                'a derived predicate ranges over generated objects', 'a negated derived predicate ranges over generated objects',
                'sixteen variables are in scope', 'a quantifier ranges over generated objects',
                'a quantifier asks for the type', 'an atom asks for its own object']),
        },
        'plans.rt': {
            'a_plan_costs_the_value_of_the_function': ('plans', [
                'a plan costs the value of the function', 'two steps cost it twice', 'without a metric a step costs 1',
                'a value that is said twice counts once']),
            'the_first_fault_of_a_plan_is_told': ('plans', [
                'the goal is false', 'there is no such action', 'there is an argument too many',
                'the second step is the first with a fault', 'the condition is false', 'the cost has no value']),
            'an_atom_that_is_deleted_and_added_stays': ('plans', ['an atom that is deleted and added stays']),
        },
        'requests.rt': {
            'a_request_names_the_stream_and_its_inputs': ('facts', ['a request names the stream and its inputs']),
            'the_least_value_counts': ('facts', [
                'the least value counts: 7 and 9', 'the least value counts: 7 and 5', 'the least value counts: 7 and 7']),
            'a_block_is_an_object_too': ('facts', ['a block is an object too']),
            'no_object_has_a_name_that_is_not_there': ('facts', ["no object has a name that isn't there"]),
            'a_fact_that_is_there_is_not_new': ('facts', ["a fact that is there isn't new", 'a fact is new once']),
            'objects_are_listed_as_their_type_became_known': ('facts', [
                'objects are listed as their type became known', 'objects of another type stay as they are']),
        },
        'stores.rt': {
            'each_state_is_kept_once': ('states', ['each state is kept once']),
            'a_place_gives_its_state': ('states', ['a place gives its state']),
            'a_changed_state_is_kept_once': ('states', ['a changed state is kept once']),
            'states_put_in_four_times_keep_their_200_000_numbers': ('states', [
                'states put in four times keep their 200,000 numbers']),
        },
        'unfit.rt': {
            'conditions_are_at_most_64_deep': ('fitness', ['a condition may be 64 deep', 'a condition is at most 64 deep']),
            'no_derived_predicate_rests_on_itself': ('fitness', ['no derived predicate rests on itself']),
            'no_stream_feeds_itself': ('fitness', ['a stream may have no outputs', 'no stream feeds itself']),
            'a_term_has_one_value': ('fitness', ['a term may have its value twice', 'a term has one value']),
        },
        'values.rt': {
            'a_state_is_a_set': ('states', ['a state is a set']),
            'a_state_lists_its_atoms_in_order': ('states', ['a state lists its atoms in order']),
            'a_copy_of_a_state_is_equal_and_apart': ('states', ['a copy of a state is equal and apart']),
            'copies_are_equal': ('states', ['copies are equal']),
            'long_lists_of_objects_leave_the_value': ('states', ['long lists of objects leave the value']),
            'facts_are_ordered_by_kind_name_and_arguments': ('states', ['facts are ordered by kind, name and arguments']),
            'a_list_gives_its_members_back': ('states', ['a list gives its members back']),
        },
    },
    'join_tests': {
        'chains.rt': {
            'a_level_of_a_chain_has_997_instances': ('joins', ['a level of a chain of 1,000 objects has 997 instances']),
            'an_action_over_a_chain_has_997_tuples': ('joins', ['an action over a chain of 1,000 objects has 997 tuples']),
        },
        'shapes.rt': {
            'a_level_has_each_instance_once': ('joins', ['a level has each instance once']),
            'an_action_has_each_tuple_once': ('joins', ['an action has each tuple once']),
            'candidates_give_the_same_steps_however_many_are_kept': ('joins', [
                'candidates give the same steps where 100 may be kept', 'candidates give the same steps where 6 may be kept',
                'candidates give the same steps where 0 may be kept']),
            'candidates_are_kept_up_to_the_most': ('joins', ['candidates are kept up to the most']),
        },
        'wide.rt': {
            'a_stream_may_have_eight_inputs': ('joins', ['a stream may have eight inputs']),
            'an_action_may_have_sixteen_parameters': ('joins', ['an action may have sixteen parameters']),
            'an_object_has_all_types_above_its_own': ('joins', [
                "an instance has all types above its inputs' own", "a step has all types above its arguments' own"]),
        },
    },
    'search_tests': {
        'searches.rt': {
            'a_search_finds_a_plan_or_says_that_there_is_none': ('searches', 'SEARCHES'),
            'counted_goals_find_the_same_answers': ('searches', 'SEARCHES'),
            'counted_goals_find_a_plan_where_the_blind_search_meets_the_limit': ('searches', [
                'two estimates find a plan where the blind search meets the limit']),
            'the_additive_estimate_finds_the_same_answers': ('searches', 'SEARCHES'),
            'four_states_exceed_three_and_not_four': ('searches', ['four states exceed three and not four']),
            'steps_are_told_with_their_lamps': ('searches', [
                'the step of a plan is told with its lamp', 'the first steps are told with their lamps']),
            'the_blind_estimate_is_always_0': ('searches', ['the blind estimate is always 0']),
            'goals_that_are_left_are_counted': ('searches', [
                'one goal is left', 'two goals are left', 'no goal is left', "a static goal isn't counted",
                'of two goals one holds']),
            'costs_that_are_left_are_added_up': ('searches', [
                'one goal costs a step', 'two goals cost two steps', 'no goal costs nothing', 'three goals cost three steps',
                'of two goals one holds, and the other costs 7']),
        },
    },
}

# Rows that stand for a table which several tests go through: each has a line for each of the tests.
SHARED = {
    'SEARCHES': [
        'no plan is said where all four states are allowed', 'the limit is said where three states are allowed',
        'a plan within three states is found though four are reached', 'a plan of two steps',
        'in two states a plan of two steps is found by the estimate alone that counts what is left more', 'the empty plan reaches a goal that holds',
        'a plan costs the value of the function', 'without the value there is no plan'],
}


def shown(path):
    """A file of the last commit that has the crates."""
    made = subprocess.run(['git', 'show', f'{LAST}:{path}'], capture_output=True, text=True)
    if made.returncode:
        sys.exit(f'{LAST} has no {path}')
    return made.stdout


def files_of(crate):
    """The files of the crate's code."""
    made = subprocess.run(['git', 'ls-tree', '--name-only', LAST, f'crates/{crate}/src/'], capture_output=True, text=True)
    return [path.rsplit('/', 1)[1] for path in made.stdout.split()]


def functions(text):
    """The functions of a file: name, whether it is a test, and all up to the line that closes the body."""
    for made in re.finditer(r'(#\[test\]\s*)?(?:pub )?fn (\w+)', text):
        begin = text.index('{\n', made.end())
        yield made.group(2), bool(made.group(1)), text[begin:text.index('\n}', begin)]


def times(head, lengths):
    """How often the loop of this head runs."""
    span = re.search(r'in (\d+)\.\.(\d+)', head)
    if span:
        return int(span.group(2)) - int(span.group(1))
    for name, length in lengths.items():
        if re.search(rf'\b{name}\b', head):
            return length
    sys.exit(f'a loop over no table: {head}')


def assertions(name, bodies, lengths):
    """How many assertions a call of the function runs."""
    body, count, stack = bodies[name], 0, [1]
    others = '|'.join(re.escape(it) for it in bodies if it != name)
    token = re.compile(rf'for [^{{]*\{{|\{{|\}}|\bassert(?:_eq|_ne)?!\(|\b(?:{others})\(')
    for made in token.finditer(body):
        word = made.group(0)
        if word.startswith('for '):
            asserts = asserts_within(body[made.end():], bodies)
            stack.append(stack[-1] * (times(word, lengths) if asserts else 1))
        elif word == '{':
            stack.append(stack[-1])
        elif word == '}':
            stack.pop()
        elif word.startswith('assert'):
            count += stack[-1]
        else:
            count += stack[-1] * assertions(word[:-1], bodies, lengths)
    return count


def asserts_within(rest, bodies):
    """Whether a block that begins here asserts something, itself or by a function."""
    depth = 1
    for end, letter in enumerate(rest):
        depth += (letter == '{') - (letter == '}')
        if depth == 0:
            break
    block = rest[:end]
    return 'assert' in block or any(f'{name}(' in block and 'assert' in body for name, body in bodies.items())


def blocks(text):
    """The rows of a stored output: name and lines."""
    made = {}
    for block in ('\n' + text).split('\n== ')[1:]:
        name, _, lines = block.partition('\n')
        made.setdefault(name, []).append([it for it in lines.split('\n') if it])
    return made


def rows_in(path):
    return [line[3:].rstrip('\n') for line in open(path) if line.startswith('== ')]


def main():
    wrong = []
    stored = open('crates/plan_rows/stdout').read()
    answers = blocks(stored)
    carried = {}
    print(f'{"crate":18}{"tests":>6}{"assertions":>12}{"rows":>6}{"lines":>7}')
    for crate, files in CARRIED.items():
        tests = total = 0
        rows = set()
        for file in files_of(crate):
            named = files.get(file, {})
            text = shown(f'crates/{crate}/src/{file}')
            lengths = {name: int(length) for name, length in re.findall(r'const (\w+): \[[^;=]*; (\d+)\]', text)}
            bodies, all_tests = {}, []
            for name, is_test, body in functions(text):
                bodies[name] = body
                if is_test:
                    all_tests.append(name)
            for name in all_tests:
                if name not in named:
                    wrong.append(f'{crate} {file} {name}: no rows')
                    continue
                kind, its = named[name]
                its = SHARED.get(its, its) if isinstance(its, str) else its
                count = assertions(name, bodies, lengths)
                if '-v' in sys.argv:
                    print(f'  {count:4} {name}')
                tests, total = tests + 1, total + count
                for row in its:
                    rows.add((kind, row))
        for kind, row in sorted(rows):
            carried.setdefault(kind, set()).add(row)
            if row not in rows_in(f'crates/plan_rows/data/{kind}.rows'):
                wrong.append(f'{kind}.rows has no row: {row}')
            if not any(answers.get(row, [[]])):
                wrong.append(f'the stored output has no answer: {row}')
        lines = sum(len(answers[row][-1]) for _, row in rows if row in answers)
        print(f'{crate:18}{tests:6}{total:12}{len(rows):6}{lines:7}')
    for kind, rows in carried.items():
        for row in rows_in(f'crates/plan_rows/data/{kind}.rows'):
            if row == LATER.get(kind):
                break
            if row not in rows:
                wrong.append(f'{kind}.rows: no test named the row: {row}')
    former = blocks(shown('crates/optimistic_tests/stdout'))
    lines = 0
    for name, held in former.items():
        for block in held:
            lines += len(block)
            if block not in answers.get(name, []):
                wrong.append(f'not as it was: {name}')
    print(f'{"optimistic_tests":18}{"-":>6}{"-":>12}{sum(map(len, former.values())):6}{lines:7}')
    print('\n'.join(wrong) or 'every test has its rows, and every row its answer')
    sys.exit(bool(wrong))


main()
