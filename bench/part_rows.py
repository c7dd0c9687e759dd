#!/usr/bin/env python3
"""Counts the cases of the crates of tests whose place part_rows took, and the rows that carry them.

usage: bench/part_rows.py [REVISION]

REVISION is one at which the crates of tests stood (where it is left out, 558565e5 for grid_tests and grid_task_tests, and
7afa0542 for the others). A case is a member of a table that a
test goes over, or a step beside the tables that asserts something. For each section of rows there is a line: the file, the
section, its rows, and the tests that it carries with their cases. Last come the sums of each crate. The status is 1 where a
test is carried by no section, where a section has no rows, or where a table isn't there.
"""
import re
import subprocess
import sys

# The file of rows, the sections, the crate and the file of tests, and each test with its tables, or how many assertions it has.
CARRIED = [
    ('trees', 'tree', 'reader_tests/trees', {
        'trees_have_words_in_lower_case_and_places': ['TREES'], 'comments_hold_any_bytes_up_to_a_line_feed': ['COMMENTED'],
        'the_fault_with_the_least_place_is_told': ['REFUSED'], 'lists_stand_in_one_another_up_to_a_depth_of_64': ['DEEP']}),
    ('trees', 'beginnings', 'reader_tests/trees', {'each_beginning_of_a_domain_is_unclosed_at_its_end': 2}),
    ('trees', 'fronts', 'reader_tests/trees', {'fronts_go_through_a_tree': 7}),
    ('trees', 'text-fault', 'reader_tests/trees', {'faults_are_printed': ['PRINTED']}),
    ('domains', 'domain-form marked', 'reader_tests/refused_forms', {
        'texts_of_each_kind_have_the_marked_fault': ['DOMAINS']}),
    ('problems', 'problem-form marked', 'reader_tests/forms', {'texts_of_each_kind_have_the_marked_fault': ['PROBLEMS']}),
    ('streams', 'stream-form marked', 'reader_tests/forms', {'texts_of_each_kind_have_the_marked_fault': ['STREAMS']}),
    ('domains problems streams', 'domain-form; problem-form; stream-form', 'reader_tests/forms', {
        'right_texts_have_no_fault': ['RIGHT']}),
    ('domains', 'domain marked', 'reader_tests/refused_domains', {'domains_have_the_marked_fault': ['REFUSED']}),
    ('domains', 'domain', 'reader_tests/domains', {'the_65th_derived_predicate_is_one_too_many': 1, 'domains_are_read_whole': ['READ'],
        'domains_are_refused_with_kind_and_place': ['refused_texts/DOMAINS']}),
    ('domains', 'domain-counts', 'reader_tests/domains', {'a_domain_of_20_000_predicates_and_actions_is_read': 4}),
    ('domains', 'types', 'reader_tests/domains', {'a_chain_of_4_000_types_listed_from_the_bottom_up_is_read': 4}),
    ('problems', 'problem marked', 'reader_tests/refused_problems', {'problems_have_the_marked_fault': ['REFUSED']}),
    ('problems', 'problem', 'reader_tests/problems', {'problems_are_read_whole': ['READ'],
        'problems_are_refused_with_kind_and_place': ['refused_texts/PROBLEMS']}),
    ('problems', 'problem-counts', 'reader_tests/problems', {'a_large_problem_is_read': 3}),
    ('streams', 'streams marked', 'reader_tests/refused_streams', {'stream_files_have_the_marked_fault': ['REFUSED']}),
    ('streams', 'streams', 'reader_tests/streams', {'stream_files_are_read_whole': ['READ'],
        'streams_are_refused_with_kind_and_place': ['refused_texts/STREAMS']}),
    ('streams', 'stream-ends', 'reader_tests/streams', {'a_file_of_2_000_streams_is_read': 2}),
    ('tasks', 'task', 'reader_tests/worked_texts', {'texts_without_fault_spell_fit_tasks': ['FIT']}),
    ('tasks', 'refusal', 'reader_tests/refused_texts', {'a_refusal_is_shown': ['SHOWN']}),
    ('lines', 'answer *', 'report_tests/answers', {'lines_answer_as_the_protocol_says': ['ROWS']}),
    ('lines', 'cause', 'report_tests/answers', {'the_causes_are_numbered_from_1': ['CAUSES']}),
    ('lines', 'pieces *', 'report_tests/line_bufs', {'lines_are_the_same_however_their_bytes_come': 7,
        'one_carriage_return_before_a_line_feed_is_dropped': 1}),
    ('lines', 'pushes', 'report_tests/line_bufs', {'a_line_of_1024_bytes_is_one_and_a_longer_is_too_long': 7,
        'a_taken_line_leaves_the_others': 6}),
    ('reports', 'report', 'report_tests/faulty', {'texts_have_these_first_faulty_lines': ['TEXTS'],
        'names_values_and_tuples_have_their_forms': ['forms/THIRD'], 'a_report_of_1024_requests_is_read': 1}),
    ('reports', 'report-fronts', 'report_tests/faulty', {'each_front_of_a_report_lacks_its_next_line': 1}),
    ('reports', 'report-again', 'report_tests/texts', {'a_head_names_version_mode_limits_and_pools': ['HEADS'],
        'an_entry_shows_all_that_it_tells': ['ENTRIES'], 'an_outcome_shows_a_plan_its_cost_and_its_origins': ['OUTCOMES'],
        'a_report_is_read_as_what_it_shows': 1, 'reports_are_written_whole': ['reports/REPORTS']}),
    ('commands', 'command', 'command_line_tests/generate_tests', {'generate_takes_a_number': ['NUMBERS'],
        'the_first_word_names_the_command': ['NAMES'],
        'replay_takes_four_words_and_one_option': ['replay_tests/WORDS', 'replay_tests/STATES', 'replay_tests/OTHERS'],
        'solve_takes_three_words_and_a_program': ['solve_tests/WORDS'], 'numbers_are_in_their_ranges': ['solve_tests/LIMITS'],
        'a_map_stands_alone': ['solve_tests/MAPS'], 'modes_are_named': ['solve_tests/MODES'], 'no_words_are_refused': 1}),
    ('commands', 'usage', 'command_line_tests/usage_tests', {'each_command_has_a_usage_line': 1}),
    ('maps', 'map', 'map_tests/texts', {
        'maps_give_pools_or_their_first_fault': ['RIGHT', 'JSON', 'SHAPE', 'OTHERS', 'PAIRS', 'maps/EMPTY'],
        'a_map_of_one_name_is_refused': 1}),
    ('maps', 'map-grid', 'map_tests/maps', {'the_text_stands_in_the_place_of_the_grids_file': 2}),
    ('maps', 'words', 'map_tests/words', {'words_give_a_pool_or_their_first_fault': ['WORDS', 2]}),
    ('grids', 'grid', 'grid_tests/faults', {'the_first_faulty_line_is_told': ['FORM', 'NUMBERS', 'OUTSIDE', 'DUPLICATE'],
        'of_two_faults_the_first_is_told': ['PAIRS'], 'a_hundred_names_and_a_thousand_obstacles_are_the_limit': ['LIMITS', 'LIMITS'],
        'a_name_has_at_most_255_bytes': 2, 'a_grid_is_what_its_lines_say': 9}),
    ('grids', 'request-of 3', 'grid_tests/answers', {'requests_on_the_grid_of_three_are_answered': ['WORKED']}),
    ('grids', 'request', 'grid_tests/answers', {'edges_and_order_are_exact': ['EDGES'], 'large_numbers_do_not_wrap': ['LARGE'],
        'other_lines_end': ['STRANGE']}),
    ('grids', 'made-lengths', 'grid_tests/tasks', {'texts_have_their_lengths': ['LENGTHS']}),
    ('grids', 'made-texts', 'grid_tests/tasks', {'the_texts_of_two_are_written_out': 2}),
    ('generators', 'generator', 'grid_tests/members', {'other_words_and_refused_grids_do_not_start': 5,
        'whole_lines_are_answered_and_given_in_pieces': 12}),
    ('generators', 'last-child', 'grid_tests/members', {'a_host_holds_the_grid_as_its_last_child': 8}),
    ('generators', 'sure-host', 'grid_tests/members', {'a_host_that_answers_by_the_grid_answers_alike': 6}),
    ('generators', 'serve *', 'grid_tests/statuses', {'each_status_has_its_cause': ['RUNS'], 'words_and_files_are_refused': ['REFUSED'],
        'a_line_has_at_most_4096_bytes': ['LONG'], 'a_grid_file_has_at_most_4_mib': ['SIZES'],
        'a_hundred_thousand_lines_are_the_limit': 2}),
    ('grids', 'made-read', 'grid_task_tests/tasks', {'no_text_of_a_task_is_refused': 12, 'each_task_is_as_it_is_defined': 12}),
]

wrong = []


def revision_of(crate):
    """The revision at which a crate of tests is looked at."""
    if len(sys.argv) > 1:
        return sys.argv[1]
    return '558565e5' if crate in ('grid_tests', 'grid_task_tests') else '7afa0542'


def git(*words):
    return subprocess.run(['git', *words], check=True, stdout=subprocess.PIPE, text=True).stdout


def rows_of(names, sections):
    """How many rows the sections of these files have. `*` stands for any end of a section's words."""
    kinds = sections.split('; ')
    count = 0
    for name in names.split():
        inside = False
        for line in open(f'crates/part_rows/data/{name}.rows', encoding='utf-8'):
            if line.startswith('# '):
                words = line[2:].strip()
                inside = any(words == kind or kind.endswith(' *') and words.split()[0] == kind[:-2] for kind in kinds)
            elif inside and line.startswith(('== ', '>')):
                count += 1
    return count


def cases_of(place, tables):
    """How many cases these tables have, in the file of tests at this place or in another one of its crate."""
    if isinstance(tables, int):
        return tables
    crate, here = place.split('/')
    count = 0
    for table in tables:
        if isinstance(table, int):
            count += table
            continue
        file, _, name = table.rpartition('/')
        text = git('show', f'{revision_of(crate)}:crates/{crate}/src/{file or here}.rt')
        found = re.search(rf'const {name}: \[[^=]*; (\d+)\] =', text)
        if found is None:
            wrong.append(f'{place} has no table {table}')
            continue
        count += int(found.group(1))
    return count


crates = {}
carried = set()
for names, sections, place, tests in CARRIED:
    crate = place.split('/')[0]
    rows, cases = rows_of(names, sections), sum(cases_of(place, tables) for tables in tests.values())
    if not rows:
        wrong.append(f'{names}: no rows of {sections}')
    carried |= {(crate, test) for test in tests}
    sums = crates.setdefault(crate, [0, 0])
    sums[0] += cases
    sums[1] += rows
    print(f'{names:24} {sections:40} {rows:4} rows of {cases:4} cases: {crate}: {", ".join(tests)}')
for crate, (cases, rows) in crates.items():
    revision = revision_of(crate)
    for file in git('ls-tree', '--name-only', revision, f'crates/{crate}/src/').split():
        for test in re.findall(r'#\[test\]\s*fn (\w+)', git('show', f'{revision}:{file}')):
            if (crate, test) not in carried:
                wrong.append(f'{file}: {test} is carried by no row')
    print(f'{crate}: {cases} cases, {rows} rows')
for line in wrong:
    print('wrong:', line)
sys.exit(1 if wrong else 0)
