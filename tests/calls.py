#!/usr/bin/env python3
"""Whole calls of the three entry points, each with every word that it leaves by docs/FORMAT.md.

    tests/calls.py list                 the kept list, crates/call_limits/data/calls.list; oracle/regenerate writes it
    tests/calls.py text NAME            a call of optimize_model_impl in the text form, a line for each section
    tests/calls.py compare PROGRAM      the calls that fit the text form, answered by `PROGRAM answer` (oracle/README.md)

Nothing here folds a table: every answer is written beside its case. A case named wrong_answer_.. is one of the others with an
answer that it does not have, and must be counted wrong.
"""
from house import (ADD, AND, BAD, BIT, BYTE, BYTES, CONST, DIV, EQ, EXT, HIGHEST_MODE, INPUT, ITE, LARGEST, MEMORY,
                   MOST_ENTRIES, MOST_INPUTS, MOST_NAMES, MOST_NODES, MOST_REPLIES, MUL, NEXT, NOT, OR, READ, REM, ROW_WIDTH,
                   SLL, STATE, SUB, TABLE_WIDTHS, ULT, WORD, WRITE, cut, names_count, row)
from limits import (EXAMPLE, HOLD_END, LEAST, MOST, ROOM, Group, answers, flat, in_text_form, main, names_of, need, node,
                    sections, size, text, told, wrong)

IMPL, WITH_SOLVER, WITH_INPUT = range(3)
ENTRIES = {'impl': IMPL, 'with_solver': WITH_SOLVER, 'with_input': WITH_INPUT}
MINIMISE, TERMINATE, ONE_QUERY = 1, 2, 4
NOT_ONE_QUERY, FOUND, NOT_FOUND, REMOVED_ALL = range(4)
ALWAYS_TRUE, ALWAYS_FALSE, EQUAL, SATISFIABLE, SEVERAL_FALSE = range(1, 6)

calls = []


def whole(name, words, answer, names=(0, 0), mode=0, entry=IMPL, result=None, scratch=None):
    """A call with as much room as it needs, where no other is said. The answer is a refusal or the words of the result."""
    words = list(words)
    if result is None:
        result = scratch = need(flat(words))
    calls.append((name, entry, mode, result, scratch, words, list(names), answer))


def refused(number, section, position):
    return number, section, position


def entries(items, width):
    """A section of tuples and groups, after its count."""
    words = [word for item in items for word in ([item] if isinstance(item, Group) else item)]
    return [size(words) // width] + words


def left(nodes, made=(), replaced=(), sequentials=(), bads=(), later=(), inputs=(), questions=(), taken=0, used=0,
         looked=0, passed=0, verdict=NOT_ONE_QUERY):
    """The words of a result. Made constants are (sort, number), replacements (node, replacement), questions (kind,
    first, second, reply); the two shared constants and the tally's count are added."""
    words = [size(nodes) // ROW_WIDTH] + list(nodes) + entries([(BIT, 0), (BIT, 1)] + list(made), 2) + entries(replaced, 2)
    for part in (sequentials, bads, later, inputs):
        words += [size(part)] + list(part)
    return words + entries(questions, 4) + [5, taken, used, looked, passed, verdict]


# --- the worked example

whole('the_worked_example', sections(EXAMPLE, bads=[3], inputs=[12]),
      left([node(STATE, WORD, name=1), node(CONST, WORD, 12), node(ULT, BIT, 6, 1), node(BAD, BIT, 4)],
           made=[(WORD, 12)], replaced=[(0, 6), (2, 4)], taken=1), HOLD_END)
whole('the_worked_example_by_with_input', sections(EXAMPLE, bads=[3], inputs=[12]),
      left([node(STATE, WORD, name=1), node(CONST, WORD, 12), node(ULT, BIT, 6, 1), node(BAD, BIT, 4)],
           made=[(WORD, 12)], replaced=[(0, 6), (2, 4)], taken=1), HOLD_END, entry=WITH_INPUT)
whole('the_worked_example_by_with_solver', sections(EXAMPLE, bads=[3], inputs=[12]),
      left(EXAMPLE, bads=[3], questions=[(SATISFIABLE, 2, 0, 0)]), HOLD_END, entry=WITH_SOLVER)
for number, more in ((11, {'bads': [3]}), (13, {})):
    # below the noon 12 the bad is reached, above it is not
    whole('the_worked_example_at_%d' % number, sections(EXAMPLE, bads=[3], inputs=[number]),
          left([node(STATE, WORD, name=1), node(CONST, WORD, 12), node(ULT, BIT, 6, 1),
                node(BAD, BIT, 5 if number < 12 else 4)],
               made=[(WORD, number)], replaced=[(0, 6), (2, 5 if number < 12 else 4)], taken=1, **more), HOLD_END)
whole('the_worked_example_at_11_under_terminate', sections(EXAMPLE, bads=[3], inputs=[11]), refused(13, 3, 0), HOLD_END,
      TERMINATE)

# --- two constants: 0 and 1 fold in 2, which is the next value of 3


def folded(name, kind, x, y, value, sort=WORD):
    nodes = [node(CONST, sort, x), node(CONST, sort, y), node(kind, sort, 0, 1), node(STATE, sort, 0, 1)]
    for entry_name, entry in ENTRIES.items():
        whole('%s_by_%s' % (name, entry_name), sections(nodes + [node(NEXT, sort, 3, 2)], [4]),
              left(nodes + [node(NEXT, sort, 3, 7)], made=[(sort, value)], replaced=[(2, 7)], sequentials=[4]),
              entry=entry)


folded('add_most_and_1_is_0', ADD, MOST, 1, 0)
folded('sub_0_and_1_is_most', SUB, 0, 1, MOST)
folded('mul_2^32_and_2^32_is_0', MUL, 2**32, 2**32, 0)
folded('div_-7_by_2_is_-3', DIV, 2**64 - 7, 2, 2**64 - 3)
folded('div_5_by_0', DIV, 5, 0, 2**63 - 1)
folded('div_least_by_-1', DIV, 2**63, MOST, 2**63 - 1)
folded('rem_5_by_0_is_most', REM, 5, 0, MOST)
folded('sll_1_by_63', SLL, 1, 63, 2**63)
folded('sll_1_by_64_is_0', SLL, 1, 64, 0)
folded('byte_and_3_and_5_stays_a_byte', AND, 3, 5, 1, BYTE)
folded('word_and_3_and_5_stays_a_word', AND, 3, 5, 1)
folded('word_or_3_and_5_stays_a_word', OR, 3, 5, 7)

BYTE_NOT = [node(CONST, BYTE, 0), node(NOT, BYTE, 0), node(STATE, BYTE, 0, 1)]
for entry_name, entry in ENTRIES.items():
    whole('byte_not_0_is_255_by_%s' % entry_name, sections(BYTE_NOT + [node(NEXT, BYTE, 2, 1)], [3]),
          left(BYTE_NOT + [node(NEXT, BYTE, 2, 6)], made=[(BYTE, 255)], replaced=[(1, 6)], sequentials=[3]),
          entry=entry)

for x, holds in ((12, 0), (11, 1), (13, 0)):
    nodes = [node(CONST, WORD, x), node(CONST, WORD, 12), node(ULT, BIT, 0, 1)]
    for entry_name, entry in ENTRIES.items():
        whole('ult_%d_and_12_by_%s' % (x, entry_name), sections(nodes + [node(BAD, BIT, 2)], later=[3]),
              left(nodes + [node(BAD, BIT, 4 + holds)], replaced=[(2, 4 + holds)], later=[3] * holds), entry=entry)

# --- write 7 at 5, write 9 at an Input, read 5

MEMORY_NODES = [
    node(INPUT, MEMORY, name=1), # 0
    node(CONST, WORD, 5),        # 1
    node(CONST, WORD, 7),        # 2
    node(WRITE, MEMORY, 0, 1, 2), # 3
    node(INPUT, WORD, name=1),   # 4
    node(CONST, WORD, 9),        # 5
    node(WRITE, MEMORY, 3, 4, 5), # 6
    node(READ, WORD, 6, 1),      # 7
    node(STATE, WORD, 1, 1),     # 8
]
A_NAME = names_of([97])
for entry_name, entry in ENTRIES.items():
    whole('read_5_past_an_unsettled_write_by_%s' % entry_name, sections(MEMORY_NODES + [node(NEXT, WORD, 8, 7)], [9]),
          left(MEMORY_NODES + [node(NEXT, WORD, 8, 2)], replaced=[(7, 2)], sequentials=[9], looked=2, passed=1), A_NAME,
          entry=entry)

# --- a byte's width

whole('byte_255_is_a_const', sections([node(CONST, BYTE, 255)]), left([node(CONST, BYTE, 255)]))
for entry_name, entry in ENTRIES.items():
    whole('byte_256_is_no_const_by_%s' % entry_name, sections([node(CONST, BYTE, 256)]), refused(5, 1, 0), entry=entry)


def taken_by(sort, last, number):
    """State 0 takes the input, and is compared with the Const 1, the last number of its sort."""
    return sections([node(STATE, sort), node(CONST, sort, last), node(EQ, BIT, 0, 1), node(BAD, BIT, 2)], bads=[3],
                    inputs=[number])


for sort in (BYTE, BYTE + 1, BYTES[-1], WORD):
    last = LARGEST[sort]
    for entry_name, entry in (('impl', IMPL), ('with_input', WITH_INPUT)):
        whole('sort_%d_takes_%d_by_%s' % (sort, last, entry_name), taken_by(sort, last, last),
              left([node(STATE, sort), node(CONST, sort, last), node(EQ, BIT, 6, 1), node(BAD, BIT, 5)],
                   made=[(sort, last)], replaced=[(0, 6), (2, 5)], bads=[3], taken=1), entry=entry)
        if sort != WORD:
            whole('sort_%d_takes_no_%d_by_%s' % (sort, last + 1, entry_name), taken_by(sort, last, last + 1),
                  refused(10, 1, 0), entry=entry)
whole('a_bit_takes_1', taken_by(BIT, 1, 1),
      left([node(STATE, BIT), node(CONST, BIT, 1), node(EQ, BIT, 6, 5), node(BAD, BIT, 5)], made=[(BIT, 1)],
           replaced=[(0, 6), (1, 5), (2, 5)], bads=[3], taken=1))
whole('a_bit_takes_no_2', taken_by(BIT, 1, 2), refused(10, 1, 0))
whole('byte_256_is_not_brought_by_with_solver', taken_by(BYTE, 255, 256),
      left([node(STATE, BYTE), node(CONST, BYTE, 255), node(EQ, BIT, 0, 1), node(BAD, BIT, 2)], bads=[3],
           questions=[(SATISFIABLE, 2, 0, 0)]), entry=WITH_SOLVER)

# --- room

EMPTY = sections()
for entry_name, entry in ENTRIES.items():
    for what, result, scratch, answer in (('room', 0, 0, left([])), ('room', 1, 1, left([])),
                                          ('result', -1, 0, refused(12, 8, 0)), ('scratch', 0, -1, refused(12, 8, 1)),
                                          ('room', -1, -1, refused(12, 8, 0))):
        whole('empty_%s_%d_by_%s' % (what, LEAST + min(result, scratch), entry_name), EMPTY, answer, entry=entry,
              result=LEAST + result, scratch=LEAST + scratch)
    whole('empty_room_0_by_%s' % entry_name, EMPTY, refused(12, 8, 0), entry=entry, result=0, scratch=0)
    whole('empty_result_0_by_%s' % entry_name, EMPTY, refused(12, 8, 0), entry=entry, result=0, scratch=ROOM)
    whole('empty_scratch_0_by_%s' % entry_name, EMPTY, refused(12, 8, 1), entry=entry, result=ROOM, scratch=0)
    whole('no_words_by_%s' % entry_name, [], refused(1, 1, 0), entry=entry, result=40, scratch=40)
    whole('no_names_by_%s' % entry_name, EMPTY, refused(1, 7, 0), [], entry=entry, result=40, scratch=40)
MODES = range(HIGHEST_MODE + 1)
for mode in MODES:
    whole('empty_mode_%d' % mode, EMPTY, left([], verdict=REMOVED_ALL if mode & ONE_QUERY else NOT_ONE_QUERY), mode=mode)
for entry_name, entry in (('impl', IMPL), ('with_solver', WITH_SOLVER)):
    whole('mode_%d_by_%s' % (HIGHEST_MODE + 1, entry_name), EMPTY, refused(1, 0, 0), mode=HIGHEST_MODE + 1, entry=entry)
    whole('mode_most_by_%s' % entry_name, EMPTY, refused(1, 0, 0), mode=MOST, entry=entry)

# A Next that is kept, one that is dropped, a bad in each list, inputs and replies.
ALL_KINDS = [
    node(CONST, WORD, 3),       # 0
    node(STATE, WORD, 0, 1),    # 1
    node(ADD, WORD, 1, 0),      # 2
    node(NEXT, WORD, 1, 2),     # 3
    node(STATE, WORD, 0, 1),    # 4
    node(NEXT, WORD, 4, 4),     # 5, dropped
    node(STATE, WORD),          # 6, takes an input
    node(ULT, BIT, 1, 6),       # 7
    node(BAD, BIT, 7, name=1),  # 8
    node(EQ, BIT, 4, 2),        # 9
    node(BAD, BIT, 9),          # 10
]
ALL_LEFT = [
    node(CONST, WORD, 3),
    node(STATE, WORD, 0, 1),
    node(ADD, WORD, 1, 0),
    node(NEXT, WORD, 1, 2),
    node(STATE, WORD, 0, 1),
    node(NEXT, WORD, 4, 4),
    node(STATE, WORD),
    node(ULT, BIT, 1, 13),
    node(BAD, BIT, 7, name=1),
    node(EQ, BIT, 0, 2),
    node(BAD, BIT, 9),
]
ALL_SECTIONS = sections(ALL_KINDS, [3, 5], [8], [10], [40, 41], [2, 1])
ALL_NEED = need(flat(ALL_SECTIONS))
ALL_RESULT = left(ALL_LEFT, [(WORD, 40)], [(4, 0), (6, 13)], [3], [8], [], [41],
                  [(SATISFIABLE, 7, 0, 2), (SATISFIABLE, 9, 0, 1)], taken=1, used=2)
for what, result, scratch, answer in (('room', 0, 0, ALL_RESULT), ('more_room', 1, 1, ALL_RESULT),
                                      ('result_one_short', -1, 0, refused(12, 8, 0)),
                                      ('scratch_one_short', 0, -1, refused(12, 8, 1)),
                                      ('both_one_short', -1, -1, refused(12, 8, 0))):
    whole('every_section_%s' % what, ALL_SECTIONS, answer, A_NAME, result=ALL_NEED + result, scratch=ALL_NEED + scratch)
whole('every_section_by_with_solver', ALL_SECTIONS,
      left(ALL_KINDS[:9] + [node(EQ, BIT, 0, 2), node(BAD, BIT, 9)], [], [(4, 0)], [3], [8], [], [],
           [(SATISFIABLE, 7, 0, 2), (SATISFIABLE, 9, 0, 1)], used=2), A_NAME, entry=WITH_SOLVER)
whole('every_section_by_with_input', ALL_SECTIONS,
      left(ALL_LEFT, [(WORD, 40)], [(4, 0), (6, 13)], [3], [8], [10], [41],
           [(SATISFIABLE, 7, 0, 0), (SATISFIABLE, 9, 0, 0)], taken=1), A_NAME, entry=WITH_INPUT)
for entry_name, entry in (('with_solver', WITH_SOLVER), ('with_input', WITH_INPUT)):
    # what is not brought needs its room all the same
    whole('every_section_result_one_short_by_%s' % entry_name, ALL_SECTIONS, refused(12, 8, 0), A_NAME, entry=entry,
          result=ALL_NEED - 1, scratch=ALL_NEED)
    whole('every_section_scratch_one_short_by_%s' % entry_name, ALL_SECTIONS, refused(12, 8, 1), A_NAME, entry=entry,
          result=ALL_NEED, scratch=ALL_NEED - 1)

# --- as many nodes as a table may have

N = MOST_NODES


def as_given(name, nodes, bads, questions, later=(), **more):
    """A table that nothing folds in."""
    whole(name, sections(nodes, bads=bads, later=later), left(nodes, bads=bads, later=later, questions=questions), A_NAME,
          **more)


A_BIT, A_WORD, A_MEMORY = (node(INPUT, sort, name=1) for sort in (BIT, WORD, MEMORY))
for entry_name, entry in ENTRIES.items():
    as_given('nodes_%d_chain_of_not_by_%s' % (N, entry_name),
             [A_BIT, node(NOT, BIT, (0, 1), times=N - 2), node(BAD, BIT, N - 2)], [N - 1], [(SATISFIABLE, N - 2, 0, 0)], entry=entry)
    whole('nodes_%d_chain_of_not_by_%s' % (N + 1, entry_name),
          sections([A_BIT, node(NOT, BIT, (0, 1), times=N - 1), node(BAD, BIT, N - 1)], bads=[N]), refused(2, 1, 0), A_NAME,
          entry=entry)
as_given('nodes_%d_chain_of_add' % N, [A_WORD, node(ADD, WORD, (0, 1), 0, times=N - 3), node(EQ, BIT, N - 3, 0),
                                       node(BAD, BIT, N - 2)], [N - 1], [(SATISFIABLE, N - 2, 0, 0)])
as_given('nodes_%d_chain_of_states' % N, [A_BIT, node(STATE, BIT, (0, 1), 1, times=N - 2), node(BAD, BIT, N - 2)],
         [N - 1], [(SATISFIABLE, N - 2, 0, 0)])
for what, operands in (('conditions', ((0, 1), 0, 0)), ('left_branches', (0, (0, 1), 0)), ('right_branches', (0, 0, (0, 1)))):
    as_given('nodes_%d_chain_of_%s' % (N, what), [A_BIT, node(ITE, BIT, *operands, times=N - 2), node(BAD, BIT, N - 2)],
             [N - 1], [(SATISFIABLE, N - 2, 0, 0)])
whole('nodes_%d_chain_of_settled_branches' % N,
      sections([A_BIT, node(CONST, BIT, 1), node(ITE, BIT, 1, 0, 0), node(ITE, BIT, 1, (2, 1), 0, times=N - 4),
                node(BAD, BIT, N - 2)], bads=[N - 1]),
      left([A_BIT, node(CONST, BIT, 1), node(ITE, BIT, N + 1, 0, 0, times=N - 3), node(BAD, BIT, 0)],
           replaced=[(1, N + 1), Group(N - 3, (2, 1), 0)], bads=[N - 1], questions=[(SATISFIABLE, 0, 0, 0)]), A_NAME)
# half of the nodes are Bads, in two lists that are full
HALF, E = N // 2, MOST_ENTRIES
assert HALF == 2 * E
as_given('nodes_%d_wide' % N, [A_BIT, node(NOT, BIT, 0, times=HALF - 1), node(BAD, BIT, (0, 1), times=HALF)],
         [Group(E, (HALF, 1))], [Group(HALF, SATISFIABLE, (0, 1), 0, 0)], [Group(E, (HALF + E, 1))])
whole('nodes_%d_all_fold' % N,
      sections([node(CONST, WORD, 0), node(NOT, WORD, (0, 1), times=N - 3), node(EQ, BIT, N - 3, 0), node(BAD, BIT, N - 2)],
               later=[N - 1]),
      left([node(CONST, WORD, 0), node(NOT, WORD, 0), node(NOT, WORD, (N + 2, 1), times=N - 4),
            node(EQ, BIT, N + N - 2, 0), node(BAD, BIT, N)],
           made=[Group(HALF - 2, WORD, MOST, WORD, 0), (WORD, MOST)],
           replaced=[Group(N - 3, (1, 1), (N + 2, 1)), (N - 2, N)]))
# writes of the word 2 at 5, each read at once: a read gives the 2, which the next write stores.
W = HALF - 4
READS = [A_MEMORY, node(CONST, WORD, 5), A_WORD, node(WRITE, MEMORY, 0, 1, 2), node(READ, WORD, 3, 1)]
LAST_READS = [node(BAD, BIT, N - 5), node(CONST, WORD, 7, times=3)]


def pairs(write, read):
    """A Write and a Read of it, again and again; operands are those of the first two, and how they grow."""
    return Group(W - 1, *row(WRITE, MEMORY, *write), *row(READ, WORD, *read))


whole('nodes_%d_each_write_read_at_once' % N,
      sections(READS + [pairs(((3, 2), 1, (4, 2)), ((5, 2), 1)), node(ULT, BIT, N - 6, 1)] + LAST_READS, bads=[N - 4]),
      left(READS + [pairs(((3, 2), 1, 2), ((5, 2), 1)), node(ULT, BIT, 2, 1)] + LAST_READS, replaced=[Group(W, (4, 2), 2)],
           bads=[N - 4], questions=[(SATISFIABLE, N - 5, 0, 0)], looked=W), A_NAME)
# The same writes, read at 6, where none of them stores: every read looks at all writes below it.
MISSES = [A_MEMORY, node(CONST, WORD, 5), A_WORD, node(CONST, WORD, 6), node(WRITE, MEMORY, 0, 1, 2),
          node(READ, WORD, 4, 3), pairs(((4, 2), 1, (5, 2)), ((6, 2), 3)), node(ULT, BIT, N - 5, 1), node(BAD, BIT, N - 4),
          node(CONST, WORD, 7, times=2)]
whole('nodes_%d_reads_that_find_nothing' % N, sections(MISSES, bads=[N - 3]),
      left(MISSES, bads=[N - 3], questions=[(SATISFIABLE, N - 4, 0, 0)], looked=W * (W + 1) // 2), A_NAME)
ANDS = [A_BIT, node(AND, BIT, (0, 1), 0, times=N - 2), node(BAD, BIT, N - 2)]
whole('nodes_%d_asked_twice_each' % N, sections(ANDS, bads=[N - 1], replies=[Group(MOST_REPLIES, 0)]),
      left(ANDS, bads=[N - 1],
           questions=[Group(N - 2, ALWAYS_TRUE, (1, 1), 0, 0, ALWAYS_FALSE, (1, 1), 0, 0), (SATISFIABLE, N - 2, 0, 0)],
           used=2 * (N - 2) + 1), A_NAME, MINIMISE)
ITES = [A_BIT, A_BIT, A_BIT, node(ITE, BIT, 0, 1, 2, times=E), node(BAD, BIT, (3, 1), times=E)]
whole('ites_%d_asked_three_times_each' % E, sections(ITES, bads=[Group(E, (E + 3, 1))], later=[Group(E, (E + 3, 1))]),
      left(ITES, bads=[Group(E, (E + 3, 1))], later=[Group(E, (E + 3, 1))],
           questions=[Group(E, ALWAYS_TRUE, (3, 1), 0, 0, ALWAYS_FALSE, (3, 1), 0, 0, EQUAL, (3, 1), 0, 0,
                            SATISFIABLE, (3, 1), 0, 0), Group(E, SATISFIABLE, (3, 1), 0, 0)]), A_NAME, MINIMISE)

# --- lists at their limits

KEPT = [node(CONST, WORD, 5), node(STATE, WORD, 0, 1, times=E), node(CONST, WORD, 6), node(NEXT, WORD, (1, 1), E + 1, times=E)]
whole('sequentials_%d_kept' % E, sections(KEPT, [Group(E, (E + 2, 1))]), left(KEPT, sequentials=[Group(E, (E + 2, 1))]))
DROPPED = [node(CONST, WORD, 5), node(STATE, WORD, 0, 1, times=E), node(NEXT, WORD, (1, 1), 0, times=E)]
whole('sequentials_%d_dropped' % E, sections(DROPPED, [Group(E, (E + 1, 1))]), left(DROPPED, replaced=[Group(E, (1, 1), 0)]))
whole('inputs_%d_taken' % E,
      sections([node(STATE, BIT, times=E), node(BAD, BIT, (0, 1), times=E)], bads=[Group(E, (E, 1))],
               inputs=[Group(E // 2, 1, 0), 9]),
      left([node(STATE, BIT, times=E), node(BAD, BIT, (2 * E + 2, 1), times=E)], made=[Group(E // 2, BIT, 1, BIT, 0)],
           replaced=[Group(E, (0, 1), (2 * E + 2, 1))], bads=[Group(E // 2, (E, 2))], inputs=[9], taken=E))
FULL = DROPPED + [
    node(CONST, BIT, 1),
    node(STATE, WORD, 0, 0, 0, (1, 1), times=E - 1),
    node(INPUT, MEMORY, 0, 0, 0, (2 * E + 1, 1), times=N - 3 * E - 2),
]
whole('every_count_at_its_limit',
      sections(FULL + [node(BAD, BIT, 2 * E + 1, name=MOST_NAMES)], [Group(E, (E + 1, 1))], [Group(E, N - 1)], [Group(E, N - 1)],
               [Group(MOST_INPUTS, MOST)], [Group(MOST_REPLIES, MOST)]),
      left(FULL + [node(BAD, BIT, N + 1, name=MOST_NAMES)], replaced=[Group(E, (1, 1), 0), (2 * E + 1, N + 1)],
           bads=[Group(E, N - 1)], later=[Group(E, N - 1)], inputs=[Group(MOST_INPUTS, MOST)]),
      [*names_count(MOST_NAMES), Group(MOST_NAMES, 0)], result=ROOM, scratch=ROOM)

# --- refusals met in the walk, after much was written

CHAIN_THEN_TRUE = [A_BIT, node(NOT, BIT, (0, 1), times=N - 4), node(BAD, BIT, N - 4), node(CONST, BIT, 1), node(BAD, BIT, N - 2)]
for entry_name, entry in (('impl', IMPL), ('with_solver', WITH_SOLVER)):
    whole('bad_always_true_after_%d_nodes_by_%s' % (N - 2, entry_name),
          sections(CHAIN_THEN_TRUE, bads=[N - 3], later=[N - 1]), refused(13, 4, 0), A_NAME, TERMINATE, entry)
whole('bad_always_true_after_%d_nodes_without_terminate' % (N - 2), sections(CHAIN_THEN_TRUE, bads=[N - 3], later=[N - 1]),
      left(CHAIN_THEN_TRUE[:4] + [node(BAD, BIT, N + 1)], replaced=[(N - 2, N + 1)], bads=[N - 3], later=[N - 1],
           questions=[(SATISFIABLE, N - 4, 0, 0)]), A_NAME)
whole('bad_always_true_by_with_input', sections(CHAIN_THEN_TRUE, bads=[N - 1]),
      left(CHAIN_THEN_TRUE[:4] + [node(BAD, BIT, N + 1)], replaced=[(N - 2, N + 1)], bads=[N - 1]), A_NAME, entry=WITH_INPUT)
FALSE_OPEN_TRUE = [node(CONST, BIT, 0), A_BIT, node(CONST, BIT, 1), node(BAD, BIT, 0), node(BAD, BIT, 1), node(BAD, BIT, 2)]
false, open_, true = 3, 4, 5
for section, part in ((3, 'bads'), (4, 'later')):
    whole('section_%d_third_is_always_true' % section, sections(FALSE_OPEN_TRUE, **{part: [false, open_, true]}),
          refused(13, section, 2), A_NAME, TERMINATE)
    whole('section_%d_second_time_satisfiable' % section,
          sections(FALSE_OPEN_TRUE, replies=[0, 2], **{part: [open_, false, open_]}), refused(14, section, 2), A_NAME,
          TERMINATE)
    whole('section_%d_satisfiable_without_terminate' % section,
          sections(FALSE_OPEN_TRUE, replies=[2, 1, 2], **{part: [open_, open_, open_]}),
          left(FALSE_OPEN_TRUE, questions=[(SATISFIABLE, 1, 0, 2), (SATISFIABLE, 1, 0, 1), (SATISFIABLE, 1, 0, 2)], used=3,
               **{part: [open_, open_]}), A_NAME)
whole('satisfiable_before_always_true', sections(FALSE_OPEN_TRUE, bads=[open_], later=[true], replies=[2]),
      refused(14, 3, 0), A_NAME, TERMINATE)
whole('always_true_before_satisfiable', sections(FALSE_OPEN_TRUE, bads=[true], later=[open_], replies=[2]),
      refused(13, 3, 0), A_NAME, TERMINATE)
whole('satisfiable_after_%d_nodes' % (N - 2), sections(CHAIN_THEN_TRUE, bads=[N - 3], replies=[2]), refused(14, 3, 0), A_NAME,
      TERMINATE)
for reply in (3, 4, 2**32, MOST):
    whole('reply_%d_to_the_fourth_question' % reply,
          sections(FALSE_OPEN_TRUE, bads=[open_] * 4, replies=[2, 1, 0, reply, 1]), refused(11, 6, 3), A_NAME)
whole('reply_never_asked_for', sections(FALSE_OPEN_TRUE, bads=[open_] * 3, replies=[2, 1, 0, MOST]),
      left(FALSE_OPEN_TRUE, bads=[open_, open_],
           questions=[(SATISFIABLE, 1, 0, 2), (SATISFIABLE, 1, 0, 1), (SATISFIABLE, 1, 0, 0)], used=3), A_NAME)
whole('reply_not_brought_by_with_input', sections(FALSE_OPEN_TRUE, bads=[open_], replies=[MOST]),
      left(FALSE_OPEN_TRUE, bads=[open_], questions=[(SATISFIABLE, 1, 0, 0)]), A_NAME, entry=WITH_INPUT)
whole('reply_refused_by_with_solver', sections(FALSE_OPEN_TRUE, bads=[open_], replies=[MOST]), refused(11, 6, 0), A_NAME,
      entry=WITH_SOLVER)
whole('reply_after_%d_nodes' % (N - 2), sections(CHAIN_THEN_TRUE, bads=[N - 3], replies=[3]), refused(11, 6, 0), A_NAME)

# --- states that take no input


def a_read(name):
    return [node(STATE, MEMORY, name=name), node(CONST, WORD, 5), node(READ, WORD, 0, 1), node(ULT, BIT, 2, 1), node(BAD, BIT, 3)]


DUMP = names_of(list(b'memory-dump-0'))
for entry_name, entry in (('impl', IMPL), ('with_input', WITH_INPUT)):
    whole('memory_takes_no_input_by_%s' % entry_name, sections(a_read(0), bads=[4], inputs=[7]), refused(8, 1, 0),
          entry=entry)
    whole('a_memory_dump_takes_no_input_by_%s' % entry_name, sections(a_read(1), bads=[4], inputs=[7]),
          left(a_read(1), bads=[4], inputs=[7], questions=[(SATISFIABLE, 3, 0, 0)]), DUMP, entry=entry)
whole('memory_input_not_brought_by_with_solver', sections(a_read(0), bads=[4], inputs=[7]),
      left(a_read(0), bads=[4], questions=[(SATISFIABLE, 3, 0, 0)]), entry=WITH_SOLVER)
whole('memory_no_input_left', sections(a_read(0), bads=[4]), left(a_read(0), bads=[4], questions=[(SATISFIABLE, 3, 0, 0)]))
whole('memory_named_otherwise', sections(a_read(1), bads=[4], inputs=[7]), refused(8, 1, 0), names_of(list(b'Memory-dump')))
TWO_STATES = [node(STATE, WORD, name=1), node(STATE, WORD, name=2), node(ULT, BIT, 0, 1), node(BAD, BIT, 2)]
whole('the_input_goes_past_a_memory_dump', sections(TWO_STATES, bads=[3], inputs=[7, 8]),
      left([node(STATE, WORD, name=1), node(STATE, WORD, name=2), node(ULT, BIT, 0, 6), node(BAD, BIT, 2)],
           made=[(WORD, 7)], replaced=[(1, 6)], bads=[3], inputs=[8], questions=[(SATISFIABLE, 2, 0, 0)], taken=1),
      names_of(list(b'memory-dump'), list(b'memory-dum')))

# --- a settled Ite visits one branch: the State of the other takes no input

for value in (0, 1):
    branches = (1, 2) if value else (2, 1)
    chosen = (7, 2) if value else (2, 7)
    before = [node(CONST, BIT, value), node(CONST, BIT, 0), node(STATE, BIT)]
    whole('settled_ite_at_%d_loses_no_input' % value,
          sections(before + [node(ITE, BIT, 0, *branches), node(BAD, BIT, 3), node(STATE, BIT), node(BAD, BIT, 5)],
                   bads=[4, 6], inputs=[1]),
          left(before + [node(ITE, BIT, 7 + value, *chosen), node(BAD, BIT, 7), node(STATE, BIT), node(BAD, BIT, 9)],
               made=[(BIT, 1)], replaced=[(0, 7 + value), (1, 7), (3, 7), (5, 9)], bads=[6], taken=1))

# --- a kept Next visits its state, and below that an input is taken and a question put: the Ult is the init of 3, whose Next is 5

KEPT = [A_WORD, node(STATE, WORD), node(ULT, BIT, 0, 1), node(STATE, BIT, 2, 1), node(CONST, BIT, 1), node(NEXT, BIT, 3, 4)]
OPEN_INIT = [(ALWAYS_TRUE, 2, 0, 0), (ALWAYS_FALSE, 2, 0, 0)]


def next_kept(taken, init):
    """The rows after it: what stands for the state 1, and for the init."""
    return [A_WORD, node(STATE, WORD), node(ULT, BIT, 0, taken), node(STATE, BIT, init, 1), node(CONST, BIT, 1),
            node(NEXT, BIT, 3, 7)]


for mode in MODES:
    whole('kept_next_visits_its_state_in_mode_%d' % mode, sections(KEPT, [5], inputs=[7]),
          left(next_kept(8, 2), made=[(WORD, 7)], replaced=[(1, 8), (4, 7)], sequentials=[5],
               questions=OPEN_INIT if mode & MINIMISE else [], taken=1,
               verdict=REMOVED_ALL if mode & ONE_QUERY else NOT_ONE_QUERY), A_NAME, mode)
whole('kept_next_with_an_init_that_is_true', sections(KEPT, [5], inputs=[7], replies=[1]),
      left(next_kept(8, 7), made=[(WORD, 7)], replaced=[(1, 8), (2, 7), (4, 7)], sequentials=[5],
           questions=[(ALWAYS_TRUE, 2, 0, 1)], taken=1, used=1), A_NAME, MINIMISE)
whole('kept_next_with_an_init_that_is_true_by_with_solver', sections(KEPT, [5], inputs=[7], replies=[1]),
      left(next_kept(1, 7), replaced=[(2, 7), (4, 7)], sequentials=[5], questions=[(ALWAYS_TRUE, 2, 0, 1)], used=1), A_NAME,
      MINIMISE, WITH_SOLVER)
whole('kept_next_visits_its_state_by_with_input', sections(KEPT, [5], inputs=[7], replies=[1]),
      left(next_kept(8, 2), made=[(WORD, 7)], replaced=[(1, 8), (4, 7)], sequentials=[5], taken=1), A_NAME, entry=WITH_INPUT)
whole('reply_2_below_the_state_of_a_kept_next', sections(KEPT, [5], inputs=[7], replies=[0, 2]), refused(11, 6, 1), A_NAME,
      MINIMISE)
for sort, number, answer in ((BIT, 2, refused(10, 1, 0)), (MEMORY, 0, refused(8, 1, 0))):
    whole('refusal_%d_below_the_state_of_a_kept_next' % answer[0],
          sections([node(STATE, sort), node(STATE, sort, 0, 1), node(STATE, sort), node(NEXT, sort, 1, 2)], [3],
                   inputs=[number]), answer)
# the two ways to a replaced state are refused before the walk: a second Next of a state whose first is dropped, and a state without an init
TWO_NEXTS = [node(CONST, WORD, 3), node(STATE, WORD, 0, 1), node(CONST, WORD, 5), node(NEXT, WORD, 1, 1),
             node(NEXT, WORD, 1, 2)]
NO_INIT = [node(STATE, WORD), node(CONST, WORD, 5), node(NEXT, WORD, 0, 1)]
for mode in MODES:
    whole('dropped_and_second_next_in_mode_%d' % mode, sections(TWO_NEXTS, [3, 4]), refused(7, 2, 1), mode=mode)
    whole('kept_and_second_next_in_mode_%d' % mode, sections(TWO_NEXTS, [4, 3]), refused(7, 2, 1), mode=mode)
    whole('next_of_a_state_without_init_in_mode_%d' % mode, sections(NO_INIT, [2], inputs=[7]), refused(6, 2, 0), mode=mode)
for entry_name, entry in (('with_solver', WITH_SOLVER), ('with_input', WITH_INPUT)):
    whole('dropped_and_second_next_by_%s' % entry_name, sections(TWO_NEXTS, [3, 4]), refused(7, 2, 1), entry=entry)
    whole('next_of_a_state_without_init_by_%s' % entry_name, sections(NO_INIT, [2], inputs=[7]), refused(6, 2, 0),
          entry=entry)

# --- one-query: Bad 1 and Bad 5 are open, Bad 3 never holds, Bad 7 always does

ASKED = [A_BIT, node(BAD, BIT, 0), node(CONST, BIT, 0), node(BAD, BIT, 2), A_BIT, node(BAD, BIT, 4), node(CONST, BIT, 1),
         node(BAD, BIT, 6)]
ASKED_LEFT = [A_BIT, node(BAD, BIT, 0), node(CONST, BIT, 0), node(BAD, BIT, 8), A_BIT, node(BAD, BIT, 4),
              node(CONST, BIT, 1), node(BAD, BIT, 6)]
LATER = [7, 3, 3, 1]
for mode in (ONE_QUERY, ONE_QUERY + TERMINATE, ONE_QUERY + MINIMISE):
    for reply, verdict in ((0, FOUND), (1, NOT_FOUND)):
        whole('mode_%d_one_bad_left_reply_%d' % (mode, reply), sections(ASKED, bads=[3, 1], later=LATER, replies=[reply]),
              left(ASKED_LEFT, replaced=[(2, 8)], bads=[1], later=LATER, questions=[(ALWAYS_FALSE, 1, 0, reply)], used=1,
                   verdict=verdict), A_NAME, mode)
        whole('mode_%d_three_bads_left_reply_%d' % (mode, reply),
              sections(ASKED, bads=[1, 5, 3, 1], later=LATER, replies=[reply]),
              left(ASKED_LEFT, replaced=[(2, 8)], bads=[1, 5, 1], later=LATER, questions=[(SEVERAL_FALSE, 3, 0, reply)],
                   used=1, verdict=verdict), A_NAME, mode)
    whole('mode_%d_no_reply' % mode, sections(ASKED, bads=[1], later=LATER),
          left(ASKED, bads=[1], later=LATER, questions=[(ALWAYS_FALSE, 1, 0, 0)], verdict=FOUND), A_NAME, mode)
    whole('mode_%d_folding_removed_all' % mode, sections(ASKED, bads=[3, 3], later=LATER, replies=[1]),
          left(ASKED_LEFT, replaced=[(2, 8)], later=LATER, verdict=REMOVED_ALL), A_NAME, mode)
    whole('mode_%d_no_bads' % mode, sections(ASKED, later=LATER, replies=[1]),
          left(ASKED, later=LATER, verdict=REMOVED_ALL), A_NAME, mode)
    whole('mode_%d_always_true' % mode, sections(ASKED, bads=[1, 3, 7], later=LATER), refused(13, 3, 2), A_NAME, mode)
    whole('mode_%d_reply_2_about_one' % mode, sections(ASKED, bads=[1], replies=[2]), refused(11, 6, 0), A_NAME, mode)
    whole('mode_%d_reply_2_about_several' % mode, sections(ASKED, bads=[1, 5], replies=[2]), refused(11, 6, 0), A_NAME,
          mode)
    whole('mode_%d_by_with_solver' % mode, sections(ASKED, bads=[1], later=LATER, inputs=[1], replies=[1]),
          left(ASKED, bads=[1], later=LATER, questions=[(ALWAYS_FALSE, 1, 0, 1)], used=1, verdict=NOT_FOUND), A_NAME, mode,
          WITH_SOLVER)

# --- minimise

for kind_name, kind, operand in (('ult', ULT, A_WORD), ('eq', EQ, A_WORD), ('and', AND, A_BIT)):
    nodes = [operand, operand, node(kind, BIT, 0, 1)]
    whole('minimise_%s_open' % kind_name, sections(nodes + [node(BAD, BIT, 2)], bads=[3], replies=[0, 0, 2]),
          left(nodes + [node(BAD, BIT, 2)], bads=[3],
               questions=[(ALWAYS_TRUE, 2, 0, 0), (ALWAYS_FALSE, 2, 0, 0), (SATISFIABLE, 2, 0, 2)], used=3), A_NAME, MINIMISE)
    whole('minimise_%s_always_true' % kind_name, sections(nodes + [node(BAD, BIT, 2)], bads=[3], replies=[1]),
          left(nodes + [node(BAD, BIT, 5)], replaced=[(2, 5)], bads=[3], questions=[(ALWAYS_TRUE, 2, 0, 1)], used=1), A_NAME,
          MINIMISE)
    whole('minimise_%s_always_true_under_terminate' % kind_name,
          sections(nodes + [node(BAD, BIT, 2)], bads=[3], replies=[1]), refused(13, 3, 0), A_NAME, MINIMISE + TERMINATE)
    whole('minimise_%s_always_false' % kind_name, sections(nodes + [node(BAD, BIT, 2)], bads=[3], replies=[0, 1]),
          left(nodes + [node(BAD, BIT, 4)], replaced=[(2, 4)],
               questions=[(ALWAYS_TRUE, 2, 0, 0), (ALWAYS_FALSE, 2, 0, 1)], used=2), A_NAME, MINIMISE)
    whole('minimise_%s_reply_2' % kind_name, sections(nodes + [node(BAD, BIT, 2)], bads=[3], replies=[0, 2]),
          refused(11, 6, 1), A_NAME, MINIMISE)
    whole('minimise_%s_by_with_solver' % kind_name,
          sections(nodes + [node(BAD, BIT, 2)], bads=[3], inputs=[9], replies=[0, 1]),
          left(nodes + [node(BAD, BIT, 4)], replaced=[(2, 4)],
               questions=[(ALWAYS_TRUE, 2, 0, 0), (ALWAYS_FALSE, 2, 0, 1)], used=2), A_NAME, MINIMISE, WITH_SOLVER)
    whole('minimise_%s_not_by_with_input' % kind_name,
          sections(nodes + [node(BAD, BIT, 2)], bads=[3], inputs=[9], replies=[1]),
          left(nodes + [node(BAD, BIT, 2)], bads=[3], inputs=[9], questions=[(SATISFIABLE, 2, 0, 0)]), A_NAME,
          entry=WITH_INPUT)

BIT_ITE = [A_BIT, A_BIT, A_BIT, node(ITE, BIT, 0, 1, 2)]
whole('minimise_bit_ite_open', sections(BIT_ITE + [node(BAD, BIT, 3)], bads=[4]),
      left(BIT_ITE + [node(BAD, BIT, 3)], bads=[4],
           questions=[(ALWAYS_TRUE, 3, 0, 0), (ALWAYS_FALSE, 3, 0, 0), (EQUAL, 3, 0, 0), (SATISFIABLE, 3, 0, 0)]), A_NAME,
      MINIMISE)
whole('minimise_bit_ite_is_its_condition', sections(BIT_ITE + [node(BAD, BIT, 3)], bads=[4], replies=[0, 0, 1]),
      left(BIT_ITE + [node(BAD, BIT, 0)], replaced=[(3, 0)], bads=[4],
           questions=[(ALWAYS_TRUE, 3, 0, 0), (ALWAYS_FALSE, 3, 0, 0), (EQUAL, 3, 0, 1), (SATISFIABLE, 0, 0, 0)], used=3),
      A_NAME, MINIMISE)
WORD_ITE = [A_BIT, A_WORD, A_WORD, node(ITE, WORD, 0, 1, 2)]
OPEN_ULT = [(ALWAYS_TRUE, 4, 0, 0), (ALWAYS_FALSE, 4, 0, 0), (SATISFIABLE, 4, 0, 0)]
for what, replies, stands, asked in (
        ('open', [], 3, [(EQUAL, 3, 1, 0), (EQUAL, 3, 2, 0)]), ('is_its_left', [1], 1, [(EQUAL, 3, 1, 1)]),
        ('is_its_right', [0, 1], 2, [(EQUAL, 3, 1, 0), (EQUAL, 3, 2, 1)])):
    whole('minimise_word_ite_%s' % what,
          sections(WORD_ITE + [node(ULT, BIT, 3, 1), node(BAD, BIT, 4)], bads=[5], replies=replies),
          left(WORD_ITE + [node(ULT, BIT, stands, 1), node(BAD, BIT, 4)], replaced=[(3, stands)] if stands != 3 else [],
               bads=[5], questions=asked + OPEN_ULT, used=len(replies)), A_NAME, MINIMISE)
BYTE_ITE = [A_BIT, node(INPUT, BYTE, name=1), node(INPUT, BYTE, name=1), node(ITE, BYTE, 0, 1, 2), node(OR, BYTE, 3, 1),
            node(EXT, WORD, 4, BYTE), node(NOT, BIT, 0), node(OR, BIT, 6, 0)]
whole('minimise_asks_nothing_about_bytes_or_not', sections(BYTE_ITE + [node(ULT, BIT, 5, 5), node(BAD, BIT, 8), node(BAD, BIT, 7)],
                                                           bads=[9, 10]),
      left(BYTE_ITE + [node(ULT, BIT, 5, 5), node(BAD, BIT, 8), node(BAD, BIT, 7)], bads=[9, 10],
           questions=[(ALWAYS_TRUE, 8, 0, 0), (ALWAYS_FALSE, 8, 0, 0), (SATISFIABLE, 8, 0, 0), (SATISFIABLE, 7, 0, 0)]),
      A_NAME, MINIMISE)

# --- And and Or: a made constant has the node's sort. As above 0 and 1 fold in 2, which is the next value of 3


def bits(name, kind, sort, x, y, stands, made=()):
    nodes = [node(CONST, sort, x), node(CONST, sort, y), node(kind, sort, 0, 1), node(STATE, sort, 0, 1)]
    whole('%s_sort_%d_%s' % ('and' if kind == AND else 'or', sort, name), sections(nodes + [node(NEXT, sort, 3, 2)], [4]),
          left(nodes + [node(NEXT, sort, 3, stands)], made=made, replaced=[(2, stands)], sequentials=[4]))


FIRST, SECOND, MADE = 0, 1, 7
TOPS = {sort: LARGEST[sort] for sort in (*BYTES, WORD)}
for sort, top in TOPS.items():
    half = (top + 1) // 2
    bits('top_less_1_and_2', AND, sort, top - 1, 2, MADE, [(sort, 2)])
    bits('top_less_1_and_itself', AND, sort, top - 1, top - 1, MADE, [(sort, top - 1)])
    bits('top_less_1_and_1_is_0', AND, sort, top - 1, 1, MADE, [(sort, 0)])
    bits('top_half_and_1', OR, sort, half, 1, MADE, [(sort, half + 1)])
    bits('1_and_itself', OR, sort, 1, 1, MADE, [(sort, 1)])
    bits('top_less_1_and_1_is_top', OR, sort, top - 1, 1, MADE, [(sort, top)])
    # an operand stands for it: nothing is made
    bits('left_zero', AND, sort, 0, 5, FIRST)
    bits('right_zero', AND, sort, 5, 0, SECOND)
    bits('left_top', AND, sort, top, 5, SECOND)
    bits('right_top', AND, sort, 5, top, FIRST)
    bits('left_zero', OR, sort, 0, 5, SECOND)
    bits('right_zero', OR, sort, 5, 0, FIRST)
    bits('left_top', OR, sort, top, 5, FIRST)
    bits('right_top', OR, sort, 5, top, SECOND)
for narrower, sort in zip(TOPS, (*BYTES[1:], WORD)):
    # the top of a narrower sort is not all ones
    bits('top_of_%d_and_1' % narrower, AND, sort, TOPS[narrower], 1, MADE, [(sort, 1)])
    bits('top_of_%d_and_1' % narrower, OR, sort, TOPS[narrower], 1, MADE, [(sort, TOPS[narrower])])
bits('255_and_65280_is_0', AND, BYTE + 1, 255, 65280, MADE, [(BYTE + 1, 0)])
bits('255_and_65280_is_top', OR, BYTE + 1, 255, 65280, MADE, [(BYTE + 1, 65535)])
for kind_name, kind, values in (('and', AND, (0, 0, 0, 1)), ('or', OR, (0, 1, 1, 1))):
    # of two bits none is made: 0 or 1 always is all zeros or all ones, and the shared constants stand for both
    for x, y, value in zip((0, 0, 1, 1), (0, 1, 0, 1), values):
        nodes = [node(CONST, BIT, x), node(CONST, BIT, y)]
        whole('bit_%s_%d_and_%d_makes_none' % (kind_name, x, y),
              sections(nodes + [node(kind, BIT, 0, 1), node(BAD, BIT, 2)], bads=[3]),
              left(nodes + [node(kind, BIT, 4 + x, 4 + y), node(BAD, BIT, 4 + value)],
                   replaced=[(0, 4 + x), (1, 4 + y), (2, 4 + value)], bads=[3] * value))

# --- who reads on the byte 1 that an And of 3 and 5 makes; 2 is the And

MADE_1 = [node(CONST, BYTE, 3), node(CONST, BYTE, 5), node(AND, BYTE, 0, 1)]
A_BYTE = node(INPUT, BYTE, name=1)
for mode in (0, MINIMISE):
    as_mode = '_in_mode_%d' % mode
    # the next value of a State of bytes
    held = [node(STATE, BYTE, 0, 1)]
    whole('not_of_a_made_byte' + as_mode, sections(MADE_1 + [node(NOT, BYTE, 2)] + held + [node(NEXT, BYTE, 4, 3)], [5]),
          left(MADE_1 + [node(NOT, BYTE, 8)] + held + [node(NEXT, BYTE, 4, 9)], made=[(BYTE, 1), (BYTE, 254)],
               replaced=[(2, 8), (3, 9)], sequentials=[5]), mode=mode)
    for what, kind, other, stands, made in (
            ('or_of_8', OR, 8, 10, [(BYTE, 9)]), ('and_of_7', AND, 7, 10, [(BYTE, 1)]), ('or_of_0', OR, 0, 9, []),
            ('and_of_255', AND, 255, 9, []), ('and_of_0', AND, 0, 3, []), ('or_of_255', OR, 255, 3, [])):
        over = MADE_1 + [node(CONST, BYTE, other)]
        whole('%s_and_a_made_byte' % what + as_mode,
              sections(over + [node(kind, BYTE, 3, 2)] + held + [node(NEXT, BYTE, 5, 4)], [6]),
              left(over + [node(kind, BYTE, 3, 9)] + held + [node(NEXT, BYTE, 5, stands)], made=[(BYTE, 1)] + made,
                   replaced=[(2, 9), (4, stands)], sequentials=[6]), mode=mode)
    for value, branches, chosen in ((1, (2, 0), (9, 0)), (0, (0, 2), (0, 9))):
        over = MADE_1 + [node(CONST, BIT, value)]
        whole('ite_at_%d_is_a_made_byte' % value + as_mode,
              sections(over + [node(ITE, BYTE, 3, *branches)] + held + [node(NEXT, BYTE, 5, 4)], [6]),
              left(over + [node(ITE, BYTE, 7 + value, *chosen)] + held + [node(NEXT, BYTE, 5, 9)], made=[(BYTE, 1)],
                   replaced=[(2, 9), (3, 7 + value), (4, 9)], sequentials=[6]), mode=mode)
    whole('open_ite_of_a_made_byte' + as_mode,
          sections(MADE_1 + [A_BIT, node(ITE, BYTE, 3, 2, 0)] + held + [node(NEXT, BYTE, 5, 4)], [6]),
          left(MADE_1 + [A_BIT, node(ITE, BYTE, 3, 9, 0)] + held + [node(NEXT, BYTE, 5, 4)], made=[(BYTE, 1)],
               replaced=[(2, 9)], sequentials=[6]), A_NAME, mode)
    # a word again, with the operand's sort in the Ext's row
    word = [node(CONST, WORD, 0), node(STATE, WORD, 4, 1)]
    whole('ext_of_a_made_byte_is_a_word' + as_mode,
          sections(MADE_1 + [node(EXT, WORD, 2, BYTE)] + word + [node(NEXT, WORD, 5, 3)], [6]),
          left(MADE_1 + [node(EXT, WORD, 9, BYTE)] + word + [node(NEXT, WORD, 5, 10)], made=[(BYTE, 1), (WORD, 1)],
               replaced=[(2, 9), (3, 10)], sequentials=[6]), mode=mode)
    # an init, with another next value
    whole('made_byte_is_an_init' + as_mode, sections(MADE_1 + [node(STATE, BYTE, 2, 1), node(NEXT, BYTE, 3, 0)], [4]),
          left(MADE_1 + [node(STATE, BYTE, 7, 1), node(NEXT, BYTE, 3, 0)], made=[(BYTE, 1)], replaced=[(2, 7)],
               sequentials=[4]), mode=mode)
    # tests fold, and nothing is asked
    for kind_name, kind, other, holds in (('eq', EQ, 1, 1), ('eq', EQ, 2, 0), ('ult', ULT, 2, 1), ('ult', ULT, 1, 0)):
        over = MADE_1 + [node(CONST, BYTE, other)]
        whole('%s_of_a_made_byte_and_%d' % (kind_name, other) + as_mode,
              sections(over + [node(kind, BIT, 2, 3), node(BAD, BIT, 4)], bads=[5]),
              left(over + [node(kind, BIT, 8, 3), node(BAD, BIT, 6 + holds)], made=[(BYTE, 1)],
                   replaced=[(2, 8), (4, 6 + holds)], bads=[5] * holds), mode=mode)
    for kind_name, kind in (('eq', EQ), ('ult', ULT)):
        whole('open_%s_of_a_made_byte' % kind_name + as_mode,
              sections(MADE_1 + [A_BYTE, node(kind, BIT, 2, 3), node(BAD, BIT, 4)], bads=[5]),
              left(MADE_1 + [A_BYTE, node(kind, BIT, 8, 3), node(BAD, BIT, 4)], made=[(BYTE, 1)], replaced=[(2, 8)], bads=[5],
                   questions=([(ALWAYS_TRUE, 4, 0, 0), (ALWAYS_FALSE, 4, 0, 0)] if mode else []) + [(SATISFIABLE, 4, 0, 0)]),
              A_NAME, mode)
    # the And as the init of a State whose Next is dropped: as it stands and unvisited, also where a visit makes its constant later
    dropped = MADE_1 + [node(STATE, BYTE, 2, 1), node(NEXT, BYTE, 3, 3)]
    whole('byte_and_as_the_init_of_a_dropped_state' + as_mode, sections(dropped, [4]), left(dropped, replaced=[(3, 2)]),
          mode=mode)
    whole('byte_and_as_that_init_and_visited' + as_mode,
          sections(dropped + [node(ULT, BIT, 3, 2), node(BAD, BIT, 5)], [4], [6]),
          left(dropped + [node(ULT, BIT, 2, 9), node(BAD, BIT, 5)], made=[(BYTE, 1)], replaced=[(2, 9), (3, 2)], bads=[6],
               questions=([(ALWAYS_TRUE, 5, 0, 0), (ALWAYS_FALSE, 5, 0, 0)] if mode else []) + [(SATISFIABLE, 5, 0, 0)]),
          mode=mode)

# a State takes an input, and an And reads on what was made for it: two constants of one sort
for sort, top in TOPS.items():
    nodes = [node(CONST, sort, 2), node(STATE, sort)]
    whole('and_sort_%d_of_an_input' % sort,
          sections(nodes + [node(AND, sort, 1, 0), node(EQ, BIT, 2, 0), node(BAD, BIT, 3)], bads=[4], inputs=[top - 1]),
          left(nodes + [node(AND, sort, 7, 0), node(EQ, BIT, 8, 0), node(BAD, BIT, 6)], made=[(sort, top - 1), (sort, 2)],
               replaced=[(1, 7), (2, 8), (3, 6)], bads=[4], taken=1))
# a constant for each of as many Ands of bytes as there can be: 1 of 3 and 5, then 1 of that 1 and 3
whole('nodes_%d_byte_ands_all_fold' % N,
      sections(MADE_1 + [node(AND, BYTE, (2, 1), 0, times=N - 5), node(EQ, BIT, N - 3, 0), node(BAD, BIT, N - 2)],
               later=[N - 1]),
      left(MADE_1 + [node(AND, BYTE, (N + 2, 1), 0, times=N - 5), node(EQ, BIT, N + N - 3, 0), node(BAD, BIT, N)],
           made=[Group(N - 4, BYTE, 1)], replaced=[Group(N - 4, (2, 1), (N + 2, 1)), (N - 2, N)]))

# --- wrong answers, each in one small way: who overlooks it counts too few. The list cannot say of scratch, or of the words after the
# result, that they are not 0.

DONE = (0, 0, 0)
ALL_WORDS = flat(ALL_RESULT)
EMPTY_WORDS = left([])


def but(words, place, more):
    """The words with another one at that place; -1 is the last."""
    changed = list(words)
    changed[place] += more
    return changed


def kept_as(answer):
    """The refusal and the words of the result that the list has for an answer; a wrong one is both."""
    if isinstance(answer, list):
        return DONE, answer
    return answer if len(answer) == 2 else (answer, [])


def plain(answer):
    refusal, words = kept_as(answer)
    return refusal, flat(words)


def wrong_call(what, name, refusal, words=()):
    return wrong(calls, what, name, (refusal, words), plain)


def wrong_sort(what, name, constant, sort):
    """That case with another sort for its last made constant, which is (sort, number)."""
    words = flat(next(call for call in calls if call[0] == name)[-1])
    at = cut(words, (ROW_WIDTH, 2))[1] - 2
    assert (words[at], words[at + 1]) == constant, name
    return wrong_call(what, name, DONE, words[:at] + [sort] + words[at + 1:])


wrong_calls = [
    wrong_call('first_word', 'every_section_room', DONE, but(ALL_WORDS, 0, 1)),
    wrong_call('middle_word', 'every_section_room', DONE, but(ALL_WORDS, len(ALL_WORDS) // 2, 1)),
    wrong_call('last_word', 'every_section_room', DONE, but(ALL_WORDS, -1, 1)),
    wrong_call('highest_bit_of_a_word', 'every_section_room', DONE, but(ALL_WORDS, -2, 2**63)),
    wrong_call('last_word_of_an_empty_result', 'empty_room_%d_by_with_solver' % LEAST, DONE, but(EMPTY_WORDS, -1, 1)),
    # a word that is 0 stands after the result as well, so that the count alone is wrong
    wrong_call('one_word_missing', 'every_section_room', DONE, ALL_WORDS[:-1]),
    wrong_call('one_word_more', 'every_section_room', DONE, ALL_WORDS + [0]),
    wrong_call('one_word_more_is_not_0', 'every_section_more_room', DONE, ALL_WORDS + [1]),
    wrong_call('more_words_than_room', 'empty_room_%d_by_impl' % LEAST, DONE, EMPTY_WORDS + [0] * 5),
    wrong_call('all_words_missing', 'empty_room_%d_by_impl' % LEAST, DONE),
    wrong_call('accepted_with_a_number', 'every_section_room', (1, 0, 0), ALL_WORDS),
    wrong_call('accepted_with_a_section', 'every_section_room', (0, 1, 0), ALL_WORDS),
    wrong_call('accepted_with_a_position', 'every_section_room', (0, 0, 1), ALL_WORDS),
    wrong_call('accepted_as_refused', 'empty_room_%d_by_impl' % LEAST, (12, 8, 0)),
    wrong_call('number_one_more', 'section_3_third_is_always_true', (14, 3, 2)),
    wrong_call('section_one_more', 'section_3_third_is_always_true', (13, 4, 2)),
    wrong_call('position_one_less', 'section_3_third_is_always_true', (13, 3, 1)),
    wrong_call('refused_with_a_word', 'section_3_third_is_always_true', (13, 3, 2), [0]),
    wrong_call('refused_as_accepted', 'empty_result_%d_by_impl' % (LEAST - 1), DONE),
    wrong_call('refused_number_alone_as_accepted', 'mode_%d_by_impl' % (HIGHEST_MODE + 1), DONE),
    wrong_call('refused_as_accepted_with_words', 'empty_result_%d_by_impl' % (LEAST - 1), DONE, EMPTY_WORDS),
    # the refusal that is withdrawn, and a kept Next that does not visit its state
    wrong_call('refused_9', 'kept_next_visits_its_state_in_mode_0', (9, 1, 5)),
    wrong_call('state_not_visited', 'kept_next_visits_its_state_in_mode_0', DONE,
               flat(left(KEPT[:5] + [node(NEXT, BIT, 3, 7)], replaced=[(4, 7)], sequentials=[5], inputs=[7]))),
    # another sort for a made constant: a word for bytes, a byte for a word, the operand's for an Ext, one byte more
    wrong_sort('byte_and_as_a_word', 'byte_and_3_and_5_stays_a_byte_by_impl', (BYTE, 1), WORD),
    wrong_sort('or_of_7_bytes_as_a_word', 'or_sort_%d_top_half_and_1' % BYTES[-1], (BYTES[-1], 2**55 + 1), WORD),
    wrong_sort('word_and_as_a_byte', 'word_and_3_and_5_stays_a_word_by_impl', (WORD, 1), BYTE),
    wrong_sort('ext_with_its_operands_sort', 'ext_of_a_made_byte_is_a_word_in_mode_0', (WORD, 1), BYTE),
    wrong_sort('or_of_2_bytes_as_3', 'or_sort_%d_top_half_and_1' % (BYTE + 1), (BYTE + 1, 2**15 + 1), BYTE + 2),
    wrong_sort('not_of_a_byte_as_a_word', 'not_of_a_made_byte_in_mode_0', (BYTE, 254), WORD),
]


# --- the list, and the comparison

def lines():
    for name, entry, mode, result, scratch, words, names, answer in wrong_calls + calls:
        refusal, kept = kept_as(answer)
        yield '%s %d %d %d %d | %s | %s | %d %d %d | %s' % (
            (name, entry, mode, result, scratch, text(words), text(names)) + refusal + (text(kept),))


def brought(entry, mode, words):
    """The mode and the words that optimize_model_impl would have, where an entry point brings less; None where the words
    are no whole table."""
    if entry == IMPL:
        return mode, words
    parts, _ = cut(words, TABLE_WIDTHS)
    if len(parts) < len(TABLE_WIDTHS):
        return None
    if entry == WITH_SOLVER:
        return mode, sum(parts[:4], []) + [0] + parts[5]
    return 0, sum(parts[:5], []) + [0]


def compare(program):
    asked = []
    for name, entry, mode, result, scratch, words, names, answer in calls:
        call = brought(entry, mode, flat(words))
        refusal, kept = kept_as(answer)
        numbers = call and in_text_form(call[0], result, scratch, call[1], names, refusal)
        if numbers is not None:
            line = 'accepted ' + ' '.join(map(str, flat(kept))) if refusal == DONE else 'refused %d %d %d' % refusal
            asked.append((name, numbers, line))
    differing = 0
    for (name, _, answer), line in zip(asked, answers(program, [numbers for _, numbers, _ in asked])):
        if line.strip() != answer:
            differing += 1
            print('%s: here %s, there %s' % (name, answer, line))
    return told(asked, differing)


def text_form(name):
    _, _, mode, _, _, words, names, _ = next(call for call in calls if call[0] == name)
    low, high, *rest = flat(names)
    for line in ([mode], *cut(flat(words), TABLE_WIDTHS)[0], [low + 256 * high, *rest]):
        print(*line)


if __name__ == '__main__':
    main(lines, __doc__, compare=compare, text=text_form)
