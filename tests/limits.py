#!/usr/bin/env python3
"""The cases of crates/table_limits, each with the answer that docs/FORMAT.md demands.

    tests/limits.py list                the kept list, data/limits.list; oracle/regenerate writes it
    tests/limits.py compare PROGRAM     the calls that fit the text form, answered by `PROGRAM answer` (oracle/README.md)

Nothing here judges a table: every answer is written beside its case. A case named wrong_answer_.. is one of the others with an
answer that it does not have, and must be counted wrong.
"""
import subprocess
import sys

from house import (ADD, BAD, BIT, BYTE, BYTES, CONST, EXT, HIGHEST_MODE, INPUT, ITE, KINDS, LARGEST, LONGEST_NAME, MEMORY,
                   MOST_ENTRIES, MOST_INPUTS, MOST_NAMES, MOST_NODES, MOST_NUMBERS, MOST_REPLIES, NEXT, NOT, PROGRAM_NODES,
                   PROGRAM_ROOM, READ, ROW_WIDTH, STATE, TABLE_WIDTHS, ULT, WORD, WRITE, cut, names_count, room, row)

MOST = 2**64 - 1
ROOM = room(MOST_NODES, MOST_ENTRIES, 2 * MOST_ENTRIES, MOST_INPUTS)  # the largest need
LEAST = room()
ACCEPTED = (0, 0, 0)

WRONG = 'wrong_answer_'
ARITHMETIC = ['add', 'sub', 'mul', 'divu', 'div', 'rem', 'sll', 'srl']

judged = []
labelled = []


class Group:
    """Numbers that stand several times; a pair (base, step) grows by its step."""

    def __init__(self, times, *numbers):
        self.times, self.numbers = times, numbers

    def __str__(self):
        inside = ' '.join('%d+%d' % n if isinstance(n, tuple) else str(n) for n in self.numbers)
        return '%s(%s)' % ('' if self.times == 1 else self.times, inside)

    def flat(self):
        return [n[0] + k * n[1] if isinstance(n, tuple) else n for k in range(self.times) for n in self.numbers]


def flat(items):
    return [n for item in items for n in (item.flat() if isinstance(item, Group) else [item])]


def text(items):
    return ' '.join(str(item) for item in items)


def size(items):
    return len(flat(items))


def node(kind, sort, a=0, b=0, c=0, name=0, times=1):
    return Group(times, *row(kind, sort, a, b, c, name))


def sections(nodes=(), sequentials=(), bads=(), later=(), inputs=(), replies=()):
    words = [size(nodes) // ROW_WIDTH] + list(nodes)
    for part in (sequentials, bads, later, inputs, replies):
        words += [size(part)] + list(part)
    return words


def need(words):
    """The room that a whole table needs."""
    nodes, sequentials, bads, later, inputs, _ = (part[0] for part in cut(words, TABLE_WIDTHS)[0])
    return room(nodes, sequentials, bads + later, inputs)


def names_of(*names):
    """The names bytes, of names that are lists of bytes or groups."""
    out = names_count(len(names))
    for name in names:
        out += [size(name)] + list(name)
    return out


def call(name, answer, words, names=(0, 0), mode=0, result=ROOM, scratch=ROOM):
    judged.append((name, mode, result, scratch, list(words), list(names), answer))


def label(name, node, words, names, substitute, answer):
    labelled.append((name, node, list(words), list(names), list(substitute), list(answer)))


def constants(count):
    return [node(CONST, WORD, 5, times=count)]


def sequential_table(states):
    """A constant, so many states with it as init, and a Next of each."""
    return [
        node(CONST, WORD, 5),
        node(STATE, WORD, 0, 1, times=states),
        node(NEXT, WORD, (1, 1), 0, times=states),
    ]


# --- counts at their limits

N, E, I, R = MOST_NODES, MOST_ENTRIES, MOST_INPUTS, MOST_REPLIES
call('nodes_%d' % N, ACCEPTED, sections(constants(N)))
call('nodes_%d' % (N + 1), (2, 1, 0), sections(constants(N + 1)))
call('nodes_%d_words_missing' % N, (1, 1, 0), [N])
call('nodes_%d_last_word_missing' % N, (1, 1, 0), [N, *constants(N - 1), *row(CONST, WORD, 5)[:-1]])
call('nodes_%d_words_missing' % (N + 1), (2, 1, 0), [N + 1])
CHAIN = [node(CONST, WORD, 5), node(ADD, WORD, (0, 1), (0, 1), times=N - 2)]
call('nodes_%d_each_on_the_last' % N, ACCEPTED, sections(CHAIN + [node(ADD, WORD, N - 2, N - 2)]))
call('nodes_%d_last_unknown_kind' % N, (3, 1, N - 1), sections(CHAIN + [node(BAD + 1, WORD, N - 2, N - 2)]))
call('nodes_%d_last_on_itself' % N, (4, 1, N - 1), sections(CHAIN + [node(ADD, WORD, N - 2, N - 1)]))
call('nodes_%d_last_wrong_sort' % N, (5, 1, N - 1), sections(CHAIN + [node(ADD, BIT, N - 2, N - 2)]))
for count in (N + 2**16, 2**32, 2**32 + 1, 2**62, 2**63, MOST):
    call('nodes_%d' % count, (2, 1, 0), [count, Group(5, 0)])
call('nodes_six_fold_wraps_to_2', (2, 1, 0), [2**64 // ROW_WIDTH + 1, Group(7, 0)])

for count, answer in ((E, ACCEPTED), (E + 1, (2, 2, 0))):
    call('sequentials_%d' % count, answer, sections(sequential_table(count), [Group(count, (count + 1, 1))]))
call('sequentials_%d_the_last_again' % E, (7, 2, E - 1),
     sections(sequential_table(E), [Group(E - 1, (E + 1, 1)), 2 * E - 1]))
call('sequentials_%d_words_missing' % E, (1, 2, 0), [0, E])
call('sequentials_%d_words_missing' % (E + 1), (2, 2, 0), [0, E + 1])
call('sequentials_most', (2, 2, 0), [0, MOST, Group(4, 0)])

ONE_BAD = [node(CONST, BIT, 1), node(BAD, BIT, 0)]
for count, first, second in ((E, ACCEPTED, ACCEPTED), (E + 1, (2, 3, 0), (2, 4, 0))):
    call('initial_bads_%d' % count, first, sections(ONE_BAD, bads=[Group(count, 1)]))
    call('sequential_bads_%d' % count, second, sections(ONE_BAD, later=[Group(count, 1)]))
call('initial_bads_%d_last_no_bad' % E, (6, 3, E - 1), sections(ONE_BAD, bads=[Group(E - 1, 1), 0]))
call('sequential_bads_%d_last_no_bad' % E, (6, 4, E - 1), sections(ONE_BAD, later=[Group(E - 1, 1), 0]))
call('bads_%d_in_both' % E, ACCEPTED, sections(ONE_BAD, bads=[Group(E, 1)], later=[Group(E, 1)]))
call('initial_bads_%d_words_missing' % E, (1, 3, 0), [0, 0, E])
call('initial_bads_%d_words_missing' % (E + 1), (2, 3, 0), [0, 0, E + 1])
call('initial_bads_most', (2, 3, 0), [0, 0, MOST, Group(3, 0)])
call('sequential_bads_%d_words_missing' % E, (1, 4, 0), [0, 0, 0, E])
call('sequential_bads_%d_words_missing' % (E + 1), (2, 4, 0), [0, 0, 0, E + 1])
call('sequential_bads_most', (2, 4, 0), [0, 0, 0, MOST, Group(2, 0)])

call('inputs_%d' % I, ACCEPTED, sections(inputs=[Group(I, 7)]))
call('inputs_%d' % (I + 1), (2, 5, 0), sections(inputs=[Group(I + 1, 7)]))
call('inputs_%d_words_missing' % I, (1, 5, 0), [Group(4, 0), I])
call('inputs_%d_words_missing' % (I + 1), (2, 5, 0), [Group(4, 0), I + 1])
call('inputs_most', (2, 5, 0), [Group(4, 0), MOST, 0])
call('replies_%d' % R, ACCEPTED, sections(replies=[Group(R, 1)]))
call('replies_%d' % (R + 1), (2, 6, 0), sections(replies=[Group(R + 1, 1)]))
call('replies_%d_words_missing' % R, (1, 6, 0), [Group(5, 0), R])
call('replies_%d_words_missing' % (R + 1), (2, 6, 0), [Group(5, 0), R + 1])
call('replies_most', (2, 6, 0), [Group(5, 0), MOST])

EMPTY = sections()
K, L = MOST_NAMES, LONGEST_NAME
LETTERS = [97] * L
ALL_NAMES, ONE_MORE = names_count(K), names_count(K + 1)
call('names_%d' % K, ACCEPTED, EMPTY, [*ALL_NAMES, Group(K, 0)])
call('names_%d' % (K + 1), (2, 7, 0), EMPTY, [*ONE_MORE, Group(K + 1, 0)])
call('names_%d_of_%d_bytes' % (K, L), ACCEPTED, EMPTY, [*ALL_NAMES, Group(K, L, *LETTERS)])
call('names_%d_last_of_%d_bytes' % (K, L + 1), (2, 7, 0), EMPTY, [*ALL_NAMES, Group(K - 1, 0), L + 1, Group(L + 1, 97)])
call('names_%d_last_missing' % K, (1, 7, 0), EMPTY, [*ALL_NAMES, Group(K - 1, 0)])
call('names_%d_bytes_missing' % K, (1, 7, 0), EMPTY, ALL_NAMES)
call('names_%d_bytes_missing' % (K + 1), (2, 7, 0), EMPTY, ONE_MORE)
call('names_65535', (2, 7, 0), EMPTY, [255, 255])
call('names_256_low_byte_first', ACCEPTED, EMPTY, [0, 1, Group(256, 0)])
call('names_256_one_missing', (1, 7, 0), EMPTY, [0, 1, Group(255, 0)])

# E states with a Next each, a Const and a Bad on it, and as many named States and Inputs as there is place for.
FULL_NODES = sequential_table(E) + [
    node(CONST, BIT, 1),
    node(STATE, WORD, 0, 0, 0, (1, 1), times=E - 1),
    node(INPUT, MEMORY, 0, 0, 0, (2 * E + 1, 1), times=N - 3 * E - 2),
    node(BAD, BIT, 2 * E + 1, name=K),
]
FULL = sections(FULL_NODES, [Group(E, (E + 1, 1))], [Group(E, N - 1)], [Group(E, N - 1)], [Group(I, MOST)], [Group(R, MOST)])
FULL_NAMES = [*ALL_NAMES, Group(K, L, *LETTERS)]
call('every_count_at_its_limit', ACCEPTED, FULL, FULL_NAMES)
call('every_count_at_its_limit_result_one_short', (12, 8, 0), FULL, FULL_NAMES, result=ROOM - 1)
call('every_count_at_its_limit_scratch_one_short', (12, 8, 1), FULL, FULL_NAMES, scratch=ROOM - 1)

# --- names

call('name_0_bytes', ACCEPTED, EMPTY, [1, 0, 0])
call('name_1_byte', ACCEPTED, EMPTY, [1, 0, 1, 97])
call('name_%d_bytes' % L, ACCEPTED, EMPTY, [1, 0, L, Group(L, 97)])
call('name_%d_bytes' % (L + 1), (2, 7, 0), EMPTY, [1, 0, L + 1, Group(L + 1, 97)])
call('name_255_bytes', (2, 7, 0), EMPTY, [1, 0, 255, Group(255, 97)])
call('name_%d_bytes_at_the_end' % L, (1, 7, 0), EMPTY, [1, 0, L])
call('name_%d_bytes_at_the_end' % (L + 1), (2, 7, 0), EMPTY, [1, 0, L + 1])
call('name_%d_bytes_one_missing' % L, (1, 7, 0), EMPTY, [1, 0, L, Group(L - 1, 97)])
call('name_%d_bytes_one_missing' % (L + 1), (2, 7, 0), EMPTY, [1, 0, L + 1, Group(L, 97)])
call('second_name_%d_bytes' % L, ACCEPTED, EMPTY, [2, 0, 1, 97, L, Group(L, 98)])
call('second_name_%d_bytes' % (L + 1), (2, 7, 0), EMPTY, [2, 0, 1, 97, L + 1, Group(L + 1, 98)])
call('second_name_%d_bytes_at_the_end' % L, (1, 7, 0), EMPTY, [2, 0, 1, 97, L])
call('second_name_%d_bytes_at_the_end' % (L + 1), (2, 7, 0), EMPTY, [2, 0, 1, 97, L + 1])
call('name_%d_bytes_and_one_left_over' % (L + 1), (2, 7, 0), EMPTY, [1, 0, L + 1, Group(L + 2, 97)])
call('name_bytes_may_be_any', ACCEPTED, EMPTY, [1, 0, 4, 0, 10, 65, 255])
call('two_names_cut_at_0', (1, 7, 0), EMPTY, [])
call('two_names_cut_at_1', (1, 7, 0), EMPTY, [2])
call('two_names_cut_at_2', (1, 7, 0), EMPTY, [2, 0])
call('two_names_cut_at_3', (1, 7, 0), EMPTY, [2, 0, 1])
call('two_names_cut_at_4', (1, 7, 0), EMPTY, [2, 0, 1, 97])
call('two_names_cut_at_5', (1, 7, 0), EMPTY, [2, 0, 1, 97, 2])
call('two_names_cut_at_6', (1, 7, 0), EMPTY, [2, 0, 1, 97, 2, 98])
call('two_names_whole', ACCEPTED, EMPTY, [2, 0, 1, 97, 2, 98, 99])
call('two_names_and_one_byte_left_over', (1, 7, 0), EMPTY, [2, 0, 1, 97, 2, 98, 99, 0])
call('no_names_and_one_byte_left_over', (1, 7, 0), EMPTY, [0, 0, 0])
call('names_count_of_one_byte', (1, 7, 0), EMPTY, [0])
call('names_count_of_one_byte_255', (1, 7, 0), EMPTY, [255])

# --- sections cut short, and words left over

SMALL = [
    node(CONST, WORD, 12),
    node(STATE, WORD, 0, 1),
    node(NEXT, WORD, 1, 0),
    node(ULT, BIT, 0, 1),
    node(BAD, BIT, 3),
]
SMALL_WORDS = flat(sections(SMALL, [2], [4], [4], [5], [0]))
ROWS_END = 1 + ROW_WIDTH * len(SMALL)
CUTS = {at: (1, 1, 0) for at in (0, 1, 2, ROW_WIDTH, ROW_WIDTH + 1, ROWS_END - ROW_WIDTH, ROWS_END - 1)}
CUTS.update({ROWS_END + k: (1, 2 + k // 2, 0) for k in range(10)})  # a count and one entry in each section
for at, answer in CUTS.items():
    call('five_nodes_cut_at_%d' % at, answer, SMALL_WORDS[:at])
for at in range(1, 6):
    call('empty_cut_at_%d' % at, (1, at + 1, 0), [0] * at)
call('cut_at_the_last_sequential', (1, 2, 0), [0, 2, 7])
call('cut_at_the_last_initial_bad', (1, 3, 0), [0, 0, 2, 7])
call('cut_at_the_last_sequential_bad', (1, 4, 0), [0, 0, 0, 2, 7])
call('cut_at_the_last_input', (1, 5, 0), [0, 0, 0, 0, 2, 7])
call('cut_at_the_last_reply', (1, 6, 0), [0, 0, 0, 0, 0, 2, 7])
call('one_word_left_over', (1, 6, 0), [Group(7, 0)])
call('one_word_left_over_after_nodes', (1, 6, 0), SMALL_WORDS + [0])
call('one_word_left_over_is_large', (1, 6, 0), [Group(6, 0), MOST])
call('left_over_word_before_short_names', (1, 6, 0), [Group(7, 0)], [])
call('left_over_word_before_%d_names' % (K + 1), (1, 6, 0), [Group(7, 0)], ONE_MORE)
call('left_over_word_before_name_of_%d' % (L + 1), (1, 6, 0), [Group(7, 0)], [1, 0, L + 1])
call('left_over_word_before_left_over_byte', (1, 6, 0), [Group(7, 0)], [0, 0, 0])
call('left_over_word_before_room', (1, 6, 0), [Group(7, 0)], result=0, scratch=0)
call('short_section_1_before_names', (1, 1, 0), [], ONE_MORE)
call('short_section_6_before_names', (1, 6, 0), [Group(5, 0)], ONE_MORE)
call('over_in_section_2_before_section_3', (2, 2, 0), [0, E + 1, E + 1])
call('over_in_section_2_before_names', (2, 2, 0), [0, E + 1], [])
call('short_section_2_before_over_in_names', (1, 2, 0), [0, 3], ONE_MORE)
call('left_over_byte_before_room', (1, 7, 0), EMPTY, [0, 0, 0], result=0, scratch=0)
call('over_names_before_room', (2, 7, 0), EMPTY, ONE_MORE, result=0, scratch=0)
UNKNOWN_KIND = sections([node(BAD + 1, WORD)])
call('short_names_before_unknown_kind', (1, 7, 0), UNKNOWN_KIND, [])
call('room_before_unknown_kind', (12, 8, 0), UNKNOWN_KIND, result=room(1) - 1)
call('scratch_before_unknown_kind', (12, 8, 1), UNKNOWN_KIND, scratch=room(1) - 1)
call('room_before_lists', (12, 8, 0), sections(bads=[9]), result=room(bads=1) - 1)

# --- room


def in_room(name, answer, words, result, scratch):
    """A call with as much room as it needs and so much more, or less; its name has the smaller room of the two."""
    result, scratch = need(flat(words)) + result, need(flat(words)) + scratch
    call(name % min(result, scratch), answer, words, result=result, scratch=scratch)


in_room('empty_room_%d', ACCEPTED, EMPTY, 0, 0)
in_room('empty_result_%d', (12, 8, 0), EMPTY, -1, 0)
in_room('empty_scratch_%d', (12, 8, 1), EMPTY, 0, -1)
in_room('empty_room_%d', (12, 8, 0), EMPTY, -1, -1)
call('empty_room_0', (12, 8, 0), EMPTY, result=0, scratch=0)
call('empty_scratch_0', (12, 8, 1), EMPTY, result=LEAST, scratch=0)
call('empty_room_most', ACCEPTED, EMPTY, result=MOST, scratch=MOST)
in_room('five_nodes_room_%d', ACCEPTED, SMALL_WORDS, 0, 0)
in_room('five_nodes_result_%d', (12, 8, 0), SMALL_WORDS, -1, 0)
in_room('five_nodes_scratch_%d', (12, 8, 1), SMALL_WORDS, 0, -1)
in_room('five_nodes_room_%d', (12, 8, 0), SMALL_WORDS, -1, -1)
in_room('one_node_room_%d', ACCEPTED, sections(constants(1)), 0, 0)
in_room('one_node_result_%d', (12, 8, 0), sections(constants(1)), -1, 0)
in_room('one_node_scratch_%d', (12, 8, 1), sections(constants(1)), 0, -1)
in_room('one_sequential_room_%d', (6, 2, 0), sections(sequentials=[0]), 0, 0)
in_room('one_sequential_result_%d', (12, 8, 0), sections(sequentials=[0]), -1, 0)
in_room('one_initial_bad_room_%d', (6, 3, 0), sections(bads=[0]), 0, 0)
in_room('one_initial_bad_result_%d', (12, 8, 0), sections(bads=[0]), -1, 0)
in_room('one_sequential_bad_room_%d', (6, 4, 0), sections(later=[0]), 0, 0)
in_room('one_sequential_bad_scratch_%d', (12, 8, 1), sections(later=[0]), 0, -1)
in_room('a_bad_twice_counts_twice_room_%d', ACCEPTED, sections(ONE_BAD, bads=[1, 1]), 0, 0)
in_room('a_bad_twice_counts_twice_result_%d', (12, 8, 0), sections(ONE_BAD, bads=[1, 1]), -1, 0)
in_room('one_input_room_%d', ACCEPTED, sections(inputs=[9]), 0, 0)
in_room('one_input_result_%d', (12, 8, 0), sections(inputs=[9]), -1, 0)
call('replies_need_no_room', ACCEPTED, sections(replies=[Group(100, 1)]), result=LEAST, scratch=LEAST)
call('names_need_no_room', ACCEPTED, EMPTY, [100, 0, Group(100, 1, 97)], result=LEAST, scratch=LEAST)
in_room('nodes_%d_room_%%d' % N, ACCEPTED, sections(constants(N)), 0, 0)
in_room('nodes_%d_result_%%d' % N, (12, 8, 0), sections(constants(N)), -1, 0)
PAST_PROGRAM = sections(constants(PROGRAM_NODES), inputs=[Group(PROGRAM_ROOM + 1 - room(PROGRAM_NODES), 1)])
in_room('need_%d_words', ACCEPTED, PAST_PROGRAM, 0, 0)
in_room('need_%d_words_result_%%d' % (PROGRAM_ROOM + 1), (12, 8, 0), PAST_PROGRAM, -1, -1)

# --- modes

TOO_HIGH = HIGHEST_MODE + 1
for mode in range(TOO_HIGH):
    call('mode_%d' % mode, ACCEPTED, SMALL_WORDS, mode=mode)
for mode in (TOO_HIGH, 2 * TOO_HIGH - 1, 256, 2**32, 2**63, MOST):
    call('mode_%d' % mode, (1, 0, 0), SMALL_WORDS, mode=mode)
call('mode_%d_no_words' % HIGHEST_MODE, (1, 1, 0), [], mode=HIGHEST_MODE)
call('mode_%d_no_words' % TOO_HIGH, (1, 0, 0), [], mode=TOO_HIGH)
call('mode_%d_before_%d_nodes' % (TOO_HIGH, N + 1), (1, 0, 0), [N + 1], mode=TOO_HIGH)
call('mode_%d_before_left_over_word' % TOO_HIGH, (1, 0, 0), [Group(7, 0)], mode=TOO_HIGH)
call('mode_%d_before_names' % TOO_HIGH, (1, 0, 0), EMPTY, [], mode=TOO_HIGH)
call('mode_%d_before_room' % TOO_HIGH, (1, 0, 0), EMPTY, mode=TOO_HIGH, result=0, scratch=0)

# --- numbers and the widths of their sorts

for sort in (BIT, *BYTES):
    last = LARGEST[sort]
    call('const_sort_%d_is_0' % sort, ACCEPTED, sections([node(CONST, sort, 0)]))
    call('const_sort_%d_is_%d' % (sort, last), ACCEPTED, sections([node(CONST, sort, last)]))
    call('const_sort_%d_is_%d' % (sort, last + 1), (5, 1, 0), sections([node(CONST, sort, last + 1)]))
    call('const_sort_%d_is_most' % sort, (5, 1, 0), sections([node(CONST, sort, MOST)]))
call('const_sort_%d_is_0' % WORD, ACCEPTED, sections([node(CONST, WORD, 0)]))
call('const_sort_%d_is_most' % WORD, ACCEPTED, sections([node(CONST, WORD, MOST)]))
call('const_sort_%d_is_0' % MEMORY, (5, 1, 0), sections([node(CONST, MEMORY, 0)]))
call('const_sort_%d_is_1' % MEMORY, (5, 1, 0), sections([node(CONST, MEMORY, 1)]))
call('const_sort_%d_is_most' % MEMORY, (5, 1, 0), sections([node(CONST, MEMORY, MOST)]))

# --- one node tried, number 11, after eleven that are in order; node 12 is in order too

BEFORE = [
    node(CONST, WORD, 5),        # 0
    node(CONST, BIT, 1),         # 1
    node(INPUT, MEMORY, name=1), # 2
    node(CONST, BYTE, 9),        # 3
    node(STATE, WORD, 0, 1),     # 4
    node(STATE, MEMORY),         # 5, no init
    node(STATE, BIT, 1, 1),      # 6
    node(NEXT, WORD, 4, 0),      # 7
    node(NEXT, MEMORY, 5, 2),    # 8
    node(NEXT, BIT, 6, 1),       # 9
    node(BAD, BIT, 1),           # 10
]
TRIED = 11
AFTER = [node(CONST, WORD, 5)]   # 12
A_NAME = [1, 0, 1, 109]
word, bit, memory, byte = 0, 1, 2, 3
state_word, state_memory, state_bit, next_word, next_memory, next_bit, bad = range(4, 11)


def tried(name, answer, kind, sort, a=0, b=0, c=0, k=0):
    call(name, answer, sections(BEFORE + [node(kind, sort, a, b, c, k)] + AFTER), A_NAME)


THREE, FOUR, FIVE = (3, 1, TRIED), (4, 1, TRIED), (5, 1, TRIED)

# a node of each kind in order: sort, a, b, c, name
IN_ORDER = {
    'const': (WORD, 7, 0, 0, 0),
    'read': (WORD, memory, word, 0, 0),
    'write': (MEMORY, memory, word, word, 0),
    'ult': (BIT, word, word, 0, 0),
    'ext': (WORD, byte, BYTE, 0, 0),
    'ite': (WORD, bit, word, word, 0),
    'eq': (BIT, word, word, 0, 0),
    'and': (WORD, word, word, 0, 0),
    'or': (WORD, word, word, 0, 0),
    'not': (WORD, word, 0, 0, 0),
    'state': (WORD, word, 1, 0, 0),
    'next': (WORD, state_word, word, 0, 0),
    'input': (WORD, 0, 0, 0, 1),
    'bad': (BIT, bit, 0, 0, 0),
}
for kind in ARITHMETIC:
    IN_ORDER[kind] = (WORD, word, word, 0, 0)
for kind, code in KINDS.items():
    tried('%s_in_order' % kind, ACCEPTED, code, *IN_ORDER[kind])

# 3: kinds and sorts
for kind in (0, BAD + 1, 2**8 + CONST, 2**32 + CONST, 2**32 + INPUT, MOST):
    tried('kind_%d' % kind, THREE, kind, WORD)
BELOW, ABOVE = BYTE - 1, BYTES[-1] + 1
for sort in (0, MEMORY + 1, MEMORY + 2, BELOW - 1, BELOW, ABOVE, 2**32 + WORD, 2**8 + WORD, MOST):
    tried('sort_%d' % sort, THREE, CONST, sort, 0)
    tried('ext_from_%d' % sort, THREE, EXT, WORD, word, sort)
for sort in (0, BELOW, ABOVE, 2**32 + WORD):
    tried('input_sort_%d' % sort, THREE, INPUT, sort, k=1)
    tried('add_sort_%d' % sort, THREE, ADD, sort)
    tried('state_sort_%d' % sort, THREE, STATE, sort)
for sort in (BIT, MEMORY, *BYTES):
    tried('input_sort_%d' % sort, ACCEPTED, INPUT, sort, k=1)
    tried('state_sort_%d_no_init' % sort, ACCEPTED, STATE, sort)

# 3: words that must be 0, each of them as 1 and as 2^32
UNUSED = {
    'const': 'bc', 'read': 'c', 'ult': 'c', 'ext': 'c', 'eq': 'c', 'and': 'c', 'or': 'c', 'not': 'bc', 'state': 'c',
    'next': 'c', 'input': 'abc', 'bad': 'bc',
}
for kind in ARITHMETIC:
    UNUSED[kind] = 'c'
for kind, code in KINDS.items():
    for letter in UNUSED.get(kind, ''):
        for value in (1, 2**32):
            sort, *words, k = IN_ORDER[kind]
            words['abc'.index(letter)] = value
            tried('%s_%s_is_%d' % (kind, letter, value), THREE, code, sort, *words, k)
tried('state_no_init_c_is_1', THREE, STATE, WORD, 0, 0, 1)
tried('state_no_init_a_is_1', THREE, STATE, WORD, 1, 0)
tried('state_no_init_a_is_most', THREE, STATE, WORD, MOST, 0)
tried('state_b_is_2', THREE, STATE, WORD, word, 2)
tried('state_b_is_2_a_past_the_table', THREE, STATE, WORD, MOST, 2)
tried('state_b_is_2^32+1', THREE, STATE, WORD, word, 2**32 + 1)

# 3: names; there is one
for kind, code in KINDS.items():
    sort, a, b, c, _ = IN_ORDER[kind]
    if kind != 'input':
        tried('%s_name_1' % kind, ACCEPTED if kind in ('state', 'bad') else THREE, code, sort, a, b, c, 1)
    tried('%s_name_2_past_the_last' % kind, THREE, code, sort, a, b, c, 2)
tried('state_no_init_name_1', ACCEPTED, STATE, WORD, k=1)
tried('input_no_name', THREE, INPUT, WORD, k=0)
tried('input_name_2^32+1', THREE, INPUT, WORD, k=2**32 + 1)
tried('state_name_most', THREE, STATE, WORD, k=MOST)
call('input_name_1_of_no_names', (3, 1, 0), sections([node(INPUT, WORD, name=1)]))
call('state_name_1_of_no_names', (3, 1, 0), sections([node(STATE, WORD, name=1)]))
call('input_empty_name', ACCEPTED, sections([node(INPUT, WORD, name=1)]), [1, 0, 0])
call('input_name_%d' % K, ACCEPTED, sections([node(INPUT, WORD, name=K)]), [*ALL_NAMES, Group(K, 0)])
call('input_name_%d_of_%d' % (K, K - 1), (3, 1, 0), sections([node(INPUT, WORD, name=K)]),
     [*names_count(K - 1), Group(K - 1, 0)])
call('two_nodes_one_name', ACCEPTED, sections([node(INPUT, WORD, name=1, times=2)]), [1, 0, 1, 97])
call('equal_and_unused_names', ACCEPTED, sections([node(INPUT, WORD, name=2)]), [3, 0, Group(3, 1, 97)])

# 4: each operand as the node itself, the next node, and 2^64 - 1
OPERANDS = {
    'read': 'ab', 'write': 'abc', 'ult': 'ab', 'ext': 'a', 'ite': 'abc', 'eq': 'ab', 'and': 'ab', 'or': 'ab',
    'not': 'a', 'state': 'a', 'next': 'ab', 'bad': 'a',
}
for kind in ARITHMETIC:
    OPERANDS[kind] = 'ab'
for kind, code in KINDS.items():
    for letter in OPERANDS.get(kind, ''):
        for what, value in (('itself', TRIED), ('the_next', TRIED + 1), ('most', MOST)):
            sort, *words, k = IN_ORDER[kind]
            words['abc'.index(letter)] = value
            tried('%s_%s_is_%s' % (kind, letter, what), FOUR, code, sort, *words, k)
tried('add_a_is_2^32', FOUR, ADD, WORD, 2**32, word)
tried('const_a_is_no_operand', ACCEPTED, CONST, WORD, MOST)
call('node_0_on_itself', (4, 1, 0), sections([node(NOT, WORD, 0)]))
call('state_0_with_itself_as_init', (4, 1, 0), sections([node(STATE, WORD, 0, 1)]))

# 5: Add to Srl
for kind in ARITHMETIC:
    code = KINDS[kind]
    for sort in (BIT, MEMORY, BYTE):
        tried('%s_of_sort_%d' % (kind, sort), FIVE, code, sort, word, word)
    for what, operand in (('bit', bit), ('memory', memory), ('byte', byte), ('next', next_word)):
        tried('%s_left_%s' % (kind, what), FIVE, code, WORD, operand, word)
        tried('%s_right_%s' % (kind, what), FIVE, code, WORD, word, operand)

# 5: Read and Write
for sort in (BIT, MEMORY, BYTE):
    tried('read_of_sort_%d' % sort, FIVE, READ, sort, memory, word)
for what, operand in (('word', word), ('bit', bit), ('byte', byte), ('next', next_memory)):
    tried('read_memory_is_%s' % what, FIVE, READ, WORD, operand, word)
    tried('write_memory_is_%s' % what, FIVE, WRITE, MEMORY, operand, word, word)
for what, operand in (('bit', bit), ('memory', memory), ('byte', byte), ('next', next_word), ('bad', bad)):
    tried('read_address_is_%s' % what, FIVE, READ, WORD, memory, operand)
    tried('write_address_is_%s' % what, FIVE, WRITE, MEMORY, memory, operand, word)
    tried('write_value_is_%s' % what, FIVE, WRITE, MEMORY, memory, word, operand)
for sort in (BIT, WORD, BYTE):
    tried('write_of_sort_%d' % sort, FIVE, WRITE, sort, memory, word, word)
tried('read_of_a_state', ACCEPTED, READ, WORD, state_memory, state_word)
tried('write_to_a_state', ACCEPTED, WRITE, MEMORY, state_memory, state_word, state_word)

# 5: Ult and Eq
for kind in ('ult', 'eq'):
    code = KINDS[kind]
    for sort in (WORD, MEMORY, BYTE):
        tried('%s_of_sort_%d' % (kind, sort), FIVE, code, sort, word, word)
    for what, operand in (('bit', bit), ('memory', memory), ('byte', byte), ('next', next_word)):
        tried('%s_left_%s_right_word' % (kind, what), FIVE, code, BIT, operand, word)
        tried('%s_left_word_right_%s' % (kind, what), FIVE, code, BIT, word, operand)
    tried('%s_of_one_memory' % kind, FIVE, code, BIT, memory, memory)
    tried('%s_of_two_memories' % kind, FIVE, code, BIT, memory, state_memory)
    tried('%s_left_bad' % kind, FIVE, code, BIT, bad, bit)
    tried('%s_right_bad' % kind, FIVE, code, BIT, bit, bad)
    tried('%s_of_bits' % kind, ACCEPTED, code, BIT, bit, state_bit)
    tried('%s_of_bytes' % kind, ACCEPTED, code, BIT, byte, byte)

# 5: Ext
for sort in (BIT, MEMORY, BYTE):
    tried('ext_of_sort_%d' % sort, FIVE, EXT, sort, byte, BYTE)
tried('ext_of_word_from_byte', FIVE, EXT, WORD, word, BYTE)
tried('ext_of_byte_from_word', FIVE, EXT, WORD, byte, WORD)
tried('ext_of_bit_from_byte', FIVE, EXT, WORD, bit, BYTE)
tried('ext_of_byte_from_bit', FIVE, EXT, WORD, byte, BIT)
tried('ext_of_memory_from_memory', FIVE, EXT, WORD, memory, MEMORY)
tried('ext_of_word_from_memory', FIVE, EXT, WORD, word, MEMORY)
tried('ext_of_memory_from_word', FIVE, EXT, WORD, memory, WORD)
tried('ext_of_next', FIVE, EXT, WORD, next_word, WORD)
tried('ext_of_bad', FIVE, EXT, WORD, bad, BIT)
tried('ext_of_bit_from_bit', ACCEPTED, EXT, WORD, bit, BIT)
tried('ext_of_word_from_word', ACCEPTED, EXT, WORD, word, WORD)

# 5: Ite
for what, operand in (('word', word), ('byte', byte), ('memory', memory), ('next', next_bit), ('bad', bad)):
    tried('ite_condition_is_%s' % what, FIVE, ITE, WORD, operand, word, word)
for what, operand in (('bit', bit), ('byte', byte), ('memory', memory), ('next', next_word)):
    tried('ite_left_is_%s' % what, FIVE, ITE, WORD, bit, operand, word)
    tried('ite_right_is_%s' % what, FIVE, ITE, WORD, bit, word, operand)
for sort in (BIT, MEMORY, BYTE):
    tried('ite_of_sort_%d_over_words' % sort, FIVE, ITE, sort, bit, word, word)
tried('ite_left_is_bad', FIVE, ITE, BIT, bit, bad, bit)
tried('ite_right_is_bad', FIVE, ITE, BIT, bit, bit, bad)
tried('ite_left_is_memory_next', FIVE, ITE, MEMORY, bit, next_memory, memory)
tried('ite_right_is_memory_next', FIVE, ITE, MEMORY, bit, memory, next_memory)
tried('ite_of_bits', ACCEPTED, ITE, BIT, bit, bit, state_bit)
tried('ite_of_bytes', ACCEPTED, ITE, BYTE, bit, byte, byte)
tried('ite_of_memories', ACCEPTED, ITE, MEMORY, bit, memory, state_memory)

# 5: And, Or, Not
for kind in ('and', 'or'):
    code = KINDS[kind]
    tried('%s_of_memories' % kind, FIVE, code, MEMORY, memory, state_memory)
    for sort in (BIT, MEMORY, BYTE):
        tried('%s_of_sort_%d_over_words' % (kind, sort), FIVE, code, sort, word, word)
    for what, operand in (('bit', bit), ('byte', byte), ('memory', memory), ('next', next_word)):
        tried('%s_left_%s' % (kind, what), FIVE, code, WORD, operand, word)
        tried('%s_right_%s' % (kind, what), FIVE, code, WORD, word, operand)
    tried('%s_left_bad' % kind, FIVE, code, BIT, bad, bit)
    tried('%s_right_bad' % kind, FIVE, code, BIT, bit, bad)
    tried('%s_of_bits' % kind, ACCEPTED, code, BIT, bit, state_bit)
    tried('%s_of_bytes' % kind, ACCEPTED, code, BYTE, byte, byte)
tried('not_of_memory', FIVE, NOT, MEMORY, memory)
for sort in (BIT, MEMORY, BYTE):
    tried('not_of_sort_%d_over_word' % sort, FIVE, NOT, sort, word)
tried('not_of_word_over_bit', FIVE, NOT, WORD, bit)
tried('not_of_word_over_memory', FIVE, NOT, WORD, memory)
tried('not_of_next', FIVE, NOT, WORD, next_word)
tried('not_of_bad', FIVE, NOT, BIT, bad)
tried('not_of_bit', ACCEPTED, NOT, BIT, bit)
tried('not_of_byte', ACCEPTED, NOT, BYTE, byte)

# 5: State, Next, Bad
for what, operand in (('bit', bit), ('byte', byte), ('memory', memory), ('next', next_word)):
    tried('state_init_is_%s' % what, FIVE, STATE, WORD, operand, 1)
tried('bit_state_init_is_word', FIVE, STATE, BIT, word, 1)
tried('bit_state_init_is_bad', FIVE, STATE, BIT, bad, 1)
tried('memory_state_init_is_word', FIVE, STATE, MEMORY, word, 1)
tried('memory_state_init_is_next', FIVE, STATE, MEMORY, next_memory, 1)
tried('memory_state_init_is_memory', ACCEPTED, STATE, MEMORY, memory, 1)
tried('state_init_is_state', ACCEPTED, STATE, WORD, state_word, 1)
for sort in (BIT, MEMORY, BYTE):
    tried('next_of_sort_%d_over_words' % sort, FIVE, NEXT, sort, state_word, word)
for what, operand in (('bit', state_bit), ('memory', state_memory)):
    tried('next_of_%s_state_with_word' % what, FIVE, NEXT, WORD, operand, word)
for what, operand in (('bit', bit), ('byte', byte), ('memory', memory), ('next', next_word), ('bad', bad)):
    tried('next_with_%s' % what, FIVE, NEXT, WORD, state_word, operand)
tried('next_of_const', FIVE, NEXT, WORD, word, word)
tried('next_of_input', FIVE, NEXT, MEMORY, memory, memory)
tried('next_of_next', FIVE, NEXT, WORD, next_word, word)
tried('next_of_bad', FIVE, NEXT, BIT, bad, bit)
tried('bit_next_with_bad', FIVE, NEXT, BIT, state_bit, bad)
tried('bit_next_with_next', FIVE, NEXT, BIT, state_bit, next_bit)
tried('memory_next_with_next', FIVE, NEXT, MEMORY, state_memory, next_memory)
tried('next_is_the_state', ACCEPTED, NEXT, WORD, state_word, state_word)
tried('second_next_of_a_state', ACCEPTED, NEXT, BIT, state_bit, bit)
for sort in (WORD, MEMORY, BYTE):
    tried('bad_of_sort_%d' % sort, FIVE, BAD, sort, bit)
for what, operand in (('word', word), ('byte', byte), ('memory', memory), ('next', next_bit), ('bad', bad)):
    tried('bad_condition_is_%s' % what, FIVE, BAD, BIT, operand)
tried('bad_of_sort_%d_over_word' % WORD, FIVE, BAD, WORD, word)
tried('bad_condition_is_state', ACCEPTED, BAD, BIT, state_bit)

# --- the order at one node, and over nodes

call('sorts_of_node_0_before_kind_of_node_1', (5, 1, 0), sections([node(CONST, MEMORY), node(0, WORD)]))
call('operand_of_node_0_before_kind_of_node_1', (4, 1, 0), sections([node(NOT, WORD, 0), node(0, WORD)]))
call('sorts_of_node_0_before_operand_of_node_1', (5, 1, 0), sections([node(CONST, MEMORY), node(NOT, WORD, 1)]))
call('kind_of_node_0_before_kind_of_node_1', (3, 1, 0), sections([node(0, WORD), node(0, WORD)]))
call('kind_of_node_1_before_sorts_of_node_2', (3, 1, 1),
     sections([node(CONST, WORD), node(0, WORD), node(CONST, MEMORY)]))
tried('sort_code_before_operand', THREE, ADD, ABOVE, TRIED, word)
tried('unused_word_before_operand', THREE, ADD, WORD, TRIED, word, 1)
tried('unused_word_before_sorts', THREE, ADD, BIT, word, word, 1)
tried('name_before_operand', THREE, ADD, WORD, TRIED, word, 0, 1)
tried('name_before_sorts', THREE, ADD, BIT, word, word, 0, 1)
tried('ext_from_before_operand', THREE, EXT, WORD, TRIED, MEMORY + 1)
tried('all_three_at_one_node', THREE, ADD, BIT, TRIED, bit, 1)
tried('operand_before_own_sort', FOUR, ADD, BIT, TRIED, word)
tried('operand_before_sort_of_the_other', FOUR, ADD, WORD, bit, TRIED)
tried('third_operand_before_sorts', FOUR, WRITE, WORD, word, bit, TRIED)
tried('operand_before_first_of_next_no_state', FOUR, NEXT, WORD, word, TRIED)
tried('operand_before_next_as_operand', FOUR, ADD, WORD, next_word, TRIED)

# --- lists, over the same nodes, a second Next of node 4 and three nodes over states with an init that are no Next

NODES = BEFORE + [
    node(NEXT, WORD, state_word, state_word), # 11
    node(NOT, WORD, state_word),              # 12
    node(STATE, WORD, state_word, 1),         # 13
    node(BAD, BIT, state_bit),                # 14
]
second_next, not_of_state, state_of_state, bad_of_state = range(11, 15)


def listed(name, answer, sequentials=(), bads=(), later=(), mode=0):
    call(name, answer, sections(NODES, sequentials, bads, later), A_NAME, mode)


listed('one_next', ACCEPTED, [next_word])
listed('two_nexts', ACCEPTED, [next_word, next_bit])
listed('two_nexts_falling', ACCEPTED, [next_bit, second_next])
for what, entry in (('first_past_the_table', 15), ('2^32+7', 2**32 + 7), ('most', MOST), ('const', word),
                    ('input', memory), ('state', state_word), ('bad', bad), ('next_of_state_without_init', next_memory),
                    ('not_of_a_state', not_of_state), ('state_of_a_state', state_of_state),
                    ('bad_of_a_state', bad_of_state)):
    listed('sequential_is_%s' % what, (6, 2, 0), [entry])
    listed('second_sequential_is_%s' % what, (6, 2, 1), [next_word, entry])
listed('third_sequential_is_const', (6, 2, 2), [next_word, next_bit, word])
listed('one_next_twice', (7, 2, 1), [next_word, next_word])
listed('two_nexts_of_one_state', (7, 2, 1), [next_word, second_next])
listed('two_nexts_of_one_state_falling', (7, 2, 1), [second_next, next_word])
listed('two_nexts_of_one_state_apart', (7, 2, 2), [next_word, next_bit, second_next])
listed('one_next_three_times', (7, 2, 1), [next_word, next_word, next_word])
listed('next_again_before_wrong_entry', (7, 2, 1), [next_word, next_word, word])
listed('wrong_entry_before_next_again', (6, 2, 1), [next_word, word, next_word])
listed('next_without_init_twice', (6, 2, 0), [next_memory, next_memory])
for section, part in ((3, 'bads'), (4, 'later')):
    listed('section_%d_one_bad' % section, ACCEPTED, **{part: [bad]})
    listed('section_%d_one_bad_three_times' % section, ACCEPTED, **{part: [bad, bad, bad]})
    for what, entry in (('first_past_the_table', 15), ('2^32+10', 2**32 + 10), ('most', MOST), ('const', bit),
                        ('input', memory), ('state', state_bit), ('next', next_bit)):
        listed('section_%d_bad_is_%s' % (section, what), (6, section, 0), **{part: [entry]})
        listed('section_%d_second_bad_is_%s' % (section, what), (6, section, 1), **{part: [bad, entry]})
listed('one_bad_in_both_lists', ACCEPTED, bads=[bad], later=[bad])
listed('section_2_before_section_3', (6, 2, 0), [word], [word])
listed('section_2_before_section_4', (6, 2, 0), [word], [], [word])
listed('section_3_before_section_4', (6, 3, 0), [], [word], [word])
listed('second_of_section_2_before_first_of_section_3', (6, 2, 1), [next_word, word], [word])
listed('next_again_before_section_3', (7, 2, 1), [next_word, next_word], [word])
for mode in (1, 2, 4, 5, 6, HIGHEST_MODE):
    listed('mode_%d_wrong_entry_in_section_2' % mode, (6, 2, 0), [word], [], [], mode)
    listed('mode_%d_next_twice' % mode, (7, 2, 1), [next_word, next_word], [], [], mode)
    listed('mode_%d_wrong_entry_in_section_3' % mode, (6, 3, 0), [], [word], [], mode)
    listed('mode_%d_wrong_entry_in_section_4' % mode, (6, 4, 0), [], [bad], [word], mode)
call('nodes_before_lists', (5, 1, 1), sections([node(CONST, BIT), node(CONST, MEMORY)], [9], [9], [9]))
call('lists_of_an_empty_table', (6, 2, 0), sections([], [0], [0], [0]))
call('inputs_and_replies_are_not_judged', ACCEPTED, sections(SMALL, [2], [4], [4], [MOST, 0], [MOST, 3]))

# --- the call of the worked example (docs/FORMAT.md)

EXAMPLE = [node(STATE, WORD, name=1), node(CONST, WORD, 12), node(ULT, BIT, 0, 1), node(BAD, BIT, 2)]
HOLD_END = names_of(list(b'hold-end'))
call('the_papers_example', ACCEPTED, sections(EXAMPLE, bads=[3], inputs=[12]), HOLD_END)

# --- labels: nodes 0 to 4 have the names 1, 2, 3, none and one past the last

LABELLED = sections([
    node(STATE, WORD, name=1), node(INPUT, WORD, name=2), node(BAD, BIT, 0, name=3), node(CONST, WORD, 5),
    node(STATE, WORD, name=4),
])
THREE_NAMES = names_of([97, 98], [], [100] * 3)
OTHER = [63, 63]
label('label_first_name', 0, LABELLED, THREE_NAMES, OTHER, [97, 98])
label('label_empty_name', 1, LABELLED, THREE_NAMES, OTHER, [])
label('label_last_name', 2, LABELLED, THREE_NAMES, OTHER, [100, 100, 100])
label('label_name_0', 3, LABELLED, THREE_NAMES, OTHER, OTHER)
label('label_name_past_the_last', 4, LABELLED, THREE_NAMES, OTHER, OTHER)
for place in (5, 6, N, 2**32, 2**63, MOST):
    label('label_of_node_%d' % place, place, LABELLED, THREE_NAMES, OTHER, OTHER)
label('label_empty_substitute', 3, LABELLED, THREE_NAMES, [], [])
label('label_name_2^32+1', 0, sections([node(STATE, WORD, name=2**32 + 1)]), THREE_NAMES, OTHER, OTHER)
label('label_name_most', 0, sections([node(STATE, WORD, name=MOST)]), THREE_NAMES, OTHER, OTHER)
label('label_in_no_nodes', 0, EMPTY, THREE_NAMES, OTHER, OTHER)
label('label_section_1_has_no_count', 0, [], THREE_NAMES, OTHER, OTHER)
SECTION_1 = flat(LABELLED)[:1 + ROW_WIDTH * 5]
label('label_section_1_one_word_short', 0, SECTION_1[:-1], THREE_NAMES, OTHER, OTHER)
label('label_sections_2_to_6_missing', 0, SECTION_1, THREE_NAMES, OTHER, [97, 98])
label('label_section_2_over_its_limit', 0, SECTION_1 + [E + 1], THREE_NAMES, OTHER, [97, 98])
label('label_words_left_over', 0, LABELLED + [7], THREE_NAMES, OTHER, [97, 98])
label('label_nodes_%d' % N, N - 1, sections([node(STATE, WORD, name=1, times=N - 1), node(STATE, WORD, name=3)]),
      THREE_NAMES, OTHER, [100, 100, 100])
label('label_nodes_%d' % (N + 1), 0, sections([node(STATE, WORD, name=1, times=N + 1)]), THREE_NAMES, OTHER, OTHER)
label('label_nodes_2^63', 0, [2**63] + LABELLED[1:], THREE_NAMES, OTHER, OTHER)
label('label_nodes_most', 0, [MOST] + LABELLED[1:], THREE_NAMES, OTHER, OTHER)
for at in range(9):
    label('label_names_cut_at_%d' % at, 0, LABELLED, THREE_NAMES[:at], OTHER, OTHER)
label('label_one_byte_left_over', 0, LABELLED, THREE_NAMES + [0], OTHER, OTHER)
label('label_names_%d' % (K + 1), 0, LABELLED, [*ONE_MORE, Group(K + 1, 1, 97)], OTHER, OTHER)
label('label_name_%d' % K, 0, sections([node(STATE, WORD, name=K)]), [*ALL_NAMES, Group(K - 1, 1, 97), 2, 98, 99], OTHER,
      [98, 99])
label('label_name_%d_bytes' % L, 1, LABELLED, [2, 0, 1, 97, L, Group(L, 98)], OTHER, [Group(L, 98)])
label('label_its_name_%d_bytes' % (L + 1), 1, LABELLED, [2, 0, 1, 97, L + 1, Group(L + 1, 98)], OTHER, OTHER)
label('label_another_name_%d_bytes' % (L + 1), 0, LABELLED, [2, 0, 1, 97, L + 1, Group(L + 1, 98)], OTHER, OTHER)
label('label_of_a_node_with_other_faults', 0, sections([node(BAD + 1, ABOVE, MOST, MOST, MOST, 1)]), THREE_NAMES, OTHER,
      [97, 98])
label('label_of_a_const_with_a_name', 0, sections([node(CONST, WORD, 5, name=1)]), THREE_NAMES, OTHER, [97, 98])
label('label_name_after_a_name_of_%d' % L, 1, LABELLED, [2, 0, L, Group(L, 98), 1, 99], OTHER, [99])

# --- wrong answers, each in one small way: who overlooks it counts too few


def wrong(cases, what, name, answer, plain=flat):
    """The case of that name once more, with an answer that it does not have."""
    case = next(case for case in cases if case[0] == name)
    assert plain(answer) != plain(case[-1]), name
    return (WRONG + what, *case[1:-1], answer)


wrongly_judged = [
    wrong(judged, 'number_one_more', 'nodes_%d_last_unknown_kind' % N, (4, 1, N - 1)),
    wrong(judged, 'number_one_less', 'nodes_%d_last_wrong_sort' % N, (4, 1, N - 1)),
    wrong(judged, 'section_one_more', 'section_3_before_section_4', (6, 4, 0)),
    wrong(judged, 'section_one_less', 'sequential_bads_%d_last_no_bad' % E, (6, 3, E - 1)),
    wrong(judged, 'position_one_more', 'two_nexts_of_one_state', (7, 2, 2)),
    wrong(judged, 'position_one_less', 'nodes_%d_last_on_itself' % N, (4, 1, N - 2)),
    wrong(judged, 'position_2^32_more', 'third_sequential_is_const', (6, 2, 2**32 + 2)),
    wrong(judged, 'refused_as_accepted', 'one_word_left_over', ACCEPTED),
    wrong(judged, 'refused_number_alone_as_accepted', 'mode_%d' % TOO_HIGH, ACCEPTED),
    wrong(judged, 'accepted_with_a_number', 'nodes_%d' % N, (2, 0, 0)),
    wrong(judged, 'accepted_with_a_section', 'mode_%d' % HIGHEST_MODE, (0, 1, 0)),
    wrong(judged, 'accepted_with_a_position', 'one_next', (0, 0, 1)),
    wrong(judged, 'accepted_as_refused', 'empty_room_%d' % LEAST, (12, 8, 0)),
]
wrongly_labelled = [
    wrong(labelled, 'label_first_byte', 'label_last_name', [101, 100, 100]),
    wrong(labelled, 'label_middle_byte', 'label_last_name', [100, 101, 100]),
    wrong(labelled, 'label_last_byte', 'label_last_name', [100, 100, 101]),
    wrong(labelled, 'label_last_byte_256_more', 'label_first_name', [97, 98 + 256]),
    wrong(labelled, 'label_one_byte_missing', 'label_first_name', [97]),
    wrong(labelled, 'label_one_byte_more', 'label_first_name', [97, 98, 0]),
    wrong(labelled, 'label_of_%d_last_byte' % L, 'label_name_%d_bytes' % L, [Group(L - 1, 98), 99]),
    wrong(labelled, 'label_all_bytes_missing', 'label_name_%d_bytes' % L, []),
    wrong(labelled, 'label_empty_as_one_byte', 'label_empty_name', [0]),
    wrong(labelled, 'label_as_the_substitute', 'label_first_name', OTHER),
    wrong(labelled, 'substitute_as_a_label', 'label_name_past_the_last', [97, 98]),
]


# --- the list, and the comparison

def lines():
    for name, mode, result, scratch, words, names, answer in judged + wrongly_judged:
        yield '%s %d %d %d | %s | %s | %d %d %d' % ((name, mode, result, scratch, text(words), text(names)) + answer)
    for name, place, words, names, substitute, answer in labelled + wrongly_labelled:
        yield '%s %d | %s | %s | %s | %s' % (name, place, text(words), text(names), text(substitute), text(answer))


def in_text_form(mode, result, scratch, words, names, answer):
    """The case as the program's numbers, or None where the text form cannot say it or has less room."""
    words, names = flat(words), flat(names)
    if answer == (1, 6, 0) and words_left_over(words):
        return None
    short = answer[0] in (1, 2) and answer[1] < 7
    if answer[0] == 12 or not short and need(words) > PROGRAM_ROOM:
        return None
    numbers = [mode] + words
    if not short:
        numbers += [names[0] + 256 * names[1]] + names[2:] if len(names) > 1 else []
    return numbers if len(numbers) <= MOST_NUMBERS else None


def words_left_over(words):
    parts, end = cut(words, TABLE_WIDTHS)
    return len(parts) == len(TABLE_WIDTHS) and end < len(words)


def answers(program, tables):
    """What the program says of each table in the text form, a line for each."""
    given = ''.join(' '.join(map(str, numbers)) + '\n' for numbers in tables)
    told = subprocess.run([program, 'answer'], input=given, capture_output=True, text=True, check=True).stdout
    told = told.splitlines()
    assert len(told) == len(tables), 'answers: %d, cases: %d' % (len(told), len(tables))
    return told


def compare(program):
    asked = []
    for name, *case, answer in judged:
        numbers = in_text_form(*case, answer)
        if numbers is not None:
            asked.append((name, numbers, answer))
    differing = 0
    for (name, _, answer), line in zip(asked, answers(program, [numbers for _, numbers, _ in asked])):
        first = line.split()
        later = first[0] == 'refused' and int(first[1]) in (8, 10, 11, 13, 14)
        found = ACCEPTED if first[0] == 'accepted' or later else tuple(int(n) for n in first[1:])
        if found != answer:
            differing += 1
            print('%s: here %s, there %s' % (name, answer, line))
    return told(asked, differing)


def told(asked, differing):
    """Says how many differ, and gives the exit status."""
    print('%d calls compared, %d differ' % (len(asked), differing))
    return 1 if differing else 0


def main(lines, usage, **commands):
    everything = list(lines())
    names = [line.split()[0] for line in everything]
    assert len(set(names)) == len(names), sorted(n for n in names if names.count(n) > 1)
    if sys.argv[1:] == ['list']:
        print('\n'.join(everything))
        counted = sum(name.startswith(WRONG) for name in names)
        print('%d cases, %d wrong' % (len(names), counted), file=sys.stderr)
    elif len(sys.argv) == 3 and sys.argv[1] in commands:
        sys.exit(commands[sys.argv[1]](sys.argv[2]))
    else:
        sys.exit(usage)


if __name__ == '__main__':
    main(lines, __doc__, compare=compare)
