"""The house's numbers (docs/FORMAT.md) for the Python scripts of tests/ and oracle/: the words of a node, room, the highest mode, limits, and the
codes of kinds and sorts. tests/constants.py holds them to the definitions."""

ROW_WIDTH = 6
NODE_ROOM = 22
BAD_ROOM = 5
LEAST_ROOM = 22
HIGHEST_MODE = 7

MOST_NODES = 4096
MOST_ENTRIES = 1024  # in each of sections 2, 3 and 4
MOST_INPUTS = 4096
MOST_REPLIES = 16384
MOST_NAMES = 4096
LONGEST_NAME = 64
MOST_NUMBERS = 4096  # in the program's text
PROGRAM_ROOM = 4096  # words of the program's result and scratch

KINDS = {
    'const': 1, 'read': 2, 'write': 3, 'add': 4, 'sub': 5, 'mul': 6, 'divu': 7, 'div': 8, 'rem': 9, 'sll': 10, 'srl': 11,
    'ult': 12, 'ext': 13, 'ite': 14, 'eq': 15, 'and': 16, 'or': 17, 'not': 18, 'state': 19, 'next': 20, 'input': 21, 'bad': 22,
}
CONST, READ, WRITE, ADD, SUB, MUL, DIVU, DIV, REM, SLL, SRL, ULT, EXT, ITE, EQ, AND, OR, NOT, STATE, NEXT, INPUT, BAD = KINDS.values()

BIT = 1
WORD = 2
MEMORY = 3
BYTE = 11  # and one more for each byte more, up to 7
BYTES = range(BYTE, BYTE + 7)
LARGEST = {BIT: 1, **{sort: 2 ** (8 * (sort - BYTE + 1)) - 1 for sort in BYTES}, WORD: 2**64 - 1}

# The words of an entry in the sections of a table and of a result.
TABLE_WIDTHS = (ROW_WIDTH, 1, 1, 1, 1, 1)
RESULT_WIDTHS = (ROW_WIDTH, 2, 2, 1, 1, 1, 1, 4, 1)

# The nodes that a table has at most in the program.
PROGRAM_NODES = (PROGRAM_ROOM - LEAST_ROOM) // NODE_ROOM


def row(kind, sort, a=0, b=0, c=0, name=0):
    """The words of a node."""
    return [kind, sort, a, b, c, name]


def room(nodes=0, sequentials=0, bads=0, inputs=0):
    """The words that result and scratch each need; bads are those of both lists."""
    return NODE_ROOM * nodes + BAD_ROOM * bads + sequentials + inputs + LEAST_ROOM


def cut(words, widths):
    """The sections as far as they are there, each with its count, and where they end."""
    sections, at = [], 0
    for width in widths:
        if at >= len(words):
            break
        end = at + 1 + width * words[at]
        sections.append(words[at:end])
        at = end
    return sections, at


def names_count(count):
    """How many names there are, in two bytes, the low one first."""
    return [count % 256, count // 256]
