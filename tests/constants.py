#!/usr/bin/env python3
"""The house's numbers, held together: the words of a node, room, the highest mode, limits, and the codes of kinds and sorts stand once in each place
below, and each must be that of the definitions.
    tests/constants.py        lists what differs, and then ends with 1
Each number is changed in turn, in the text that was read and not in its file, and must then be found to differ."""
import pathlib
import re
import sys

ROOT = pathlib.Path(__file__).resolve().parent.parent


def same(*names):
    return {name: name for name in names}


def changed(names, how):
    return {name: how(other) for name, other in names.items()}


ROW = same("ROW_WIDTH")
ROOM = same("NODE_ROOM", "BAD_ROOM", "LEAST_ROOM")
MODE = same("HIGHEST_MODE")
LIMITS = same("MOST_NODES", "MOST_ENTRIES", "MOST_INPUTS", "MOST_REPLIES", "MOST_NAMES", "LONGEST_NAME")
PROGRAM = same("MOST_NUMBERS", "PROGRAM_ROOM")
KINDS = same(*"Const Read Write Add Sub Mul Divu Div Rem Sll Srl Ult Ext Ite Eq And Or Not State Next Input Bad".split())
SORTS = {"Bit": "Bit", "Word": "Word", "Memory": "Memory", "Byte": "Input1Byte"}
CODES = changed(same(*SORTS), str.upper)
UPPER = changed(KINDS, str.upper) | CODES
WIDER = same(*(f"Input{count}Byte" for count in range(2, 8)))

# Where the numbers stand: a file, the form of a line with NAME for a name and a group for the number, and the names there. The first place of a
# number is its definition.
ANTT = r"^NAME = (\d+)$"
RATTLE = r"^ *(?:pub(?:\(crate\))? )?const NAME: \w+ = (\d+);$"
CASE = r"^    NAME = (\d+),$"
RUST = r"^pub(?:\(crate\))? const NAME: \w+ = (\d+);"
DEFINED = r"^#define GEMTWEED_NAME (\d+)\b"
COUNTED = r"\bGEMTWEED_NAME = (\d+)\b"
PYTHON = r"^NAME = (\d+)\b"
PLACES = [
    ("crates/rules/specs/Table.antt", ANTT, {"ROW_WIDTH": "row_width"}),
    ("crates/rules/specs/Table.antt", r"^(?:kind_code|op_code) NAME = (\d+)$", KINDS),
    ("crates/btor/specs/Sorts.antt", r"^code_of NAME = (\d+)$", SORTS | WIDER),
    ("crates/rules/specs/Limits.antt", ANTT,
     {"NODE_ROOM": "node_room", "BAD_ROOM": "bad_room", "LEAST_ROOM": "least_room", "HIGHEST_MODE": "highest_mode"}),
    ("crates/rules/specs/Limits.antt", r"^house = record \{.* NAME = (\d+)\b.*$",
     {"MOST_NODES": "nodes", "MOST_ENTRIES": "entries", "MOST_INPUTS": "inputs", "MOST_REPLIES": "replies", "MOST_NAMES": "names",
      "LONGEST_NAME": "name_length"}),
    ("crates/rules/specs/Text.antt", ANTT, {"MOST_NUMBERS": "most_numbers", "PROGRAM_ROOM": "program_room"}),
    # the Rattle code
    ("crates/tables/src/limits.rt", RATTLE,
     {"MOST_NODES": "NODES", "MOST_ENTRIES": "ENTRIES", "MOST_INPUTS": "INPUTS", "MOST_REPLIES": "REPLIES", "MOST_NAMES": "NAMES",
      "LONGEST_NAME": "NAME_LENGTH"}),
    ("crates/tables/src/limits.rt", RATTLE, MODE | same("NODE_ROOM", "BAD_ROOM", "LEAST_ROOM")),
    ("crates/tables/src/node.rt", RATTLE, {"ROW_WIDTH": "WIDTH"}),
    ("crates/tables/src/node.rt", CASE, KINDS),
    ("crates/btor/src/node_type.rt", CASE, SORTS | WIDER),
    ("crates/text/src/reader.rt", RATTLE, {"MOST_NUMBERS": "NUMBERS"}),
    # the rule book
    ("docs/FORMAT.md", r"^\| 1 \| nodes \| (\d+) \|", {"ROW_WIDTH": ""}),
    ("docs/FORMAT.md", r"^\| \d \| NAME\b.* \| \d \| ([\d,]+) \|$",
     {"MOST_NODES": "nodes", "MOST_ENTRIES": "(?:sequentials|initial bad|sequential bad)", "MOST_INPUTS": "inputs", "MOST_REPLIES": "replies"}),
    ("docs/FORMAT.md", r"\bat most ([\d,]+) names\b", {"MOST_NAMES": ""}),
    ("docs/FORMAT.md", r"\bnames, of 0 to (\d+) bytes\b", {"LONGEST_NAME": ""}),
    ("docs/FORMAT.md", r"\bneed (\d+)n\b", {"NODE_ROOM": ""}),
    ("docs/FORMAT.md", r"\+ (\d+)b\b", {"BAD_ROOM": ""}),
    ("docs/FORMAT.md", r"\bs \+ i \+ (\d+) words\b", {"LEAST_ROOM": ""}),
    ("docs/FORMAT.md", r"\bmode (?:that is missing or )?above (\d+)\b", {"HIGHEST_MODE": ""}),
    ("docs/FORMAT.md", r"\broom for ([\d,]+) numbers\b", {"MOST_NUMBERS": ""}),
    ("docs/FORMAT.md", r"\bfor ([\d,]+) words of result\b", {"PROGRAM_ROOM": ""}),
    ("docs/FORMAT.md", r"^\|(?:.*,)? (\d+)(?: \|)? NAME\b", KINDS),
    ("docs/FORMAT.md", r"^\| NAME\b.*? \| (\d+) ", {"Bit": "bit", "Word": "word", "Memory": "memory", "Byte": "1 to 7 bytes"}),
    # the header, the Rust crate, the oracle with the programs that share its numbers, and the scripts
    ("include/gemtweed.h", DEFINED, ROW | ROOM | MODE | LIMITS),
    ("include/gemtweed.h", COUNTED, UPPER),
    ("rust/src/house.rs", RUST, ROW | ROOM | MODE | LIMITS),
    ("rust/src/house.rs", RUST, UPPER),
    ("oracle/src/house.rs", RUST, ROW | ROOM | MODE | LIMITS | PROGRAM),
    ("oracle/src/house.rs", RUST, UPPER),
    ("tests/house.py", PYTHON, ROW | ROOM | MODE | LIMITS | PROGRAM),
    ("tests/house.py", PYTHON, CODES),
    ("tests/house.py", r"'NAME': (\d+)\b", changed(KINDS, str.lower)),
]


def found(form, name, text):
    """Where a number stands in a text, and the number."""
    wanted = re.compile(form.replace("NAME", name), re.M)
    return [(match.span(1), int(match[1].replace(",", ""))) for match in wanted.finditer(text)]


def definitions(texts):
    """Each number in its first place."""
    values = {}
    for file, form, names in PLACES:
        for constant, name in names.items():
            values.setdefault(constant, next((value for _, value in found(form, name, texts[file])), None))
    return values


def wrong(place, constant, text, value):
    """What is wrong with a number in a place."""
    file, form, names = place
    numbers = [number for _, number in found(form, names[constant], text)]
    if not numbers:
        return f"{file}: {constant} is not found"
    others = [number for number in numbers if number != value]
    return f"{file}: {constant} is {others[0]}, in the definitions {value}" if others else None


def overlooked(place, constant, text, value):
    """Whether some change of a number in a place would not be found."""
    file, form, names = place
    for (start, end), number in found(form, names[constant], text):
        other = text[:start] + str(number + 1) + text[end:]
        if not wrong(place, constant, other, value):
            return f"{file}: {constant} could be {number + 1}, and nothing said"
    return None


def main():
    texts = {file: (ROOT / file).read_text() for file, _, _ in PLACES}
    values = definitions(texts)
    lost, count = [], 0
    for place in PLACES:
        for constant, name in place[2].items():
            text, value = texts[place[0]], values[constant]
            count += len(found(place[1], name, text))
            told = wrong(place, constant, text, value) or overlooked(place, constant, text, value)
            lost += [told] if told else []
    print(*lost, sep="\n", end="\n" if lost else "")
    print(f"constants: {count} held together, {len(lost)} differ")
    return 1 if lost else 0


if __name__ == "__main__":
    sys.exit(main())
