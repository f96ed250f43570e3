#!/usr/bin/env python3
"""docs/LAWS.md, held to the statements that are proved, and judged by operators that are written here, over the width, from FORMAT and SMT-LIB.
    tests/laws.py [PROGRAM]        lists what is wrong, and then ends with 1; with PROGRAM, optimize_model, each example is also folded by it
Each line says what the field of its name says in crates/btor/specs, and each field has its line. Where the page has 64, any width is meant: a law
must hold on all operands of small widths and on those at limits of 64 bits, in both readings; by 0 exactly where the page says. An example must have
its value. What is no law must fail at its operands with those two values and, at small widths, at no smaller ones. Wrong lines, kept here, must be
found wrong, and each line be missed where it is left out; the operators in the Rust's reading must give the Rust's own answers, those of
crates/operator_vectors."""
import itertools
import operator
import pathlib
import re
import subprocess
import sys

import house
from house import BAD, BIT, BYTE, CONST, EQ, WORD

ROOT = pathlib.Path(__file__).resolve().parent.parent
SPECS = ROOT / "crates/btor/specs"
READINGS = {"the Rust's": "rust", "the standard's": "standard"}
RELATIONS = {"=": operator.eq, "not": operator.ne, "<": operator.lt, ">=": operator.ge}
NAMES = "xyzpq"
SMALL = {1: (3, 4, 5, 6), 2: (3, 4, 5), 3: (3, 4)}  # widths tried in full, by how many operands there are
LIMITS = [0, 1, 2, 3, 31, 32, 33, 62, 63, 64, 65, 2**32, 2**63 - 1, 2**63, 2**63 + 1, 2**64 - 2, 2**64 - 1]
WRONG_ANSWERS = 2  # of each operator's kept answers, deliberately
NOT_UNDERSTOOD = "not understood"
REJOINED = "Add (Mul (Divu x 0) 0) (Rem x 0) = x"
BY_ZERO = "(x : ℕ) → x < 2 ^ 64 → (rejoined f x 0 ≡ x) ↔ Regained how x"
BELOW = "(x y : ℕ) → x < n → y < n → f x y < n"

# What must be found wrong. Laws: some that are none, one past its limit, one that needs its condition. No laws: a law, a wrong value, operands that
# are not the smallest. By 0: too many dividends, and too few.
WRONG = {
    "law": """`Sub x y = Sub y x` | | x = 1, y = 1: 0 | wrong
        `Sll (Sll x p) q = 0` | p + q >= 63 | x = 1, p = 32, q = 32: 0 | wrong
        `Add (Mul (Divu x y) y) (Rem x y) = x` | | x = 7, y = 2: 7 | wrong""",
    "law at each width": """`And x y = Or x y` | | x = 1, y = 1: 1 | wrong""",
    "no law": """`Mul x y = Mul y x` | | x = 1, y = 1 | 1 | 1 | wrong
        `Sll (Srl x p) p = x` | p < 64 | x = 1, p = 1 | 0 | 2 | wrong
        `Sll (Srl x p) p = x` | p < 64 | x = 3, p = 1 | 2 | 3 | wrong""",
    "reading": """the Rust's | always | x = 2^64 - 1: 2^64 - 1
        the standard's | x = 2^64 - 1 | x = 0: 0""",
}
# Not for Z3: an example with another value, with an operand too many, with what is no word; what is no term; what is no condition.
WRONG_TEXT = """`Add x y = Add y x` | | x = 3, y = 5: 9 | wrong
    `Add x y = Add y x` | | x = 3, y = 5, z = 5: 8 | wrong
    `Add x y = Add y x` | | x = 2^64 + 3, y = 5: 8 | wrong
    `Sub (Add x y z) = Sub x (Add y z)` | | x = 0, y = 0, z = 0: 0 | wrong
    `Add ~x y = Add y x` | | x = 3, y = 5: 8 | wrong
    `Add x y = Add y x` | x > 2 | x = 3, y = 5: 8 | wrong"""


def div(x, y, w, how):
    a, b = (n - 2**w if n >= 2 ** (w - 1) else n for n in (x, y))
    if how == "rust" and (b == 0 or (a, b) == (-(2 ** (w - 1)), -1)):
        return 2 ** (w - 1) - 1
    if b == 0:
        return 2**w - 1 if a >= 0 else 1
    return (abs(a) // abs(b) * (1 if (a < 0) == (b < 0) else -1)) % 2**w


def rem(x, y, w, how):
    return x % y if y else 2**w - 1 if how == "rust" else x


OPERATORS = {
    "Add": lambda x, y, w, how: (x + y) % 2**w,
    "Sub": lambda x, y, w, how: (x - y) % 2**w,
    "Mul": lambda x, y, w, how: x * y % 2**w,
    "Divu": lambda x, y, w, how: x // y if y else 2**w - 1,
    "Div": div,
    "Rem": rem,
    "Sll": lambda x, y, w, how: (x << y) % 2**w if y < w else 0,
    "Srl": lambda x, y, w, how: x >> y if y < w else 0,
    "Ult": lambda x, y, w, how: int(x < y),
    "And": lambda x, y, w, how: x & y,
    "Or": lambda x, y, w, how: x | y,
}
KINDS = {name: house.KINDS[name.lower()] for name in OPERATORS}
WHOLE = {"+": operator.add, "-": operator.sub, "^": operator.pow}


def read(text):
    """A term: a number, an operand's name, or (operator, left, right); +, - and ^ are of whole numbers."""
    tokens = re.findall(r"\w+|\S", text)

    def factor():
        token = tokens.pop(0)
        if token in OPERATORS:
            return (token, factor(), factor())
        if token == "(":
            term = total()
            assert tokens and tokens.pop(0) == ")", f"'{text}' is no term"
        else:
            assert token.isdigit() or token in tuple(NAMES), f"'{text}' is no term"
            term = int(token) if token.isdigit() else token
        return (tokens.pop(0), term, factor()) if tokens[:1] == ["^"] else term

    def total():
        term = factor()
        while tokens[:1] in (["+"], ["-"]):
            term = (tokens.pop(0), term, factor())
        return term

    term = total()
    assert not tokens, f"'{text}' is no term"
    return term


def value(term, w, how=None, at=None):
    """What a term is at width w, which stands where the page has 64, and w - 1 where it has 63."""
    if isinstance(term, int):
        return {64: w, 63: w - 1}.get(term, term)
    if isinstance(term, str):
        return at[term]
    name, left, right = term[0], value(term[1], w, how, at), value(term[2], w, how, at)
    return WHOLE[name](left, right) if name in WHOLE else OPERATORS[name](left, right, w, how)


def operands_of(text):
    return {name: read(number) for name, number in (part.split("=") for part in text.replace(" ", "").split(","))}


def assigned(text, w):
    at = {name: value(term, w) for name, term in operands_of(text).items()}
    assert all(0 <= number < 2**w for number in at.values()), f"'{text}' has an operand that is too large"
    return at


class Form:
    """Two terms that are claimed to be equal, and where: a relation between two terms, or always."""

    def __init__(self, text, where):
        self.text = text.strip("`")
        self.sides = [read(side) for side in self.text.split("=")]
        self.names = [name for name in NAMES if re.search(rf"\b{name}\b", text)]
        parts = re.fullmatch(r"(.*?) (=|not|<|>=) (.*)", where)
        assert parts or where in ("", "always"), f"'{where}' is no condition"
        self.where = (read(parts[1]), parts[2], read(parts[3])) if parts else None

    def claims(self, w, at):
        if not self.where:
            return True
        left, relation, right = self.where
        return RELATIONS[relation](value(left, w, None, at), value(right, w, None, at))

    def values(self, w, how, at):
        return [value(side, w, how, at) for side in self.sides]

    def operands(self, w):
        """All of a small width, smallest first; of 64 bits those at limits."""
        for numbers in itertools.product(LIMITS if w == 64 else range(2**w), repeat=len(self.names)):
            yield dict(zip(self.names, numbers))

    def failing(self, w, how):
        """The first operands at which it does not hold though it is claimed."""
        for at in self.operands(w):
            left, right = self.values(w, how, at)
            if left != right and self.claims(w, at):
                return at
        return None


def judge_law(text, where, example, _):
    form, (operands, number) = Form(text, where), example.split(":")
    at = assigned(operands, 64)
    assert sorted(at) == sorted(form.names), "its example has other operands"
    for how in READINGS.values():
        for w in SMALL[len(form.names)] + (64,):
            assert form.failing(w, how) is None, f"fails at width {w}, {form.failing(w, how)}"
        assert form.values(64, how, at) == [value(read(number), 64)] * 2, f"its example gives {form.values(64, how, at)}"
        assert form.claims(64, at), "its example is of other operands"


def judge_no_law(text, where, operands, left, right, _):
    form, at, stated = Form(text, where), assigned(operands, 64), [value(read(side), 64) for side in (left, right)]
    assert stated[0] != stated[1] and form.claims(64, at), "its operands are none at which it fails"
    for how in READINGS.values():
        assert form.values(64, how, at) == stated, f"gives {form.values(64, how, at)}"
        for w in SMALL[len(form.names)]:
            assert form.failing(w, how) == assigned(operands, w), f"fails first at {form.failing(w, how)} at width {w}"


def judge_by_zero(reading, where, example):
    how, form, (operands, number) = READINGS[reading], Form(REJOINED, where), example.split(":")
    assert list(assigned(operands, 64)) == form.names, "its example has other operands"
    for w in SMALL[1] + (64,):
        for at in form.operands(w):
            left, right = form.values(w, how, at)
            assert (left == right) == form.claims(w, at), f"gives {left} for {right} at width {w}"
    assert form.values(64, how, assigned(operands, 64))[0] == value(read(number), 64), "its example has another value"


JUDGES = {"law": judge_law, "law at each width": judge_law, "no law": judge_no_law, "reading": judge_by_zero}


def fault(judge, row):
    """What is wrong with a line, or nothing."""
    try:
        judge(*row)
    except (AssertionError, OSError) as found:
        return str(found)
    except (IndexError, KeyError, TypeError, ValueError):
        return NOT_UNDERSTOOD
    return None


def rows(text):
    return [[cell.strip() for cell in line.strip().removeprefix("|").removesuffix("|").split("|")] for line in text.splitlines()]


def tables():
    """The lines of the page's tables, by the head of their first column."""
    found = {}
    for table in re.findall(r"(?:^\|.*\n)+", (ROOT / "docs/LAWS.md").read_text(), re.M):
        head, _, *body = rows(table)
        found.setdefault(head[0], []).extend(body)
    return found


def fields(file, record):
    """The fields of a record of the definitions and their types."""
    lines = (SPECS / file).read_text().splitlines()
    start = next(k for k, line in enumerate(lines) if re.match(rf" *pub record {record}\b", line))
    return dict(re.fullmatch(r" *pub (\w+) : (.*)", line).groups() for line in itertools.takewhile(str.strip, lines[start + 1 :]))


def in_words_of_the_page(kind):
    """The form and the condition that a type states; that operands are words, or below the bound n, goes without saying."""
    *premises, equation = kind.replace(" ^ ", "^").split(" → ")
    left = [each for each in premises if not re.fullmatch(r"\(.* : ℕ\)|\w < n|\w < 2\^64", each)]
    where = " and ".join(re.sub(r"(\w+) ≤ (.*)", r"\2 >= \1", each).replace("≢", "not") for each in left)
    return equation.replace("≡", "="), where


def stated_laws():
    """What the fields of `Laws` state, by the table that they belong to and their name."""
    found = {"law": {}, "law at each width": {}}
    rejoined = re.search(r"\nrejoined f x y = (.*)", (SPECS / "Laws.antt").read_text())[1]
    for name, kind in fields("Laws.antt", "Laws").items():
        words = re.fullmatch(r"(Rearranges|Shifts)(?: \(2 \^ 64\))? \(f (\w+)\)", kind)
        widths = re.fullmatch(r"\(w : ℕ\) → w ≤ 64 → (Rearranges) \(2 \^ w\) ([gh])", kind)
        if words or widths:
            record, each = (words or widths).groups()
            for inner, law in fields("Laws.antt", record).items():
                law = re.sub(r"\bf\b", {"g": "And", "h": "Or"}.get(each, each), law)
                if inner != "below":
                    found["law" if words else "law at each width"][f"{name}.{inner}"] = in_words_of_the_page(law)
        elif name != "by_zero":
            found["law"][name] = in_words_of_the_page(re.sub(r"\bf (?=[A-Z])", "", kind.replace("rejoined f x y", rejoined)))
    return found


def stated_no_laws():
    """The sides of what is no law and their values, as `NoLaws` states them, by name."""
    for name, kind in fields("Cases.antt", "NoLaws").items():
        parts = [part[1:-1] for part in kind.split(" × ")] if " × " in kind else [kind]
        sides = (re.sub(r"\bof ", "", part).replace("ult ", "Ult ").split(" ≡ ") for part in parts)
        yield name, [(read(side), value(read(number), 64)) for side, number in sides]


def put(term, operands):
    """A term with numbers for its operands."""
    if isinstance(term, tuple):
        return (term[0], put(term[1], operands), put(term[2], operands))
    return operands.get(term, term)


def of_the_page(found):
    """What the page says, by table and name, in the form of what is stated."""
    page = {head: {name: (form.strip("`"), where) for form, where, _, name in found[head]} for head in ("law", "law at each width")}
    page["no law"] = {}
    for form, where, operands, left, right, name in found["no law"]:
        sides = zip(Form(form, where).sides, (left, right))
        page["no law"][name] = [(put(side, operands_of(operands)), value(read(n), 64)) for side, n in sides if isinstance(side, tuple)]
    page["reading"] = {READINGS[reading]: where for reading, where, _ in found["reading"]}
    return page


def untied(found):
    """Lines of the page that say something else than the definitions, and fields that have no line."""
    regained = dict(re.findall(r"\nRegained (\w+) x = (.*)", (SPECS / "Laws.antt").read_text()))
    regained = {how: "always" if kind == "Unit" else in_words_of_the_page(kind)[0] for how, kind in regained.items()}
    stated, page = {**stated_laws(), "no law": dict(stated_no_laws()), "reading": regained}, of_the_page(found)
    for head in JUDGES:
        if len(found[head]) != len(page[head]):
            yield f"docs/LAWS.md has a name twice, in the table of {head}"
        for name in sorted(set(page[head]) | set(stated[head])):
            if page[head].get(name) != stated[head].get(name):
                yield f"{name}: docs/LAWS.md has {page[head].get(name)}, the definition {stated[head].get(name)}"
    for record, name, kind in (("Laws", "by_zero", BY_ZERO), ("Rearranges", "below", BELOW)):
        if fields("Laws.antt", record).get(name) != kind:
            yield f"{name}: docs/LAWS.md means '{kind}', the definition is '{fields('Laws.antt', record).get(name)}'"


def without(found, head, row):
    return {**found, head: [other for other in found[head] if other is not row]}


def kept_answers():
    """The operators that do not answer here as the Rust did."""
    names, wrong = {kind: name for name, kind in KINDS.items()}, dict.fromkeys(KINDS, 0)
    for line in (ROOT / "crates/operator_vectors/data/operators.list").read_text().splitlines():
        kind, left, right, answer = map(int, line.split())
        if kind in names:
            wrong[names[kind]] += OPERATORS[names[kind]](left, right, 64, "rust") != answer
    return [f"{name}: {count} of the Rust's answers are others" for name, count in wrong.items() if count != WRONG_ANSWERS]


def model(form, at):
    """A model whose one bad state is that both sides are equal: its rows, and the nodes of the sides."""
    nodes, sort = [], BYTE if re.search("And|Or", form.text) else WORD

    def place(term):
        if isinstance(term, tuple) and term[0] in KINDS:
            nodes.append(house.row(KINDS[term[0]], BIT if term[0] == "Ult" else sort, place(term[1]), place(term[2])))
        else:
            nodes.append(house.row(CONST, sort, value(term, 64, "rust", at)))
        return len(nodes) - 1

    sides = [place(side) for side in form.sides]
    nodes.append(house.row(EQ, BIT, *sides))
    nodes.append(house.row(BAD, BIT, len(nodes) - 1))
    return nodes, sides


def folded(program, form, at):
    """What the program makes of both sides, and whether it kept the bad state."""
    nodes, sides = model(form, at)
    words = [0, len(nodes), *itertools.chain(*nodes), 0, 1, len(nodes) - 1, 0, 0, 0, 0]
    told = subprocess.run([program], input=" ".join(map(str, words)), capture_output=True, text=True).stdout.splitlines()
    assert told[:1] == ["accepted"], f"{told} for {words}"
    sections = [[int(word) for word in line.split()[1:]] for line in told[1:]]
    numbers = {k: row[2] for k, row in enumerate(nodes) if row[0] == CONST}
    numbers.update(zip(itertools.count(len(nodes)), sections[1][1::2]))
    stands = dict(zip(sections[2][0::2], sections[2][1::2]))
    return [numbers[stands.get(side, side)] for side in sides], bool(sections[4])


def judge_folded(program, text, operands):
    form, at = Form(text, ""), assigned(operands.split(":")[0], 64)
    values = form.values(64, "rust", at)
    assert folded(program, form, at) == (values, values[0] == values[1]), f"folded to {folded(program, form, at)}"


def main():
    found = tables()
    if sorted(found) != sorted(JUDGES):
        print(f"laws: docs/LAWS.md has tables of {', '.join(found) or 'nothing'}, not of {', '.join(JUDGES)}")
        return 1
    lines = [(JUDGES[head], row) for head in JUDGES for row in found[head]]
    examples = [[text, operands] for head in JUDGES if head != "reading" for text, _, operands, *_ in found[head]]
    examples += [[REJOINED, operands] for _, _, operands in found["reading"]]
    lines += [(judge_folded, [program, *example]) for program in sys.argv[1:] for example in examples]
    lost = [f"{' | '.join(row)}: {told}" for judge, row in lines for told in [fault(judge, row)] if told]
    if not lost:
        lost = list(untied(found))
        lost += [f"not missed: {' | '.join(row)}" for head in JUDGES for row in found[head] if not any(untied(without(found, head, row)))]
    wrong = [(JUDGES[head], row) for head in JUDGES for row in rows(WRONG[head])] + [(judge_law, row) for row in rows(WRONG_TEXT)]
    lost += [f"not found wrong: {' | '.join(row)}" for judge, row in wrong if fault(judge, row) in (None, NOT_UNDERSTOOD)] + kept_answers()
    print(*lost, sep="\n", end="\n" if lost else "")
    laws = len(found["law"]) + len(found["law at each width"])
    print(f"laws: {laws} laws, {len(found['no law'])} that are none, {len(lines)} lines judged, {len(lost)} wrong")
    return 1 if lost else 0


if __name__ == "__main__":
    sys.exit(main())
