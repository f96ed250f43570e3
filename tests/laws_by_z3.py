#!/usr/bin/env python3
"""docs/LAWS.md, judged by Z3: each law for all operands of 64 bits, in both readings; by 0 exactly where the page says; what is no law at its
operands, and that no smaller ones would do. What Z3 does not decide at 64 bits in 20 s is put to it at 16, then at 8. The wrong lines that
tests/laws.py keeps are put to it too, and it must find each wrong in one of the readings.
    tests/laws_by_z3.py        says of each whether Z3 agrees; the exit status is 0 if it does with all; five minutes
The gate does not run this: it needs z3 on the PATH."""
import functools
import subprocess
import sys

sys.dont_write_bytecode = True
from laws import READINGS, REJOINED, WRONG, Form, assigned, read, rows, tables, value  # noqa: E402

FUNCTIONS = {"Add": "bvadd", "Sub": "bvsub", "Mul": "bvmul", "Divu": "bvudiv", "Div": "bvsdiv", "Rem": "bvurem", "Sll": "bvshl", "Srl": "bvlshr",
             "And": "bvand", "Or": "bvor"}
RELATIONS = {"=": "=", "not": "distinct", "<": "bvult", ">=": "bvuge"}
SECONDS = 20


def number(n, w):
    return f"(_ bv{n} {w})"


def widened(text, w, to):
    return text if w == to else f"((_ zero_extend {to - w}) {text})"


def applied(name, x, y, w, how):
    """An operator of SMT-LIB, or the Rust's where that differs."""
    by_zero, most = f"(= {y} {number(0, w)})", number(2 ** (w - 1) - 1, w)
    if name == "Ult":
        return f"(ite (bvult {x} {y}) #b1 #b0)"
    if how == "rust" and name == "Rem":
        return f"(ite {by_zero} {number(2**w - 1, w)} (bvurem {x} {y}))"
    if how == "rust" and name == "Div":
        least = f"(and (= {x} {number(2 ** (w - 1), w)}) (= {y} {number(2**w - 1, w)}))"
        return f"(ite (or {by_zero} {least}) {most} (bvsdiv {x} {y}))"
    return f"({FUNCTIONS[name]} {x} {y})"


def smt(term, w, how):
    """A term and its width: w, one more for a sum of whole numbers and for 2^64, 1 for a test."""
    if isinstance(term, str):
        return term, w
    if not isinstance(term, tuple) or term[0] in ("^", "-"):
        n = value(term, w)
        return number(n, w + (n == 2**w)), w + (n == 2**w)
    (left, a), (right, b) = (smt(part, w, how) for part in term[1:])
    wide = w + 1 if term[0] == "+" or a != b else w
    left, right = widened(left, a, wide), widened(right, b, wide)
    if term[0] == "+":
        return f"(bvadd {left} {right})", wide
    text = applied(term[0], left, right, wide, how)
    return (f"((_ extract {w - 1} 0) {text})", w) if wide != w else (text, 1 if term[0] == "Ult" else w)


def equal(form, w, how):
    return "(= {} {})".format(*(smt(side, w, how)[0] for side in form.sides))


def claimed(form, w, how):
    if not form.where:
        return "true"
    (left, a), (right, b) = (smt(term, w, how) for term in form.where[::2])
    return f"({RELATIONS[form.where[1]]} {widened(left, a, max(a, b))} {widened(right, b, max(a, b))})"


def fails(form, w, how):
    return f"(and {claimed(form, w, how)} (not {equal(form, w, how)}))"


def differs(form, w, how):
    return f"(xor {claimed(form, w, how)} {equal(form, w, how)})"


def smaller(names, at, w):
    """That the operands come before others, in the order of their names."""
    if not names:
        return "false"
    name, n = names[0], number(at[names[0]], w)
    return f"(or (bvult {name} {n}) (and (= {name} {n}) {smaller(names[1:], at, w)}))"


def misstated(operands, stated, form, w, how):
    """That a form which is no law fails at smaller operands, or not with the stated values at its own."""
    at, sides = assigned(operands, w), [smt(side, w, how) for side in form.sides]
    here = " ".join(f"(= {name} {number(at[name], w)})" for name in form.names)
    given = " ".join(f"(= {text} {number(value(read(n), w), wide)})" for (text, wide), n in zip(sides, stated))
    return f"(or (and {smaller(form.names, at, w)} {fails(form, w, how)}) (and {here} (not (and {fails(form, w, how)} {given}))))"


def questions(found):
    """For each line its form, the readings it is of, and what no operands may meet."""
    for text, where, *_ in found["law"] + found["law at each width"]:
        yield Form(text, where), READINGS.values(), fails
    for reading, where, _ in found["reading"]:
        yield Form(REJOINED, where), [READINGS[reading]], differs
    for text, where, operands, left, right, _ in found["no law"]:
        yield Form(text, where), READINGS.values(), functools.partial(misstated, operands, (left, right))


def asked(form, formula, how):
    """Whether some operands meet a formula, by Z3, and at which width it could tell."""
    for w in (64, 16, 8):
        declared = "".join(f"(declare-const {name} (_ BitVec {w}))" for name in form.names)
        text = f"(set-logic QF_BV){declared}(assert {formula(form, w, how)})(check-sat)"
        answer = subprocess.run(["z3", f"-T:{SECONDS}", "-in"], input=text, capture_output=True, text=True).stdout.strip()
        if answer in ("sat", "unsat"):
            break
    return answer, w


def main():
    lines = others = 0
    for found, wrong in ((tables(), False), ({head: rows(text) for head, text in WRONG.items()}, True)):
        for form, readings, formula in questions(found):
            answers = [asked(form, formula, how) for how in readings]
            right = any(answer == "sat" for answer, _ in answers) if wrong else all(answer == "unsat" for answer, _ in answers)
            lines, others = lines + 1, others + (not right)
            told = ", ".join(f"{answer} at {w} bits" for answer, w in answers)
            print(f"{'found wrong' if wrong else 'agreed'}: {form.text} ({told})" if right else f"OTHERWISE: {form.text} ({told})", flush=True)
    print(f"z3: {lines} lines, {others} judged otherwise")
    return 1 if others else 0


if __name__ == "__main__":
    sys.exit(main())
