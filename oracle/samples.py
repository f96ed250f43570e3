# samples.py CASES ANSWERS PICKED OUT: writes picked cases as antt lists, 100 to a file, for the crate rules_samples, as `rt fmt` lays them out.
#     CASES, ANSWERS   a case and its answer to a line, as `tables` prints them        PICKED   line numbers from 0
import pathlib
import sys

sys.path.insert(0, str(pathlib.Path(__file__).resolve().parent.parent / "tests"))
from house import TABLE_WIDTHS, cut, names_count  # noqa: E402

cases, answers, picked = (open(f).read().splitlines() for f in sys.argv[1:4])
out = sys.argv[4]

# a case as mode, words of sections 1 to 6, names bytes
def split(case):
    mode, *numbers = map(int, case.split())
    end = cut(numbers, TABLE_WIDTHS)[1]
    count, *names = numbers[end:]
    return mode, numbers[:end], names_count(count) + names

# the answer as numbers: 0 and the result's words, or the refusal
def numbers(answer):
    first, *rest = answer.split()
    return ([0] if first == "accepted" else []) + [int(w) for w in rest]

def antt(xs):
    return "".join("%d ∷ " % x for x in xs) + "[]"

chunks = [picked[i : i + 100] for i in range(0, len(picked), 100)]
for k, chunk in enumerate(chunks, 1):
    with open("%s/Samples%d.antt" % (out, k), "w") as f:
        f.write("-- Random tables and what the published Rust answered but for the departures, made by oracle/regenerate (oracle/README.md).\n")
        f.write("-- Assumes nothing.\nuse Rattle.std.specs.Prelude.{List, [], ◌∷◌}\n")
        f.write("use Rattle.rules_samples.specs.Sample.{Sample, sample}\n\nunfoldable pub samples : List Sample\nsamples =\n    ")
        for line in chunk:
            mode, words, names = split(cases[int(line)])
            f.write("sample %d (%s) (%s) (%s)\n    ∷ " % (mode, antt(words), antt(names), antt(numbers(answers[int(line)]))))
        f.write("[]\n")
