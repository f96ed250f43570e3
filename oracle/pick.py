# pick.py CASES ANSWERS COUNT QUOTA: the line numbers, from 0, of cases that together show every feature of a case and its answer:
# kinds, sorts, modes, refusals, ways of replacement, questions with their replies, tallies. Short cases first, round after round,
# until COUNT are picked or each feature has been shown QUOTA times.
import pathlib
import sys

sys.path.insert(0, str(pathlib.Path(__file__).resolve().parent.parent / "tests"))
from house import RESULT_WIDTHS, ROW_WIDTH, TABLE_WIDTHS, cut  # noqa: E402

cases, answers = (open(f).read().splitlines() for f in sys.argv[1:3])
count, quota = int(sys.argv[3]), int(sys.argv[4])

# the words of each section after its count
def words(numbers, widths):
    return [section[1:] for section in cut(numbers, widths)[0]]

def stands_for(replacement, n):
    return "node" if replacement < n else "shared" if replacement < n + 2 else "made"

def features(case, answer):
    mode, *numbers = map(int, case.split())
    nodes, sequentials, initial, later, inputs, replies = words(numbers, TABLE_WIDTHS)
    kinds, sorts = nodes[0::ROW_WIDTH], nodes[1::ROW_WIDTH]
    found = {("mode", mode)} | {("kind", k, s) for k, s in zip(kinds, sorts)}
    first, *rest = answer.split()
    if first == "refused":
        return found | {("refused", *rest[:2])}
    rows, made, replaced, kept_s, kept_i, kept_l, left, asked, tally = words([int(w) for w in rest], RESULT_WIDTHS)
    found.add(("accepted", mode))
    found |= {("replaced", kinds[k], stands_for(r, len(kinds))) for k, r in zip(replaced[0::2], replaced[1::2])}
    found |= {("question", q, r) for q, r in zip(asked[0::4], asked[3::4])}
    found |= {("tally", i, min(x, 4)) for i, x in enumerate(tally)}
    found |= {("dropped", i) for i, (a, b) in enumerate([(sequentials, kept_s), (initial, kept_i), (later, kept_l)]) if len(b) < len(a)}
    return found

shown, picked = {}, []
left = sorted(range(len(cases)), key=lambda i: (len(cases[i]), i))
found = [features(c, a) for c, a in zip(cases, answers)]
for wanted in range(1, quota + 1):
    for i in list(left):
        if len(picked) < count and any(shown.get(f, 0) < wanted for f in found[i]):
            picked.append(i)
            left.remove(i)
            for f in found[i]:
                shown[f] = shown.get(f, 0) + 1
print("\n".join(map(str, sorted(picked))))
