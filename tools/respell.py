#!/usr/bin/env python3
"""Brings this repository's own names in specs/, proofs/ and clauses to the spelling of the kit's libraries: words in snake case, types in camel case.

    tools/respell.py [--check] [FOLDER]     FOLDER is a checkout, the one that this file stands in if none is named; --check writes nothing

Run once, after the kit's port.py. Three rules, each for whole words outside strings:
  1. a word in camel case that begins in lower case gets underscores: nodeAt is node_at, foldWords-ok is fold_words-ok;
  2. a word of the repository's own that has dashes gets underscores, but a dash stays between two names of definitions (fold_ext-ok keeps none,
     length-table keeps its own) and where the new word would fall together with another one. A field of a record, and a function, keep no dash.
     Names that the check makes (returns-2, loop-k-init), that proofs/FUNCTION/ declares and that a library has stay;
  3. a function into Type that began in lower case begins in upper case (TYPES below), and a lemma that would have its function's name ends in _lem
     (LEMMAS).
Functions and fields of src/ are in snake case already, and strings, inputs and outputs are not looked at.
It prints each new word with the old one, and what it kept since two words would fall together.
"""
import os, re, sys

WORD = re.compile(r"[^\s(){}.;,@\"«»\[\]`]+")
CAMEL = re.compile(r"^[a-z][a-z0-9]*[A-Z][A-Za-z0-9]*(?:['₀-₉!]*)$")
DECLARED = re.compile(r"^\s*(?:(?:abbrev|pub|unfoldable|pattern|let)\s+)*((?:[^\s(){}.;,:]+\s+)+):(?=\s)")
LET = re.compile(r"\blet\s+([^\s(){}.;,:]+)\s+[:=](?=\s)")
BINDER = re.compile(r"[({]((?:[^\s(){}.;,:]+\s+)+):(?=\s)")
USE = re.compile(r"^\s*(?:pub\s+)?(?:ghost\s+)?use\s+([^\s{;]+?)\.?(?:\{([^}]*)\})?(?:\s+as\s+\S+)?;?\s*$", re.M)
STRING = re.compile(r'"(?:[^"\\\n]|\\.)*"')
# what the check calls goals and the parts of a proof's context
MADE = re.compile(r"^(?:returns|ensures|requires|invariant|decreases|loop|if|then|else|in|in_ok|in_err|in_some|in_none|overflow_\w+|bounds|nonzero|cast|prove)-")
# functions into Type, by the module that declares them
TYPES = {("btor", "LawsInCode"): {"contract": "Contract"}, ("btor", "AgreementInCode"): {"standardContract": "StandardContract"},
         ("rules", "Places"): {"part": "Part"}}
# lemmas that would have their function's name, by the module that declares them
LEMMAS = {("rules", "Check"): {"all_true": "all_true_lem"}, ("rules", "Sections"): {"rows_words": "rows_words_lem"},
          ("optimize", "Walks"): {"node_at": "node_at_lem"}, ("optimize", "Forms"): {"two_then": "two_then_lem"}}


def files(root):
    for folder, folders, names in os.walk(root):
        folders[:] = sorted(f for f in folders if f not in ("out", "target", ".git", "data"))
        for name in sorted(names):
            yield os.path.join(folder, name)


def snake(part):
    return re.sub(r"(?<=[a-z0-9])([A-Z])", lambda m: "_" + m.group(1).lower(), part) if CAMEL.match(part) else part


def camel_free(word):
    return "-".join(snake(p) for p in word.split("-"))


def main():
    arguments = [a for a in sys.argv[1:] if a != "--check"]
    root = arguments[0] if arguments else os.path.join(os.path.dirname(os.path.abspath(__file__)), "..")
    crates = os.path.join(root, "crates")
    own = set(os.listdir(crates))
    text = {}
    for path in files(root):
        if path.endswith((".antt", ".rt", ".edit", ".md", ".py", ".sh")) and os.path.basename(path) != "respell.py" and not os.path.basename(path).startswith("PORT"):
            with open(path, encoding="utf-8") as f:
                text[path] = f.read()
    antt = {p: t for p, t in text.items() if p.endswith(".antt")}

    def top(path):  # a file of specs/ or of lemmas, and no proof of one function
        parts = os.path.relpath(path, crates).split(os.sep)
        return parts[1] == "specs" or (parts[1] == "proofs" and len(parts) == 3)

    foreign, declared, functions, made, every = set(), set(), set(), set(), set()
    for path, t in antt.items():
        for use in USE.finditer(t):
            crate = use.group(1).split(".")
            if not (crate[0] == "Rattle" and len(crate) > 1 and crate[1] in own):
                for item in (use.group(2) or "").split(","):
                    for w in item.replace(" as ", " ").split():
                        foreign.add(w)
        every |= set(WORD.findall(t))
        inside = False
        for line in t.split("\n"):
            if re.match(r"\s*(pub )?record ", line):
                inside = True
            elif re.match(r"\S", line):
                inside = False
            names = []
            m = DECLARED.match(line)
            if m:
                names += [w for w in m.group(1).split() if w not in ("pub", "abbrev", "unfoldable", "pattern", "let")]
                if inside or re.match(r"\s*(unfoldable|abbrev)", line) or re.match(r"\s*(pub )?\S+ : .*(ℕ|Bool|St|Node|Call|Accepted|Type \d|List ℕ)\s*$", line):
                    functions |= set(names)
            names += [w for m in BINDER.finditer(line) for w in m.group(1).split()] + LET.findall(line)
            (declared if top(path) else made).update(names)
    for path, t in text.items():
        if path.endswith(".rt"):
            for use in re.finditer(r"ghost use ([^\s{;]+?)\.\{([^}]*)\}", t):
                crate = use.group(1).split(".")
                if not (len(crate) > 1 and crate[1] in own):
                    foreign |= set(re.split(r"[\s,]+", use.group(2)))
    names_of_definitions = {camel_free(w) for w in functions | foreign if "-" not in w} | {w.lower() for w in declared if w[:1].isupper()}

    new = {}
    for w in sorted(every):
        n = camel_free(w)
        if "-" in n and w in declared and w not in foreign and w not in made and not MADE.match(w) and not re.search(r"[^\w'!₀-₉-]", n):
            parts = n.split("-")
            if w in functions:
                n = "_".join(parts)
            else:
                built = parts[0]
                for a, b in zip(parts, parts[1:]):
                    built += ("-" if a in names_of_definitions and b in names_of_definitions else "_") + b
                n = built
        if n != w:
            new[w] = n
    taken = {}
    for w in sorted(every):
        taken.setdefault(new.get(w, w), []).append(w)
    for n, ws in sorted(taken.items()):
        if len(ws) > 1:
            for w in ws:
                if w in new and "-" in w:
                    kept = camel_free(w)
                    print("kept apart:", " ".join(ws), "->", kept)
                    if kept == w:
                        del new[w]
                    else:
                        new[w] = kept
                elif w in new:
                    print("falls together:", " ".join(ws))
    for w, n in sorted(new.items()):
        print(w, "->", n)

    def turn(match):
        w = match.group(0)
        return new.get(w, w)

    def code(t):
        out, last = [], 0
        for s in STRING.finditer(t):
            out += [WORD.sub(turn, t[last:s.start()]), s.group(0)]
            last = s.end()
        return "".join(out) + WORD.sub(turn, t[last:])

    for path, t in text.items():
        if path.endswith(".antt"):
            parts = os.path.relpath(path, crates).split(os.sep)
            turned = t
            for table in (TYPES, LEMMAS):
                for (crate, module), types in table.items():
                    here = os.path.relpath(path, crates) == os.path.join(crate, "proofs", module + ".antt")
                    for o, n in types.items():
                        imports = re.search(r"use Rattle\.%s\.proofs\.%s\.\{([^}]*[\s,])?%s[\s,}]" % (crate, module, o), turned)
                        if here or imports:
                            whole = re.compile(r"(?<![^\s(){},;])%s(?![^\s(){},;.])" % re.escape(o))
                            turned = "\n".join(line if line.lstrip().startswith("--") else whole.sub(n, line) for line in turned.split("\n"))
            turned = code(turned)
        elif path.endswith((".rt", ".edit")):
            turned = "\n".join(code(line) for line in t.split("\n"))
        elif path.endswith(".md"):
            turned = re.sub(r"`[^`\n]*`", lambda s: WORD.sub(turn, s.group(0)), t)
        else:
            continue
        if turned != t and "--check" not in sys.argv:
            with open(path, "w", encoding="utf-8") as f:
                f.write(turned)


main()
