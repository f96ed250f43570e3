#!/usr/bin/env python3
"""Lists places of src/ (and proofs/) that today's Rattle has a plainer form for, by the points of docs/DESIGN-PASS.md.

usage: tools/places.py [POINT] [--in FOLDER]     POINT is 1 to 8, all unless given; FOLDER is a checkout, this one unless given.
Each line is a place, 'crate/file.rt:line  what'; a point ends with its count. The lists are of shapes in the text: what a place means is for the reader.
"""

import collections
import glob
import os
import re
import sys

here = os.path.dirname(os.path.dirname(os.path.realpath(__file__)))
words = sys.argv[1:]
if "--in" in words:
    at = words.index("--in")
    here = words[at + 1]
    del words[at : at + 2]
wanted = [int(word) for word in words] or list(range(1, 9))


def files(pattern):
    return sorted(path for path in glob.glob(os.path.join(here, "crates", pattern), recursive=True))


def shown(path, line):
    return "%s:%d" % (os.path.relpath(path, os.path.join(here, "crates")).replace("/src/", "/"), line)


def code_of(path):
    """The text with comments, ghost lines and clauses blanked, so that lines keep their numbers."""
    text = re.sub(r"//[^\n]*", "", open(path).read())
    text = re.sub(r"ghost use [^;]*;", lambda found: "\n" * found.group(0).count("\n"), text)
    return re.sub(r"(?m)^\s+(requires|ensures)\*?[^\n]*$", "", text)


def block(text, at):
    """From the bracket at a place to its partner."""
    depth = 0
    for k in range(at, len(text)):
        depth += text[k] in "{(" 
        depth -= text[k] in "})"
        if depth == 0:
            return text[at : k + 1]
    return text[at:]


class Function:
    def __init__(self, path, text, found):
        self.path = path
        self.line = text.count("\n", 0, found.start()) + 1
        self.name = found.group(1)
        opening = text.index("(", found.end() - 1)
        self.head = block(text, opening)
        self.body = block(text, text.index("{", opening + len(self.head)))
        inside = re.sub(r"<[^<>]*>", "", self.head[1:-1])
        self.parameters = [" ".join(part.split()) for part in inside.split(",") if part.strip()]


def functions(path):
    text = code_of(path)
    return [Function(path, text, found) for found in re.finditer(r"\bfn (\w+)\s*(?:<[^>]*>)?\s*\(", text)]


SOURCES = files("*/src/**/*.rt")
FUNCTIONS = [function for path in SOURCES for function in functions(path)]


def crate_of(path):
    return os.path.relpath(path, os.path.join(here, "crates")).split("/")[0]


def enums():
    for path in SOURCES:
        text = code_of(path)
        for found in re.finditer(r"\benum (\w+)[^{]*\{", text):
            body = block(text, found.end() - 1)[1:-1]
            variants = re.findall(r"(?m)^\s*(\w+)\s*(\(([^)]*)\)|\{([^}]*)\})?\s*,", body)
            yield path, text.count("\n", 0, found.start()) + 1, found.group(1), [(v[0], v[2] or v[3]) for v in variants]


def point_1():
    for path, line, name, variants in enums():
        loaded = [v for v in variants if v[1]]
        if len(variants) == 2 and loaded or len(variants) == 3 and len(loaded) == 1:
            yield path, line, "enum %s { %s }" % (name, ", ".join(v[0] + ("(%s)" % " ".join(v[1].split()) if v[1] else "") for v in variants))
    for path in SOURCES:
        for k, text in enumerate(code_of(path).split("\n"), 1):
            if re.search(r"^\s*(pub )?\w+: bool,", text):
                yield path, k, "flag " + text.strip()
    codes = collections.defaultdict(list)
    for function in FUNCTIONS:
        for parameter in function.parameters:
            found = re.search(r"^(kind|mark|verdict|reply|entry|section|part|number|code|mode|counters|call): *&?(mut )?(u64|usize|Counters|CallWords)", parameter)
            if found:
                codes[crate_of(function.path), found.group(0)].append(function)
    for (crate, parameter), group in codes.items():
        yield group[0].path, group[0].line, "number code %s of %d functions, %s first" % (parameter, len(group), group[0].name)
    for path in SOURCES:
        text = re.sub(r"\n\s*\n", "\n", code_of(path))
        for found in re.finditer(r"(\s*(pub(\(crate\))? )?const (\w+): u(64|size) = \d{1,2};){3,}", text):
            names = re.findall(r"const (\w+)", found.group(0))
            yield path, open(path).read().split("const %s:" % names[0])[0].count("\n") + 1, "numbers %s to %s: %d constants" % (names[0], names[-1], len(names))


def shape(function):
    text = " ".join(function.body.split())
    text = re.sub(r"\b(\w+)(?=\()", "F", re.sub(r"\b[A-Z]\w*(::\w+)*", "T", text))
    return re.sub(r"\b[a-z_]\w*\b", lambda w: w.group(0) if w.group(0) in KEPT else "x", re.sub(r"\b\d\w*\b", "0", text))


KEPT = "let mut if else match return while for in loop break ref as".split()


def point_2():
    groups = collections.defaultdict(list)
    for function in FUNCTIONS:
        if len(function.body.split()) >= 12:
            groups[shape(function)].append(function)
    for group in groups.values():
        if len(group) > 1:
            yield group[0].path, group[0].line, "%d of one shape: %s" % (len(group), ", ".join("%s (%s)" % (f.name, shown(f.path, f.line)) for f in group))


def point_3():
    for path in SOURCES:
        for k, text in enumerate(code_of(path).split("\n"), 1):
            if re.search(r"\bwhile\b|\bloop\b", text):
                yield path, k, text.strip()


VALUE = r"(?:[A-Z]\w*(?:::\w+)*\()?(?:\d[\w]*|[A-Z]\w*(?:::\w+)*|true|false)\)?"


def point_4():
    for function in FUNCTIONS:
        body = re.sub(r"\([^()]*\) =>", " =>", " ".join(function.body.split()))
        arms = [arm.split(" => ", 1)[1] for arm in re.split(r"(?<=[,{]) (?=[^,{}]* => )", body.rstrip(" }")) if " => " in arm]
        if body.startswith("{ match ") and len(arms) > 1 and all(re.fullmatch(VALUE, arm.strip(" ,}")) for arm in arms[:-1]):
            yield function.path, function.line, "%s: a match from case to value" % function.name
        elif re.fullmatch(r"\{ \w+ as \w+ \}", body):
            yield function.path, function.line, "%s: a cast" % function.name


def point_5():
    clauses = collections.defaultdict(list)
    for path in SOURCES:
        name = ""
        for k, text in enumerate(open(path).read().split("\n"), 1):
            head = re.search(r"\bfn (\w+)", text)
            name = head.group(1) if head else name
            clause = re.search(r"^\s+requires\*? *\w* *\{ (.*) \}$", text)
            if clause:
                for fact in clause.group(1).split(" × "):
                    clauses[crate_of(path), fact.strip("() ")].append((path, k, name))
    for (crate, fact), places in sorted(clauses.items()):
        if len(places) > 2:
            yield places[0][0], places[0][1], "required %d times: %s" % (len(places), fact)
    for crate in sorted({crate_of(function.path) for function in FUNCTIONS}):
        own = [(f, frozenset(p for p in f.parameters if ":" in p)) for f in FUNCTIONS if crate_of(f.path) == crate]
        sets = {a & b for _, a in own for _, b in own}
        sets = {s for s in sets if len(s) > 1 and sum(s <= b for _, b in own) > 2}
        for group in sorted(sets, key=sorted):
            if not any(group < other for other in sets):
                users = [f for f, names in own if group <= names]
                yield users[0].path, users[0].line, "together in %d functions: %s" % (len(users), ", ".join(p for p in users[0].parameters if p in group))


def point_6():
    for function in FUNCTIONS:
        if re.search(r"&(mut )?\[\w+(; \w+)?\]", function.head) and re.search(r"\b(at|start|count|size|len|filled|end|place|kept|used|room|list|from|to|head): (usize|u64)", function.head):
            yield function.path, function.line, "%s%s" % (function.name, " ".join(function.head.split()))
    for path in SOURCES:
        for k, text in enumerate(code_of(path).split("\n"), 1):
            if re.search(r"let mut \w+ = \[\w+; \w+\]", text):
                yield path, k, text.strip()


def point_7():
    for function in FUNCTIONS:
        body = " ".join(function.body.split())
        found = re.search(r"match [\w.()&, *]+ \{(.*)\}", body)
        arms = re.findall(r"=> (?:return )?[\w:]+(?:\.\w+)?\(", found.group(1)) if found else []
        if len(arms) >= 3:
            yield function.path, function.line, "%s: a switch with %d calls" % (function.name, len(arms))


def point_8():
    for path in files("*/proofs/**/*.antt"):
        text = open(path).read()
        runs = collections.Counter(line.strip() for line in text.split("\n") if len(line.strip()) > 60 and not line.startswith(("use ", "--")))
        for line, times in runs.items():
            if times > 2:
                yield path, text.count("\n", 0, text.index(line)) + 1, "%d times: %.90s" % (times, line)
        for k, line in enumerate(text.split("\n"), 1):
            if len(line) > 1000:
                yield path, k, "an answer of %d characters" % len(line)


for point in wanted:
    places = list({(p, k, what): None for p, k, what in globals()["point_%d" % point]()})
    print("point %d" % point)
    for path, line, what in places:
        print("  %s  %s" % (shown(path, line), what))
    print("point %d: %d" % (point, len(places)))
