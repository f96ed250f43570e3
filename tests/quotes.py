#!/usr/bin/env python3
"""Comments of crates/ that quote the rules quote docs/FORMAT.md: each quotation of three words or more stands there word for word, within one
heading's text, and each heading cited as docs/FORMAT.md, "X" is one. A gap is marked by ' .. '; white space and markdown's signs do not count.
    tests/quotes.py        lists what is not found, and then ends with 1"""
import pathlib
import re
import sys

ROOT = pathlib.Path(__file__).resolve().parent.parent
COMMENT = {".antt": re.compile(r"(?:^|\s)--(.*)"), ".rt": re.compile(r"//(.*)")}
CITED = re.compile(r'docs/FORMAT\.md((?:, "[^"]*")+)')


def plain(text):
    """The words of a markdown text: no links, list signs, stars, backquotes or table bars, and one blank between two words."""
    text = re.sub(r"\[([^\]]*)\]\([^)]*\)", r"\1", text)
    text = re.sub(r"(?m)^ *(?:-|\d+\.) +", "", text)
    return " ".join(re.sub(r"\*\*|`", "", text).replace("|", " ").split())


def chapters():
    """The text below each heading of docs/FORMAT.md."""
    parts = re.split(r"(?m)^#+ +(.*)$", (ROOT / "docs/FORMAT.md").read_text())
    return {plain(head): plain(body) for head, body in zip(parts[1::2], parts[2::2])}


def comments():
    """Every comment with a quotation: its place and its text. What rt keeps in a crate's out/ is left out."""
    for path in sorted((ROOT / "crates").rglob("*")):
        if path.suffix in COMMENT and path.relative_to(ROOT).parts[2:3] != ("out",):
            for number, line in enumerate(path.read_text().splitlines(), 1):
                found = COMMENT[path.suffix].search(line)
                if found and '"' in found.group(1):
                    yield f"{path.relative_to(ROOT)}:{number}", found.group(1)


def stands(quotation, texts):
    """Whether the parts of a quotation stand one after the other in one of the texts, as whole words."""
    parts = [re.escape(plain(part)) for part in quotation.split(" .. ")]
    wanted = re.compile(r"(?<!\w)" + r"(?!\w).*?(?<!\w)".join(parts) + r"(?!\w)")
    return any(wanted.search(text) for text in texts)


def main():
    book, count, lost = chapters(), 0, []
    for place, text in comments():
        for heads in CITED.findall(text):
            lost += [f'{place}: no heading "{head}"' for head in re.findall(r'"([^"]*)"', heads) if head not in book]
        pieces = CITED.sub("", text).split('"')
        if len(pieces) % 2 == 0:
            lost.append(f"{place}: a quotation without an end")
        quotations = [piece for piece in pieces[1::2] if len(piece.split()) >= 3]
        count += len(quotations)
        lost += [f'{place}: "{piece}"' for piece in quotations if not stands(piece, book.values())]
    print(*lost, sep="\n", end="\n" if lost else "")
    print(f"quotes: {count} quotations of docs/FORMAT.md, {len(lost)} not found")
    return 1 if lost or not count else 0


if __name__ == "__main__":
    sys.exit(main())
