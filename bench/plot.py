#!/usr/bin/env python3
"""Draws the benchmark's times as an SVG and prints them as a table for docs/PERFORMANCE.md.

    bench/plot.py TIMES.csv OUT.svg
"""
import csv
import math
import sys

LINES = [("rust", "#b5651d", "published Rust"), ("gemtweed", "#1f6f8b", "Gemtweed"), ("floor", "#888888", "floor")]
PANEL, HEIGHT, LEFT, TOP, GAP = 200, 150, 64, 48, 60
ACROSS = 4  # panels side by side


def read(path):
    shapes = {}
    with open(path) as file:
        for row in csv.DictReader(file):
            times = {key: int(row[key]) for key, _, _ in LINES}
            shapes.setdefault(row["shape"], []).append((int(row["nodes"]), times))
    return shapes


def scale(value, low, high, length):
    return length * (math.log(value) - math.log(low)) / (math.log(high) - math.log(low))


def text(x, y, words, anchor="middle", size=11):
    return f'<text x="{x:.0f}" y="{y:.0f}" text-anchor="{anchor}" font-size="{size}">{words}</text>'


def duration(ns):
    for unit, name in ((1e6, "ms"), (1e3, "µs")):
        if ns >= unit:
            return f"{ns / unit:g} {name}"
    return f"{ns:g} ns"


def panel(x, y, name, rows, low, high):
    nodes = [count for count, _ in rows]
    out = [text(x + PANEL / 2, y - 8, name, size=13)]
    for power in range(int(math.log10(low)), int(math.log10(high)) + 1):
        at = y + HEIGHT - scale(10**power, low, high, HEIGHT)
        out.append(f'<line x1="{x}" x2="{x + PANEL}" y1="{at:.1f}" y2="{at:.1f}" stroke="#ddd"/>')
        out.append(text(x - 6, at + 4, duration(10**power), "end", 10))
    place = lambda count: x + scale(count, nodes[0], nodes[-1], PANEL)
    for count in nodes:
        out.append(text(place(count), y + HEIGHT + 15, f"{count:,}", size=10))
    for key, colour, _ in LINES:
        points = " ".join(f"{place(count):.1f},{y + HEIGHT - scale(times[key], low, high, HEIGHT):.1f}" for count, times in rows)
        out.append(f'<polyline points="{points}" fill="none" stroke="{colour}" stroke-width="2"/>')
    return out


def draw(shapes):
    times = [time for rows in shapes.values() for _, row in rows for time in row.values()]
    low, high = 10 ** math.floor(math.log10(min(times))), 10 ** math.ceil(math.log10(max(times)))
    width = LEFT + ACROSS * (PANEL + GAP)
    height = TOP + math.ceil(len(shapes) / ACROSS) * (HEIGHT + GAP)
    out = [f'<svg xmlns="http://www.w3.org/2000/svg" width="{width}" height="{height}" font-family="sans-serif">', f'<rect width="{width}" height="{height}" fill="white"/>']
    for k, (_, colour, label) in enumerate(LINES):
        out.append(f'<line x1="{LEFT + 160 * k}" x2="{LEFT + 160 * k + 24}" y1="14" y2="14" stroke="{colour}" stroke-width="2"/>')
        out.append(text(LEFT + 160 * k + 30, 18, label, "start"))
    for k, (name, rows) in enumerate(shapes.items()):
        out += panel(LEFT + k % ACROSS * (PANEL + GAP), TOP + k // ACROSS * (HEIGHT + GAP), name, rows, low, high)
    return "\n".join(out + ["</svg>"]) + "\n"


def table(shapes):
    print("| shape | nodes | Rust, µs | Gemtweed, µs | floor, µs | Rust / Gemtweed | Gemtweed / floor | growth |")
    print("|---|---:|---:|---:|---:|---:|---:|---:|")
    for name, rows in shapes.items():
        last = None
        for count, times in rows:
            rust, ours, floor = (times[key] for key, _, _ in LINES)
            growth = f"{ours / last:.1f}" if last else ""
            print(f"| {name} | {count:,} | {rust / 1e3:,.1f} | {ours / 1e3:,.1f} | {floor / 1e3:,.2f} | {rust / ours:.1f} | {ours / floor:.1f} | {growth} |")
            last = ours


def main():
    if len(sys.argv) != 3:
        sys.exit(__doc__)
    shapes = read(sys.argv[1])
    with open(sys.argv[2], "w") as file:
        file.write(draw(shapes))
    table(shapes)


main()
