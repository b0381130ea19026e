#!/usr/bin/env python3
"""Draws the rooms of crates.txt, each above those that it rests on: docs/draw-crates.py > docs/crates.svg"""
import pathlib
import re
from html import escape

WIDTH, PAD, LINE, GAP_X, GAP_Y = 190, 12, 20, 30, 46


def rooms():
    """The rooms in order, each with its crates, and the room of every crate."""
    names, crates, rests = [], {}, {}
    for line in pathlib.Path(__file__).parent.parent.joinpath("crates.txt").read_text().splitlines():
        head = re.match(r"# == ([^:]*):.* ==$", line)
        if head:
            names.append(head.group(1))
            crates[names[-1]] = []
        elif line and not line.startswith("#"):
            head, needs = line.split(":")
            crate = head.split()[0]
            crates[names[-1]].append(crate)
            rests[crate] = needs.split()
    home = {crate: room for room in names for crate in crates[room]}
    below = {
        room: {home[need] for crate in crates[room] for need in rests[crate] if need in home} - {room}
        for room in names
    }
    return names, crates, below


def reached(below, room):
    """All rooms below a room."""
    found = set(below[room])
    for other in below[room]:
        found |= reached(below, other)
    return found


def level(below, room):
    """How many rooms stand below a room, one on another."""
    return 1 + max((level(below, other) for other in below[room]), default=-1)


def main():
    names, crates, below = rooms()
    floors = {}
    for room in names:
        floors.setdefault(level(below, room), []).append(room)
    width = max(len(floor) for floor in floors.values()) * (WIDTH + GAP_X) + GAP_X
    box, top = {}, GAP_Y // 2
    for floor in sorted(floors, reverse=True):
        row = floors[floor]
        tallest = max(len(crates[room]) for room in row)
        height = PAD * 2 + LINE * (tallest + 1)
        left = (width - len(row) * (WIDTH + GAP_X) + GAP_X) / 2
        for place, room in enumerate(row):
            box[room] = (left + place * (WIDTH + GAP_X), top, height)
        top += height + GAP_Y
    total = top - GAP_Y // 2
    print(f'<svg xmlns="http://www.w3.org/2000/svg" viewBox="0 0 {width} {total}" font-family="sans-serif" font-size="14">')
    print(f'<rect width="{width}" height="{total}" fill="white"/>')
    for room in names:
        # an arrow that other arrows lead along is left out
        near = below[room] - {far for other in below[room] for far in reached(below, other)}
        for other in sorted(near, key=names.index):
            (x, y, height), (u, v, _) = box[room], box[other]
            print(f'<line x1="{x + WIDTH / 2}" y1="{y + height}" x2="{u + WIDTH / 2}" y2="{v}" stroke="#8a94a6"/>')
    for room in names:
        x, y, height = box[room]
        print(f'<rect x="{x}" y="{y}" width="{WIDTH}" height="{height}" rx="6" fill="#f4f6fa" stroke="#4a5568"/>')
        print(f'<text x="{x + PAD}" y="{y + PAD + 12}" font-weight="bold">{escape(room)}</text>')
        for place, crate in enumerate(crates[room]):
            colour = "#2f6f3e" if crate.endswith("_spec") or crate in ("setchain", "scheme") else "#1f2a44"
            print(f'<text x="{x + PAD}" y="{y + PAD + 12 + LINE * (place + 1)}" fill="{colour}">{escape(crate)}</text>')
    print("</svg>")


main()
