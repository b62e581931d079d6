#!/usr/bin/env python3
"""Draws the crates as rooms of a house, and the data's way through them: docs/house.svg.

    python3 tools/house.py [CRATES_TXT] > docs/house.svg

CRATES_TXT is crates.txt of the repository if it isn't given. Each crate rests only on crates of lower floors, or left
of it on its own floor. The script tests this, and that FLOORS names each crate once; the status is 1 if either fails.
"""

import os
import sys
from html import escape

# The floors, lowest first. A floor is groups from left to right, and a group is rooms: a crate and what it holds.
FLOORS = [
    [("Names and functions", [
        ("regalloc2_index", "instructions, blocks"),
        ("regalloc2_names", "vregs, operands, places"),
        ("regalloc2_function", "Function, Output, tests")]),
     ("Moves", [
         ("regalloc2_parts", "lists, parallel moves")])],
    [("Analysis", [
        ("regalloc2_semantics", "the theorem's terms"),
        ("regalloc2_carry", "from blocks to paths"),
        ("regalloc2_analysis", "liveness, debug ranges")]),
     ("Stored forms", [
         ("regalloc2_serialize", "numbers, JSON, words"),
         ("regalloc2_text", "texts, causes of errors")])],
    [("Allocator", [
        ("regalloc2_fastalloc_state", "tests, tables of the walk"),
        ("regalloc2_fastalloc_proofs", "steps as relations"),
        ("regalloc2_fastalloc_walk", "the walk"),
        ("regalloc2_fastalloc", "run, the output")])],
    [("Checker", [
        ("regalloc2_checker_sets", "sets, saved copies"),
        ("regalloc2_checker", "Checker, test_cells")])],
    [("Front", [("regalloc2", "allocate, run_tested, run_checked, and all items under upstream's paths")])],
    [("Tools", [
        ("command_line", "tables of arguments"),
        ("regalloc2_tool", "listings, subcommands")]),
     ("C library", [
         ("regalloc2_c", "calls, statuses, words")])],
    [("Programs", [
        ("ra2", "JSON"),
        ("ra2_text", "texts")])],
    [("Code generator", [
        ("codegen_operation", "operations, operands"),
        ("codegen_machine", "functions, machine"),
        ("codegen_emit", "instructions"),
        ("codegen", "compiler, runs, text"),
        ("compile", "program")])],
    [("Example", [("example_toy", "program: a client, a call")]),
     ("Tests", [
         ("regalloc2_tests", "the program"),
         ("regalloc2_bench", "cost")])],
]

# The data's way: the rooms after the front, and what is handed on to each.
WAY = [
    ("regalloc2_fastalloc_state", "function, machine"),
    ("regalloc2_fastalloc_walk", "well-formed function"),
    ("regalloc2_fastalloc", "places and moves"),
    ("regalloc2_checker", "output"),
]

ROOM, HIGH, GAP, MARGIN, FLOOR = 156, 50, 8, 76, 108
WIDE = 2 * MARGIN + 5 * ROOM + 4 * GAP
COLOURS = {
    "Names and functions": "#e8eef7", "Stored forms": "#f3ecdf", "Analysis": "#e6f2e6", "Moves": "#f2e8f2",
    "Allocator": "#fbe9e0", "Checker": "#e2f1f3", "Front": "#fff6d6", "Tools": "#f3ecdf", "C library": "#f3ecdf",
    "Programs": "#f3ecdf", "Code generator": "#eeeeee", "Example": "#eeeeee",
    "Tests": "#eeeeee",
}


def crates_in(path):
    """The crates of a crates.txt, in order, each with those that it rests on."""
    found = {}
    with open(path, encoding="utf-8") as lines:
        for line in lines:
            if ":" in line and not line.startswith("#"):
                name, below = line.split(":", 1)
                found[name.split()[0]] = below.split()
    return found


def faults_of(crates):
    """What in crates.txt doesn't agree with FLOORS."""
    rank = {}
    for floor in FLOORS:
        for _, rooms in floor:
            for crate, _ in rooms:
                if crate in rank:
                    yield f"{crate} is drawn twice"
                rank[crate] = len(rank)
    for crate in crates:
        if crate not in rank:
            yield f"{crate} isn't drawn"
    for crate in rank:
        if crate not in crates:
            yield f"{crate} isn't in crates.txt"
        for below in crates.get(crate, []):
            if below in rank and rank[below] > rank[crate]:
                yield f"{crate} rests on {below}, which is drawn above it or right of it"


def text(x, y, words, size, anchor="middle", style=""):
    """A line of text."""
    return (f'<text x="{x:g}" y="{y:g}" font-size="{size}" text-anchor="{anchor}" font-family="sans-serif"'
            f'{" " + style if style else ""}>{escape(words)}</text>')


def short(crate):
    """A crate's name as it is drawn: without the prefix that most have."""
    return crate.removeprefix("regalloc2_")


def arrow(points):
    """A part of the data's way."""
    path = " ".join(f"{x:g},{y:g}" for x, y in points)
    return f'<polyline points="{path}" fill="none" stroke="#b5400b" stroke-width="2.5" marker-end="url(#tip)"/>'


def rooms_drawn():
    """The drawing of all rooms, and where each is: x, y and width."""
    drawn, at = [], {}
    for level, floor in enumerate(reversed(FLOORS)):
        y = 66 + level * FLOOR
        count = sum(len(rooms) for _, rooms in floor)
        wide = (WIDE - 2 * MARGIN - (count - 1) * GAP) / count if count == 1 else ROOM
        x = (WIDE - count * wide - (count - 1) * GAP) / 2
        for group, rooms in floor:
            drawn.append(text(x, y - 7, group, 12, "start", 'font-weight="bold" fill="#444"'))
            for crate, holds in rooms:
                at[crate] = (x, y, wide)
                drawn.append(f'<rect x="{x:g}" y="{y}" width="{wide:g}" height="{HIGH}" rx="4" fill="{COLOURS[group]}"'
                             f' stroke="#555"/>')
                drawn.append(text(x + wide / 2, y + 21, short(crate), 13, style='font-weight="bold"'))
                drawn.append(text(x + wide / 2, y + 38, holds, 10.5, style='fill="#333"'))
                x += wide + GAP
    return drawn, at


def way_drawn(at):
    """The data's way: into the front, down to the tests, along their floor, up to the checker and the front, and out."""
    (fx, fy, fw), drawn = at["regalloc2"], []
    middle = fy + HIGH / 2
    drawn.append(arrow([(6, middle), (fx - 2, middle)]))
    drawn.append(text(6, middle - 8, "Function,", 10.5, "start"))
    drawn.append(text(6, middle + 18, "MachineEnv", 10.5, "start"))
    drawn.append(arrow([(fx + fw, middle), (WIDE - 6, middle)]))
    drawn.append(text(WIDE - 6, middle - 8, "Output", 10.5, "end"))
    centres = [(at[crate][0] + at[crate][2] / 2, at[crate][1]) for crate, _ in WAY]
    (x, y), (_, words) = centres[0], WAY[0]
    drawn.append(arrow([(x + 26, fy + HIGH), (x + 26, y - 2)]))
    drawn.append(text(x + 33, fy + HIGH + 17, words, 10.5, "start"))
    for (start, y), (end, above), (_, words) in zip(centres, centres[1:], WAY[1:]):
        if above == y:
            low = y + HIGH + 16
            drawn.append(arrow([(start + 18, y + HIGH), (start + 18, low), (end - 18, low), (end - 18, y + HIGH + 2)]))
            drawn.append(text((start + end) / 2, low + 13, words, 10.5))
        else:
            drawn.append(arrow([(start, y), (start, above + HIGH / 2), (end + ROOM / 2 + 2, above + HIGH / 2)]))
            drawn.append(text(start + 7, above + HIGH + 17, words, 10.5, "start"))
    x, y = centres[-1]
    drawn.append(arrow([(x + 26, y), (x + 26, fy + HIGH + 2)]))
    drawn.append(text(x + 19, fy + HIGH + 17, "faithful output", 10.5, "end"))
    return drawn


def main():
    """Writes the drawing, or what is wrong with it."""
    here = os.path.dirname(os.path.dirname(os.path.abspath(__file__)))
    crates = crates_in(sys.argv[1] if len(sys.argv) > 1 else os.path.join(here, "crates.txt"))
    faults = list(faults_of(crates))
    if faults:
        sys.exit("\n".join(faults))
    high = 66 + len(FLOORS) * FLOOR - 18
    drawn, at = rooms_drawn()
    print(f'<svg xmlns="http://www.w3.org/2000/svg" viewBox="0 0 {WIDE} {high}" width="{WIDE}" height="{high}">')
    print('<defs><marker id="tip" viewBox="0 0 8 8" refX="6" refY="4" markerWidth="5" markerHeight="5" orient="auto">'
          '<path d="M0,0 L8,4 L0,8 z" fill="#b5400b"/></marker></defs>')
    print(f'<rect width="{WIDE}" height="{high}" fill="white"/>')
    print(text(WIDE / 2, 24, "Each room rests only on rooms below it, or left of it on its floor."
               " Names leave out regalloc2_. The orange line is one call of allocate.", 12))
    print("\n".join(drawn + way_drawn(at)))
    print("</svg>")


if __name__ == "__main__":
    main()
