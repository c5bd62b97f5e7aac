#!/usr/bin/env python3
"""Draws the stack of crates as SVG, by the groups of crates.txt: tools/stack.py > docs/stack.svg

A box is a group with its crates. A line leads down to each group that it stands on, but for those that another of these stands on.
A group of tests isn't drawn."""
import re
import sys
from pathlib import Path

TOP = Path(__file__).resolve().parent.parent
LEFT_OUT = "tests"
WIDTH, GAP, LINE, MARGIN, BETWEEN = 200, 24, 15, 12, 36
STYLE = (
    "text{font:12px sans-serif;fill:#222}.title{font-weight:bold}"
    ".box{fill:#f4f6f8;stroke:#5b6b7a}.line{fill:none;stroke:#9aa7b3}"
)


def read_groups() -> tuple[dict[str, list[str]], dict[str, set[str]]]:
    """The crates of each group, and the groups that it stands on."""
    crates: dict[str, list[str]] = {}
    libraries: dict[str, list[str]] = {}
    group = ""
    for line in (TOP / "crates.txt").read_text().splitlines():
        if line.startswith("# "):
            group = re.split(":| as | of | where ", line[2:])[0]
        elif line:
            crate, _, named = line.partition(":")
            crates.setdefault(group, []).append(crate.split()[0])
            libraries[crate.split()[0]] = named.split()
    crates.pop(LEFT_OUT, None)
    home = {crate: group for group, members in crates.items() for crate in members}
    below = {
        group: {home[library] for crate in members for library in libraries[crate] if library in home} - {group}
        for group, members in crates.items()
    }
    return crates, below


def reached(group: str, below: dict[str, set[str]]) -> set[str]:
    """All groups under a group."""
    return set().union(*({other} | reached(other, below) for other in below[group]))


def drawing(crates: dict[str, list[str]], below: dict[str, set[str]]) -> str:
    depth: dict[str, int] = {}

    def depth_of(group: str) -> int:
        if group not in depth:
            depth[group] = 1 + max((depth_of(other) for other in below[group]), default=-1)
        return depth[group]

    rows: dict[int, list[str]] = {}
    for group in crates:
        rows.setdefault(depth_of(group), []).append(group)
    height = {group: (len(crates[group]) + 1) * LINE + 2 * MARGIN - 6 for group in crates}
    wide = max(map(len, rows.values()))
    total = wide * WIDTH + (wide + 1) * GAP
    place: dict[str, tuple[float, float]] = {}
    top = float(GAP)
    for row in sorted(rows, reverse=True):
        groups = rows[row]
        left = (total - len(groups) * WIDTH - (len(groups) - 1) * GAP) / 2
        for at, group in enumerate(groups):
            place[group] = (left + at * (WIDTH + GAP), top)
        top += max(height[group] for group in groups) + BETWEEN
    parts = [
        f'<svg xmlns="http://www.w3.org/2000/svg" viewBox="0 0 {total} {top:g}" width="{total}" height="{top:g}">',
        f"<style>{STYLE}</style>",
    ]
    for group in crates:
        near = below[group] - set().union(*(reached(other, below) for other in below[group]))
        for other in sorted(near):
            x, y = place[group][0] + WIDTH / 2, place[group][1] + height[group]
            to_x, to_y = place[other][0] + WIDTH / 2, place[other][1]
            middle = (y + to_y) / 2
            parts.append(f'<path class="line" d="M{x:g} {y:g}C{x:g} {middle:g} {to_x:g} {middle:g} {to_x:g} {to_y:g}"/>')
    for group, members in crates.items():
        x, y = place[group]
        parts.append(f'<rect class="box" x="{x:g}" y="{y:g}" width="{WIDTH}" height="{height[group]}" rx="4"/>')
        for at, word in enumerate([group, *members]):
            kind = ' class="title"' if at == 0 else ""
            parts.append(f'<text{kind} x="{x + MARGIN:g}" y="{y + MARGIN + 8 + at * LINE:g}">{word}</text>')
    return "\n".join([*parts, "</svg>", ""])


if __name__ == "__main__":
    sys.stdout.write(drawing(*read_groups()))
