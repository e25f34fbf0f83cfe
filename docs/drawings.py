"""Draws the pictures that explain, as SVG: the crates by layers, the table as it grows, and the way of a call; and those of charts.py.

usage: python3 docs/drawings.py

It writes them beside the pages; docs/check.py compares them with what this file draws."""
import re
import sys

import charts
import sources

sys.path.append(f"{sources.TOP}/bench")
sys.path.append(f"{sources.TOP}/tools")

from pictures import OTHERS, OWN, line, text, whole  # noqa: E402
from unproved.crates import Repository  # noqa: E402

LAYERS, TABLE, CALL = "docs/layers.svg", "docs/table.svg", "docs/call.svg"
SIDE = 44
ARROWS = """<defs><marker id="tip" viewBox="0 0 8 8" refX="7" refY="4" markerWidth="7" markerHeight="7" orient="auto">
<path d="M0,0 L8,4 L0,8 z" fill="currentColor" fill-opacity="0.6"/></marker></defs>"""


def box(x, y, said, wide=SIDE, high=SIDE, fill="none", strength=0.25, dashed=False):
    rect = f'<rect x="{x}" y="{y}" width="{wide}" height="{high}" rx="3" fill="{fill}" fill-opacity="{strength}"'
    dash = ' stroke-dasharray="4 3"' if dashed else ""
    return [f'{rect} stroke="currentColor" stroke-opacity="0.5"{dash}/>', text(x + wide / 2, y + high / 2 + 5, said, "middle")]


def arrow(x1, y1, x2, y2):
    bend = f"M{x1},{y1} C{x1},{y1 + 34} {x2},{y2 + 34} {x2},{y2}" if y1 == y2 else f"M{x1},{y1} L{x2},{y2}"
    return f'<path d="{bend}" fill="none" stroke="currentColor" stroke-opacity="0.6" marker-end="url(#tip)"/>'


def row(y, said, below, buckets):
    """A table of eight places: each is whole, divided, empty or locked."""
    parts = [text(16, y + 18, said, kind="title"), text(16, y + 36, below, kind="small")]
    fills = {"whole": (OWN[0], 0.55), "divided": (OWN[1], 0.35), "empty": ("none", 0), "locked": (OTHERS[0], 0.6)}
    for at, kind in enumerate(buckets):
        fill, strength = fills[kind]
        parts += box(330 + at * (SIDE + 8), y, str(at), fill=fill, strength=strength, dashed=kind == "empty")
    return parts


def middle(at):
    return 330 + at * (SIDE + 8) + SIDE / 2


def table():
    """Four buckets become eight, while one of them is locked."""
    parts = [ARROWS, text(16, 26, "A table of 4 buckets becomes one of 8", kind="title")]
    parts += row(50, "before", "bucket i has the keys whose hash mod 4 is i", ["whole"] * 4 + ["empty"] * 4)
    parts += row(150, "a move", "each bucket is locked and divided in its turn", ["divided", "divided", "locked", "whole", "divided", "divided", "empty", "empty"])
    parts += [arrow(middle(at), 150 + SIDE, middle(at + 4), 150 + SIDE) for at in (0, 1)]
    parts += row(270, "published", "a call looks for its key at hash mod 8", ["divided", "divided", "locked", "divided", "divided", "divided", "empty", "divided"])
    parts.append(arrow(middle(6), 270 + SIDE, middle(2), 270 + SIDE))
    notes = [
        "The low half of a bucket stays where it is; the high half goes 4 places on.",
        "Bucket 2 was locked by a call, so the move went on without it. Place 6 is empty: a call that looks there",
        "clears the top bit of its index, and finds both halves at place 2. The next call on bucket 2 divides it.",
    ]
    parts += [text(16, 372 + 18 * at, it, kind="small") for at, it in enumerate(notes)]
    return whole(780, 420, parts, "A table of 4 buckets becomes one of 8")


STEPS = (
    ("hash", "code of the key,", "salt, spread"),
    ("place", "hash mod", "the table's size"),
    ("lock", "one", "compare-exchange"),
    ("find", "the hashes in", "the bucket, the key"),
    ("change", "the entry,", "where it lies"),
    ("post", "one fetch_add:", "the call is ordered"),
    ("unlock", "one store", ""),
    ("growth", "a share of a move,", "if there is one"),
)


def call():
    """The steps of a call, of which some are made while its bucket is locked."""
    wide, gap, y = 104, 14, 64
    parts = [ARROWS, text(16, 26, "The way of a call", kind="title")]
    left = lambda at: 16 + at * (wide + gap)
    held = left(6) + wide - left(2) + 12
    parts.append(f'<rect x="{left(2) - 6}" y="{y - 14}" width="{held}" height="118" rx="6" fill="{OTHERS[0]}" fill-opacity="0.16"/>')
    parts.append(text(left(2), y + 96, "the bucket of the key is locked; no other bucket is", kind="small"))
    for at, (name, *said) in enumerate(STEPS):
        parts += box(left(at), y, name, wide, 34, OWN[0], 0.3)
        parts += [text(left(at) + wide / 2, y + 52 + 15 * at_line, it, "middle", "small") for at_line, it in enumerate(said)]
        parts += [arrow(left(at) + wide, y + 17, left(at + 1), y + 17 + 0.01)] if at + 1 < len(STEPS) else []
    return whole(16 + len(STEPS) * (wide + gap), 186, parts, "The way of a call")


class Graph:
    """The crates but for those of tests, each at a level, with a line to each crate that it needs and that no other way leads to."""

    def __init__(self, used):
        shown = {it: "examples" if it.startswith("example_") else it for it in used if not it.startswith("test_")}
        self.needs = {it: set() for it in shown.values()}
        for crate, name in shown.items():
            self.needs[name] |= {shown[it] for it in used[crate] if it in shown}
        direct = {it: {one for one in self.needs[it] if not any(one in self.below(other) for other in self.needs[it])} for it in self.needs}
        self.level, self.rows, self.lines = {}, [], []
        for it in sorted(self.needs, key=lambda it: len(self.below(it))):
            self.level[it] = 1 + max((self.level[one] for one in direct[it]), default=-1)
            self.rows += [[] for _ in range(len(self.rows), self.level[it] + 1)]
            self.rows[self.level[it]].append(it)
        for it in self.needs:
            for one in sorted(direct[it]):
                self.lead(it, one)
        self.order()

    def below(self, name):
        return set().union(*({it} | self.below(it) for it in self.needs[name]))

    def lead(self, upper, lower):
        """Leads a line down, by a place of its own in each level between."""
        last = upper
        for at in range(self.level[upper] - 1, self.level[lower], -1):
            place = f"{upper} {lower} {at}"
            self.rows[at].append(place)
            self.lines.append((last, place))
            last = place
        self.lines.append((last, lower))

    def order(self):
        """Orders each level by where its lines lead, so that few of them cross."""
        for sweep in range(24):
            rows = self.rows if sweep % 2 else self.rows[::-1]
            for before, row in zip(rows, rows[1:]):
                at = {it: (number + 0.5) / len(before) for number, it in enumerate(before)}
                own = {it: (number + 0.5) / len(row) for number, it in enumerate(row)}
                led = {it: [at[a if b == it else b] for a, b in self.lines if it in (a, b) and (a in at or b in at)] for it in row}
                row.sort(key=lambda it: sum(led[it]) / len(led[it]) if led[it] else own[it])


def is_crate(place):
    return re.fullmatch(r"\w+", place)


def layers():
    """What stands on what, by crates.txt."""
    graph, wide, high, step, width = Graph(Repository(sources.TOP).used), 108, 26, 54, 940
    place, parts = {}, [text(16, 26, "Each crate stands on those below it that a line leads to", kind="title")]
    for at, row in enumerate(graph.rows):
        y = 46 + step * (len(graph.rows) - 1 - at)
        shares = [1.0 if is_crate(it) else 0.4 for it in row]
        for number, it in enumerate(row):
            place[it] = width * (sum(shares[:number]) + shares[number] / 2) / sum(shares), y
    for upper, lower in graph.lines:
        (x1, y1), (x2, y2) = place[upper], place[lower]
        y1, half = y1 + high, (y2 - y1 - high) / 2
        parts.append(f'<path d="M{x1:.1f},{y1} C{x1:.1f},{y1 + half:.1f} {x2:.1f},{y2 - half:.1f} {x2:.1f},{y2}" fill="none" class="axis"/>')
    for it, (x, y) in place.items():
        if is_crate(it):
            parts += box(round(x - wide / 2, 1), y, it, wide, high, OWN[0], 0.2)
        else:
            parts.append(line(x, y, x, y + high, "axis"))
    return whole(width, 46 + step * len(graph.rows), parts, "What stands on what")


PICTURES = {LAYERS: layers, TABLE: table, CALL: call, **charts.PICTURES}


def main():
    for path, draw in PICTURES.items():
        with open(f"{sources.TOP}/{path}", "w", encoding="utf-8") as it:
            it.write(draw())


if __name__ == "__main__":
    main()
