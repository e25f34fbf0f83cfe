"""Draws pictures of figures in bench/measured, as SVG: the memory of an entry, and the hits of the cache server.

docs/check.py compares them with what this file draws."""
import csv
import sys

import sources

sys.path.append(f"{sources.TOP}/bench")

from pictures import lines  # noqa: E402

MEMORY, HITS = "docs/speed-memory.svg", "docs/cache-hits.svg"
KINDS = {"numbers": "Numbers by numbers", "bytes": "Byte strings of 16 bytes by such"}
OWN = ("facingberyl, from C", "this server")


def rows_of(path):
    return list(csv.DictReader(sources.text_of(path).splitlines())) if sources.is_file(path) else []


def curves_of(rows, name, across, up):
    """Returns by name the points of a curve, in the order of the file."""
    curves = {}
    for it in rows:
        curves.setdefault(it[name], []).append((float(it[across]), float(it[up])))
    return curves


def own_of(curves):
    return [it for it in curves if it in OWN]


def memory():
    """How many bytes an entry takes, by how many there are: a table that has just doubled is half empty."""
    rows = rows_of("bench/measured/memory.csv")
    panels = [(said, "entries", (125_000, 250_000, 500_000, 1_000_000), curves_of([it for it in rows if it["kind"] == kind], "map", "entries", "bytes an entry")) for kind, said in KINDS.items()]
    names = curves_of(rows, "map", "entries", "bytes an entry")
    return lines("Bytes an entry", panels, list(names), own_of(names), from_zero=True)


def hits():
    """Which part of the gets hit, by how many of the keys the cache has memory for."""
    rows = rows_of("bench/measured/cache_hits.csv")
    curves = curves_of(rows, "server", "percent of keys in memory", "percent of gets that hit")
    marks = sorted({x for points in curves.values() for x, _ in points})
    panels = [("Percent of the gets that hit, by Zipf's law (0.99)", "percent of 100,000 keys that there is memory for", marks, curves)]
    return lines("Hits of a cache that is too small", panels, list(curves), own_of(curves), from_zero=True)


PICTURES = {MEMORY: memory, HITS: hits}
