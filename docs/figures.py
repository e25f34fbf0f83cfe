"""Writes the tables of docs/SPEED.md from bench/measured/calls.csv and bulk.csv, and prints how our map compares with the others.

usage: python3 docs/figures.py

The first table is of four threads and of keys chosen uniformly, the second of bulk operations on a live map. What is printed are ratios: our
calls by those of another map, for each choice of keys, number of threads and mode, from the fewest keys to the most."""
import csv
import re
from decimal import ROUND_HALF_UP, Decimal

import sources

PATH = "docs/SPEED.md"
DATA = "bench/measured/calls.csv"
BULK = "bench/measured/bulk.csv"
THREADS, MODES, KEYS = "4", ("get", "mix", "merge"), ("16", "20000", "1000000")
OWN = "facingberyl"
NAMES = {OWN: f"**{OWN}**", f"{OWN}, recorded": "**recorded**"}
BULK_MAPS, WRITERS = (OWN, "JDK", "dashmap, rayon"), {"0": "none", "2": "two"}
BULK_COLUMNS = [(workers, it) for workers in ("1", "4") for it in ("reduce", "none", "for_each")] + [("4", "found")]
BULK_HEAD = "| Live map | Writers | 1 worker: sum | search | action | 4 workers: sum | search | action | found |\n|---|---|" + "---:|" * 7
HEAD = "| Map | " + " | ".join(f"{int(keys):,} keys: get | mix | merge" for keys in KEYS) + " |\n|---|" + "---:|" * 9


def medians():
    """Returns the medians by mode, choice, map, keys and threads, in the order of the file."""
    rows = csv.DictReader(sources.text_of(DATA).splitlines())
    return {(it["mode"], it["choice"], it["map"], it["keys"], it["threads"]): Decimal(it["median"]) for it in rows}


def table():
    found = medians()
    lines = [HEAD]
    for name in dict.fromkeys(it[2] for it in found if it[4] == THREADS):
        cells = [shown(found, (mode, "uniform", name, keys, THREADS)) for keys in KEYS for mode in MODES]
        lines.append(f"| {NAMES.get(name, name)} | {' | '.join(cells)} |")
    return "\n".join(lines) + "\n"


def shown(found, key, places="0.1"):
    return "not measured" if key not in found else str(found[key].quantize(Decimal(places), ROUND_HALF_UP))


def bulk_table():
    """Returns the table of bulk operations on a live map: for each map and number of writers, milliseconds of one worker's and of four."""
    rows = list(csv.DictReader(sources.text_of(BULK).splitlines())) if sources.is_file(BULK) else []
    found = {(it["map"], it["writers"], it["workers"], it["operation"]): Decimal(it["median microseconds"]) / 1000 for it in rows}
    lines = [BULK_HEAD]
    for writers in ("0", "2"):
        for name in BULK_MAPS:
            if any(it[:2] == (name, writers) for it in found):
                cells = [shown(found, (name, writers, *it), "0.01") for it in BULK_COLUMNS]
                lines.append(f"| {NAMES.get(name, name)} | {WRITERS[writers]} | {' | '.join(cells)} |")
    return "\n".join(lines if found else [*lines, f"| not measured yet {'| ' * 9}".rstrip()]) + "\n"


def page():
    """Returns the page with the tables that the data give."""
    text = re.sub(r"\| Map \| 16 keys: get .*\n(?:\|.*\n)+", lambda _: table(), sources.text_of(PATH))
    return re.sub(r"\| Live map \| .*\n(?:\|.*\n)+", lambda _: bulk_table(), text)


def ratios():
    """Returns a line for each other map, choice and number of threads: of each mode our calls by its, from the fewest keys to the most."""
    found = medians()
    for name, choice, threads in dict.fromkeys((it[2], it[1], it[4]) for it in found):
        if name.startswith(OWN):
            continue
        cells = []
        for mode in MODES:
            its = {keys: them for (a, b, c, keys, d), them in found.items() if (a, b, c, d) == (mode, choice, name, threads)}
            parts = [found[mode, choice, OWN, keys, threads] / its[keys] for keys in sorted(its, key=int) if (mode, choice, OWN, keys, threads) in found]
            cells.append(f"{mode} " + " ".join(f"{it:.2f}" for it in parts))
        yield f"{name}, {choice}, {threads} threads: {', '.join(cells)}"


if __name__ == "__main__":
    text = page()
    with open(f"{sources.TOP}/{PATH}", "w", encoding="utf-8") as it:
        it.write(text)
    print("\n".join(ratios()))
