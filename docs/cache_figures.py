"""Writes the tables of docs/CACHE.md from the files of bench/measured that tools/cache_bench writes.

usage: python3 docs/cache_figures.py

A table stands there for each file that there is. docs/check.py compares the page with what this file writes."""
import csv
import datetime
import re

import sources

PATH = "docs/CACHE.md"
BEGIN, END = "<!-- tools/cache_bench: begin -->\n", "<!-- tools/cache_bench: end -->\n"
OURS, REDIS = "this server", "redis-server"


def listed(lines):
    """Returns the rows of a table, by their columns' names."""
    return list(csv.DictReader(lines))


def rows_of(name):
    path = f"bench/measured/{name}.csv"
    return listed(sources.text_of(path).splitlines()) if sources.is_file(path) else []


def day_of(name):
    """Returns the day on which a file was measured."""
    year, month, day = re.search(r"- When: (\d+)-(\d+)-(\d+)", sources.text_of(f"bench/measured/{name}.txt")).groups()
    return f"{int(day)} {datetime.date(int(year), int(month), int(day)):%B %Y}"


def by_server(rows, of, server="server"):
    """Returns the names of the servers, and by the columns `of` the row of each server."""
    found = {}
    for it in rows:
        found.setdefault(tuple(it[column] for column in of), {})[it[server]] = it
    return list(dict.fromkeys(it[server] for it in rows)), found


def table(head, rows):
    """Returns a table whose first columns are texts, as many as `head` has before the first that ends with a colon."""
    marks = "".join("---:|" if it.endswith(":") else "---|" for it in head)
    lines = [f"| {' | '.join(it.removesuffix(':') for it in head)} |", f"|{marks}"]
    return "\n".join(lines + [f"| {' | '.join(it)} |" for it in rows])


def ratio(row, column):
    """Returns ours by redis-server's, where both were measured."""
    return [f"{float(row[OURS][column]) / float(row[REDIS][column]):.2f}"] if {OURS, REDIS} <= set(row) else ["not measured"]


def speeds(rows):
    names, found = by_server(rows, ("call", "value bytes", "connections", "at once"))
    rate, late = "requests a second", "99th percentile ms"
    lines = []
    for (call, size, connections, pipeline), row in found.items():
        cells = [f"{float(row[it][rate]):,.0f} ({float(row[it][late]):.2f} ms)" if it in row else "not measured" for it in names]
        lines.append([call, f"{int(size):,} bytes", connections, pipeline, *cells, *ratio(row, rate)])
    return table(["Call", "Value:", "Connections:", "At once:", *(f"{it}:" for it in names), "of redis-server:"], lines)


def times(rows):
    names, found = by_server(rows, ("call", "value bytes", "percent of redis-server"))
    columns = ("50th percentile ms", "99th percentile ms", "99.9th percentile ms")
    lines = []
    for (call, size, _), row in found.items():
        cells = [", ".join(f"{float(row[it][column]):.2f}" for column in columns) + " ms" if it in row else "not measured" for it in names]
        asked = next(iter(row.values()))["requests a second"]
        lines.append([call, f"{int(size):,} bytes", f"{float(asked):,.0f}", *cells])
    return table(["Call", "Value:", "Requests a second:", *(f"{it}:" for it in names)], lines)


def memories(rows):
    column = "bytes a key"
    names, found = by_server(rows, ("value bytes",))
    lines = [[f"{int(size):,} bytes", *(f"{float(row[it][column]):,.0f}" for it in names), *ratio(row, column)] for (size,), row in found.items()]
    return table(["Value:", *(f"{it}:" for it in names), "of redis-server:"], lines)


def hits(rows):
    part, keys = "percent of gets that hit", "keys in the cache"
    names, found = by_server(rows, ("percent of keys in memory",))
    lines = []
    for (percent,), row in found.items():
        cells = [f"{float(row[it][part]):.1f} percent, {int(row[it][keys]):,} keys" if it in row else "not measured" for it in names]
        lines.append([f"{percent} percent", *cells])
    return table(["Memory for:", *(f"{it}:" for it in names)], lines)


def costs(rows):
    column = "nanoseconds of processor time"
    first = float(rows[0][column])
    return table(["Call", "Nanoseconds:", "of a SET:"], [[it["call"], f"{float(it[column]):,.0f}", f"{float(it[column]) / first:.2f}"] for it in rows])


def pauses(rows):
    columns = [it for it in rows[0] if it != "beside"]
    said = [it.removesuffix(" ms") for it in columns]
    return table(["Beside", *(f"{it}:" for it in said)], [[it["beside"], *(f"{float(it[column]):.2f} ms" for column in columns)] for it in rows])


# By the name of a file: the words before its table, and what makes the table of its rows.
TABLES = {
    "cache": ("Requests a second, and the 99th percentile of the time from a request to its reply", speeds),
    "cache_rate": ("The 50th, 99th and 99.9th percentile at a given rate, 16 requests at once from 50 connections, with the time "
                   "that a request waits to be sent", times),
    "cache_memory": ("Bytes that are resident for a key of 16 bytes, by the size of its value", memories),
    "cache_hits": ("Which part of the gets hit, by Zipf's law (0.99), by the part of 100,000 keys that there is memory for", hits),
    "cache_costs": ("The processor time of a SET of a new key with 100 bytes, 16 at once from 50 connections", costs),
    "cache_pauses": ("How long a PING takes beside what goes over a table of 8 million buckets, on a server with one thread", pauses),
}


def block():
    """Returns what stands between the two marks."""
    parts = []
    for name, (said, make) in TABLES.items():
        if rows := rows_of(name):
            parts += [f"{said}\n([{name}.csv](../bench/measured/{name}.csv), {day_of(name)}):", make(rows)]
    return "\n\n".join(parts)


def page(text=None):
    """Returns the page, or this text of it, with the tables that the data give."""
    before, _, rest = (text or sources.text_of(PATH)).partition(BEGIN)
    return f"{before}{BEGIN}\n{block()}\n\n{END}{rest.partition(END)[2]}"


def write():
    text = page()
    with open(f"{sources.TOP}/{PATH}", "w", encoding="utf-8") as it:
        it.write(text)


if __name__ == "__main__":
    write()
