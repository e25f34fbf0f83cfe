"""How long the crates take to prove: what the last gate from nothing measured. All that tells such a time takes it from here."""
import csv

from .crates import TOP

# Seconds of processor time for each crate: its proof, its edits, and what both compilers made of it. tools/gate_cost writes it.
FILE = "tools/gate_times.csv"
KINDS = ("proof", "edits", "compiled")


def measured(top=TOP):
    """Returns the seconds of each kind of each crate that the last gate from nothing had."""
    with open(f"{top}/{FILE}", encoding="utf-8", newline="") as it:
        return {row["crate"]: {kind: int(row[kind]) for kind in KINDS} for row in csv.DictReader(it)}


def minutes_to_prove(crates, top=TOP):
    """Returns the minutes of processor time that the proofs of these crates took, in tens where it is more than half an hour."""
    times = measured(top)
    minutes = sum(times[it]["proof"] for it in crates if it in times) / 60
    return max(round(minutes / 10) * 10 if minutes > 30 else round(minutes), 1)
