"""What the measurements share: rounds of runs, the machine that they were made on, and the files that report them."""
import csv
import json
import os
import platform
import re
import shlex
import statistics
import sys
import textwrap
import time

from maps import OUT, TOP, Failed, versions

# With --docs each measurement leaves a table here, NAME.csv, and NAME.txt, which says when, where and with what it was made.
MEASURED = f"{TOP}/bench/measured"


def taken():
    """Returns how long the processors of this machine have been taken by its host, and how long they have run or been idle, in ticks."""
    with open("/proc/stat", encoding="utf-8") as it:
        ticks = [int(part) for part in it.readline().split()[1:9]]
    return ticks[7], sum(ticks)


BEGAN = taken()


def processors():
    return len(os.sched_getaffinity(0))


def thread_counts(most):
    """Returns 1, 2, 4 .. and the greatest."""
    counts, next_one = [], 1
    while next_one < most:
        counts.append(next_one)
        next_one *= 2
    return [*counts, most]


def machine():
    """Returns a line on the machine, and a line on when and with what it measured."""
    with open("/proc/cpuinfo", encoding="utf-8") as it:
        model = re.search(r"(?m)^model name\s*: (.*)", it.read())
    with open("/proc/meminfo", encoding="utf-8") as it:
        memory = int(re.search(r"MemTotal:\s+(\d+)", it.read())[1]) / 1024 / 1024
    name = model[1] if model else platform.machine()
    said = f"{name}, {processors()} processors, {memory:.0f} GB of memory, Linux {platform.release().split('-')[0]}"
    load = os.getloadavg()[0]
    day = time.strftime("%Y-%m-%d %H:%M UTC", time.gmtime())
    return [said, f"{day}; {load:.1f} processes were running on average in the minute before"]


def measure(maps, workloads, rounds):
    """Runs each map on each workload, round after round: in a round, all maps on one workload stand side by side in time, and the
    next round goes through them backwards. Returns rates by (map, workload) and a line on each that failed."""
    runs = [(it, workload) for workload in workloads for it in maps if it.takes(workload)]
    rates, failed, start, done = {}, {}, time.monotonic(), 0
    for number in range(rounds):
        for it, workload in reversed(runs) if number % 2 else runs:
            done += 1
            if (it.name, workload) in failed:
                continue
            minutes = (time.monotonic() - start) / 60
            left = minutes / (done - 1) * (rounds * len(runs) - done + 1) if done > 1 else 0
            say(f"run {done} of {rounds * len(runs)}, {minutes:.0f} minutes gone, about {left:.0f} left: {it.name}, {told(workload)}")
            try:
                rates.setdefault((it.name, workload), []).append(it.run(workload))
            except Failed as why:
                failed[it.name, workload] = f"{told(workload)}: {why}"
                rates.pop((it.name, workload), None)
                print(f"\nbench: left out: {failed[it.name, workload]}", file=sys.stderr)
    say("")
    return rates, list(failed.values())


def say(line):
    """Shows how far the measurement is, on one line of a terminal."""
    if sys.stderr.isatty():
        print(f"\r\033[K{line}", end="", file=sys.stderr, flush=True)


def told(workload):
    threads = f"{workload.threads} thread{'s' * (workload.threads > 1)}"
    return f"{workload.mode}, {workload.choice}, {workload.keys:,} keys, {threads}"


def heading(maps, given, what=None, own="the proved program"):
    """Returns the lines that say on what and how a table is made, and of what the rounds are. (Asked before the runs, which are a load themselves.)"""
    lines = [f"- The machine: {machine()[0]}.", f"- When: {machine()[1]}."]
    words = sys.argv[1:]
    words = ["PATH" if before == "--binary" else it for before, it in zip(["", *words], words) if it != "--docs"]
    lines += [f"- The command: `{shlex.join([f'bench/{os.path.basename(sys.argv[0])}', *words])}`."]
    lines += [f"- {given.rounds} round{'s' * (given.rounds > 1)} of runs, {what or f'{given.calls:,} calls a thread'}."]
    lines += [f"- Built with: {'; '.join(versions(maps))}."]
    if any(it.is_own for it in maps):
        whose = "a program that was given by `--binary`" if given.binary else own
        lines.append(f"- This repository's map was measured by {whose}.")
    return wrapped(lines)


def left_out(lacking, failed):
    return wrapped([f"- Left out: {it}." for it in [*lacking, *failed]])


def wrapped(items):
    return [textwrap.fill(it, 118, subsequent_indent="  ", break_long_words=False) for it in items]


def median(rates):
    return statistics.median(rates)


def save(name, results):
    os.makedirs(OUT, exist_ok=True)
    with open(f"{OUT}/{name}.json", "w", encoding="utf-8") as it:
        json.dump(results, it, indent=1)


def load(name):
    try:
        with open(f"{OUT}/{name}.json", encoding="utf-8") as it:
            return json.load(it)
    except OSError:
        sys.exit(f"bench: there are no results to draw: {OUT}/{name}.json is missing")


def write(file, text):
    with open(file, "w", encoding="utf-8") as it:
        it.write(text)
    print(f"bench: wrote {os.path.relpath(file)}", file=sys.stderr)


def keep(name, heading, columns, rows):
    """Writes a measurement's table and heading into bench/measured/."""
    os.makedirs(MEASURED, exist_ok=True)
    with open(f"{MEASURED}/{name}.csv", "w", encoding="utf-8", newline="") as it:
        table = csv.writer(it, lineterminator="\n")
        table.writerow(columns)
        table.writerows(rows)
    print(f"bench: wrote {os.path.relpath(f'{MEASURED}/{name}.csv')}", file=sys.stderr)
    lost, all_of_it = (now - before for now, before in zip(taken(), BEGAN))
    told = wrapped([f"- Meanwhile the host of the machine took {100 * lost / max(all_of_it, 1):.1f} percent of the processors' time."])
    write(f"{MEASURED}/{name}.txt", "\n".join([*heading, *told]) + "\n")
