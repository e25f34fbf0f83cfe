"""What tools/cache_bench measures beside calls a second: memory a key, times at a given rate, and hits of a cache that is too small."""
import itertools
import os
import random
import subprocess

from .client import Connection, packed
from .server import TOP, Failed

AT_ONCE = 500
# No measurement takes so many seconds.
LONGEST = 600
# A cache that is too small: how many keys, of how many bytes, and how many requests until and while it is measured.
KEYS, VALUE, BEFORE, MEASURED, SKEW = 100000, 100, 500000, 500000, 0.99


def ran(words):
    done = subprocess.run([str(it) for it in words], capture_output=True, text=True, timeout=LONGEST, check=False)
    if done.returncode:
        raise Failed(f"{words[0]}: {done.stderr[-500:]}")
    return done.stdout


def built(folder, name):
    """Returns the path of a load generator."""
    path = f"{folder}/{name}"
    ran(["cc", "-O2", f"{TOP}/tools/caching/{name}.c", "-lpthread", "-o", path])
    return path


def key_of(number):
    return "key:%012d" % number


def fill(port, keys, size, is_redis=True):
    """Stores so many keys, of 16 bytes."""
    with Connection(port) as it:
        for start in range(0, keys, AT_ONCE):
            chosen = range(start, min(start + AT_ONCE, keys))
            if is_redis:
                it.send(b"".join(packed("SET", key_of(at), "v" * size) for at in chosen))
            else:
                it.send(b"".join(b"set %b 0 0 %d\r\n" % (key_of(at).encode(), size) + b"v" * size + b"\r\n" for at in chosen))
            for _ in chosen:
                if (line := it.line()) not in (b"+OK", b"STORED"):
                    raise Failed(f"a key was not stored: {line!r}")


def resident(process):
    with open(f"/proc/{process}/statm", encoding="utf-8") as it:
        return int(it.read().split()[1]) * os.sysconf("SC_PAGESIZE")


def memory_of_keys(start, keys, size, is_redis):
    """Returns how many bytes more a server has resident with so many keys."""
    with start() as (port, process):
        before = resident(process)
        fill(port, keys, size, is_redis)
        return resident(process) - before


def times_at(rate_program, port, rate, pipeline, size, seconds, connections=50, threads=2):
    """Sends requests at a rate. Returns for SET and GET the rate that was answered and the percentiles 50, 99, 99.9."""
    lines = ran([rate_program, port, rate, seconds, connections, pipeline, size, threads]).splitlines()
    return {call: [float(it) for it in figures] for call, *figures in map(str.split, lines)}


# == Hits ==


def used_memory(port):
    with Connection(port) as it:
        return int(it.call("INFO", "memory").split(b"used_memory:")[1].split()[0])


def memory_of_part(start, percent):
    """Returns how much memory a server says that it uses with a part of the keys."""
    with start() as (port, _):
        fill(port, KEYS * percent // 100, VALUE)
        return used_memory(port)


def weights_of_keys():
    """Returns for each key how often it and those before it are asked for, by Zipf's law."""
    return list(itertools.accumulate((at + 1) ** -SKEW for at in range(KEYS)))


def best_hits(percent):
    """Returns which part of the gets are of the most frequent keys, a part of all, and how many these are."""
    weights, keys = weights_of_keys(), KEYS * percent // 100
    return weights[keys - 1] / weights[-1], keys


def hits_of(port, seed):
    """Gets keys by Zipf's law, and stores each that is not there. Returns which part of the later gets hit, and how many keys there are."""
    drawn, weights = random.Random(seed), weights_of_keys()
    hits, value = 0, "v" * VALUE
    with Connection(port) as it:
        for number in range(0, BEFORE + MEASURED, AT_ONCE // 5):
            chosen = [key_of(at) for at in drawn.choices(range(KEYS), cum_weights=weights, k=AT_ONCE // 5)]
            replies = it.calls([["GET", at] for at in chosen])
            missed = {key for key, reply in zip(chosen, replies) if reply is None}
            if any(reply != b"OK" and reply != "OK" for reply in it.calls([["SET", at, value] for at in sorted(missed)])):
                raise Failed("a full cache does not store")
            hits += sum(reply is not None for reply in replies) if number >= BEFORE else 0
        return hits / MEASURED, it.call("DBSIZE")
