"""What tools/cache_bench measures of this server alone: the processor time of a SET, and for how long a worker is held after a peak."""
import glob
import multiprocessing
import statistics
import time

from .client import OK, PONG, Connection, packed
from .measures import fill, ran, used_memory
from .server import TOP, Failed, Server

# SETs of new keys with values of 100 bytes, 16 at once: so many before they are measured, and of each round. The table is as full
# as one is that grew by itself, and has its size from the beginning, so no SET makes it grow.
FILLED, SETS, VALUE = 250000, 140000, 100
BUCKETS = 1 << 19
SET, AT_LIMIT, NO_TURNS = "SET", "SET, at the limit of memory", "SET, without turns and watches"
# A table that was large once, and for how many seconds a PING is sent each millisecond beside what goes over it.
LARGE, KEYS, SECONDS = 1 << 23, 20000, 5


def time_of(process):
    """Returns the nanoseconds that the threads of a process had a processor."""
    total = 0
    for path in glob.glob(f"/proc/{process}/task/*/schedstat"):
        with open(path, encoding="utf-8") as it:
            total += int(it.read().split()[0])
    return total


def time_of_sets(server):
    """Sends the SETs. Returns the nanoseconds of processor time of one."""
    words = ["redis-benchmark", "-p", server.port, "-t", "set", "-n", SETS, "-c", 50, "-P", 16, "-d", VALUE, "-r", 10**9, "-q"]
    before = time_of(server.process.pid)
    ran(words)
    return (time_of(server.process.pid) - before) / SETS


def times_of_sets(place, rounds):
    """Returns by case the nanoseconds of a SET: the median of the rounds, in which the cases come in turn."""
    plain, found = ["--threads", 1, "--buckets", BUCKETS], {}
    with Server(place.program(), *plain, "--memory", 1 << 34) as server:
        fill(server.port, FILLED, VALUE)
        limit = used_memory(server.port)
    without = place.program_without(("turn.c", "watch.c"), f"{TOP}/tools/caching/no_turns.c")
    cases = ((SET, place.program(), 1 << 34), (AT_LIMIT, place.program(), limit), (NO_TURNS, without, 1 << 34))
    for number in range(rounds):
        for name, program, memory in cases[:: -1 if number % 2 else 1]:
            with Server(program, *plain, "--memory", memory) as server:
                fill(server.port, FILLED, VALUE)
                found.setdefault(name, []).append(time_of_sets(server))
    return {name: statistics.median(found[name]) for name, *_ in cases}


# == After a peak ==


def nothing(_):
    time.sleep(60)


def scan(port):
    with Connection(port) as it:
        cursor = "0"
        while True:
            cursor = it.call("SCAN", cursor)[0].decode()


def flush(port):
    with Connection(port) as it:
        while True:
            it.call("SET", "one", "1")
            it.call("FLUSHALL")


def expire(port):
    """Keys that expire soon: some thousand each tenth of a second."""
    with Connection(port) as it:
        while True:
            it.send(b"".join(packed("SET", f"soon:{at}", "1", "PX", 1 + at % 100) for at in range(KEYS // 10)))
            for _ in range(KEYS // 10):
                it.reply()
            time.sleep(0.1)


WORKS = {"nothing": nothing, "SCAN": scan, "FLUSHALL": flush, "expiry": expire}


def pings(port, seconds):
    """Sends a PING each millisecond, on a connection of its own. Returns how long each took, in milliseconds."""
    taken, until = [], time.monotonic() + seconds
    with Connection(port) as it:
        while time.monotonic() < until:
            began = time.monotonic()
            if it.call("PING") != PONG:
                raise Failed("no reply to PING")
            taken.append(1000 * (time.monotonic() - began))
            time.sleep(0.001)
    return sorted(taken)


def pauses(place, seconds=SECONDS):
    """Returns by what goes over a table of 8 million buckets the median, the percentiles 99 and 99.9 and the most that a PING takes, in
    milliseconds. The server has one thread; what goes over the table comes from a process of its own."""
    found = {}
    for name, work in WORKS.items():
        with Server(place.program(), "--threads", 1, "--buckets", LARGE, "--memory", 1 << 32) as server:
            with Connection(server.port) as it:
                if it.call("SET", "only", "1") != OK:
                    raise Failed("a key was not stored")
            other = multiprocessing.Process(target=work, args=(server.port,), daemon=True)
            other.start()
            taken = pings(server.port, seconds)
            other.terminate()
            other.join()
        found[name] = [taken[len(taken) * part // 1000] for part in (500, 990, 999)] + [taken[-1]]
    return found
