"""For how long a request holds its thread in a table that was large once: by the processor time of the thread, which is the same
beside other programs."""
import os
import time

from .client import OK, PONG, Connection, packed
from .server import Lacking, Server
from .together import must

BUCKETS, MOST_MS = 1 << 23, 1.0


def worker_of(server):
    """The number of the only worker's thread."""
    process = server.process.pid
    if not os.path.exists(f"/proc/{process}/schedstat"):
        raise Lacking("the system does not tell the time of threads")
    (worker,) = (it for it in os.listdir(f"/proc/{process}/task") if it != str(process))
    return f"/proc/{process}/task/{worker}/schedstat"


def time_of(thread):
    """Returns the milliseconds that a thread had a processor."""
    with open(thread, encoding="utf-8") as it:
        return int(it.read().split()[0]) / 1e6


def times_of(it, thread, requests):
    """Sends the requests one after the other, each a function of the reply before it, and returns the milliseconds of each, in order."""
    taken, reply = [], None
    for request in requests:
        before = time_of(thread)
        reply = it.call(*request(reply))
        taken.append(time_of(thread) - before)
    return sorted(taken)


def must_be_short(name, taken):
    """Of 1,000 requests one may take longer: the system's own work is counted with it."""
    late = taken[len(taken) * 99 // 100]
    must(late < MOST_MS, f"of 100 {name} one takes {late:.2f} ms of its thread's time; the longest takes {taken[-1]:.2f} ms")


def scans(server, thread):
    """All of a table, so some 2,000 calls."""
    with Connection(server.port) as it:
        first = lambda _: ["SCAN", "0"]
        next_one = lambda reply: ["SCAN", reply[0].decode()]
        must_be_short("SCAN", times_of(it, thread, [first, *[next_one] * 2000]))


def flushes(server, thread):
    """More of them than the sweep of the table can follow, each with a key to remove."""
    with Connection(server.port) as it:
        taken = []
        for number in range(400):
            must(it.call("SET", f"one{number}", "1") == OK, "a key was not stored")
            taken += times_of(it, thread, [lambda _: ["FLUSHALL"]])
            must(it.call("DBSIZE") == 0, "a key is left")
        must_be_short("FLUSHALL", sorted(taken))


def expiry(server, thread):
    """While keys expire, requests that run alone do not wait long for the sweep: a thread that waits is at work."""
    with Connection(server.port) as it:
        it.send(b"".join(packed("SET", f"soon{at}", "1", "PX", 1 + at % 400) for at in range(20000)))
        must(all(it.reply() == OK for _ in range(20000)), "a key was not stored")
        taken, until = [], time.monotonic() + 120
        while it.call("DBSIZE") > 0 or len(taken) < 300:
            before = time_of(thread)
            must(it.calls([["MULTI"], ["PING"], ["EXEC"]])[-1] == [PONG], "another reply")
            taken.append(time_of(thread) - before)
            must(time.monotonic() < until, "expired keys are not removed")
        must_be_short("EXEC beside expiry", sorted(taken))


def steps_are_short(program):
    with Server(program, "--threads", 1, "--buckets", BUCKETS, "--memory", 1 << 32) as server:
        thread = worker_of(server)
        for part in (scans, flushes, expiry):
            part(server, thread)
