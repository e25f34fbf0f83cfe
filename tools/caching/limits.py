"""The limits that options set, what the system refuses, and how the server stops."""
import contextlib
import os
import random
import select
import signal
import socket
import time

from .client import OK, PONG, Closed, Connection, Error, packed
from .hostile import are_closed, witness
from .server import Failed, Server
from .together import each_client, must
from .transactions import QUEUED

FULL = Error("OOM command not allowed when used memory > 'maxmemory'.")


def fill(it, name, value, most=1 << 30):
    """Stores keys until one is refused, and returns how many there are."""
    for number in range(0, most, 100):
        got = it.calls([["SET", f"{name}:{at}", value] for at in range(number, number + 100)])
        must(all(reply in (OK, FULL) for reply in got), f"{got}")
        if FULL in got:
            return number + got.index(FULL)
    return most


def memory_is_limited(program):
    """With `none` what would go past the limit is an error; what needs no more is not; nothing is evicted."""
    with Server(program, "--memory", 8 << 20, "--evict", "none", "--threads", 2) as server, Connection(server.port) as it:
        count = fill(it, "k", "v" * 1000)
        must(4000 < count < 8000, f"{count} keys of 1,000 bytes are in 8 MB")
        value = "w" * 60000
        for words in (["SET", "x", value], ["SETNX", "x", value], ["APPEND", "k:1", value], ["MSET", "k:1", "1", "x", value],
                      ["SET", "k:1", value], ["GETSET", "k:1", value]):
            must(it.call(*words) == FULL, f"{words[0]} goes past the limit")
        must(it.call("SET", "k:1", "u" * 1000) == OK and it.call("EXPIRE", "k:1", 100) == 1, "what needs no more is refused")
        must(it.call("EXISTS", *(f"k:{at}" for at in range(count))) == count, "a key was evicted")
        must(it.call("DEL", *(f"k:{at}" for at in range(200))) == 200 and it.call("SET", "x", value) == OK, "what is free is not used")
        must(it.call("DEL", *(f"k:{at}" for at in range(200, 8000)), "x") >= count - 200, "a key was evicted")
        must(b"used_memory_dataset:0\r\n" in it.call("INFO"), "bytes are counted that are not there")
        must(b"evicted_keys:0\r\n" in it.call("INFO"), "a key was evicted")


def info(it, name):
    return int(it.call("INFO").split(name.encode() + b":")[1].split()[0])


def keys_are_evicted(program):
    """With `lru` a write removes others at the limit: keys that are read again and again stay, and the memory stays within it."""
    with Server(program, "--memory", 8 << 20, "--threads", 2) as server, Connection(server.port) as it:
        hot = [f"hot:{at}" for at in range(50)]
        must(it.calls([["SET", key, "h" * 1000] for key in hot]) == [OK] * 50, "a key is refused")
        for number in range(0, 40000, 500):
            requests = [["SET", f"cold:{number + at}", "c" * 1000] for at in range(500)]
            must(it.calls(requests) == [OK] * 500, "a key is refused")
            must(it.calls([["GET", key] for key in hot]) == [b"h" * 1000] * 50, "a key was evicted that is read again and again")
        evicted, left, used = info(it, "evicted_keys"), it.call("DBSIZE"), info(it, "used_memory")
        must(evicted + left == 40050 and 4000 < left < 8000, f"{evicted} keys were evicted, {left} are left")
        must(used < (8 << 20) + (256 << 10), f"{used} bytes are used")
        must(it.call("GET", "cold:39999") == b"c" * 1000, "the last key was evicted")


def watched_keys_are_evicted(program):
    """A watched key that is evicted voids the transaction. One that is used stays, whatever else is evicted, and EXEC succeeds."""
    with Server(program, "--memory", 8 << 20, "--threads", 2) as server, Connection(server.port) as it, Connection(server.port) as other:
        for name, is_used, reply in (("cold", False, None), ("hot", True, [PONG])):
            it.calls([["SET", name, "w" * 1000]] + [["GET", name]] * is_used)
            must(it.call("WATCH", name) == OK, "no reply")
            for number in range(0, 20000, 500):
                requests = [["SET", f"{name}:{number + at}", "c" * 1000] for at in range(500)]
                must(other.calls(requests + [["GET", name]] * is_used)[:500] == [OK] * 500, "a key is refused")
            must(other.call("EXISTS", name) == is_used, f"the key {name} is evicted, or is not")
            must(it.calls([["MULTI"], ["PING"], ["EXEC"]]) == [OK, QUEUED, reply], f"EXEC does not see what became of the key {name}")


def first_to_expire_go(program):
    """With `ttl` keys with a deadline are removed, the nearest ones of some; without one a write fails."""
    with Server(program, "--memory", 8 << 20, "--evict", "ttl", "--threads", 2) as server, Connection(server.port) as it:
        must(it.calls([["SET", f"kept:{at}", "k" * 1000] for at in range(1000)]) == [OK] * 1000, "a key is refused")
        for number in range(0, 20000, 100):
            requests = [["SET", f"timed:{number + at}", "t" * 1000, "EX", 100000 if at % 2 else 1000] for at in range(100)]
            must(it.calls(requests) == [OK] * 100, "a key is refused")
        must(it.call("EXISTS", *(f"kept:{at}" for at in range(1000))) == 1000, "a key without a deadline was evicted")
        late = it.call("EXISTS", *(f"timed:{at}" for at in range(1, 20000, 2)))
        soon = it.call("EXISTS", *(f"timed:{at}" for at in range(0, 20000, 2)))
        must(late > 5 * soon, f"{late} keys are left that expire late, and {soon} that expire soon")
        must(fill(it, "more", "m" * 1000, 20000) < 8000, "more is stored than there is room for")
        must(it.call("EXISTS", *(f"kept:{at}" for at in range(1000))) == 1000, "a key without a deadline was evicted")


def used_is_resident(program):
    """What INFO says is used is what is resident beyond what was at first, within a tenth."""
    for size in (16, 300):
        with Server(program, "--memory", 1 << 30) as server, Connection(server.port) as it:
            fill(it, "first", "v" * size, 5000)
            used, resident = info(it, "used_memory"), server.resident()
            for number in range(0, 32000000 // (size + 100), 1000):
                it.send(b"".join(packed("SET", f"key:{number + at}", "v" * size) for at in range(1000)))
                it.bytes(1000 * len("+OK\r\n"))
            used, resident = info(it, "used_memory") - used, server.resident() - resident
            must(used > 20000000, f"{used} bytes are used")
            must(0.9 * used < resident < 1.1 * used, f"values of {size}: {used} bytes more are used, and {resident} resident")


def resident_follows_used(program):
    """What is resident stays near the limit of memory while values grow, and comes back after a FLUSHALL. INFO tells it."""
    limit = 20 << 20
    with Server(program, "--memory", limit, "--threads", 2, "--buckets", 1 << 16) as server, Connection(server.port) as it:
        it.call("PING")
        first, used_first = server.resident(), info(it, "used_memory")
        number = 0
        for size in (20, 84, 300):
            for _ in range(limit // (size + 90) * 13 // 10 // 4000):
                it.send(b"".join(b"SET k:%d %b\r\n" % (number + at, b"v" * size) for at in range(4000)))
                it.bytes(4000 * len("+OK\r\n"))
                number += 4000
        resident, room = server.resident() - first, limit - used_first
        must(resident < 1.8 * room, f"{resident >> 20} MB more are resident, for {room >> 20} MB")
        must(abs(info(it, "used_memory_rss") - server.resident()) < (4 << 20), "INFO tells another number")
        must(it.call("FLUSHALL") == OK, "no reply")
        until = time.monotonic() + 60
        while server.resident() - first > info(it, "used_memory") - used_first + (6 << 20):
            must(time.monotonic() < until, f"{server.resident() - first >> 20} MB stay resident after FLUSHALL")
            time.sleep(0.1)


def looks_are_counted(server):
    """INFO counts look-ups that found a key, those that found none, and keys that expired."""
    with Connection(server.port) as it:
        counts = lambda: [info(it, name) for name in ("keyspace_hits", "keyspace_misses", "expired_keys", "evicted_keys")]
        must(counts() == [0, 0, 0, 0], f"{counts()} before any call")
        must(it.calls([["SET", "a", "1"], ["SET", "b", "1"], ["DEL", "b"]]) == [OK, OK, 1] and counts() == [0, 0, 0, 0], "a write is counted")
        must(it.calls([["GET", "a"], ["GET", "b"], ["MGET", "a", "b", "a"]]) == [b"1", None, [b"1", None, b"1"]], "another reply")
        must(counts() == [3, 2, 0, 0], f"{counts()} after three keys that are there and two that are not")
        must(it.call("SET", "soon", "1", "PX", "1") == OK, "no reply")
        until = time.monotonic() + 60
        while counts()[2] == 0:
            must(time.monotonic() < until, "an expired key is not counted")
            time.sleep(0.01)
        must(it.call("GET", "soon") is None and counts() == [3, 3, 1, 0], f"{counts()} after a key has expired")


def counts_stay_right(server):
    """Eight clients change the same keys at once, in all ways, and flush them: what INFO counts is what is there then."""
    drawn = (
        ["SET", "v" * 40], ["SET", "v", "PX", 20], ["SET", "v", "NX", "PX", 10], ["PEXPIRE", 5], ["PEXPIRE", 10000], ["PERSIST"], ["DEL"],
        ["APPEND", "xyz"], ["GETSET", "5"], ["INCR"], ["GETDEL"], ["GETEX", "PX", 5], ["RENAME", "other"], ["COPY", "other", "REPLACE"], ["SETRANGE", 9, "x"],
    )

    def change(it, number):
        chance = random.Random(f"counts {number}")
        for _ in range(100):
            requests = [[words[0], f"key{chance.randrange(30)}", *words[1:]] for words in chance.choices(drawn, k=20)]
            it.calls([["FLUSHALL"], *requests] if chance.random() < 0.1 else requests)

    each_client(server, change, 8)
    with Connection(server.port) as it:
        it.calls([["PERSIST", key] for key in it.call("KEYS", "*")])
        time.sleep(0.3)
        keys = it.call("KEYS", "*")
        wanted = [sum(len(key) + 4 + it.call("STRLEN", key) for key in keys), len(keys)]
        until = time.monotonic() + 60
        while [info(it, "used_memory_dataset"), it.call("DBSIZE")] != wanted:
            must(time.monotonic() < until, f"INFO counts {info(it, 'used_memory_dataset')} bytes, and there are {wanted}")
            time.sleep(0.05)
        must(it.call("FLUSHALL") == OK and it.call("DBSIZE") == 0, "a key is left")
        while info(it, "used_memory_dataset") != 0:
            must(time.monotonic() < until, "bytes are counted that are not there")
            time.sleep(0.05)
        must(it.call("INFO", "keyspace") == b"# Keyspace\r\n", "keys with deadlines are counted that are not there")


def lines_of(server, wanted, seconds=60):
    """Reads the server's lines until the numbers in those that begin so have these sums."""
    found, text, until = dict.fromkeys(wanted, 0), b"", time.monotonic() + seconds
    while found != wanted:
        ready, _, _ = select.select([server.process.stdout], [], [], max(0, until - time.monotonic()))
        must(ready, f"the log has {found}, and not {wanted}")
        text += os.read(server.process.stdout.fileno(), 4096)
        *lines, text = text.split(b"\n")
        for line in lines:
            number, _, reason = line.decode().partition("cache: refused ")[2].partition(": ")
            must(reason in found, f"the log has a line {line}")
            found[reason] += int(number)


def refusals_are_logged(program):
    """The log counts what was refused by its reason: wrong passwords, requests of HTTP, and connections beyond the limit."""
    with Server(program, "--password", "sesame", "--connections", 3) as server, contextlib.ExitStack() as stack:
        all_of = [stack.enter_context(Connection(server.port)) for _ in range(3)]
        must(all(str(it.call("AUTH", "wrong")).startswith("WRONGPASS") for it in all_of[:2]), "a wrong password is taken")
        with Connection(server.port) as more:
            must(more.reply() == Error("ERR max number of clients reached"), "one more is taken")
        all_of[0].send(b"POST / HTTP/1.1\r\n")
        must(all_of[0].rest() == b"", "a request of HTTP has a reply")
        lines_of(server, {"wrong passwords": 2, "requests of HTTP": 1, "too many connections": 1})


def connections_are_kept_alive(server):
    """The system asks after five minutes at most whether a client is still there: the timer of the server's end says so."""
    with Connection(server.port) as it:
        must(it.call("PING") == PONG, "no reply")
        ends = [f"0100007F:{port:04X}" for port in (server.port, it.socket.getsockname()[1])]
        kind, ticks, until = 0, 0, time.monotonic() + 60
        while kind != 2:  # another timer runs until the system has sent that the reply has come
            must(time.monotonic() < until, f"the timer is of kind {kind}")
            with open("/proc/net/tcp", encoding="utf-8") as table:
                rows = [line.split() for line in table]
            kind, ticks = next([int(part, 16) for part in row[5].split(":")] for row in rows if row[1:3] == ends)
        must(ticks <= 300 * os.sysconf("SC_CLK_TCK"), f"the timer ends in {ticks} ticks")


def memory_is_used_again(server):
    """Keys that one thread stores and another removes, many times, take no more memory than once."""
    keys = [f"again{at}" for at in range(20000)]
    with Connection(server.port) as it, Connection(server.port) as other:
        for number in range(12):
            it.calls([["SET", key, "x" * 16] for key in keys])
            must(other.call("DEL", *keys) == len(keys), "a key was not stored")
            if number == 1:
                before = server.resident()
        must(not server.is_plain or server.resident() < before + (8 << 20), "memory is not used again")


def connections_are_limited(program):
    with Server(program, "--connections", 5) as server:
        with contextlib.ExitStack() as stack:
            all_of = [stack.enter_context(Connection(server.port)) for _ in range(5)]
            must(all(it.call("PING") == PONG for it in all_of), "a connection within the limit is refused")
            with Connection(server.port) as more:
                must(more.reply() == Error("ERR max number of clients reached") and more.is_closed(), "one more is taken")
            must(all(it.call("PING") == PONG for it in all_of), "a connection is lost")
        before = time.monotonic()
        while True:
            with Connection(server.port) as it, contextlib.suppress(Closed):
                if it.call("PING") == PONG:
                    return
            must(time.monotonic() < before + 60, "no connection is taken after others have ended")


def descriptors_run_out(program):
    """Without a descriptor for it a connection waits, and is served once there is one. The others are served all the while."""
    with Server(program, "--threads", 2, files=24) as server, contextlib.ExitStack() as stack:
        first = stack.enter_context(Connection(server.port))
        must(first.call("SET", "a", "1") == OK, "no reply")
        all_of = [Connection(server.port) for _ in range(60)]
        for number, it in enumerate(all_of):
            it.send(packed("GET", "a"))
        must(all(first.call("GET", "a") == b"1" for _ in range(1000)), "another client has no reply")
        time.sleep(0.5)
        for it in all_of:
            must(it.reply() == b"1", "a connection that waited is not served")
            it.close()


def large(number):
    return (b"%d." % number * 30000)[:60000]


def no_memory(program):
    """Where the system gives no memory a request is an error or its connection is closed; what is stored stays readable."""
    with Server(program, "--threads", 2, "--buckets", 1024, "--memory", 1 << 40, "--evict", "none", memory=200 << 20) as server:
        stored, refused, it = 0, 0, Connection(server.port)
        while refused < 20 and stored < 20000:
            try:
                got = it.call("SET", f"key{stored}", large(stored))
            except Closed:
                got, it = None, Connection(server.port)
            must(got in (OK, None, Error("OOM out of memory")), f"{got!r}")
            stored, refused = stored + (got == OK), refused + (got != OK)
        must(stored > 500 and refused == 20, f"{stored} were stored in 200 MB, {refused} refused")
        for at in random.Random(1).sample(range(stored), 300):
            try:
                must(it.call("GET", f"key{at}") == large(at), f"key{at} is another")
            except Closed:
                it = Connection(server.port)
        for at in range(0, stored, 100):
            try:
                it.call("DEL", *(f"key{at + i}" for i in range(100)))
            except Closed:
                it = Connection(server.port)
        must(it.call("SET", "after", "1") == OK and it.call("GET", "after") == b"1", "memory does not come back")
        it.close()


def little_is_kept(program):
    """Requests with replies beyond a small limit, beside a client within it."""
    with Server(program, "--output", 1 << 17) as server, witness(server), Connection(server.port) as it:
        must(it.call("SET", "large", "x" * 60000) == OK and it.call("MGET", "large", "large") == [b"x" * 60000] * 2, "no reply")
        are_closed(server, it, packed("MGET", "large", "large", "large") * 10, clients=4)


def idle_connections_are_closed(program):
    """A connection that sends nothing for as long as --timeout says is closed, and one that sends is not."""
    with Server(program, "--timeout", 1, "--threads", 2) as server, Connection(server.port) as busy, Connection(server.port) as idle:
        until, is_closed = time.monotonic() + 60, False
        idle.socket.settimeout(0.1)
        while not (is_closed := idle.is_closed()) and time.monotonic() < until:
            must(busy.call("PING") == PONG, "a connection is closed that sends")
        must(is_closed, "an idle connection is not closed")


def stop_answers_first(program):
    """A signal lets the server answer what has come, close all connections, and end with status 0."""
    with Server(program, "--threads", 2) as server:
        waiting, busy = Connection(server.port), [Connection(server.port) for _ in range(8)]
        waiting.send(b"*2\r\n$3\r\nGET\r\n")
        must(all(it.call("PING") == PONG for it in busy), "no reply")
        for it in busy:
            it.send(packed("INCR", "n") * 1000)
        server.signal()
        for it in busy:
            got = []
            with contextlib.suppress(Closed):
                while True:
                    got.append(it.reply())
            must(len(got) == 1000 and got == sorted(got), f"{len(got)} of 1,000 requests were answered before the end")
        must(waiting.is_closed(), "a connection is left open")
        status, line = server.ended()
        must(status == 0 and line.startswith("cache: stopped, 9 connections, 8"), f"status {status}, {line!r}")
        with contextlib.suppress(OSError):
            Connection(server.port)
            raise Failed("a stopped server takes connections")
        for it in [waiting, *busy]:
            it.close()


def second_signal_ends(program):
    """A client that does not read its replies holds the stop up, until the grace ends; a second signal ends the server at once."""
    for grace in (1000, 600000):
        with Server(program, "--threads", 2, "--grace", grace) as server:
            with Connection(server.port) as setting, Connection(server.port, room=4096) as deaf:
                must(setting.call("SET", "large", "x" * 60000) == OK, "a key was not set")
                deaf.send(packed("GET", "large") * 200)
                must(setting.call("PING") == PONG, "no reply")
                time.sleep(0.5)
                began = time.monotonic()
                server.signal(signal.SIGTERM if grace == 1000 else signal.SIGINT)
                if grace == 600000:
                    time.sleep(0.5)
                    must(server.process.poll() is None, "the stop does not wait for a client that is to get its replies")
                    server.signal()
                status, _ = server.ended()
                must(status == (0 if grace == 1000 else -signal.SIGTERM), f"status {status}")
                must(time.monotonic() < began + 30, "the server does not end")


def ports_and_words(program):
    """Wrong options are refused before the server starts."""
    with Server(program) as server:
        for words in (["--port", str(server.port)], ["--port", "x"], ["--port", "65536"], ["--threads", "-1"], ["--what"], ["more"],
                      ["--memory", ""], ["--address", "here"], ["--buckets", "0"], ["--evict", "lfu"], ["--memory", "1000000"],
                      ["--memory", "1048576", "--buckets", "65536"], ["--address", "0.0.0.0"], ["--password", ""]):
            try:
                with Server(program, *words):
                    raise Failed(f"the server takes {words}")
            except Failed as why:
                must("did not start" in str(why) and "takes" not in str(why).split(":")[0], str(why))


def storms(server, seconds, seed):
    """Connections that come and go, some with requests on the way."""
    drawn, until = random.Random(f"storm {seed}"), time.monotonic() + seconds
    with witness(server):
        while time.monotonic() < until:
            all_of = []
            for _ in range(drawn.randrange(1, 60)):
                it = Connection(server.port)
                with contextlib.suppress(Closed):
                    it.send(packed("SET", "storm", "x" * drawn.randrange(9000)) * drawn.randrange(9) + b"*3\r\n" * drawn.randrange(2))
                if drawn.random() < 0.5:
                    it.socket.setsockopt(socket.SOL_SOCKET, socket.SO_LINGER, b"\1\0\0\0\0\0\0\0")
                all_of.append(it)
            for it in all_of:
                it.close()

