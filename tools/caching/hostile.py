"""What hostile clients send, while another client looks whether its own keys stay as they are."""
import contextlib
import random
import socket
import threading
import time

from .client import OK, PONG, Closed, Connection, Error, packed
from .server import Failed, Server
from .together import must

PROTOCOL = "ERR Protocol error: "
# What is sent, and the error before the connection is closed.
MALFORMED = (
    (b"*1\r\n@4\r\nPING\r\n", "expected '$', got '@'"),
    (b"*1\r\n\x004\r\nPING\r\n", "expected '$', got '?'"),
    (b"*x\r\n", "invalid multibulk length"),
    (b"*\r\n", "invalid multibulk length"),
    (b"*1\rx", "invalid multibulk length"),
    (b"*1048577\r\n", "invalid multibulk length"),
    (b"*99999999999999999999\r\n", "invalid multibulk length"),
    (b"*" + b"1" * 100, "too big mbulk count string"),
    (b"*1\r\n$x\r\n", "invalid bulk length"),
    (b"*1\r\n$-1\r\n", "invalid bulk length"),
    (b"*1\r\n$536870913\r\n", "invalid bulk length"),
    (b"*1\r\n$9223372036854775807\r\n", "invalid bulk length"),
    (b"*1\r\n$18446744073709551615\r\n", "invalid bulk length"),
    (b"*1\r\n$" + b"1" * 100, "too big bulk count string"),
    (b"*1\r\n$4\r\nPINGPING\r\n", "expected a line's end behind a bulk"),
    (b"x" * 70000, "too big inline request"),
    (packed("PING") * 3 + b"*1\r\n?", "expected '$', got '?'"),
)


@contextlib.contextmanager
def witness(server):
    """Another client's keys: they must be as it left them, all the while and at the end."""
    stop, begun, faults, drawn = threading.Event(), threading.Event(), [], random.Random(5)

    def look():
        kept = {f"witness{it}": None for it in range(20)}
        try:
            with Connection(server.port) as it:
                while not stop.is_set():
                    key, value = drawn.choice(list(kept)), drawn.randbytes(drawn.randrange(2000))
                    must(it.call("GET", key) == kept[key], f"{key} is another")
                    must(it.call("SET", key, value) == OK, f"{key} is not set")
                    kept[key] = value
                    begun.set()
        except Exception as why:
            faults.append(repr(why))
            begun.set()

    thread = threading.Thread(target=look)
    thread.start()
    # (from now on its connection counts)
    begun.wait()
    try:
        yield
    finally:
        stop.set()
        thread.join()
    must(not faults, f"another client: {'; '.join(faults)}")


def malformed_requests(server):
    """A request that is wrong gets its error, after the replies to those before it, and the connection is closed."""
    with witness(server):
        for data, error in MALFORMED:
            with Connection(server.port) as it:
                it.send(data)
                while (got := it.reply()) == PONG:
                    pass
                must(got == Error(PROTOCOL + error), f"{data[:40]!r}: {got!r}")
                must(it.is_closed(), f"{data[:40]!r}: the connection is not closed")


def cut_requests(server):
    """A connection that ends anywhere in a request leaves nothing of it."""
    request = packed("SET", "cut", "value")
    with witness(server):
        for at in range(len(request)):
            with Connection(server.port) as it:
                it.send(request[:at])
                it.socket.shutdown(socket.SHUT_WR)
                must(it.is_closed(), "a connection that ended is not closed")
        with Connection(server.port) as it:
            must(it.call("GET", "cut") is None, "a request that was cut was run")


def random_bytes(server, seconds, seed):
    """Bytes at random, and right requests with a few bytes changed: each connection ends with a reply or is closed."""
    drawn, until = random.Random(f"bytes {seed}"), time.monotonic() + seconds
    words = [b"GET", b"SET", b"MSET", b"SCAN", b"INCR", b"EXPIRE", b"APPEND", b"CLIENT", b"\xff", b"", b"0", b"MATCH", b"-1", b"EX"]
    with witness(server):
        while time.monotonic() < until:
            parts = []
            for _ in range(drawn.randrange(1, 30)):
                data = bytearray(packed(*(drawn.choice(words) for _ in range(drawn.randrange(1, 6)))))
                for _ in range(drawn.choice((0, 0, 1, 3))):
                    data[drawn.randrange(len(data))] = drawn.choice((*b"*$\r\n0123456789-", drawn.randrange(256)))
                parts.append(bytes(data) if drawn.random() < 0.95 else drawn.randbytes(100))
            with contextlib.suppress(Closed), Connection(server.port) as it:
                it.send(b"".join(parts))
                it.socket.shutdown(socket.SHUT_WR)
                must(it.is_closed(), "a connection that ended is not closed")


def huge_requests(program):
    """What is larger than the limits is refused, and what is as large as them is not."""
    # Behind the 33 bytes before it a value ends with the limit.
    long = b"x" * ((1 << 20) - 33)
    with Server(program, "--request", 1 << 20) as server, witness(server), Connection(server.port) as it:
        too_long = Error("ERR string exceeds maximum allowed size (proto-max-bulk-len)")
        must(it.call("SET", "huge", long) == OK and it.call("GET", "huge") == long, "the longest request is not taken")
        with Connection(server.port) as other:
            # (the server may close before all is sent; its reply is there to be read all the same)
            with contextlib.suppress(Closed):
                other.send(packed("SET", "huge", long + b"x"))
            must(other.reply() == Error(PROTOCOL + "invalid bulk length") and other.is_closed(), "a longer request is taken")
        must(it.call("STRLEN", "huge") == len(long), "a request that is refused was run")
        key = b"k" * 65536
        must(it.call("SET", key, "1") == OK and it.call("GET", key) == b"1", "the longest key is not taken")
        must(it.call("SET", key + b"k", "1") == too_long and it.call("GET", key + b"k") == too_long, "a longer key is taken")
        must(it.call("MSET", "other", "1", key + b"k", "1") == too_long, "a longer key is taken")
        must(it.call("EXISTS", "other") == 0, "a part of MSET is stored")
        must(it.call("MGET", *[key] * 15) == [b"1"] * 15, "a request of a megabyte is not taken")
        many = ["x"] * 100000
        must(it.call("EXISTS", *many) == 0 and it.call("DEL", key, "huge") == 2, "a request of 100,000 words is not taken")
        with contextlib.suppress(Closed):
            it.send(b"*1048576\r\n" + b"$1\r\nx\r\n" * 160000)
        must(it.reply() == Error(PROTOCOL + "invalid bulk length") and it.is_closed(), "a larger request is taken")


def thousand_connections(server):
    """1,000 connections at the same time, each with its own answer; some wait, some end in the midst of a request."""
    with witness(server), contextlib.ExitStack() as stack:
        all_of = [stack.enter_context(Connection(server.port)) for _ in range(1000)]
        for number, it in enumerate(all_of):
            it.send(packed("SET", f"mine{number}", number) + packed("GET", f"mine{number}") + b"*2\r\n$3\r\nGE")
        for number, it in enumerate(all_of):
            must([it.reply(), it.reply()] == [OK, b"%d" % number], f"connection {number} has another's bytes")
        for it in all_of[::3]:
            it.close()
        for number, it in enumerate(all_of):
            if number % 3:
                it.send(b"T\r\n" + packed(f"mine{number}")[4:])
                must(it.reply() == b"%d" % number, f"connection {number} has another's bytes")


def one_byte_at_a_time(server):
    """200 connections that send a byte each in turn."""
    data = packed("SET", "slow", "value") + packed("GET", "slow")
    with witness(server), contextlib.ExitStack() as stack:
        all_of = [stack.enter_context(Connection(server.port)) for _ in range(200)]
        for at in range(len(data)):
            for it in all_of:
                it.send(data[at : at + 1])
        for it in all_of:
            must([it.reply(), it.reply()] == [OK, b"value"], "a slow client has another reply")


def connections(it):
    return int(it.call("INFO").split(b"connected_clients:")[1].split()[0])


def used_memory(it):
    return int(it.call("INFO", "memory").split(b"used_memory:")[1].split()[0])


def are_closed(server, it, request, clients=1):
    """Sends a request from clients that never read, and waits until the server has closed their connections."""
    with contextlib.ExitStack() as stack:
        deaf = [stack.enter_context(Connection(server.port, room=4096)) for _ in range(clients)]
        must(all(other.call("PING") == PONG for other in deaf), "no reply")
        before, until = connections(it), time.monotonic() + 300
        for other in deaf:
            other.send(request)
        while connections(it) > before - clients:
            must(time.monotonic() < until, "a connection is not closed")
            time.sleep(0.02)


def clients_that_never_read(program):
    """What clients do not read waits, up to a megabyte for each; other clients have their replies all the while. A client that
    reads at last has them all, and what it took comes back."""
    with Server(program) as server, witness(server), Connection(server.port) as it, contextlib.ExitStack() as stack:
        must(it.call("SET", "large", "x" * 60000) == OK, "a key was not set")
        before = server.resident()
        deaf = [stack.enter_context(Connection(server.port, room=4096)) for _ in range(100)]
        for other in deaf:
            other.send(packed("GET", "large") * 230)
        until = time.monotonic() + 300
        while used_memory(it) < (90 << 20):
            must(time.monotonic() < until, "the replies do not wait")
            time.sleep(0.02)
        time.sleep(0.3)
        more = server.resident() - before
        must(not server.is_plain or more < (150 << 20), f"{more >> 20} MB are resident for 100 clients that do not read")
        must(used_memory(it) < (150 << 20), "more is used")
        must(deaf[0].call("PING") == b"x" * 60000, "another reply")
        for number in range(229):
            must(deaf[0].reply() == b"x" * 60000, f"reply {number} is another")
        must(deaf[0].reply() == PONG, "the last reply is another")
        for other in deaf:
            other.close()
        while used_memory(it) > (10 << 20):
            must(time.monotonic() < until, "the memory does not come back")
            time.sleep(0.02)


def long_pipelines(program):
    """A pipeline has all its replies, however many they are: sent at once, and read only then."""
    with Server(program, "--output", 1 << 17) as server, witness(server), Connection(server.port) as it:
        must(it.call("SET", "v", "x" * 4096) == OK, "a key was not set")
        it.send(packed("GET", "v") * 10000 + packed("ECHO", "end"))
        time.sleep(0.2)
        must(all(it.reply() == b"x" * 4096 for _ in range(10000)) and it.reply() == b"end", "a reply is another")


def pipelines_that_are_read(program):
    """Clients that read while the server sends have all their replies, time and again, and no connection is closed but by its client."""
    rounds, reply = (80 if "plain" in program else 10), 61440
    with Server(program, "--threads", 2) as server, Connection(server.port) as it:
        must(it.call("SET", "v", "x" * reply) == OK, "a key was not set")
        size = 300 * len(b"$%d\r\n%b\r\n" % (reply, b"x" * reply))
        for _ in range(rounds):
            with Connection(server.port) as other:
                other.send(packed("GET", "v") * 300)
                got = 0
                while got < size:
                    other.more()
                    got, other.at = got + len(other.got), len(other.got)
                must(got == size and other.call("PING") == PONG, "a reply is another")
        until = time.monotonic() + 60
        while (closed := closings(it))["client"] < rounds:
            must(time.monotonic() < until, f"{closed} were closed")
        must(sum(closed.values()) == rounds, f"{closed} were closed")


def closings(it):
    """How many connections were closed for each reason."""
    lines = it.call("INFO", "closed").decode().split()[2:]
    return {name.removeprefix("closed_by_"): int(count) for name, count in (line.split(":") for line in lines)}


def closings_are_counted(program):
    """Each connection that the server closes is counted by its reason."""
    words = ("--output", 1 << 17, "--timeout", 2, "--threads", 1, "--password", "sesame", "--request", 1 << 20)
    with Server(program, *words) as server, Connection(server.port) as it:
        must(it.call("AUTH", "sesame") == OK and it.call("SET", "v", "x" * 60000) == OK, "no reply")
        for name, data in (("quit", packed("QUIT")), ("protocol", b"*x\r\n"), ("http", b"POST / HTTP/1.1\r\n"),
                           ("output", packed("AUTH", "sesame") + packed("MGET", "v", "v", "v")), ("timeout", b"")):
            before = closings(it)
            with Connection(server.port) as other:
                other.send(data)
                while not wait_for(other, 0.5):
                    must(it.call("PING") == PONG, "no reply")
            after = closings(it)
            must({key for key in after if after[key] != before[key]} == {name}, f"{name}: {before}, and then {after}")
            must(after[name] == before[name] + 1, f"{name}: {before}, and then {after}")


def wait_for(it, seconds):
    """Whether the server closes the connection within so many seconds."""
    it.socket.settimeout(seconds)
    return it.is_closed()


def amplified(program):
    """One small request whose reply is larger than the limit: the connection is closed."""
    with Server(program, "--output", 1 << 24) as server, witness(server), Connection(server.port) as it:
        must(it.call("SET", "large", "x" * 60000) == OK, "a key was not set")
        are_closed(server, it, packed("MGET", *["large"] * 20000))
        for _ in range(3):
            are_closed(server, it, packed("MULTI") + packed("MGET", *["large"] * 200) * 2 + packed("EXEC"))


def http(server):
    """A request of a browser ends its connection, and nothing of it is run: neither its lines nor its body."""
    body = b"SET planted 1\r\nSET kept 2\r\n"
    with witness(server), Connection(server.port) as it:
        must(it.call("SET", "kept", "1") == OK, "a key was not set")
        for head in (b"POST / HTTP/1.1\r\nHost: 127.0.0.1\r\n\r\n", b"GET / HTTP/1.1\r\nHost: x\r\n\r\n", b"host: x\r\n", b"post\r\n",
                     packed("POST", "/"), packed("PING") + b"POST / HTTP/1.1\r\n"):
            with Connection(server.port) as other:
                other.send(head + body)
                got = other.rest()
                must(b"+OK" not in got and got in (b"", b"+PONG\r\n", b"$-1\r\n", got if head[:3] == b"GET" else b""), f"{head}: {got}")
        must(it.call("GET", "planted") is None and it.call("GET", "kept") == b"1", "the body of a request of HTTP was run")
