"""The same requests to this server and to a redis-server: the replies must be the same, words and all. rows.py has the requests."""
import contextlib
import random
import socket

from . import rows
from .client import Connection, Error, Verbatim
from .server import Failed
from .together import PATTERNS, must, scanned

AT_ONCE = 200


def is_same_time(name, ours, theirs):
    """Of a deadline some seconds may have passed."""
    return ours > 0 and theirs > 0 and abs(ours - theirs) <= (20000 if name.startswith("P") else 20)


def is_same_command(ours, theirs):
    """What COMMAND tells of a command: Redis tells more behind it."""
    return ours is theirs is None or isinstance(theirs, list) and isinstance(ours, list) and ours == theirs[:6]


def is_same(ours, theirs, words):
    """Whether two replies are the same. SCAN has cursors and an order of its own, a client its number, a key its memory."""
    name, more = words[0].upper(), [str(it).upper() for it in words[1:]]
    if type(ours) is not type(theirs):
        return False
    if isinstance(ours, list) and name == "SCAN":
        return ours[0] != b"0" or theirs[0] != b"0" or sorted(ours[1]) == sorted(theirs[1])
    if isinstance(ours, list) and name == "KEYS":
        return sorted(ours) == sorted(theirs)
    if isinstance(ours, list) and name == "COMMAND":
        return len(ours) == len(theirs) and all(map(is_same_command, ours, theirs))
    if isinstance(ours, list) and name == "HELLO":
        return [it for it in ours if type(it) is not int] == [it for it in theirs if type(it) is not int]
    if isinstance(ours, list) and name == "CONFIG":
        return sorted(ours[::2]) == sorted(theirs[::2])
    if isinstance(ours, Verbatim):
        return True  # what INFO and CLIENT LIST tell is compared in other ways
    if type(ours) is int and name in ("TTL", "PTTL", "EXPIRETIME", "PEXPIRETIME"):
        return ours == theirs or is_same_time(name, ours, theirs)
    if type(ours) is int and (name == "MEMORY" or more[:1] == ["ID"]):
        return ours > 0 and theirs > 0
    return name == "RANDOMKEY" and ours is not None or ours == theirs


class Beside:
    """A connection to each server, and the differences that were found."""

    def __init__(self, port, port_of_redis):
        self.ports, self.faults, self.compared = (port, port_of_redis), [], 0

    def __enter__(self):
        self.both = tuple(Connection(it) for it in self.ports)
        return self

    def __exit__(self, *_):
        for it in self.both:
            it.close()

    def calls(self, requests):
        """Sends requests to both, and compares their replies."""
        ours, theirs = (it.calls(requests) for it in self.both)
        self.compared += len(requests)
        for words, our, their in zip(requests, ours, theirs):
            if not is_same(our, their, words):
                self.fault(words, our, their)

    def fault(self, words, ours, theirs):
        self.faults.append(f"{words}: {ours!r}"[:400] + f", and Redis {theirs!r}"[:400])
        if len(self.faults) >= 10:
            self.end()

    def all_of(self, requests):
        """Compares each of these requests on the same stored keys, and what it leaves there."""
        chosen = []
        for words in requests:
            chosen += [*rows.STORED, words, *rows.LOOKS]
            if len(chosen) > AT_ONCE:
                self.calls(chosen)
                chosen = []
        self.calls(chosen)

    def each_of(self, lists):
        """Compares lists of requests that stand for themselves."""
        for requests in lists:
            self.calls(requests)

    def end(self):
        must(not self.faults, f"{len(self.faults)} replies differ: " + "; ".join(self.faults))


def answered(port, data):
    """Sends bytes, and returns all that the server replies until it closes the connection."""
    with Connection(port) as it:
        it.send(data)
        it.socket.shutdown(socket.SHUT_WR)
        return it.rest()


def info_of(port, *words):
    """Returns the sections of INFO, and the fields of each."""
    with Connection(port) as it:
        sections = it.call("INFO", *words).decode().split("# ")[1:]
    return {it.splitlines()[0]: {line.split(":")[0] for line in it.splitlines()[1:] if line} for it in sections}


def compare_info(port, port_of_redis):
    """Each section and field of our INFO is one of Redis's, but for our own sections, and sections are chosen as there."""
    own = {"Closed", "Commandstats"}
    for words in ((), ("memory",), ("MEMORY", "clients"), ("all",), ("default",), ("everything",), ("what",)):
        ours, theirs = info_of(port, *words), info_of(port_of_redis, *words)
        ours = {name: fields for name, fields in ours.items() if name not in own}
        for name, fields in ours.items():
            must(name in theirs and fields <= theirs[name], f"INFO {words}: {name} has {fields - theirs.get(name, set())}")
        wanted = [it for it in theirs if it in ("Server", "Clients", "Memory", "Stats", "Cluster", "Keyspace")]
        must(list(ours) == wanted, f"INFO {words} has the sections {list(ours)}, and Redis's {wanted}")


def compare_patterns(both, drawn, count):
    """SCAN with MATCH shows the same keys, by patterns of a list and at random. No key is empty: in Redis `**` does not take it."""
    texts = {text for _, text, _ in PATTERNS if text} | {"".join(drawn.choices("ab]-^\\[*?", k=drawn.randrange(1, 4))) for _ in range(100)}
    both.calls([["FLUSHALL"], *(["SET", it, "1"] for it in sorted(texts))])
    patterns = [pattern for pattern, _, _ in PATTERNS] + ["".join(drawn.choices("aabb**??[[]]^-\\", k=drawn.randrange(1, 7))) for _ in range(count)]
    for pattern in patterns:
        ours, theirs = (sorted(set(scanned(it, "MATCH", pattern, "COUNT", 1000))) for it in both.both)
        both.compared += 1
        if ours != theirs:
            both.fault(["SCAN", "MATCH", pattern], ours, theirs)


def compare_connections(both, drawn, count):
    """Four connections to each server, whose requests come in one order: transactions, and keys that others change."""
    with contextlib.ExitStack() as stack:
        pairs = [[stack.enter_context(Connection(port)) for port in both.ports] for _ in range(4)]
        for words in rows.drawn_of_transactions(drawn, count):
            ours, theirs = (it.call(*words) for it in drawn.choice(pairs))
            both.compared += 1
            if not is_same(ours, theirs, words):
                both.fault(words, ours, theirs)


def compare_moments(both, drawn, count):
    """Deadlines at random, up to the last one: what is stored is what is told, and conditions compare with it exactly."""
    for _ in range(count):
        moment = drawn.randrange(2 * 10**12, 2 ** drawn.randrange(42, 63))
        condition, by = drawn.choice(("GT", "LT", "NX", "XX")), drawn.choice((-1, 0, 0, 1, drawn.randrange(-1000, 1000)))
        requests = [["SET", "k", "v"], ["PEXPIREAT", "k", moment], ["PEXPIRETIME", "k"], ["EXPIRETIME", "k"], ["PEXPIREAT", "k", moment + by, condition],
                    ["PEXPIRETIME", "k"], ["EXPIREAT", "k", moment // 1000, condition], ["PEXPIRETIME", "k"], ["GETEX", "k", "PXAT", moment], ["PEXPIRETIME", "k"],
                    ["SET", "k", "w", "PXAT", moment + 1], ["APPEND", "k", "x"], ["PEXPIRETIME", "k"], ["COPY", "k", "l", "REPLACE"], ["PEXPIRETIME", "l"]]
        ours, theirs = (it.calls(requests) for it in both.both)
        both.compared += len(requests)
        for words, our, their in zip(requests, ours, theirs):
            if our != their:
                both.fault(words, our, their)


def compare(port, port_of_redis, is_quick, seed):
    """Compares all, and returns how many replies were."""
    drawn = random.Random(f"beside {seed}")
    with Beside(port, port_of_redis) as both:
        both.calls([["FLUSHALL"]])
        both.all_of(rows.each_command())
        both.all_of(rows.options_of_set(2 if is_quick else 3))
        both.all_of(rows.options_of_others(1 if is_quick else 3))
        both.each_of(rows.numbers_at_limits())
        both.each_of(rows.fractions())
        both.each_of(rows.of_one_key())
        both.each_of(rows.transactions())
        for _ in range(10 if is_quick else 200):
            both.calls([["FLUSHALL"], *rows.drawn_requests(drawn, 500), *rows.LOOKS])
        for _ in range(5 if is_quick else 100):
            both.calls([["FLUSHALL"]])
            compare_connections(both, drawn, 500)
        compare_moments(both, drawn, 300 if is_quick else 5000)
        compare_patterns(both, drawn, 100 if is_quick else 3000)
        both.calls([["FLUSHALL"], ["RESET"], ["HELLO", "3"]])
        both.all_of(rows.each_command())
        # (where a message comes that a subscriber sends itself is not the same)
        both.each_of([["HELLO", "3"], *requests] for requests in rows.transactions() if ["PUBLISH", "a", "x"] not in requests)
        for _ in range(5 if is_quick else 100):
            both.calls([["FLUSHALL"], ["HELLO", "3"], *rows.drawn_requests(drawn, 500), *rows.LOOKS])
        for data in rows.RAW:
            ours, theirs = answered(port, data), answered(port_of_redis, data)
            both.compared += 1
            if ours != theirs:
                both.fault([data], ours, theirs)
        both.end()
        compare_info(port, port_of_redis)
        return both.compared
