"""Values that are longer than the room of a thread, up to the longest that the map takes."""
import time

from .client import OK, Connection, Error, packed
from .hostile import PROTOCOL, are_closed, used_memory
from .limits import FULL, info
from .server import Server
from .together import must

MB = 1 << 20
# The longest value has the bytes of the map's longest but for the 8 of its deadline.
LONGEST = (1 << 29) - 8
TOO_LONG = Error("ERR string exceeds maximum allowed size (proto-max-bulk-len)")


def text_of(size, seed=0):
    """Bytes that differ from place to place."""
    block = bytes((it * 7 + seed) % 251 for it in range(251)) * 4
    return (block * (size // len(block) + 1))[:size]


def long_values(program):
    """Each command that reads a value, or changes a part of it, does so with a long one."""
    with Server(program) as server, Connection(server.port) as it:
        value = text_of((3 if server.is_plain else 1) * MB)
        size, more = len(value), text_of(100, 3)
        must(it.call("SET", "v", value) == OK and it.call("GET", "v") == value, "the value is another")
        must(it.call("STRLEN", "v") == size and it.call("EXISTS", "v") == 1, "its length is another")
        must(it.call("OBJECT", "ENCODING", "v") == b"raw" and it.call("TYPE", "v") == "string", "its type is another")
        must(it.call("GETRANGE", "v", size // 2, size // 2 + 99) == value[size // 2 : size // 2 + 100], "a part is another")
        must(it.call("GETRANGE", "v", -3, -1) == value[-3:] and it.call("GETRANGE", "v", size, -1) == b"", "its end is another")
        must(it.call("APPEND", "v", more) == size + 100 and it.call("GETRANGE", "v", -101, -1) == value[-1:] + more, "APPEND")
        must(it.call("SETRANGE", "v", size - 50, more) == size + 100, "SETRANGE")
        value = value[: size - 50] + more + more[50:]
        must(it.call("MGET", "v", "none", "v") == [value, None, value], "MGET")
        must(it.call("COPY", "v", "w") == 1 and it.call("RENAME", "w", "x") == OK and it.call("GET", "x") == value, "COPY, RENAME")
        must(it.call("GETSET", "x", "short") == value and it.call("GET", "x") == b"short", "GETSET")
        must(it.call("SET", "v", "short", "NX") is None and it.call("SET", "v", "short", "GET") == value, "SET with GET")
        must(it.call("SETRANGE", "v", size, "end") == size + 3, "SETRANGE past the end")
        must(it.call("GETDEL", "v") == b"short" + bytes(size - 5) + b"end" and it.call("EXISTS", "v") == 0, "GETDEL")
        must(it.call("INCR", "x") == Error("ERR value is not an integer or out of range"), "INCR")
        must(used_memory(it) < 8 * MB, "the memory does not come back")


def memory_is_limited(program):
    """What a long value needs is within --memory, --output and --request; what was stored stays."""
    value = text_of(3 * MB)
    words = ("--memory", 16 * MB, "--buffers", 16 * MB, "--evict", "none", "--output", 4 * MB, "--request", 64 * MB)
    with Server(program, *words) as server, Connection(server.port) as it:
        must(it.call("SET", "v", value) == OK and it.call("GET", "v") == value, "a value within the limits is refused")
        are_closed(server, it, packed("MGET", "v", "v"))
        with Connection(server.port) as other:
            other.send(b"*3\r\n$3\r\nSET\r\n$1\r\nv\r\n$67108865\r\n")
            must(other.reply() == Error(PROTOCOL + "invalid bulk length") and other.is_closed(), "a longer request is taken")
        for number in range(8):
            got = it.call("SET", f"v{number}", value)
            must(got in (OK, FULL) and used_memory(it) < 20 * MB, f"{got}, with {used_memory(it)} bytes")
        must(got == FULL and info(it, "evicted_keys") == 0, "more is stored than there is room for")
        must(it.call("SETRANGE", "far", 100 * MB, "x") == FULL and it.call("EXISTS", "far") == 0, "zeros are stored without room")
        must(it.call("MULTI") == OK, "no transaction")
        queued = [it.call("SET", "queued", value[: MB // 2]) for _ in range(40)]
        with Connection(server.port) as other:
            must(FULL in queued and used_memory(other) < 20 * MB, "a transaction has no limit")
        must(it.call("EXEC") == Error("EXECABORT Transaction discarded because of previous errors."), "a part of it is run")
        must(it.call("SET", "v", "short") == OK and it.call("SET", "v", value[:MB]) == OK, "what is free is not used")
        must(it.call("GET", "v0") == value, "a value is another")


def long_values_are_evicted(program):
    """At the limit long values go for others, and the memory stays within it but for a value of each thread."""
    with Server(program, "--memory", 32 * MB, "--threads", 2) as server, Connection(server.port) as it:
        count = 100 if server.is_plain else 25
        for number in range(count):
            must(it.call("SET", f"v{number}", text_of(2 * MB, number)) == OK, "a value is refused")
            must(used_memory(it) < 38 * MB, f"{used_memory(it)} bytes are used")
        left = [number for number in range(count) if it.call("EXISTS", f"v{number}") == 1]
        must(info(it, "evicted_keys") == count - len(left) and 3 <= len(left) <= 16, f"{len(left)} are left")
        must(it.call("GET", f"v{left[-1]}") == text_of(2 * MB, left[-1]), "a value is another")


def wait_for_memory(it, most=6 * MB):
    until = time.monotonic() + 60
    while used_memory(it) > most:
        must(time.monotonic() < until, "the memory does not come back")
        time.sleep(0.02)


def long_values_expire(program):
    """A long value that expired, or that FLUSHALL removed, gives its memory back; a walk over the keys copies no value."""
    with Server(program) as server, Connection(server.port) as it:
        value = text_of(8 * MB)
        for number in range(4):
            must(it.call("SET", f"v{number}", value) == OK, "a value is refused")
        before = used_memory(it)
        shown, cursor = [], b"0"
        while not shown or cursor != b"0":
            cursor, keys = it.call("SCAN", cursor, "COUNT", 1000, "MATCH", "v*")
            shown += keys
        must(sorted(shown) == [b"v0", b"v1", b"v2", b"v3"] == sorted(it.call("KEYS", "v?")), f"{shown}")
        must(used_memory(it) < before + 2 * MB, "SCAN copies values")
        must(it.call("PEXPIRE", "v0", 100) == 1 and it.call("PEXPIRE", "v1", 100) == 1, "no deadline")
        wait_for_memory(it, before - 15 * MB)
        must(it.call("MGET", "v0", "v1") == [None, None] and it.call("GET", "v2") == value, "another value is removed")
        must(it.call("FLUSHALL") == OK and it.call("GET", "v2") is None, "FLUSHALL")
        wait_for_memory(it)


def longest_value(program):
    """A value has up to 512 MB less 8 bytes."""
    with Server(program, "--memory", 4 << 30) as server, Connection(server.port) as it:
        must(it.call("SETRANGE", "v", LONGEST - 1, "x") == LONGEST and it.call("STRLEN", "v") == LONGEST, "the longest is refused")
        must(it.call("GETRANGE", "v", LONGEST - 3, -1) == b"\0\0x" and it.call("GETRANGE", "v", 0, 1) == b"\0\0", "its bytes")
        must(it.call("SETRANGE", "v", LONGEST, "x") == TOO_LONG and it.call("APPEND", "v", "x") == TOO_LONG, "a longer one is taken")
        must(it.call("STRLEN", "v") == LONGEST and it.call("DEL", "v") == 1, "its length is another")
        wait_for_memory(it)
