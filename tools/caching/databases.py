"""SELECT, MOVE, COPY with DB: each of the 16 databases has keys of its own."""
import random
import time

from .client import OK, PONG, Connection, Error
from .limits import info
from .server import Server
from .together import each_client, must, scanned
from .transactions import QUEUED

SCRIPTS = {
    "databases": (
        (["SET", "k", "0"], OK),
        (["SELECT", "1"], OK),
        (["GET", "k"], None),
        (["SET", "k", "1"], OK),
        (["SET", "only", "1"], OK),
        (["DBSIZE"], 2),
        (["SELECT", "15"], OK),
        (["RANDOMKEY"], None),
        (["KEYS", "*"], []),
        (["SELECT", "16"], Error("ERR DB index is out of range")),
        (["SELECT", "-1"], Error("ERR DB index is out of range")),
        (["SELECT", "x"], Error("ERR value is not an integer or out of range")),
        (["SET", "k", "15"], OK),
        (["MOVE", "k", "1"], 0),
        (["MOVE", "k", "2"], 1),
        (["MOVE", "k", "2"], 0),
        (["MOVE", "k", "15"], Error("ERR source and destination objects are the same")),
        (["MOVE", "k", "16"], Error("ERR DB index is out of range")),
        (["EXISTS", "k"], 0),
        (["SELECT", "2"], OK),
        (["GET", "k"], b"15"),
        (["EXPIRE", "k", "1000"], 1),
        (["COPY", "k", "k", "DB", "1"], 0),
        (["COPY", "k", "k", "DB", "1", "REPLACE"], 1),
        (["COPY", "k", "k", "DB", "2"], Error("ERR source and destination objects are the same")),
        (["COPY", "k", "k2", "DB", "3"], 1),
        (["SELECT", "1"], OK),
        (["GET", "k"], b"15"),
        (["TTL", "k"], 1000),
        (["RANDOMKEY"], None),
        (["FLUSHDB"], OK),
        (["DBSIZE"], 0),
        (["SELECT", "0"], OK),
        (["GET", "k"], b"0"),
        (["MULTI"], OK),
        (["SELECT", "3"], QUEUED),
        (["GET", "k2"], QUEUED),
        (["EXEC"], [OK, b"15"]),
        (["GET", "k2"], b"15"),
        (["FLUSHALL"], OK),
        (["GET", "k2"], None),
        (["SELECT", "0"], OK),
        (["GET", "k"], None),
    ),
}


def replies(server):
    with Connection(server.port) as it:
        for words, wanted in SCRIPTS["databases"]:
            got = it.call(*words)
            if words == ["RANDOMKEY"] and got in (b"k", b"only"):
                continue
            if words[0] == "TTL" and 990 <= got <= 1000:
                continue
            must(got == wanted and type(got) is type(wanted), f"{words}: {got!r}, not {wanted!r}")
        must(b"# Keyspace\r\n" == it.call("INFO", "keyspace"), "a key is counted that is gone")
        for db in (3, 7):
            it.calls([["SELECT", db], *(["SET", f"key{at}", "1", "EX", "1000"] for at in range(db))])
        must(b"db3:keys=3,expires=3,avg_ttl=0\r\ndb7:keys=7,expires=7,avg_ttl=0\r\n" in it.call("INFO"), "INFO tells others")
        must(b" db=7 " in it.call("CLIENT", "INFO") and it.call("CONFIG", "GET", "databases") == [b"databases", b"16"], "another database")
        must(sorted(set(scanned(it))) == sorted(b"key%d" % at for at in range(7)), "SCAN shows another database's keys")


def watched(server):
    """A key that is watched is one of its database: what happens to its name in another one is no change."""
    with Connection(server.port) as it, Connection(server.port) as other:
        for db, is_void in ((4, False), (5, True)):
            must(it.calls([["SELECT", 5], ["SET", "w", "1"], ["WATCH", "w"], ["SELECT", 4]]) == [OK] * 4, "no reply")
            must(other.calls([["SELECT", db], ["SET", "w", "2"]]) == [OK] * 2, "no reply")
            must(it.calls([["MULTI"], ["PING"], ["EXEC"]])[-1] == (None if is_void else [PONG]), f"a change in database {db}")
        must(it.calls([["SELECT", 5], ["WATCH", "w"]]) == [OK] * 2 and other.calls([["SELECT", 6], ["FLUSHDB"]]) == [OK] * 2, "no reply")
        must(it.calls([["MULTI"], ["PING"], ["EXEC"]])[-1] == [PONG], "another database's FLUSHDB is a change")
        must(it.call("WATCH", "w") == OK and other.call("FLUSHALL") == OK, "no reply")
        must(it.calls([["MULTI"], ["PING"], ["EXEC"]])[-1] is None, "FLUSHALL is no change")


def full(program):
    """Keys of all databases are evicted, and expired keys of all are removed."""
    with Server(program, "--memory", 8 << 20, "--threads", 2) as server, Connection(server.port) as it:
        for number in range(0, 16000, 400):
            requests = [["SET", f"key{number + at}", "v" * 1000] for at in range(400)]
            must(it.calls([["SELECT", number // 400 % 4], *requests]) == [OK] * 401, "a key is refused")
        sizes = [it.calls([["SELECT", db], ["DBSIZE"]])[1] for db in range(4)]
        must(min(sizes) > 300 and sum(sizes) + info(it, "evicted_keys") == 16000, f"{sizes} keys are left")
        it.call("FLUSHALL")
        for db in (2, 9):
            it.calls([["SELECT", db], *(["SET", f"key{at}", "1", "PX", "20"] for at in range(100))])
        until = time.monotonic() + 60
        while it.call("INFO", "keyspace") != b"# Keyspace\r\n" or info(it, "used_memory_dataset") != 0:
            must(time.monotonic() < until, f"expired keys are not removed: {it.call('INFO', 'keyspace')}")
            time.sleep(0.02)


def own_keys(server):
    """Clients in databases of their own change the same keys at once, move some, and flush theirs: each finds its own."""

    def change(it, number):
        drawn, kept = random.Random(number), {}
        must(it.call("SELECT", number) == OK, "no database")
        for step in range(300 if server.is_plain else 60):
            key, value = f"key{drawn.randrange(20)}", b"%d.%d" % (number, step)
            if drawn.random() < 0.03:
                must(it.call("FLUSHDB") == OK, "no reply")
                kept = {}
            must(it.calls([["GET", key], ["SET", key, value]]) == [kept.get(key), OK], f"{key} of database {number} is another")
            kept[key] = value
        must(it.call("DBSIZE") == len(kept), "another number of keys")

    each_client(server, change, 8)
