"""Round trips of Python's module redis with a server: run with its port. Ends with status 1, and says why, where a call returns another
value than Redis's pages and the module's say."""
import sys

import redis

CALLS = [
    ("ping", lambda it: it.ping(), True),
    ("echo", lambda it: it.echo("a"), b"a"),
    ("set", lambda it: it.set("a", 1), True),
    ("get", lambda it: it.get("a"), b"1"),
    ("none", lambda it: it.get("none"), None),
    ("nx", lambda it: it.set("a", 2, nx=True), None),
    ("xx", lambda it: it.set("a", 2, xx=True, ex=100), True),
    ("ttl", lambda it: 90 <= it.ttl("a") <= 100, True),
    ("persist", lambda it: it.persist("a"), True),
    ("expire", lambda it: it.expire("a", 10), True),
    ("setnx", lambda it: it.setnx("a", 3), False),
    ("getset", lambda it: it.getset("a", 3), b"2"),
    ("incr", lambda it: it.incr("a", 4), 7),
    ("decr", lambda it: it.decr("a"), 6),
    ("append", lambda it: it.append("a", "0"), 2),
    ("strlen", lambda it: it.strlen("a"), 2),
    ("mset", lambda it: it.mset({"b": 1, "c": 2}), True),
    ("mget", lambda it: it.mget("a", "none", "c"), [b"60", None, b"2"]),
    ("exists", lambda it: it.exists("a", "b", "none"), 2),
    ("dbsize", lambda it: it.dbsize(), 3),
    ("pipeline", lambda it: it.pipeline(transaction=False).incr("b").get("b").execute(), [2, b"2"]),
    ("info", lambda it: it.info()["connected_clients"] > 0, True),
    ("info of keys", lambda it: it.info("keyspace")["db0"]["keys"], 3),
    ("client_setname", lambda it: it.client_setname("me"), True),
    ("incrby", lambda it: it.incrby("b", 8), 10),
    ("decrby", lambda it: it.decrby("b", 8), 2),
    ("pexpire", lambda it: it.pexpire("b", 100000), True),
    ("pttl", lambda it: 90000 <= it.pttl("b") <= 100000, True),
    ("scan", lambda it: sorted(it.scan(0, match="[bc]", count=100)[1]), [b"b", b"c"]),
    ("set for get", lambda it: it.set("b", 5, keepttl=True, get=True), b"2"),
    ("set exat", lambda it: it.set("b", 6, exat=1999999999), True),
    ("expiretime", lambda it: it.execute_command("EXPIRETIME", "b"), 1999999999),
    ("getex", lambda it: it.getex("b", persist=True), b"6"),
    ("setex", lambda it: it.setex("x", 100, "long"), True),
    ("psetex", lambda it: it.psetex("x", 100000, "longer"), True),
    ("getrange", lambda it: it.getrange("x", 0, 3), b"long"),
    ("setrange", lambda it: it.setrange("x", 4, "est"), 7),
    ("getdel", lambda it: it.getdel("x"), b"longest"),
    ("incrbyfloat", lambda it: it.incrbyfloat("b", 0.5), 6.5),
    ("expireat", lambda it: it.expireat("b", 1999999999), True),
    ("msetnx", lambda it: it.msetnx({"b": 1, "y": 2}), False),
    ("rename", lambda it: it.rename("b", "y"), True),
    ("renamenx", lambda it: it.renamenx("y", "b"), True),
    ("copy", lambda it: it.copy("b", "y"), True),
    ("unlink", lambda it: it.unlink("y", "none"), 1),
    ("touch", lambda it: it.touch("a", "none"), 1),
    ("type", lambda it: it.type("a"), b"string"),
    ("keys", lambda it: sorted(it.keys("[abc]")), [b"a", b"b", b"c"]),
    ("randomkey", lambda it: it.randomkey() in (b"a", b"b", b"c"), True),
    ("select", lambda it: it.select(0), True),
    ("config_get", lambda it: it.config_get("save"), {"save": ""}),
    ("client_id", lambda it: it.client_id() > 0, True),
    ("client_list", lambda it: {"id", "addr", "name"} <= set(it.client_list()[0]), True),
    ("client_getname", lambda it: it.client_getname(), "me"),
    ("object encoding", lambda it: it.object("encoding", "c"), b"int"),
    ("memory_usage", lambda it: it.memory_usage("a") > 0, True),
    ("command", lambda it: it.command()["mset"]["step_count"], 2),
    ("command_count", lambda it: it.command_count() > 50, True),
    ("scan of a type", lambda it: sorted(it.scan_iter(_type="string")), [b"a", b"b", b"c"]),
    ("delete", lambda it: it.delete("a", "none"), 1),
    ("scan_iter", lambda it: sorted(it.scan_iter("*")), [b"b", b"c"]),
    ("flushdb", lambda it: it.flushdb(), True),
    ("dbsize", lambda it: it.dbsize(), 0),
    ("flushall", lambda it: it.flushall(), True),
    ("dbsize", lambda it: it.dbsize(), 0),
]


def must_be(name, got, wanted):
    if got != wanted:
        sys.exit(f"{name}: {got!r}, not {wanted!r}")


def transactions(it, other):
    """The default pipeline is a transaction, and transaction() watches keys and runs again where one was changed meanwhile."""
    must_be("a transaction", it.pipeline().set("from", 3).incr("to").get("to").execute(), [True, 1, b"1"])
    seen = []

    def move(pipe):
        seen.append(int(pipe.get("from")))
        if len(seen) == 1:
            other.set("from", 8)
        pipe.multi()
        pipe.decr("from")
        pipe.incr("to")

    must_be("transaction()", it.transaction(move, "from"), [7, 2])
    must_be("transaction() runs again", seen, [3, 8])
    with it.pipeline() as pipe:
        pipe.watch("from")
        other.set("from", 1)
        pipe.multi()
        pipe.set("from", 2)
        try:
            must_be("a changed key is written", pipe.execute(), None)
        except redis.WatchError:
            must_be("WatchError, and the value", other.get("from"), b"1")
    try:
        must_be("a wrong value is added to", it.pipeline().set("text", "x").incr("text").set("after", 1).execute(), None)
    except redis.ResponseError as why:
        must_be("a command of a transaction fails", "value is not an integer" in str(why), True)
        must_be("those behind it were made", it.get("after"), b"1")


def release(client, token):
    """Gives a lock back, if it is still the client's."""
    with client.pipeline() as pipe:
        pipe.watch("lock")
        if pipe.get("lock") != token:
            return False
        pipe.multi()
        pipe.delete("lock")
        return pipe.execute() == [1]


def locks(it, other):
    """A lock by SET with NX and PX, which WATCH gives back; and redis-py's own, which scripts give back and prolong."""
    take = lambda client, token: client.set("lock", token, nx=True, px=100000)
    must_be("a lock is taken", take(it, b"1"), True)
    must_be("a lock is taken twice", take(other, b"2"), None)
    must_be("another's lock is given back", release(other, b"2"), False)
    must_be("a lock is given back", release(it, b"1"), True)
    must_be("a free lock is taken", take(other, b"2"), True)
    if isinstance(it.execute_command("COMMAND", "INFO", "EVAL"), dict) and not it.execute_command("COMMAND", "INFO", "EVAL"):
        return
    lock, second = it.lock("own", timeout=100), other.lock("own", timeout=100)
    must_be("redis-py's Lock is taken", lock.acquire(blocking=False), True)
    must_be("redis-py's Lock is taken twice", second.acquire(blocking=False), False)
    must_be("redis-py's Lock is prolonged", lock.extend(100) and 150 < it.ttl("own") <= 200, True)
    must_be("redis-py's Lock is given back", lock.release(), None)
    must_be("redis-py's Lock is taken again", second.acquire(blocking=False) and second.owned(), True)
    it.delete("own")
    try:
        second.release()
        sys.exit("a lock is given back that is lost")
    except redis.exceptions.LockError:
        must_be("a script is called by its name", it.register_script("return {KEYS[1], ARGV[1]}")(keys=["a"], args=["b"]), [b"a", b"b"])


def main(port):
    with redis.Redis(port=port) as it, redis.Redis(port=port) as other:
        for name, call, wanted in CALLS:
            must_be(name, call(it), wanted)
        transactions(it, other)
        locks(it, other)


if __name__ == "__main__":
    main(int(sys.argv[1]))
