"""MULTI, EXEC, DISCARD, WATCH, UNWATCH; FLUSHALL; what others wait for; passwords."""
import random
import socket
import subprocess
import threading
import time

from .client import OK, PONG, Connection, Error, Simple
from .server import Server
from .together import must

QUEUED = Simple("QUEUED")
ABORTED = Error("EXECABORT Transaction discarded because of previous errors.")

# What one connection sends, and the replies.
SCRIPTS = {
    "transactions": (
        (["EXEC"], Error("ERR EXEC without MULTI")),
        (["DISCARD"], Error("ERR DISCARD without MULTI")),
        (["MULTI"], OK),
        (["MULTI"], Error("ERR MULTI calls can not be nested")),
        (["SET", "a", "1"], QUEUED),
        (["INCR", "a"], QUEUED),
        (["GET", "a"], QUEUED),
        (["WATCH", "a"], Error("ERR WATCH inside MULTI is not allowed")),
        (["EXEC"], [OK, 2, b"2"]),
        (["MULTI"], OK),
        (["EXEC"], []),
        (["MULTI"], OK),
        (["SET", "a", "x"], QUEUED),
        (["DISCARD"], OK),
        (["GET", "a"], b"2"),
        # A request that cannot be queued voids the transaction; one that fails when it is run does not.
        (["MULTI"], OK),
        (["SET", "a", "x"], QUEUED),
        (["GET"], Error("ERR wrong number of arguments for 'get' command")),
        (["SET", "a", "y"], QUEUED),
        (["EXEC"], ABORTED),
        (["GET", "a"], b"2"),
        (["MULTI"], OK),
        (["nothing"], Error("ERR unknown command 'nothing', with args beginning with: ")),
        (["EXEC"], ABORTED),
        (["MULTI"], OK),
        (["SET", "b", "text"], QUEUED),
        (["INCR", "b"], QUEUED),
        (["APPEND", "b", "s"], QUEUED),
        (["EXEC"], [OK, Error("ERR value is not an integer or out of range"), 5]),
        (["MULTI"], OK),
        (["FLUSHALL"], QUEUED),
        (["SET", "c", "1"], QUEUED),
        (["DBSIZE"], QUEUED),
        (["EXEC"], [OK, OK, 1]),
        (["MULTI"], OK),
        (["MSETNX", "d", "1", "e", "2"], QUEUED),
        (["RENAME", "d", "f"], QUEUED),
        (["UNWATCH"], QUEUED),
        (["EXEC"], [1, OK, OK]),
        (["MGET", "d", "e", "f"], [None, b"2", b"1"]),
    ),
    "own watches": (
        (["SET", "a", "1"], OK),
        (["WATCH", "a", "b"], OK),
        (["MULTI"], OK),
        (["INCR", "a"], QUEUED),
        (["EXEC"], [2]),
        (["WATCH", "a"], OK),
        (["SET", "a", "5"], OK),
        (["MULTI"], OK),
        (["INCR", "a"], QUEUED),
        (["EXEC"], None),
        (["MULTI"], OK),
        (["INCR", "a"], QUEUED),
        (["EXEC"], [6]),
        (["WATCH", "a"], OK),
        (["SET", "a", "7"], OK),
        (["UNWATCH"], OK),
        (["MULTI"], OK),
        (["INCR", "a"], QUEUED),
        (["EXEC"], [8]),
        (["WATCH", "a"], OK),
        (["SET", "a", "9"], OK),
        (["MULTI"], OK),
        (["DISCARD"], OK),
        (["MULTI"], OK),
        (["INCR", "a"], QUEUED),
        (["EXEC"], [10]),
    ),
}

# What another connection does to a key `w` that is watched, which has the value 5 at first; and whether the transaction is void.
CHANGES = (
    (["SET", "w", "5"], True),
    (["GET", "w"], False),
    (["SET", "v", "5"], False),
    (["DEL", "w"], True),
    (["DEL", "v"], False),
    (["INCR", "w"], True),
    (["APPEND", "w", "1"], True),
    (["EXPIRE", "w", "100"], True),
    (["PERSIST", "w"], False),
    (["SETNX", "w", "1"], False),
    (["GETSET", "w", "1"], True),
    (["GETDEL", "w"], True),
    (["RENAME", "w", "other"], True),
    (["MSET", "v", "1", "w", "2"], True),
    (["MSETNX", "v1", "1", "w", "2"], False),
    (["COPY", "w", "copy"], False),
    (["FLUSHALL"], True),
    (["PEXPIRE", "w", "0"], True),
)


def watches(server):
    """EXEC fails where another connection changed a key that is watched, and only there."""
    with Connection(server.port) as it, Connection(server.port) as other:
        for words, is_void in CHANGES:
            other.calls([["DEL", "w", "v", "v1", "other", "copy"], ["SET", "w", "5"]])
            must(it.call("WATCH", "w") == OK, "no reply")
            other.call(*words)
            must(it.calls([["MULTI"], ["SET", "done", "1"]]) == [OK, QUEUED], "no reply")
            must(it.call("EXEC") == (None if is_void else [OK]), f"{words}: EXEC does not see what was done to the key")
        must(it.call("WATCH", "none") == OK and other.call("SET", "none", "1") == OK, "no reply")
        must(it.calls([["MULTI"], ["PING"], ["EXEC"]])[-1] is None, "a new key is no change")
        # A key that expires is changed, though no command removed it.
        must(other.call("SET", "w", "1", "PX", "20") == OK and it.call("WATCH", "w") == OK, "no reply")
        time.sleep(0.05)
        must(it.calls([["MULTI"], ["PING"], ["EXEC"]])[-1] is None, "an expired key is no change")
        # One that was gone before is not, though another client removes what is left of it.
        for gone in (["FLUSHALL"], ["PEXPIREAT", "w", "1"]):
            must(other.call("SET", "w", "1") == OK and other.call(*gone) in (OK, 1), "no reply")
            must(it.call("WATCH", "w") == OK and other.call("DEL", "w") == 0, "a removed key is there")
            must(it.calls([["MULTI"], ["PING"], ["EXEC"]])[-1] == [PONG], f"a key that was gone is changed after {gone}")


def transactions_are_one_step(server):
    """Clients move between accounts by EXEC, with WATCH or without; others add them up by EXEC, and always find the same sum."""
    seconds, accounts, faults = (3 if server.is_plain else 2), [f"account{at}" for at in range(8)], []
    until = time.monotonic() + seconds
    done = {"sums": 0, "moves": 0}
    with Connection(server.port) as it:
        must(it.call("MSET", *(word for key in accounts for word in (key, "100"))) == OK, "no reply")

    def move(number):
        drawn = random.Random(number)
        with Connection(server.port) as one:
            while time.monotonic() < until and not faults:
                from_, to = drawn.sample(accounts, 2)
                if number % 2:
                    one.calls([["MULTI"], ["DECRBY", from_, "7"], ["INCRBY", to, "7"], ["EXEC"]])
                    done["moves"] += 1
                    continue
                one.call("WATCH", from_, to)
                has = [int(value) for value in one.call("MGET", from_, to)]
                got = one.calls([["MULTI"], ["SET", from_, has[0] - 3], ["SET", to, has[1] + 3], ["EXEC"]])[-1]
                done["moves"] += got is not None

    def add_up():
        with Connection(server.port) as one:
            while time.monotonic() < until and not faults:
                got = one.calls([["MULTI"], *(["GET", key] for key in accounts), ["EXEC"]])[-1]
                if sum(int(value) for value in got) != 800:
                    faults.append(f"a sum of {sum(int(value) for value in got)}")
                done["sums"] += 1

    def run(work, *of):
        try:
            work(*of)
        except Exception as why:
            faults.append(repr(why))

    threads = [threading.Thread(target=run, args=(move, number)) for number in range(6)]
    threads += [threading.Thread(target=run, args=(add_up,)) for _ in range(2)]
    for thread in threads:
        thread.start()
    for thread in threads:
        thread.join()
    must(not faults, f"EXEC is not one step: {faults[:3]}")
    must(done["sums"] > 20 and done["moves"] > 20, f"little was done: {done}")


def time_stands_still(server):
    """A key that expires while EXEC runs, or a command of many keys, is there for all of it or for none; so is a deadline that EXEC asks for."""
    count = 30000 if server.is_plain else 8000
    several = {"EXEC": [["STRLEN", "k"]] * count, "MGET": [["MGET", *["k"] * (2 * count)]], "PTTL": [["PTTL", "k"]] * count}
    with Connection(server.port) as it, Connection(server.port) as other:
        for name, requests in several.items():
            for _ in range(3 if server.is_plain else 1):
                it.calls([["MULTI"], *requests])
                must(other.call("SET", "k", "v", "PX", "6") == OK, "no reply")
                got = it.call("EXEC")
                replies = got[0] if name == "MGET" else got
                must(len(set(replies)) == 1, f"{name}: one moment has the replies {set(replies)}")
            must(it.calls([["MULTI"], *[["SET", "k", "v", "PX", "50"], ["PTTL", "k"]] * 2, ["EXEC"]])[-1] == [OK, 50] * 2, "time passes in EXEC")


def flushes(server):
    """FLUSHALL removes all keys at one moment, however often it is called, and the memory comes back."""
    with Connection(server.port) as it, Connection(server.port) as other:
        for number in range(600):
            got = it.calls([["SET", "a", "1"], ["SET", "b", "1", "EX", "100"], ["FLUSHALL", "ASYNC"], ["DBSIZE"], ["EXISTS", "a", "b"]])
            must(got == [OK, OK, OK, 0, 0], f"round {number}: {got}")
            must(other.call("MGET", "a", "b") == [None, None] and other.call("SETNX", "b", "2") == 1, "a removed key is there")
        must(it.call("FLUSHALL") == OK and it.call("SCAN", "0")[1] == [], "a removed key is shown")
        for count in range(3):
            keys = [f"key{at}" for at in range(5000)]
            it.calls([["SET", key, "x" * 50, "EX", "1000"] for key in keys])
            must(b"db0:keys=5000,expires=5000," in it.call("INFO", "keyspace"), "keys are miscounted")
            must(it.call("FLUSHDB") == OK and it.call("DBSIZE") == 0 and it.call("INFO", "keyspace") == b"# Keyspace\r\n", "keys are left")
        until = time.monotonic() + 60
        while b"used_memory_dataset:0\r\n" not in it.call("INFO", "memory"):
            must(time.monotonic() < until, "what FLUSHALL removed is still stored")
            time.sleep(0.02)
        must(b"expired_keys:0\r\n" in it.call("INFO", "stats"), "keys are expired that FLUSHALL removed")


def others_do_not_wait(program):
    """In a table that was large, SCAN and FLUSHALL look into a bounded number of buckets: another connection of the same thread has
    its replies meanwhile. The limit leaves room for a busy machine."""
    with Server(program, "--threads", 1, "--buckets", 1 << 22, "--memory", 1 << 32) as server, Connection(server.port) as it:
        must(it.calls([["SET", f"only{at}", "1"] for at in range(5)]) == [OK] * 5, "no reply")
        stop, longest = threading.Event(), []

        def scan():
            cursor, rounds = "0", 0
            with Connection(server.port) as other:
                while not stop.is_set() and rounds < 3:
                    cursor = other.call("SCAN", cursor)[0].decode()
                    rounds += cursor == "0"
                other.call("FLUSHALL")

        thread = threading.Thread(target=scan)
        thread.start()
        for _ in range(300):
            began = time.monotonic()
            must(it.call("PING") == PONG, "no reply")
            longest.append(time.monotonic() - began)
            time.sleep(0.001)
        stop.set()
        thread.join()
        longest.sort()
        must(longest[270] < 0.05, f"a PING beside SCAN takes {longest[270]:.3f} s")


def passwords(program):
    """Without the password no command is made but AUTH, HELLO with it, and QUIT; and requests are short."""
    needed, wrong = Error("NOAUTH Authentication required."), Error("WRONGPASS invalid username-password pair or user is disabled.")
    with Server(program, "--password", "sesame") as server, Connection(server.port) as it:
        with open(f"/proc/{server.process.pid}/cmdline", "rb") as words:
            must(b"sesame" not in words.read(), "the password stands in the list of processes")
        must(it.call("GET", "a") == needed and it.call("MULTI") == needed, "a command is made without the password")
        must(it.call("AUTH", "sesam") == wrong and it.call("AUTH", "sesamesesame") == wrong and it.call("AUTH", "") == wrong, "taken")
        must(it.call("AUTH", "other", "sesame") == wrong and it.call("GET", "a") == needed, "another user is taken")
        must(it.call("AUTH", "a", "b", "c") == Error("ERR syntax error"), "three words are taken")
        must(it.call("AUTH", "sesame") == OK and it.call("SET", "a", "1") == OK, "the password is not taken")
        with Connection(server.port) as other:
            must(str(other.call("HELLO", "2")).startswith("NOAUTH") and other.call("GET", "a") == needed, "HELLO is enough")
            must(len(other.call("HELLO", "2", "AUTH", "default", "sesame")) == 14 and other.call("GET", "a") == b"1", "HELLO is not enough")
        for data, error in ((b"*11\r\n", "multibulk"), (b"*1\r\n$16385\r\n", "bulk")):
            with Connection(server.port) as other:
                other.send(data)
                must(other.reply() == Error(f"ERR Protocol error: unauthenticated {error} length") and other.is_closed(), "taken")
        with Connection(server.port) as other:
            must(other.call("QUIT") == OK and other.is_closed(), "QUIT needs a password")
    with Server(program) as server, Connection(server.port) as it:
        must(str(it.call("AUTH", "x")).startswith("ERR AUTH <password> called without any password"), "AUTH is taken")
        must(it.call("AUTH", "default", "x") == OK, "the default user has no password")


def open_addresses(program):
    """Another address than this machine's is refused without a password, unless that is meant, and there is a warning."""
    ran = subprocess.run([program, "--address", "0.0.0.0", "--port", "0"], capture_output=True, text=True, timeout=60, check=False)
    must(ran.returncode == 2 and "without --password" in ran.stderr and "--open" in ran.stderr and not ran.stdout, f"{ran}")
    with socket.socket() as it:
        it.bind(("127.0.0.1", 0))
        taken = it.getsockname()[1]
        it.listen()
        # Neither of these listens: the port is taken.
        words = [program, "--address", "127.0.0.1", "--port", str(taken)]
        ran = subprocess.run(words, capture_output=True, text=True, timeout=60, check=False)
        must(ran.returncode == 1 and "without --password" not in ran.stderr, f"{ran}")

