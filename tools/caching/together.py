"""What holds of many clients at the same time, of deadlines, and of a walk over the keys."""
import random
import threading
import time

from .client import OK, Connection, Error, packed
from .server import Failed

CLIENTS, CALLS = 12, 3000


def must(is_so, text):
    if not is_so:
        raise Failed(text)


def each_client(server, work, clients=CLIENTS):
    """Runs work(connection, number) in a thread for each client, and returns what they returned, in order."""
    answers, faults = [None] * clients, []

    def run(number):
        try:
            with Connection(server.port) as it:
                answers[number] = work(it, number)
        except Exception as why:
            faults.append(f"client {number}: {why!r}")

    threads = [threading.Thread(target=run, args=(it,)) for it in range(clients)]
    for it in threads:
        it.start()
    for it in threads:
        it.join()
    must(not faults, "; ".join(faults[:3]))
    return answers


def many_at_once(number):
    """A client's requests, all on the same few keys, so that the server's threads meet there."""
    for at in range(CALLS):
        yield ["SETNX", "once", number]
        yield ["INCR", "sum"]
        yield ["GETSET", "hand", f"{number}:{at}"]
        yield ["APPEND", f"long{at % 10}", chr(97 + number)]
        yield ["DEL", "once"]
        yield ["INCR", "timed"]
        yield ["EXPIRE", "timed", 1000] if at % 2 else ["PERSIST", "timed"]


def each_key_is_one_cell(server):
    """Commands of many clients on the same keys: none is lost, and each sees a state that the others left."""

    def work(it, number):
        replies = it.calls(list(many_at_once(number)))
        return {name: replies[at::7] for at, name in enumerate(("first", "sum", "hand", "lens", "gone", "timed", "expire"))}

    with Connection(server.port) as it:
        answers, total = each_client(server, work), CLIENTS * CALLS
        all_of = {name: [at for answer in answers for at in answer[name]] for name in answers[0]}
        for name in ("sum", "timed"):
            must(sorted(all_of[name]) == list(range(1, total + 1)), f"of {name} a number came twice, or not at all")
            must(all(answer[name] == sorted(answer[name]) for answer in answers), f"a client's own numbers of {name} do not grow")
        first, gone = sum(all_of["first"]), sum(all_of["gone"])
        must(1 <= first == gone and it.call("EXISTS", "once") == 0, f"{first} times a client was the first, {gone} times one removed it")
        hands = all_of["hand"] + [it.call("GET", "hand")]
        wanted = {f"{number}:{at}".encode() for number in range(CLIENTS) for at in range(CALLS)}
        must(hands.count(None) == 1 and len(hands) == total + 1, "not one client alone found no value")
        must({at for at in hands if at is not None} == wanted, "a value was handed on twice, or lost")
        longs = it.call("MGET", *(f"long{at}" for at in range(10)))
        wanted = CALLS // 10
        must(all(long.count(97 + number) == wanted for long in longs for number in range(CLIENTS)), "an appended byte is lost")
        must(sum(all_of["lens"]) == 10 * sum(range(1, CLIENTS * wanted + 1)), "two clients appended at the same place")


def parts_are_one_step(server):
    """INCRBYFLOAT, SETRANGE, SET with GET and KEEPTTL, GETDEL and GETEX of many clients on the same keys: none is lost."""
    rounds = CALLS // 10

    def work(it, number):
        chosen = []
        for at in range(rounds):
            chosen += [["INCRBYFLOAT", "half", "0.5"], ["SETRANGE", "row", number * rounds + at, chr(97 + number)]]
            chosen += [["SET", "chain", f"{number}:{at}", "KEEPTTL", "GET"], ["SET", "token", f"{number}:{at}", "NX"], ["GETDEL", "token"]]
            chosen += [["GETEX", "chain", "EX", 1000] if at % 2 else ["GETEX", "chain", "PERSIST"]]
        replies = it.calls(chosen)
        return {name: replies[at::6] for at, name in enumerate(("half", "row", "chain", "given", "taken"))}

    with Connection(server.port) as it:
        it.call("DEL", "half", "row", "chain", "token")
        answers, total = each_client(server, work), CLIENTS * rounds
        all_of = {name: [at for answer in answers for at in answer[name]] for name in answers[0]}
        must(sorted(float(at) for at in all_of["half"]) == [at / 2 for at in range(1, total + 1)], "a half came twice, or not at all")
        must(it.call("GET", "row") == b"".join(b"%c" % (97 + at) * rounds for at in range(CLIENTS)), "a byte of SETRANGE is lost")
        values = {f"{number}:{at}".encode() for number in range(CLIENTS) for at in range(rounds)}
        chain = all_of["chain"] + [it.call("GET", "chain")]
        must(chain.count(None) == 1 and {at for at in chain if at is not None} == values, "a value of SET with GET is lost")
        taken = [at for at in all_of["taken"] if at is not None]
        must(len(taken) == len(set(taken)) == all_of["given"].count(OK), "GETDEL returned a value twice, or lost one")


def two_keys_move_together(server):
    """RENAMENX, MSETNX and EXEC run alone: one request of another client sees all that they change, or nothing."""
    names, row, rounds, ended = [f"seat{at}" for at in range(30)], [f"row{at}" for at in range(100)], 6, threading.Semaphore(0)
    with Connection(server.port) as it:
        it.call("DEL", *names, *row)
        must(it.call("SET", names[0], "token", "EX", 1000) == OK, "the token is not set")

    def watch(it):
        seen = it.calls([["EXISTS", *names], ["MGET", *row]] * 20)
        must(set(seen[::2]) == {1}, f"of one token {sorted(set(seen[::2]))} are seen")
        must(all(len(set(at)) == 1 for at in seen[1::2]), "a part of an MSETNX is seen")

    def work(it, number):
        drawn, moved = random.Random(f"seats {number}"), 0
        while number % 2 and not ended.acquire(blocking=False):
            watch(it)
        for at in range(0 if number % 2 else rounds):
            chosen = []
            for _ in range(100):
                values = [word for name in row for word in (name, f"{number}:{at}")]
                chosen += [["RENAMENX", *drawn.sample(names, 2)] for _ in range(60)] + [["MSETNX", *values], ["MULTI"], ["DEL", *row], ["EXEC"]]
            moved += sum(reply == 1 for place, reply in enumerate(it.calls(chosen)) if place % 64 < 60)
        ended.release()
        return moved

    moved = sum(each_client(server, work, 6))
    with Connection(server.port) as it:
        must(moved > 0 and it.call("EXISTS", *names) == 1, "the token was not moved, or is lost")
        at = next(name for name in names if it.call("EXISTS", name))
        must(it.call("GET", at) == b"token" and 0 < it.call("TTL", at) <= 1000, "the token has another value or no deadline")


def expired_keys_are_gone(server):
    """A key whose deadline has passed is there for no command, whether it is removed already or not."""
    with Connection(server.port) as it:
        names = ["get", "exists", "strlen", "ttl", "setnx", "nx", "xx", "incr", "getset", "append", "del", "expire", "persist", "mget"]
        for name in names:
            must(it.call("SET", name, "5", "PX", 40) == OK, "a key was not set")
        must(it.call("SET", "stays", "5", "PX", 100000) == OK and it.call("PTTL", "stays") > 90000, "a deadline is not kept")
        time.sleep(0.06)
        for words, wanted in (
            (["GET", "get"], None),
            (["EXISTS", "exists"], 0),
            (["STRLEN", "strlen"], 0),
            (["TTL", "ttl"], -2),
            (["SETNX", "setnx", "6"], 1),
            (["SET", "nx", "6", "NX"], OK),
            (["SET", "xx", "6", "XX"], None),
            (["INCR", "incr"], 1),
            (["GETSET", "getset", "6"], None),
            (["APPEND", "append", "6"], 1),
            (["DEL", "del"], 0),
            (["EXPIRE", "expire", 100], 0),
            (["PERSIST", "persist"], 0),
            (["MGET", "mget", "stays"], [None, b"5"]),
        ):
            got = it.call(*words)
            must(got == wanted, f"{words}: got {got!r}, not {wanted!r}")
        for name in ("setnx", "nx", "incr", "getset", "append"):
            must(it.call("TTL", name) == -1, f"{name} has the old deadline")


def expired_keys_are_removed(server):
    """The memory of expired keys comes back without a command on them, time and again."""
    with Connection(server.port) as it:
        it.calls([["SET", f"stays{at}", "y", "EX", 1000] for at in range(100)])
        for _ in range(2):
            it.calls([["SET", f"gone{at}", "x" * 100, "PX", 30] for at in range(2000)])
            before = time.monotonic()
            while it.call("DBSIZE") > 100:
                must(time.monotonic() < before + 300, "expired keys stay in memory")
                time.sleep(0.05)
        must(it.call("MGET", *(f"stays{at}" for at in range(100))) == [b"y"] * 100, "a key is gone before its deadline")
        used = int(it.call("INFO").split(b"used_memory_dataset:")[1].split()[0])
        must(used == sum(len(f"stays{at}") + 9 for at in range(100)), f"{used} bytes are counted")
        must(b"db0:keys=100,expires=100," in it.call("INFO", "keyspace"), "keys with a deadline are miscounted")


def scanned(it, *words):
    """Goes over all keys by SCAN, and returns them."""
    cursor, keys, steps = b"0", [], 0
    while True:
        got = it.call("SCAN", cursor, *words)
        must(not isinstance(got, Error), f"SCAN: {got}")
        cursor, found = got
        keys += found
        steps += 1
        must(steps < 1000000, "SCAN does not end")
        if cursor == b"0":
            return keys


def scan_shows_all(server):
    """SCAN shows each key that is there all the while, whatever others do, and a cursor that nobody gave out harms nobody."""
    with Connection(server.port) as it:
        it.calls([["SET", f"key:{at}", at] for at in range(3000)])
        wanted = {b"key:%d" % at for at in range(3000)}
        for words in ((), ("COUNT", 1), ("COUNT", 100000)):
            keys = scanned(it, *words)
            must(set(keys) == wanted and len(keys) == 3000, "a key is missing, or comes twice where nothing changes")
        must(set(scanned(it, "MATCH", "key:1?")) == {b"key:%d" % at for at in range(10, 20)}, "a pattern takes other keys")
        stop = threading.Event()

        def churn(other, number):
            at = 0
            while not stop.is_set():
                other.calls([["SET", f"other:{number}:{at + i}", "x"] for i in range(50)])
                other.calls([["DEL", f"other:{number}:{at + i}"] for i in range(40)])
                at += 50

        threads = [threading.Thread(target=each_client, args=(server, churn, 2))]
        threads[0].start()
        try:
            for _ in range(3):
                must(wanted <= set(scanned(it, "COUNT", 50)), "a key that was there all the while is missing")
        finally:
            stop.set()
            threads[0].join()
        drawn = random.Random(64)
        for _ in range(300):
            got = it.call("SCAN", drawn.choice((drawn.getrandbits(64), drawn.getrandbits(34), 2**64 - 1, 2**32)))
            must(isinstance(got, (list, Error)), f"SCAN: {got!r}")
        must(it.call("SCAN", 2**64) == Error("ERR invalid cursor"), "a cursor of 65 bits is taken")
        must(it.call("FLUSHALL") == OK and it.call("DBSIZE") == 0 and scanned(it) == [], "FLUSHALL leaves keys")


PATTERNS = (
    ("*", "", True),
    ("*", "abc", True),
    ("", "", True),
    ("", "a", False),
    ("a*c", "abc", True),
    ("a*c", "ac", True),
    ("a*c", "acb", False),
    ("a?c", "abc", True),
    ("a?c", "ac", False),
    ("*b*b*", "abab", True),
    ("*b*b*", "aba", False),
    ("[abc]x", "bx", True),
    ("[a-c]x", "bx", True),
    ("[c-a]x", "bx", True),
    ("[^a-c]x", "bx", False),
    ("[^a-c]x", "dx", True),
    ("[a", "a", True),
    ("[", "a", False),
    ("[]a", "a", False),
    ("a[\\]]b", "a]b", True),
    ("\\*", "*", True),
    ("\\*", "a", False),
    ("a\\", "a\\", True),
    ("**a**", "bab", True),
    ("a*b*c*d", "a1b2c3d", True),
    ("a*b*c*d", "a1b2c3e", False),
)


def patterns_match(server):
    """The patterns of MATCH; and one that would take for ever if every star were tried again."""
    with Connection(server.port) as it:
        for pattern, text, is_like in PATTERNS:
            must(it.call("SET", text, "1") == OK, "a key was not set")
            keys = scanned(it, "MATCH", pattern)
            must(keys == [text.encode()] * is_like, f"{pattern!r} on {text!r}: {keys}")
            must(it.call("DEL", text) == 1, "a key was not removed")
        it.call("SET", "a" * 60000, "1")
        before = time.monotonic()
        must(scanned(it, "MATCH", "a*" * 200 + "b") == [], "a pattern takes another key")
        must(time.monotonic() < before + 30, "a pattern takes too long")


def pieces_and_pipelines(server):
    """The same requests, cut anywhere, get the same replies in the same order."""
    drawn = random.Random(7)
    requests = [packed("SET", f"piece{at}", "v" * drawn.randrange(3000)) + packed("STRLEN", f"piece{at}") for at in range(60)]
    data = b"".join(requests) + b"PING\r\n\r\n*0\r\nECHO  two\n" + packed("ECHO", "end")
    wanted = None
    with Connection(server.port) as it:
        for cut in (len(data), 4096, 1000, 7, 1):
            part = data if cut > 1 else data[-12000:][data[-12000:].index(b"*3") :]
            sender = threading.Thread(target=lambda: [it.send(part[at : at + cut]) for at in range(0, len(part), cut)])
            sender.start()
            got = []
            while not got or got[-1] != b"end":
                got.append(it.reply())
            sender.join()
            wanted = wanted or got
            must(got == wanted[-len(got) :], f"in pieces of {cut} bytes the replies are others")
        must(len(wanted) == 123, f"{len(wanted)} replies")
