"""Random commands, and a model of the server in Python that says what each replies.

The commands of a run are drawn by a seed. Each connection has keys of its own, so that its replies do not depend on the others'; a few
keys are shared, and of these sums are right at the end. Deadlines are either far away or in the past, so that no reply depends on
when it is made."""
import random
import threading
import time

from .client import OK, Connection, Error
from .replies import LEAST, MOST, NUMBER
from .server import Failed

KEYS, VALUES = 24, (b"", b"1", b"-7", b"text", b"9223372036854775807", b"0" * 100, b"\r\n", bytes(range(256)), b"v" * 5000)
FAR = 100000


class Model:
    """What a map of keys to values and to deadlines replies: a deadline is True, or there is none."""

    def __init__(self):
        self.values, self.timed = {}, set()

    def put(self, key, value, is_timed=False):
        self.values[key] = value
        (self.timed.add if is_timed else self.timed.discard)(key)

    def get(self, key):
        return self.values.get(key)

    def set(self, key, value, *words):
        is_there = key in self.values
        if "NX" in words and is_there or "XX" in words and not is_there:
            return None
        self.put(key, value, "EX" in words or "PX" in words)
        return OK

    def setnx(self, key, value):
        return 1 if self.set(key, value, "NX") else 0

    def getset(self, key, value):
        before = self.values.get(key)
        self.put(key, value)
        return before

    def delete(self, *keys):
        return sum(self.drop(it) for it in keys)

    def drop(self, key):
        self.timed.discard(key)
        return self.values.pop(key, None) is not None

    def exists(self, *keys):
        return sum(it in self.values for it in keys)

    def incrby(self, key, by):
        value = self.values.get(key, b"0")
        if value.lstrip(b"-") != b"0" and (not value.lstrip(b"-").isdigit() or value.lstrip(b"-").startswith(b"0")):
            return NUMBER
        if value == b"-0" or value.startswith(b"--") or not LEAST <= int(value) <= MOST:
            return NUMBER
        if not LEAST <= int(value) + int(by) <= MOST:
            return Error("ERR increment or decrement would overflow")
        self.values[key] = str(int(value) + int(by)).encode()
        return int(value) + int(by)

    def append(self, key, more):
        self.values[key] = self.values.get(key, b"") + more
        return len(self.values[key])

    def strlen(self, key):
        return len(self.values.get(key, b""))

    def mget(self, *keys):
        return [self.values.get(it) for it in keys]

    def mset(self, *words):
        for key, value in zip(words[::2], words[1::2]):
            self.put(key, value)
        return OK

    def expire(self, key, seconds):
        if key not in self.values:
            return 0
        if int(seconds) <= 0:
            return self.delete(key)
        self.timed.add(key)
        return 1

    def persist(self, key):
        if key not in self.timed:
            return 0
        self.timed.discard(key)
        return 1

    def ttl(self, key):
        return (FAR if key in self.timed else -1) if key in self.values else -2


def draw(drawn, name):
    """Draws a command on keys with this name: its words, and the model's function for it."""
    key, value = (b"%b:%d" % (name, drawn.randrange(KEYS)) for _ in range(2)), drawn.choice(VALUES)
    key, other = key
    forms = (
        (["GET", key], Model.get),
        (["GET", other], Model.get),
        (["SET", key, value], Model.set),
        (["SET", key, value, "NX"], Model.set),
        (["SET", key, value, "XX"], Model.set),
        (["SET", key, value, "EX", FAR], Model.set),
        (["SET", key, value, "NX", "PX", FAR * 1000], Model.set),
        (["SETNX", key, value], Model.setnx),
        (["GETSET", key, value], Model.getset),
        (["DEL", key, other], Model.delete),
        (["EXISTS", key, other], Model.exists),
        (["INCRBY", key, drawn.randrange(-9, 10)], Model.incrby),
        (["INCR", key], lambda it, at: Model.incrby(it, at, 1)),
        (["DECR", key], lambda it, at: Model.incrby(it, at, -1)),
        (["APPEND", key, value[:300]], Model.append),
        (["STRLEN", key], Model.strlen),
        (["MGET", key, other, key], Model.mget),
        (["MSET", key, value, other, b"2"], Model.mset),
        (["EXPIRE", key, FAR], Model.expire),
        (["EXPIRE", key, drawn.choice((0, -1))], Model.expire),
        (["PERSIST", key], Model.persist),
        (["TTL", key], Model.ttl),
    )
    return drawn.choice(forms)


def is_as(got, wanted, words):
    """Whether a reply is the model's: of a deadline some of its seconds may have passed."""
    return got == wanted and type(got) is type(wanted) or words[0] == "TTL" and wanted == FAR and FAR - 1000 <= got <= FAR


def play(port, number, seed, until, faults, model):
    """Sends random commands, some alone and some many at once, until a time."""
    drawn, name = random.Random(f"{seed}:{number}"), b"k%d" % number
    try:
        with Connection(port) as it:
            while time.monotonic() < until and not faults:
                chosen = [draw(drawn, name) for _ in range(drawn.choice((1, 1, 2, 16, 200)))]
                wanted = [form(model, *words[1:]) for words, form in chosen]
                for got, want, (words, _) in zip(it.calls([words for words, _ in chosen]), wanted, chosen):
                    if not is_as(got, want, words):
                        faults.append(f"{words}: got {got!r}, not {want!r}")
                        return
            for at in range(KEYS):
                key = b"%b:%d" % (name, at)
                if it.call("GET", key) != model.values.get(key):
                    faults.append(f"{key} is another at the end")
    except Exception as why:
        faults.append(f"connection {number}: {why!r}")


def random_commands(server, seconds, seed, connections=6):
    """Plays on several connections, each with a model; then looks whether the server counts the keys that there are."""
    faults, until, models = [], time.monotonic() + seconds, [Model() for _ in range(connections)]
    threads = [threading.Thread(target=play, args=(server.port, it, seed, until, faults, model)) for it, model in enumerate(models)]
    for it in threads:
        it.start()
    for it in threads:
        it.join()
    wanted = b"keys=%d,expires=%d," % (sum(len(it.values) for it in models), sum(len(it.timed) for it in models))
    with Connection(server.port) as it:
        if wanted not in it.call("INFO"):
            faults.append(f"not {wanted}: {it.call('INFO', 'keyspace')}")
    if faults:
        raise Failed("; ".join(faults[:3]))
