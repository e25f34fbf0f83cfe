"""Python's module redis with servers behind a proxy: run with `fill` or `read` and the proxy's port. `fill` stores keys and counts; it ends
with status 1, and says why, where a call returns what it should not. `read` gets each of the keys, and prints how many calls failed, how
many keys had their value, and how many had none."""
import sys
import threading

import redis

KEYS, COUNTERS, CLIENTS, CALLS = 3000, 10, 20, 300


def must(is_so, text):
    if not is_so:
        sys.exit(text)


def fill(port):
    it = redis.Redis(port=port)
    pipeline = it.pipeline(transaction=False)
    for at in range(KEYS):
        pipeline.set(f"k{at}", at)
    must(pipeline.execute() == [True] * KEYS, "a key is not stored")
    must(it.mget([f"k{at}" for at in range(KEYS)]) == [b"%d" % at for at in range(KEYS)], "MGET returns other values")
    must(it.mset({f"m{at}": at for at in range(100)}) is True, "MSET is refused")
    must(it.delete(*(f"m{at}" for at in range(100))) == 100, "DEL removes others")

    def count(_):
        with redis.Redis(port=port) as client:
            for at in range(CALLS):
                client.incr(f"n{at % COUNTERS}")

    threads = [threading.Thread(target=count, args=(at,)) for at in range(CLIENTS)]
    for at in threads:
        at.start()
    for at in threads:
        at.join()
    sums = [int(at) for at in it.mget([f"n{at}" for at in range(COUNTERS)])]
    must(sums == [CLIENTS * CALLS // COUNTERS] * COUNTERS, f"the sums are {sums}")
    must(it.delete(*(f"n{at}" for at in range(COUNTERS))) == COUNTERS, "DEL removes others")


def read(port):
    it, failed, there, gone = redis.Redis(port=port), 0, 0, 0
    for at in range(KEYS):
        try:
            value = it.get(f"k{at}")
        except redis.RedisError:
            failed += 1
            continue
        must(value in (None, b"%d" % at), f"k{at} has the value {value}")
        there += value is not None
        gone += value is None
    print(failed, there, gone)


if __name__ == "__main__":
    {"fill": fill, "read": read}[sys.argv[1]](int(sys.argv[2]))
