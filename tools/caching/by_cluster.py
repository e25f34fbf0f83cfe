"""Python's RedisCluster over servers with a part of the slots each: run with the port of one. Ends with status 1, and says why, where a
call returns what it should not."""
import sys

import redis
from redis.cluster import RedisCluster

KEYS = 1000


def must(is_so, text):
    if not is_so:
        sys.exit(text)


def count(it):
    return sum(it.dbsize(target_nodes=node) for node in it.get_primaries())


def main(port):
    it = RedisCluster(host="127.0.0.1", port=port)
    must(len(it.get_primaries()) == 3, f"the nodes are {it.get_nodes()}")
    must(all(it.set(f"k{at}", at) for at in range(KEYS)), "a key is not stored")
    must([it.get(f"k{at}") for at in range(KEYS)] == [b"%d" % at for at in range(KEYS)], "GET returns other values")
    must(it.mset_nonatomic({f"m{at}": at for at in range(100)}) and it.mget_nonatomic([f"m{at}" for at in range(100)])[99] == b"99", "many keys")
    must(it.delete(*(f"m{at}" for at in range(100))) == 100, "DEL removes others")
    must(count(it) == KEYS, f"there are {count(it)} keys")
    must(sorted(it.scan_iter("k99*")) == sorted(b"k%d" % at for at in (99, *range(990, 1000))), "SCAN shows others")
    must(it.mset({"{tag}a": 1, "{tag}b": 2}) and it.mget("{tag}a", "{tag}b") == [b"1", b"2"], "keys with one tag are refused")
    must(it.rename("{tag}a", "{tag}c") and it.incr("{tag}c") == 2, "RENAME with one tag is refused")
    pipeline = it.pipeline()
    for at in range(100):
        pipeline.incr(f"k{at}")
    must(pipeline.execute() == [at + 1 for at in range(100)], "a pipeline returns other values")
    must(it.keyslot("foo") == it.cluster_keyslot("foo") == 12182, "KEYSLOT is another")
    try:
        it.mget("a", "b")
        must(False, "keys of two slots are taken")
    except (redis.RedisError, redis.exceptions.RedisClusterException):
        pass
    must(it.flushall(target_nodes=RedisCluster.PRIMARIES) and count(it) == 0, "FLUSHALL leaves keys")


if __name__ == "__main__":
    main(int(sys.argv[1]))
