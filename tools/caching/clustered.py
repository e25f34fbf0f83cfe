"""Servers beside each other: behind twemproxy, by the configuration in examples/c/cache/cluster; and with a part of the slots each, for
clients of Redis Cluster."""
import contextlib
import random
import re
import socket
import subprocess
import tempfile
import time

from .client import OK, PONG, Closed, Connection, Error
from .clients import HERE, python_with
from .server import SOURCES, Failed, Lacking, Server, lua_words, need, redis_server
from .together import must

KEYS = 3000


def free_port():
    with socket.socket() as it:
        it.bind(("127.0.0.1", 0))
        return it.getsockname()[1]


def ran(*words):
    done = subprocess.run([str(it) for it in words], capture_output=True, text=True, timeout=300, check=False)
    if done.returncode:
        raise Failed(f"{words[0]}: {(done.stdout + done.stderr)[-1000:]}")
    return done.stdout


@contextlib.contextmanager
def proxy(servers):
    """A twemproxy before these servers, with the ports of its configuration exchanged. Gives its port."""
    with open(f"{SOURCES}/cluster/twemproxy.yml", encoding="utf-8") as it:
        text, port = it.read(), free_port()
    for was, now in zip((7200, 7201, 7202, 7203), (port, *(it.port for it in servers))):
        text = re.sub(rf"127\.0\.0\.1:{was}\b", f"127.0.0.1:{now}", text)
    with tempfile.TemporaryDirectory() as folder:
        with open(f"{folder}/conf.yml", "w", encoding="utf-8") as it:
            it.write(text)
        words = ["nutcracker", "-c", f"{folder}/conf.yml", "-a", "127.0.0.1", "-s", str(free_port()), "-o", f"{folder}/log"]
        process = subprocess.Popen(words, cwd=folder)
        try:
            for _ in range(100):
                with contextlib.suppress(OSError, Closed), Connection(port) as it:
                    if it.call("PING") == PONG:
                        break
                time.sleep(0.1)
            yield port
        finally:
            process.terminate()
            process.wait()


def count_of(server):
    with Connection(server.port) as it:
        return it.call("DBSIZE")


def behind_a_proxy(program):
    """Three servers share the keys. With one of them stopped the calls on its keys fail, and on no others."""
    need("nutcracker", "redis-benchmark")
    python = python_with("redis")
    with contextlib.ExitStack() as stack:
        servers = [stack.enter_context(Server(program, "--threads", 2)) for _ in range(3)]
        port = stack.enter_context(proxy(servers))
        ran(python, "-B", f"{HERE}/by_proxy.py", "fill", port)
        shares = [count_of(it) for it in servers]
        must(sum(shares) == KEYS and min(shares) > KEYS // 4, f"the servers have {shares} of {KEYS} keys")
        said = ran("redis-benchmark", "-p", port, "-t", "set,get,incr,mset", "-n", 20000, "-c", 50, "-P", 16, "-r", 1000, "-q")
        must(said.count("requests per second") == 4, f"redis-benchmark: {said[-500:]}")
        with Connection(servers[0].port) as it:
            lost = sum(it.call("EXISTS", f"k{at}") for at in range(KEYS))
        must(lost == shares[0], "a key is not where it was stored")
        servers[0].stop()
        failed, there, gone = (int(it) for it in ran(python, "-B", f"{HERE}/by_proxy.py", "read", port).split())
        must((there, failed, gone) == (KEYS - lost, lost, 0), f"{there} keys are there, {failed} fail, {gone} are gone, and {lost} were on the server that stopped")


# == Slots ==

RANGES = ((0, 5460), (5461, 10922), (10923, 16383))
# Keys and their slots: by hand from CRC16 of "123456789", which is 0x31C3, and from Redis's page on hash tags.
SLOTS = {"123456789": 0x31C3 % 16384, "foo": 12182, "": 0, "{foo}x": 12182, "x{foo}{bar}": 12182, "{}foo": None, "foo{": None, "a}b{foo}": 12182}


@contextlib.contextmanager
def cluster(program, *more):
    """Three servers with a third of the slots each. Gives them."""
    ports = [free_port() for _ in RANGES]
    with tempfile.TemporaryDirectory() as folder, contextlib.ExitStack() as stack:
        with open(f"{folder}/nodes", "w", encoding="utf-8") as it:
            it.write("# three nodes\n\n" + "".join(f"127.0.0.1 {port} {low}-{high}\n" for port, (low, high) in zip(ports, RANGES)))
        words = [("--port", port, "--slots", f"{low}-{high}", "--nodes", f"{folder}/nodes", *more) for port, (low, high) in zip(ports, RANGES)]
        yield [stack.enter_context(Server(program, "--threads", 2, *it)) for it in words]


def slots_are_served(program):
    """Each server serves the keys of its slots, and names the server of others; all tell the same of the cluster."""
    with cluster(program) as servers, contextlib.ExitStack() as stack:
        all_of = [stack.enter_context(Connection(it.port)) for it in servers]
        counts = [0, 0, 0]
        for key, slot in SLOTS.items():
            found = [it.call("CLUSTER", "KEYSLOT", key) for it in all_of]
            must(len(set(found)) == 1 and slot in (None, found[0]), f"{key!r} has the slots {found}, not {slot}")
            owner = next(at for at, (low, high) in enumerate(RANGES) if low <= found[0] <= high)
            counts[owner] += 1
            moved = Error(f"MOVED {found[0]} 127.0.0.1:{servers[owner].port}")
            for at, it in enumerate(all_of):
                must(it.call("SET", key, "1") == (OK if at == owner else moved), f"{key!r} is served elsewhere")
                must(it.call("GET", key) == (b"1" if at == owner else moved), f"{key!r} is read elsewhere")
        must(all_of[2].call("MSET", "foo", "1", "{foo}x", "2") == OK and all_of[2].call("MGET", "{foo}x", "foo") == [b"2", b"1"], "one slot")
        for words in (["MGET", "foo", "bar"], ["MSET", "foo", "1", "bar", "2"], ["RENAME", "foo", "bar"], ["DEL", "{foo}x", "x"]):
            must(all_of[2].call(*words) == Error("CROSSSLOT Keys in request don't hash to the same slot"), f"{words} is taken")
        must(all_of[0].call("PING") == PONG and [it.call("DBSIZE") for it in all_of] == counts, "a command without keys")
        must(b"cluster_enabled:1" in all_of[0].call("INFO"), "INFO says that there is no cluster")
        told(servers, all_of)


def scripts_of_slots(program):
    """A script runs where its keys are, calls no others, and there is one database; CLUSTER INFO tells of all slots."""
    if not lua_words():
        raise Lacking("Lua 5.1 is not installed")
    with cluster(program) as servers, contextlib.ExitStack() as stack:
        one, _, it = (stack.enter_context(Connection(server.port)) for server in servers)
        script = "return redis.call('INCR', KEYS[1])"
        must(it.call("EVAL", script, "1", "foo") == 1, "the key's server does not run it")
        must(one.call("EVAL", script, "1", "foo") == Error(f"MOVED 12182 127.0.0.1:{servers[2].port}"), "another server runs it")
        must(it.call("EVAL", script, "2", "foo", "bar") == Error("CROSSSLOT Keys in request don't hash to the same slot"), "keys of two slots")
        must("non local key" in str(it.call("EVAL", "return redis.call('GET', 'bar')", "0")), "a key of another server is read")
        must(one.call("EVAL", "return 5", "0") == 5, "a script without keys is refused")
        must(it.call("SELECT", "1") == Error("ERR SELECT is not allowed in cluster mode") and it.call("SELECT", "0") == OK, "another database")
        must(b"cluster_state:ok\r\ncluster_slots_assigned:16384\r\n" in it.call("CLUSTER", "INFO"), "another state")


def told(servers, all_of):
    """What CLUSTER tells of the nodes."""
    names = [it.call("CLUSTER", "MYID").decode() for it in all_of]
    must(len(set(names)) == 3 and all(re.fullmatch("[0-9a-f]{40}", it) for it in names), f"the nodes' names are {names}")
    of = list(zip(RANGES, servers, names))
    for number, it in enumerate(all_of):
        slots = [[low, high, [b"127.0.0.1", server.port, name.encode(), []]] for (low, high), server, name in of]
        must(it.call("CLUSTER", "SLOTS") == slots, "CLUSTER SLOTS")
        lines = [line.split() for line in it.call("CLUSTER", "NODES").decode().splitlines()]
        must([line[:2] + line[8:] for line in lines] == [[name, f"127.0.0.1:{at.port}@0", f"{low}-{high}"] for (low, high), at, name in of], "CLUSTER NODES")
        must([line[2] for line in lines] == ["myself,master" if at == number else "master" for at in range(3)], "CLUSTER NODES names another")
        for shard, ((low, high), server, name) in zip(it.call("CLUSTER", "SHARDS"), of):
            node = dict(zip(shard[3][0][::2], shard[3][0][1::2]))
            must(shard[:3] == [b"slots", [low, high], b"nodes"] and len(shard[3]) == 1, "CLUSTER SHARDS")
            must((node[b"id"].decode(), node[b"port"], node[b"role"]) == (name, server.port, b"master"), "CLUSTER SHARDS names another")


def wrong_nodes(program):
    """A file of nodes that is wrong, or has no such slots, is refused at the start."""
    good = "127.0.0.1 7201 0-8191\n127.0.0.1 7202 8192-16383\n"
    for text, slots in ((good, "0-8190"), (good, "x"), (good.replace("0-8191", "1-8191"), "1-8191"), (good.replace("0-8191", "0-8192"), "0-8192"),
                        (good.replace("16383", "16384"), "0-8191"), (good + "x\n", "0-8191"), (good.replace("7201", "0"), "0-8191"),
                        (good.replace("127.0.0.1 7201", "here 7201"), "0-8191"), ("", "0-16383"), (None, "0-8191"), (good, None)):
        with tempfile.TemporaryDirectory() as folder:
            if text is not None:
                with open(f"{folder}/nodes", "w", encoding="utf-8") as it:
                    it.write(text)
            words = [program, "--port", "0", *(["--slots", slots] if slots else []), "--nodes", f"{folder}/nodes"]
            done = subprocess.run(words, capture_output=True, text=True, timeout=60, check=False)
            must(done.returncode == 2 and done.stderr.startswith("cache: "), f"{text!r} with {slots} is taken: {done}")


def cluster_clients(program):
    """redis-cli -c and Python's RedisCluster; and each key's slot is the one that redis-server gives."""
    need("redis-cli")
    python = python_with("redis.cluster")
    with cluster(program) as servers:
        ran(python, "-B", f"{HERE}/by_cluster.py", servers[1].port)
        for at in range(20):
            for words, wanted in ((["SET", f"key{at}", str(at)], "OK"), (["GET", f"key{at}"], str(at)), (["DEL", f"key{at}"], "1")):
                said = ran("redis-cli", "-c", "-p", servers[at % 3].port, *words).strip()
                must(said == wanted, f"redis-cli -c {words}: {said!r}")
        must(sum(count_of(it) for it in servers) == 0, "a key is left")


def same_slots(program):
    """KEYSLOT of keys at random, with braces, beside a redis-server in a cluster."""
    drawn = random.Random("slots")
    keys = ["".join(drawn.choices("ab{}", k=drawn.randrange(12))) for _ in range(2000)] + [str(at) for at in range(1000)]
    with redis_server("--cluster-enabled", "yes", "--cluster-port", free_port()) as port, cluster(program) as servers:
        with Connection(port) as theirs, Connection(servers[0].port) as ours:
            found = [it.calls([["CLUSTER", "KEYSLOT", key] for key in keys]) for it in (ours, theirs)]
            must(found[0] == found[1], f"slots differ: {[it for it in zip(keys, *found) if it[1] != it[2]][:3]}")
