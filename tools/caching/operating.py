"""What an operator sets and looks at while the server runs: CONFIG SET, CLIENT KILL, SLOWLOG, LATENCY, commandstats, TIME, ROLE."""
import time

from .client import OK, PONG, Connection, Error
from .hostile import closings
from .limits import fill, info
from .server import Server
from .together import must


def settings(program):
    """CONFIG SET changes all that it is given, or nothing, and it holds at once."""
    with Server(program, "--memory", 64 << 20, "--evict", "none", "--threads", 2) as server, Connection(server.port) as it:
        set_ = lambda *words: it.call("CONFIG", "SET", *words)
        must(set_("maxmemory", "8mb", "timeout", "100") == OK, "no reply")
        must(it.call("CONFIG", "GET", "maxmemory", "timeout") == [b"maxmemory", b"%d" % (8 << 20), b"timeout", b"100"], "another setting")
        must(3000 < fill(it, "k", "v" * 1000) < 8000 and info(it, "maxmemory") == 8 << 20, "the memory has another limit")
        must(set_("maxmemory-policy", "allkeys-lru") == OK and it.call("SET", "more", "v" * 1000) == OK, "no key is evicted")
        must(info(it, "evicted_keys") > 0, "no key is evicted")
        must(set_("maxmemory-policy", "noeviction", "maxmemory", "x") == Error(
            "ERR CONFIG SET failed (possibly related to argument 'maxmemory') - argument must be a memory value"), "another error")
        must(it.call("CONFIG", "GET", "maxmemory-policy")[1] == b"allkeys-lru", "a part is set")
        must(set_("nothing", "1") == Error("ERR Unknown option or number of arguments for CONFIG SET - 'nothing'"), "another error")
        must("must be one of the following" in str(set_("maxmemory-policy", "allkeys-lfu")), "a policy is taken that is not here")
        must("between" in str(set_("timeout", "-1")) and "between" in str(set_("maxclients", "0")), "a wrong number is taken")
        must(str(set_("maxmemory", "1mb", "timeout")).startswith("ERR wrong number"), "half a setting is taken")
        must(set_("requirepass", "sesame") == OK, "no reply")
        with Connection(server.port) as other:
            must(str(other.call("PING")).startswith("NOAUTH") and other.call("AUTH", "sesame") == OK and other.call("PING") == PONG, "no password")
        must(set_("requirepass", "", "maxclients", "2") == OK, "no reply")
        with Connection(server.port) as other:
            must(other.call("PING") == PONG, "a password is asked for")
            with Connection(server.port) as third:
                must(third.reply() == Error("ERR max number of clients reached"), "one more is taken")


def killed(program):
    """CLIENT KILL closes whom it names, on any thread, and nobody else."""
    with Server(program, "--threads", 4) as server, Connection(server.port) as it:
        kill = lambda *words: it.call("CLIENT", "KILL", *words)
        all_of = [Connection(server.port) for _ in range(8)]
        numbers = [at.call("CLIENT", "ID") for at in all_of]
        must(kill("ID", numbers[0]) == 1 and all_of[0].is_closed() and kill("ID", numbers[0]) in (0, 1), "the wrong one is closed")
        host, port = all_of[1].socket.getsockname()
        must(kill(f"{host}:{port}") == OK and all_of[1].is_closed(), "the wrong one is closed")
        must(kill("1.2.3.4:5") == Error("ERR No such client") and kill("ID", 10**9) == 0, "one is closed that is not there")
        all_of[2].call("SUBSCRIBE", "a")
        must(kill("TYPE", "pubsub") == 1 and all_of[2].is_closed(), "the wrong one is closed")
        must(all(at.call("PING") == PONG for at in all_of[3:]), "others are closed")
        must(kill("TYPE", "normal", "SKIPME", "yes", "ID", numbers[3]) == 1 and all_of[3].is_closed(), "the wrong one is closed")
        for words, error in ((("ID", "x"), "client-id should be greater than 0"), (("TYPE", "x"), "Unknown client type 'x'"),
                             (("USER", "x"), "No such user 'x'"), (("WHAT", "x"), "syntax error"), (("ID", "1", "x"), "syntax error")):
            must(kill(*words) == Error(f"ERR {error}"), f"{words}: {kill(*words)}")
        must(kill("USER", "default") == 4 and all(at.is_closed() for at in all_of[4:]) and it.call("PING") == PONG, "others are closed")
        own = it.call("CLIENT", "ID")
        until = time.monotonic() + 60
        while closings(it)["kill"] != 8:
            must(time.monotonic() < until, f"{closings(it)} were closed")
        must(kill("ID", own, "SKIPME", "no") == 1 and it.is_closed(), "the own connection is not closed")


def watched(program):
    """SLOWLOG and LATENCY keep what is slow; INFO counts what each command took."""
    with Server(program, "--threads", 2) as server, Connection(server.port) as it:
        must(it.call("SLOWLOG", "GET") == [] and it.call("SLOWLOG", "LEN") == 0 and it.call("LATENCY", "LATEST") == [], "something is slow")
        must(it.call("CONFIG", "SET", "slowlog-log-slower-than", "0", "slowlog-max-len", "3") == OK, "no reply")
        it.call("CLIENT", "SETNAME", "me")
        it.calls([["SET", "a", "x" * 200], ["MGET", *range(40)], ["GET", "a"]])
        it.call("CONFIG", "SET", "slowlog-log-slower-than", "-1")
        entries = it.call("SLOWLOG", "GET")
        must(len(entries) == 3 and it.call("SLOWLOG", "LEN") == 3 and len(it.call("SLOWLOG", "GET", "1")) == 1, f"{entries}")
        must([entry[3][0] for entry in entries] == [b"GET", b"MGET", b"SET"] and entries[0][3] == [b"GET", b"a"], f"{entries}")
        must(entries[1][3][31] == b"... (10 more arguments)" and entries[2][3][2] == b"x" * 128 + b"... (72 more bytes)", f"{entries}")
        must(entries[1][5] == b"me" and entries[1][4].startswith(b"127.0.0.1:"), f"{entries}")
        must(entries[0][0] > entries[1][0] and abs(entries[0][1] - time.time()) < 100 and entries[0][2] >= 0, f"{entries}")
        must(it.call("SLOWLOG", "RESET") == OK and it.call("SLOWLOG", "GET") == [], "SLOWLOG is not forgotten")
        it.call("CONFIG", "SET", "latency-monitor-threshold", "1")
        it.calls([["SET", f"key{at}", "1"] for at in range(50000)])
        until = time.monotonic() + 60
        while not it.call("LATENCY", "LATEST"):
            it.call("KEYS", "*")
            must(time.monotonic() < until, "nothing takes a millisecond")
        (name, at, last, most), = it.call("LATENCY", "LATEST")
        must(name == b"command" and abs(at - time.time()) < 100 and 1 <= last <= most, "another event")
        must(it.call("LATENCY", "HISTORY", "command") and it.call("LATENCY", "HISTORY", "x") == [] and it.call("LATENCY", "RESET") == 1, "another history")
        it.call("CONFIG", "RESETSTAT")
        it.calls([["GET", "a"]] * 5 + [["INCR", "a"], ["GET"], ["MULTI"], ["GET", "a"], ["EXEC"]])
        lines = dict(line.split(":") for line in it.call("INFO", "commandstats").decode().split()[2:])
        of = dict(pair.split("=") for pair in lines["cmdstat_get"].split(","))
        must((of["calls"], of["rejected_calls"], of["failed_calls"]) == ("6", "1", "0") and 0 <= int(of["usec"]) < 10**8, f"{of}")
        must("calls=1," in lines["cmdstat_incr"] and "failed_calls=1" in lines["cmdstat_incr"], lines["cmdstat_incr"])
        must("calls=1," in lines["cmdstat_exec"] and "cmdstat_set" not in lines, f"{lines}")
        must(b"cmdstat" not in it.call("INFO") and b"cmdstat" in it.call("INFO", "all"), "INFO shows other sections")
        seconds, rest = map(int, it.call("TIME"))
        must(abs(seconds - time.time()) < 100 and 0 <= rest < 10**6 and it.call("ROLE") == [b"master", 0, []], "another time or role")
        must(it.call("CLUSTER", "INFO") == Error("ERR This instance has cluster support disabled"), "a cluster")
