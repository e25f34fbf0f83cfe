"""Requests with right and wrong arguments of all kinds, for this server and a redis-server. docs/CACHE.md tells what of Redis this server
lacks and where it differs; such requests are not here."""
import itertools

from .replies import LEAST, MOST
from .server import lua_words

TEXTS = ("", "x", "0", "1", "-1", "01", "-0", "+1", " 1", "1 ", "1.5", "1e3", "0x1", MOST, MOST + 1, LEAST, LEAST - 1, "9" * 30, b"1\0", b"\r\n\xff")
# No deadline that is set comes while a reply is looked at.
NUMBERS = ("0", "-1", "x", "", "1.5", "100000", MOST, LEAST, MOST // 1000, MOST // 1000 + 1, LEAST // 1000, LEAST // 1000 - 1, MOST + 1)
# Times of day, in seconds and in milliseconds.
MOMENTS = ("1", "1999999999", "1999999999000")
CONTAINERS = ("CLIENT", "CONFIG", "OBJECT", "MEMORY", "CLUSTER")
# What is stored before each request: a number, a text, both with deadlines; and what is looked at after it.
STORED = (["DEL", "none", ""], ["MSET", "n", "10", "t", "text"], ["SET", "nd", "10", "EX", "1000"], ["SET", "td", "text", "PX", "1000000"])
LOOKS = (["MGET", "n", "t", "nd", "td", "none", ""], *(["TTL", it] for it in ("n", "t", "nd", "td", "none")), ["DBSIZE"])
KEYS = ("n", "t", "nd", "td", "none", "")


def times(most, *pools):
    """Returns all choices of the first words, of none up to all of them, and one word too many."""
    for count in range(len(pools) + 1):
        yield from (list(it) for it in itertools.product(*pools[:count]))
    yield ["a"] * (most + 1)


def each_command():
    """Every command, with right and wrong arguments, and too few and too many of them."""
    for name in ("GET", "STRLEN", "TTL", "PTTL", "EXPIRETIME", "PEXPIRETIME", "PERSIST", "INCR", "DECR", "GETDEL", "TYPE"):
        yield from ([name, *it] for it in times(1, KEYS))
    yield from (["GETEX", *it] for it in times(6, KEYS))
    for name in ("GETSET", "SETNX", "APPEND", "SET"):
        yield from ([name, *it] for it in times(2 if name != "SET" else 3, KEYS, TEXTS))
    for name in ("INCRBY", "DECRBY"):
        yield from ([name, *it] for it in times(2, KEYS, TEXTS))
    yield from (["INCRBYFLOAT", *it] for it in times(2, KEYS, ("0.5", "x", "")))
    for name in ("EXPIRE", "PEXPIRE", "EXPIREAT", "PEXPIREAT"):
        yield from ([name, *it] for it in itertools.chain([()], itertools.product(KEYS), itertools.product(KEYS, (*NUMBERS, *MOMENTS))))
    for name in ("SETEX", "PSETEX"):
        yield from ([name, *it] for it in times(3, KEYS, NUMBERS, ("", "x", "7")))
    for name in ("DEL", "UNLINK", "EXISTS", "TOUCH", "MGET", "MSET", "MSETNX", "RENAME", "RENAMENX", "COPY"):
        for count in range(5):
            yield from ([name, *it] for it in itertools.product(("n", "none", "td"), repeat=count))
    for name in ("PING", "ECHO", "DBSIZE", "RANDOMKEY", *CONTAINERS):
        yield from ([name, *it] for it in times(2, ("", "x", "a\r\nb")))
    yield from (["SELECT", *it] for it in times(1, (*NUMBERS, 2**31, -(2**31), -(2**31) - 1, 1, 15, 16, 0)))
    yield from (["MOVE", *it] for it in times(2, KEYS, (*NUMBERS, 2**31, 1, 15, 16)))
    yield from parts_of_commands()
    yield from places()
    rows = ([], ["a"], ["a\r\nb\tc", ""], ["y" * 127, "z"], ["y" * 128, "z"], ["y"] * 50, ["y" * 40] * 5, [b"a\0b"])
    for name in ("", "NONE", "get ", b"a\0b", "a\r\nb", "x" * 200, "\xe9"):
        yield from ([name, *it] for it in rows)
    cursors = ("", "0", "-1", "+0", "00", "x", "0x", " 0", "0 ", 2**64, 2**64 - 1)
    for it in times(3, cursors, ("MATCH", "count", "what"), ("0", "1", "-1", "x", "", MOST)):
        if it[:1] in ([], ["x"], [" 0"]) or len(it) > 1 and it[0] in ("0", "00", "+0", "") or it == ["0"]:
            yield ["SCAN", *it]
    yield from (["SCAN", "0", "COUNT", "1000", "TYPE", *it] for it in ([], ["string"], ["STRING"], ["hash"], [""], ["string", "MATCH", "n*"]))
    yield from (["KEYS", *it] for it in ([], ["*"], ["n*"], ["?"], [""], ["x"], ["*", "*"]))
    yield from of_scripts()
    yield from (["COMMAND", "INFO", it] for it in ("slowlog", "latency", "time", "role"))
    yield from (["CONFIG", "SET", *it] for it in (["maxmemory", "x"], ["nothing", "1"], ["maxmemory"], [], ["timeout", "-1"], ["timeout", "0", "timeout", "0"], ["timeout", "x", "maxmemory", "0"]))
    yield from ([name, *it] for name in ("ROLE", "TIME") for it in (["x"], ["x", "y"]))
    yield ["ROLE"]
    yield from (["CLIENT", "KILL", *it] for it in ([], ["1.2.3.4:5"], ["ID", "x"], ["ID", "0"], ["ID", "999999999"], ["TYPE", "x"], ["USER", "x"], ["ID", "1", "x"], ["x", "y"]))
    yield from (["SLOWLOG", *it] for it in (["GET", "x"], ["GET", "-2"], ["GET", "1", "2"], ["LEN", "x"], ["RESET", "x"], ["x"], []))
    yield from (["LATENCY", *it] for it in (["LATEST"], ["LATEST", "x"], ["HISTORY"], ["HISTORY", "x"], ["RESET"], ["RESET", "x"], ["x"], []))
    yield from (["CLUSTER", "INFO", *it] for it in ([], ["x"]))
    for name in ("FLUSHALL", "FLUSHDB"):
        yield from ([name, *it] for it in ([], ["sync"], ["ASYNC"], ["x"], ["SYNC", "SYNC"], [""]))


# What scripts return, call and may not do. No error in them is of a function of C, whose place Redis's own Lua does not tell.
SCRIPTS = (
    "return 1", "return -1.9", "return 2^53", "return {1/0, -1/0}", "return 'x\\0y'", "return {1, 'a', {2, {3}}, false, true, nil, 4}",
    "return {ok = 'a b'}", "return {err = 'A b'}", "return {ok = 1}", "return {err = {}}", "return function() end", "return nil", "return",
    "return KEYS", "return ARGV", "return {KEYS[1], ARGV[1], #KEYS, #ARGV}", "return redis.call('GET', KEYS[1])", "return redis.pcall('INCR', KEYS[1])",
    "return redis.call('INCR', KEYS[1])", "return redis.call('SET', KEYS[1], ARGV[1])", "return redis.call('MGET', 'n', 't', 'none')", "return redis.call()",
    "return redis.call({})", "return redis.call('SET', 'n', true)", "return redis.call('SET', 'n', 3.25)", "return redis.call('NONE')", "return redis.pcall('NONE')",
    "return redis.call('GET', 'a', 'b')", "return redis.call('WATCH', 'a')", "return redis.call('AUTH', 'a')", "return redis.call('CLIENT', 'ID')", "a = 1", "return a",
    "return (", "error('x')", "error({err = 'X y'})", "error()", "error({err = 'X y', line = 7})", "local function f() error('deep') end\nf()", "redis.x = 1", "x.y = 1",
    "return redis.sha1hex()", "return redis.sha1hex(1)", "return redis.error_reply()", "return redis.error_reply('a\\r\\nb')", "return redis.status_reply(1)",
    "redis.log(9, 'x')", "redis.log(1)", "return redis.REDIS_VERSION", "return {redis.LOG_WARNING, redis.REPL_ALL, redis.REDIS_VERSION_NUM}",
    "local ok, e = pcall(redis.call, 'NONE') return {ok, e}", "local ok, e = pcall(error, 'x') return {ok, e}", "local ok, e = pcall(error, {}) return {ok, type(e)}",
    "return {xpcall(function() error('x') end, function(m) return 'seen ' .. m end)}", "return {pcall(function(...) return ... end, 1, 2)}",
    "return loadstring('return 1 + 1')()", "return tostring(loadstring('('))", "return ('a,b'):find(',')", "return string.gsub('hello', 'l', 'L')", "return #('x'):rep(100)",
    "return select('#', 1, 2)", "return unpack({1, 2})", "return setmetatable({}, {__index = function(_, k) return k end}).x", "return tostring(0.1)", "return _VERSION",
    "return redis.call('PEXPIRE', 'n', 100000)", "return redis.call('SET', 'n', '1', 'GET')", "return redis.call('FLUSHALL')", "return redis.call('DBSIZE')",
    "return redis.call('TYPE', 'n')", "return redis.call('TYPE', 'n').ok", "return redis.call('SCAN', 0)[1]", "return redis.replicate_commands()", "return redis.set_repl(1)",
)


def of_scripts():
    """Scripts on the same keys, with right and wrong numbers of keys; and what is loaded. None, where the server is built without Lua."""
    if not lua_words():
        return
    for name in ("EVAL", "EVAL_RO"):
        yield from ([name, script, "1", "n", "x"] for script in SCRIPTS)
        yield from ([name, *it] for it in ([], ["return 1"], ["return 1", "x"], ["return 1", "-1"], ["return 1", "1"], ["return 1", "2", "a"], ["", "0"]))
    yield from ([name, it, "0"] for name in ("EVALSHA", "EVALSHA_RO") for it in ("e0e1f9fabfc9d4800c877a703b823ac0578ff8db", "x", "f" * 40, ""))
    yield from (["SCRIPT", *it] for it in ([], ["LOAD", "return 1"], ["EXISTS", "e0e1f9fabfc9d4800c877a703b823ac0578ff8db", "x"], ["LOAD", "("], ["LOAD"], ["KILL"]))
    yield from (["SCRIPT", *it] for it in (["FLUSH", "x"], ["FLUSH", "SYNC", "x"], ["FLUSH"], ["FLUSH", "async"], ["x"], ["EXISTS"], ["KILL", "x"]))
    yield from (["COMMAND", "INFO", it] for it in ("eval", "evalsha", "eval_ro", "evalsha_ro", "script"))


def expiring():
    """Transactions in which a key has less time than they take: it is there for all of it, and gone behind it."""
    for ms in (1, 2, 5):
        there = [["GET", "soon"], ["EXISTS", "soon", "n"], ["STRLEN", "soon"], ["MGET", "n", "soon"]] * 400
        yield [["MULTI"], ["SET", "soon", "x", "PX", ms], *there, ["APPEND", "soon", "y"], ["GETDEL", "soon"], ["SET", "soon", "z", "PX", ms], *there, ["EXEC"], ["SET", "soon", "w"], ["DEL", "soon"]]
        yield [["MULTI"], ["SET", "soon", "x"], ["PEXPIRE", "soon", ms], *there, ["SETNX", "soon", "y"], ["INCR", "soon"], ["PERSIST", "soon"], ["EXEC"], ["GET", "soon"], ["DEL", "soon"]]


def of_channels():
    """Lists of requests of one reply each, on channels, and RESET."""
    for name in ("SUBSCRIBE", "PSUBSCRIBE"):
        for more in (["GET", "n"], ["PING"], ["PING", "x"], ["PING", "x", "y"], ["SUBSCRIBE", "b"], ["PSUBSCRIBE", "a*"], ["UNSUBSCRIBE", "a"], ["UNSUBSCRIBE"], ["PUNSUBSCRIBE"],
                     ["PUNSUBSCRIBE", "a"], ["PUBLISH", "a", "x"], ["MULTI"], ["SUBSCRIBE"], ["NONE"], ["SET", "n"], ["RESET"], ["RESET", "x"], ["INFO", "x"], ["ECHO", "x"]):
            yield [[name, "a"], more, ["GET", "t"], ["RESET"], ["GET", "n"]]
    yield [["PUBLISH", "a", "x"], ["PUBLISH", "a"], ["PUBLISH", "a", "x", "y"], ["UNSUBSCRIBE"], ["PUNSUBSCRIBE"], ["UNSUBSCRIBE", "none"]]
    yield [["PUBSUB", *it] for it in ([], ["CHANNELS"], ["CHANNELS", "x"], ["CHANNELS", "x", "y"], ["NUMSUB"], ["NUMSUB", "a", "b"], ["NUMPAT"], ["NUMPAT", "x"], ["x"])]
    yield [["COMMAND", "INFO", it] for it in ("publish", "subscribe", "psubscribe", "unsubscribe", "punsubscribe", "pubsub", "reset", "move")]


def transactions():
    """Lists of requests, each with a transaction, right and wrong ones; and AUTH where there is no password."""
    yield from of_channels()
    yield from expiring()
    words = ("MULTI", "EXEC", "DISCARD", "UNWATCH", "WATCH")
    for names in itertools.product(words, repeat=3):
        for more in ([], ["n"], ["n", "none"]):
            yield [["SET", "n", "1"], *([name, *more] for name in names), ["INCR", "n"], ["SET", "t", "x"], ["EXEC"], ["DISCARD"], ["GET", "n"]]
    for queued in (["GET"], ["NONE", "x"], ["INCR", "t"], ["MULTI", "x"], ["SET", "n", "1", "x"], ["FLUSHALL"], ["EXEC", "x"], ["PING"], ["MGET", "n", "t"]):
        for number in range(3):
            requests = [["SET", "n", "1"], ["INCR", "n"], ["APPEND", "t", "y"]]
            requests.insert(number, queued)
            yield [["WATCH", "n"], ["MULTI"], *requests, ["DBSIZE"], ["EXEC"], ["MGET", "n", "t"]]
            yield [["WATCH", "n"], *requests, ["MULTI"], ["INCR", "n"], ["EXEC"], ["MGET", "n", "t"]]
            yield [["MULTI"], *requests, ["DISCARD"], ["EXEC"], ["MGET", "n", "t"]]
    yield [["AUTH", *it] for it in ([], ["x"], [""], ["default", "x"], ["DEFAULT", ""], ["x", "y"], ["x", "y", "z"])]


def parts_of_commands():
    """Subcommands, and what COMMAND tells of all commands that both have."""
    yield from (["CLIENT", "SETNAME", *it] for it in times(2, ("", "x", "a b", "a\n", "\xe9", "~!")))
    yield from (["CLIENT", name, *it] for name in ("GETNAME", "ID", "NO-EVICT") for it in times(2, ("on", "OFF", "", "x")))
    lists = (["x"], ["x", "y"], ["ID"], ["ID", "0"], ["ID", "-1"], ["ID", "x"], ["ID", "1", ""], ["ID", "999999999"], ["TYPE"], ["TYPE", "normal", "x"])
    yield from (["CLIENT", "LIST", *it] for it in lists)
    yield from (["CLIENT", "INFO", *it] for it in (["x"], ["x", "y"]))
    hellos = ([], ["2"], ["3"], ["3", "SETNAME", "me"], ["1"], ["4"], ["-1"], ["x"], [""], ["2", "x"], ["2", "SETNAME"], ["2", "setname", "me"], ["2", "SETNAME", "a b"])
    for words in (*hellos, ["2", "SETNAME", "", "SETNAME", "you"], ["2", "SETNAME", "me", "x"]):
        yield ["HELLO", *words]
        yield ["CLIENT", "GETNAME"]
    for name in ("ENCODING", "IDLETIME"):
        yield from (["OBJECT", name, *it] for it in times(2, ("n", "t", "none")))
    samples = ([], ["SAMPLES"], ["samples", "0"], ["SAMPLES", "5"], ["SAMPLES", "-1"], ["SAMPLES", "x"], ["x"], ["x", "1"])
    yield from (["MEMORY", "USAGE", *it] for it in ([], *([key, *more] for key in ("n", "none") for more in (*samples, ["SAMPLES", "1", "SAMPLES", "2"]))))
    for words in ([], ["save"], ["appendonly"], ["databases"], ["maxmemor?"], ["maxmemory-pol*"], ["x"], [""], ["maxc[l]ients", "save"]):
        yield ["CONFIG", "GET", *words]
    names = ("get", "SET", "what", "", "MSET", "msetnx", "rename", "copy", *"del unlink exists touch type dbsize flushall flushdb select".split())
    names += tuple("renamenx incr decr incrby decrby incrbyfloat setex psetex setnx getset getex getdel mget strlen getrange substr append".split())
    names += tuple("setrange expire pexpire expireat pexpireat persist ttl pttl expiretime pexpiretime scan keys randomkey client hello".split())
    names += tuple("config object memory command ping echo info quit cluster auth multi exec discard watch unwatch".split())
    yield from (["CLUSTER", *it] for it in (["KEYSLOT"], ["KEYSLOT", "a"], ["KEYSLOT", "a", "b"], ["SLOTS"], ["MYID", "x"], ["NODES"], ["SHARDS"]))
    yield from (["COMMAND", "INFO", it] for it in names)
    yield from (["COMMAND", *it] for it in (["INFO", *names], ["COUNT", "x"], ["DOCS", "what"], ["x"], ["x", "y"]))


def places():
    """Parts of values: GETRANGE, SUBSTR, SETRANGE."""
    ends = (0, 1, 2, 3, 4, 10, -1, -2, -4, -5, -100, MOST, LEAST, MOST + 1, "x", "", "01")
    for name in ("GETRANGE", "SUBSTR"):
        yield from ([name, *it] for it in times(3, ("n", "td", "none"), ends, ends))
    yield from (["SETRANGE", *it] for it in times(3, KEYS, (*ends, 1000), ("", "x", "what")))


def options_of_set(most):
    """SET with all rows of so many options."""
    words = ("NX", "xx", "EX", "px", "100000", "-1", "0", "x", "what", str(MOST), str(MOST // 1000 - 10**9))
    for count in range(1, most + 1):
        for chosen in itertools.product((*words, "GET", "keepttl", "EXAT", "PXAT", "PERSIST", "1999999999000"), repeat=count):
            for key in ("nd", "none"):
                yield ["SET", key, "new", *chosen]


def options_of_others(most):
    """GETEX, EXPIRE and COPY with all rows of so many options."""
    times_of_day = ("EX", "px", "EXAT", "PXAT", "PERSIST", "KEEPTTL", "what", "100000", "-1", "x", "1999999999000", str(MOST))
    for count in range(1, most + 1):
        for chosen in itertools.product(times_of_day, repeat=count):
            yield from (["GETEX", key, *chosen] for key in ("nd", "t", "none"))
        for chosen in itertools.product(("NX", "xx", "GT", "LT", "what", ""), repeat=count):
            for name, numbers in (("EXPIRE", ("100", "100000", "-1", "x")), ("PEXPIREAT", ("1999999999000", "1"))):
                yield from ([name, key, number, *chosen] for key in ("nd", "t", "none") for number in numbers)
        for chosen in itertools.product(("REPLACE", "db", "0", "1", "x", str(2**31), "what"), repeat=count):
            yield from (["COPY", *keys, *chosen] for keys in (("nd", "t"), ("n", "none"), ("n", "n"), ("none", "n")))


def numbers_at_limits():
    """INCR and its kin on values at the limits, and on what is no number."""
    for value in (*TEXTS, MOST - 1, LEAST + 1):
        for words in (["INCR", "n"], ["DECR", "n"], *([name, "n", by] for name in ("INCRBY", "DECRBY") for by in ("0", "2", "-2", MOST, LEAST, -MOST))):
            yield [["SET", "n", value, "EX", "1000"], words, ["GET", "n"], ["TTL", "n"]]


def fractions():
    """INCRBYFLOAT of and by what is a number, or none."""
    texts = ("0.1", "-.5", "5.", ".", "3.0e3", "1e17", "-1e17", "1e5000", "-1e5000", "1e-5000", "1e4900", "inf", "-inf", "nan", "infinity", "0x1p-3", "1 1")
    texts += ("0.00000000000000000001", "-0.00000000000000000001", "123456789012345678901234567890", "0.30000000000000004", "9" * 5119, "9" * 5120)
    for value in (*TEXTS, *texts, None):
        for by in (*TEXTS, *texts):
            before = ["DEL", "f"] if value is None else ["SET", "f", value, "EX", "1000"]
            yield [before, ["INCRBYFLOAT", "f", by], ["GET", "f"], ["TTL", "f"]]


def of_one_key():
    """What is told of a key that was stored in one way or another."""
    for value in (*TEXTS, "x" * 44, "x" * 45, "1" * 20, MOST, LEAST):
        yield [["SET", "k", value], ["OBJECT", "ENCODING", "k"], ["MEMORY", "USAGE", "k"], ["TYPE", "k"], ["GETDEL", "k"]]
    for at in ("1999999999000", "1999999999499", "1999999999500", "4102444800001"):
        for words in (["PEXPIREAT", "k", at], ["GETEX", "k", "PXAT", at], ["SET", "k", "v", "PXAT", at]):
            yield [["SET", "k", "v"], words, ["PEXPIRETIME", "k"], ["EXPIRETIME", "k"], ["RENAME", "k", "l"], ["PEXPIRETIME", "l"]]
            yield [["COPY", "l", "k"], ["PEXPIRETIME", "k"], ["SET", "k", "w", "KEEPTTL", "GET"], ["EXPIRETIME", "k"], ["GETSET", "k", "x"], ["EXPIRETIME", "k"]]
            yield [["DEL", "k", "l"]]


def drawn_requests(drawn, count):
    """So many requests at random, with right and wrong arguments."""
    names = ("GET SET SETNX GETSET DEL EXISTS INCR DECR INCRBY DECRBY APPEND STRLEN MGET MSET EXPIRE TTL PERSIST DBSIZE PING ECHO "
             "SETEX UNLINK GETDEL GETEX TYPE TOUCH MSETNX RENAME RENAMENX COPY GETRANGE SETRANGE INCRBYFLOAT KEYS").split()
    pool = (*KEYS, *TEXTS, "NX", "XX", "EX", "PX", "GET", "KEEPTTL", "PERSIST", "REPLACE", "100000", "200000")
    for _ in range(count):
        name = drawn.choice(names)
        words = [drawn.choice(KEYS if at == 0 else pool) for at in range(drawn.choice((0, 1, 1, 2, 2, 2, 3, 4, 5)))]
        is_soon = any(it in (("EX", "1"), ("PX", "1")) for it in zip(words, words[1:])) or name in ("EXPIRE", "SETEX") and words[1:2] == ["1"]
        is_far = name == "SETRANGE" and words[1:2] in ([100000], ["100000"], ["200000"], [MOST])
        if not is_soon and not is_far:
            yield [name, *words]


def drawn_of_transactions(drawn, count):
    """So many requests at random for several connections, of which many begin, end or void a transaction. None tells a time or an order."""
    others = (words for words in drawn_requests(drawn, 2 * count) if words[0] not in ("KEYS", "TTL"))
    ends = (["MULTI"], ["EXEC"], ["EXEC"], ["EXEC"], ["DISCARD"], ["UNWATCH"], ["FLUSHALL"], ["EXEC", "x"], ["NONE"], ["GET"])
    for _ in range(count):
        part = drawn.random()
        if part < 0.15:
            yield ["MULTI"]
        elif part < 0.25:
            yield ["WATCH", *drawn.choices(KEYS, k=drawn.randrange(4))]
        elif part < 0.27:
            yield ["PEXPIREAT", drawn.choice(KEYS), 1]
        else:
            yield drawn.choice(ends) if part < 0.45 else next(others)


# == What is sent as bytes ==

RAW = (
    b"PING\r\n",
    b"PING\n",
    b" \t PING  \r\n",
    b"\r\n\n \r\nPING\r\n",
    b"SET a 'x y'\r\nGET a\r\nSTRLEN a\r\n",
    b'SET "a b" "\\n\\r\\t\\a\\b\\x41\\xff\\xzz\\q\\"\\\\"\r\nGET "a b"\r\n',
    b"ECHO 'it\\'s \\n'\r\n",
    b'ECHO a"b c"\r\nECHO a\'b c\'\r\n',
    b"ECHO a\\nb\r\nECHO \"\"\r\nECHO ''\r\n",
    b'PING\r\nSET a "x\r\nPING\r\n',
    b"SET a 'x\r\n",
    b"SET a 'x'y\r\n",
    b'SET a "x"y\r\n',
    b'ECHO "a\\"\r\n',
    b"GET\ta\r\n",
    b"NONE a 'b c' \"d\"\r\n",
    b"*0\r\nPING\r\n",
    b"*-1\r\nPING\r\n",
    b"*-5\r\n*1\r\n$4\r\nPING\r\n",
    b"*1\r\n$0\r\n\r\n",
    b"*1\r\n$4\r\nPING\r\n*x\r\n",
    b"*1\r\n$x\r\n",
    b"*1\r\n$-1\r\n",
    b"*1\r\n$\r\n",
    b"*1\r\n$04\r\nPING\r\n",
    b"*1\r\n$+4\r\nPING\r\n",
    b"*1\r\n$536870913\r\n",
    b"*1\r\n@4\r\n",
    b"*1\r\nPING\r\n",
    b"*1\r\n*1\r\n",
    b"*\r\n",
    b"*01\r\nPING\r\n",
    b"*+1\r\nPING\r\n",
    b"*1 \r\nPING\r\n",
    b"*2147483648\r\n",
    b"*99999999999999999999\r\n",
    b"QUIT\r\nPING\r\n",
    b"PING\r\nQUIT x y\r\nPING\r\n",
    b"*2\r\n$4\r\nECHO\r\n$3\r\na",
    b"*3\r\n$3\r\nSET\r\n$1\r\nk\r\n",
)
