"""Scripts in Lua: their replies, their limits, and that they are one step."""
import hashlib
import subprocess
import threading

from .client import OK, PONG, Connection, Error, Simple
from .server import Lacking, Server, lua_words
from .together import must
from .transactions import QUEUED

SHA = "e0e1f9fabfc9d4800c877a703b823ac0578ff8db"  # of "return 1"
CALLED = "ERR Unknown Redis command called from script"


def at(error, script_sha, line=1):
    return Error(f"{error} script: {script_sha}, on @user_script:{line}.")


# What one connection sends, and the replies, by hand; redis-server has the same.
SCRIPTS = {
    "scripts": (
        (["EVAL", "return 1", "0"], 1),
        (["EVAL", "return {KEYS[1], KEYS[2], ARGV[1]}", "2", "a", "b", "c"], [b"a", b"b", b"c"]),
        (["EVAL", "return {1, 2.9, -2.9, 'x', nil, 3}", "0"], [1, 2, -2, b"x"]),
        (["EVAL", "return {true, false, {ok = 'fine'}, {err = 'MY error'}}", "0"], [1, None, Simple("fine"), Error("MY error")]),
        (["EVAL", "return redis.status_reply('fine')", "0"], Simple("fine")),
        (["EVAL", "return redis.error_reply('MY error')", "0"], Error("ERR MY error")),
        (["EVAL", "return redis.error_reply('-MY error')", "0"], Error("MY error")),
        (["EVAL", "return redis.sha1hex('')", "0"], b"da39a3ee5e6b4b0d3255bfef95601890afd80709"),
        (["EVAL", "return redis.sha1hex('return 1')", "0"], SHA.encode()),
        (["EVAL", "return nil", "0"], None),
        (["EVAL", "return redis.call('SET', KEYS[1], ARGV[1])", "1", "k", "5"], OK),
        (["EVAL", "return redis.call('INCR', KEYS[1])", "1", "k"], 6),
        (["EVAL", "return type(redis.call('GET', 'none'))", "0"], b"boolean"),
        (["EVAL", "return redis.call('SET', 'n', 0.5)", "0"], OK),
        (["EVAL", "return redis.call('GET', 'n')", "0"], b"0.5"),
        (["EVAL", "return redis.call('MGET', 'k', 'none')", "0"], [b"6", None]),
        (["EVAL", "return redis.call('PING').ok", "0"], b"PONG"),
        (["EVAL", "return redis.pcall('INCR', 'n')", "0"], Error("ERR value is not an integer or out of range")),
        (["EVAL", "local ok, e = pcall(redis.call, 'nothing') return {ok, e}", "0"], [None, CALLED.encode()]),
        (["EVAL", "return redis.call('nothing')", "0"], at(CALLED, "b0e8f1b8cb01aa8dde7fcbe88d9e5b2ba31f4f34")),
        (["EVAL", "return redis.call('GET')", "0"], None),
        (["EVAL", "return x", "0"], None),
        (["EVAL", "x = 1", "0"], None),
        (["EVAL", "string.rep = nil", "0"], None),
        (["EVAL", "error('mine')", "0"], None),
        (["EVAL", "\n\nerror({err = 'MY error'})", "0"], None),
        (["EVAL", "return redis.call('MULTI')", "0"], None),
        (["EVAL", "return (", "0"], Error("ERR Error compiling script (new function): user_script:1: unexpected symbol near '<eof>'")),
        (["EVAL", "return 1", "x"], Error("ERR value is not an integer or out of range")),
        (["EVAL", "return 1", "-1"], Error("ERR Number of keys can't be negative")),
        (["EVAL", "return 1", "2", "a"], Error("ERR Number of keys can't be greater than number of args")),
        (["EVAL_RO", "return redis.call('GET', 'k')", "0"], b"6"),
        (["EVALSHA", SHA, "0"], 1),
        (["EVALSHA", SHA.upper(), "0"], 1),
        (["SCRIPT", "FLUSH"], OK),
        (["EVALSHA", SHA, "0"], Error("NOSCRIPT No matching script. Please use EVAL.")),
        (["EVALSHA", "short", "0"], Error("NOSCRIPT No matching script. Please use EVAL.")),
        (["SCRIPT", "LOAD", "return 1"], SHA.encode()),
        (["SCRIPT", "EXISTS", SHA, SHA[::-1], "x"], [1, 0, 0]),
        (["EVALSHA", SHA, "0"], 1),
        (["SCRIPT", "KILL"], Error("NOTBUSY No scripts in execution right now.")),
        (["SCRIPT", "FLUSH", "NOW"], Error("ERR SCRIPT FLUSH only support SYNC|ASYNC option")),
        (["MULTI"], OK),
        (["EVAL", "return redis.call('INCR', KEYS[1])", "1", "k"], QUEUED),
        (["GET", "k"], QUEUED),
        (["EXEC"], [7, b"7"]),
    ),
}
# Errors that name the script: what is before the name, and the line.
ERRORS = {
    "return redis.call('nothing')": (CALLED, 1),
    "return redis.call('GET')": ("ERR Wrong number of args calling Redis command from script", 1),
    "return x": ("ERR user_script:1: Script attempted to access nonexistent global variable 'x'", 1),
    "x = 1": ("ERR user_script:1: Attempt to modify a readonly table", 1),
    "string.rep = nil": ("ERR user_script:1: Attempt to modify a readonly table", 1),
    "error('mine')": ("ERR user_script:1: mine", 1),
    "\n\nerror({err = 'MY error'})": ("MY error", 3),
    "return redis.call('MULTI')": ("ERR This Redis command is not allowed from script", 1),
}
# Scripts that would run for long, or take much memory.
ENDLESS = (
    "while true do end",
    "while true do pcall(function() while true do end end) end",
    "xpcall(function() while true do end end, function() while true do end end)",
    "while true do coroutine.resume(coroutine.create(function() while true do end end)) end",
    "local t = {} while true do t[#t + 1] = ('x'):rep(1000) .. #t end",
    "return ('x'):rep(1e9)",
    "local function f() f() return 1 end f()",
    "return ('a'):rep(1e6):find(('a?'):rep(1e6))",
)
# What no script may reach, or leave to the next one.
SEALED = ("os", "io", "require", "package", "debug", "dofile", "loadfile", "load", "print", "getfenv", "newproxy")


def need_lua():
    if not lua_words():
        raise Lacking("Lua 5.1 is not installed")


def wanted_of(words, wanted):
    """The reply to a script whose error names it."""
    if words[0] == "EVAL" and words[1] in ERRORS:
        error, line = ERRORS[words[1]]
        return at(error, hashlib.sha1(words[1].encode()).hexdigest(), line)
    return wanted


def replies(server):
    need_lua()
    with Connection(server.port) as it:
        for words, wanted in SCRIPTS["scripts"]:
            got, wanted = it.call(*words), wanted_of(words, wanted)
            must(got == wanted and type(got) is type(wanted), f"{words}: {got!r}, not {wanted!r}")


def limits(program):
    """A script that loops is ended with an error, and the server serves on; nothing of it is left for the next one."""
    need_lua()
    with Server(program, "--threads", 2, "--memory", 64 << 20, "--instructions", 300000) as server, Connection(server.port) as it:
        for script in ENDLESS:
            got = it.call("EVAL", script, "0")
            must(isinstance(got, Error) and it.call("PING") == PONG, f"{script}: {got!r}")
        for name in SEALED:
            must("nonexistent global" in str(it.call("EVAL", f"return {name}", "0")), f"a script has {name}")
        must(it.call("EVAL", "table.insert(string, 'left') rawset({}, 1, 2) return #string", "0") == 1, "no reply")
        must(it.call("EVAL", "return #string", "0") == 0, "a script leaves something to the next one")
        for script in ("rawset(string, 'x', 1)", "setmetatable(string, {})", "setmetatable(_G, {})", "KEYS = 1 x = 1", "('').rep = 1"):
            must(isinstance(it.call("EVAL", script, "0"), Error), f"{script} is taken")
        must(it.call("EVAL", "return tostring(loadstring('\\27Lua'))", "0") == b"nil", "bytecode is loaded")
        must(it.call("EVAL", "return loadstring('return 5')()", "0") == 5, "text is not loaded")


def one_step(server):
    """Scripts of several clients on the same keys come one after the other; others see all of a script or nothing."""
    need_lua()
    move = "local n = redis.call('INCR', KEYS[1]) redis.call('DECR', KEYS[2]) return n"
    seen, faults = set(), []

    def run(number):
        with Connection(server.port) as one:
            for _ in range(100 if server.is_plain else 30):
                if number == 0:
                    one_, other = one.calls([["MULTI"], ["GET", "up"], ["GET", "down"], ["EXEC"]])[-1]
                    if int(one_ or 0) != -int(other or 0):
                        faults.append((one_, other))
                else:
                    seen.add(one.call("EVAL", move, "2", "up", "down"))

    threads = [threading.Thread(target=run, args=(number,)) for number in range(5)]
    for thread in threads:
        thread.start()
    for thread in threads:
        thread.join()
    must(not faults, f"a part of a script is seen: {faults[:3]}")
    must(len(seen) == (400 if server.is_plain else 120), "two scripts have one count")


def without_lua(program):
    """A server that is built without Lua says so, and has no EVAL."""
    with Server(program) as server, Connection(server.port) as it:
        must(str(it.call("EVAL", "return 1", "0")).startswith("ERR unknown command 'EVAL'"), "EVAL is taken")
        must(it.call("COMMAND", "INFO", "EVAL") == [None], "EVAL is described")
    ran = subprocess.run([program, "--version"], capture_output=True, text=True, timeout=60, check=False)
    must("without scripts" in ran.stdout, f"{ran}")
