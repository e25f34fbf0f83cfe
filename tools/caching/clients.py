"""What clients of others do with a server, and what the server tells of its clients."""
import os
import itertools
import re
import subprocess
import sys
import threading

from . import rows
from .client import OK, Connection
from .replies import BY_CLI
from .server import TOP, Failed, Lacking, Server, lua_words, need
from .together import each_client, must

HERE = os.path.dirname(os.path.realpath(__file__))
# What is compared in other ways: beside_redis.compare_info has INFO, and QUIT is among what is sent as bytes.
ALONE = {"INFO", "QUIT"}
PYTHONS = (sys.executable, "/usr/bin/python3")


def cli(server, *words):
    """Returns what redis-cli prints where it writes to no terminal."""
    need("redis-cli")
    said = subprocess.run(["redis-cli", "-p", str(server.port), *words], capture_output=True, text=True, timeout=60, check=False)
    return said.stdout.strip()


def redis_cli(program):
    """redis-cli's round trips, with a database, and its search for big keys."""
    with Server(program) as server:
        for line, wanted in BY_CLI:
            if (got := cli(server, *line.split())) != wanted:
                raise Failed(f"{line}: {got!r}, not {wanted!r}")
        must(cli(server, "-n", "0", "SET", "a", "1") == "OK", "-n 0 is refused")
        with Connection(server.port) as it:
            it.calls([["SET", f"key{at}", "v" * (at + 1)] for at in range(100)])
        said = cli(server, "--bigkeys")
        must("Sampled 101 keys in the keyspace!" in said, f"--bigkeys: {said[-800:]}")
        must(re.search(r"Biggest string found .*key99.* has 100 bytes", said), f"--bigkeys: {said[-800:]}")
        must("key99" in cli(server, "--memkeys"), "--memkeys finds no key")
    with Server(program, "--password", "secret") as server:
        must(cli(server, "GET", "a") == "NOAUTH Authentication required.", "no password is asked for")
        must(cli(server, "-a", "secret", "SET", "a", "1") == "OK", "-a is refused")


def python_with(module):
    """Returns this Python or, where it lacks the module, the system's."""
    for python in PYTHONS:
        if os.path.exists(python) and not subprocess.run([python, "-c", f"import {module}"], stderr=subprocess.DEVNULL, check=False).returncode:
            return python
    raise Lacking(f"there is no Python module {module}")


def by_module(module, script):
    """Returns what runs a script over a server, by a Python that has the module."""

    def run(program):
        python = python_with(module)
        with Server(program) as server:
            words = [python, "-B", f"{HERE}/{script}", str(server.port)]
            ran = subprocess.run(words, capture_output=True, text=True, timeout=60, check=False)
            if ran.returncode:
                raise Failed(ran.stderr[-1000:])

    return run


def phpredis(program):
    """PHP's client, with sessions that are locked: a script gives the lock back."""
    need("php")
    if b"redis" not in subprocess.run(["php", "-m"], capture_output=True, check=False).stdout:
        raise Lacking("there is no phpredis")
    if not lua_words():
        raise Lacking("Lua 5.1 is not installed")
    with Server(program) as server:
        ran = subprocess.run(["php", f"{HERE}/by_php.php", str(server.port)], capture_output=True, text=True, timeout=60, check=False)
        must(ran.returncode == 0, f"{ran.stderr[-600:]}")


# == COMMAND, CLIENT, RANDOMKEY, KEYS ==


def commands_are_on_the_page(server):
    """docs/CACHE.md has a row for each command that COMMAND describes, and for no other; and the replay has rows of each."""
    with Connection(server.port) as it:
        names = {at[0].decode().upper() for at in it.call("COMMAND")}
        must(it.call("COMMAND", "COUNT") == len(names), "COMMAND COUNT is another number")
    with open(f"{TOP}/docs/CACHE.md", encoding="utf-8") as it:
        rows_of_page = re.findall(r"^\|(.*?)\|", it.read().partition("## Commands")[2].partition("So each command")[0], re.M)
    if not lua_words():
        rows_of_page = [it for it in rows_of_page if "`EVAL`" not in it]
    named = {at.split()[0] for row in rows_of_page for at in re.findall("`([^`]+)`", row)} - {"NX", "XX", "KEEPTTL", "EXAT", "PXAT", "MATCH", "COUNT"}
    must(named == names, f"docs/CACHE.md lacks {sorted(names - named)}, and has {sorted(named - names)}")
    listed = itertools.chain(rows.each_command(), *rows.transactions())
    compared = {str(words[0]).upper() for words in listed} | ALONE
    must(names <= compared, f"rows.py lacks {sorted(names - compared)}")


def fields_of(line):
    return dict(it.split("=", 1) for it in line.decode().split())


def clients_are_listed(server):
    """CLIENT LIST has a line for each connection, with its address and name, and CLIENT INFO one's own."""
    with Connection(server.port) as it, Connection(server.port) as other:
        numbers = [at.call("CLIENT", "ID") for at in (it, other)]
        must(numbers[0] != numbers[1] and it.call("CLIENT", "ID") == numbers[0], "two connections have one number")
        must(other.call("CLIENT", "SETNAME", "other") == OK, "no name is taken")
        lines = [fields_of(at) for at in it.call("CLIENT", "LIST").splitlines()]
        of = {int(at["id"]): at for at in lines}
        must(set(numbers) <= set(of) and len(of) == len(lines), "a connection is not listed, or twice")
        must([of[at]["name"] for at in numbers] == ["", "other"], "not the names that were given")
        for number, at in zip(numbers, (it, other)):
            host, port = at.socket.getsockname()
            must(of[number]["addr"] == f"{host}:{port}" and of[number]["laddr"] == f"127.0.0.1:{server.port}", "not its address")
            must(0 <= int(of[number]["age"]) < 300 and 0 <= int(of[number]["idle"]) <= int(of[number]["age"]), "not its times")
        own = fields_of(other.call("CLIENT", "INFO"))
        must(own["name"] == "other" and int(own["id"]) == numbers[1], "INFO is of another connection")
        chosen = it.call("CLIENT", "LIST", "ID", numbers[1], 10**9).splitlines()
        must([int(fields_of(at)["id"]) for at in chosen] == numbers[1:], "LIST ID lists others")


def clients_come_and_go(server):
    """While connections come and go the list has those that stay, each once."""
    is_over = threading.Event()

    def come(it, _):
        for _ in range(100):
            with Connection(server.port) as one:
                one.call("CLIENT", "SETNAME", "short")

    with Connection(server.port) as it:
        own = it.call("CLIENT", "ID")
        worker = threading.Thread(target=lambda: (each_client(server, come, 8), is_over.set()))
        worker.start()
        while not is_over.is_set():
            numbers = [int(fields_of(at)["id"]) for at in it.call("CLIENT", "LIST").splitlines()]
            must(numbers.count(own) == 1 and len(set(numbers)) == len(numbers), "a connection is listed twice, or not")
        worker.join()


def random_keys(server):
    """RANDOMKEY shows keys that are there, not one alone of many, and the one that is left."""
    names = [b"random%d" % at for at in range(500)]
    with Connection(server.port) as it:
        it.call("FLUSHALL")
        it.calls([["SET", at, "1"] for at in names])
        shown = it.calls([["RANDOMKEY"]] * 300)
        must(set(shown) <= set(names), "a key is shown that is not there")
        must(len(set(shown)) >= 30, f"of 500 keys only {len(set(shown))} are shown")
        must(sorted(it.call("KEYS", "random*")) == sorted(names), "KEYS does not show all")
        it.call("DEL", *names[1:])
        must(it.calls([["RANDOMKEY"]] * 20) == [names[0]] * 20, "the only key is not shown")
        it.call("PEXPIRE", names[0], 1)
        while it.call("EXISTS", names[0]):
            pass
        must(it.call("RANDOMKEY") is None and it.call("KEYS", "*") == [], "an expired key is shown")
