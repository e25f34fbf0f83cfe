"""What connections hold together has a limit, those without a password have a small one, and the largest are closed first."""
import contextlib
import time

from .client import OK, PONG, Closed, Connection, Error, packed
from .held import must_be_short, times_of, worker_of
from .hostile import PROTOCOL, closings, used_memory
from .limits import info
from .server import Server
from .together import must
from .transactions import QUEUED

MB = 1 << 20
MEMORY, KEYS = 40 * MB, 5000


def half_a_request(it):
    it.send(b"*3\r\n$3\r\nSET\r\n$1\r\nk\r\n$2000000\r\n" + b"x" * 900000)


def a_transaction(it):
    must(it.call("MULTI") == OK and it.call("SET", "k", b"x" * 900000) == QUEUED, "no transaction")


def watched_keys(it):
    must(it.call("WATCH", *(b"%02d" % at + b"k" * 60000 for at in range(15))) == OK, "no watch")


def a_name(it):
    must(it.call("CLIENT", "SETNAME", b"n" * 900000) == OK, "no name")


def unread_replies(it):
    it.send(packed("GET", "large") * 60)


def without_password(it):
    it.send(b"*10\r\n" + b"$16384\r\n%b\r\n" % (b"x" * 16384) * 9 + b"$16384\r\n" + b"y" * 16000)


# What a connection holds, how many do, and what all of them may have.
HOLDERS = ((half_a_request, 60, MEMORY // 2), (a_transaction, 60, MEMORY // 2), (watched_keys, 60, MEMORY // 2), (a_name, 60, MEMORY // 2),
           (unread_replies, 30, MEMORY // 2), (without_password, 100, MEMORY // 64))


def hold_all(server, it, stack, hold, count):
    for _ in range(count):
        other = stack.enter_context(Connection(server.port, room=4096 if hold is unread_replies else None))
        with contextlib.suppress(Closed):
            if hold is not without_password:
                must(other.call("AUTH", "sesame") == OK, "the password is refused")
            hold(other)
        must(it.call("PING") == PONG, "another connection has no reply")


def buffers_are_bounded(program):
    """Whatever connections hold, all of them within their limit: no key is evicted for them, and one that holds little stays."""
    words = ("--memory", MEMORY, "--threads", 2, "--password", "sesame")
    for hold, count, most in HOLDERS if program.endswith("plain") else HOLDERS[::2]:
        with Server(program, *words) as server, Connection(server.port) as it, Connection(server.port) as small, contextlib.ExitStack() as stack:
            must(it.call("AUTH", "sesame") == OK and small.call("AUTH", "sesame") == OK, "the password is refused")
            must(it.calls([["SET", f"key{at}", "v" * 500] for at in range(KEYS)]) == [OK] * KEYS, "a key is refused")
            must(it.call("SET", "large", "x" * 60000) == OK, "a key is refused")
            before = used_memory(it)
            small.send(b"*2\r\n$3\r\nGET\r\n$4\r\nke")
            hold_all(server, it, stack, hold, count)
            until = time.monotonic() + 60
            while closings(it)["buffers"] == 0 or used_memory(it) > before + most + MB:
                must(time.monotonic() < until, f"{hold.__name__}: {closings(it)}, and {used_memory(it) - before} bytes are held of {most}")
            must(info(it, "evicted_keys") == 0 and it.call("DBSIZE") == KEYS + 1, f"{hold.__name__}: a key was evicted")
            small.send(b"y1\r\n")
            must(small.reply() == b"v" * 500, f"{hold.__name__}: a connection that holds little is closed")


def largest_goes_first(program):
    """Of those that hold something the largest is closed, whichever thread serves it; one that asked to be spared stays."""
    with Server(program, "--memory", MEMORY, "--buffers", 5 * MB, "--threads", 4) as server, Connection(server.port) as it, contextlib.ExitStack() as stack:
        all_of = [stack.enter_context(Connection(server.port)) for _ in range(8)]
        must(all_of[0].call("CLIENT", "NO-EVICT", "ON") == OK, "no reply")
        for size, other in zip((1200, 900, 850, 800, 300, 200, 100, 50), all_of):
            other.call("MULTI")
            must(other.call("SET", "k", b"x" * (size << 10)) == QUEUED, "no transaction")
        more = stack.enter_context(Connection(server.port))
        more.call("MULTI")
        while closings(it)["buffers"] == 0:
            more.call("SET", "k", b"x" * 100000)
        must(all_of[1].is_closed(), "the largest is not closed")
        for other in (all_of[0], *all_of[2:], more):
            must(other.call("SET", "k", "1") == QUEUED, "one that is not the largest is closed")


def words_before_a_password(program):
    """Before the password a request has at most ten words, as a list and as a line."""
    with Server(program, "--password", "sesame") as server:
        for data in (b"*11\r\n", b"a " * 11 + b"\r\n", b"AUTH sesame " + b"x " * 9 + b"\r\n"):
            with Connection(server.port) as it:
                it.send(data)
                must(it.reply() == Error(PROTOCOL + "unauthenticated multibulk length") and it.is_closed(), f"{data}")
        with Connection(server.port) as it:
            it.send(b"a b c d e f g h i j\r\nAUTH sesame\r\n" + b"EXISTS " + b"x " * 30 + b"\r\n")
            must(it.reply().startswith("ERR unknown command 'a'"), "a line of ten words is refused")
            must(it.reply() == OK and it.reply() == 0, "a line of thirty words behind the password is refused")


def full_of_what_stays(program):
    """Where transactions hold the memory and nothing can be evicted for them, a write fails at once, in a large table too."""
    words = ("--memory", 48 * MB, "--buffers", 48 * MB, "--threads", 1, "--buckets", 1 << 18)
    with Server(program, *words) as server, Connection(server.port) as it, contextlib.ExitStack() as stack:
        thread = worker_of(server)
        it.calls([["SET", f"key{at}", "v"] for at in range(1000)])
        for _ in range(6):
            other = stack.enter_context(Connection(server.port))
            other.call("MULTI")
            while other.call("SET", "k", b"x" * 700000) == QUEUED:
                pass
        taken = times_of(it, thread, [lambda _, at=at: ["SET", f"more{at}", "v" * 1000] for at in range(300)])
        must(str(it.call("SET", "one more", "v" * 1000000)).startswith("OOM"), "there is room")
        must_be_short("SET", taken)
