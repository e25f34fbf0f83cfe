"""PUBLISH, SUBSCRIBE and their kin, over connections of several threads."""
import contextlib
import threading
import time

from .client import PONG, Connection, Error, Map, Push, Verbatim, packed
from .hostile import closings
from .server import Server
from .together import must

ONLY = "only (P|S)SUBSCRIBE / (P|S)UNSUBSCRIBE / PING / QUIT / RESET are allowed in this context"


def replies(server):
    """What subscribing replies, and what reaches whom."""
    with Connection(server.port) as it, Connection(server.port) as one, Connection(server.port) as other:
        must(it.call("PUBLISH", "a", "nobody") == 0, "somebody has subscribed")
        one.send(packed("SUBSCRIBE", "a", "b", "a"))
        must([one.reply() for _ in range(3)] == [[b"subscribe", b"a", 1], [b"subscribe", b"b", 2], [b"subscribe", b"a", 2]], "other replies")
        must(one.call("PSUBSCRIBE", "a*") == [b"psubscribe", b"a*", 3] and other.call("SUBSCRIBE", "a") == [b"subscribe", b"a", 1], "other replies")
        must(it.call("PUBLISH", "a", "x\r\ny") == 3 and it.call("PUBLISH", "ab", b"\0") == 1 and it.call("PUBLISH", "c", "z") == 0, "other numbers")
        must(one.reply() == [b"message", b"a", b"x\r\ny"] and one.reply() == [b"pmessage", b"a*", b"a", b"x\r\ny"], "another message")
        must(one.reply() == [b"pmessage", b"a*", b"ab", b"\0"] and other.reply() == [b"message", b"a", b"x\r\ny"], "another message")
        must(one.call("GET", "a") == Error(f"ERR Can't execute 'get': {ONLY}"), "a subscriber may make other commands")
        must(one.call("PING") == [b"pong", b""] and one.call("PING", "x") == [b"pong", b"x"], "another PING")
        must(sorted(it.call("PUBSUB", "CHANNELS")) == [b"a", b"b"] and it.call("PUBSUB", "CHANNELS", "b*") == [b"b"], "other channels")
        must(it.call("PUBSUB", "NUMSUB", "a", "b", "c") == [b"a", 2, b"b", 1, b"c", 0] and it.call("PUBSUB", "NUMPAT") == 1, "other numbers")
        must(one.call("UNSUBSCRIBE", "a") == [b"unsubscribe", b"a", 2] and it.call("PUBLISH", "a", "1") == 2, "still subscribed")
        must(one.reply() == [b"pmessage", b"a*", b"a", b"1"] and one.call("PUNSUBSCRIBE") == [b"punsubscribe", b"a*", 1], "another reply")
        must(one.call("UNSUBSCRIBE") == [b"unsubscribe", b"b", 0] and one.call("UNSUBSCRIBE") == [b"unsubscribe", None, 0], "another reply")
        must(one.call("GET", "a") is None and other.reply() == [b"message", b"a", b"1"], "another reply")
        must(other.call("RESET") == "RESET" and other.call("PING") == PONG and it.call("PUBLISH", "a", "1") == 0, "RESET leaves a subscription")
        must(it.calls([["MULTI"], ["PUBLISH", "a", "1"], ["EXEC"]])[-1] == [0], "PUBLISH is not queued")
        one.call("SUBSCRIBE", "gone")
        one.close()
        until = time.monotonic() + 60
        while it.call("PUBLISH", "gone", "x"):
            must(time.monotonic() < until, "a closed connection is subscribed")


def pushed(server):
    """By RESP3 messages are pushes, and a subscriber may make all commands."""
    with Connection(server.port) as it, Connection(server.port) as one:
        must(type(one.call("HELLO", "3")) is Map and one.call("SUBSCRIBE", "a") == Push([b"subscribe", b"a", 1]), "no push")
        must(one.call("PSUBSCRIBE", "a*") == Push([b"psubscribe", b"a*", 2]) and it.call("PUBLISH", "a", "x") == 2, "no push")
        for wanted in ([b"message", b"a", b"x"], [b"pmessage", b"a*", b"a", b"x"]):
            got = one.reply()
            must(type(got) is Push and got == wanted, f"{got!r}")
        must(one.call("SET", "k", "1") == "OK" and one.call("GET", "k") == b"1" and one.call("GET", "none") is None and one.call("PING") == PONG, "no command")
        must(type(one.call("INFO")) is Verbatim and b" resp=3" in one.call("CLIENT", "INFO") and type(one.call("CONFIG", "GET", "save")) is Map, "another type")


def all_arrive(program):
    """Each message of each publisher reaches each subscriber, in the order of the publisher, whichever threads serve them."""
    with Server(program, "--threads", 4) as server, contextlib.ExitStack() as stack:
        subscribers = [stack.enter_context(Connection(server.port)) for _ in range(9)]
        for number, it in enumerate(subscribers):
            it.call(*(["SUBSCRIBE", "news"] if number % 3 else ["PSUBSCRIBE", "n*"]))
        count, faults = (1500 if server.is_plain else 200), []

        def publish(number):
            with Connection(server.port) as it:
                got = it.calls([["PUBLISH", "news", f"{number} {at}"] for at in range(count)])
                faults.extend(reply for reply in got if reply != 9)

        threads = [threading.Thread(target=publish, args=(number,)) for number in range(4)]
        for thread in threads:
            thread.start()
        for it in subscribers:
            last = [-1] * 4
            for _ in range(4 * count):
                number, at = map(int, it.reply()[-1].split())
                must(at == last[number] + 1, f"message {at} of {number} comes after {last[number]}")
                last[number] = at
        for thread in threads:
            thread.join()
        must(not faults, f"a message has other numbers of receivers: {faults[:3]}")


def deaf(program):
    """A subscriber that does not read is closed, and no other one waits for it."""
    with Server(program, "--threads", 2) as server, Connection(server.port) as it, Connection(server.port) as other, Connection(server.port, room=4096) as one:
        must(one.call("SUBSCRIBE", "a") == [b"subscribe", b"a", 1] and other.call("SUBSCRIBE", "a") == [b"subscribe", b"a", 1], "no reply")
        text, until = b"x" * (1 << 20), time.monotonic() + 120
        size = len(packed("message", "a", text))
        while it.call("PUBLISH", "a", text) == 2:
            must(other.bytes(size) and time.monotonic() < until, "another message")
        closed = closings(it)
        must(closed["buffers"] + closed["memory"] == 1, f"{closed} were closed")


def idle(program):
    """A connection that waits for messages is not closed by --timeout."""
    with Server(program, "--timeout", 1, "--threads", 1) as server, Connection(server.port) as one:
        must(one.call("SUBSCRIBE", "a") == [b"subscribe", b"a", 1], "no reply")
        time.sleep(2.5)
        with Connection(server.port) as it:
            must(it.call("PUBLISH", "a", "x") == 1 and one.reply() == [b"message", b"a", b"x"], "a subscriber is closed")
