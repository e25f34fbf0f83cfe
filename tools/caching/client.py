"""A client of the Redis protocol, which sends what a test wants, right or wrong."""
import socket


class Error(str):
    """A reply that begins with a minus."""


class Simple(str):
    """A reply that begins with a plus."""


class Map(list):
    """A reply of pairs, one behind the other."""


class Set(list):
    """A reply that is a set."""


class Push(list):
    """What is not the reply to a request."""


class Verbatim(bytes):
    """A reply that is a text for people."""


class Closed(Exception):
    """The server closed the connection."""


OK, PONG = Simple("OK"), Simple("PONG")
# The server answers within so many seconds on a busy machine too.
LONGEST = 300


def packed(*words):
    """Returns a request's bytes."""
    words = [it if isinstance(it, bytes) else str(it).encode() for it in words]
    return b"*%d\r\n" % len(words) + b"".join(b"$%d\r\n%b\r\n" % (len(it), it) for it in words)


class Connection:
    """A connection to a server on this machine."""

    def __init__(self, port, room=None):
        self.socket = socket.socket()
        self.socket.settimeout(LONGEST)
        if room:
            self.socket.setsockopt(socket.SOL_SOCKET, socket.SO_RCVBUF, room)
        self.socket.connect(("127.0.0.1", port))
        self.socket.setsockopt(socket.IPPROTO_TCP, socket.TCP_NODELAY, 1)
        self.got, self.at = b"", 0

    def __enter__(self):
        return self

    def __exit__(self, *_):
        self.close()

    def close(self):
        self.socket.close()

    def send(self, data):
        try:
            self.socket.sendall(data)
        except OSError as why:
            raise Closed from why

    def more(self):
        try:
            data = self.socket.recv(1 << 20)
        except socket.timeout:
            raise
        except OSError as why:
            raise Closed from why
        if not data:
            raise Closed
        self.got, self.at = self.got[self.at :] + data, 0

    def line(self):
        while (end := self.got.find(b"\r\n", self.at)) < 0:
            self.more()
        line, self.at = self.got[self.at : end], end + 2
        return line

    def bytes(self, count):
        if len(self.got) - self.at < count:
            parts = [self.got[self.at :]]
            missing = count - len(parts[0])
            while missing > 0:
                self.at = len(self.got)
                self.more()
                parts.append(self.got)
                missing -= len(self.got)
            self.got, self.at = b"".join(parts), 0
        self.at += count
        return self.got[self.at - count : self.at]

    def reply(self):
        """Reads a reply: bytes, a number, a list, None, a Simple or an Error."""
        line = self.line()
        mark, rest = line[:1], line[1:]
        if mark == b"$":
            return None if rest == b"-1" else self.bytes(int(rest) + 2)[:-2]
        if mark == b":":
            return int(rest)
        if mark == b"*":
            return None if rest == b"-1" else [self.reply() for _ in range(int(rest))]
        if mark == b"_":
            return None
        if mark == b"#":
            return rest == b"t"
        if mark in (b"%", b"~", b">"):
            kind = {b"%": Map, b"~": Set, b">": Push}[mark]
            return kind(self.reply() for _ in range(int(rest) * (2 if kind is Map else 1)))
        if mark == b"=":
            return Verbatim(self.bytes(int(rest) + 2)[:-2])
        if mark in (b"+", b"-"):
            return (Simple if mark == b"+" else Error)(rest.decode(errors="replace"))
        raise AssertionError(f"no reply: {line[:80]!r}")

    def call(self, *words):
        self.send(packed(*words))
        return self.reply()

    def calls(self, requests):
        """Sends requests at once, and returns their replies."""
        self.send(b"".join(packed(*it) for it in requests))
        return [self.reply() for _ in requests]

    def is_closed(self):
        """Whether the server closes the connection, whatever it sends before."""
        try:
            while True:
                self.more()
                self.at = len(self.got)
        except Closed:
            return True
        except socket.timeout:
            return False

    def rest(self):
        """Returns all that the server sends until it closes the connection."""
        parts = []
        try:
            while True:
                self.more()
                parts.append(self.got[self.at :])
                self.at = len(self.got)
        except Closed:
            return b"".join(parts)
