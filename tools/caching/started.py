"""How the server is started: files of options, units, passwords in files, sockets, IPv6, systemd, signals."""
import contextlib
import os
import re
import signal
import socket
import subprocess
import tempfile
import time

from .client import OK, PONG, Connection
from .limits import info
from .server import Failed, Lacking, Server, lua_words
from .together import must


class At(Connection):
    """A connection to an address, or to the path of a socket."""

    def __init__(self, place):
        self.socket = socket.socket(socket.AF_UNIX if isinstance(place, str) else socket.AF_INET6)
        self.socket.settimeout(60)
        self.socket.connect(place)
        self.got, self.at = b"", 0


def refused(program, *words):
    """What the server says that does not start."""
    ran = subprocess.run([program, "--port", "0", *words], capture_output=True, text=True, timeout=60, check=False)
    must(ran.returncode == 2 and not ran.stdout, f"{words}: {ran}")
    return ran.stderr


def files(program):
    """A file of options, whose wrong line is named; the command line comes after it. Units, and a password in a file."""
    with tempfile.TemporaryDirectory() as folder:
        path, secret = f"{folder}/cache.conf", f"{folder}/password"
        write = lambda text, to=path: open(to, "w", encoding="utf-8").write(text)
        write("sesame\nmore\n", secret)
        write(f"# a comment\n\n  memory  64mb  \nevict none\nthreads 2\npassword-file {secret}\ntimeout 7\n")
        with Server(program, "--config", path, "--timeout", "9") as server, Connection(server.port) as it:
            must(str(it.call("PING")).startswith("NOAUTH") and it.call("AUTH", "sesame") == OK, "no password, or another one")
            must(info(it, "maxmemory") == 64 << 20 and it.call("CONFIG", "GET", "maxmemory-policy")[1] == b"noeviction", "another setting")
            must(it.call("CONFIG", "GET", "timeout")[1] == b"9" and server.threads == 2, "the command line does not count")
        for text, line in (("memory 64mb\nmemry 1\n", 2), ("# a\n\nmemory 64mbb\n", 3), ("threads\n", 1), ("evict lfu\n", 1), ("open yes\n", 1),
                           ("port 7k\n", 1), ("config x\n", 1), ("help\n", 1), ("password-file /none\n", 1)):
            write(text)
            must(f"{path}, line {line}: " in refused(program, "--config", path), f"{text!r}: the line is not named")
        must("cannot be read" in refused(program, "--config", f"{folder}/none"), "a file is read that is not there")
        write("\n", secret)
        must("has no password" in refused(program, "--password-file", secret), "an empty password is taken")
        for text, size in (("8mb", 8 << 20), ("8m", 8000000), ("8MB", 8 << 20), ("8388609b", 8388609), ("1gb", 1 << 30), ("4194304kb", 1 << 32)):
            with Server(program, "--memory", text) as server, Connection(server.port) as it:
                must(info(it, "maxmemory") == size, f"{text} is another number")
        for text in ("8mib", "mb", "-1", "8 mb", "99999999999gb", ""):
            must("--memory takes" in refused(program, "--memory", text), f"{text} is taken")


def sockets(program):
    """It listens at a socket of the file system, also where one is left of a server that is gone, and at an address of IPv6."""
    with tempfile.TemporaryDirectory() as folder:
        path = f"{folder}/cache.sock"
        for _ in range(2):
            with Server(program, "--unixsocket", path) as server, At(path) as it:
                must(it.call("SET", "a", "1") == OK and path.encode() in it.call("CLIENT", "INFO"), "no reply")
                with Connection(server.port) as other:
                    must(other.call("GET", "a") == b"1", "another server")
                with contextlib.suppress(Failed):
                    with Server(program, "--unixsocket", path):
                        raise AssertionError("two servers have one socket")
                must(it.call("PING") == PONG, "the first server has lost its socket")
            must(not os.path.exists(path), "a socket is left")
            with socket.socket(socket.AF_UNIX) as left:
                left.bind(path)
        with open(f"{folder}/file", "w", encoding="utf-8"):
            pass
        ran = subprocess.run([program, "--port", "0", "--unixsocket", f"{folder}/file"], capture_output=True, text=True, timeout=60, check=False)
        must(ran.returncode == 1 and os.path.exists(f"{folder}/file"), f"a file is taken away: {ran}")
    must("without --password" in refused(program, "--address", "::"), "an open address of IPv6 is taken")
    if not os.path.exists("/proc/net/if_inet6"):
        raise Lacking("there is no IPv6")
    with subprocess.Popen([program, "--port", "0", "--address", "::1"], stdout=subprocess.PIPE, text=True) as ran:
        port = int(re.search(r"listens on \[::1\]:(\d+), ", ran.stdout.readline())[1])
        with At(("::1", port)) as it:
            must(it.call("PING") == PONG and b" addr=[::1]:" in it.call("CLIENT", "INFO"), "no reply")
        ran.terminate()
        must(ran.wait(60) == 0, "another status")


def signals(program):
    """SIGHUP, and a log that nobody reads any more, end nothing; systemd is told of the start and of the end."""
    with tempfile.TemporaryDirectory() as folder, socket.socket(socket.AF_UNIX, socket.SOCK_DGRAM) as told:
        told.settimeout(60)
        told.bind(f"{folder}/notify")
        more = {**os.environ, "NOTIFY_SOCKET": f"{folder}/notify"}
        with subprocess.Popen([program, "--port", "0"], stdout=subprocess.PIPE, text=True, env=more) as ran:
            port = int(re.search(r":(\d+), ", ran.stdout.readline())[1])
            must(told.recv(100) == b"READY=1", "systemd is told otherwise")
            ran.send_signal(signal.SIGHUP)
            ran.stdout.close()
            with Connection(port) as it:
                it.send(b"POST / HTTP/1.1\r\n")
                must(it.is_closed(), "no end")
            time.sleep(1.5)
            with Connection(port) as it:
                must(it.call("PING") == PONG, "the server has ended")
            ran.terminate()
            must(told.recv(100) == b"STOPPING=1" and ran.wait(60) == 0, "another end")
    ran = subprocess.run([program, "--version"], capture_output=True, text=True, timeout=60, check=False)
    must(ran.returncode == 0 and ("scripts by Lua 5.1" if lua_words() else "without scripts") in ran.stdout, f"{ran}")
