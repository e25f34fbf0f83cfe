"""Builds the cache server, and runs it."""
import contextlib
import os
import re
import resource
import shutil
import signal
import socket
import subprocess
import tempfile
import time

HERE = os.path.dirname(os.path.realpath(__file__))
TOP = os.path.dirname(os.path.dirname(HERE))
SOURCES = f"{TOP}/examples/c/cache"
FLAGS = {
    "plain": ["-O2"],
    "address": ["-g", "-O1", "-fsanitize=address,undefined", "-fno-sanitize-recover=all"],
    "thread": ["-g", "-O1", "-fsanitize=thread"],
}
WARNED = ["-Wall", "-Wextra", "-Wpedantic", "-Wshadow", "-Wconversion", "-Werror"]
# A sanitizer's report ends the server with this status. Leaks are looked for at its end.
FOUND = 99
SANITIZERS = {
    "ASAN_OPTIONS": f"exitcode={FOUND}:detect_leaks=1:allocator_may_return_null=1",
    "UBSAN_OPTIONS": f"exitcode={FOUND}:print_stacktrace=1",
    "TSAN_OPTIONS": f"exitcode={FOUND}:halt_on_error=0",
}


class Lacking(Exception):
    """A tool is not there."""


class Failed(Exception):
    """Something was not as it must be."""


def need(*tools):
    for tool in tools:
        if not shutil.which(tool):
            raise Lacking(f"there is no {tool}")


def lua_words():
    """What the compiler needs for scripts; none where Lua 5.1 is not installed."""
    with contextlib.suppress(FileNotFoundError):
        ran = subprocess.run(["pkg-config", "--cflags", "--libs", "lua5.1"], capture_output=True, text=True, check=False)
        if ran.returncode == 0:
            return ["-DCACHE_LUA", *ran.stdout.split()]
    return []


def sources():
    return sorted(f"{SOURCES}/{it}" for it in os.listdir(SOURCES) if it.endswith(".c"))


class Place:
    """Where the library is installed, and the servers that were built over it."""

    def __init__(self, folder, prefix):
        self.folder, self.prefix, self.built = folder, prefix or f"{folder}/installed", {}
        if not prefix:
            subprocess.run([f"{TOP}/tools/install", self.prefix], env={**os.environ, "UNPROVED": "1"}, check=True)

    def program(self, kind="plain"):
        """Returns the path of the server, which is built the first time."""
        if kind not in self.built:
            self.build(kind, sources())
        return self.built[kind]

    def program_without(self, left_out, instead):
        """Returns the path of a server with a source in place of some of its own."""
        kept = [it for it in sources() if os.path.basename(it) not in left_out]
        return self.build("plain", [*kept, instead], f"without_{left_out[0]}_plain")

    def program_without_lua(self):
        return self.build("plain", sources(), "without_lua_plain", [])

    def build(self, kind, its_sources, name=None, lua=None):
        need("cc")
        lua = lua_words() if lua is None else lua
        path = f"{self.folder}/cache_{name or kind}"
        words = ["cc", "-std=c11", *FLAGS[kind], *WARNED, f"-I{self.prefix}/include", f"-I{SOURCES}", *its_sources]
        ran = subprocess.run([*words, f"{self.prefix}/lib/libfacing.a", *lua, "-lpthread", "-o", path], capture_output=True, text=True)
        if ran.returncode and "cannot find" in ran.stderr and kind != "plain":
            raise Lacking("the sanitizers' libraries are not installed")
        if ran.returncode:
            raise Failed(f"not built: {ran.stderr[:2000]}")
        self.built[name or kind] = path
        return path

    def is_proved(self):
        """Whether the library is of the check that proved it: an unproved one says so in its version."""
        with open(f"{self.prefix}/lib/libfacing.a", "rb") as it:
            return b" unproved\0" not in it.read()


class Server:
    """A server that runs, on a port that was free. At the end of a `with` it is stopped, and must end as it should."""

    def __init__(self, program, *options, files=None, memory=None):
        def limit():
            if files:
                resource.setrlimit(resource.RLIMIT_NOFILE, (files, files))
            if memory:
                resource.setrlimit(resource.RLIMIT_AS, (memory, memory))

        self.is_plain = program.endswith("plain")
        self.said = tempfile.TemporaryFile("w+")
        # What ThreadSanitizer is told of a walk takes long for each bucket.
        words = [program, "--port", "0", *(["--buckets", "256"] if program.endswith("thread") else []), *(str(it) for it in options)]
        words += [] if "--threads" in words or "--config" in words else ["--threads", "0"]
        more = {**os.environ, **SANITIZERS}
        self.process = subprocess.Popen(words, stdout=subprocess.PIPE, stderr=self.said, text=True, env=more, preexec_fn=limit)
        line = self.process.stdout.readline()
        found = re.match(r"[-0-9T:.]+Z cache: listens on 127\.0\.0\.1:(\d+), (\d+) threads$", line)
        if not found:
            self.process.wait()
            raise Failed(f"the server did not start: {line}{self.errors()}")
        self.port, self.threads, self.is_stopped = int(found[1]), int(found[2]), False

    def errors(self):
        self.said.seek(0)
        return self.said.read()

    def resident(self):
        """Returns the bytes of memory that the server has resident."""
        with open(f"/proc/{self.process.pid}/statm", encoding="utf-8") as it:
            return int(it.read().split()[1]) * os.sysconf("SC_PAGESIZE")

    def signal(self, number=signal.SIGTERM):
        self.process.send_signal(number)

    def ended(self, seconds=60):
        """Waits for the end, and returns the status and the last line."""
        self.is_stopped = True
        rest, _ = self.process.communicate(timeout=seconds)
        return self.process.returncode, (rest.splitlines() or [""])[-1].partition(" ")[2]

    def stop(self):
        """Stops the server, which must end with status 0, its line, and no report."""
        self.signal()
        status, line = self.ended()
        if status != 0 or not line.startswith("cache: stopped, ") or self.errors():
            raise Failed(f"the server ended with status {status}, {line!r}: {self.errors()[-4000:]}")

    def __enter__(self):
        return self

    def __exit__(self, kind, *_):
        try:
            if kind is None and not self.is_stopped:
                self.stop()
        finally:
            if self.process.poll() is None:
                self.process.kill()
                self.process.wait()
            self.process.stdout.close()
            if kind is not None and self.errors():
                print(self.errors()[-4000:])
            self.said.close()


@contextlib.contextmanager
def redis_server(*options):
    """A redis-server on a port that was free."""
    need("redis-server")
    with socket.socket() as it:
        it.bind(("127.0.0.1", 0))
        port = it.getsockname()[1]
    with tempfile.TemporaryDirectory() as folder:
        words = ["redis-server", "--port", str(port), "--save", "", "--appendonly", "no", "--databases", "16", "--dir", folder, *map(str, options)]
        with subprocess.Popen(words, stdout=subprocess.DEVNULL) as ran:
            try:
                for _ in range(600):
                    with contextlib.suppress(OSError), socket.create_connection(("127.0.0.1", port)):
                        break
                    time.sleep(0.1)
                yield port
            finally:
                ran.terminate()
