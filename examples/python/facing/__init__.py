"""Concurrent hash maps that Python's threads share: 64-bit numbers to 64-bit numbers (Map), bytes to 64-bit numbers (CountsMap), and
bytes to bytes (BytesMap).

They stand on the shared library that tools/install makes. ctypes lets other threads run during each call. A client serves one
call at a time, for which it has a lock; give each thread a client of its own. A signal handler may use any client, also the one
whose call it interrupted.

A call from Python takes six to seven times the instructions of one on a dict under a lock, nearly all on the way to the library. put_all,
get_all and add_all pass many keys at once: from some 20 keys on they are faster than the dict, and with 1,000 keys they take a third
of its time or less. So pass keys in batches, or keep the dict.

A call waits for nothing but the lock of a bucket, so a coroutine may make one. A large batch is for a thread, by a client of its own:

    await asyncio.to_thread(client.add_all, collections.Counter(words))

Processes do not share a map. In a process that was forked, a map and its clients raise AfterFork; a closed map can be read."""
from .library import ABI, LONGEST, NAMES, AfterFork, Fault, NoMemory, version
from .numbers import Client, Closed, Map
from .texts import BytesClient, BytesMap, ClosedBytes, ClosedCounts, CountsClient, CountsMap

__all__ = [
    "ABI",
    "AfterFork",
    "BytesClient",
    "BytesMap",
    "Client",
    "Closed",
    "ClosedBytes",
    "ClosedCounts",
    "CountsClient",
    "CountsMap",
    "Fault",
    "LONGEST",
    "Map",
    "NAMES",
    "NoMemory",
    "version",
]
