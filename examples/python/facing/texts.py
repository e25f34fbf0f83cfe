"""The maps of byte strings: open, their clients, and closed."""
from __future__ import annotations

import ctypes
import mmap
import struct
from typing import Any, Iterable, List, Optional, Tuple

from .calls import Calls, NumberCalls, OpenMap
from .library import LAST, LONGEST, NAMES, SIZE, U64, Answer, Fault, PairsOf, Seen, View, check, number, numbers, parted, text
from .owned import ClosedMap, Owned

NO_ROOM = NAMES.index("NO_ROOM")


def texts(values: Iterable[bytes]) -> List[bytes]:
    """Returns values that are bytes, or like them, as bytes."""
    return [it if type(it) is bytes else text(it) for it in values]


class CountsClient(NumberCalls[bytes]):
    """A client of a map from bytes to numbers. A key has at most 65,536 bytes."""

    _kind = "facing_counts"

    def _answer(self, name: str, key: Any, *values: Any) -> Answer:
        answer, key = Answer(), key if type(key) is bytes else text(key)
        self._do(name, key, len(key), *[it if type(it) is int and 0 <= it <= LAST else number(it) for it in values], answer)
        return answer

    def _value(self, name: str, key: Any, *values: Any) -> Any:
        answer = self._answer(name, key, *values)
        return answer.value if answer.found else None

    def _truth(self, name: str, key: Any, *values: Any) -> bool:
        found: int = self._answer(name, key, *values).found
        return found == 1

    def _exchange(self, key: bytes, before: Optional[int], after: Optional[int]) -> int:
        seen, key = Seen(), text(key)
        values = [None if it is None else U64(number(it)) for it in (before, after)]
        self._do("exchange", key, len(key), *values, seen)
        exchanged: int = seen.exchanged
        return exchanged

    def _packed(self, keys: Iterable[bytes]) -> Tuple[Tuple[Any, ...], Any, int]:
        keys = texts(keys)
        lens, at_lens = numbers(map(len, keys))
        joined = b"".join(keys)
        return (at_lens, len(keys), joined, len(joined)), (lens, joined), len(keys)

    def _many(self, name: str, given: Tuple[Any, ...], values: Any, count: int) -> None:
        self._do(name, *given, values, SIZE())


class CountsMap(OpenMap[bytes, int]):
    """An open map from bytes of at most 65,536 to numbers. It draws a secret seed."""

    _kind = "facing_counts"

    def __init__(self, capacity: int = 16, clients: int = 4) -> None:
        super().__init__()
        self._open(capacity, clients)

    def client(self) -> CountsClient:
        """Returns a client that is not in use, for one thread at a time."""
        client: CountsClient = self._filled(CountsClient())
        return client

    def close(self) -> ClosedCounts:
        """Closes the map, whose clients must all be freed, and returns the closed map."""
        closed: ClosedCounts = self._closed(ClosedCounts())
        return closed


class ClosedCounts(ClosedMap[bytes, int]):
    """A closed map from bytes to numbers."""

    _kind = "facing_counts"

    def _find(self, key: bytes) -> Optional[int]:
        answer, key = Answer(), text(key)
        self._do("find", key, len(key), answer)
        return answer.value if answer.found else None

    def reopen(self, clients: int = 4) -> CountsMap:
        """Returns an open map with copies of the pairs."""
        opened = CountsMap.__new__(CountsMap)
        Owned.__init__(opened)
        self._reopened(opened, clients)
        return opened


class BytesClient(Calls[bytes, bytes]):
    """A client of a map of bytes, with room for the longest value of that map: a longer one fails with TOO_LONG."""

    _kind = "facing_bytes"

    def __init__(self, longest: int = LONGEST) -> None:
        super().__init__()
        self._longest = longest
        self._room: Any = None

    def _value(self, name: str, key: Any, *values: Any) -> Any:
        answer, given = Answer(), self._given(key, values)
        self._own()
        with self._lock:
            # (the room is taken away for as long as it is used: a signal handler that calls meanwhile finds none, and makes its own)
            room, self._room = self._room, None
            if room is None:
                # (a page of it takes memory once it is used)
                room = (ctypes.c_char * (self._longest + 1)).from_buffer(mmap.mmap(-1, self._longest + 1))
            try:
                self._do(name, *given, room, self._longest, answer)
                return ctypes.string_at(room, answer.value) if answer.found else None
            finally:
                self._room = room

    def _truth(self, name: str, key: Any, *values: Any) -> bool:
        answer = Answer()
        self._do(name, *self._given(key, values), answer)
        found: int = answer.found
        return found == 1

    def _given(self, key: Any, values: Tuple[Any, ...]) -> List[Any]:
        """Returns what stands for byte strings in a call."""
        data = texts((key, *values))
        for value in data[1:]:
            self._bound(value)
        return [part for it in data for part in (it, len(it))]

    def _bound(self, value: bytes) -> None:
        if len(value) > self._longest:
            raise Fault(NAMES.index("TOO_LONG"))

    def _exchange(self, key: bytes, before: Optional[bytes], after: Optional[bytes]) -> int:
        seen, key = Seen(), text(key)
        before, after = (None if it is None else text(it) for it in (before, after))
        if after is not None:
            self._bound(after)
        given = [None if it is None else View(it, len(it)) for it in (before, after)]
        self._do("exchange", key, len(key), *given, None, 0, seen)
        exchanged: int = seen.exchanged
        return exchanged

    def put_all(self, pairs: PairsOf[bytes, bytes]) -> None:
        """Stores each pair of a mapping or of a list of pairs, in one step through the library."""
        keys, values = map(texts, parted(pairs))
        for value in values:
            self._bound(value)
        (key_lens, at_keys), (value_lens, at_values) = (numbers(map(len, it)) for it in (keys, values))
        joined = b"".join(part for pair in zip(keys, values) for part in pair)
        self._do("put_all", at_keys, at_values, len(keys), joined, len(joined), SIZE())
        del key_lens, value_lens

    def get_all(self, keys: Iterable[bytes]) -> List[Optional[bytes]]:
        """Returns the values at the keys, None where there is none, in a few steps through the library."""
        keys, size = texts(keys), 4096
        values: List[Optional[bytes]] = []
        while len(values) < len(keys):
            read, size = self._next_values(keys[len(values) :], size)
            values += read
        return values

    def _next_values(self, keys: List[bytes], size: int) -> Tuple[List[Optional[bytes]], int]:
        """Returns the values of the first keys, as many as find so much room, and how much room to have next."""
        lens, at_lens = numbers(map(len, keys))
        joined, done, room = b"".join(keys), SIZE(), ctypes.create_string_buffer(size)
        answers = bytearray(ctypes.sizeof(Answer) * len(keys))
        status = self._status("get_all", at_lens, len(keys), joined, len(joined), room, size, Answer.from_buffer(answers), done)
        if status != NO_ROOM:
            check(status)
        del lens
        told = list(struct.iter_unpack("I4xQ", answers))
        values: List[Optional[bytes]] = []
        at = 0
        for found, length in told[: done.value]:
            values.append(ctypes.string_at(ctypes.addressof(room) + at, length) if found else None)
            at += length
        return values, max(2 * size, told[done.value][1]) if status == NO_ROOM else size


class BytesMap(OpenMap[bytes, bytes]):
    """An open map from bytes of at most 65,536 to bytes, of as many or of `longest`: up to 2**29. It draws a secret seed."""

    _kind = "facing_bytes"

    def __init__(self, capacity: int = 16, clients: int = 4, longest: int = LONGEST) -> None:
        super().__init__()
        if not 0 <= longest <= 1 << 29:
            raise Fault(NAMES.index("TOO_LONG"))
        self._longest = longest
        self._open(capacity, clients)

    def client(self) -> BytesClient:
        """Returns a client that is not in use, for one thread at a time."""
        client: BytesClient = self._filled(BytesClient(self._longest))
        return client

    def close(self) -> ClosedBytes:
        """Closes the map, whose clients must all be freed, and returns the closed map."""
        closed: ClosedBytes = self._closed(ClosedBytes(self._longest))
        return closed


class ClosedBytes(ClosedMap[bytes, bytes]):
    """A closed map of bytes."""

    _kind = "facing_bytes"

    def __init__(self, longest: int = LONGEST) -> None:
        super().__init__()
        self._longest = longest

    def _find(self, key: bytes) -> Optional[bytes]:
        answer, size, key = Answer(), 256, text(key)
        while True:
            room = ctypes.create_string_buffer(size)
            status = self._status("find", key, len(key), room, size, answer)
            if status != NO_ROOM:
                break
            size = answer.value
        check(status)
        return ctypes.string_at(room, answer.value) if answer.found else None

    def reopen(self, clients: int = 4) -> BytesMap:
        """Returns an open map with copies of the pairs."""
        opened = BytesMap.__new__(BytesMap)
        Owned.__init__(opened)
        opened._longest = self._longest
        self._reopened(opened, clients)
        return opened
