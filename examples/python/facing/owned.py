"""Handles, and what maps, clients and closed maps have in common."""
from __future__ import annotations

import collections.abc
import ctypes
import os
import threading
import weakref
from typing import Any, ClassVar, Dict, Generic, Iterable, Iterator, List, Mapping, NoReturn, Tuple, TypeVar

from .library import FUNCTIONS, LAST, NAMES, SIZE, U64, AfterFork, Cursor, Handle, K, Sizes, V, check, number

Self = TypeVar("Self", bound="Owned")
# This process.
_here = os.getpid()


class Owned:
    """A handle, which is freed with its `with` block or with this object. It cannot be copied.

    A thread that has its lock may take it again: so a signal handler may make a call by the client whose call it interrupted."""

    _kind: ClassVar[str] = "facing"
    _functions: ClassVar[Dict[str, Any]] = FUNCTIONS["facing"]

    def __init_subclass__(cls) -> None:
        super().__init_subclass__()
        cls._functions = FUNCTIONS[cls._kind]

    def __init__(self) -> None:
        self._handle, self._lock, self._process = Handle(), threading.RLock(), _here

    def __enter__(self: Self) -> Self:
        return self

    def __exit__(self, *_error: object) -> None:
        self.free()

    def __del__(self) -> None:
        if hasattr(self, "_lock"):
            self.free()

    def __copy__(self) -> NoReturn:
        raise TypeError(f"a {type(self).__name__} cannot be copied: it stands for something that is freed once")

    def __deepcopy__(self, _memo: object) -> NoReturn:
        self.__copy__()

    def __reduce__(self) -> NoReturn:
        self.__copy__()

    def free(self) -> None:
        """Frees what the handle stands for. A client goes back to its map. In a process that was forked it does nothing."""
        if self._process != _here:
            return
        with self._lock:
            self._functions["free"](self._handle)

    def _own(self) -> None:
        """Raises where this belongs to the process that this one was forked from: there its lock may be held for ever."""
        if self._process != _here:
            raise AfterFork(self._process)

    def _status(self, name: str, *arguments: Any) -> int:
        self._own()
        with self._lock:
            status: int = self._functions[name](self._handle, *arguments)
        return status

    def _do(self, name: str, *arguments: Any) -> None:
        if status := self._status(name, *arguments):
            check(status)

    def _count(self) -> int:
        count = U64()
        self._do("count", count)
        return count.value

    def _walk(self) -> Iterator[Tuple[Any, Any]]:
        """Goes over all pairs, some buckets at a time."""
        cursor = Cursor()
        while cursor.at != LAST:
            yield from self._next_pairs(cursor)

    def _next_pairs(self, cursor: Cursor, count: int = 4096, size: int = 1 << 20) -> List[Tuple[Any, Any]]:
        """Returns the pairs of the next buckets, as many as find room; where one bucket finds none there is more room."""
        keys, values, copied = (U64 * max(count, 1))(), (U64 * max(count, 1))(), Sizes()
        room = ctypes.create_string_buffer(max(size, 1))
        status = self._status("pairs", cursor, keys, values, count, room, size, copied)
        if status == NAMES.index("NO_ROOM"):
            return self._next_pairs(cursor, copied.pairs, copied.bytes)
        check(status)
        raw, at, pairs = ctypes.string_at(room, copied.bytes), 0, []
        for key, value in zip(keys[: copied.pairs], values[: copied.pairs]):
            end = at + key
            pairs.append((raw[at:end], value if self._kind == "facing_counts" else raw[end : end + value]))
            at = end + (0 if self._kind == "facing_counts" else value)
        return pairs


class Pairs(Generic[K, V]):
    """What a mapping has besides its calls, of an open map."""

    # (without it Python would ask for the keys 0, 1, 2 .. in turn)
    __iter__ = None

    def items(self) -> Iterable[Tuple[K, V]]:
        """Goes over the pairs of the open map, some buckets at a time: each bucket as it is when it is read."""
        raise NotImplementedError

    def copy(self) -> Dict[K, V]:
        """Returns a dict of the pairs: each bucket as it is when it is read."""
        return dict(self.items())


def number_pairs(owned: Owned, cursor: Cursor, count: int) -> List[Tuple[int, int]]:
    """Returns the pairs of the next buckets of a map of numbers."""
    keys, values, copied = (U64 * max(count, 1))(), (U64 * max(count, 1))(), SIZE()
    status = owned._status("pairs", cursor, keys, values, count, copied)
    if status == NAMES.index("NO_ROOM"):
        return number_pairs(owned, cursor, copied.value)
    check(status)
    return list(zip(keys[: copied.value], values[: copied.value]))


# The closed maps, by what `id` says of them.
_CLOSED: weakref.WeakValueDictionary[int, ClosedMap[Any, Any]] = weakref.WeakValueDictionary()


def _take_over() -> None:
    """In a process that was forked: takes over its copies of the closed maps that no other thread was reading during the fork."""
    global _here
    _here = os.getpid()
    for it in list(_CLOSED.values()):
        if it._lock.acquire(blocking=False):
            it._process = _here
            it._lock.release()


os.register_at_fork(after_in_child=_take_over)


class ClosedMap(Owned, Mapping[K, V]):
    """A closed map, as a mapping that does not change. A process that is forked has a copy, which it can read."""

    __hash__ = None  # type: ignore[assignment]

    def __init__(self) -> None:
        super().__init__()
        _CLOSED[id(self)] = self

    def __len__(self) -> int:
        return self._count()

    def __iter__(self) -> Iterator[K]:
        return (key for key, _ in self.pairs())

    def __getitem__(self, key: K) -> V:
        if (value := self._find(key)) is None:
            raise KeyError(key)
        found: V = value
        return found

    def items(self) -> List[Tuple[K, V]]:  # type: ignore[override]
        """Returns all pairs as a list."""
        return list(self._walk())

    def pairs(self) -> List[Tuple[K, V]]:
        """Returns all pairs as a list."""
        return self.items()

    def _find(self, key: K) -> Any:
        raise NotImplementedError

    def _reopened(self, opened: Owned, clients: int) -> None:
        self._do("reopen", min(number(clients), 2**32 - 1), opened._handle)
