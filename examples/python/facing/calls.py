"""What open maps have in common, and the calls of their clients."""
from __future__ import annotations

import array
import ctypes
from typing import Any, Callable, Iterator, List, Optional, Tuple, TypeVar, Union, overload

from .library import Answer, K, PairsOf, V, check, number, numbers, parted
from .owned import ClosedMap, Owned, Pairs

D = TypeVar("D")
_ANSWER = ctypes.sizeof(Answer)


class Calls(Pairs[K, V], Owned):
    """The calls of a client. It serves one thread at a time, and goes back to its map when it is freed."""

    def _value(self, name: str, key: Any, *values: Any) -> Any:
        """Makes a call that answers with a value, or None."""
        raise NotImplementedError

    def _truth(self, name: str, key: Any, *values: Any) -> bool:
        """Makes a call that answers whether something was so."""
        raise NotImplementedError

    def _exchange(self, key: K, before: Optional[V], after: Optional[V]) -> int:
        raise NotImplementedError

    def __getitem__(self, key: K) -> V:
        if (value := self.get(key)) is None:
            raise KeyError(key)
        return value

    def __setitem__(self, key: K, value: V) -> None:
        self.put(key, value)

    def __delitem__(self, key: K) -> None:
        if self.remove(key) is None:
            raise KeyError(key)

    def __contains__(self, key: K) -> bool:
        return self.contains(key)

    def __len__(self) -> int:
        return self._count()

    def count(self) -> int:
        """Returns how many keys the map has; an estimate while calls run."""
        return self._count()

    def items(self) -> Iterator[Tuple[K, V]]:
        """Goes over the pairs of the open map, some buckets at a time: each bucket as it is when it is read."""
        return self._walk()

    def pairs(self) -> Iterator[Tuple[K, V]]:
        """The same as items."""
        return self._walk()

    @overload
    def get(self, key: K) -> Optional[V]: ...

    @overload
    def get(self, key: K, default: D) -> Union[V, D]: ...

    def get(self, key: K, default: Any = None) -> Any:
        """Returns the value at the key, or `default` where there is none."""
        value = self._value("get", key)
        return default if value is None else value

    def contains(self, key: K) -> bool:
        """Returns whether the key has a value."""
        return self._truth("contains", key)

    def put(self, key: K, value: V) -> Optional[V]:
        """Stores the value, and returns the one before."""
        before: Optional[V] = self._value("put", key, value)
        return before

    def put_if_absent(self, key: K, value: V) -> Optional[V]:
        """Stores the value where the key has none, and returns the one before."""
        before: Optional[V] = self._value("put_if_absent", key, value)
        return before

    def remove(self, key: K) -> Optional[V]:
        """Removes the key, and returns its value."""
        before: Optional[V] = self._value("remove", key)
        return before

    def remove_if(self, key: K, value: V) -> bool:
        """Removes the key where it has this value, and returns whether it had."""
        return self._truth("remove_if", key, value)

    def replace(self, key: K, value: V) -> Optional[V]:
        """Stores the value where the key has one, and returns the one before."""
        before: Optional[V] = self._value("replace", key, value)
        return before

    def replace_if(self, key: K, old: V, new: V) -> bool:
        """Stores the new value where the key has the old one, and returns whether it had."""
        return self._truth("replace_if", key, old, new)

    @overload
    def update(self, pairs: PairsOf[K, V], /) -> None: ...

    @overload
    def update(self, key: K, function: Callable[[Optional[V]], Optional[V]], /) -> Optional[V]: ...

    def update(self, *arguments: Any) -> Any:
        """`update(pairs)` stores each pair of a mapping or of a list of pairs.

        `update(key, function)` stores what the function makes of the key's value, and returns it: the function takes the value or
        None, and returns the new one or None, which removes the key. No bucket is locked while it runs; it is called again where
        another client changed the value meanwhile."""
        if len(arguments) == 1:
            return self.put_all(*arguments)
        key, function = arguments
        while True:
            before = self.get(key)
            after = function(before)
            if self._exchange(key, before, after):
                return after

    def put_all(self, pairs: PairsOf[K, V]) -> None:
        """Stores each pair of a mapping or of a list of pairs, in one step through the library."""
        raise NotImplementedError

    def get_all(self, keys: Any) -> List[Optional[V]]:
        """Returns the values at the keys, None where there is none, in one step through the library."""
        raise NotImplementedError


class OpenMap(Pairs[K, V], Owned):
    """An open map. `in`, items, copy and update take a client for as long as they run."""

    def _open(self, capacity: int, clients: int, *salt: int) -> None:
        check(self._functions["open"](number(capacity), min(number(clients), 2**32 - 1), *salt, self._handle))

    def client(self) -> Calls[K, V]:
        """Returns a client that is not in use, for one thread at a time."""
        raise NotImplementedError

    def close(self) -> ClosedMap[K, V]:
        """Closes the map, whose clients must all be freed, and returns the closed map."""
        raise NotImplementedError

    def _filled(self, client: Any) -> Any:
        self._do("client", client._handle)
        return client

    def _closed(self, closed: Any) -> Any:
        self._do("close")
        closed._handle, self._handle = self._handle, closed._handle
        return closed

    def count(self) -> int:
        """Returns how many keys there are; an estimate while calls run."""
        return self._count()

    def __len__(self) -> int:
        return self._count()

    def __contains__(self, key: K) -> bool:
        with self.client() as client:
            return key in client

    def items(self) -> Iterator[Tuple[K, V]]:
        """Goes over the pairs, some buckets at a time: each bucket as it is when it is read."""
        with self.client() as client:
            yield from client.items()

    @overload
    def update(self, pairs: PairsOf[K, V], /) -> None: ...

    @overload
    def update(self, key: K, function: Callable[[Optional[V]], Optional[V]], /) -> Optional[V]: ...

    def update(self, *arguments: Any) -> Any:
        """Stores each pair of a mapping or of a list of pairs, or changes one value by a function, as a client does."""
        with self.client() as client:
            return client.update(*arguments)


class NumberCalls(Calls[K, int]):
    """The calls of a client whose values are numbers."""

    def _packed(self, keys: Any) -> Tuple[Tuple[Any, ...], Any, int]:
        """Returns what stands for keys in calls on many, what must stay meanwhile, and how many there are."""
        raise NotImplementedError

    def _many(self, name: str, given: Tuple[Any, ...], values: Any, count: int) -> None:
        raise NotImplementedError

    def add(self, key: K, value: int = 1) -> int:
        """Adds to the value, up to 2**64 - 1, and returns the value after."""
        after: int = self._value("add", key, value)
        return after

    def greatest(self, key: K, value: int) -> int:
        """Stores the greater of the key's value and this one, and returns it."""
        after: int = self._value("greatest", key, value)
        return after

    def set(self, key: K, value: int) -> int:
        """Stores the value, and returns it."""
        after: int = self._value("set", key, value)
        return after

    def add_up_to(self, key: K, value: int, most: int) -> bool:
        """Adds to the value, or to 0, where the sum is at most `most`, and returns whether it is."""
        return self._truth("add_up_to", key, value, most)

    def put_all(self, pairs: PairsOf[K, int]) -> None:
        """Stores each pair of a mapping or of a list of pairs, in one step through the library."""
        self._all("put_all", pairs)

    def add_all(self, pairs: PairsOf[K, int]) -> None:
        """Adds each pair's value to the one at its key, in one step through the library. A collections.Counter is such a mapping."""
        self._all("add_all", pairs)

    def _all(self, name: str, pairs: PairsOf[K, int]) -> None:
        keys, values = parted(pairs)
        given, kept, count = self._packed(keys)
        packed, at_values = numbers(values)
        self._many(name, given, at_values, count)
        del kept, packed

    def get_all(self, keys: Any) -> List[Optional[int]]:
        """Returns the values at the keys, None where there is none, in one step through the library."""
        given, kept, count = self._packed(keys)
        answers = bytearray(_ANSWER * max(count, 1))
        self._many("get_all", given, Answer.from_buffer(answers), count)
        del kept
        found, words = answers[::_ANSWER][:count], array.array("Q", bytes(answers))
        values = words[1::2].tolist()[:count]
        return [value if it else None for it, value in zip(found, values)] if 0 in found else list(values)
