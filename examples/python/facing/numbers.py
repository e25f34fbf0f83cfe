"""The map of numbers: open, its clients, and closed."""
from __future__ import annotations

from typing import Any, Iterable, List, Optional, Tuple

from .calls import NumberCalls, OpenMap
from .library import LAST, SIZE, U64, Answer, Cursor, Seen, number, numbers
from .owned import ClosedMap, Owned, number_pairs


class Client(NumberCalls[int]):
    """A client of a map of numbers. It goes back to its map when it is freed."""

    def _answer(self, name: str, *arguments: Any) -> Answer:
        answer = Answer()
        self._do(name, *[it if type(it) is int and 0 <= it <= LAST else number(it) for it in arguments], answer)
        return answer

    def _value(self, name: str, key: Any, *values: Any) -> Any:
        answer = self._answer(name, key, *values)
        return answer.value if answer.found else None

    def _truth(self, name: str, key: Any, *values: Any) -> bool:
        found: int = self._answer(name, key, *values).found
        return found == 1

    def _exchange(self, key: int, before: Optional[int], after: Optional[int]) -> int:
        seen, values = Seen(), [None if it is None else U64(number(it)) for it in (before, after)]
        self._do("exchange", number(key), *values, seen)
        exchanged: int = seen.exchanged
        return exchanged

    def _next_pairs(self, cursor: Cursor, count: int = 4096, size: int = 0) -> List[Tuple[int, int]]:
        return number_pairs(self, cursor, count)

    def _packed(self, keys: Iterable[int]) -> Tuple[Tuple[Any, ...], Any, int]:
        packed, at_keys = numbers(keys)
        return (at_keys,), packed, len(packed)

    def _many(self, name: str, given: Tuple[Any, ...], values: Any, count: int) -> None:
        self._do(name, *given, values, count, SIZE())


class Map(OpenMap[int, int]):
    """An open map of numbers, with a table of so many buckets to begin with, and so many clients. It draws a secret seed.

    `in`, items, copy and update take a client for as long as they run."""

    def __init__(self, capacity: int = 16, clients: int = 4, salt: int = 0) -> None:
        super().__init__()
        self._open(capacity, clients, number(salt) & 0xFFFFFFFF)

    def client(self) -> Client:
        """Returns a client that is not in use, for one thread at a time."""
        client: Client = self._filled(Client())
        return client

    def close(self) -> Closed:
        """Closes the map, whose clients must all be freed, and returns the closed map."""
        closed: Closed = self._closed(Closed())
        return closed


class Closed(ClosedMap[int, int]):
    """A closed map of numbers."""

    def _find(self, key: int) -> Optional[int]:
        answer = Answer()
        self._do("find", number(key), answer)
        return answer.value if answer.found else None

    def _next_pairs(self, cursor: Cursor, count: int = 4096, size: int = 0) -> List[Tuple[int, int]]:
        return number_pairs(self, cursor, count)

    def reopen(self, clients: int = 4) -> Map:
        """Returns an open map with copies of the pairs."""
        opened = Map.__new__(Map)
        Owned.__init__(opened)
        self._reopened(opened, clients)
        return opened
