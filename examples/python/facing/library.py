"""The shared library: where it is, its statuses and what fails, its functions, and what they take."""
from __future__ import annotations

import array
import collections.abc
import ctypes
import operator
import os
from typing import Any, Dict, Iterable, List, Mapping, Optional, Tuple, TypeVar, Union

K = TypeVar("K")
V = TypeVar("V")
# What calls on many pairs take.
PairsOf = Union[Mapping[K, V], Iterable[Tuple[K, V]]]

U64, U32, SIZE = ctypes.c_uint64, ctypes.c_uint32, ctypes.c_size_t
# The most bytes of a key, and of a value unless its map was opened for longer ones.
LONGEST = 65536
LAST = 2**64 - 1
NAMES = (
    "DONE BUSY NO_MEMORY CLIENT_FULL BAD_CAPACITY BAD_CLIENTS CLIENT_OUT BIN_MISSING WRONG_HANDLE BAD_ARGUMENT TOO_LONG NO_CLIENT "
    "NO_SEED NO_ROOM AFTER_FORK"
).split()
# The first two numbers of the library's version, which are in its name.
ABI = "0.1"


class Fault(Exception):
    """Why a call failed; `name` is a name of NAMES, or "UNKNOWN" for a status of a newer library. The map is as it was."""

    def __init__(self, status: int) -> None:
        super().__init__(LIB.facing_strerror(status).decode())
        self.name: str = NAMES[status] if status < len(NAMES) else "UNKNOWN"
        self._made_of = status

    def __reduce__(self) -> Tuple[Any, ...]:
        return type(self), (self._made_of,)


class NoMemory(Fault, MemoryError):
    """Out of memory."""


class AfterFork(Fault):
    """The map or the client belongs to the process that this one was forked from."""

    def __init__(self, owner: Optional[int]) -> None:
        super().__init__(NAMES.index("AFTER_FORK"))
        self.args = (
            f"process {owner} opened this map, and process {os.getpid()} was forked from it, so they do not share it. Open the map in "
            "the process that uses it, or send the pairs",
        )

    def __reduce__(self) -> Tuple[Any, ...]:
        return _after_fork, self.args


def _after_fork(told: str) -> AfterFork:
    """Returns the fault that another process raised."""
    fault = AfterFork(None)
    fault.args = (told,)
    return fault


class Handle(ctypes.Structure):
    _fields_ = [("at", ctypes.c_void_p)]


class Answer(ctypes.Structure):
    _fields_ = [("found", U32), ("value", U64)]


class Cursor(ctypes.Structure):
    _fields_ = [("at", U64)]


class Sizes(ctypes.Structure):
    _fields_ = [("pairs", U64), ("bytes", U64)]


class Seen(ctypes.Structure):
    _fields_ = [("exchanged", U32), ("found", U32), ("value", U64)]


class View(ctypes.Structure):
    _fields_ = [("at", ctypes.c_char_p), ("len", SIZE)]


def _places() -> List[str]:
    """Where the shared library may be, the likeliest first: paths, and names that the linker looks for."""
    if os.environ.get("FACING"):
        return [os.environ["FACING"]]
    here = os.path.dirname(os.path.realpath(__file__))
    names = [f"libfacing.so.{ABI}", "libfacing.so"]
    beside = [os.path.join(here, up, name) for up in ("", "..") for name in names]
    return [it for it in beside if os.path.exists(it)] + names


def _load() -> ctypes.CDLL:
    refused = []
    for place in _places():
        try:
            return ctypes.CDLL(place)
        except OSError as why:
            refused.append(str(why))
    raise ImportError(
        f"facing: {'; '.join(refused)}. Install the library with tools/install PREFIX, and put it beside this package or where the "
        "linker looks, or set FACING to its path"
    )


LIB = _load()
LIB.facing_strerror.argtypes, LIB.facing_strerror.restype = [U32], ctypes.c_char_p
LIB.facing_version.argtypes, LIB.facing_version.restype = [], ctypes.c_char_p


def _declare() -> Dict[str, Dict[str, Any]]:
    """Declares the functions of facing.h, facing_bytes.h and facing_counts.h, and returns those of each by their names in it."""
    handle, answer, numbers, size = (ctypes.POINTER(Handle), ctypes.POINTER(Answer), ctypes.POINTER(U64), ctypes.POINTER(SIZE))
    data: List[Any] = [ctypes.c_char_p, SIZE]
    cursor, sizes = ctypes.POINTER(Cursor), ctypes.POINTER(Sizes)
    forms: Dict[str, List[Any]] = {}
    kinds: List[Tuple[str, List[Any]]] = [("facing", [U64]), ("facing_counts", data), ("facing_bytes", data)]
    for kind, key in kinds:
        forms |= {f"{kind}_{name}": [handle] for name in ("close", "free")}
        forms |= {f"{kind}_client": [handle, handle], f"{kind}_count": [handle, numbers], f"{kind}_reopen": [handle, U32, handle]}
        forms[f"{kind}_open"] = [SIZE, U32, *([U32] if kind == "facing" else []), handle]
        value: List[Any] = data if kind == "facing_bytes" else [U64]
        room: List[Any] = data if kind == "facing_bytes" else []
        forms |= {f"{kind}_{name}": [handle, *key, *room, answer] for name in ("get", "remove", "find")}
        forms |= {f"{kind}_{name}": [handle, *key, *value, *room, answer] for name in ("put", "put_if_absent", "replace")}
        forms[f"{kind}_contains"] = [handle, *key, answer]
        forms[f"{kind}_remove_if"] = [handle, *key, *value, answer]
        forms[f"{kind}_replace_if"] = [handle, *key, *value, *value, answer]
        if not room:
            forms |= {f"{kind}_{name}": [handle, *key, U64, answer] for name in ("add", "greatest", "set")}
            forms[f"{kind}_add_up_to"] = [handle, *key, U64, U64, answer]
        told: List[Any] = [numbers, numbers] if not room else [ctypes.POINTER(View), ctypes.POINTER(View), *room]
        forms[f"{kind}_exchange"] = [handle, *key, *told, ctypes.POINTER(Seen)]
    forms["facing_pairs"] = [handle, cursor, numbers, numbers, SIZE, size]
    forms |= {f"{kind}_pairs": [handle, cursor, numbers, numbers, SIZE, *data, sizes] for kind in ("facing_counts", "facing_bytes")}
    forms |= {f"facing_{name}_all": [handle, numbers, numbers, SIZE, size] for name in ("put", "add")}
    forms["facing_get_all"] = [handle, numbers, answer, SIZE, size]
    forms |= {f"facing_counts_{name}_all": [handle, numbers, SIZE, *data, numbers, size] for name in ("put", "add")}
    forms["facing_counts_get_all"] = [handle, numbers, SIZE, *data, answer, size]
    forms["facing_bytes_put_all"] = [handle, numbers, numbers, SIZE, *data, size]
    forms["facing_bytes_get_all"] = [handle, numbers, SIZE, *data, *data, answer, size]
    for name, form in forms.items():
        function = getattr(LIB, name)
        function.argtypes, function.restype = form, None if name.endswith("_free") else U32
    functions: Dict[str, Dict[str, Any]] = {"facing": {}, "facing_counts": {}, "facing_bytes": {}}
    for name in forms:
        kind = next(it for it in ("facing_counts", "facing_bytes", "facing") if name.startswith(f"{it}_"))
        functions[kind][name[len(kind) + 1 :]] = getattr(LIB, name)
    return functions


FUNCTIONS = _declare()


def version() -> str:
    """The library's version, as "0.1.0"; "0.1.0 unproved" where it was built without its proofs."""
    told: bytes = LIB.facing_version()
    return told.decode()


def number(value: Any) -> int:
    """Returns a value that fits into 64 bits; else it raises OverflowError, or TypeError where it is no integer."""
    whole: int = operator.index(value)
    if not 0 <= whole < 1 << 64:
        raise OverflowError(f"{whole} is not a number of 64 bits: 0 to 2**64 - 1")
    return whole


def text(value: Any) -> bytes:
    """Returns a value that is bytes, or like them; else it raises TypeError."""
    if not isinstance(value, (bytes, bytearray, memoryview)):
        raise TypeError(f"a {type(value).__name__} is not bytes")
    return bytes(value)


def numbers(values: Iterable[int]) -> Tuple[array.array[int], Any]:
    """Returns values as an array, and what stands for it in a call."""
    try:
        # (of bytes an array would take eight for one number)
        packed = array.array("Q", values if isinstance(values, (list, tuple)) else list(values))
    except OverflowError:
        raise OverflowError("a number is not of 64 bits: 0 to 2**64 - 1") from None
    return packed, U64.from_buffer(packed) if packed else None


def parted(pairs: PairsOf[K, V]) -> Tuple[List[K], List[V]]:
    """Returns the keys and the values of a mapping or of pairs."""
    both = list(pairs.items() if isinstance(pairs, collections.abc.Mapping) else pairs)
    return [key for key, _ in both], [value for _, value in both]


def check(status: int) -> None:
    """Raises where a call was not made."""
    if status == NAMES.index("NO_MEMORY"):
        raise NoMemory(status)
    if status:
        raise Fault(status)
