"""The calls of the C library, each written once. tools/exports makes of a row the exports in crates/facing/src with their contracts, their
declarations in the headers for C and in the Rust package, the functions that call them, those of the pools, and the methods in C++.

To add a call, add a row where the call is to stand in the files, and run tools/exports. A call whose export makes an `Op` needs no more.
One that does something else also needs templates in kinds.py, which has what each kind of map says of its calls.

Not here: opening and closing; pairs and heads; many calls at once; facing_bytes_hold and facing_bytes_read, which bytes alone have; and the
lists of functions in facing_base.hpp."""
from dataclasses import dataclass, field

EVERY, NUMERIC = ("numbers", "counts", "bytes"), ("numbers", "counts")


@dataclass(frozen=True)
class Call:
    """A call at a key, of a client or of a closed map."""

    name: str
    # The comments of the export and of the header's function.
    export: str
    header: str
    # The variant of `Op` that the export makes, and the variant of `Merging` in it.
    op: str = ""
    merging: str = ""
    # The arguments behind the key: values, or with its type what is no value of the map.
    takes: str = ""
    # A value, for which a map of bytes is given room, a truth, or a number that is always there.
    answers: str = "value"
    kinds: tuple = EVERY
    # Whose handle it takes: the export of a `client` tries, and waits for nobody; a `closed` map is read.
    handle: str = "client"
    # The source and the header of the call of all kinds, where it does not stand in those of each kind.
    files: tuple = ()
    # The comments of a kind that has others.
    own: dict = field(default_factory=dict)

    def said(self, kind, where):
        return self.own.get(kind, {}).get(where) or getattr(self, where)


CALLS = (
    Call(
        "get",
        "Gets the value at the key.",
        "The answer is the value at the key.",
        op="Get",
        own={
            "counts": {"export": "Gets the value at the key. It takes no memory."},
            "bytes": {
                "export": "Gets the value at the key, where it finds room. It answers how many bytes the value has. No key is made. At most 22"
                " bytes are copied while the bucket is locked; a longer value has an owner more for as long as it is copied.",
                "header": "Copies the value at the key into `room`, once the bucket is unlocked. Where the value is longer than the room"
                " nothing is copied, the status is FACING_NO_ROOM, and the answer is {1, its length}; the rest of the room is as it was.",
            },
        },
    ),
    Call(
        "contains",
        "Whether the key has a value.",
        "The answer is whether the key has a value, in `found` alone.",
        op="Contains",
        answers="truth",
        own={
            "counts": {"export": "Whether the key has a value. It takes no memory."},
            "bytes": {"export": "Whether the key has a value. It takes no memory."},
        },
    ),
    Call(
        "put",
        "Gives the key this value. It answers the value before.",
        "Stores the value at the key. The answer is the value before.",
        op="Put",
        takes="value",
        own={
            "bytes": {
                "header": "Stores the value at the key. The answer is the value before: its first bytes are copied into `room`, as many as it has"
                " room for, and `len` is its whole length. So it is for facing_bytes_put_if_absent, _remove and _replace.",
            },
        },
    ),
    Call(
        "put_if_absent",
        "Gives the key this value where it has none. It answers the value before.",
        "Stores the value where the key has none. The answer is the value before.",
        op="PutIfAbsent",
        takes="value",
    ),
    Call(
        "remove",
        "Takes the key away. It answers the value before.",
        "Removes the key. The answer is the value before.",
        op="Remove",
    ),
    Call(
        "remove_if",
        "Takes the key away where it has this value. It answers whether it had.",
        "Removes the key where it has this value. The answer is whether it had, in `found` alone.",
        op="RemoveIf",
        takes="value",
        answers="truth",
    ),
    Call(
        "replace",
        "Gives the key this value where it has one. It answers the value before.",
        "Stores the value where the key has one. The answer is the value before.",
        op="Replace",
        takes="value",
    ),
    Call(
        "replace_if",
        "Gives the key the new value where it has the old one. It answers whether it had.",
        "Stores the new value where the key has the old one. The answer is whether it had, in `found` alone.",
        op="ReplaceIf",
        takes="old, new",
        answers="truth",
    ),
    Call(
        "add",
        "Adds to the value at the key, or gives it this one where it has none. It answers the value after.",
        "Adds to the value at the key, up to 2^64 - 1, or stores the value where there is none. The answer is the value after.",
        op="Merge",
        merging="Add",
        takes="value",
        answers="number",
        kinds=NUMERIC,
    ),
    Call(
        "greatest",
        "Gives the key the greater of its value and this one. It answers the value after.",
        "Stores the greater of the key's value and this one. The answer is the value after.",
        op="Merge",
        merging="Greatest",
        takes="value",
        answers="number",
        kinds=NUMERIC,
    ),
    Call(
        "set",
        "Gives the key this value. It answers the value after.",
        "Stores the value at the key. The answer is the value after, which is this one.",
        op="Merge",
        merging="Set",
        takes="value",
        answers="number",
        kinds=NUMERIC,
    ),
    Call(
        "find",
        "Finds the value at a key of a closed map.",
        "The answer is the value at a key of a closed map. Takes no lock and no memory.",
        handle="closed",
        own={
            "bytes": {
                "export": "Finds the value at a key of a closed map, where it finds room. It answers how many bytes the value has.",
                "header": "Copies the value at a key of a closed map into `room`, as facing_bytes_get does. Takes no lock and no memory.",
            },
        },
    ),
    Call(
        "exchange",
        "Gives the key this value, or none, where it has the one that is expected, or none. It answers whether it did, and what was there.",
        "Stores *value at the key, or removes the key where `value` is NULL, if the key's value is *expected, or if it has none and `expected`"
        " is NULL. Else nothing changes. `seen` is whether it was so, and the value that was there; it may be\nNULL.",
        takes="has_expected: u32, expected, has_value: u32, value",
        files=("exchanges.rt", "facing_change.h"),
        own={
            "counts": {"header": "Exchanges as facing_exchange does."},
            "bytes": {
                "export": "Gives the key this value, or none, where it has the one that is expected, or none. It answers whether it did, and"
                " what was there, as far as there is room for it. At most 22 bytes are copied while the bucket is locked; the bytes that are"
                " expected are compared there.",
                "header": "Stores the bytes of `value` at the key, or removes the key where `value` is NULL, if the key's value is that of"
                " `expected`, or if it has none and `expected` is NULL. Else nothing changes. `seen` is whether it was so, and how many bytes"
                " the value had that was there; its first bytes are copied into `room`, as many as it has room for. `seen` may be NULL. The"
                " new value is copied before the bucket is locked, also where it is not stored then.",
            },
        },
    ),
    Call(
        "add_up_to",
        "Adds to the value at the key, where the sum is at most this bound; a key without a value counts as 0. It answers whether it was,"
        " and the value after.",
        "Adds to the value at the key where the sum is at most `most`; a key without a value counts as 0. Else nothing changes. The answer's"
        " `found` is 1 where it was added, and `value` is the value after the call, or 0 where the key has none. It may be NULL. So a counter"
        " with a bound is one call, as for a limit of requests: facing_add_up_to(client, who, 1, 100, &answer).",
        takes="amount: u64, most: u64",
        answers="truth",
        files=("exchanges.rt", "facing_change.h"),
        kinds=NUMERIC,
        own={"counts": {"header": "Adds as facing_add_up_to does."}},
    ),
)
