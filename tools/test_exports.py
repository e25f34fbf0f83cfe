"""Tests tools/exports, on a call and files by hand.

usage: python3 tools/test_exports.py

It changes no file."""
import dataclasses
import os
import sys
import unittest

sys.dont_write_bytecode = True
sys.path.insert(0, os.path.dirname(os.path.realpath(__file__)))
from exporting import calls, layout, places  # noqa: E402
from exporting.kinds import KINDS  # noqa: E402
from exporting.texts import CallOfKind, imports  # noqa: E402

NUMBERS, COUNTS, BYTES = KINDS
# A call that no map has.
SWAP = calls.Call("swap", "Swaps two values.", "Swaps the values.", op="Swap", takes="old, new", own={"bytes": {"header": "Swaps bytes."}})
TWICE = dataclasses.replace(SWAP, name="twice", op="Merge", merging="Twice", takes="value")
ASK = dataclasses.replace(SWAP, name="ask", takes="value", answers="truth")

EXPORT_OF_NUMBERS = """\
/// Swaps two values.
#[unsafe(no_mangle)]
pub extern "C" fn facing_c_try_swap(
    client: FacingHandle,
    out: &mut FacingOut,
    key: u64,
    old: u64,
    new: u64,
    answer: &mut FacingAnswer,
) -> u32
    ensures filled { IsFilled client.ptr → IsFilled out.new.ptr }
    ensures told { IsFilled client.ptr →
        IsNumberTold client.target (λ k. Swap k old new) key out.new.target result answer.old answer.new }
    ensures null { ¬ IsFilled client.ptr →
        (result ≡ facing_wrong_handle) × (out.new ≡ out.old) × (answer.new ≡ answer.old) }
{
    call(client, out, key, Op::Swap(old, new), answer)
}
"""
EXPORT_OF_BYTES = """\
/// Swaps two values.
#[unsafe(no_mangle)]
pub extern "C" fn facing_c_bytes_try_swap(
    client: FacingHandle,
    out: &mut FacingOut,
    key: &[u8],
    old: &[u8],
    new: &[u8],
    room: &mut [u8],
    answer: &mut FacingAnswer,
) -> u32
    ensures filled { IsFilled client.ptr → IsFilled out.new.ptr }
    ensures told { IsFilled client.ptr → IsBytesTold client.target (Swap old.now new.now) key.now
        out.new.target result (room.old, answer.old) (room.new, answer.new) }
    ensures null { ¬ IsFilled client.ptr → (result ≡ facing_wrong_handle) × (out.new ≡ out.old)
        × (room.new ≡ room.old) × (answer.new ≡ answer.old) }
{
    call(
        client,
        out,
        key,
        Op::Swap(Bytes(old), Bytes(new)),
        room,
        answer,
    )
}
"""
FUNCTION_OF_COUNTS = """\
/* Swaps the values. */
FACING_CHECKED FACING_API uint32_t facing_counts_swap(facing_counts_handle *client, const void *key, size_t key_len,
                                                      uint64_t old_value, uint64_t new_value, facing_answer *answer) {
    FACING_COUNTS_CALL(facing_c_counts_try_swap(lent, &back, facing_bytes_at(key), key_len, old_value, new_value, answer));
}
"""
FUNCTION_OF_BYTES = """\
/* Swaps bytes. */
FACING_CHECKED FACING_API uint32_t facing_bytes_swap(facing_bytes_handle *client, const void *key, size_t key_len,
                                                     const void *old_value, size_t old_len, const void *new_value,
                                                     size_t new_len, void *room, size_t room_len,
                                                     facing_bytes_answer *answer) {
    FACING_BYTES_CALL(facing_bytes_are_wrong(key, key_len, room, room_len)
                          || facing_bytes_are_wrong(old_value, old_len, room, room_len)
                          || facing_bytes_are_wrong(new_value, new_len, room, room_len),
                      facing_c_bytes_try_swap(lent, &back, facing_bytes_at(key), key_len, facing_bytes_at(old_value),
                                              old_len, facing_bytes_at(new_value), new_len, facing_bytes_at(room), room_len,
                                              &told));
}
"""
POOL_OF_NUMBERS = """\
FACING_CHECKED FACING_API uint32_t facing_pool_swap(facing_pool *pool, uint64_t key, uint64_t old_value, uint64_t new_value,
                                                    facing_answer *answer) {
    FACING_BY_NUMBERS(facing_swap(client, key, old_value, new_value, answer));
}
"""


class Calls(unittest.TestCase):
    """Each text of a call, as a programmer would write it."""

    def test_export_of_numbers(self):
        self.assertEqual(CallOfKind(SWAP, NUMBERS).export(), EXPORT_OF_NUMBERS)

    def test_export_of_bytes(self):
        self.assertEqual(CallOfKind(SWAP, BYTES).export(), EXPORT_OF_BYTES)

    def test_a_truth_of_bytes_has_no_room(self):
        made = CallOfKind(ASK, BYTES)
        self.assertNotIn("room", made.export() + made.declaration() + made.function() + made.pool_function())
        self.assertIn("IsTruthTold client.target (Swap value.now) key.now\n", made.export())
        self.assertIn("    ask(client, out, key, Op::Swap(Bytes(value)), answer)\n", made.export())
        self.assertIn("facing_bytes_are_none(key, key_len) || facing_bytes_are_none(value, value_len)", made.function())

    def test_a_merge_names_its_function(self):
        export = CallOfKind(TWICE, COUNTS).export()
        self.assertIn("IsCountTold client.target (λ k. Merge k value Merging.Twice) key.now\n", export)
        self.assertIn("    call(client, out, key, Op::Merge(value, Merging::Twice), answer)\n", export)

    def test_declarations(self):
        self.assertEqual(
            CallOfKind(TWICE, NUMBERS).declaration(),
            "uint32_t facing_c_try_twice(facing_handle client, facing_handle *out, uint64_t key, uint64_t value, facing_answer *answer);\n",
        )
        self.assertEqual(
            CallOfKind(ASK, BYTES).declaration(),
            "uint32_t facing_c_bytes_try_ask(facing_handle client, facing_handle *out, const uint8_t *key, size_t key_len,\n"
            "                                const uint8_t *value, size_t value_len, facing_answer *answer);\n",
        )

    def test_declarations_for_rust(self):
        self.assertEqual(
            CallOfKind(TWICE, NUMBERS).in_rust(),
            "    pub(crate) fn facing_c_try_twice(client: Handle, out: Out, key: u64, value: u64, answer: Told) -> u32;\n",
        )
        broken = ["client: Handle", "out: Out", "key: Bytes", "len: usize", "value: Bytes", "value_len: usize", "answer: Told"]
        self.assertEqual(
            CallOfKind(ASK, BYTES).in_rust(),
            "    pub(crate) fn facing_c_bytes_try_ask(\n" + "".join(f"        {it},\n" for it in broken) + "    ) -> u32;\n",
        )

    def test_functions(self):
        self.assertEqual(CallOfKind(SWAP, COUNTS).function(), FUNCTION_OF_COUNTS)
        self.assertEqual(CallOfKind(SWAP, BYTES).function(), FUNCTION_OF_BYTES)
        self.assertEqual(CallOfKind(SWAP, NUMBERS).pool_function(), POOL_OF_NUMBERS)

    def test_methods(self):
        self.assertEqual(
            CallOfKind(SWAP, NUMBERS).method(),
            "    std::optional<std::uint64_t> swap(key_type key, std::uint64_t old_value, std::uint64_t new_value) {\n"
            "        return value_of(answer(Library::swap, &this->at_, key, old_value, new_value));\n"
            "    }\n",
        )
        self.assertEqual(
            CallOfKind(ASK, BYTES).method(),
            "    bool ask(std::string_view key, std::string_view value_) {\n"
            "        bound(value_);\n"
            "        return truth(facing_bytes_ask, key.data(), key.size(), value_.data(), value_.size());\n"
            "    }\n",
        )
        self.assertEqual(CallOfKind(SWAP, COUNTS).method(), "")

    def test_imports_are_what_contracts_name(self):
        get = next(it for it in calls.CALLS if it.name == "get")
        path, lines = imports(COUNTS, [CallOfKind(it, COUNTS) for it in (get, SWAP, TWICE, TWICE)])
        self.assertEqual(lines, f"{path}{{Swap, Merge}};\n")


class Layout(unittest.TestCase):
    def test_a_call_in_rattle_has_60_columns_of_arguments(self):
        at_60 = f"call({'a' * 28}, {'b' * 30})"
        self.assertEqual(layout.rattle_call(at_60), at_60)
        at_61, broken = f"call({'a' * 29}, b(c, {'e' * 24}))", f"call(\n        {'a' * 29},\n        b(c, {'e' * 24}),\n    )"
        self.assertEqual(layout.rattle_call(at_61), broken)

    def test_a_line_in_c_has_125_columns(self):
        line = f"    call({'a' * 60}, {'b' * 52});"
        self.assertEqual(len(line), 125)
        self.assertEqual(layout.c_lines(line), line)
        longer = line.replace("b);", "bb);")
        self.assertEqual(layout.c_lines(longer), longer.replace(", ", ",\n         "))

    def test_arguments_that_are_too_long_stand_further_in(self):
        inner = f"inner({'a' * 50}, {'b' * 50})"
        self.assertEqual(layout.c_lines(f"    an_outer_one({inner});"), f"    an_outer_one(\n        {inner});")

    def test_arguments_that_are_too_long_there_too_are_broken(self):
        self.assertEqual(
            layout.c_lines(f"    outer(inner({'a' * 60}, {'b' * 60}));"),
            f"    outer(inner({'a' * 60},\n                {'b' * 60}));",
        )

    def test_a_result_in_rust_has_a_line_of_its_own(self):
        a, b = "a" * 53, "b" * 49
        self.assertEqual(layout.rust_declaration("fn f", [a, b], "-> u32;"), f"    fn f({a}, {b}) -> u32;\n")
        self.assertEqual(layout.rust_declaration("fn f", [a, b + "b"], "-> u32;"), f"    fn f({a}, {b}b)\n        -> u32;\n")
        b = "b" * 56
        self.assertEqual(layout.rust_declaration("fn f", [a, b], "-> u32;"), f"    fn f(\n        {a},\n        {b},\n    ) -> u32;\n")

    def test_comments(self):
        self.assertEqual(layout.c_comment(f"{'a' * 60} {'b' * 57}"), f"/* {'a' * 60} {'b' * 57} */\n")
        self.assertEqual(layout.c_comment(f"{'a' * 60} {'b' * 58}"), f"/* {'a' * 60} {'b' * 58}\n * */\n")
        self.assertEqual(layout.rattle_comment(f"A line.\n{'a' * 50} {'b' * 51}"), f"/// A line.\n/// {'a' * 50}\n/// {'b' * 51}\n")

    def test_imports_fill_104_columns(self):
        path = "use some::path::"
        names = ["A" * 40, "B" * 43, "C"]
        self.assertEqual(layout.rattle_imports(path, names), f"{path}{{{names[0]}, {names[1]}}};\n{path}{{C}};\n")


FILE = """\
/* One. */
FACING_CHECKED FACING_API uint32_t facing_one(int a) {
    return a;
}

/* Three. */
FACING_CHECKED FACING_API uint32_t facing_three(int a) {
    return a;
}
"""
TWO = FILE.split("\n\n")[0].replace("One", "Two").replace("one", "two") + "\n"


def function(name, made):
    return places.Text(f"facing_{name}", places.FUNCTION, made)


class Places(unittest.TestCase):
    def setUp(self):
        self.one, self.three = (function(name, it.rstrip("\n") + "\n") for name, it in zip(("one", "three"), FILE.split("\n\n")))

    def test_a_file_that_has_all_stays(self):
        self.assertEqual(places.with_texts(FILE, [self.one, self.three]), FILE)
        self.assertEqual(list(places.differences(FILE, [self.one, self.three])), [])

    def test_what_differs_is_found_and_put_right(self):
        other = FILE.replace("return a;\n}\n", "return b;\n}\n").replace("return b", "return a", 1)
        self.assertEqual(list(places.differences(other, [self.one, self.three])), [(8, "facing_three")])
        self.assertEqual(places.with_texts(other, [self.one, self.three]), FILE)

    def test_a_comment_is_part_of_its_function(self):
        other = FILE.replace("Three.", "Four.")
        self.assertEqual(list(places.differences(other, [self.one, self.three])), [(6, "facing_three")])

    def test_a_comment_that_is_lost_is_put_back(self):
        self.assertEqual(places.with_texts(FILE.replace("/* Three. */\n", ""), [self.one, self.three]), FILE)

    def test_a_new_text_stands_behind_the_one_before(self):
        its = [self.one, function("two", TWO), self.three]
        self.assertEqual(list(places.differences(FILE, its)), [(None, "facing_two")])
        head, tail = FILE.split("\n\n")
        self.assertEqual(places.with_texts(FILE, its), f"{head}\n\n{TWO}\n{tail}")

    def test_a_first_text_needs_a_place(self):
        with self.assertRaises(places.Misplaced):
            places.with_texts(FILE, [function("two", TWO), self.one])

    def test_a_text_that_stands_twice_is_refused(self):
        with self.assertRaises(places.Misplaced):
            places.with_texts(FILE + "\n" + FILE, [self.one])

    def test_a_name_that_begins_another_is_not_it(self):
        self.assertIsNone(function("on", "").place(FILE))

    def test_each_text_has_one_place(self):
        for path, its in places.texts():
            whole = places.text_of(path)
            self.assertEqual([it.name for it in its if it.place(whole) is None], [], path)

    def test_an_export_without_a_row_is_told(self):
        rows = places.CALLS
        try:
            places.CALLS = tuple(it for it in rows if it.name != "replace")
            told = [it for it in places.faults() if "has no row" in it]
        finally:
            places.CALLS = rows
        names = [it.rsplit(" ", 1)[1] for it in told]
        self.assertEqual(names, ["facing_c_try_replace", "facing_c_counts_try_replace", "facing_c_bytes_try_replace"])


if __name__ == "__main__":
    unittest.main()
