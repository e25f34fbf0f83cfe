"""Writes docs/TESTS.md, which lists the things that tests assert, with links to the tests.

usage: python3 docs/tests.py            writes the page: the things of THINGS, with the tests that assert them, and NEEDS
       python3 docs/tests.py --all      prints all tests instead, by crate and file"""
import os
import sys

import sources

PATH = "docs/TESTS.md"
HEAD = """# Tests

`bin/test` runs all {count} tests, in two builds without proofs: one that checks arithmetic and indices, and one that is
optimised. [A test needs no proof](CHECKING.md#what-is-proved-and-what-is-run), and [a recipe](../CONTRIBUTING.md#add-a-test)
says how to add one. A test's name says what it asserts. Expected values are written by hand, from the rules, and never
taken from the program's output. The tests include *fault injection*: each request for memory of a call fails in turn.

Other kinds of tests have pages of their own: [mutation testing](TRIED.md),
[recorded histories of real runs](THEOREM.md#real-time-is-tested-not-proved), and the
[tests of the C library](C.md#what-is-proved-and-what-a-program-must-keep).

`python3 docs/tests.py` writes this page, and `python3 docs/tests.py --all` prints all tests by crate and file.

## Which test asserts what
"""
# What a reader looks for, and the tests that assert it.
THINGS = (
    ("each of the twelve calls: what it returns and what it leaves, such as `merge` on an absent key", "each_call_replies_and_leaves_what_its_row_says", "each_call_replies_as_its_row_says"),
    ("typed calls of a client, and the example in the documentation of each", "each_typed_call_answers", "each_example_of_a_call_is_as_it_says"),
    ("calls that borrow their key", "each_call_that_borrows_its_key_answers", "calls_that_borrow_their_key_reply_as_those_that_take_it"),
    ("calls by a slice, which make no key", "calls_by_a_slice_ask_for_a_copy_of_the_value_alone", "a_slice_finds_the_key_of_its_bytes_and_makes_none"),
    ("`view`: what it shows, what it copies, and what it locks", "a_view_sees_what_the_call_before_it_left", "a_view_copies_nothing_and_a_look_up_a_value", "a_function_that_calls_the_map_finds_its_own_bucket_locked", "a_busy_try_calls_no_function", "a_busy_try_of_a_client_calls_no_function"),
    ("`update`: which call it is, and what it allocates", "an_update_is_the_call_for_its_change", "a_lean_update_asks_for_memory_where_it_makes_an_entry", "a_refused_update_of_a_recorded_map_changes_nothing"),
    ("functions that are lent or given a value, and keys that are made only where there are none", "each_example_of_a_value_that_a_client_lends_is_as_it_says", "each_example_of_what_makes_its_key_is_as_it_says", "a_list_grows_where_it_lies", "an_error_of_the_function_leaves_the_value", "what_is_refused_comes_back_uncalled", "a_key_that_is_there_asks_for_no_memory", "a_busy_try_lends_nothing"),
    ("`retain`", "each_entry_that_goes_is_a_remove", "a_refused_remove_leaves_those_before_it"),
    ("walks by a cursor, one bucket at a time", "a_client_calls_between_two_steps_of_its_walk", "a_walk_shows_each_key_once_whatever_was_divided", "a_walk_goes_in_the_order_of_the_table_of_its_beginning", "a_cursor_of_a_wider_table_meets_each_bucket_by_its_parts"),
    ("codes, hashes, salts", "known_codes_spreads_hashes_and_slots", "numbers_have_known_codes"),
    ("seeds: known codes, and keys that collide without one", "codes_under_a_seed_are_known", "keys_that_share_a_plain_code_differ_under_a_seed"),
    ("a set", "a_key_is_inserted_and_removed_once"),
    ("a bounded cache: what a get returns, deadlines, which entries go and where to, the bound", "a_get_returns_what_the_last_put_left", "an_entry_is_there_before_its_deadline_alone", "the_entry_that_was_not_used_goes", "each_entry_is_left_or_was_handed_over_once", "clients_at_work_keep_the_bound", "clients_that_come_and_go_move_one_hand", "the_hit_rate_is_within_two_points_of_an_exact_lru"),
    ("maps for text from outside: calls by queries, seeds, closing and opening again", "each_call_takes_the_query_of_a_text", "texts_that_differ_are_other_keys", "two_maps_draw_two_seeds", "a_map_has_the_seed_that_its_source_gives", "a_map_is_opened_again_with_its_texts_and_its_seed", "a_map_with_a_client_out_comes_back_with_its_seed"),
    ("keys of bytes, of which the short ones lie in themselves", "up_to_eighteen_bytes_lie_inline", "clones_of_long_keys_alone_take_memory", "keys_are_equal_to_those_of_the_same_bytes_alone"),
    ("the functions `Add`, `Greatest`, `Set`", "functions_merge"),
    ("how a bin folds its records and splits", "the_oldest_records_are_folded", "a_salted_bin_is_split_by_salted_hashes"),
    ("many keys of one hash", "a_million_entries_under_one_hash"),
    ("growth: at which counts, and to how many buckets", "a_recorded_table_grows_at_three_keys_to_four_bins", "a_recorded_table_grows_at_three_quarters_of_its_bins", "a_narrow_lean_table_grows_at_a_key_to_four_bins", "a_lean_table_of_256_bins_grows_at_three_keys_to_two_bins", "many_clients_that_put_few_keys_each_leave_few_keys_in_a_bin"),
    ("moves: each bucket moves once, and other calls help", "two_threads_forward_one_class_once", "a_call_helps_with_a_stride"),
    ("a locked bucket, which a move skips", "what_was_skipped_is_moved_later", "a_bin_that_a_move_skipped_is_moved_by_the_next_call_on_it"),
    ("tried calls on a locked bucket", "a_call_that_is_tried_is_not_made_where_its_bin_is_held"),
    ("what a waiting call waits for", "a_function_waits_for_a_put_on_another_bin", "two_glances_copy_one_value_at_once"),
    ("a move that fails", "a_refused_move_leaves_the_bin", "a_later_call_goes_on_with_a_refused_move"),
    ("out of memory in a call: each request fails in turn", "a_refused_call_leaves_the_bin", "each_request_is_refused_in_turn"),
    ("which calls of a lean map allocate", "calls_on_a_lean_map_ask_for_memory_for_new_keys_alone", "changes_of_a_lean_map_move_their_values"),
    ("how often keys and functions are called", "each_call_asks_its_key_and_its_function_so_often"),
    ("how many requests for memory there are, and that all memory is freed", "an_opening_asks_once_for_each_of_its_lists", "calls_of_each_kind_give_all_back", "a_refused_put_or_move_gives_all_back"),
    ("a full pass", "a_full_pass_makes_no_more_calls", "a_full_pass_clears_where_nothing_is_left"),
    ("walks, look-ups, glances, clears", "a_walk_shows_each_bin_in_turn", "a_clear_removes_each_entry_by_a_call", "a_glance_shows_the_value_before_and_after_a_move"),
    ("moments: one client is ordered after another", "a_client_gets_what_another_told_it_of", "a_client_learns_what_another_put", "a_moment_is_learned_in_another_thread"),
    ("moments in letters, through a channel and under a lock", "a_client_finds_each_key_that_it_hears_of", "a_letter_is_left_under_a_lock"),
    ("clients that come and go", "a_shared_map_is_closed_when_all_clients_are_back", "a_client_comes_back_and_is_taken_out_again"),
    ("threads that borrow a shared map", "each_thread_makes_its_clients"),
    ("a full client", "a_full_client_makes_no_more_calls", "a_full_client_is_followed_by_the_next"),
    ("closing: a missing pass, and the settlement", "a_map_closes_with_the_passes_of_all_clients", "settling_needs_each_pass"),
    ("a close that fails", "a_failed_close_leaves_all_clients", "a_map_closes_after_each_refused_close", "a_team_that_cannot_be_closed_comes_back"),
    ("opening: capacity and number of clients", "capacity_and_clients_have_their_limits"),
    ("values with several owners", "a_page_with_several_owners_is_never_copied"),
    ("what clients' work returns", "answers_stand_in_the_order_of_the_clients"),
    ("clients that call at the same time", "one_of_32_clients_finds_no_value", "clients_call_at_the_same_time_each_after_its_gate"),
    ("bulk operations", "the_sum_of_1_to_64", "a_search_gives_up_after_a_find", "a_list_in_walk_order"),
    ("out of memory in bulk operations", "a_run_that_is_refused_a_request_does_all_bins", "a_search_that_was_refused_is_answered_the_next_time"),
    ("work stealing", "a_thief_takes_the_oldest_task", "four_workers_do_leaves_at_once"),
    ("the script language", "every_form_of_a_query", "the_first_bad_line_decides"),
    ("the command line", "words_are_taken", "help_is_told_apart_from_faults"),
)

NEEDS_HEAD = """
## What programs need, and what shows it

A cache, a rate limiter and an index of words were written over the library. The table has what they needed, and the
test, the example or the page that shows it.

| What a program needs | What shows it |
|---|---|"""
# What is needed, and the test that shows it, or the source and a text in the line that does, or the page.
NEEDS = (
    ("a list at a key that grows where it lies, however long it is", "a_list_grows_where_it_lies"),
    ("a function that is lent the value, or is given it", "each_example_of_a_value_that_a_client_lends_is_as_it_says"),
    ("after a failed call: what was given is back, and the function uncalled", "what_is_refused_comes_back_uncalled"),
    ("lists as values", "a_map_has_lists"),
    ("lists in a value type of the program's own", "clients_put_values_with_lists_in_them"),
    ("text in a value, and values of several kinds in one another", "values_of_several_kinds_lie_in_one_another"),
    ("values of more than 64 bytes", "a_map_has_boxed_values"),
    ("values with several owners", "a_page_with_several_owners_is_never_copied"),
    ("numbers of each width as keys", "a_number_has_one_code_at_each_width"),
    ("pairs of keys, looked up by pairs of what their parts are looked up by", "a_pair_is_looked_up_by_its_parts"),
    ("text as a key, looked up by `&str`", "text_is_a_key"),
    ("a key type of the program's own", "crates/example_tour/src/key.rt", "impl HashKey for UserDay {"),
    ("keys from outside that cannot be made to collide", "keys_that_share_a_plain_code_differ_under_a_seed"),
    ("calls by a slice or text, which make a key only if there is none", "each_example_of_what_makes_its_key_is_as_it_says"),
    ("a counter by text that allocates nothing for a key that is there", "a_key_that_is_there_asks_for_no_memory"),
    ("an inverted index, filled by several threads", "crates/example_tour/src/index.rt", "client.modify_or_insert("),
    ("an error of the closure's own, by `?`", "an_error_of_the_function_leaves_the_value"),
    ("a run before any proof, and logic that is proved by itself", "docs/USE.md", "### Before any proof"),
    ("bulk operations on a live map, by the one import", "operations_on_a_shared_map_return_what_their_examples_say"),
    ("the library in another repository: its lines, and how much is to be proved", "docs/commands_vendor.py", "def test_check("),
    ("clients in threads of their own", "a_client_that_comes_back_from_its_thread_tells_another"),
    ("threads by closures, which take clients as they need them", "each_thread_makes_its_clients"),
    ("a rate limiter with 64 clients", "crates/example_tour/src/limiter.rt", "start(rt, Ask { second })"),
    ("to remove the entries that a function names", "each_entry_that_goes_is_a_remove"),
    ("a bounded cache, with deadlines, that evicts what was not used lately", "crates/example_tour/src/sessions.rt", "fn turn<"),
    ("what a map shows of itself", "a_map_shows_its_form_and_its_numbers"),
    ("long buckets: many keys of one hash", "a_million_entries_under_one_hash"),
)


def all_tests():
    """Returns of each crate with tests its files, with what these are about, and their tests."""
    for crate in sources.crates():
        files = [(it, sources.module_comment(it) or "Tests inside the crate.", sources.tests_in(it)) for it in sources.sources_of(crate)]
        if files := [it for it in files if it[2]]:
            yield crate, files


def link(name, path, line):
    return f"[`{name}`](../{path}#L{line})"


def lost(tests):
    """Returns the names in THINGS and NEEDS that no test has, and the texts that no line has."""
    there = {name for _, files in tests for _, _, found in files for name, _, _ in found}
    asserted = [name for _, *names in THINGS for name in names]
    shown = [where for _, where, *text in NEEDS if not text]
    return [name for name in (*asserted, *shown) if name not in there] + [text[0] for _, where, *text in NEEDS if text and not line_with(text[0], where)]


def line_with(text, path):
    """Returns the number of the first line of a file with a text in it, or None."""
    found = (number for number, line in enumerate(sources.text_of(path).splitlines(), 1) if text in line)
    return next(found, None)


def links_of(tests):
    return {name: link(name, path, line) for _, files in tests for path, _, found in files for name, line, _ in found}


def needs(tests):
    """Returns the row of each need, with a link to what shows it."""
    where = links_of(tests)
    for need, name, *text in NEEDS:
        shown = where.get(name, "")
        if text and name.endswith(".md"):
            shown = f"[{text[0].lstrip('# ')}]({os.path.basename(name)}#{text[0].lstrip('# ').lower().replace(' ', '-')})"
        elif text:
            shown = f"[{os.path.basename(name)}](../{name}#L{line_with(text[0], name)})"
        yield f"| {need} | {shown} |"


def index(tests):
    """Returns a line for each thing, with links to its tests."""
    where = links_of(tests)
    for thing, *names in THINGS:
        if links := [where[it] for it in names if it in where]:
            yield f"- {thing}:\n" + ",\n".join(f"  {it}" for it in links)


def page():
    tests = list(all_tests())
    count = sum(len(found) for _, files in tests for _, _, found in files)
    return "\n".join([HEAD.format(count=count), *index(tests), NEEDS_HEAD, *needs(tests)]) + "\n"


def whole_list():
    for crate, files in all_tests():
        yield f"{crate}"
        for path, about, found in files:
            yield f"  {path}: {about}"
            for name, line, comment in found:
                yield f"    {line:4} {name}" + (f": {sources.sentence(comment)}" if comment else "")


def main():
    if "--all" in sys.argv[1:]:
        print("\n".join(whole_list()))
    else:
        with open(f"{sources.TOP}/{PATH}", "w", encoding="utf-8") as it:
            it.write(page())


if __name__ == "__main__":
    main()
