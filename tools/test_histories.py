"""Tests the checker of histories, on histories by hand and on those of small maps that are right or wrong.

usage: python3 tools/test_histories.py

It takes a second or two. Replies and judgements stand here by the rules of the calls, and the small maps have code of their own."""
import contextlib
import os
import random
import tempfile
import unittest

import histories_check
from histories_check import CALLS, Call, Malformed, judge, stuck


def text(*lines):
    return ["history by hand", *lines, ""]


def faults(lines):
    """Returns how many faults a history has."""
    said = []
    count, _, found = judge(lines, said.append)
    assert count == 1 and found == len(said)
    return found


# == Small maps ==


class SmallMap:
    """A map whose calls are each made at one tick. It is told of each tick, and at an earlier one of a call that comes."""

    def __init__(self):
        self.pairs = {}

    def meet(self, name, key):
        pass

    def call(self, name, key, value, met=None):
        before = self.pairs.get(key)
        if name == "put" or name == "put_if_absent" and before is None:
            self.pairs[key] = value
        if name == "remove":
            self.pairs.pop(key, None)
        return before

    def tick(self):
        pass


class BeforeLast(SmallMap):
    """A get replies the value before the last one."""

    def __init__(self):
        super().__init__()
        self.last = {}

    def call(self, name, key, value, met=None):
        before = super().call(name, key, value)
        if name == "get":
            return self.last.get(key)
        self.last[key] = before
        return before


class LostInAMove(SmallMap):
    """Every 40 ticks the pairs are copied, and put in place 4 ticks later."""

    def __init__(self):
        super().__init__()
        self.now, self.copy = 0, {}

    def tick(self):
        self.now += 1
        if self.now % 40 == 0:
            self.copy = dict(self.pairs)
        if self.now % 40 == 4 and self.now > 40:
            self.pairs = self.copy


class RemoveRepliesNone(SmallMap):
    def call(self, name, key, value, met=None):
        before = super().call(name, key, value)
        return None if name == "remove" else before


class PutKeepsAll(SmallMap):
    """A put on a present key changes nothing."""

    def call(self, name, key, value, met=None):
        return super().call("put_if_absent" if name == "put" else name, key, value)


class TwoSteps(SmallMap):
    """A put of an absent key is a get and, where that met none, a put."""

    def meet(self, name, key):
        return self.pairs.get(key)

    def call(self, name, key, value, met=None):
        if name != "put_if_absent":
            return super().call(name, key, value)
        if met is None:
            super().call("put", key, value)
        return met


class Behind(SmallMap):
    """A get reads a copy that is up to 24 ticks old: each client could have seen this, by clocks of its own."""

    def __init__(self):
        super().__init__()
        self.now, self.copy = 0, {}

    def tick(self):
        self.now += 1
        if self.now % 24 == 0:
            self.copy = dict(self.pairs)

    def call(self, name, key, value, met=None):
        return self.copy.get(key) if name == "get" else super().call(name, key, value)


def made(small_map, seed, clients=4, keys=3, calls=120, stalled=None):
    """Returns a history of the map: at each tick some client begins a call, the map meets it, it is made, or it ends. A stalled
    client ends its third call when all others have made all of theirs."""
    drawn = random.Random(seed)
    lines, at_work, tick, begun = [], {}, 0, 0
    thirds = 0
    while begun < calls or at_work:
        idle = [it for it in range(clients) if it not in at_work]
        free = [it for it in at_work if not (at_work[it].get("stalls") and (begun < calls or len(at_work) > 1))]
        client = drawn.choice((idle if begun < calls else []) + free)
        if client not in at_work:
            name = drawn.choice(("get", "get", "put", "put", "put_if_absent", "remove"))
            begun += 1
            thirds += client == stalled
            stalls = client == stalled and thirds == 3
            at_work[client] = {"start": tick, "name": name, "key": drawn.randrange(keys), "value": 1000 + begun, "stalls": stalls}
        elif "met" not in at_work[client]:
            it = at_work[client]
            it["met"] = small_map.meet(it["name"], it["key"])
        elif "reply" not in at_work[client]:
            it = at_work[client]
            it["reply"] = small_map.call(it["name"], it["key"], it["value"], it["met"])
        else:
            it = at_work.pop(client)
            value = it["value"] if it["name"].startswith("put") else 0
            reply = "none" if it["reply"] is None else it["reply"]
            lines.append(f"{client} {it['start']} {tick} {it['name']} {it['key']} {value} 0 {reply}")
        small_map.tick()
        tick += 1
    return text(*lines)


def found(kind, **how):
    """Returns in how many of a hundred histories of the map there is a fault."""
    return sum(faults(made(kind(), seed, **how)) > 0 for seed in range(100))


class Maps(unittest.TestCase):
    def test_a_right_map_has_no_faults(self):
        self.assertEqual(found(SmallMap), 0)
        self.assertEqual(found(SmallMap, clients=8, keys=1), 0)
        self.assertEqual(found(SmallMap, clients=2, keys=8), 0)

    def test_a_right_map_with_a_stalled_client_has_no_faults(self):
        self.assertEqual(found(SmallMap, stalled=1), 0)

    def test_a_get_that_replies_the_value_before_the_last_is_found(self):
        self.assertEqual(found(BeforeLast), 100)

    def test_a_put_that_is_lost_in_a_move_is_found(self):
        self.assertGreaterEqual(found(LostInAMove, keys=1), 80)

    def test_a_remove_that_replies_none_is_found(self):
        self.assertEqual(found(RemoveRepliesNone), 100)

    def test_a_put_that_changes_nothing_is_found(self):
        self.assertEqual(found(PutKeepsAll), 100)

    def test_a_call_that_is_made_of_two_is_found(self):
        self.assertGreaterEqual(found(TwoSteps, keys=1), 70)

    def test_a_get_of_an_old_copy_is_found(self):
        self.assertGreaterEqual(found(Behind), 90)

    def test_wrong_maps_with_a_stalled_client_are_found(self):
        self.assertGreaterEqual(found(BeforeLast, stalled=1), 95)
        self.assertGreaterEqual(found(RemoveRepliesNone, stalled=1), 95)


# == By hand ==


class ByHand(unittest.TestCase):
    def test_a_call_that_ended_stands_before_one_that_begins(self):
        self.assertEqual(faults(text("0 0 1 put 0 5 0 none", "1 2 3 get 0 0 0 5")), 0)
        self.assertEqual(faults(text("0 0 1 put 0 5 0 none", "1 2 3 get 0 0 0 none")), 1)
        for name in ("get", "look_up", "glance", "view"):
            self.assertEqual(faults(text("0 0 1 put 0 5 0 none", f"1 2 3 {name} 0 0 0 none")), 1, name)

    def test_calls_at_the_same_time_stand_either_way(self):
        for reply in ("5", "none"):
            self.assertEqual(faults(text("0 0 3 put 0 5 0 none", f"1 1 2 get 0 0 0 {reply}")), 0)
        self.assertEqual(faults(text("0 0 3 put 0 5 0 none", "1 1 2 get 0 0 0 6")), 1)

    def test_what_was_seen_once_is_not_unseen(self):
        seen = "0 0 9 put 0 5 0 none", "1 1 2 get 0 0 0 5"
        self.assertEqual(faults(text(*seen, "2 3 4 get 0 0 0 5")), 0)
        self.assertEqual(faults(text(*seen, "2 3 4 get 0 0 0 none")), 1)

    def test_two_puts_on_an_absent_key_find_none_and_each_other(self):
        self.assertEqual(faults(text("0 0 3 put 0 5 0 none", "1 1 2 put 0 6 0 5")), 0)
        self.assertEqual(faults(text("0 0 3 put 0 5 0 none", "1 1 2 put 0 6 0 none")), 1)

    def test_only_one_of_two_removes_gets_the_value(self):
        put = "0 0 1 put 0 5 0 none"
        self.assertEqual(faults(text(put, "0 2 5 remove 0 0 0 5", "1 3 4 remove 0 0 0 none")), 0)
        self.assertEqual(faults(text(put, "0 2 5 remove 0 0 0 5", "1 3 4 remove 0 0 0 5")), 1)

    def test_a_clear_takes_each_key_away_at_a_moment_of_its_own(self):
        put = "0 0 1 put 0 5 0 none", "0 2 3 put 1 6 0 none"
        self.assertEqual(faults(text(*put, "1 4 9 clear 0 0 0 done", "0 5 6 get 0 0 0 none", "0 7 8 get 1 0 0 6")), 0)
        self.assertEqual(faults(text(*put, "1 4 5 clear 0 0 0 done", "0 6 7 get 1 0 0 6")), 1)
        self.assertEqual(faults(text(*put, "1 4 9 clear 0 0 0 done", "0 5 6 get 0 0 0 none", "0 7 8 get 0 0 0 5")), 1)

    def test_a_put_and_a_clear_at_the_same_time_leave_either(self):
        calls = "0 0 3 put 0 5 0 none", "1 1 2 clear 0 0 0 done"
        for reply in ("5", "none"):
            self.assertEqual(faults(text(*calls, f"2 4 5 get 0 0 0 {reply}")), 0)
        self.assertEqual(faults(text(*calls, "2 4 5 get 0 0 0 6")), 1)

    def test_a_walk_gets_each_key_at_a_moment_of_its_own(self):
        calls = "0 0 9 walk 0 0 0 none 6", "1 1 2 put 0 5 0 none", "1 3 4 put 1 6 0 none"
        self.assertEqual(faults(text(*calls)), 0)
        self.assertEqual(faults(text(*calls, "2 10 11 walk 0 0 0 5 6")), 0)
        self.assertEqual(faults(text(*calls, "2 10 11 walk 0 0 0 5 none")), 1)
        self.assertEqual(faults(text(*calls, "2 10 11 show_each 0 0 0 5 none")), 1)
        self.assertEqual(faults(text(*calls, "2 10 11 walk 0 0 0 7 none")), 2)

    def test_a_retain_removes_what_leaves_another_rest(self):
        put = "0 0 1 put 0 5 0 none", "0 2 3 put 1 6 0 none"
        retain = "1 4 5 retain 0 2 1 done"
        self.assertEqual(faults(text(*put, retain, "0 6 7 get 0 0 0 5", "0 8 9 get 1 0 0 none")), 0)
        self.assertEqual(faults(text(*put, retain, "0 6 7 get 0 0 0 none", "0 8 9 get 1 0 0 6")), 2)

    def test_an_update_meets_and_leaves_in_one(self):
        put = "0 0 1 put 0 5 0 none"
        self.assertEqual(faults(text(put, "0 2 5 update 0 0 0 5 6", "1 3 4 get 0 0 0 6")), 0)
        self.assertEqual(faults(text(put, "0 2 5 update 0 0 0 5 none", "1 3 4 get 0 0 0 none")), 0)
        self.assertEqual(faults(text(put, "0 2 3 update 0 0 0 5 6", "1 4 5 get 0 0 0 5")), 1)
        self.assertEqual(faults(text(put, "0 2 5 update 0 0 0 5 6", "1 3 4 update 0 0 0 5 7")), 1)

    def test_a_call_that_was_busy_is_not_made(self):
        put = "0 0 1 put 0 5 0 none"
        self.assertEqual(faults(text(put, "0 2 3 try_update 0 6 0 busy", "1 4 5 try_view 0 0 0 5", "1 6 7 try_view 0 0 0 busy")), 0)
        self.assertEqual(faults(text(put, "0 2 3 try_update 0 6 0 busy", "1 4 5 try_view 0 0 0 6")), 1)
        self.assertEqual(faults(text(put, "0 2 3 try_update 0 6 0 5 6", "1 4 5 try_view 0 0 0 5")), 1)

    def test_a_call_of_a_stalled_client_may_stand_at_each_moment_of_it(self):
        for reply in ("5", "none"):
            calls = [f"1 {number} {number + 1} get 0 0 0 {'none' if number < 40 else reply}" for number in range(1, 60, 2)]
            self.assertEqual(faults(text("0 0 100 put 0 5 0 none", *calls)), 0)

    def test_texts_that_are_no_histories_are_refused(self):
        for lines in (
            ["0 0 1 put 0 5 0 none", ""],
            ["history 1", "0 0 1 put 0 5 0 none"],
            text("0 1 1 get 0 0 0 none"),
            text("0 0 1 get 0 0 0 none", "1 1 2 get 0 0 0 none"),
            text("0 0 3 get 0 0 0 none", "0 2 4 get 0 0 0 none"),
            text("0 0 1 got 0 0 0 none"),
            text("0 0 1 get 0 0 0"),
            text("0 0 1 contains 0 0 0 none"),
            text("0 0 1 clear 0 0 0 none"),
            text("0 0 1 get 0 0 0 busy"),
            text("0 0 1 update 0 0 0 5"),
        ):
            with self.assertRaises(Malformed, msg=lines):
                judge(lines, lambda said: None)

    def test_the_status_tells_faults_from_texts_that_are_no_histories(self):
        right, wrong = (text("0 0 1 put 0 5 0 none", f"1 2 3 get 0 0 0 {it}") for it in ("5", "none"))
        for lines, status in ((right, 0), (wrong, 1), (right + wrong, 1), ([], 1), (["get"], 2)):
            with tempfile.NamedTemporaryFile("w", suffix=".txt") as file, open(os.devnull, "w", encoding="utf-8") as nowhere:
                file.write("\n".join([*lines, ""]))
                file.flush()
                with contextlib.redirect_stdout(nowhere), contextlib.redirect_stderr(nowhere):
                    self.assertEqual(histories_check.main(file.name), status, lines)

    def test_a_report_names_the_calls(self):
        said = []
        judge(text("0 0 1 put 3 5 0 none", "1 2 3 get 3 0 0 none"), said.append)
        self.assertEqual(len(said), 1)
        self.assertIn("history by hand, key 3: behind 1 calls", said[0])
        self.assertIn("the value is 5", said[0])
        self.assertIn("1 2 3 get 3 0 0 none", said[0])


# A call by its name and what it is given, the value before, the reply and the value after. 2^32 is 4294967296.
ROWS = (
    ("get", 0, 0, None, None, None),
    ("get", 0, 0, 5, 5, 5),
    ("look_up", 0, 0, 5, 5, 5),
    ("glance", 0, 0, 5, 5, 5),
    ("view", 0, 0, 5, 5, 5),
    ("try_view", 0, 0, 5, 5, 5),
    ("update", 0, 0, 5, (5, 6), 6),
    ("update", 0, 0, None, (None, 6), 6),
    ("update", 0, 0, 5, (5, None), None),
    ("update", 0, 0, 5, (5, 5), 5),
    ("try_update", 0, 0, 5, (5, 6), 6),
    ("contains", 0, 0, None, False, None),
    ("contains", 0, 0, 0, True, 0),
    ("put", 6, 0, None, None, 6),
    ("put", 6, 0, 5, 5, 6),
    ("put_if_absent", 6, 0, None, None, 6),
    ("put_if_absent", 6, 0, 5, 5, 5),
    ("remove", 0, 0, None, None, None),
    ("remove", 0, 0, 5, 5, None),
    ("remove_if", 6, 0, None, False, None),
    ("remove_if", 6, 0, 5, False, 5),
    ("remove_if", 5, 0, 5, True, None),
    ("replace", 6, 0, None, None, None),
    ("replace", 6, 0, 5, 5, 6),
    ("replace_if", 6, 7, None, False, None),
    ("replace_if", 6, 7, 5, False, 5),
    ("replace_if", 5, 7, 5, True, 7),
    ("compute", 6, 0, None, 6, 6),
    ("compute", 6, 0, 5, 11, 11),
    ("compute", 6, 0, 4294967295, 4294967301, 4294967301),
    ("compute", 6, 0, 4294967296, None, None),
    ("compute_if_absent", 6, 0, None, 6, 6),
    ("compute_if_absent", 6, 0, 5, 5, 5),
    ("compute_if_present", 6, 0, None, None, None),
    ("compute_if_present", 6, 0, 5, 11, 11),
    ("compute_if_present", 6, 0, 4294967296, None, None),
    ("merge", 6, 0, None, 6, 6),
    ("merge", 6, 0, 5, 11, 11),
    ("merge", 18446744073709551615, 0, 5, 18446744073709551615, 18446744073709551615),
    ("merge", 6, 0, 4294967296, None, None),
    ("clear", 0, 0, 5, None, None),
    ("retain", 2, 1, 5, None, 5),
    ("retain", 2, 1, 6, None, None),
    ("retain", 2, 1, None, None, None),
)


class Rows(unittest.TestCase):
    def test_each_call_replies_and_leaves_what_its_row_says(self):
        for name, first, second, before, reply, after in ROWS:
            self.assertEqual(CALLS[name](before, first, second, reply), (reply, after), (name, before))
        self.assertEqual({it[0] for it in ROWS}, set(CALLS))

    def test_calls_that_are_said_to_read_change_nothing(self):
        for name, first, second, before, reply, after in ROWS:
            if histories_check.reads(Call(0, 1, name, first, second, reply, "")):
                self.assertEqual(before, after, name)

    def test_a_search_goes_back(self):
        # Of three puts at the same time the last that began is the first in their order.
        puts = [Call(0, 10, "put", 7, 0, 8, ""), Call(1, 11, "put", 8, 0, 9, ""), Call(2, 12, "put", 9, 0, None, "")]
        self.assertIsNone(stuck(puts))
        self.assertIsNotNone(stuck([*puts[:2], puts[2]._replace(reply=7)]))


if __name__ == "__main__":
    unittest.main()
