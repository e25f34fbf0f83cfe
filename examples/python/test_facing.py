"""What calls answer, and what is refused."""
import array
import asyncio
import collections
import contextlib
import copy
import inspect
import os
import pickle
import resource
import signal
import threading
import unittest

import facing


def child_of(work):
    """Does the work in a process that is forked, and returns its exit status; it is ended after a minute."""
    if (child := os.fork()) == 0:
        signal.alarm(60)
        try:
            os._exit(work())
        except BaseException:
            os._exit(99)
    return os.waitstatus_to_exitcode(os.waitpid(child, 0)[1])


def raises_after_fork(*calls):
    """Returns how many of these calls did not raise that the map belongs to the parent."""
    failed = 0
    for call in calls:
        try:
            call()
            failed += 1
        except facing.AfterFork as why:
            failed += why.name != "AFTER_FORK" or str(os.getppid()) not in str(why)
    return failed


@contextlib.contextmanager
def held_by_a_thread(lock):
    """Another thread has the lock for as long as the block runs."""
    is_held, let_go = threading.Event(), threading.Event()

    def hold():
        with lock:
            is_held.set()
            let_go.wait()

    thread = threading.Thread(target=hold)
    thread.start()
    is_held.wait()
    try:
        yield
    finally:
        let_go.set()
        thread.join()


class Calls(unittest.TestCase):
    def refuses(self, name, call, *arguments):
        with self.assertRaises(facing.Fault) as caught:
            call(*arguments)
        self.assertEqual(caught.exception.name, name)

    def test_calls_answer_as_they_say(self):
        with facing.Map(16, 1) as shared, shared.client() as client:
            self.assertIsNone(client.put(1, 4))
            self.assertEqual(client.put(1, 5), 4)
            self.assertEqual(client.put_if_absent(1, 6), 5)
            self.assertEqual(client.replace(1, 6), 5)
            self.assertIsNone(client.replace(2, 6))
            self.assertIsNone(client.get(2))
            self.assertFalse(client.replace_if(1, 5, 7))
            self.assertTrue(client.replace_if(1, 6, 7))
            self.assertEqual(client.add(1, 3), 10)
            self.assertEqual(client.add(1, 2**64 - 1), 2**64 - 1)
            self.assertEqual(client.set(1, 4), 4)
            self.assertEqual(client.greatest(1, 3), 4)
            self.assertEqual((client.greatest(1, 9), client.get(1), client.set(1, 4)), (9, 9, 4))
            self.assertTrue(client.contains(1))
            self.assertFalse(client.contains(2))
            self.assertFalse(client.remove_if(1, 3))
            self.assertTrue(client.remove_if(1, 4))
            self.assertIsNone(client.remove(1))
            self.assertIsNone(client.get(1))

    def test_numbers_past_the_limits_are_refused(self):
        self.refuses("BAD_CAPACITY", facing.Map, 0, 1)
        self.refuses("BAD_CAPACITY", facing.Map, 2**26 + 1, 1)
        self.refuses("BAD_CLIENTS", facing.Map, 16, 0)
        self.refuses("BAD_CLIENTS", facing.Map, 16, 65537)

    def test_a_map_closes_when_its_clients_are_back(self):
        shared = facing.Map(16, 1)
        client = shared.client()
        self.refuses("NO_CLIENT", shared.client)
        client.put(1, 5)
        self.refuses("CLIENT_OUT", shared.close)
        client.free()
        self.refuses("WRONG_HANDLE", client.get, 1)
        with shared.close() as closed:
            self.refuses("WRONG_HANDLE", shared.count)
            self.assertEqual((len(closed), closed.get(1), closed.get(2)), (1, 5, None))
            with closed.reopen(2) as again, again.client() as client:
                self.assertEqual(client.add(1), 6)
            self.assertEqual((closed.items(), dict(closed)), ([(1, 5)], {1: 5}))

    def test_numbers_that_have_no_64_bits_raise(self):
        with facing.Map(16, 1) as shared, shared.client() as client:
            for wrong in (2**64, -1):
                with self.assertRaises(OverflowError):
                    client.put(wrong, 7)
                with self.assertRaises(OverflowError):
                    client.add_all([(1, wrong)])
            with self.assertRaises(TypeError):
                client.put(1.5, 7)
            self.assertEqual((client.get(0), client.get(1), client.count()), (None, None, 0))

    def test_bytes_are_numbers_one_by_one(self):
        with facing.Map(16, 1) as shared, shared.client() as client:
            client.put_all({1: 5, 2: 6})
            self.assertEqual(client.get_all(b"\1\2\3"), [5, 6, None])
            self.assertEqual(client.get_all(bytearray(8)), [None] * 8)

    def test_faults_go_to_another_process(self):
        for status, name in enumerate(facing.NAMES):
            fault = pickle.loads(pickle.dumps(facing.Fault(status)))
            self.assertEqual((type(fault), fault.name, fault.args), (facing.Fault, name, facing.Fault(status).args))
        self.assertIsInstance(copy.copy(facing.NoMemory(2)), MemoryError)
        fault = pickle.loads(pickle.dumps(facing.AfterFork(7)))
        self.assertEqual((type(fault), fault.name, fault.args), (facing.AfterFork, "AFTER_FORK", facing.AfterFork(7).args))
        self.assertEqual(facing.Fault(len(facing.NAMES)).name, "UNKNOWN")

    def test_what_finds_no_memory_says_so(self):
        def work():
            resource.setrlimit(resource.RLIMIT_AS, (1 << 30, 1 << 30))
            try:
                facing.Map(2**26, 1)
            except facing.NoMemory as why:
                return 0 if isinstance(why, MemoryError) and why.name == "NO_MEMORY" else 1
            return 2

        self.assertEqual(child_of(work), 0)

    def test_copies_raise(self):
        with facing.Map(16, 1) as shared, shared.client() as client:
            for it in (shared, client):
                for call in (copy.copy, copy.deepcopy, pickle.dumps):
                    with self.assertRaises(TypeError):
                        call(it)
            client[1] = 5
            self.assertEqual(client[1], 5)

    def test_a_client_is_like_a_mapping(self):
        with facing.Map(16, 1) as shared, shared.client() as client:
            client[1] = 5
            self.assertTrue(1 in client)
            self.assertFalse(2 in client)
            self.assertEqual((client[1], client.get(2, 7)), (5, 7))
            client.update({2: 6, 3: 7})
            client.update([(3, 8)])
            self.assertEqual((len(client), client.copy()), (3, {1: 5, 2: 6, 3: 8}))
            self.assertEqual({key: value for key, value in client.items()}, {1: 5, 2: 6, 3: 8})
            with self.assertRaises(TypeError):
                iter(client)
            with self.assertRaises(ValueError):
                client.update([(1, 2, 3)])
            del client[2], client[3]
            with self.assertRaises(KeyError):
                client[2]
            del client[1]
            with self.assertRaises(KeyError):
                del client[1]

    def test_a_map_is_like_a_mapping_while_a_client_is_free(self):
        with facing.Map(16, 1) as shared:
            shared.update({1: 5, 2: 6})
            self.assertEqual((len(shared), 1 in shared, 3 in shared), (2, True, False))
            self.assertEqual({key: value for key, value in shared.items()}, {1: 5, 2: 6})
            self.assertEqual(shared.copy(), {1: 5, 2: 6})
            with self.assertRaises(TypeError):
                iter(shared)
            with shared.client():
                self.refuses("NO_CLIENT", shared.copy)
        with facing.BytesMap(16, 1) as shared:
            shared.update({b"a": b"one"})
            self.assertEqual((len(shared), b"a" in shared, shared.copy()), (1, True, {b"a": b"one"}))

    def test_values_are_changed_by_a_function(self):
        with facing.Map(16, 1) as shared, shared.client() as client:
            self.assertEqual(client.update(1, lambda seen: 3 if seen is None else None), 3)
            self.assertEqual(client.update(1, lambda seen: seen * 5), 15)
            self.assertIsNone(client.update(1, lambda seen: None))
            self.assertIsNone(client.get(1))
            self.assertEqual((client.add_up_to(1, 2, 3), client.add_up_to(1, 2, 3), client[1]), (True, False, 2))
            with self.assertRaises(OverflowError):
                client.update(1, lambda seen: -1)
            with self.assertRaises(TypeError):
                client.update(1)
        with facing.CountsMap(16, 1) as shared, shared.client() as client:
            self.assertEqual(client.update(b"a", lambda seen: (seen or 6) + 1), 7)
            self.assertEqual((client.add_up_to(b"a", 1, 8), client.add_up_to(b"a", 1, 8), client[b"a"]), (True, False, 8))
        with facing.BytesMap(16, 1) as shared:
            self.assertEqual(shared.update(b"a", lambda seen: (seen or b"x") + b"y"), b"xy")
            self.assertEqual(shared.update(b"a", lambda seen: bytearray(seen + b"z")), b"xyz")
            self.assertEqual(shared.copy(), {b"a": b"xyz"})
            self.refuses("TOO_LONG", shared.update, b"a", lambda seen: b"x" * 65537)
            numbers = memoryview(array.array("Q", range(8193)))
            self.refuses("TOO_LONG", shared.update, b"a", lambda seen: numbers)
            self.assertEqual(shared.update(b"a", lambda seen: numbers[:8192]).nbytes, 65536)
            self.assertEqual(shared.update(b"a", lambda seen: seen[8:16]), bytes([1] + [0] * 7))
            self.assertIsNone(shared.update(b"a", lambda seen: None))
            self.assertEqual(len(shared), 0)

    def test_a_client_makes_one_call_at_a_time(self):
        with facing.Map(16, 1) as shared, shared.client() as client, facing.BytesMap(16, 1) as texts, texts.client() as text:
            client.put(1, 5)
            calls = [(client, lambda: client.get(1)), (text, lambda: text.get(b"a")), (text, lambda: text.contains(b"a"))]
            for owned, call in calls:
                thread = threading.Thread(target=call)
                with owned._lock:
                    thread.start()
                    thread.join(0.2)
                    self.assertTrue(thread.is_alive())
                thread.join()
            self.assertEqual((client.get(1), text.get(b"a")), (5, None))

    def test_a_signal_handler_calls_by_the_client_that_it_interrupts(self):
        def work():
            with facing.Map(16, 1) as shared, shared.client() as client, facing.BytesMap(16, 1) as texts, texts.client() as text:
                text.update({b"a": b"value of a", b"b": b"b"})
                seen = []
                signal.signal(signal.SIGUSR1, lambda *_: seen.append((client.add(1), text.get(b"b"), text.put(b"c", b"of c"))))
                with client._lock, text._lock:
                    signal.raise_signal(signal.SIGUSR1)
                get, signals = text._functions["get"], [signal.SIGUSR1]

                def get_and_interrupt(*arguments):
                    status = get(*arguments)
                    if signals:
                        signal.raise_signal(signals.pop())
                    return status

                # The signal comes when the value lies in the client's room, and is not copied yet.
                text._functions = {**text._functions, "get": get_and_interrupt}
                return 0 if text.get(b"a") == b"value of a" and seen == [(1, b"b", None), (2, b"b", b"of c")] else 1

        self.assertEqual(child_of(work), 0)

    def test_a_batch_runs_beside_an_event_loop(self):
        async def count(client, words):
            await asyncio.to_thread(client.add_all, collections.Counter(words))
            return await asyncio.to_thread(client.get_all, [b"a", b"b", b"c"])

        with facing.CountsMap(16, 1) as shared, shared.client() as client:
            self.assertEqual(asyncio.run(count(client, [b"a", b"b", b"a"])), [2, 1, None])

    def test_all_public_names_have_docstrings(self):
        missing = []
        for name in facing.__all__:
            it = getattr(facing, name)
            if not callable(it):
                continue
            members = {f"{name}.{key}": value for key, value in inspect.getmembers(it) if not key.startswith("_")} if inspect.isclass(it) else {}
            for path, value in {name: it, **members}.items():
                if (inspect.isclass(value) or inspect.isroutine(value)) and not inspect.getdoc(value):
                    missing.append(path)
        self.assertEqual(missing, [])
        with open(os.path.join(os.path.dirname(facing.__file__), "py.typed"), encoding="utf-8") as marker:
            self.assertEqual(marker.read(), "")

    def test_threads_change_one_value(self):
        def count(client):
            for _ in range(500):
                client.update(7, lambda seen: (seen or 0) + 1)

        with facing.Map(16, 4) as shared:
            clients = [shared.client() for _ in range(4)]
            threads = [threading.Thread(target=count, args=(client,)) for client in clients]
            for thread in threads:
                thread.start()
            for thread in threads:
                thread.join()
            self.assertEqual(clients[0][7], 2000)
            for client in clients:
                client.free()

    def test_a_child_does_not_hang_on_what_its_parent_uses(self):
        with facing.Map(16, 1) as shared, shared.client() as client, facing.BytesMap(16, 1) as texts, texts.client() as text:
            client.put(1, 5)
            calls = [lambda: client.get(1), client.copy, lambda: client.put_all({1: 2}), shared.count, shared.client, shared.close]
            with held_by_a_thread(client._lock), held_by_a_thread(text._lock):
                self.assertEqual(child_of(lambda: raises_after_fork(*calls, lambda: text.get(b"a"))), 0)
                self.assertEqual(child_of(lambda: client.free() or shared.free() or 0), 0)
            self.assertEqual(client.get(1), 5)

    def test_a_child_reads_closed_maps_and_opens_its_own(self):
        with facing.Map(16, 1) as shared:
            shared.update({1: 5})
            with shared.close() as closed:
                self.assertEqual(child_of(lambda: closed[1] + len(closed)), 6)
                with held_by_a_thread(closed._lock):
                    self.assertEqual(child_of(lambda: raises_after_fork(lambda: closed[1])), 0)
                self.assertEqual(closed[1], 5)

        def work():
            with facing.Map(16, 1) as own, own.client() as client:
                return client.add(1, 7)

        self.assertEqual(child_of(work), 7)

    def test_the_librarys_name_has_its_version(self):
        self.assertEqual(facing.version().split()[0].rsplit(".", 1)[0], facing.ABI)

    def test_many_keys_at_once(self):
        with facing.Map(16, 1) as shared:
            with shared.client() as client:
                client.put_all({1: 5, 2: 6})
                client.add_all(collections.Counter({1: 1, 3: 9}))
                client.add_all([])
                self.assertEqual(client.get_all([1, 2, 3, 4]), [6, 6, 9, None])
                self.assertEqual(client.get_all(iter([2, 1])), [6, 6])
                self.assertIsNone(client.put(9, 0))
                self.assertEqual(client.get_all((9, 8)), [0, None])
                del client[9]
                self.assertEqual(client.get_all([]), [])
            with shared.close() as closed:
                self.assertEqual(dict(closed), {1: 6, 2: 6, 3: 9})


    def test_pairs_of_an_open_map(self):
        with facing.Map(16, 1) as shared, shared.client() as client:
            client.put_all((key, 2 * key) for key in range(10000))
            self.assertEqual(dict(client.pairs()), {key: 2 * key for key in range(10000)})


class Counts(unittest.TestCase):
    def test_counts(self):
        words = [b"word %d" % (i % 7) for i in range(1000)] + [b""] * 3
        expected = collections.Counter(words)
        with facing.CountsMap(16, 1) as shared:
            with shared.client() as client:
                for word in words:
                    client.add(word)
                self.assertEqual(dict(client.pairs()), expected)
                client.add_all(expected)
                client.put_all([(b"x" * 65536, 5)])
                self.assertEqual(client.get_all([b"", b"word 1", b"?", b"x" * 65536]), [6, 2 * expected[b"word 1"], None, 5])
                self.assertEqual(client.get_all([]), [])
                self.assertTrue(client.remove_if(b"x" * 65536, 5))
                for wrong in (7, "text", None):
                    with self.assertRaises(TypeError):
                        client.add(wrong)
            with shared.close() as closed:
                self.assertEqual(dict(closed), {word: 2 * count for word, count in expected.items()})
                self.assertEqual((len(closed), closed[b""], closed.get(b"?")), (8, 6, None))
                with closed.reopen(1) as again, again.client() as client:
                    self.assertEqual(client.add(b""), 7)


class Bytes(unittest.TestCase):
    def test_calls_on_bytes(self):
        with facing.BytesMap(16, 1) as shared:
            with shared.client() as client:
                self.assertIsNone(client.put(b"a", b"one"))
                self.assertEqual(client.put(b"a", b"two"), b"one")
                self.assertEqual(client.put_if_absent(b"", b""), None)
                self.assertEqual((client.put_if_absent(b"a", b"no"), client.replace(b"b", b"no")), (b"two", None))
                self.assertEqual((client.replace(b"a", b"2"), client.replace(b"a", b"two"), client.get(b"b")), (b"two", b"2", None))
                self.assertFalse(client.replace_if(b"a", b"2", b"no"))
                self.assertEqual(client.get(b""), b"")
                self.assertTrue(client.replace_if(b"a", b"two", b"x" * 65536))
                self.assertEqual(client[b"a"], b"x" * 65536)
                with self.assertRaises(facing.Fault) as caught:
                    client.put(b"a" * 65537, b"")
                self.assertEqual(caught.exception.name, "TOO_LONG")
                self.assertFalse(client.remove_if(b"", b"1"))
                self.assertEqual(client.remove(b""), b"")
                self.assertFalse(client.contains(b""))
                with self.assertRaises(TypeError):
                    client.put(5, b"")
                many = {b"key %d" % key: b"v" * (key * 100) for key in range(300)}
                for key, value in many.items():
                    client.put(key, value)
                self.assertEqual(dict(client.pairs()), {**many, b"a": b"x" * 65536})
                for key in many:
                    client.remove(key)
            with shared.close() as closed:
                self.assertEqual(closed.items(), [(b"a", b"x" * 65536)])
                self.assertEqual((len(closed), closed[b"a"], closed.get(b"b")), (1, b"x" * 65536, None))


    def test_many_byte_strings_at_once(self):
        many = {b"key %d" % key: b"v" * (key * 10) for key in range(500)}
        with facing.BytesMap(16, 1) as shared, shared.client() as client:
            client.put_all(many)
            self.assertEqual(client.copy(), many)
            self.assertEqual(client.get_all(many), list(many.values()))
            self.assertEqual(client.get_all([b"?", b"key 3", b"key 0", b"?"]), [None, b"v" * 30, b"", None])
            self.assertEqual((client.get_all([]), client.put_all([])), ([], None))
            client.put_all(iter([(bytearray(b"a"), memoryview(b"one")), (b"a", b"two")]))
            self.assertEqual(client.get_all(iter([b"a"])), [b"two"])
            for wrong in ([(b"b", b"x" * 65537)], [(b"b", b"1"), (b"y" * 65537, b"")]):
                with self.assertRaises(facing.Fault) as caught:
                    client.put_all(wrong)
                self.assertEqual(caught.exception.name, "TOO_LONG")
            self.assertEqual(client.get(b"b"), b"1")
            with self.assertRaises(TypeError):
                client.get_all(["text"])

    def test_long_values_at_once(self):
        with facing.BytesMap(16, 1, 1 << 20) as shared, shared.client() as client:
            many = {b"%d" % key: bytes([key]) * (1 << 20) for key in range(5)}
            client.put_all(many)
            self.assertEqual(client.get_all([b"4", b"0", b"?", b"3"]), [many[b"4"], many[b"0"], None, many[b"3"]])

    def test_long_values(self):
        longest = b"y" * (1 << 20)
        with facing.BytesMap(16, 1, len(longest)) as shared:
            with shared.client() as client:
                self.assertIsNone(client.put(b"a", longest))
                self.assertEqual(client.put(b"a", b"b"), longest)
                with self.assertRaises(facing.Fault) as caught:
                    client.put(b"a", longest + b"y")
                self.assertEqual(caught.exception.name, "TOO_LONG")
                client[b"a"] = longest
            with shared.close() as closed:
                self.assertEqual((closed[b"a"], closed.get(b"b")), (longest, None))
                with closed.reopen(1) as again, again.client() as client:
                    self.assertEqual(client.remove(b"a"), longest)
        with self.assertRaises(facing.Fault):
            facing.BytesMap(16, 1, 2**29 + 1)


if __name__ == "__main__":
    unittest.main()
