"""Counts words in threads, and compares the counts with one thread's."""
import collections
import sys
import threading

import facing


def count(shared, words, wrong):
    try:
        with shared.client() as client:
            for word in words:
                client.add(word)
    except facing.Fault as fault:
        wrong.append(fault)


def main():
    line = "one order of all calls and the calls of each thread in order"
    words = [word for i in range(1000) for word in f"{line} w{i % 70}".encode().split()]
    wrong = []
    with facing.CountsMap(16, 4) as shared:
        share = len(words) // 4
        threads = [threading.Thread(target=count, args=(shared, words[i * share : (i + 1) * share], wrong)) for i in range(4)]
        for thread in threads:
            thread.start()
        for thread in threads:
            thread.join()
        with shared.close() as closed:
            got = dict(closed.items())
    want = collections.Counter(words[: 4 * share])
    is_right = not wrong and got == want
    print(f"{sum(want.values())} words, {len(want)} different, {'0 wrong' if is_right else 'wrong'}")
    return 0 if is_right else 1


if __name__ == "__main__":
    sys.exit(main())
