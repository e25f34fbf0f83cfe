"""django-redis over a server: run with its port. Ends with status 1, and says why, where a call returns what it should not."""
import sys
import threading

from django.conf import settings


def incr_at_once(cache):
    """Adds to one number from eight threads, which is a script of django-redis. Returns the sum."""
    cache.set("n", 0, None)
    threads = [threading.Thread(target=lambda: [cache.incr("n") for _ in range(50)]) for _ in range(8)]
    for it in threads:
        it.start()
    for it in threads:
        it.join()
    return cache.get("n")


def lock_twice(cache):
    """Takes a lock, tries to take it again, and takes it when it was given back."""
    lock, second = cache.lock("lock", timeout=100), cache.lock("lock", timeout=100)
    first = lock.acquire(blocking=False), second.acquire(blocking=False)
    lock.release()
    return *first, second.acquire(blocking=False)


def main(port):
    backend = {"BACKEND": "django_redis.cache.RedisCache", "LOCATION": f"redis://127.0.0.1:{port}/0"}
    settings.configure(CACHES={"default": backend})
    from django.core.cache import cache

    rows = [
        ("set", lambda: cache.set("a", {"name": [1, 2]}), True),
        ("get", lambda: cache.get("a"), {"name": [1, 2]}),
        ("none", lambda: cache.get("none", 7), 7),
        ("set for a time", lambda: cache.set("b", "x", timeout=100), True),
        ("ttl", lambda: 90 <= cache.ttl("b") <= 100, True),
        ("touch", lambda: cache.touch("b", 500), True),
        ("after touch", lambda: 490 <= cache.ttl("b") <= 500, True),
        ("touch for ever", lambda: cache.touch("b", None), True),
        ("no ttl", lambda: cache.ttl("b"), None),
        ("touch none", lambda: cache.touch("none", 5), False),
        ("add", lambda: cache.add("a", 1), False),
        ("add another", lambda: cache.add("n", 5), True),
        ("set nx", lambda: cache.set("n", 6, nx=True), False),
        ("has_key", lambda: cache.has_key("n"), True),
        ("set_many", lambda: cache.set_many({"c": 1, "d": "two"}), None),
        ("get_many", lambda: cache.get_many(["c", "d", "none"]), {"c": 1, "d": "two"}),
        ("keys", lambda: sorted(cache.keys("[cd]")), ["c", "d"]),
        ("iter_keys", lambda: sorted(cache.iter_keys("[cd]")), ["c", "d"]),
        ("expire", lambda: cache.expire("c", 100), True),
        ("persist", lambda: cache.persist("c"), True),
        ("delete", lambda: cache.delete("c"), True),
        ("delete_many", lambda: cache.delete_many(["d", "none"]), 1),
        ("delete_pattern", lambda: cache.delete_pattern("a*"), 1),
        ("get_or_set", lambda: cache.get_or_set("e", lambda: 9), 9),
        ("incr by eight threads", lambda: incr_at_once(cache), 400),
        ("lock", lambda: lock_twice(cache), (True, False, True)),
        ("clear", lambda: cache.clear(), None),
        ("after clear", lambda: cache.get("b"), None),
    ]
    for name, call, wanted in rows:
        if (got := call()) != wanted:
            sys.exit(f"{name}: {got!r}, not {wanted!r}")


if __name__ == "__main__":
    main(int(sys.argv[1]))
