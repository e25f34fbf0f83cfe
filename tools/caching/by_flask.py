"""Flask-Caching over a server: run with its port. Ends with status 1, and says why, where a call returns what it should not."""
import sys

import flask
import flask_caching


def main(port):
    app = flask.Flask("test")
    config = {"CACHE_TYPE": "RedisCache", "CACHE_REDIS_HOST": "127.0.0.1", "CACHE_REDIS_PORT": port, "CACHE_DEFAULT_TIMEOUT": 300}
    cache = flask_caching.Cache(app, config=config)
    rows = [
        ("set", lambda: cache.set("a", {"name": [1, 2]}), True),
        ("get", lambda: cache.get("a"), {"name": [1, 2]}),
        ("none", lambda: cache.get("none"), None),
        ("set for ever", lambda: cache.set("b", "x", timeout=0), True),
        ("has", lambda: cache.has("b"), True),
        ("add", lambda: cache.add("a", 1), False),
        ("add another", lambda: cache.add("m", 5), True),
        ("inc", lambda: cache.cache.inc("n", 3), 3),
        ("dec", lambda: cache.cache.dec("n"), 2),
        ("set_many", lambda: cache.set_many({"c": 1, "d": "two"}), ["c", "d"]),
        ("get_many", lambda: cache.get_many("c", "d", "none"), [1, "two", None]),
        ("delete", lambda: cache.delete("c"), True),
        ("unlink", lambda: cache.unlink("c", "d"), 1),
        ("delete_many", lambda: cache.delete_many("a", "none"), ["a"]),
        ("clear", lambda: cache.clear(), True),
        ("after clear", lambda: cache.get_many("b", "n"), [None, None]),
    ]
    with app.app_context():
        for name, call, wanted in rows:
            if (got := call()) != wanted:
                sys.exit(f"{name}: {got!r}, not {wanted!r}")
        memoized = []
        remember = cache.memoize(timeout=100)(lambda at: memoized.append(at) or at + 1)
        if [remember(1), remember(1), remember(2)] != [2, 2, 3] or memoized != [1, 2]:
            sys.exit("memoize: called again")


if __name__ == "__main__":
    main(int(sys.argv[1]))
