<?php
/* phpredis over a server: run with its port. Ends with status 1, and says why, where a call returns what it should not. */
ob_start();
$r = new Redis();
$r->connect("127.0.0.1", (int)$argv[1]);

function must_be($name, $got, $wanted) {
    if ($got === $wanted) return;
    fwrite(STDERR, "$name: " . json_encode($got) . ", not " . json_encode($wanted) . "\n");
    exit(1);
}

must_be("set", $r->set("a", "1", ["nx", "ex" => 100]), true);
must_be("get", $r->get("a"), "1");
must_be("setex", $r->setex("b", 100, "x"), true);
must_be("mget", $r->mget(["a", "b", "none"]), ["1", "x", false]);
must_be("multi", $r->multi()->incr("n")->exec(), [1]);
must_be("pipeline", $r->pipeline()->incr("n")->get("n")->exec(), [2, "2"]);
must_be("eval", $r->eval("return {KEYS[1], ARGV[1]}", ["k", "v"], 1), ["k", "v"]);

ini_set("session.save_handler", "redis");
ini_set("session.save_path", "tcp://127.0.0.1:" . $argv[1]);
ini_set("session.use_cookies", "0");
ini_set("session.cache_limiter", "");
ini_set("redis.session.locking_enabled", "1");
for ($round = 1; $round <= 3; $round++) {
    session_id("abc124");
    session_start();
    must_be("a session's value", $_SESSION["count"] ?? 0, $round - 1);
    $_SESSION["count"] = $round;
    session_write_close();
    $_SESSION = [];
    must_be("a lock is left", $r->keys("*LOCK*"), []);
}
must_be("flushDB", $r->flushDB(), true);
