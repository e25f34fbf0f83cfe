"""Tests of bin/vendor: it copies crates once, prints the lines that are new, and proves the library where it was copied, over a stub for the kit."""
import os
import signal

VENDOR = "bin/vendor"


def test_copies(tests, it):
    os.makedirs(f"{it.top}/dest")
    it.write("crates/low/out/x", "")
    ran = it.start("--print", "dest", "mapcli", program=VENDOR)
    lines = "low:\nhigh: low std\nmapcli: high\n"
    tests.want("vendor --print: the lines of the crates", (ran.status, ran.output, ran.errors) == (0, lines, ""), ran)
    tests.want("vendor --print: nothing is written", not os.path.exists(f"{it.top}/dest/crates.txt"), ran)
    tests.want("vendor: what was built is not copied", sorted(os.listdir(f"{it.top}/dest/crates/low")) == ["must-fail", "proofs", "src"])
    it.write("dest/crates.txt", "# mine\nlow:")
    ran = it.start("dest", "mapcli", program=VENDOR)
    tests.want("vendor again: new lines are written", (ran.status, ran.output, it.read("dest/crates.txt")) == (0, "", "# mine\n" + lines), ran)
    tests.want("vendor again: it tells of them", "vendor: dest/crates.txt has 2 more lines: high mapcli\n" in ran.errors, ran)
    tests.want("vendor again: what is there was left", "crates that are in dest/crates already were left as they are: low high mapcli" in ran.errors, ran)
    it.write("dest/crates.txt", "high: low std\nmapcli: high\nlow: std\n")
    ran = it.start("dest", "mapcli", program=VENDOR)
    tests.want("vendor: nothing new", (ran.status, ran.output, "is another than ours: low:" in ran.errors) == (0, "", True), ran)
    it.write("dest/crates.txt", "low:\nhigh: low std\nmapcli: high\n")
    for words, status, told in (
        (("nowhere",), 1, "vendor: there is no crate facingberyl here\n"),
        (("nowhere", "low"), 1, "vendor: nowhere is no folder\n"),
        (("dest", "nothing"), 1, "vendor: there is no crate nothing here\n"),
        ((), 2, "usage: bin/vendor [--print] DEST [CRATE]\n       bin/vendor --check DEST [CRATE]\n"),
        (("--check",), 2, "usage: bin/vendor [--print] DEST [CRATE]\n       bin/vendor --check DEST [CRATE]\n"),
        (("--check", "nowhere"), 1, "nowhere has no crates.txt\n"),
        (("--check", "dest", "other"), 1, "dest/crates.txt has no line for other: bin/vendor writes it\n"),
    ):
        ran = it.start(*words, program=VENDOR)
        tests.want(f"vendor {words}", (ran.status, ran.output, ran.errors.endswith(told)) == (status, "", True), ran)
    ran = it.start("dest", "other", program=VENDOR, before=["sh", "-c", 'ulimit -f 0; exec "$0" "$@"'])
    tests.want("vendor, a full disk: one line", (ran.status, ran.errors.startswith("vendor: the disk is full"), ran.errors.count("\n")) == (1, True, 1), ran)
    tests.want("vendor, a full disk: nothing half-copied", "other" not in os.listdir(f"{it.top}/dest/crates"), ran)


def test_check(tests, it):
    it.calls()
    begun = it.begin("high", "--check", "dest", "high", program=VENDOR)
    ran = it.stop(begun, signal.SIGINT)
    tests.want("vendor --check, stopped", (ran.status, "What was proved is kept" in ran.errors) == (130, True), ran)
    it.calls()
    ran = it.start("--check", "dest", "high", program=VENDOR)
    tests.want("vendor --check: from where it was", (ran.status, it.calls()) == (0, ["high check", "high lib"]), ran)
    said = [it in ran.errors for it in ("1 of 2 crates are to be proved. That takes a minute or two", "crate 1 of 1, high", "high and all below are proved there")]
    tests.want("vendor --check: an estimate, progress, an end", said == [True] * 3, ran)
    ran = it.start("--check", "dest", "high", program=VENDOR)
    tests.want("vendor --check again: at once", (ran.status, ran.errors, it.calls()) == (0, "vendor: high and all below are proved there already\n", []), ran)
    ran = it.start("--check", "dest", program=VENDOR)
    tests.want("vendor --check: all of ours that are named", (ran.status, "1 of 3 crates are to be proved" in ran.errors, it.calls()) == (0, True, ["mapcli check", "mapcli lib"]), ran)
    it.write("dest/crates/high/src/lib.rt", "7\n")
    it.write("wrong_high", "src/lib.rt:1:1: error[x]: wrong\n")
    ran = it.start("--check", "dest", "high", program=VENDOR)
    tests.want("vendor --check, not proved: one line", (ran.status, "high is not proved: src/lib.rt:1:1: error[x]: wrong (dest/crates/high/out/build.log has" in ran.errors.splitlines()[-1]) == (1, True), ran)
    it.remove("wrong_high")


ALL = (test_copies, test_check)
