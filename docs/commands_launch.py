"""Tests of the launchers of bin/ and of tools/build_unproved: what they build, when, and what they print, over small crates and a stub for the kit."""
import os
import signal
import subprocess

# (a file that is there, as mapcli wants one)
FILE = "bin/mapcli"
BUILT = ["low check", "low lib", "high check", "high lib", "mapcli check", "mapcli run -- --help"]
NOT_UTF_8 = "error: invalid UTF-8 was detected in one or more arguments\n\nUsage: mapcli [OPTIONS] <FILE>\n\nFor more information, try '--help'.\n"
PIPES = {"stdin": subprocess.DEVNULL, "stdout": subprocess.PIPE, "stderr": subprocess.PIPE}


def old_program(it):
    return subprocess.run([f"{it.top}/crates/mapcli/out/mapcli", "x"], capture_output=True, text=True, check=False).stdout


def is_at_once(tests, it, what, *words):
    ran = it.start(*words, FILE)
    calls = it.calls()
    tests.want(f"{what}: at once", (ran.status, ran.errors, calls) == (0, "", []), (ran, calls))


def test_proved(tests, it):
    ran = it.start("--workers=2", FILE)
    lines = ran.errors.splitlines()
    tests.want("first start: the program runs", (ran.status, ran.output) == (0, f"program 1 of --workers=2 {FILE}\n"), ran)
    tests.want("first start: says first what it will do", "3 of 3 crates are to be proved first. That takes a minute or two" in lines[0], ran)
    tests.want("first start: names the other way", "With --unproved as the first word" in lines[1], ran)
    tests.want("first start: crate i of n", [f"crate {i}" in ran.errors for i in ("1 of 3, low", "2 of 3, high", "3 of 3, mapcli")] == [True] * 3, ran)
    tests.want("first start: no terminal, plain lines", "\r" not in ran.errors and "\033" not in ran.errors, ran)
    tests.want("first start: each crate after those below it", it.calls() == BUILT)

    is_at_once(tests, it, "second start")
    it.change("crates/other/src/lib.rt", "2\n")
    is_at_once(tests, it, "a crate changed that it does not stand on")
    it.change("crates.txt", "low:\nhigh: low std\nother: low std\nnew: low\nmapcli: high\nmap_bench: low\nfor_c staticlib: low\n")
    is_at_once(tests, it, "lines of crates.txt changed that it does not stand on")
    it.change("crates/low/src/lib.rt", "1\n")
    is_at_once(tests, it, "a file was touched")
    it.change("crates/low/must-fail/a.edit", "2\n")
    is_at_once(tests, it, "a stored edit changed")

    ran = it.start("--mode=get", program="bin/map_bench")
    said = "map_bench: the program is not built yet: 1 of 2 crates" in ran.errors
    tests.want("map_bench: it runs, and says what it will do", (ran.output, said) == ("program 1 of --mode=get\n", True), ran)
    tests.want("map_bench: what mapcli kept is not proved again", it.calls() == ["map_bench check", "map_bench run -- --help"])


def test_stops(tests, it):
    it.change("crates/high/src/lib.rt", "2\n")
    ran = it.stop(it.begin("high", FILE), signal.SIGINT)
    tests.want("stopped: its status", ran.status == 130, ran)
    tests.want("stopped: says so", "stopped after 0 minutes. What was proved is kept" in ran.errors, ran)
    tests.want("stopped: names the old program", "crates/mapcli/out/mapcli" in ran.errors, ran)
    tests.want("stopped: the old program is there", old_program(it) == "program 1 of x\n")
    it.calls()
    it.change("crates/mapcli/src/main.rt", "2")
    ran = it.stop(it.begin("run", FILE), signal.SIGTERM)
    tests.want("stopped while it compiles: its status", ran.status == 143, ran)
    tests.want("stopped while it compiles: from where it was", it.calls() == BUILT[2:])
    tests.want("stopped while it compiles: the old program is there", old_program(it) == "program 1 of x\n")

    begun = it.begin("mapcli", FILE)
    second = it.popen(FILE, **PIPES)
    tests.want("two starts: the second waits", "another start of it builds: waiting" in second.stderr.readline())
    it.stop(begun, signal.SIGHUP)
    output, errors = second.communicate(timeout=60)
    tests.want("two starts: the second builds what the first did not", (second.returncode, output) == (0, f"program 2 of {FILE}\n"), errors)
    it.calls()

    it.change("crates/mapcli/src/main.rt", "3")
    shown = it.on_terminal(FILE)
    tests.want("terminal: one line that changes", shown.count("\n") == 3 and "\r\033[K" in shown, repr(shown))
    tests.want("terminal: functions proved of all, minutes gone", "crate 1 of 1, mapcli: 3 of 3 functions, 0 minutes gone" in shown, repr(shown))
    tests.want("after a stop: what was kept is not proved again", it.calls() == BUILT[4:])
    ran = it.start(FILE)
    tests.want("after a stop: the new program", ran.output == f"program 3 of {FILE}\n", ran)


def test_not_proved(tests, it):
    it.change("crates/low/src/lib.rt", "3\n")
    for text, told in (
        ("src/lib.rt:1:1: error[x]: wrong\n", "low is not proved: src/lib.rt:1:1: error[x]: wrong (crates/mapcli/out/build.log has"),
        ("write: No space left on device\n", "low is not proved: the disk is full: free some of it"),
        ("rt: the check was killed, most likely for memory\n", "low is not proved: the prover was killed, most likely for memory: "),
    ):
        it.write("wrong_low", text)
        ran = it.start(FILE)
        tests.want(f"not proved, {text[:12]}: status 3, and why", (ran.status, told in ran.errors.splitlines()[-1]) == (3, True), ran)
    it.remove("wrong_low")
    it.calls()
    it.start(FILE)
    tests.want("a change below: all above it", it.calls() == BUILT)
    it.change("crates/mapcli/out/mapcli", "#!/bin/sh\necho by hand\n")
    ran = it.start(FILE)
    tests.want("another program in its place: built again", ran.output == f"program 3 of {FILE}\n", ran)


def test_unproved(tests, it):
    it.calls()
    ran = it.start("--unproved", FILE)
    tests.want("unproved: it runs", (ran.status, ran.output) == (0, f"unproved 3 of {FILE}\n"), ran)
    tests.want("unproved: says that no proof is checked, and its steps", [it in ran.errors for it in ("no proof is checked", "step 1 of 3", "step 3 of 3")] == [True] * 3, ran)
    tests.want("unproved: one trial run, no check", it.calls() == ["try"])
    is_at_once(tests, it, "unproved again", "--unproved")
    it.change("crates/low/proofs/A.antt", "2\n")
    it.change("crates/other/src/lib.rt", "9\n")
    is_at_once(tests, it, "unproved, a proof and another crate changed", "--unproved")
    it.change("crates/low/src/lib.rt", "8\n")
    it.change("crates/mapcli/src/main.rt", "4")
    ran = it.stop(it.begin("try", "--unproved", FILE))
    tests.want("unproved, stopped: its status, and says so", (ran.status, "nothing is kept of this build" in ran.errors) == (130, True), ran)
    tests.want("unproved, stopped: nothing half-built is kept", len(it.kept()) == 1, it.kept())
    it.calls()

    begun = it.begin("try", "--unproved", FILE)
    begun.kill()
    begun.communicate()
    tests.want("unproved, killed: nothing that is taken for whole", len([one for one in it.kept() if not one.startswith("room-")]) == 1, it.kept())
    it.calls()
    both = [it.popen("--unproved", FILE, **PIPES) for _ in range(2)]
    ended = [(*ran.communicate(timeout=60), ran.returncode) for ran in both]
    tests.want("unproved, two starts: both run it", [(status, output) for output, _, status in ended] == [(0, f"unproved 4 of {FILE}\n")] * 2, ended)
    tests.want("unproved, two starts: one builds", it.calls() == ["try"])
    tests.want("unproved: the old build is not kept, nor what was killed", len(it.kept()) == 1, it.kept())
    shown = it.on_terminal("--unproved", FILE)
    tests.want("unproved again, on a terminal: nothing is told", shown == "", repr(shown))


def test_bad_input(tests, it):
    """Each ends with one line that says what to do, and nothing is kept."""
    it.change("crates/mapcli/src/main.rt", "5")
    before = it.kept()

    def want(what, told, *words, status=3, **how):
        ran = it.start(*words, **how)
        last = (ran.errors.splitlines() or [""])[-1]
        tests.want(f"{what}: one line", (ran.status, ran.output, told in last) == (status, "", True), ran)
        tests.want(f"{what}: nothing is kept", it.kept() == before, it.kept())

    no_kit = {**it.environment, "PATH": "/usr/bin:/bin"}
    small = ["sh", "-c", 'ulimit -v 110000; exec "$0" "$@"']
    full = ["sh", "-c", 'ulimit -f 0; exec "$0" "$@"']
    for words in (("--unproved", FILE), (FILE,)):
        want(f"{words}, no kit", "install the Rattle kit, and put its folder bin on the PATH", *words, environment=no_kit)
        it.write("kit/KIT-ID", "rattle-kit-1 logic 1\n")
        want(f"{words}, another kit", "and rt is of rattle-kit-1 logic 1: put the former's folder bin first on the PATH", *words)
        it.write("kit/KIT-ID", it.read("KIT"))
        want(f"{words}, little memory", "GB of memory, and 0.1 GB can be had: end other programs, and start again", *words, before=small)
        want(f"{words}, a full disk", "the disk is full", *words, before=full)
    it.write("wrong_mapcli", "")
    told = "mapcli does not compile: crates/mapcli/src/main.rt:1:1: error[unexpected-token]: it is wrong (crates/mapcli/out/unproved/build.log has all)"
    want("a crate that does not compile", told, "--unproved", FILE)
    it.remove("wrong_mapcli")
    for words, status, output, errors in (
        (("--version",), 0, f"mapcli {it.read('VERSION')}", ""),
        (("--workers=17", FILE), 2, "", "error: invalid value '17' for '--workers <N>': 17 is not in 1..=16\n\nFor more information, try '--help'.\n"),
        (("nothing/here",), 3, "", "mapcli: device\n"),
        (("bin",), 3, "", "mapcli: device\n"),
        (("\udcff",), 2, "", NOT_UTF_8),
    ):
        for first in ((), ("--unproved",)):
            ran = it.start(*first, *words, environment=no_kit)
            tests.want(f"{words}: answered before anything is built", (ran.status, ran.output, ran.errors) == (status, output, errors), ran)
    it.calls()


def test_build_unproved(tests, it):
    build = "tools/build_unproved"
    ran = it.start("mapcli", "it", program=build)
    tests.want("build_unproved: a program", (ran.status, old(it, "it")) == (0, "unproved 5 of \n"), ran)
    ran = it.start("mapcli", "it", program=build)
    tests.want("build_unproved: again, at once", (ran.status, ran.errors) == (0, ""), ran)
    it.write("crates/for_c/src/lib.rt", 'mod a;\n#[unsafe(no_mangle)]\npub extern "C" fn one(a: &mut [u8], b: u64) -> u32 {\n')
    ran = it.start("--lib", "for_c", "it.a", program=build)
    tests.want("build_unproved: a library, with a program that calls its exports", (ran.status, "one(any_value(), any_value())" in it.read("it.a")) == (0, True), ran)
    for words, status, told in (
        (("for_c", "x"), 1, "for_c is no program: --lib is for static libraries, and for them alone"),
        (("--lib", "mapcli", "x"), 1, "mapcli is no static library: --lib is for static libraries"),
        (("nothing", "x"), 1, "names no crate nothing"),
        (("elsewhere/crates/mine", "x"), 1, "has no crates.txt"),
        (("mapcli", "nothing/x"), 1, "No such file or directory"),
        (("mapcli",), 2, "usage: tools/build_unproved"),
        (("--sanitize", "thread", "mapcli", "x"), 2, "usage: tools/build_unproved"),
    ):
        ran = it.start(*words, program=build)
        tests.want(f"build_unproved {words}", (ran.status, told in ran.errors, os.path.exists(f"{it.top}/x")) == (status, True, False), ran)
    it.write("elsewhere/crates.txt", "low:\nmine: low\n")
    it.write("elsewhere/crates/mine/src/main.rt", "6")
    it.write("elsewhere/crates/low/src/lib.rt", "1")
    ran = it.start("elsewhere/crates/mine", "mine", program=build)
    tests.want("build_unproved: a program of another repository", (ran.status, old(it, "mine")) == (0, "unproved 6 of \n"), ran)


def old(it, program):
    return subprocess.run([f"{it.top}/{program}"], capture_output=True, text=True, check=False).stdout


ALL = (test_proved, test_stops, test_not_proved, test_unproved, test_bad_input, test_build_unproved)
