"""Runs the commands of the pages, and compares what they do with what the pages say.

usage: python3 docs/check_commands.py [MAPCLI]

It proves nothing, builds nothing, and takes a minute.
  It starts the launchers of bin/, bin/vendor and tools/build_unproved in a folder of their own, over small crates and a stub
    for the kit, the gate over stubs of its parts, and bin/test and others with wrong words.
  It gives MAPCLI, the program, the examples of the pages, and wrong words, files and devices. Without MAPCLI, it uses the one
    that was proved and built last, or what `bin/mapcli --unproved` built of the present sources; if there is none, this part is
    left out. It compares what the launchers print of wrong words in the programs' place with what the programs print.
It prints a line for each test that failed, and ends with status 1 if one did."""
import contextlib
import os
import random
import re
import subprocess
import sys
import tempfile

import commands_gate
import commands_launch
import commands_vendor
from commands_stub import TOP, Ran, Repository, Tests

sys.path += [f"{TOP}/bin", f"{TOP}/tools"]

import words  # noqa: E402
from unproved.build import Build  # noqa: E402
from unproved.crates import NotBuilt  # noqa: E402
from unproved.crates import Repository as Crates  # noqa: E402


def text_of(path):
    with open(f"{TOP}/{path}", encoding="utf-8") as it:
        return it.read()


def columns_of(block, heads):
    """Returns the columns of a block, each from where its head stands in the first line, without what is left empty at its end."""
    lines = block.splitlines()
    at = [found.start() for found in re.finditer(heads, lines[0])]
    return ["\n".join(line[a:b].rstrip() for line in lines).rstrip("\n") + "\n" for a, b in zip(at, [*at[1:], None])]


def test_examples(tests, run):
    first = run("examples/first.script")
    tests.want("README: examples/first.script", (first.status, first.output, first.errors) == (0, text_of("crates/mapcli/stdout"), ""), first)
    found = re.search(r"prints one of three texts[.:][^<]*<!-- typed -->\n\n((?: {4}.*\n)+)", text_of("docs/SCRIPTS.md"))
    texts = columns_of(re.sub("(?m)^ {4}", "", found[1]), "client 0")
    tests.want("SCRIPTS: three texts", len(texts) == 3, texts)
    for _ in range(20):
        ran = run("examples/two_clients.script")
        tests.want("SCRIPTS: one of the three texts", (ran.status, ran.output in texts) == (0, True), ran)
    ran = run("--version")
    tests.want("--version: the file VERSION", (ran.status, ran.output, ran.errors) == (0, f"mapcli {text_of('VERSION')}", ""), ran)
    told = run("--help")
    example = re.search(r"(?m)^  client .*(?:\n  .*)+", told.output)
    lines = [re.match(r"  (.*?)(?:  +(\S.*))?$", it) for it in example[0].splitlines()]
    script, wanted = "".join(f"{it[1]}\n" for it in lines), "".join(f"{it[2]}\n" for it in lines if it[2])
    ran = run("-", given=script.encode())
    tests.want("--help: its example", (ran.status, ran.output) == (0, wanted), ran)
    with contextlib.suppress(OSError):
        kit = subprocess.run(["rt", "version"], capture_output=True, text=True, check=False).stdout.strip()
        tests.want("README: rt version", f"`{kit}` (`rt version`)" in text_of("README.md"), kit)
    for name in sorted(it for it in os.listdir(f"{TOP}/examples") if it.endswith(".script")):
        ran = run(f"examples/{name}")
        tests.want(f"examples/{name}: runs", (ran.status, ran.errors) == (0, ""), ran)
    # (each call of the page follows the word `As`)
    calls = " ".join(text_of("docs/SCRIPTS.md").partition("## Calls")[2].partition("| Function |")[0].split())
    shown = re.findall(r"As `([^`]*)`", calls)
    queries = re.findall(r"(?m)^\| `(?:count|reduce|search|list)[^`]*` \|.*\| `([^`]*)` \|$", text_of("docs/SCRIPTS.md"))
    ran = run("-", given="\n".join(["client", *shown, "query", *queries, ""]).encode())
    tests.want("SCRIPTS: its calls and queries", (len(shown), len(queries), ran.status, ran.errors) == (12, 5, 0, ""), (shown, queries, ran))


CALL, QUERY = "client\n{}\nquery\n", "client\nquery\n{}\n"
FAULTS = [
    ("client\nquery", "line 2: cut"),
    (CALL.format("get\ta"), "line 2: bytes"),
    (CALL.format("get a\r"), "line 2: bytes"),
    (CALL.format(""), "line 2: spaces"),
    (QUERY.format("get a"), "line 3: word"),
    ("query\n", "line 1: word"),
    (CALL.format("put a"), "line 2: count"),
    (CALL.format("put a 1 2"), "line 2: count"),
    (CALL.format("compute a drop 1"), "line 2: count"),
    (CALL.format("put a-b 1"), "line 2: key"),
    (CALL.format("put a 01"), "line 2: number"),
    (QUERY.format("list -1"), "line 3: number"),
    (CALL.format("compute a min 1"), "line 2: function"),
    (33 * "client\n", "line 33: limit"),
    ("client\n", "line 2: missing"),
]
DEVICE, NO_MEMORY = "mapcli: device\n", "mapcli: no memory\n"
NOT_UTF_8 = "error: invalid UTF-8 was detected in one or more arguments\n\nUsage: mapcli [OPTIONS] <FILE>\n\nFor more information, try '--help'.\n"


def test_messages(tests, run, program):
    for script, line in FAULTS:
        ran = run("-", given=script.encode())
        tests.want(f"{line} of {script[:30]!r}", (ran.status, ran.output, ran.errors) == (1, "", f"mapcli: {line}\n"), ran)
    for what, words in (("a missing file", "nothing/here"), ("a folder", "examples"), ("no name", "")):
        ran = run(words)
        tests.want(what, (ran.status, ran.output, ran.errors) == (3, "", DEVICE), ran)
    for word in (b"\xff", b"examples/\xff.script"):
        ran = run(word)
        tests.want("a word that is not UTF-8", (ran.status, ran.output, ran.errors) == (2, "", NOT_UTF_8), ran)
    for words in ((), ("a", "b"), ("--workers", "17", "a"), ("--capacity=0", "a"), ("--nothing", "a")):
        ran = run(*words)
        tests.want(f"the words {words}", (ran.status, ran.output, ran.errors[:7]) == (2, "", "error: "), ran)
    for words in ("examples/first.script", "--help", "--version"):
        for what, more in (("full", "> /dev/full"), ("closed", ">&-"), ("a pipe that nobody reads", None)):
            if more:
                ran = subprocess.run(["sh", "-c", f'"$0" "$1" {more}', program, words], cwd=TOP, stderr=subprocess.PIPE, text=True, check=False)
            else:
                ours, its = os.pipe()
                os.close(ours)
                ran = subprocess.run([program, words], cwd=TOP, stdout=its, stderr=subprocess.PIPE, text=True, check=False)
                os.close(its)
            tests.want(f"{words}, the output is {what}", (ran.returncode, ran.stderr) == (3, DEVICE), ran)
    # (memory runs out for good at some of these sizes; at the least of them the program is not even loaded)
    told = 0
    for kilobytes in range(1500, 6000, 25):
        ran = subprocess.run(["sh", "-c", f'ulimit -v {kilobytes}; exec "$0" examples/first.script', program], cwd=TOP, capture_output=True, text=True, check=False)
        if ran.returncode == 3:
            told += 1
            tests.want(f"{kilobytes} kilobytes", ran.stderr == NO_MEMORY, ran)
    tests.want("no memory is told", told > 0)


ANY = ["", "-", "--", "--help", "-h", "-hx", "-xh", "--help=", "--nothing", "--=", "---", "-1", "0", "4", "+5", "04", "x", "a b", "\u00e9", "nothing/here", "9" * 23]
PROGRAMS = {
    "mapcli": [*ANY, "--workers", "--workers=3", "--workers=17", "--capacity", "--capacity=", "--salt", "--salt=x", "--salt=-4", "-V", "--version", "--work", "--salty", "--versio"],
    "map_bench": [*ANY, "--threads", "--threads=32", "--calls=0", "--keys=1e3", "--mode", "--mode=mic", "--mode=", "--form=leen", "--choice", "--mod", "--version", "--formm"]
    + ["--mode=bulk", "--mode=bulky", "--entries=-1", "--entries=4294967296", "--entries=x", "--workers=17", "--workers=0", "--writers=1", "--writers", "--writers=2", "--runs=", "--runs=0", "--run", "--worker"],
}


def test_words(tests, name, program):
    """Compares what a launcher tells of words with what the program tells of them."""
    # (the same words each time)
    drawn = random.Random(1)
    for _ in range(400):
        given = [drawn.choice(PROGRAMS[name]) for _ in range(drawn.choice((0, 1, 1, 2, 2, 3, 4)))]
        try:
            words.answer(name, given)
            told = None
        except words.Answered as by:
            told = (by.status, by.text if by.is_output else "", "" if by.is_output else by.text)
        if told is None and name == "map_bench":
            # (it would measure)
            continue
        ran = subprocess.run([name, *given], executable=program, stdin=subprocess.DEVNULL, capture_output=True, text=True, timeout=60, check=False)
        # (what the launcher does not answer is a script: here an empty one, from standard input)
        wanted = told or (1, "", "mapcli: line 1: missing\n")
        tests.want(f"launcher: the words {given}", (ran.returncode, ran.stdout, ran.stderr) == wanted, (wanted, ran))


def test_program(tests, program):
    def run(*words, given=b""):
        ran = subprocess.run([program, *words], cwd=TOP, input=given, capture_output=True, timeout=60, check=False)
        return Ran(ran.returncode, ran.stdout.decode(), ran.stderr.decode())

    test_examples(tests, run)
    test_messages(tests, run, program)


def built(name):
    """Returns the program that was proved and built last, or the one that a build without proofs kept, or None."""
    proved = f"{TOP}/crates/{name}/out/{name}"
    if os.path.exists(proved):
        return proved
    with contextlib.suppress(NotBuilt):
        kept = Build(Crates(TOP), name).kept()
        return kept if os.path.exists(kept) else None
    return None


def main(program=None):
    if program in ("-h", "--help"):
        print(__doc__)
        return 0
    tests = Tests()
    with tempfile.TemporaryDirectory() as top:
        repository = Repository(os.path.realpath(top))
        for test in (*commands_launch.ALL, *commands_vendor.ALL):
            test(tests, repository)
    with tempfile.TemporaryDirectory() as top:
        commands_gate.test_gate(tests, f"{os.path.realpath(top)}/gate")
        commands_gate.test_texts(tests, f"{os.path.realpath(top)}/texts")
    commands_gate.test_words(tests)
    programs = {"mapcli": os.path.realpath(program) if program else built("mapcli"), "map_bench": built("map_bench")}
    if programs["mapcli"]:
        test_program(tests, programs["mapcli"])
    for name, its in programs.items():
        if its:
            test_words(tests, name, its)
        else:
            print(f"{name} was not built: what it tells was left out; bin/{name} --unproved builds it")
    print(f"{tests.made} tests, {tests.failed} failed")
    return 1 if tests.failed else 0


if __name__ == "__main__":
    sys.exit(main(*sys.argv[1:]))
