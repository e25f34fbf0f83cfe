"""What the programs tell of words that ask for help or for the version, and of wrong ones: the launchers tell it in their place, so that nobody
waits for a build to learn it. docs/check.py compares the texts with the sources, docs/check_commands.py the answers with the programs'."""
import os

FILE = "FILE"
TRY_HELP = "\n\nFor more information, try '--help'.\n"
U32 = 2**32 - 1


class Option:
    """An option with a value: a number in a range, or one of some names."""

    def __init__(self, name, text, default, least=0, most=0, names=(), value="N"):
        self.name, self.text, self.default, self.value = name, text, default, value
        self.least, self.most, self.names = least, most, names

    def shown(self):
        return f"--{self.name} <{self.value}>"

    def help(self):
        names = f" [possible values: {', '.join(self.names)}]" if self.names else ""
        return f"{self.text} [default: {self.default}]{names}"

    def wrong(self, value):
        """Returns what is wrong with a value, or None."""
        if self.names:
            return None if value in self.names else self.not_among(value)
        digits = value[1:] if value[:1] in ("+", "-") else value
        if not value:
            why = "cannot parse integer from empty string"
        elif not (digits.isascii() and digits.isdigit()):
            why = "invalid digit found in string"
        elif not -(2**63) <= int(value) < 2**63:
            why = f"number too {'small' if value[0] == '-' else 'large'} to fit in target type"
        elif not self.least <= int(value) <= self.most:
            why = f"{int(value)} is not in {self.least}..={self.most}"
        else:
            return None
        return f"invalid value '{value}' for '{self.shown()}': {why}"

    def not_among(self, value):
        told = f"invalid value '{value}' for '{self.shown()}'" if value else self.lacks_value()
        told += f"\n  [possible values: {', '.join(self.names)}]"
        close = similar(value, self.names)
        return told + (f"\n\n  tip: a similar value exists: '{close}'" if close else "")

    def lacks_value(self):
        return f"a value is required for '{self.shown()}' but none was supplied"


def jaro(a, b):
    """Returns how alike two words are, from 0 to 1, by the measure of Jaro."""
    if a == b:
        return 1.0
    reach = max(len(a), len(b)) // 2 - 1
    taken, matched = set(), []
    for at, it in enumerate(a):
        for place in range(max(0, at - max(reach, 0)), min(len(b), at + max(reach, 0) + 1)):
            if place not in taken and b[place] == it:
                taken.add(place)
                matched.append(it)
                break
    if not matched:
        return 0.0
    swapped = sum(x != b[y] for x, y in zip(matched, sorted(taken))) / 2
    return (len(matched) / len(a) + len(matched) / len(b) + (len(matched) - swapped) / len(matched)) / 3


def similar(word, names):
    """Returns the name that is most alike, the last of several, where one is alike enough."""
    best = max(((jaro(word, it), at, it) for at, it in enumerate(names)), default=(0, 0, None))
    return best[2] if best[0] > 0.7 else None


class Answered(Exception):
    """The words are answered: with a status, and a text for standard output or for errors."""

    def __init__(self, status, text, is_output=False):
        super().__init__(text)
        self.status, self.text, self.is_output = status, text, is_output


class Command:
    """What a program takes: options, and a file or none."""

    def __init__(self, name, about, options, version="", file="", after="", help_status=0):
        self.name, self.about, self.options, self.version = name, about, options, version
        self.file, self.after, self.help_status = file, after, help_status
        self.flags = [("help", "h", "Print help")] + [("version", "V", "Print version")] * bool(version)

    def usage(self, used=()):
        """Returns the line of usage, with what was used, or with all that may be."""
        shown = [it.shown() for name in used for it in self.options if it.name == name]
        shown += [f"--{it}" for it, _, _ in self.flags if it in used]
        return " ".join(["Usage:", self.name, *(shown if used else ["[OPTIONS]"]), *["<FILE>"] * bool(self.file)])

    def help(self):
        rows = [(f"      {it.shown()}", it.help()) for it in self.options]
        rows += [(f"  -{short}, --{name}", text) for name, short, text in self.flags]
        width = max(len(it) for it, _ in rows)
        text = f"{self.about}\n\n{self.usage()}\n\n"
        text += f"Arguments:\n  <FILE>  {self.file}\n\n" if self.file else ""
        text += "Options:\n" + "".join(f"{shown:{width}}  {told}\n" for shown, told in rows)
        return text + (f"\n{self.after}\n" if self.after else "")

    def ask(self, flag):
        is_help = flag == "help"
        text = self.help() if is_help else f"{self.name} {self.version}\n"
        raise Answered(self.help_status, text, not self.help_status)

    def fail(self, fault, usage=""):
        raise Answered(2, f"error: {fault}{f'{chr(10)}{chr(10)}{usage}' if usage else ''}{TRY_HELP}")

    def read(self, words):
        """Returns FILE, or None where there is none to name; fails with the answer to words that are answered at once."""
        reading = Reading(self)
        for word in words:
            reading.take(word)
        reading.resolve()
        if self.file and FILE not in reading.used:
            self.fail("the following required arguments were not provided:\n  <FILE>", self.usage([*reading.used, FILE]))
        return reading.used.get(FILE)


class Reading:
    """How far the words of a command are read. An option, and FILE, is tested once the next one begins, or all words are read."""

    def __init__(self, command):
        self.command, self.used, self.waits, self.ends = command, {}, None, False

    def take(self, word):
        if self.ends:
            self.take_plain(word)
        elif word == "--":
            self.ends = True
        elif word.startswith("--"):
            self.take_long(*word[2:].partition("="))
        elif word.startswith("-") and word != "-":
            self.take_short(word[1:])
        elif self.waits and self.waits[1] is None:
            self.waits = self.waits[0], word
        else:
            self.take_plain(word)

    def resolve(self):
        """Tests what waits to be."""
        if self.waits:
            (option, value), self.waits = self.waits, None
            if option == FILE:
                self.used[FILE] = value
            elif value is None:
                names = f"\n  [possible values: {', '.join(option.names)}]" if option.names else ""
                self.command.fail(option.lacks_value() + names)
            else:
                self.set(option, value)

    def forget(self):
        """Tests what waits to be, and does not tell what is wrong with it."""
        try:
            self.resolve()
        except Answered:
            pass

    def set(self, option, value):
        if self.used.pop(option.name, None) is not None:
            self.command.fail(f"the argument '{option.shown()}' cannot be used multiple times", self.command.usage())
        self.used[option.name] = value
        if wrong := option.wrong(value):
            self.command.fail(wrong)

    def take_plain(self, word):
        if not self.command.file or FILE in self.used or self.waits and self.waits[0] == FILE:
            self.forget()
            self.command.fail(f"unexpected argument '{word}' found", self.command.usage())
        self.resolve()
        self.waits = FILE, word

    def take_long(self, name, equals, value):
        option = next((it for it in self.command.options if it.name == name), None)
        if option:
            self.resolve()
            if equals:
                self.set(option, value)
            else:
                self.waits = option, None
        elif not any(name == flag for flag, _, _ in self.command.flags):
            self.fail_unknown(name)
        elif equals:
            fault = f"unexpected value '{value}' for '--{name}' found; no more were expected"
            self.command.fail(fault, self.command.usage([*(it for it in self.used if it != FILE), name]))
        else:
            self.resolve()
            self.command.ask(name)

    def fail_unknown(self, name):
        self.forget()
        close = similar(name, [it.name for it in self.command.options] + [flag for flag, _, _ in self.command.flags])
        fault = f"unexpected argument '--{name}' found"
        if close:
            fault += f"\n\n  tip: a similar argument exists: '--{close}'"
            self.used.setdefault(close, "")
        elif self.command.file:
            fault += f"\n\n  tip: to pass '--{name}' as a value, use '-- --{name}'"
        self.command.fail(fault, self.command.usage(self.used))

    def take_short(self, flags):
        name = next((name for name, short, _ in self.command.flags if short == flags[0]), None)
        if name is not None:
            self.resolve()
            self.command.ask(name)
        self.forget()
        tip = f"\n\n  tip: to pass '-{flags[0]}' as a value, use '-- -{flags[0]}'" if self.command.file else ""
        self.command.fail(f"unexpected argument '-{flags[0]}' found{tip}", self.command.usage())


SCRIPTS = """A script has a block for each client: the line `client`, then a line for each of
its calls. After the blocks come the line `query` and a line for each query. An
example, with what its lines print beside them:

  client           client 0
  put a 1          none
  merge a 2 sum    some 3
  query
  count            1
  list 1           a 3

Calls:    get K, contains K, put K V, put_if_absent K V, remove K,
          remove_if K V, replace K V, replace_if K V V, compute_if_absent K F,
          compute_if_present K F, compute K F, merge K V M
Queries:  count, reduce sum T, reduce max T, search above V T, list T

K is a key: 1 to 32 letters, digits or _. V is a signed number of 64 bits. F is
sum V, max V, set V or drop; M is sum, max, set or drop. T says from how many
keys on the work may be divided, and changes no answer.

The first bad line is told as `mapcli: line L: KIND`. The kinds:
  cut       the line is not ended by a line feed
  bytes     it holds a byte outside 0x20 to 0x7E, such as a tab
  spaces    it is empty, begins or ends with a space, or has two side by side
  word      its first word is not allowed in its section
  count     a word after the first is missing, or there is one too many
  key       a word that should be a key is none
  number    a word that should be a number is none
  function  a word that should name a function is none
  limit     it is the 33rd line `client`, or the 1,000,001st call of its block
  missing   the text ends before a line `query`

The exit status is 0; or 1 for a bad line of the script, 2 for wrong words, and 3
where memory ran out or a file could not be opened, read or written.

In a clone of the repository, bin/mapcli proves and builds this program if it is
not there, and with --unproved as its first word compiles it without proofs. The
page docs/SCRIPTS.md has all rules of scripts."""
MAPCLI = Command(
    "mapcli",
    "Runs a script of client blocks over a concurrent hash map, and answers its queries",
    [
        Option("workers", "How many workers answer the queries, 1 to 16", "4", 1, 16),
        Option("capacity", "How many buckets the map opens with at least, 1 to 4096", "16", 1, 4096),
        Option("salt", "What the hashes of keys are mixed with, 0 to 4294967295", "0", 0, U32),
    ],
    version="0.1.0",
    file="The script, or - for standard input",
    after=SCRIPTS,
)
MODES = "mix: 80 gets, 15 puts, 5 removes; get; merge; glance; look; view; update; walk, copies or list: go over all; churn: put, remove; fill an empty map; stall: its longest call; bulk: bulk operations on a live map"
MODE_NAMES = ("mix", "get", "merge", "glance", "look", "view", "update", "walk", "copies", "list", "churn", "fill", "stall", "bulk")
MAP_BENCH = Command(
    "map_bench",
    "Measures how many million calls a second threads make of one map, or how long bulk operations take",
    [
        Option("threads", "How many threads make calls, 1 to 31", "4", 1, 31),
        Option("calls", "How many calls each makes, 1 to 100000000; of a recorded map 1000000", "1000000", 1, 10**8),
        Option("keys", "On how many keys, 1 to 10000000", "20000", 1, 10**7),
        Option("capacity", "How many buckets the map opens with at least, 1 to 4096", "16", 1, 4096),
        Option("mode", MODES, "mix", names=MODE_NAMES, value="MODE"),
        Option("form", "lean, or recorded: a map that stores a record of each call", "lean", names=("lean", "recorded"), value="FORM"),
        Option(
            "choice",
            "uniform, or zipf: keys are chosen by Zipf's law with the exponent 0.99",
            "uniform",
            names=("uniform", "zipf"),
            value="CHOICE",
        ),
        Option("lanes", "own, or one: all threads add into one word of the count", "own", names=("own", "one"), value="LANES"),
        Option("entries", "In mode bulk, how many entries the map has, 0 to 4294967295", "1000000", 0, U32),
        Option("workers", "In mode bulk, how many workers an operation has, 1 to 16", "4", 1, 16),
        Option("writers", "In mode bulk, how many clients put and remove other keys meanwhile", "0", names=("0", "2")),
        Option("runs", "In mode bulk, of how many runs the best time is printed; 0: what operations return", "20", 0, U32),
    ],
    help_status=2,
)
COMMANDS = {"mapcli": MAPCLI, "map_bench": MAP_BENCH}
NOT_UTF_8 = "error: invalid UTF-8 was detected in one or more arguments\n\nUsage: mapcli [OPTIONS] <FILE>" + TRY_HELP
DEVICE = "mapcli: device\n"


def can_be_read(file):
    """Returns whether a file is there that may be read and is no folder; `-` is standard input. It is not opened: it may be a pipe."""
    try:
        return file == "-" or not os.path.isdir(file) and os.access(file, os.R_OK)
    except ValueError:
        return False


def answer(name, words):
    """Fails with Answered where a program would end with no more than its words read, or without its FILE."""
    command = COMMANDS.get(name)
    if command is None:
        return
    is_utf_8 = all("\udc80" > it or it > "\udcff" for word in words for it in word)
    if name == "mapcli" and not is_utf_8:
        raise Answered(2, NOT_UTF_8)
    if is_utf_8:
        file = command.read(words)
        if file is not None and not can_be_read(file):
            raise Answered(3, DEVICE)
