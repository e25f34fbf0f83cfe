"""Judges histories of calls on one map: whether each could be one of a map of one thread, in real time.

usage: python3 tools/histories_check.py [FILE..]          (no file: standard input)

This shares no code with the map. A history is a line `history NAME`, a line for each call, and an empty line:

    CLIENT START END CALL KEY FIRST SECOND REPLY..

START and END are ticks of a clock that all clients share: a call that ended before another began stands before it. FIRST and
SECOND are what the call is given, or 0; for a conditional call the value that it wants comes first. A value is a number or
`none`. CALL is one of the names in CALLS, below, and what stands there is all that is known of the map here. Beside them

    clear               is, of each key, a remove with any reply: `done`
    retain              is, of each key, a remove of a value that leaves another rest than SECOND when divided by FIRST: `done`
    walk, show_each     are, of each key, a get: REPLY has the values of the keys 0, 1 and so on

each at some moment between its START and END. So what a walk shows of two keys may be of two moments, and a key is judged by
its own calls. An update replies the value that it met and the one that it left; a call that replies `busy` was not made. For
each key this searches an order of its calls that keeps real time, and in which each call replies as the map of one thread does.
It ends with status 1 where there is none, and shows the calls that cannot be ordered; and with status 2 where a history is not
well formed."""
import collections
import sys

# What a step makes of a value: at ENOUGH it is taken away, and sums stop at MOST.
ENOUGH, MOST = 2**32, 2**64 - 1

# A call on one key: of the arguments `known` to have effect and reply nothing else. Lines are for reports alone.
Call = collections.namedtuple("Call", "start end name first second reply line")


class Malformed(Exception):
    """A history is not well formed."""


# == What a map of one thread does ==


def added(value, amount):
    return min(value + amount, MOST) if value < ENOUGH else None


def stepped(value, amount):
    return amount if value is None else added(value, amount)


def kept(value, divisor, rest):
    return value if value is not None and value % divisor == rest else None


# Of each call, by the value before, what it is given and what was replied: the reply, and the value after. Those that are told
# with any reply give None for it.
CALLS = {
    "get": lambda value, first, second, reply: (value, value),
    "look_up": lambda value, first, second, reply: (value, value),
    "glance": lambda value, first, second, reply: (value, value),
    "view": lambda value, first, second, reply: (value, value),
    "contains": lambda value, first, second, reply: (value is not None, value),
    "put": lambda value, first, second, reply: (value, first),
    "put_if_absent": lambda value, first, second, reply: (value, first if value is None else value),
    "remove": lambda value, first, second, reply: (value, None),
    "remove_if": lambda value, first, second, reply: (value == first, None if value == first else value),
    "replace": lambda value, first, second, reply: (value, value if value is None else first),
    "replace_if": lambda value, first, second, reply: (value == first, second if value == first else value),
    "compute": lambda value, first, second, reply: (stepped(value, first),) * 2,
    "compute_if_absent": lambda value, first, second, reply: (first if value is None else value,) * 2,
    "compute_if_present": lambda value, first, second, reply: (None if value is None else added(value, first),) * 2,
    "merge": lambda value, first, second, reply: (first if value is None else added(value, first),) * 2,
    "update": lambda value, first, second, reply: ((value, reply[1]), reply[1]),
    "try_view": lambda value, first, second, reply: (value, value),
    "try_update": lambda value, first, second, reply: ((value, reply[1]), reply[1]),
    "clear": lambda value, first, second, reply: (None, None),
    "retain": lambda value, first, second, reply: (None, kept(value, first, second)),
}
# Calls on all keys, and what the calls on one key are that reply otherwise than with a value.
WALKS, SWEEPS = ("walk", "show_each"), ("clear", "retain")
UPDATES, TRIES = ("update", "try_update"), ("try_view", "try_update")
READS = ("get", "look_up", "glance", "view", "try_view", "contains")
TRUTHS = ("contains", "remove_if", "replace_if")


def reads(call):
    """Returns whether the call, with this reply, changes nothing whatever value it meets."""
    if call.name in READS:
        return True
    if call.name in UPDATES:
        return call.reply[0] == call.reply[1]
    if call.name in ("remove_if", "replace_if"):
        return call.reply is False
    if call.name in ("remove", "replace"):
        return call.reply is None
    return call.name == "put_if_absent" and call.reply is not None


# == The search ==


def next_calls(calls, done):
    """Returns the numbers of the calls that no call ended before, of those that are not done: `done` has a bit for each call, and
    the calls stand by their starts."""
    number = (~done & (done + 1)).bit_length() - 1
    first_end, found = MOST, []
    while number < len(calls) and calls[number].start < first_end:
        if not done >> number & 1:
            found.append(number)
            first_end = min(first_end, calls[number].end)
        number += 1
    return [it for it in found if calls[it].start < first_end]


def stuck(calls):
    """Returns None where the calls on one key can be ordered. Else the calls of a longest beginning of an order, and those of
    which none can be the next."""
    whole = (1 << len(calls)) - 1
    ahead, known, most = [(0, None, ())], {(0, None)}, (0, None, ())
    while ahead:
        done, value, order = ahead.pop()
        if done == whole:
            return None
        if done.bit_count() > most[0].bit_count():
            most = done, value, order
        after = []
        for number in next_calls(calls, done):
            call = calls[number]
            reply, left = CALLS[call.name](value, call.first, call.second, call.reply)
            if reply == call.reply:
                if reads(call):
                    # (it may come now, whatever order there is: no other branch is needed)
                    after = [(done | 1 << number, value, (number, order))]
                    break
                after.append((done | 1 << number, left, (number, order)))
        for it in after:
            # (an order of the same calls to the same value was tried already)
            if it[:2] not in known:
                known.add(it[:2])
                ahead.append(it)
    done, value, order = most
    return unrolled(calls, order), value, [calls[it] for it in next_calls(calls, done)]


def unrolled(calls, order):
    found = []
    while order:
        number, order = order
        found.append(calls[number])
    return found[::-1]


# == Histories ==


def value_of(word):
    return None if word == "none" else int(word)


def truth_of(word):
    return {"true": True, "false": False}[word]


def reply_of(name, words):
    if name in UPDATES:
        met, left = words
        return value_of(met), value_of(left)
    (word,) = words
    if name in SWEEPS:
        if word != "done":
            raise ValueError(word)
        return None
    return truth_of(word) if name in TRUTHS else value_of(word)


class History:
    """The calls of a history, key by key, and those on all keys."""

    def __init__(self, name):
        self.name, self.calls, self.whole, self.clients, self.ticks = name, collections.defaultdict(list), [], {}, set()

    def add(self, line):
        try:
            client, start, end, name, key, first, second, *words = line.split()
            start, end, key, first, second = (int(it) for it in (start, end, key, first, second))
            self.add_times(client, start, end)
            if name in WALKS:
                for shown, word in enumerate(words):
                    self.calls[shown].append(Call(start, end, "get", 0, 0, value_of(word), line))
            elif name in TRIES and words == ["busy"]:
                pass
            elif name in SWEEPS:
                self.whole.append(Call(start, end, name, first, second, reply_of(name, words), line))
            elif name in CALLS:
                self.calls[key].append(Call(start, end, name, first, second, reply_of(name, words), line))
            else:
                raise ValueError(name)
        except (ValueError, KeyError) as why:
            raise Malformed(f"history {self.name}: {line!r}: {why}") from None

    def add_times(self, client, start, end):
        """A tick is of one call alone, and a client makes one call after the other."""
        if not start < end or {start, end} & self.ticks or start < self.clients.get(client, 0):
            raise ValueError("ticks that cannot be")
        self.ticks |= {start, end}
        self.clients[client] = end

    def by_key(self):
        """Returns each key with its calls, by their starts."""
        for key, calls in sorted(self.calls.items()):
            yield key, sorted(calls + self.whole)

    def count(self):
        return len(self.ticks) // 2

    def faults(self):
        """Returns a text for each key whose calls cannot be ordered."""
        for key, calls in self.by_key():
            if found := stuck(calls):
                order, value, ahead = found
                done = "".join(f"\n    {it.line}" for it in order[-6:])
                lost = "".join(f"\n    {it.line}" for it in ahead)
                left = "none" if value is None else value
                yield (
                    f"history {self.name}, key {key}: behind {len(order)} calls, the last of them{done}\n"
                    f"  the value is {left}, and none of these can come next:{lost}"
                )


def histories_in(lines):
    """Returns the histories that the lines tell of."""
    history = None
    for line in lines:
        words = line.split()
        if words[:1] == ["history"]:
            if history:
                raise Malformed(f"history {history.name} is not ended")
            history = History(" ".join(words[1:]))
        elif words and history:
            history.add(line.strip())
        elif words:
            raise Malformed(f"no history has begun: {line.strip()!r}")
        elif history:
            yield history
            history = None
    if history:
        raise Malformed(f"history {history.name} is not ended")


def judge(lines, say=print):
    """Judges all histories. Returns how many there are, of how many calls, and how many faults."""
    count = calls = faults = 0
    for history in histories_in(lines):
        count += 1
        calls += history.count()
        for fault in history.faults():
            faults += 1
            say(fault)
    return count, calls, faults


def main(*files):
    lines = (line for file in files for line in open(file, encoding="utf-8")) if files else sys.stdin
    try:
        count, calls, faults = judge(lines)
    except Malformed as why:
        print(why, file=sys.stderr)
        return 2
    print(f"{count} histories of {calls} calls, {faults} faults")
    return 1 if faults or not count else 0


if __name__ == "__main__":
    sys.exit(main(*sys.argv[1:]))
