"""What each kind of map says of its calls: templates, in which `$` begins what the call, or the kind, fills in.

The words of a clause are a proof's, and the lines of a function those of an interface, so each stands here as it was proved and agreed on.
In these places kinds differ without need:
  the clause `told` of numbers breaks its lines otherwise than those of counts and bytes;
  a function of numbers or counts hands its caller's answer to the export, while one of bytes, an exchange or a sum has one of its own;
  exchanges and sums have a macro of their own, FACING_CHANGE, for the loop that is FACING_CALL's."""
from dataclasses import dataclass

# == Exports ==

EXPORT = """\
#[unsafe(no_mangle)]
pub extern "C" fn $export(
    $handle: FacingHandle,
    out: &mut FacingOut,
    $parameters,
    answer: &mut $answer,
) -> u32
    ensures filled { IsFilled $handle.ptr → IsFilled out.new.ptr }
    $clauses
    $null
{
    $body
}
"""
NULL = """\
ensures null { ¬ IsFilled $handle.ptr →
        (result ≡ facing_wrong_handle) × (out.new ≡ out.old) × (answer.new ≡ answer.old) }"""
NULL_WITH_ROOM = """\
ensures null { ¬ IsFilled $handle.ptr → (result ≡ facing_wrong_handle) × (out.new ≡ out.old)
        × (room.new ≡ room.old) × (answer.new ≡ answer.old) }"""


@dataclass(frozen=True)
class Export:
    """The clauses of an export behind `filled`, its body, and the type of its answer. `$call` is the call, `$op` the `Op`, `$at` the key
    as clauses say it; `$Noun` and `$noun` begin and end the names of the kind."""

    clauses: str
    body: str
    answer: str = "FacingAnswer"


def trying(*steps, telling):
    """Returns the body that asks the target of a client for the last of these steps, behind the others, and tells what came of it."""
    return "\n    ".join([*steps[:-1], f"let tried = lend!(client, out, |target| {steps[-1]});", telling])


def finding(looking):
    """Returns the body that looks into a closed map."""
    return f"let found = lend!(closed, out, |target| {looking});\n    status_in(found)"


# A call of numbers, of counts, and of bytes by what it answers.
CALL_NUMBERS = Export(
    """\
ensures told { IsFilled client.ptr →
        IsNumberTold client.target (λ k. $call) key out.new.target result answer.old answer.new }""",
    "call(client, out, key, $op, answer)",
)
CALL_COUNTS = Export(
    """\
ensures told { IsFilled client.ptr → IsCountTold client.target (λ k. $call) key.now
        out.new.target result answer.old answer.new }""",
    "call(client, out, key, $op, answer)",
)
CALL_BYTES = Export(
    """\
ensures told { IsFilled client.ptr → IsBytesTold client.target ($call) key.now
        out.new.target result (room.old, answer.old) (room.new, answer.new) }""",
    "call(client, out, key, $op, room, answer)",
)
ASK_BYTES = Export(
    """\
ensures told { IsFilled client.ptr → IsTruthTold client.target ($call) key.now
        out.new.target result answer.old answer.new }""",
    "ask(client, out, key, $op, answer)",
)

# What makes no key.
GET_COUNTS = Export(
    """\
ensures told { IsFilled client.ptr →
        IsCountShown client.target key.now out.new.target result answer.old answer.new }""",
    trying("try_look_count(target, key)", telling="tell(tried, answer)"),
)
GET_BYTES = Export(
    """\
ensures told { IsFilled client.ptr → IsBytesShown client.target key.now out.new.target result
        (room.old, answer.old) (room.new, answer.new) }""",
    trying("try_look_bytes(target, key)", telling="tell_whole(tried, room, answer)"),
)
HAS = """\
ensures told { IsFilled client.ptr →
        Is${Noun}Has client.target key.now out.new.target result answer.old answer.new }"""
HAS_COUNTS = Export(HAS, trying("try_has_count(target, key)", telling="tell(tried, answer)"))
HAS_BYTES = Export(HAS, trying("try_has_bytes(target, key)", telling="tell_length(tried, answer)"))

# What reads a closed map.
FIND = Export(
    """\
ensures same { IsFilled closed.ptr → out.new.target ≡ closed.target }
    ensures found { IsFilled closed.ptr →
        Is${Noun}Found closed.target $at result answer.old answer.new }""",
    finding("closed::find_$noun(target, key, answer)"),
)
FIND_BYTES = Export(
    """\
ensures same { IsFilled closed.ptr → out.new.target ≡ closed.target }
    ensures found { IsFilled closed.ptr → IsBytesFound closed.target key.now result
        (room.old, answer.old) (room.new, answer.new) }""",
    finding("closed::find_bytes(target, key, room, answer)"),
)

# What changes a value by what it is.
EXCHANGE = Export(
    """\
ensures told { IsFilled client.ptr → Is${Noun}ExchangeTold client.target (given has_expected expected)
        (given has_value value) $at out.new.target result answer.old answer.new }""",
    trying(
        "let exchange = exchange_of(has_expected, expected, has_value, value);",
        "try_$noun(target, key, exchange)",
        telling="tell_exchanged(tried, answer)",
    ),
    "FacingExchanged",
)
EXCHANGE_BYTES = Export(
    """\
ensures told { IsFilled client.ptr → IsBytesExchangeTold client.target (given has_expected expected.now)
        (given has_value value.now) key.now out.new.target result (room.old, answer.old)
        (room.new, answer.new) }""",
    trying(
        "let expected = given(has_expected, expected);",
        "let value = given(has_value, value);",
        "try_bytes(target, key, expected, value)",
        telling="tell_exchanged_bytes(tried, room, answer)",
    ),
    "FacingExchanged",
)
ADD_UP_TO = Export(
    """\
ensures told { IsFilled client.ptr → Is${Noun}AddTold client.target amount most $at
        out.new.target result answer.old answer.new }""",
    trying("try_$noun(target, key, AddUpTo { amount, most })", telling="tell_added(tried, answer)"),
)

# == Functions of headers ==


@dataclass(frozen=True)
class Function:
    """The body of a function of a header, whose long lines are broken when it is written, and its parameters where they are not those of
    its export. `$made` is the call of the export, `$wrong` whether an argument cannot be one, `$or_no_key` whether the key cannot."""

    body: str
    parameters: str = ""


FIND_IN_C = Function(
    """\
    facing_handle lent, back = {FACING_NULL};
    uint32_t status;
    if (answer == FACING_NULL) return FACING_BAD_ARGUMENT;
    answer->found = 0;
    answer->value = 0;
    if (closed == FACING_NULL$or_no_key) return FACING_BAD_ARGUMENT;
    lent = facing_lend(closed->at, $library);
    FACING_ENTER(0);
    status = $made;
    FACING_LEAVE(0);
    closed->at = facing_back(closed->at, lent.at, back.at);
    return status;
"""
)
FIND_BYTES_IN_C = Function(
    """\
    facing_handle lent, back = {FACING_NULL};
    facing_answer told = {0, 0};
    uint32_t status;
    facing_bytes_tell(answer, told);
    if (closed == FACING_NULL || answer == FACING_NULL || $wrong)
        return FACING_BAD_ARGUMENT;
    lent = facing_lend(closed->at, $library);
    FACING_ENTER(0);
    status = $made;
    FACING_LEAVE(0);
    closed->at = facing_back(closed->at, lent.at, back.at);
    facing_bytes_tell(answer, told);
    return status;
"""
)
EXCHANGE_IN_C = Function(
    """\
    facing_seen told = {0, 0, 0};
    facing_handle lent, back;
    uint32_t status;
    unsigned round = 0;
    uint64_t from = expected != FACING_NULL ? *expected : 0, to = value != FACING_NULL ? *value : 0;
    if (seen != FACING_NULL) *seen = told;
    if (client == FACING_NULL$or_no_key) return FACING_BAD_ARGUMENT;
    FACING_CHANGE($library, $place, $export(lent, &back, $key, expected != FACING_NULL, from, value != FACING_NULL, to, &told));
    if (seen != FACING_NULL) *seen = told;
    return status;
""",
    "const uint64_t *expected, const uint64_t *value, facing_seen *seen",
)
EXCHANGE_BYTES_IN_C = Function(
    """\
    static const facing_bytes_view no_bytes = {FACING_NULL, 0};
    facing_bytes_seen none = {0, 0, 0};
    facing_seen told = {0, 0, 0};
    facing_handle lent, back;
    uint32_t status;
    unsigned round = 0;
    const facing_bytes_view *from = expected != FACING_NULL ? expected : &no_bytes;
    const facing_bytes_view *to = value != FACING_NULL ? value : &no_bytes;
    if (seen != FACING_NULL) *seen = none;
    if (client == FACING_NULL || facing_bytes_are_wrong(key, key_len, room, room_len)
        || facing_bytes_view_is_wrong(from, room, room_len) || facing_bytes_view_is_wrong(to, room, room_len))
        return FACING_BAD_ARGUMENT;
    FACING_CHANGE($library, $place, $export(lent, &back, $key, expected != FACING_NULL, facing_bytes_at(from->at), from->len, \
value != FACING_NULL, facing_bytes_at(to->at), to->len, facing_bytes_at(room), room_len, &told));
    if (seen != FACING_NULL) {
        seen->exchanged = told.exchanged;
        seen->found = told.found;
        seen->len = told.value;
    }
    return status;
""",
    "const facing_bytes_view *expected, const facing_bytes_view *value, void *room, size_t room_len, facing_bytes_seen *seen",
)
ADD_UP_TO_IN_C = Function(
    """\
    facing_answer told = {0, 0};
    facing_handle lent, back;
    uint32_t status;
    unsigned round = 0;
    if (answer != FACING_NULL) *answer = told;
    if (client == FACING_NULL$or_no_key) return FACING_BAD_ARGUMENT;
    FACING_CHANGE($library, $place, $export(lent, &back, $key, amount, most, &told));
    if (answer != FACING_NULL) *answer = told;
    return status;
"""
)

# == Methods of facing.hpp ==

# Of the clients of numbers and of counts, which are one class, and of those of bytes.
METHODS = {
    "value": """\
    std::optional<std::uint64_t> $name($taken) {
        return value_of(answer(Library::$name, &this->at_, $passed));
    }
""",
    "truth": """\
    bool $name($taken) {
        return answer(Library::$name, &this->at_, $passed).found != 0;
    }
""",
    "number": """\
    std::uint64_t $name($taken) {
        return answer(Library::$name, &this->at_, $passed).value;
    }
""",
}
METHODS_OF_BYTES = {
    "value": """\
    std::optional<std::string> $name($taken) {
$bound        return value($function, $passed);
    }
""",
    "truth": """\
    bool $name($taken) {
$bound        return truth($function, $passed);
    }
""",
    # (stores nothing)
    "remove_if": """\
    bool $name($taken) {
        return truth($function, $passed);
    }
""",
}

# == Kinds ==


@dataclass(frozen=True)
class Kind:
    """A kind of map. Calls that are not in `exports` or `methods` by their own name have the template of what they answer;
    functions that are not in `functions` are the macro alone."""

    name: str
    # What its names in C begin with, and what names in the sources have of it.
    prefix: str
    noun: str
    source: str
    header: str
    # The types of keys and values, and where the macro has the answer.
    key: str
    value: str
    answer: str
    # The type whose variants the clauses name.
    variants: str
    exports: dict
    macro: str
    functions: dict
    # Empty where another kind has the same methods.
    methods: dict

    @property
    def is_bytes(self):
        return self.name == "bytes"


FUNCTIONS = {"find": FIND_IN_C, "exchange": EXCHANGE_IN_C, "add_up_to": ADD_UP_TO_IN_C}
KINDS = (
    Kind(
        "numbers",
        prefix="",
        noun="number",
        source="numbers.rt",
        header="facing.h",
        key="u64",
        value="u64",
        answer="answer",
        variants="call.Call",
        exports={"value": CALL_NUMBERS, "truth": CALL_NUMBERS, "number": CALL_NUMBERS, "find": FIND, "exchange": EXCHANGE, "add_up_to": ADD_UP_TO},
        macro="FACING_CALL($made);",
        functions=FUNCTIONS,
        methods=METHODS,
    ),
    Kind(
        "counts",
        prefix="counts_",
        noun="count",
        source="counts.rt",
        header="facing_counts.h",
        key="&[u8]",
        value="u64",
        answer="answer",
        variants="call.Call",
        exports={
            "value": CALL_COUNTS,
            "truth": CALL_COUNTS,
            "number": CALL_COUNTS,
            "get": GET_COUNTS,
            "contains": HAS_COUNTS,
            "find": FIND,
            "exchange": EXCHANGE,
            "add_up_to": ADD_UP_TO,
        },
        macro="FACING_COUNTS_CALL($made);",
        functions=FUNCTIONS,
        methods={},
    ),
    Kind(
        "bytes",
        prefix="bytes_",
        noun="bytes",
        source="bytes.rt",
        header="facing_bytes.h",
        key="&[u8]",
        value="&[u8]",
        answer="&told",
        variants="op.Op",
        exports={
            "value": CALL_BYTES,
            "truth": ASK_BYTES,
            "get": GET_BYTES,
            "contains": HAS_BYTES,
            "find": FIND_BYTES,
            "exchange": EXCHANGE_BYTES,
        },
        macro="FACING_BYTES_CALL($wrong, $made);",
        functions={"find": FIND_BYTES_IN_C, "exchange": EXCHANGE_BYTES_IN_C},
        methods=METHODS_OF_BYTES,
    ),
)
