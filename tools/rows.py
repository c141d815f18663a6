"""Plans, schedules and logs written by hand, each with what the papers say of it.

A plan is written as trees: `node` makes a term from its tag and operands, an operand being a term or a width and a number; `plan` numbers the terms of
its procedures in the order of their trees, each root first and then its children, each with all below it before the next. Limits are the header's.
"""

import header as c_header

LIMITS = c_header.numbers()
PICKS, THREADS, OBJECTS, LOG_RECORDS = LIMITS["MOST_PICKS"], LIMITS["THREADS"], LIMITS["OBJECTS"], LIMITS["MOST_LOG_BYTES"] // LIMITS["RECORD_BYTES"]


# ---- terms and plans

def term(tag, *operands):
    """A term's five bytes: tag of 5 bits, then operands as (width, number)."""
    word, used = tag, 5
    for width, number in operands:
        word, used = word << width | number, used + width
    return (word << (40 - used)).to_bytes(5, "big")


def node(tag, *operands):
    return tag, operands


def terms_of(tree, terms):
    """Adds a tree's terms; the answer is its root's index."""
    tag, operands = tree
    root = len(terms)
    terms.append(None)
    terms[root] = term(tag, *[(10, terms_of(o, terms)) if isinstance(o[1], tuple) else o for o in operands])
    return root


def header(procedures, terms, mask=0x80000000, version=1):
    return (version << 28 | procedures << 22 | terms << 10).to_bytes(4, "big") + mask.to_bytes(4, "big")


def plan(*bodies, parameters=None, mask=0x80000000, version=1):
    """A plan of these procedures, main first; the monitor alone is volatile where no mask is given."""
    terms = []
    roots = [terms_of(body, terms) for body in bodies]
    procedures = [(n << 12 | root).to_bytes(2, "big") for n, root in zip(parameters or [0] * len(bodies), roots)]
    return header(len(bodies), len(terms), mask, version) + b"".join(procedures) + b"".join(terms)


def flipped(whole, procedures, index, bit):
    """The plan with one bit of a term changed; bit 0 is a term's last."""
    at = 8 + 2 * procedures + 5 * index
    word = int.from_bytes(whole[at:at + 5], "big") ^ 1 << bit
    return whole[:at] + word.to_bytes(5, "big") + whole[at + 5:]


# ---- the constructs

NULL, TRUE, END = node(0), node(12), node(17)


def slot(number):
    return 4, number


def field(number):
    return 5, number


def procedure(number):
    return 5, number


def variable(number):
    return node(1, slot(number))


def new(*fields):
    return node(2, (32, sum(1 << (31 - f) for f in fields)))


def read(e, number):
    return node(3, e, field(number))


def write(e, number, value):
    return node(4, e, field(number), value)


def let(number, e, body):
    return node(5, slot(number), e, body)


def then(first, *others):
    """A sequence: lets that bind nothing."""
    return let(15, first, then(*others)) if others else first


def fork(e):
    return node(9, e)


def join(e):
    return node(10, e)


def synch(e, body):
    return node(11, e, body)


def wait(e):
    return node(18, e)


def notify(e):
    return node(19, e)


def notify_all(e):
    return node(20, e)


def no(c):
    return node(13, c)


def choice(c, yes, otherwise):
    return node(6, c, yes, otherwise)


def call(number, *arguments):
    rest = END
    for e in reversed(arguments):
        rest = node(16, e, rest)
    return node(8, procedure(number), rest)


def reads(count):
    """So many reads, each of the object that the next one gives, the last of null."""
    return read(reads(count - 1), 1) if count else NULL


# ---- document 01's shot list

PLAN_P = plan(let(0, new(1), then(fork(write(variable(0), 1, NULL)), read(variable(0), 1))))

# plan, picks, and what document 01 says: the refusal; or moves and records, or the outcome's four, and a word of thread 0's state where it has one
SHOTS = [
    (PLAN_P, [0, 0, 0, 0, 0, 1, 0], ("race", 6, 6, 4), None),
    (PLAN_P, [0, 0, 0, 0, 0, 0, 1], ("end", 7, 7, 4), None),
    (PLAN_P[:54], [0], [1, 0], None),
    (PLAN_P, [], ("end", 0, 0, 0), "ready"),
    (plan(new(*range(1, 9))), [0], (1, 0), None),
    (plan(new(*range(1, 10))), [0], [4, 0], None),
    (plan(choice(no(TRUE), NULL, NULL)), [0] * 9, (2, 0), None),
    (plan(choice(no(no(TRUE)), NULL, NULL)), [0] * 9, (3, 0), None),
    (plan(synch(NULL, NULL)), [0] * 9, (3, 2), None),
    (plan(synch(NULL, synch(NULL, NULL))), [0] * 9, (4, 2), None),
    (plan(join(NULL)), [0, 0, 0], (1, 0), "waiting"),
    (plan(join(fork(NULL))), [0, 0, 0], (3, 2), None),
    (plan(read(NULL, 1)), [0, 0], (1, 0), "stuck"),
    (PLAN_P, [7], ("end", 1, 0, 0), None),
    (PLAN_P, [8], [9, 0], None),
]

# the relay test of examples/relay: a plan by its name, picks, and the outcome, picks, moves and records
RELAY = [
    ("plain", "000000011222220", ("end", 15, 15, 7)),
    ("plain", "000000001122222", ("race", 14, 14, 7)),
    ("volatile", "000000001122222", ("end", 15, 15, 7)),
    ("monitor", "0000000000112222222", ("end", 19, 19, 11)),
]


# ---- cases at the edges, which a definition and its code could get wrong together

# every tag from 0 to 20, and the index of the first term of each
EVERY_TAG = plan(
    then(new(1), synch(NULL, NULL), write(NULL, 1, NULL), join(fork(NULL)), node(7, node(14, TRUE, no(TRUE)), NULL),
         choice(node(15, NULL, NULL), NULL, NULL), wait(NULL), notify(NULL), notify_all(NULL), call(1, read(NULL, 1))),
    variable(0), parameters=[0, 1])
EVERY_TAG_ROOT = 8 + 2 * 2


def first_of(tag):
    """The index of the first term of this tag in EVERY_TAG."""
    return [EVERY_TAG[at] >> 3 for at in range(EVERY_TAG_ROOT, len(EVERY_TAG), 5)].index(tag)


CALLS_NOTHING = plan(call(1), NULL)
LIST_IN_ITSELF = CALLS_NOTHING[:12] + term(8, (5, 1), (10, 1)) + term(16, (10, 2), (10, 1)) + term(0)


def tagged(tag):
    """`fork null` with another tag."""
    return plan(node(tag, NULL))


CROWD = then(*[fork(NULL)] * (THREADS - 1), *[new()] * (OBJECTS - THREADS), fork(NULL))    # eight threads, 32 objects, and a fork
ALONE = then(*[new()] * (OBJECTS - 1), fork(NULL))                                         # one thread, 32 objects, and a fork
HANDED_ON = let(0, new(1, 2), then(fork(then(read(variable(0), 2), read(variable(0), 1))), write(variable(0), 1, NULL), write(variable(0), 2, NULL)))
HANDED_PICKS = [0] * 14 + [1] * 6                                                          # field 1 is written, then handed on by field 2, volatile


def handed_on(version):
    return plan(HANDED_ON, mask=0xA0000000, version=version)


WAITING = fork(synch(NULL, wait(NULL)))                                                    # a thread that waits on null
WOKEN = plan(then(WAITING, synch(NULL, notify(NULL))))
WOKEN_PICKS = [0, 0, 0, 1, 1, 0, 0, 1, 0, 1, 1]                                            # it waits, is notified, is kept out, goes on
TWO_WAITING = [0] * 5 + [1, 1, 2, 2] + [0, 0, 0] + [2, 2, 1, 1]                            # two wait, one is notified or both, and the second is picked first


def two_waiting(e):
    return plan(then(WAITING, WAITING, synch(NULL, e)))


LARGEST = plan(*[fork(then(*[NULL] * 16))] * 32)                                           # 32 procedures, 1,024 terms

# plan, picks, what is right, as above, and the requests with which something else is right
EDGES = [
    (flipped(CALLS_NOTHING, 2, 1, bit), [], [4, 1], ()) for bit in range(31, 35)  # a list end with a bit set where a slot would stand
] + [
    (flipped(EVERY_TAG, 2, first_of(tag), 0), [], [4, first_of(tag)], ()) for tag in range(21)  # a term with its lowest spare bit alone set
] + [
    (EVERY_TAG, [], ("end", 0, 0, 0), ()),
    (plan(let(0, new(31), read(variable(0), 31))), [0] * 5, ("end", 5, 4, 2), ()),
    (plan(let(0, new(31), then(write(variable(0), 31, variable(0)), read(variable(0), 31)))), [0] * 7, ("end", 7, 6, 3), ()),
    (header(0, 0), [], [2, 0], ()),
    (plan(call(31), *[NULL] * 31), [0] * 3, ("end", 3, 2, 0), ()),
    (plan(*[NULL] * 33), [], [2, 0], ()),
    (tagged(18), [0, 0], ("end", 2, 1, 0), ()),
    (tagged(19), [0, 0], ("end", 2, 1, 0), ()),
    (tagged(20), [0, 0], ("end", 2, 1, 0), ()),
    (plan(synch(NULL, notify(NULL))), [0] * 9, (4, 2), ()),
    (plan(synch(NULL, notify_all(NULL))), [0] * 9, (4, 2), ()),
    (plan(synch(NULL, wait(NULL))), [0] * 9, (3, 2), ()),
    (plan(synch(NULL, synch(NULL, wait(NULL)))), [0] * 9, (4, 2), ()),
    (WOKEN, WOKEN_PICKS, ("end", 11, 10, 7), ()),
    (two_waiting(notify(NULL)), TWO_WAITING, ("end", 16, 14, 10), ()),
    (two_waiting(notify_all(NULL)), TWO_WAITING, ("end", 16, 16, 12), ()),
    (tagged(21), [], [4, 0], ()),
    (tagged(31), [], [4, 0], ()),
    (plan(choice(END, NULL, NULL)), [], [5, 1], ()),
    (plan(choice(node(16, NULL, END), NULL, NULL)), [], [5, 1], ()),
    (LIST_IN_ITSELF, [], [4, 1], ()),
    (plan(CROWD), [0] * 70, ("no-thread", 63, 63, 31), ()),
    (plan(ALONE), [0] * 70, ("no-object", 63, 63, 31), ()),
    (plan(NULL), [0] * PICKS, ("end", PICKS, 1, 0), ()),
    (plan(NULL), [0] * (PICKS + 1), [8, 0], ()),
    (plan(NULL), [THREADS - 1], ("end", 1, 0, 0), ()),
    (plan(NULL), [THREADS], [9, 0], ()),
    (LARGEST, [], ("end", 0, 0, 0), ()),
    (plan(fork(reads(33))), [0, 0, 1], ("end", 3, 2, 1), ()),
    (plan(fork(reads(34))), [0, 0, 1], ("no-depth", 1, 1, 0), ()),
    (plan(NULL, version=0), [0], (1, 0), ()),
    (plan(NULL, version=2), [], [2, 0], ()),
    (plan(NULL, version=15), [], [2, 0], ()),
    (handed_on(1), HANDED_PICKS, ("end", 20, 11, 6), ()),
    (handed_on(0), HANDED_PICKS, ("race", 16, 10, 6), ()),
]

# document 02's figures: a plan, picks that make 0, 100 and 101 moves, and its cents without the option and with it
ROUND = plan(node(7, TRUE, NULL))
CHARGES = [(ROUND, [], (1200, 1380)), (ROUND, [0] * 100, (1235, 1421)), (ROUND, [0] * 101, (1270, 1461))]

# a plan, the picks before, the pick, and what is right, as a preview's word or its refusal
SEVEN_FORKS = plan(node(7, TRUE, fork(NULL)))
PREVIEWS = [
    (PLAN_P, [], 0, "moved"),
    (PLAN_P, [0] * 5, 1, "moved"),
    (PLAN_P, [0] * 5 + [1], 1, "passed"),
    (PLAN_P, [0] * 5 + [1], 7, "passed"),
    (PLAN_P, [0] * 5 + [1], 0, "race"),
    (PLAN_P, [0] * 5 + [1, 0], 1, "stopped"),
    (SEVEN_FORKS, [0] * 31, 0, "no-thread"),
    (SEVEN_FORKS, [0] * 32, 1, "stopped"),
    (PLAN_P, [0], 8, [9, 1]),
    (PLAN_P, [0, 9], 8, [9, 1]),
    (PLAN_P, [0] * PICKS, 8, [8, 0]),
    (PLAN_P, [0] * (PICKS - 1), 0, "passed"),
    (PLAN_P[:-1], [8], 8, [1, 0]),
]

# a plan, the length of an area, and what is right: the refusal, or the length
TURNED = plan(synch(new(), NULL))
TURNED = TURNED[:10] + term(11, (10, 2), (10, 1)) + TURNED[20:] + TURNED[15:20]  # the body's term before the object's
WRITTEN = [
    (PLAN_P, len(PLAN_P), len(PLAN_P)),
    (PLAN_P, len(PLAN_P) - 1, [13, 0]),
    (PLAN_P, len(PLAN_P) + 9, len(PLAN_P)),
    (PLAN_P[:-1], 0, [1, 0]),
    (TURNED, len(TURNED), len(TURNED)),
    (TURNED, 0, [13, 0]),
    (EVERY_TAG, len(EVERY_TAG), len(EVERY_TAG)),
    (LARGEST, len(LARGEST), len(LARGEST)),
    (LARGEST, len(LARGEST) - 1, [13, 0]),
]

# a plan, and its text
TEXTS = [
    (PLAN_P, """version 1
let 0 = new(1) in
let - = fork (v0.1 := null) in
v0.1
"""),
    (plan(node(7, node(14, node(14, TRUE, node(15, fork(NULL), then(NULL, NULL))), no(node(15, NULL, read(new(2, 31), 2)))), call(1, wait(NULL), call(0))),
          write(read(variable(0), 1), 2, notify_all(notify(variable(1)))), parameters=[0, 2], mask=0xa0000001, version=0), """version 0
volatile 2 31
while (true and fork null = (let - = null in
    null)) and not null = new(2 31).2 do
call 1 (wait null, call 0 ())
procedure 1 (2) = v0.1.2 := notify all notify v1
"""),
    (plan(let(0, choice(no(node(14, TRUE, TRUE)), new(), join(fork(let(1, NULL, variable(1))))), synch(wait(join(NULL)), read(notify(variable(0)), 31)))),
     """version 1
let 0 = if not (true and true) then new() else join fork (let 1 = null in
    v1) in
synch wait join null do
(notify v0).31
"""),
]

# a text, and its plan, or the line and the column where it is none
READS = [
    ("let 0 = new(1) in let - = fork (v0.1 := null) in v0.1", PLAN_P),
    ("\tlet 0=new(1)in\r\nlet-=fork((v0).1:=null)in#\n(v0.1)#", PLAN_P),
    ("if (null) = null and true then null else null", plan(choice(node(14, node(15, NULL, NULL), TRUE), NULL, NULL))),
    ("null" + ".1" * 1023, header(1, 1024) + bytes(2) + b"".join(term(3, (10, i + 1), (5, 1)) for i in range(1023)) + term(0)),
    ("null" + ".1" * 1025, (1, 2053)),  # a plan has 1,024 terms
    # the end of the text, and what is no token
    ("", (1, 1)), ("# null\n", (2, 1)), ("(null", (1, 6)), ("let 0 = null in", (1, 16)), ("let X = null in null", (1, 5)), ("null.32", (1, 6)),
    ("null : = null", (1, 6)), ("nullnull", (1, 1)), ("null.01", (1, 6)), ("null.1 :null", (1, 8)), ("\xff", (1, 1)),
    # a version, volatile fields
    ("version 2 null", (1, 9)), ("volatile 3 2 null", (1, 12)), ("volatile 0 null", (1, 10)), ("null version 1", (1, 6)),
    # something else is wanted
    ("let 8 = null in null", (1, 5)), ("let 0 null", (1, 7)), ("let 0 = null\n\n null", (3, 2)), ("if true\nelse null", (2, 1)), ("if true then null", (1, 18)),
    ("while true null", (1, 12)), ("synch null null", (1, 12)), ("new 1", (1, 5)), ("new(1 1)", (1, 7)), ("new(0)", (1, 5)),
    ("new(1 2 3 4 5 6 7 8 9)", (1, 21)),
    ("null.0", (1, 6)), ("null.null", (1, 6)), ("null null", (1, 6)), ("null)", (1, 5)), ("all null", (1, 1)), ("fork let 0 = null in v0", (1, 6)),
    # an expression and a condition in each other's place
    ("true", (1, 1)), ("not true", (1, 1)), ("null = null", (1, 6)), ("if null then null else null", (1, 9)), ("if (true) = true then null else null", (1, 11)),
    ("if (null and true) then null else null", (1, 10)), ("fork (true)", (1, 7)), ("while not null do null", (1, 16)),
    ("if true.1 then null else null", (1, 8)),
    # calls and procedures
    ("call 1 ()", (1, 6)), ("call 0 (null)", (1, 9)), ("call 1 (null)\nprocedure 1 (2) = null", (1, 13)),
    ("call 1 (null, null)\nprocedure 1 (1) = null", (1, 13)),
    ("call 1 (null)\nprocedure 1 (null) = null", (1, 13)), ("null procedure 2 (0) = null", (1, 16)), ("null procedure 1 (9) = null", (1, 19)),
    ("null procedure 1 (1) null", (1, 22)), ("null" + "".join("\nprocedure %d (0) = null" % p for p in range(1, 33)), (33, 1)),
    # a slot that nothing binds
    ("v0", (1, 1)), ("let 0 = v0 in v0", (1, 1)), ("let 0 = null in v1", (1, 1)), ("null\n procedure 1 (1) = v1\n procedure 2 (0) = v0", (2, 2)),
]

# the same where too much is within something else, and where there are over 16,384 tokens, the end counted as one
DEEP_READS = [
    ("(" * 4199 + "null" + ")" * 4199, plan(NULL)),
    ("(" * 4300, (1, 4201)),
    ("(" * 16384, (1, 16385)),
]

# a plan, and what is right: the refusal, or how many moves it can need
LOOP = node(7, TRUE, NULL)


def doubling(last):
    """A chain of procedures, of which each calls the next twice: procedure p costs 3 * (2 ** (last - p) - 1)."""
    return plan(*[then(call(p + 1), call(p + 1)) for p in range(last)], NULL)


BOUNDS = [
    (plan(NULL), 1),
    (PLAN_P, 7),
    (plan(synch(NULL, NULL)), 3),
    (plan(wait(NULL)), 3),
    (plan(notify(NULL)), 2),
    (plan(notify_all(NULL)), 2),
    (plan(choice(node(15, NULL, NULL), fork(NULL), NULL)), 4),
    (plan(choice(node(15, NULL, NULL), NULL, fork(NULL))), 4),
    (plan(fork(fork(NULL))), 3),
    (plan(call(1), fork(NULL)), 3),
    (plan(NULL, call(1)), [21, 0]),
    (plan(NULL, call(2), call(1)), [21, 0]),
    (plan(call(0)), [21, 0]),
    (plan(NULL, LOOP), [22, 0]),
    (plan(LOOP, call(1)), [21, 0]),
    (doubling(14), 49150),
    (doubling(15), [23, 0]),
    (doubling(31), [23, 0]),
    (plan(NULL, *[then(call(p + 1), call(p + 1)) for p in range(1, 31)], NULL), 1),
    (PLAN_P[:-1], [1, 0]),
]

# a plan, picks, the length of an area, and what is right: the refusal, or the schedule
RACING = [0] * 5 + [1, 0]  # of P
VERSION_0 = bytes([PLAN_P[0] & 15]) + PLAN_P[1:]
WITNESSES = [
    (PLAN_P, RACING, 7, [0] * 5),
    (PLAN_P, RACING, 5, [0] * 5),
    (PLAN_P, RACING, 4, [17, 0]),
    (PLAN_P, [7, 0, 0, 0, 3, 0, 0, 1, 0, 1], 7, [0] * 5),
    (PLAN_P, [0] * 6 + [1], 7, [16, 0]),
    (PLAN_P, [], 0, [16, 0]),
    (VERSION_0, RACING, 0, [15, 0]),
    (plan(then(NULL, wait(NULL))), [0], 0, [15, 0]),
    (plan(then(NULL, notify(NULL))), [0], 0, [16, 0]),
    (SEVEN_FORKS, [0] * 32, 32, [16, 0]),
    (PLAN_P, RACING + [8], 0, [9, 7]),
    (PLAN_P[:-1], [8], 0, [1, 0]),
]

# a plan, a bound, the given schedule or None to begin, the length of an area, and what is right: the refusal, the end of the list, or the schedule
RACE, NO_RACE = [0] * 5 + [1, 0], [0] * 5 + [0, 1]  # of P: thread 1 writes before thread 0 reads, and after
FORKING = plan(node(7, TRUE, fork(NULL)))
INTERLEAVINGS = [
    (plan(NULL), 0, None, 0, []),
    (plan(NULL), 0, [], 0, "over"),
    (plan(NULL), 64, None, 64, [0]),
    (plan(NULL), 64, [0], 64, "over"),
    (PLAN_P, 7, None, 7, NO_RACE),
    (PLAN_P, 7, NO_RACE, 7, RACE),
    (PLAN_P, 64, NO_RACE, 64, RACE),
    (PLAN_P, 3, None, 3, [0, 0, 0]),
    (PLAN_P, 3, [0, 0, 0], 9, "over"),
    (PLAN_P, 64, NO_RACE, 63, [20, 0]),
    (PLAN_P, 64, None, 63, [20, 0]),
    (PLAN_P, 64, NO_RACE[:-1], 64, [19, 0]),
    (PLAN_P, 64, RACE + [1], 64, [19, 0]),
    (PLAN_P, 64, [1], 0, [19, 0]),
    (PLAN_P, 6, NO_RACE, 6, [19, 0]),
    (PLAN_P, 65, [1], 0, [18, 0]),
    (PLAN_P, 65, None, 0, [18, 0]),
    (PLAN_P, (1 << 64) - 1, None, 0, [18, 0]),
    (PLAN_P, 65, [8], 0, [9, 0]),
    (PLAN_P[:-1], 65, [8], 0, [1, 0]),
    (FORKING, 40, [0] * 31, 40, [19, 0]),
    (plan(join(NULL)), 64, None, 64, [0]),
]

# a log, the version that the judge is told, and what is right: the refusal, or the index that is named, or none
NEW = bytes.fromhex("100000")
HANDED_LOG = bytes.fromhex("101000" "802080" "301080" "501100" "421100" "221080")  # new, fork, write, volatile write, volatile read, read
LOGS = [
    (b"", 1, None),
    (b"", 0, None),
    (NEW * LOG_RECORDS, 1, None),
    (NEW * (LOG_RECORDS + 1), 1, [11, 0]),
    (NEW[:1], 1, [11, 0]),
    (NEW[:1], 2, [14, 0]),
    (b"", 2, [14, 0]),
    (b"", 1 << 32, [14, 0]),
    (b"", (1 << 64) - 1, [14, 0]),
    (HANDED_LOG, 1, None),
    (HANDED_LOG, 0, 5),
]


# a log, the length of an area, and what is right: the refusal, or the length of the data file
ACQUIRE, RELEASE, ACQUIRE_LAST = bytes.fromhex("600000"), bytes.fromhex("700000"), bytes.fromhex("61f000")  # of objects 0, 0 and 31
FILES = [
    (b"", 1, 1),
    (b"", 0, [24, 0]),
    (NEW, 70, 70),
    (NEW, 69, [24, 0]),
    (NEW[:1], 0, [11, 0]),
    (bytes(3), 0, [12, 0]),
    (ACQUIRE + RELEASE, 200, 142),
    (RELEASE + ACQUIRE + ACQUIRE_LAST, 300, 214),
    (ACQUIRE + ACQUIRE + RELEASE, 214, 214),
    (NEW * 9, 646, 646),
    (NEW * 9, 645, [24, 0]),
    (NEW * 10, 719, 719),
    (NEW * 11, 793, 793),
    (NEW * 100, 7380, 7380),
    (NEW * 101, 7456, 7456),
    (NEW * 101, 7455, [24, 0]),
    (NEW * LOG_RECORDS, 317268, [24, 0]),
    (NEW * (LOG_RECORDS + 1), 317269, [11, 0]),
]


# ---- the longest input of which the printing program needs every byte

def longest_input():
    """The longest plan that passes and one pick more than a schedule may have."""
    assert len(LARGEST) == LIMITS["MOST_PLAN_BYTES"]
    return len(LARGEST).to_bytes(2, "big") + LARGEST + bytes(PICKS + 1)
