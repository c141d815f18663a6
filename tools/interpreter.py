"""The second interpreter's cases, and its words as bytes, with the numbers of include/ruqzhemil.h."""

import contextlib
import json
import subprocess
import sys

import header

LANDED = "E1,E2,E3,E4,E5,E6,E7,E8,E9,E10,E11,E12,E13,E14"  # document 02's requests that the product has
FILL = 0xA5  # what every lent area is filled with before a play
NUMBERS = header.numbers()
OUT = NUMBERS["OUT_BYTES"]
PREVIEW = NUMBERS["PREVIEW_BYTES"]
OUTCOMES = {word: NUMBERS[word.upper().replace("-", "_")] for word in ("end", "race", "no-thread", "no-object", "no-key", "no-depth")}
STATES = {("absent",): NUMBERS["ABSENT"], ("finished",): NUMBERS["FINISHED"], ("ready",): NUMBERS["READY"],
          ("waiting", "monitor"): NUMBERS["WAITS_MONITOR"], ("waiting", "join"): NUMBERS["WAITS_JOIN"], ("stuck", "field"): NUMBERS["STUCK_FIELD"],
          ("stuck", "thread"): NUMBERS["STUCK_THREAD"], ("lacking",): NUMBERS["LACKING"], ("waiting", "notify"): NUMBERS["WAITS_NOTIFY"],
          ("stuck", "monitor"): NUMBERS["STUCK_MONITOR"]}
# the papers' numbers, by the header's
REFUSALS = dict(zip(range(1, 25), [NUMBERS["REFUSAL_" + name] for name in (
    "PLAN_LENGTH", "HEADER", "PROCEDURE", "TERM", "SORT", "NAMING", "SLOT", "SCHEDULE_LENGTH", "PICK", "LOG_AREA", "LOG_LENGTH", "RECORD",
    "PLAN_AREA", "VERSION", "LEFT_OUT", "NO_RACE", "SCHEDULE_AREA", "BOUND", "NOT_LISTED", "BOUND_AREA", "CYCLE", "WHILE", "TOTAL", "FILE_AREA")]))
KINDS = [NUMBERS["KIND_" + name] for name in ("NEW", "READ", "WRITE", "VOLATILE_READ", "VOLATILE_WRITE", "ACQUIRE", "RELEASE", "FORK", "JOIN",
                                              "LACKS_READ", "LACKS_WRITE")]


def state_words(state):
    return tuple(x for x in state if isinstance(x, str))


def thread_bytes(state, learnt):
    """Four bytes of a thread: its state, its value or object, its field, its total."""
    numbers = [x for x in state if not isinstance(x, str)]
    return bytes([STATES[state_words(state)]] + numbers + [0] * (2 - len(numbers)) + [learnt])


def record_bytes(log):
    """A log's bytes, its kinds by the header's numbers; a number that is no kind stays."""
    records = [log[i:i + 3] for i in range(0, len(log), 3)]
    return b"".join(bytes([KINDS[(r[0] >> 4) - 1] << 4 | r[0] & 15]) + r[1:] if 1 <= r[0] >> 4 <= len(KINDS) else r for r in records)


def value(number):
    """What a function returns for an answer with this value."""
    return (NUMBERS["IS_VALUE"] << 32) + number


def other(number):
    """What it returns for its other answer."""
    return (NUMBERS["IS_OTHER"] << 32) + number


def refused(number, place):
    return (NUMBERS["IS_REFUSAL"] << 32) + (REFUSALS[number] << 16) + place


def checked(want):
    """What check returns for the plan of a play."""
    number, place = want.get("refused", (8, 0))
    return refused(number, place) if number < 8 else value(0)


def played(want):
    return refused(*want["refused"]) if "refused" in want else value(0)


def judged(want):
    """What judge returns for a log, or for the records of a play."""
    if "refused" in want:
        return refused(*want["refused"])
    return other(want["unordered"][0]) if want["unordered"] else value(0)


def previewed(want):
    """What preview returns for a plan, a schedule and a pick."""
    return refused(*want["refused"]) if "refused" in want else value(0)


def preview_bytes(want):
    """The static library's bytes of a preview, which a refused one leaves as they were filled."""
    if "refused" in want:
        return bytes([FILL]) * PREVIEW
    said, record = want["preview"], record_bytes(bytes.fromhex(want.get("record") or ""))
    if said == "passed":
        return bytes([NUMBERS["PREVIEW_PASSED"]]) + thread_bytes(want["state"], 0) + bytes(3)
    if said == "moved":
        return bytes([NUMBERS["PREVIEW_RECORDED" if record else "PREVIEW_MOVED"]]) + bytes(3) + (record or bytes(3)) + bytes(1)
    if said == "race":
        return bytes([NUMBERS["PREVIEW_RACE"], OUTCOMES["race"]]) + bytes(2) + record + bytes(1)
    if said == "stopped":
        return bytes([NUMBERS["PREVIEW_STOPPED"], OUTCOMES[want["outcome"]]]) + bytes(6)
    return bytes([NUMBERS["PREVIEW_NO_ROOM"], OUTCOMES[said]]) + bytes(6)


def charged(want):
    """What charge returns for a plan, a schedule and an option."""
    return refused(*want["refused"]) if "refused" in want else value(want["cents"])


def bounded(want):
    """What bound returns for a plan."""
    return refused(*want["refused"]) if "refused" in want else value(want["moves"])


def written(want):
    """What a function returns that writes into an area: comtrade, canonical, witness, first_interleaving, next_interleaving."""
    if "over" in want:
        return other(0)
    return refused(*want["refused"]) if "refused" in want else value(want["length"])


def outcome_bytes(want):
    """The static library's bytes of an outcome, which a refused play leaves as they were filled."""
    if "refused" in want:
        return bytes([FILL]) * OUT
    counts = b"".join(want[name].to_bytes(2, "big") for name in ("picks", "moves", "records"))
    return bytes([OUTCOMES[want["outcome"]]]) + counts + bytes(1) + b"".join(map(thread_bytes, want["states"], want["learnt"]))


@contextlib.contextmanager
def running(words, landed):
    """The lines that `oracle.py vectors` writes for FOLDER SEED COUNT, or, for `-`, those of standard input. Fails where the interpreter fails."""
    if words == ["-"]:
        yield sys.stdin
        return
    folder, seed, count = words
    made = subprocess.Popen([sys.executable, folder + "/oracle.py", "--landed", landed, "vectors", seed, count], stdout=subprocess.PIPE)
    yield made.stdout
    if made.wait() != 0:
        sys.exit("the second interpreter ended with status %d" % made.returncode)


def cases(words, landed=LANDED):
    with running(words, landed) as rows:
        for row in rows:
            yield json.loads(row)


def split(words):
    """The words without `--landed LIST`, and LIST: document 02's requests that count as landed, as in E2,E7; those that the product has where it is left out."""
    if "--landed" not in words[:-1]:
        return words, LANDED
    at = words.index("--landed")
    return words[:at] + words[at + 2:], words[at + 1]
