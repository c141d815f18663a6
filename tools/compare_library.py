#!/usr/bin/env python3
"""Holds the static library to the second interpreter on random cases.

  compare_library.py ORACLE SEED COUNT [--landed E2,E7]
  compare_library.py - < CASES

ORACLE is the folder of the second interpreter; CASES are its JSON lines, made before; the list names the requests of document 02 that count as landed.
The library is target/staticlib/libruqzhemil.a
(examples/library.sh makes it), linked into a shared object by the C compiler. Compared are: what check returns; what play returns, the 40
bytes of the outcome and the whole log area, beyond the records too; what judge returns for the log of each run and for each log of the cases; what
comtrade returns and the whole area; what charge returns; what preview returns and its 8 bytes; what canonical returns and the
whole area; what show returns for the same plans and the whole area, by tools/plan_text.py; what read returns for what is shown and for that text a little
changed, and the whole area, by canonical and tools/plan_text.py; what bound returns; what witness, first_interleaving and next_interleaving return and the
whole area.
"""

import ctypes
import json
import os
import random
import subprocess
import sys

import interpreter
import plan_text
from interpreter import (FILL, OUT, PREVIEW, bounded, charged, checked, judged, other, outcome_bytes, played, preview_bytes, previewed, record_bytes,
                         value, written)


def library(root):
    """The static library as a shared object that this program can load."""
    made = root + "/target/examples/libruqzhemil.so"
    os.makedirs(os.path.dirname(made), exist_ok=True)
    archive = root + "/target/staticlib/libruqzhemil.a"
    subprocess.run(["cc", "-shared", "-o", made, "-Wl,--whole-archive", archive, "-Wl,--no-whole-archive"], check=True)
    loaded = ctypes.CDLL(made)
    names = "check play judge comtrade charge preview canonical show read bound witness first_interleaving next_interleaving"
    for name in names.split():
        getattr(loaded, "ruqzhemil_" + name).restype = ctypes.c_uint64
    return loaded


def lent(data):
    """Bytes as a pointer and a length."""
    return (ctypes.c_uint8 * max(1, len(data))).from_buffer_copy(data or b"\0"), ctypes.c_size_t(len(data))


def judged_right(lib, log, want, version):
    """Whether judge returns the number of its answer."""
    return lib.ruqzhemil_judge(ctypes.c_uint64(version), *lent(log)) == judged(want)


def played_right(lib, case):
    """Whether check and play answer as the case asks."""
    play, want = case["play"], case["want"]
    plan, schedule = bytes.fromhex(play["plan"]), bytes.fromhex(play["schedule"])
    area = (ctypes.c_uint8 * max(1, play["area"]))(*([FILL] * max(1, play["area"])))
    out = (ctypes.c_uint8 * OUT)(*([FILL] * OUT))
    got = lib.ruqzhemil_play(*lent(plan), *lent(schedule), area, ctypes.c_size_t(play["area"]), out)
    left = bytes(area)[:play["area"]]
    log = record_bytes(bytes.fromhex(want.get("log", "")))
    right = got == played(want) and bytes(out) == outcome_bytes(want) and left == log + bytes([FILL]) * (play["area"] - len(log))
    right = right and lib.ruqzhemil_check(*lent(plan)) == checked(want)
    return right and ("judge" not in want or judged_right(lib, log, want["judge"], plan[0] >> 4))


def written_right(entry, given, want):
    """Whether a function that writes into an area returns what the case asks, and the whole area is right."""
    before = bytes.fromhex(given["area"])
    area, length = lent(before)
    got = entry(area, length)
    return got == written(want) and bytes(area)[:len(before)] == bytes.fromhex(want["area"])


def filed_right(lib, case):
    """Whether comtrade answers as the case asks."""
    given = case["comtrade"]
    return written_right(lambda *area: lib.ruqzhemil_comtrade(*lent(bytes.fromhex(given["log"])), *area), given, case["want"])


def shown_right(lib, plan, want):
    """Whether show refuses the plan as check does, or gives its text."""
    text = plan_text.shown(plan).encode() if checked(want) == value(0) else b""
    area, length = lent(bytes([FILL]) * (len(text) + 3))
    got = lib.ruqzhemil_show(*lent(plan), area, length)
    return got == (value(len(text)) if text else checked(want)) and bytes(area) == text + bytes([FILL]) * 3


def read_right(lib, text, right):
    """Whether read gives the plan, or the line and the column where the text is none."""
    area, length = lent(bytes([FILL]) * plan_text.MOST_PLAN)
    got = lib.ruqzhemil_read(*lent(text), area, length)
    plan = b"" if isinstance(right, tuple) else right
    return got == (value(len(plan)) if plan else other(right[0] << 16 | right[1])) and bytes(area) == plan + bytes([FILL]) * (length.value - len(plan))


def texts_right(lib, plan, want):
    """Whether read takes what is shown of a plan for the written plan, and answers right to that text with some tokens changed."""
    if "refused" in want:
        return True
    text, chance = plan_text.shown(plan), random.Random(plan)
    changed = [plan_text.changed(chance, text).encode() for _ in range(4)]
    shown_is = read_right(lib, text.encode(), bytes.fromhex(want["area"])[:want["length"]])
    return shown_is and all(read_right(lib, other_text, plan_text.answered(other_text)) for other_text in changed)


def canonical_right(lib, case):
    """Whether canonical answers as the case asks, and show and read."""
    given, want = case["canonical"], case["want"]
    plan = bytes.fromhex(given["plan"])
    right = written_right(lambda *area: lib.ruqzhemil_canonical(*lent(plan), *area), given, want) and shown_right(lib, plan, want)
    return right and texts_right(lib, plan, want)


def charged_right(lib, case):
    """Whether charge returns what the case asks."""
    given = case["charge"]
    got = lib.ruqzhemil_charge(*lent(bytes.fromhex(given["plan"])), *lent(bytes.fromhex(given["schedule"])), ctypes.c_uint64(given["option"]))
    return got == charged(case["want"])


def previewed_right(lib, case):
    """Whether preview returns what the case asks, and its bytes are right."""
    given = case["preview"]
    out = (ctypes.c_uint8 * PREVIEW)(*([FILL] * PREVIEW))
    got = lib.ruqzhemil_preview(*lent(bytes.fromhex(given["plan"])), *lent(bytes.fromhex(given["schedule"])), ctypes.c_uint64(given["pick"]), out)
    return got == previewed(case["want"]) and bytes(out) == preview_bytes(case["want"])


def witness_right(lib, case):
    """Whether witness answers as the case asks."""
    given = case["witness"]
    plan, schedule = lent(bytes.fromhex(given["plan"])), lent(bytes.fromhex(given["schedule"]))
    return written_right(lambda *area: lib.ruqzhemil_witness(*plan, *schedule, *area), given, case["want"])


def listed_right(lib, case):
    """Whether first_interleaving, or next_interleaving where a schedule is given, answers as the case asks."""
    given = case["interleaving"]
    plan, n = lent(bytes.fromhex(given["plan"])), ctypes.c_uint64(given["n"])
    if given["given"] is None:
        return written_right(lambda *area: lib.ruqzhemil_first_interleaving(*plan, n, *area), given, case["want"])
    schedule = lent(bytes.fromhex(given["given"]))
    return written_right(lambda *area: lib.ruqzhemil_next_interleaving(*plan, n, *schedule, *area), given, case["want"])


def right(lib, case):
    """Whether the library answers a case of any kind as it asks."""
    if "play" in case:
        return played_right(lib, case)
    if "comtrade" in case:
        return filed_right(lib, case)
    if "charge" in case:
        return charged_right(lib, case)
    if "preview" in case:
        return previewed_right(lib, case)
    if "canonical" in case:
        return canonical_right(lib, case)
    if "witness" in case:
        return witness_right(lib, case)
    if "interleaving" in case:
        return listed_right(lib, case)
    if "bound" in case:
        return lib.ruqzhemil_bound(*lent(bytes.fromhex(case["bound"]["plan"]))) == bounded(case["want"])
    return judged_right(lib, bytes.fromhex(case["judge"]), case["want"], case["version"])


def main(argv):
    words, landed = interpreter.split(argv[1:])
    if len(words) not in (1, 3):
        sys.exit(__doc__)
    sys.setrecursionlimit(20000)
    lib = library(os.path.dirname(os.path.dirname(os.path.abspath(__file__))))
    compared = differ = 0
    for case in interpreter.cases(words, landed):
        compared += 1
        if not right(lib, case):
            differ += 1
            print(json.dumps(case))
    print("%d cases, %d differ" % (compared, differ))
    sys.exit(differ != 0 or compared == 0)


if __name__ == "__main__":
    main(sys.argv)
