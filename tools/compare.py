#!/usr/bin/env python3
"""Holds the printing program to the second interpreter on fresh random cases.

  compare.py PROGRAM ORACLE SEED COUNT [--landed E2,E7]
  compare.py PROGRAM - < CASES

ORACLE is the folder of the second interpreter, CASES its JSON lines, made before; the list names the requests of document 02 that count as landed;
PROGRAM is the built printing program (`rt run < stdin` in crates/shotlist makes crates/shotlist/out/shotlist). Every case that plays a schedule on a plan
is written as the program's standard input, and what it prints is compared with the text that the case asks for. Cases that refuse the log area (number 10)
are left out, since the program lends an area that is always long enough. Every tenth input is also cut short within its plan, which is refusal 1, and every
tenth run is also played with more picks than a schedule may have, which is refusal 8.
"""

import subprocess
import sys

import interpreter

KINDS = ["", "new", "read", "write", "readv", "writev", "acquire", "release", "fork", "join", "lacks-read", "lacks-write"]


def record_line(index, three):
    """The line of a record: index, kind, thread, object, field, value."""
    word = int.from_bytes(three, "big")
    columns = word >> 17 & 7, word >> 12 & 31, word >> 7 & 31, word >> 2 & 31
    return " ".join([str(index), KINDS[word >> 20]] + [str(c) for c in columns])


def text_of(want):
    """The whole text for an answer of the second interpreter."""
    if "refused" in want:
        return "refused %d %d\n" % tuple(want["refused"])
    log = bytes.fromhex(want["log"])
    lines = [record_line(i, log[3 * i:3 * i + 3]) for i in range(want["records"])]
    lines.append("%s %d %d %d" % (want["outcome"], want["picks"], want["moves"], want["records"]))
    return "\n".join(lines) + "\n"


def inputs(cases):
    """Inputs of the program, each with its text."""
    for number, case in enumerate(cases):
        if "play" not in case or case["want"].get("refused", [0])[0] == 10:
            continue
        plan, schedule = bytes.fromhex(case["play"]["plan"]), bytes.fromhex(case["play"]["schedule"])
        data = len(plan).to_bytes(2, "big") + plan + schedule
        yield data, text_of(case["want"])
        if number % 10 == 0:
            yield data[:2 + len(plan) // 2], "refused 1 0\n"
            if "refused" not in case["want"]:
                yield data + bytes(4097 + number % 70000), "refused 8 0\n"


def main(argv):
    words, landed = interpreter.split(argv[1:])
    if len(words) not in (2, 4):
        sys.exit(__doc__)
    compared = differ = 0
    for data, text in inputs(interpreter.cases(words[1:], landed)):
        got = subprocess.run([words[0]], input=data, stdout=subprocess.PIPE).stdout.decode()
        compared += 1
        if got != text:
            differ += 1
            print("input %s\nprinted %r\nwanted  %r" % (data.hex(), got, text))
    print("%d cases, %d differ" % (compared, differ))
    sys.exit(differ != 0 or compared == 0)


if __name__ == "__main__":
    main(sys.argv)
