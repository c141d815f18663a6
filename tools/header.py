#!/usr/bin/env python3
"""The numbers of include/ruqzhemil.h, and whether they are those that the stored cases were made with; and its sentences of refusals.

  header.py

The answers of the stored cases are written with the header's numbers (tools/vectors.py), which crates/test_vectors/data/header lists, and the test program
`test_vectors` holds them to the library's. This program fails where the header says something else than that list, another size of a text's area than the
printing program's definition, or another sentence of a refusal than plancheck's.
"""

import os
import re
import sys

ROOT = os.path.dirname(os.path.dirname(os.path.abspath(__file__)))
LISTED = "test_vectors/data/header"  # below the crates


def numbers():
    """Each name of the header that stands for a number, without its RUQZHEMIL_."""
    with open(ROOT + "/include/ruqzhemil.h") as header:
        found = re.findall(r"^(?:#define|   ) RUQZHEMIL_(\w+)(?: =)? (0x[0-9a-f]+|[0-9]+)\b", header.read(), re.M)
    return {name: int(number, 0) for name, number in found}


def listing():
    """The names and numbers, a line to each."""
    return "".join("%s %d\n" % pair for pair in numbers().items())


def sentences():
    """The sentence of each refusal in the header, and in the definition of what plancheck says."""
    with open(ROOT + "/include/ruqzhemil.h") as header:
        texts = dict(re.findall(r'case RUQZHEMIL_(REFUSAL_\w+): return "([^"]*)"', header.read()))
    with open(ROOT + "/crates/text_refusal_lines/specs/Lines.antt") as lines:
        said = {int(number): text for text, number in re.findall(r'ascii "([^"]*)"  -- ([0-9]+)', lines.read())}
    return {numbers()[name]: text for name, text in texts.items()}, said


def main():
    with open(ROOT + "/crates/" + LISTED) as stored:
        if stored.read() != listing():
            sys.exit("include/ruqzhemil.h has other numbers than the stored cases were made with: run tools/vectors.py, then rt ci test_vectors")
    with open(ROOT + "/crates/text_shot_list/specs/Printed.antt") as printed:
        if "(%d ≤ length before →" % numbers()["MOST_TEXT_BYTES"] not in printed.read():
            sys.exit("include/ruqzhemil.h has another size of a text's area than crates/text_shot_list/specs/Printed.antt")
    texts, said = sentences()
    if not texts or texts != said:
        sys.exit("include/ruqzhemil.h has other sentences of refusals than crates/text_refusal_lines/specs/Lines.antt")
    print("%d numbers of the header are those of the stored cases" % len(numbers()))


if __name__ == "__main__":
    main()
