#!/usr/bin/env python3
"""Spells the repository's own definitions and lemmas in snake case, and its modules in camel case.

usage: respell.py [FOLDER]     once, at the top of a repository (or of FOLDER) that has crates/, behind the kit's own script

A name is one that a file of specs/ or proofs/ declares: `bitsAt` becomes `bits_at`, `field-of` becomes `field_of`. A lemma whose name would then be a
definition's gets `_lem`. A record's field gets none. A type keeps its capital, and a name of capitals alone is a rule's or a refusal's and stays. A word turns as a whole, in .antt
files, in .rt files outside strings, in must-fail edits, and in code spans of .md files; it stays in a file that imports it from a library. The module
`inner` of specs/ is `Inner`, its folder too. What would fall together is printed on a line that begins 'met:'.
"""

import collections
import os
import re
import sys

WORD = r'[^\s(){}.;,@"«»`]+'
DECLARED = re.compile(rf"^ *(?:(?:pub|abbrev|unfoldable)\s+)*({WORD})(?: \{{[^{{}}\n]*\}})* :(?=\s|$)([^\n]*)", re.M)
LISTED = re.compile(rf"^ +(?:pub )?((?:{WORD} +)+{WORD}) :(?=\s)", re.M)
USE = re.compile(r"\buse ([^\s;{]+)(?:\.?\{([^}]*)\})?")
COMMENT = re.compile(r"--[^\n]*")
QUOTED = re.compile(r'"(?:[^"\\\n]|\\.)*"')
SPAN = re.compile(r"`[^`\n]+`")
MADE = re.compile(r"\btie\.|\bgoal\.|→ statement M|: statement M")


def spelled(name):
    words = re.sub(r"(?<=[a-z0-9])[A-Z]", lambda m: "_" + m[0].lower(), name)
    return re.sub(r"(?<=\S)-(?=\S)", "_", words)


def turns(name):
    return not (name[0].isupper() or name[0] in "+μ◌" or not re.search(r"[a-z]", name))


def in_records(code):
    """Where the fields of records stand: the begin and the end of each record's text, and the names of its fields."""
    lines, at = code.split("\n"), 0
    begun = None
    for line in [*lines, "end"]:
        indent = len(line) - len(line.lstrip())
        if begun and line.strip() and indent <= begun[1]:
            yield begun[0], at, begun[2]
            begun = None
        if re.match(r" *(pub )?record ", line):
            begun = (at, indent, set())
        elif begun:
            m = re.match(r" *(?:pub )?([^:()]*?) :(?=\s|$)", line)
            begun[2].update(m[1].split() if m else ())
        at += len(line) + 1


def files(top, *endings):
    for folder, folders, names in os.walk(top):
        folders[:] = sorted(f for f in folders if f not in ("out", ".git", "target"))
        yield from (os.path.join(folder, n) for n in sorted(names) if n.endswith(endings))


def read(path):
    with open(path, encoding="utf-8") as f:
        return f.read()


def declared(top):
    """The names that the files declare, but for the goals that proofs answer, and those of them that are definitions."""
    names, definitions = set(), set()
    for path in files(top, ".antt"):
        code = COMMENT.sub("", read(path))
        for m in DECLARED.finditer(code):
            if not MADE.search(m[2]):
                names.add(m[1])
                if re.match(r" *(pub )?(abbrev|unfoldable)", m[0]):
                    definitions.add(m[1])
        for m in LISTED.finditer(code):
            names.update(w for w in m[1].split() if re.fullmatch(r"[\w'-]+", w) and w not in ("let", "abbrev", "pub", "unfoldable"))
    return names, definitions


def table(names, definitions):
    rows, by = {}, collections.defaultdict(set)
    for name in names:
        if turns(name):
            by[spelled(name)].add(name)
    for new, olds in by.items():
        first = min(olds, key=lambda n: ("-" in n, n == new, n) if len(olds & definitions) != 1 else (n not in definitions,))
        for old in olds:
            rows[old] = new if old == first else new + "_lem"
        if len(olds) > 1:
            print("met:", new, sorted(olds))
    return {old: new for old, new in rows.items() if old != new}


def from_libraries(code):
    out = set()
    for path, items in USE.findall(code):
        if not re.match(r"Rattle\.(?!std\b|core\b)", path):
            out.update(w.split(" as ")[-1].strip() for w in (items or "").split(","))
    return out


def turned(code, rows, stay, fields=(), within=(), begin=0):
    """The code with its words turned. A word in snake case that gives way to a definition may be a function's too, and turns only behind no dot. A field, behind
    a dot, in a record's literal or in the record, has its plain spelling."""

    def one(m):
        word = m[0]
        if word in stay:
            return word
        dotted = code[m.start() - 1 : m.start()] == "."
        literal = re.search(r"[{;]\s*$", code[: m.start()][-40:]) and code[m.end() : m.end() + 2] == " ="
        if word in fields and (dotted or literal) or any(a <= begin + m.start() < b and word in names for a, b, names in within):
            return spelled(word) if turns(word) else word
        if dotted and "-" not in word and word.islower():
            return word
        return rows.get(word, word)

    return re.sub(WORD, one, code)


def outside(pattern, text, turn, inside):
    out, at = [], 0
    for m in pattern.finditer(text):
        out += [turn(text[at : m.start()], at), inside(m[0])]
        at = m.end()
    return "".join(out + [turn(text[at:], at)])


def modules(text):
    text = re.sub(r"(?<=\.specs\.)inner(?=[.\s])", "Inner", text)
    text = re.sub(r"(?<=specs/)inner(?=[/.`])", "Inner", text)
    return re.sub(r"(?m)^((?:pub )?mod )inner$", r"\1Inner", text)


def main(top):
    crates = os.path.join(top, "crates")
    rows = table(*declared(crates))
    fields = {n for path in files(crates, ".antt") for _, _, names in in_records(COMMENT.sub("", read(path))) for n in names}
    of_text = {old: new for old, new in rows.items() if not re.fullmatch(r"[a-z0-9_]+", old)}
    for path in [*files(crates, ".antt", ".rt", ".edit"), *files(top, ".md")]:
        old = text = read(path)
        spans = lambda s: SPAN.sub(lambda m: turned(m[0], rows, set()), s)
        if path.endswith(".md"):
            text = SPAN.sub(lambda m: turned(m[0], of_text, set()), text)
        elif path.endswith(".edit"):
            text = "\n".join(l if l[:1] == "#" else turned(l, rows, set(), fields) for l in text.split("\n"))
        else:
            stay = from_libraries(COMMENT.sub("", text)) if path.endswith(".antt") else {old for old in rows if re.fullmatch(r"[a-z0-9_]+", old)}
            quiet = re.compile((COMMENT if path.endswith(".antt") else re.compile(r"//[^\n]*")).pattern + "|" + QUOTED.pattern)
            there = set(re.findall(WORD, quiet.sub(" ", text)))
            for word in sorted(there - stay):
                new = rows.get(word)
                if new and new in there and new not in rows:
                    print("met:", os.path.relpath(path, top), word, new)
            within = list(in_records(quiet.sub(lambda m: " " * len(m[0]), text)))
            text = outside(quiet, text, lambda s, at: turned(s, rows, stay, fields, within, at), lambda q: q if q[0] == '"' else spans(q))
        text = modules(text)
        if text != old:
            with open(path, "w", encoding="utf-8") as f:
                f.write(text)
    for folder, folders, names in os.walk(crates):
        if os.path.basename(folder) == "specs":
            for it in ("inner", "inner.antt"):
                if os.path.exists(os.path.join(folder, it)):
                    os.rename(os.path.join(folder, it), os.path.join(folder, it.replace("inner", "Inner")))
    print(len(rows), "names")


main(sys.argv[1] if len(sys.argv) > 1 else ".")
