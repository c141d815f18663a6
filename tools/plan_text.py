#!/usr/bin/env python3
"""Plans as text (docs/FORMAT.md, "A plan as text"), written and read by the grammar there: an implementation of its own, to compare the library with.

  plan_text.py show < PLAN     prints the text of a plan that passes the check
  plan_text.py read < TEXT     writes the plan of a text, in its canonical order; fails with the line and the column where the text is none

`shown` takes a plan's bytes and gives its text; `read` takes a text and gives the plan's bytes, or raises `NoPlan` with the token where it stops; `answered`
gives either. How deep things are within each other has no bound here.
"""

import re
import sys

WORDS = ("version volatile procedure in then else do all and true not null new let if while call fork join synch wait notify").split()
CODES = [str(n) for n in range(32)] + ["v%d" % n for n in range(8)] + WORDS + ["(", ")", ",", ".", "=", ":=", "-", "", None]
NAMES = set(CODES[:62])
LOOSE, TESTING, PREFIX, TIGHT = range(4)
PREFIXES = {9: ["fork"], 10: ["join"], 18: ["wait"], 19: ["notify"], 20: ["notify", "all"]}
WIDTH = 99  # columns of a line, at most
MOST_INDENT = 40
MOST_TOKENS = 16384
MOST_TERMS = 1024
MOST_PLAN = 5192  # bytes of a plan, at most


# ---- a plan's bytes as trees: (tag, operands), operands being trees and numbers

# the widths of each tag's operands; 10 is a term
OPERANDS = {0: (), 1: (4,), 2: (32,), 3: (10, 5), 4: (10, 5, 10), 5: (4, 10, 10), 6: (10, 10, 10), 7: (10, 10), 8: (5, 10), 9: (10,), 10: (10,),
            11: (10, 10), 12: (), 13: (10,), 14: (10, 10), 15: (10, 10), 16: (10, 10), 17: (), 18: (10,), 19: (10,), 20: (10,)}


def bits(data, at, width):
    return int.from_bytes(data, "big") >> (8 * len(data) - at - width) & (1 << width) - 1


def tree_at(terms, index):
    term = terms[5 * index:5 * index + 5]
    at, operands = 5, []
    for width in OPERANDS[bits(term, 0, 5)]:
        number = bits(term, at, width)
        operands.append(tree_at(terms, number) if width == 10 else number)
        at += width
    return (bits(term, 0, 5), *operands)


def decoded(plan):
    """A plan's version, volatile mask, and procedures as pairs of a parameter count and a tree."""
    count = bits(plan[:4], 4, 6)
    terms = plan[8 + 2 * count:]
    pairs = [plan[8 + 2 * p:10 + 2 * p] for p in range(count)]
    return plan[0] >> 4, bits(plan[4:8], 0, 32), [(bits(pair, 0, 4), tree_at(terms, bits(pair, 4, 12))) for pair in pairs]


def encoded(version, mask, procedures):
    """The plan in its canonical order."""
    terms = []

    def put(tree):
        tag, index = tree[0], len(terms)
        terms.append(None)
        word, used = tag, 5
        for width, operand in zip(OPERANDS[tag], tree[1:]):
            word, used = word << width | (put(operand) if width == 10 else operand), used + width
        terms[index] = (word << 40 - used).to_bytes(5, "big")
        return index

    roots = [(count << 12 | put(tree)).to_bytes(2, "big") for count, tree in procedures]
    head = (version << 28 | len(procedures) << 22 | len(terms) << 10).to_bytes(4, "big")
    return head + mask.to_bytes(4, "big") + b"".join(roots) + b"".join(terms)


def fields(mask, first):
    return [str(f) for f in range(first, 32) if mask >> 31 - f & 1]


# ---- trees as tokens

def grouped(asked, binding, tokens):
    return ["(", *tokens, ")"] if binding < asked else tokens


def arguments(tree):
    parts = []
    while tree[0] == 16:
        parts += [",", *tokens_of(tree[1], LOOSE)]
        tree = tree[2]
    return parts[1:]


def tokens_of(tree, asked):
    tag, of = tree[0], tree[1:]
    if tag in PREFIXES:
        return grouped(asked, PREFIX, PREFIXES[tag] + tokens_of(of[0], PREFIX))
    if tag == 0:
        return ["null"]
    if tag == 1:
        return ["v%d" % of[0]]
    if tag == 2:
        return ["new", "(", *fields(of[0], 0), ")"]
    if tag == 3:
        return tokens_of(of[0], TIGHT) + [".", str(of[1])]
    if tag == 4:
        return grouped(asked, LOOSE, tokens_of(of[0], TIGHT) + [".", str(of[1]), ":="] + tokens_of(of[2], LOOSE))
    if tag == 5:
        binder = "-" if of[0] == 15 else str(of[0])
        return grouped(asked, LOOSE, ["let", binder, "="] + tokens_of(of[1], LOOSE) + ["in"] + tokens_of(of[2], LOOSE))
    if tag == 6:
        parts = [tokens_of(part, LOOSE) for part in of]
        return grouped(asked, LOOSE, ["if", *parts[0], "then", *parts[1], "else", *parts[2]])
    if tag in (7, 11):
        return grouped(asked, LOOSE, ["while" if tag == 7 else "synch", *tokens_of(of[0], LOOSE), "do", *tokens_of(of[1], LOOSE)])
    if tag == 8:
        return ["call", str(of[0]), "(", *arguments(of[1]), ")"]
    if tag == 12:
        return ["true"]
    if tag == 13:
        return grouped(asked, TESTING, ["not"] + tokens_of(of[0], TESTING))
    if tag == 14:
        return grouped(asked, LOOSE, tokens_of(of[0], TESTING) + ["and"] + tokens_of(of[1], LOOSE))
    return grouped(asked, TESTING, tokens_of(of[0], PREFIX) + ["="] + tokens_of(of[1], PREFIX))


def plan_tokens(version, mask, procedures):
    tokens = ["version", str(version)]
    volatile = fields(mask, 1)
    tokens += ["volatile", *volatile] if volatile else []
    for p, (count, tree) in enumerate(procedures):
        tokens += (["procedure", str(p), "(", str(count), ")", "="] if p else []) + tokens_of(tree, LOOSE)
    return tokens


# ---- tokens as text

def laid_out(tokens):
    text, line, open_forms = "", "", 0
    for last, token in zip([None] + tokens, tokens):
        if token in (")", "in", "else"):
            open_forms -= 1
        main = last is not None and last.isdigit() and re.match("v[0-7]$|null|new|let|if|while|call|fork|join|synch|wait|notify", token)
        breaks = last in ("in", "do") or token in ("volatile", "procedure") or main
        if breaks or len(line) + 1 + len(token) > WIDTH:
            text, line = text + line + "\n", " " * min(2 * open_forms, MOST_INDENT) + token
        else:
            close = token in "),." or last in (None, "(", ".") or (last, token) == ("new", "(")
            line += token if close else " " + token
        if token in ("(", "let", "if"):
            open_forms += 1
    return text + line + "\n"


def shown(plan):
    """The text of a plan that passes the check."""
    return laid_out(plan_tokens(*decoded(plan)))


# ---- text as tokens

class NoPlan(Exception):
    """A text that is no plan: the place of the token where reading stops."""

    def __init__(self, at):
        super().__init__(at)
        self.at = at


def place(text, at):
    """Its line and its column, both from 1."""
    return text.count("\n", 0, at) + 1, at - (text.rfind("\n", 0, at) + 1) + 1


def lexed(text):
    """The tokens of a text with their places; None is no token of a plan, "" the end."""
    tokens = []
    for found in re.finditer(r"[ \t\r\n]+|#[^\n]*|([0-9a-z]+)|(:=|[(),.=-])|[^\n]", text):
        name, mark = found.groups()
        if name or mark:
            tokens.append((name if name in NAMES else mark, found.start()))
        elif found.group()[0] not in " \t\r\n#":
            tokens.append((None, found.start()))
    return tokens + [("", len(text))]


def code(token):
    """Its number among all tokens, by which a call's arguments are counted even where the procedure has something else than a count."""
    return CODES.index(token)


def changed(chance, text):
    """The text with a token put in, taken out or put in another's place."""
    places = [at for _, at in lexed(text)[1:-1]]
    words = [text[begun:end] for begun, end in zip((0, *places), (*places, len(text)))]
    at, word = chance.randrange(len(words)), " %s " % chance.choice(CODES[:69] + ["#\n", "x"])
    words[at:at + chance.choice((0, 1, 1))] = chance.choice(([word], [word], []))
    return "".join(words)


# ---- tokens as trees

EXPRESSION, CONDITION, EITHER = "expression", "condition", "either"
FORMS = {"let": LOOSE, "if": LOOSE, "while": LOOSE, "synch": LOOSE, "not": TESTING, **{words[0]: PREFIX for words in PREFIXES.values()}}


class Reader:
    def __init__(self, tokens):
        self.tokens, self.at, self.terms = tokens, 0, MOST_TERMS
        words = [token for token, _ in tokens] + [""] * 3
        self.counts = [0] + [code(words[i + 3]) for i, word in enumerate(words) if word == "procedure"]

    def ahead(self, by=0):
        return self.tokens[min(self.at + by, len(self.tokens) - 1)][0]

    def stop(self):
        raise NoPlan(self.tokens[min(self.at, len(self.tokens) - 1)][1])

    def take(self):
        self.at += 1
        return self.tokens[self.at - 1][0]

    def expect(self, token):
        return self.take() if self.ahead() == token else self.stop()

    def is_number(self, first, end):
        token = self.ahead()
        return bool(token) and token.isdigit() and first <= int(token) < end

    def number(self, first, end):
        return int(self.take()) if self.is_number(first, end) else self.stop()

    def made(self, *tree):
        if not self.terms:
            self.stop()
        self.terms -= 1
        return tree

    def mask(self, most, mask):
        """Fields that go up, so many at most."""
        least = 0
        while most and self.is_number(least + 1, 32):
            least = self.number(least + 1, 32)
            mask, most = mask | 1 << 31 - least, most - 1
        return mask

    def expression(self):
        return self.part(LOOSE, EXPRESSION)

    def behind(self, word, sort=EXPRESSION):
        """What stands behind a word, and goes on as far as it can."""
        self.expect(word)
        return self.part(LOOSE, sort)

    def call(self):
        p = self.number(0, min(len(self.counts), 32))
        self.expect("(")
        parts = [self.behind(",") if i else self.expression() for i in range(self.counts[p])]
        self.expect(")")
        tree = self.made(17)
        for part in reversed(parts):
            tree = self.made(16, part, tree)
        return self.made(8, p, tree)

    def word_form(self, word):
        """The form that begins with a word, which has been taken."""
        if word == "let":
            binder = 15 if self.ahead() == "-" and self.take() else self.number(0, 8)
            return self.made(5, binder, self.behind("="), self.behind("in"))
        if word == "if":
            return self.made(6, self.part(LOOSE, CONDITION), self.behind("then"), self.behind("else"))
        if word == "while":
            return self.made(7, self.part(LOOSE, CONDITION), self.behind("do"))
        if word == "synch":
            return self.made(11, self.expression(), self.behind("do"))
        if word == "not":
            return self.made(13, self.part(TESTING, CONDITION))
        if word == "new":
            self.expect("(")
            mask = self.mask(8, 0)
            self.expect(")")
            return self.made(2, mask)
        if word == "call":
            return self.call()
        if word in ("null", "true"):
            return self.made(0 if word == "null" else 12)
        words = [word] + ([self.take()] if word == "notify" and self.ahead() == "all" else [])
        return self.made(next(tag for tag, known in PREFIXES.items() if known == words), self.part(PREFIX, EXPRESSION))

    def begun(self, asked, sort):
        """What a part begins with."""
        token = self.ahead()
        if token and re.fullmatch("v[0-7]", token):
            return self.made(1, int(self.take()[1]))
        if token == "(":
            self.take()
            tree = self.part(LOOSE, EXPRESSION if sort == EXPRESSION else EITHER)
            self.expect(")")
            return tree
        fits = token in ("true", "null", "new", "call") or FORMS.get(token, -1) >= asked
        if not fits or token in ("true", "not") and sort == EXPRESSION:
            self.stop()
        return self.word_form(self.take())

    def part(self, asked, sort):
        """An expression or a condition, at a place that asks for this binding and this sort: what it begins with, and what may follow that."""
        tree = self.begun(asked, sort)
        while True:
            token, is_condition = self.ahead(), 12 <= tree[0] <= 15
            if token == "." and not is_condition:
                self.take()
                f = self.number(1, 32)
                tree = self.made(4, tree, f, self.behind(":=")) if asked == LOOSE and self.ahead() == ":=" else self.made(3, tree, f)
            elif token == "=" and not is_condition and asked <= TESTING and sort != EXPRESSION:
                self.take()
                tree = self.made(15, tree, self.part(PREFIX, EXPRESSION))
            elif token == "and" and is_condition and asked == LOOSE:
                tree = self.made(14, tree, self.behind("and", CONDITION))
            elif sort in (EITHER, CONDITION if is_condition else EXPRESSION):
                return tree
            else:
                self.stop()


def closed(tree, bound):
    """Whether every variable's slot is bound."""
    tag, of = tree[0], tree[1:]
    if tag == 1:
        return of[0] in bound
    if tag == 5:
        return closed(of[1], bound) and closed(of[2], bound | {of[0]})
    return all(closed(part, bound) for part in of if isinstance(part, tuple))


def read(text):
    """The plan of a text, in its canonical order."""
    tokens = lexed(text)
    if len(tokens) > MOST_TOKENS:
        raise NoPlan(tokens[MOST_TOKENS][1])
    reader = Reader(tokens)
    version, mask, procedures = 1, 1 << 31, []
    if reader.ahead() == "version":
        reader.take()
        version = reader.number(0, 2)
    if reader.ahead() == "volatile":
        reader.take()
        mask = reader.mask(31, mask)
    while not procedures or reader.ahead() != "":
        count, begun = 0, reader.at
        if len(procedures) == 32:
            reader.stop()
        if procedures:
            reader.expect("procedure")
            reader.expect(str(len(procedures)))
            reader.expect("(")
            count = reader.number(0, 9)
            reader.expect(")")
            reader.expect("=")
        procedures.append((count, reader.expression()))
        if not closed(procedures[-1][1], set(range(count))):
            raise NoPlan(tokens[begun][1])
    return encoded(version, mask, procedures)


def answered(text):
    """The plan of a text, which is given as bytes, or the line and the column where it is none."""
    text = text.decode("latin-1")
    try:
        return read(text)
    except NoPlan as none:
        return place(text, none.at)


def main(argv):
    sys.setrecursionlimit(20000)
    if argv[1:] == ["show"]:
        sys.stdout.write(shown(sys.stdin.buffer.read()))
    elif argv[1:] == ["read"]:
        found = answered(sys.stdin.buffer.read())
        if isinstance(found, tuple):
            sys.exit("no plan: line %d, column %d" % found)
        sys.stdout.buffer.write(found)
    else:
        sys.exit(__doc__)


if __name__ == "__main__":
    main(sys.argv)
