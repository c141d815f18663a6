#!/usr/bin/env python3
"""Writes the data of the test programs from the second interpreter.

  vectors.py ORACLE SEED COUNT CRATES [--landed E2,E7]
  vectors.py ORACLE - CRATES [--landed E2,E7] < CASES

ORACLE is the folder of the second interpreter, SEED and COUNT go to its `oracle.py vectors`, the list after --landed names the requests of document 02
that count as landed (those that the product has, where it is left out), CASES are the interpreter's JSON lines, made before, and CRATES is the folder of
the crates. CRATES/test_vectors/data gets the files below, and CRATES/test_vectors/stdout what the test program must print; CRATES/test_longest_input/stdin and stdout are
an input of 9,291 bytes of the printing program and its text. The same words give the same files. Every case stands behind its length in two bytes; numbers have the high byte first.

  header                         the numbers of include/ruqzhemil.h, with which the answers are written, a name and a number to a line
  version                        the number of the header's version, in eight bytes
  shots, edges, runs, refused    plays: of document 01's shot list, by hand, random ones that run, random ones that are refused
  edge_logs, logs                logs for the judge: by hand, and random ones
  edge_files, files              logs for comtrade: by hand, and random ones
  charges                        plays for charge: the figures of document 02, and random ones
  previews                       plays and picks for preview: by hand, and random ones
  plans                          plans for canonical: by hand, and random ones
  texts                          the same plans for show, with the texts that tools/plan_text.py writes
  reads                          texts for read: by hand, those of examples/plans and examples/relay, shown plans, and random ones, with the answers of tools/plan_text.py
  bounds                         plans for bound: by hand, and random ones
  witnesses                      plays for witness: by hand, and random ones
  interleavings                  plans and schedules for first_interleaving and next_interleaving: by hand, and random ones
  changed_version, changed_checks, changed_plays, changed_runs, changed_both, changed_logs, changed_files,
  changed_charges, changed_previews, changed_plans, changed_texts, changed_reads, changed_bounds,
  changed_witnesses, changed_interleavings
                                 cases of the kinds above with one part of the answer, or one length, changed: each must differ

A play: lengths of plan, schedule and log area; what check, play and judge return, in eight bytes each, judge for the run's records or for none; the
bytes of the outcome; plan, schedule, records. A log: the version that judge is told and what it returns, in eight bytes each; the log. A file:
the area's length in four bytes and the log's in two, what comtrade returns in eight; the log, and the file where it is not refused. A charge:
lengths of plan and schedule, the option and what charge returns, in eight bytes each; plan, schedule. A preview: lengths of plan and schedule, the pick
and what preview returns, in eight bytes each; the bytes of the preview; plan, schedule. A plan: the lengths of plan and area, what canonical returns in
eight bytes; plan, written plan where it is not refused. A text: the same of show and the text. A read: the same of read, with the text before the plan.
A bound: what bound returns in eight bytes; plan. A witness: lengths of plan, schedule and area; what witness returns in eight bytes; plan, schedule, and the
written schedule where it is not refused. An interleaving: lengths of plan, schedule and area; 0 to begin, 1 to go on; n and what is returned, in eight bytes
each; plan, schedule, and the written schedule where there is one.
"""

import collections
import glob
import random
import sys

import header
import interpreter
import plan_text
import rows
from interpreter import (FILL, KINDS, NUMBERS, OUTCOMES, REFUSALS, STATES, bounded, charged, checked, judged, other, outcome_bytes, played,
                         preview_bytes, previewed, record_bytes, refused, state_words, value, written)

LONG = 6000  # bytes of a case from which on only a few are kept
MOST = 65535  # bytes of any case: its length has two
# of each number, of runs to the end, of long cases, of logs with an unordered access and without, of files, charges, previews, written plans, bounds,
# witnesses and interleavings of each kind, of each number that refuses one
KEPT = {
    "refused": 45,
    "end": 330,
    "long": 10,
    "log": 390,
    "file": 80, "refused file": 15,
    "charge": 60, "refused charge": 12,
    "preview": 20, "refused preview": 8,
    "plan": 60, "refused plan": 8,
    "bound": 60, "refused bound": 15,
    "witness": 60, "refused witness": 12,
    "interleaving": 60, "refused interleaving": 12,
}


# ---- the bytes of a case

def two(number):
    return number.to_bytes(2, "big")


def four(number):
    return number.to_bytes(4, "big")


def eight(number):
    return number.to_bytes(8, "big")


Play = collections.namedtuple("Play", "plan schedule area checked played judged out records lengths")
Log = collections.namedtuple("Log", "version judged log")
File = collections.namedtuple("File", "area filed log file length")
Charge = collections.namedtuple("Charge", "plan schedule option charged lengths")
Preview = collections.namedtuple("Preview", "plan schedule pick previewed out lengths")
Plan = collections.namedtuple("Plan", "plan area written bytes length")
Bound = collections.namedtuple("Bound", "bounded plan")
Witness = collections.namedtuple("Witness", "plan schedule area written bytes lengths")
Interleaving = collections.namedtuple("Interleaving", "plan schedule area going n written bytes lengths")


def play_of(plan, schedule, area, want):
    """A play as it is stored: what check, play and judge return; `lengths` are those of plan and schedule."""
    said = judged(want["judge"]) if "judge" in want else judged_nothing(plan)
    records = record_bytes(bytes.fromhex(want.get("log", "")))
    return Play(plan, schedule, area, checked(want), played(want), said, outcome_bytes(want), records, (len(plan), len(schedule)))


def judged_nothing(plan):
    """What judge returns for no records, where it is told the version in the plan's first bits."""
    return refused(14, 0) if plan and plan[0] >> 4 > 1 else value(0)


def log_of(log, want, version=1):
    return Log(version, judged(want), record_bytes(log))


def charge_of(plan, schedule, option, want):
    """A charge as it is stored; `lengths` are those of plan and schedule."""
    return Charge(plan, schedule, option, charged(want), (len(plan), len(schedule)))


def preview_of(plan, schedule, pick, want):
    """A preview as it is stored; `lengths` are those of plan and schedule."""
    return Preview(plan, schedule, pick, previewed(want), preview_bytes(want), (len(plan), len(schedule)))


def file_of(log, area, want):
    """A log and the length of an area as they are stored, with the file where the area gets it; `length` is the log's."""
    file = b"" if "refused" in want else bytes.fromhex(want["area"])[:want["length"]]
    return File(area, written(want), record_bytes(log), file, len(log))


def plan_of(plan, area, want):
    """A plan and the length of an area as they are stored, with the written plan where the area gets it; `length` is the plan's."""
    got = b"" if "refused" in want else bytes.fromhex(want["area"])[:want["length"]]
    return Plan(plan, area, written(want), got, len(plan))


def witness_of(plan, schedule, area, want):
    """A witness as it is stored; `area` is the length of an area, `lengths` are those of plan and schedule."""
    got = b"" if "refused" in want else bytes.fromhex(want["area"])[:want["length"]]
    return Witness(plan, schedule, area, written(want), got, (len(plan), len(schedule)))


def interleaving_of(plan, n, given, area, want):
    """An interleaving as it is stored; `given` is None to begin, `area` the length of an area, `lengths` are those of plan and schedule."""
    got = b"" if "refused" in want or "over" in want else bytes.fromhex(want["area"])[:want["length"]]
    schedule = given or b""
    return Interleaving(plan, schedule, area, int(given is not None), n, written(want), got, (len(plan), len(schedule)))


def stored(case):
    """The bytes of a case."""
    if isinstance(case, bytes):
        return case
    if isinstance(case, Log):
        return eight(case.version) + eight(case.judged) + case.log
    if isinstance(case, Charge):
        return b"".join(map(two, case.lengths)) + eight(case.option) + eight(case.charged) + case.plan + case.schedule
    if isinstance(case, Preview):
        return b"".join(map(two, case.lengths)) + eight(case.pick) + eight(case.previewed) + case.out + case.plan + case.schedule
    if isinstance(case, Witness):
        return b"".join(map(two, case.lengths)) + two(case.area) + eight(case.written) + case.plan + case.schedule + case.bytes
    if isinstance(case, Interleaving):
        numbers = b"".join(map(two, case.lengths)) + two(case.area) + bytes([case.going]) + eight(case.n) + eight(case.written)
        return numbers + case.plan + case.schedule + case.bytes
    if isinstance(case, Bound):
        return eight(case.bounded) + case.plan
    if isinstance(case, Plan):
        return two(case.length) + two(case.area) + eight(case.written) + case.plan + case.bytes
    if isinstance(case, File):
        return four(case.area) + two(case.length) + eight(case.filed) + case.log + case.file
    lengths = b"".join(map(two, case.lengths)) + two(case.area)
    return lengths + eight(case.checked) + eight(case.played) + eight(case.judged) + case.out + case.plan + case.schedule + case.records


# ---- the cases of the second interpreter

def case_of(case):
    if "judge" in case:
        return log_of(bytes.fromhex(case["judge"]), case["want"], case["version"])
    if "charge" in case:
        asked = case["charge"]
        return charge_of(bytes.fromhex(asked["plan"]), bytes.fromhex(asked["schedule"]), int(asked["option"]), case["want"])
    if "preview" in case:
        asked = case["preview"]
        return preview_of(bytes.fromhex(asked["plan"]), bytes.fromhex(asked["schedule"]), asked["pick"], case["want"])
    if "witness" in case:
        lent = case["witness"]
        return witness_of(bytes.fromhex(lent["plan"]), bytes.fromhex(lent["schedule"]), len(lent["area"]) // 2, case["want"])
    if "interleaving" in case:
        lent = case["interleaving"]
        given = None if lent["given"] is None else bytes.fromhex(lent["given"])
        return interleaving_of(bytes.fromhex(lent["plan"]), lent["n"], given, len(lent["area"]) // 2, case["want"])
    if "bound" in case:
        return Bound(bounded(case["want"]), bytes.fromhex(case["bound"]["plan"]))
    if "canonical" in case:
        lent = case["canonical"]
        return plan_of(bytes.fromhex(lent["plan"]), len(lent["area"]) // 2, case["want"])
    if "comtrade" in case:
        lent = case["comtrade"]
        return file_of(bytes.fromhex(lent["log"]), len(lent["area"]) // 2, case["want"])
    play = case["play"]
    return play_of(bytes.fromhex(play["plan"]), bytes.fromhex(play["schedule"]), play["area"], case["want"])


def kind_of(case):
    """The file of a case, and what it is counted as where only some are kept."""
    want = case["want"]
    if "charge" in case:
        return "charges", (("refused charge", want["refused"][0]) if "refused" in want else ("charge", want["cents"] == 0))
    if "preview" in case:
        return "previews", (("refused preview", want["refused"][0]) if "refused" in want else ("preview", str(preview_bytes(want)[:2])))
    if "witness" in case:
        return "witnesses", (("refused witness", want["refused"][0]) if "refused" in want else ("witness", ""))
    if "interleaving" in case:
        begin = case["interleaving"]["given"] is None
        return "interleavings", (("refused interleaving", want["refused"][0]) if "refused" in want else ("interleaving", (begin, "over" in want)))
    if "bound" in case:
        return "bounds", (("refused bound", want["refused"][0]) if "refused" in want else ("bound", ""))
    if "canonical" in case:
        return "plans", (("refused plan", want["refused"][0]) if "refused" in want else ("plan", ""))
    if "comtrade" in case:
        return "files", (("refused file", want["refused"][0]) if "refused" in want else ("file", ""))
    if "refused" in want:
        return ("logs" if "judge" in case else "refused"), ("refused", want["refused"][0])
    if "judge" in case:
        return "logs", ("log", len(want["unordered"]))
    return "runs", (want["outcome"], "")


def marks_of(want):
    """What a case covers: a refusal, or an outcome, states, kinds of records, a schedule of full length."""
    if "log" not in want:
        return [("refused", want["refused"][0])] if "refused" in want else []
    kinds = bytes.fromhex(want["log"])[::3]
    return [want["outcome"]] + [STATES[state_words(s)] for s in want["states"]] + [("kind", k >> 4) for k in kinds] + [("picks", want["picks"])]


ALL_MARKS = ([("refused", n) for n in REFUSALS] + list(OUTCOMES) + list(STATES.values()) + [("kind", k) for k in range(1, len(KINDS) + 1)]
             + [("picks", NUMBERS["MOST_PICKS"])])


def storable(made):
    """Whether two bytes have its length, and the test program an area that is long enough."""
    return len(stored(made)) <= MOST and not (isinstance(made, File) and made.area > NUMBERS["MOST_FILE_BYTES"])


def chosen(cases):
    """The stored cases, by file."""
    kept, files, marks = collections.Counter(), collections.defaultdict(list), set()
    for case in cases:
        name, kind = kind_of(case)
        made = case_of(case)
        if len(stored(made)) > LONG:
            kind = ("long", name)
        if not storable(made):
            continue
        if kept[kind] < KEPT.get(kind[0], 1 << 20):
            kept[kind] += 1
            files[name].append(made)
            marks.update(marks_of(case["want"]))
    missing = [mark for mark in ALL_MARKS if mark not in marks]
    assert not missing, "no case has %s: take more" % missing
    return files


# ---- the cases by hand

def says(want, stated, word=None):
    """Whether an answer is what is stated of it."""
    if isinstance(stated, list):
        return want.get("refused") == stated
    counts = (want["outcome"], want["picks"], want["moves"], want["records"])
    return stated in (counts, counts[2:]) and word in (None, want["states"][0][0])


def play_by_hand(oracle, plan, picks, right):
    """A play of these picks, with five bytes of log area more than they need."""
    area = 3 * len(picks) + 5
    want = oracle.played(plan, bytes(picks), area)
    assert right(want), (plan.hex(), picks, want)
    return play_of(plan, bytes(picks), area, want)


def relay_plan(name):
    """A plan of examples/relay."""
    with open(header.ROOT + "/examples/relay/" + name + ".plan", "rb") as file:
        return plan_text.answered(file.read())


def shots(oracle):
    relay = [(relay_plan(name), [int(pick) for pick in picks], stated, None) for name, picks, stated in rows.RELAY]
    return [play_by_hand(oracle, plan, picks, lambda want: says(want, stated, word)) for plan, picks, stated, word in rows.SHOTS + relay]


def edges(oracle, landed):
    for plan, picks, stated, changing in rows.EDGES:
        yield play_by_hand(oracle, plan, picks, lambda want: set(changing) & set(landed) or says(want, stated))


def edge_logs(oracle):
    for log, version, stated in rows.LOGS:
        want = oracle.judged(log, version)
        assert want == ({"refused": stated} if isinstance(stated, list) else {"unordered": [] if stated is None else [stated]}), (log.hex(), want)
        yield log_of(log, want, version)


def figures(oracle):
    """Document 02's figures: a run of 0, 100 and 101 moves, without the option and with it."""
    for plan, picks, cents in rows.CHARGES:
        for option, right in zip((0, 1, 1 << 63), (*cents, cents[1])):
            want = oracle.charged(plan, bytes(picks), option != 0)
            assert want == {"cents": right}, (plan.hex(), picks, option, want)
            yield charge_of(plan, bytes(picks), option, want)


def edge_previews(oracle):
    for plan, picks, pick, stated in rows.PREVIEWS:
        want = oracle.previewed(plan, bytes(picks), pick)
        assert want.get("preview", want.get("refused")) == stated, (plan.hex(), picks, pick, want)
        yield preview_of(plan, bytes(picks), pick, want)


def edge_plans(oracle):
    for plan, area, stated in rows.WRITTEN:
        want = oracle.written_plan(plan, bytes([FILL]) * area)
        assert want.get("refused", want.get("length")) == stated, (plan.hex(), area, want)
        yield plan_of(plan, area, want)


def edge_bounds(oracle):
    for plan, stated in rows.BOUNDS:
        want = oracle.bounded(plan)
        assert want.get("moves", want.get("refused")) == stated, (plan.hex(), want)
        yield Bound(bounded(want), plan)


def edge_witnesses(oracle):
    for plan, picks, area, stated in rows.WITNESSES:
        want = oracle.witnessed(plan, bytes(picks), bytes([FILL]) * area)
        got = want.get("refused") or list(bytes.fromhex(want["area"])[:want["length"]])
        assert got == stated, (plan.hex(), picks, area, want)
        yield witness_of(plan, bytes(picks), area, want)


def edge_interleavings(oracle):
    for plan, n, given, area, stated in rows.INTERLEAVINGS:
        given = None if given is None else bytes(given)
        want = oracle.interleaved(plan, n, given, bytes([FILL]) * area)
        got = want.get("refused") or ("over" if "over" in want else list(bytes.fromhex(want["area"])[:want["length"]]))
        assert got == stated, (plan.hex(), n, given, area, want)
        yield interleaving_of(plan, n, given, area, want)


def edge_files(oracle):
    for log, area, stated in rows.FILES:
        want = oracle.data_file(log, bytes([FILL]) * area)
        assert want.get("length", want.get("refused")) == stated, (log.hex(), area, want)
        yield file_of(log, area, want)


# ---- plans as text

SHORT_FOR_TEXT = (NUMBERS["IS_REFUSAL"] << 32) + (NUMBERS["REFUSAL_TEXT_AREA"] << 16)


def text_of(plan, more):
    """A plan that passes, with its text, in an area that is longer than the text by so much."""
    text = plan_text.shown(plan).encode()
    return Plan(plan, len(text) + more, *((value(len(text)), text) if more >= 0 else (SHORT_FOR_TEXT, b"")), len(plan))


def edge_texts():
    for plan, text in rows.TEXTS:
        assert plan_text.shown(plan) == text, (plan.hex(), text)
        yield from (text_of(plan, more) for more in (0, -1, 5))


def texts(plans):
    """Of plans for canonical: those that pass, in areas of their texts' length, of more and of one byte less; and those that are refused."""
    for index, case in enumerate(plans):
        passes = case.bytes or case.written == refused(13, 0)
        made = text_of(case.plan, (0, -1, 5)[index % 3]) if passes else case
        if storable(made):
            yield made


SHORT_FOR_PLAN = (NUMBERS["IS_REFUSAL"] << 32) + (NUMBERS["REFUSAL_READ_AREA"] << 16)
FEW_READS = 300  # bytes of a random text, at most


def read_of(text, right, more):
    """A text that is read as this plan, in an area that is longer by so much, or is none at this line and this column."""
    if isinstance(right, tuple):
        return Plan(text, 9, other(right[0] << 16 | right[1]), b"", len(text))
    return Plan(text, len(right) + more, *((value(len(right)), right) if more >= 0 else (SHORT_FOR_PLAN, b"")), len(text))


def edge_reads():
    for text, right in rows.READS + rows.DEEP_READS:
        text = text.encode("latin-1")
        assert (text.decode("latin-1"), right) in rows.DEEP_READS or plan_text.answered(text) == right, (text, right, plan_text.answered(text))
        yield read_of(text, right, 0)
    yield from (read_of(rows.READS[0][0].encode(), rows.PLAN_P, more) for more in (-1, -len(rows.PLAN_P), 5))


def example_reads():
    """The texts of examples/plans and examples/relay, and what is shown of them: P, the shot list's other plans, every form, and the relay test's plans."""
    shot_plans = [plan for plan, *_ in rows.SHOTS]
    for path in sorted(glob.glob(header.ROOT + "/examples/plans/*.plan") + glob.glob(header.ROOT + "/examples/relay/*.plan")):
        with open(path, "rb") as file:
            text = file.read()
        plan = plan_text.answered(text)
        assert plan in shot_plans or path.endswith("/every_form.plan") or "/relay/" in path, path
        yield from (read_of(text, plan, 0), read_of(plan_text.shown(plan).encode(), plan, 5))


def reads(plans):
    """Of plans for canonical, some: what is shown of them, which is read as the interpreter writes them, and texts that are a little changed."""
    chance = random.Random("reads")
    shown = [(plan_text.shown(case.plan), case.bytes) for case in plans if case.bytes]
    short = [(text, plan) for text, plan in shown if 60 < len(text) < FEW_READS][:10]
    yield from (read_of(text.encode(), plan, (0, -1, 5)[index % 3]) for index, (text, plan) in enumerate(short))
    for text, _ in 3 * short:
        text = plan_text.changed(chance, text)
        yield read_of(text.encode(), plan_text.answered(text.encode()), 0)


# ---- cases that must differ

def flips(data):
    """The bytes with each in turn changed."""
    return [data[:i] + bytes([data[i] ^ 1]) + data[i + 1:] for i in range(len(data))]


def by(case, **values):
    """The case with one part changed, once for each of the values."""
    (part, changes), = values.items()
    return [case._replace(**{part: value}) for value in changes]


def wrong(right):
    """Numbers that are not the one returned: each part of an answer changed, and each kind of answer in place of another."""
    return [right ^ change for change in (1, 1 << 16, 1 << 32, 1 << 33, 3 << 32, 1 << 63)]


def changed(race, ended, refused_plan, refused_pick, unordered, ordered, refused_log, file, refused_file, charge, preview, refused_preview, plan,
            refused_area, text, refused_text, read, unread, refused_read, bound, refused_bound, witness, refused_witness, first, following, over,
            refused_listing):
    """Cases by file, of twenty-seven right ones: plays that stop for a race, come to their end, have a refused plan and a refused pick; logs with an unordered
    access, with none, and refused; a log with its data file, and one that is refused; a charge; a preview, and one that is refused; a
    plan that is written, and one that is refused; a plan that is shown, and one that is refused; a text that is read, one that is no plan, and one that is
    refused; a bound, and one that is refused; a witness, and one that is refused; a first interleaving, a following one, an end of the list, and one that is refused."""
    end = len(stored(race))
    lengths = [(end, 0), (len(race.plan), end)]
    return {
        "changed_checks": by(race, checked=wrong(race.checked)) + by(refused_plan, checked=wrong(refused_plan.checked)) + by(race, lengths=lengths[:1]),
        "changed_plays": by(race, played=wrong(race.played)) + by(race, out=flips(race.out)) + by(race, records=flips(race.records))
        + by(race, records=[race.records[:-3], race.records + bytes(3), race.records + bytes([FILL] * 5) + bytes(1)]) + by(race, lengths=lengths)
        + by(race, area=[3 * len(race.schedule) - 1, 16385, 65535])
        + by(refused_pick, played=wrong(refused_pick.played)) + by(refused_pick, out=flips(refused_pick.out)) + by(refused_pick, records=[bytes(3)]),
        "changed_runs": by(race, judged=wrong(race.judged)) + by(ended, judged=wrong(ended.judged)) + by(race, lengths=lengths),
        "changed_both": by(race, judged=wrong(race.judged)) + by(ended, judged=wrong(ended.judged)) + by(refused_pick, played=wrong(refused_pick.played))
        + by(race, lengths=lengths) + by(race, area=[3 * len(race.schedule) - 1, 16385]),
        "changed_logs": [changed for case in (unordered, ordered, refused_log) for changed in by(case, judged=wrong(case.judged))],
        "changed_files": by(file, filed=wrong(file.filed)) + by(file, file=flips(file.file)) + by(file, file=[file.file[:-1], file.file + bytes(1)])
        + by(file, area=[len(file.file) - 1, NUMBERS["MOST_FILE_BYTES"] + 1]) + by(file, length=[len(stored(file))])
        + by(refused_file, filed=wrong(refused_file.filed)) + by(refused_file, file=[bytes(1)]),
        "changed_charges": by(charge, charged=wrong(charge.charged)) + by(charge, option=[0]) + by(charge, lengths=[(len(charge.plan), len(charge.schedule) + 1)]),
        "changed_previews": by(preview, previewed=wrong(preview.previewed)) + by(preview, out=flips(preview.out)) + by(preview, pick=[preview.pick + 1])
        + by(preview, lengths=[(len(preview.plan), len(preview.schedule) + 1)])
        + by(refused_preview, previewed=wrong(refused_preview.previewed)) + by(refused_preview, out=flips(refused_preview.out)),
        "changed_plans": by(plan, written=wrong(plan.written)) + by(plan, bytes=flips(plan.bytes)) + by(plan, bytes=[plan.bytes[:-1], plan.bytes + bytes(1)])
        + by(plan, area=[len(plan.plan) - 1, 65535]) + by(plan, length=[len(stored(plan))])
        + by(refused_area, written=wrong(refused_area.written)) + by(refused_area, bytes=[bytes(1)]),
        "changed_texts": by(text, written=wrong(text.written)) + by(text, bytes=flips(text.bytes)) + by(text, bytes=[text.bytes[:-1], text.bytes + bytes(1)])
        + by(text, area=[len(text.bytes) - 1]) + by(text, length=[len(stored(text))])
        + by(refused_text, written=wrong(refused_text.written)) + by(refused_text, bytes=[bytes(1)]),
        "changed_reads": by(read, written=wrong(read.written)) + by(read, bytes=flips(read.bytes)) + by(read, bytes=[read.bytes[:-1], read.bytes + bytes(1)])
        + by(read, area=[len(read.bytes) - 1, 65535]) + by(read, length=[len(stored(read))])
        + [changed for case in (unread, refused_read) for changed in by(case, written=wrong(case.written)) + by(case, bytes=[bytes(1)])],
        "changed_bounds": by(bound, bounded=wrong(bound.bounded)) + by(bound, plan=[bound.plan[:-1]]) + by(refused_bound, bounded=wrong(refused_bound.bounded)),
        "changed_witnesses": by(witness, written=wrong(witness.written)) + by(witness, bytes=flips(witness.bytes))
        + by(witness, bytes=[witness.bytes[:-1], witness.bytes + bytes(1)]) + by(witness, area=[len(witness.bytes) - 1, 65535])
        + by(witness, lengths=[(len(stored(witness)), 0)])
        + by(refused_witness, written=wrong(refused_witness.written)) + by(refused_witness, bytes=[bytes(1)]),
        "changed_interleavings": [changed for case in (first, following) for changed in by(case, written=wrong(case.written)) + by(case, bytes=flips(case.bytes))
                                  + by(case, bytes=[case.bytes[:-1], case.bytes + bytes(1)]) + by(case, area=[case.n - 1, 65535]) + by(case, n=[65])]
        + by(over, written=wrong(over.written)) + by(over, bytes=[bytes(1)]) + by(following, going=[0]) + by(following, lengths=[(len(stored(following)), 0)])
        + by(refused_listing, written=wrong(refused_listing.written)) + by(refused_listing, bytes=[bytes(1)]),
    }


def changed_of(files):
    """The same, of the shot list's and the random cases."""
    def first(name, right):
        return next(case for case in files[name] if right(case))
    return changed(files["shots"][0], first("runs", lambda c: c.judged == value(0) and c.out[0] == OUTCOMES["end"] and len(c.records) > 9),
                   first("refused", lambda c: c.checked > refused(4, 0)), first("refused", lambda c: refused(9, 0) < c.played < refused(10, 0)),
                   first("logs", lambda c: other(0) < c.judged < refused(1, 0)), first("logs", lambda c: c.judged == value(0) and len(c.log) > 9),
                   first("logs", lambda c: c.judged > refused(12, 0)), first("files", lambda c: len(c.log) == 3 and c.file),
                   first("files", lambda c: c.filed == refused(24, 0)), first("charges", lambda c: c.option and value(0) < c.charged < other(0)),
                   first("previews", lambda c: c.out[0] == NUMBERS["PREVIEW_RACE"]), first("previews", lambda c: c.previewed > refused(9, 0)),
                   first("plans", lambda c: c.bytes and c.bytes != c.plan), first("plans", lambda c: c.written == refused(13, 0)),
                   first("texts", lambda c: len(c.bytes) > 60), first("texts", lambda c: c.written == SHORT_FOR_TEXT),
                   first("reads", lambda c: 20 < len(c.bytes) < 50), first("reads", lambda c: c.written > other(2 << 16)),
                   first("reads", lambda c: c.written == SHORT_FOR_PLAN),
                   first("bounds", lambda c: c.bounded < other(0)), first("bounds", lambda c: c.bounded == refused(21, 0)),
                   first("witnesses", lambda c: len(c.bytes) > 9), first("witnesses", lambda c: c.written == refused(16, 0)),
                   first("interleavings", lambda c: not c.going and c.n > 4 and c.bytes), first("interleavings", lambda c: c.going and c.n > 4 and c.bytes),
                   first("interleavings", lambda c: c.written == other(0)), first("interleavings", lambda c: c.written == refused(19, 0)))


# ---- the files

GROUPS = [
    ("version", "version"), ("shot list, checked", "shots"), ("shot list, played", "shots"), ("shot list, judged", "shots"),
    ("edges, checked", "edges"), ("edges, played", "edges"), ("edges, judged", "edges"), ("logs at the edges, judged", "edge_logs"),
    ("runs, checked", "runs"), ("runs, played", "runs"), ("runs, judged", "runs"), ("runs, played and judged", "runs"),
    ("refused plays, checked", "refused"), ("refused plays, played", "refused"), ("refused plays, played and judged", "refused"),
    ("other logs, judged", "logs"), ("data files at the edges", "edge_files"), ("data files", "files"), ("charges", "charges"),
    ("previews", "previews"), ("plans, written", "plans"), ("plans, shown", "texts"), ("texts, read", "reads"), ("bounds", "bounds"),
    ("witnesses", "witnesses"), ("interleavings", "interleavings"),
]
CHANGED = [
    ("changed version", "changed_version"), ("changed, checked", "changed_checks"), ("changed, played", "changed_plays"),
    ("changed runs, judged", "changed_runs"), ("changed, played and judged", "changed_both"), ("changed logs, judged", "changed_logs"),
    ("changed data files", "changed_files"), ("changed charges", "changed_charges"), ("changed previews", "changed_previews"),
    ("changed plans, written", "changed_plans"), ("changed plans, shown", "changed_texts"), ("changed texts, read", "changed_reads"),
    ("changed bounds", "changed_bounds"), ("changed witnesses", "changed_witnesses"), ("changed interleavings", "changed_interleavings"),
]


def lines(files):
    """What the test program prints where nothing differs but what must."""
    def count(groups):
        return sum(len(files[file]) for _, file in groups)
    for name, file in GROUPS:
        yield "%s: %d cases, 0 differ\n" % (name, len(files[file]))
    yield "%d cases, 0 differ\n" % count(GROUPS)
    for name, file in CHANGED:
        yield "%s: %d cases, %d differ\n" % (name, len(files[file]), len(files[file]))
    yield "must differ: %d cases, %d differ\n" % (count(CHANGED), count(CHANGED))


def main(argv):
    words, names = interpreter.split(argv[1:])
    made_before = words[1:2] == ["-"]
    if len(words) != (3 if made_before else 4):
        sys.exit(__doc__)
    crates = words[-1]
    sys.setrecursionlimit(20000)
    sys.path.insert(0, words[0])
    import answers
    import landed
    import oracle
    import run
    landed.land(*landed.named(names))
    files = chosen(interpreter.cases(["-"] if made_before else words[:3], names))
    files["shots"], files["edges"], files["edge_logs"] = shots(oracle), list(edges(oracle, landed.now())), list(edge_logs(oracle))
    files["edge_files"] = list(edge_files(answers))
    files["charges"] = list(figures(answers)) + files["charges"]
    files["previews"] = list(edge_previews(answers)) + files["previews"]
    files["plans"] = list(edge_plans(answers)) + files["plans"]
    files["texts"] = list(edge_texts()) + list(texts(files["plans"]))
    files["reads"] = list(edge_reads()) + list(example_reads()) + list(reads(files["plans"]))
    files["bounds"] = list(edge_bounds(answers)) + files["bounds"]
    files["witnesses"] = list(edge_witnesses(answers)) + files["witnesses"]
    files["interleavings"] = list(edge_interleavings(answers)) + files["interleavings"]
    files.update(changed_of(files))
    files["version"] = [eight(NUMBERS["VERSION"])]
    files["changed_version"] = flips(files["version"][0]) + [files["version"][0] + bytes(1)]
    for name, cases in files.items():
        with open("%s/test_vectors/data/%s" % (crates, name), "wb") as out:
            out.write(b"".join(two(len(stored(case))) + stored(case) for case in cases))
    with open("%s/%s" % (crates, header.LISTED), "w") as out:
        out.write(header.listing())
    with open(crates + "/test_vectors/stdout", "w") as out:
        out.writelines(lines(files))
    with open(crates + "/test_longest_input/stdin", "wb") as out:
        out.write(rows.longest_input())
    with open(crates + "/test_longest_input/stdout", "w") as out:
        out.write(run.report(rows.longest_input()))


if __name__ == "__main__":
    main(sys.argv)
