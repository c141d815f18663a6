/* Ruqzhemil: a verified checker of plans for relay test sets, as a static library for C and C++.
 *
 * A plan is a small concurrent program in a byte table, and a schedule a byte for each pick, the number of the thread that moves next. This header is enough
 * to call the functions and to read what they give; docs/FORMAT.md says how to write a plan, as bytes and as text.
 *
 *   check                says whether a table is a plan
 *   play                 runs a plan under a schedule: a log of 3-byte records, and an outcome
 *   judge                takes a log alone and names an access that nothing orders
 *   preview              says what a pick would do, before it is taken
 *   witness              from a race, brings both threads to their accesses
 *   canonical            writes a plan in the one way that all equal plans share
 *   show                 writes a plan as text
 *   read                 writes the plan of a text
 *   first_interleaving,  list every way in which the threads of a short plan can take turns
 *   next_interleaving
 *   bound                says how many moves a plan can need
 *   charge               says what a run costs
 *   comtrade             writes a log as a file for a waveform viewer
 *
 * THE ANSWER of every function is a uint64_t of two halves. The upper half says which kind of answer it is, enum ruqzhemil_answer:
 *
 *   0  an answer; the lower half is its value, 0 where it has none
 *   1  the function's other answer, with its value in the lower half
 *   2  a refusal; the lower half is number * 65536 + place
 *
 *   uint64_t answer = ruqzhemil_check(plan, plan_len);
 *   if (RUQZHEMIL_REFUSED(answer)) {
 *       printf("refused %u %u: %s\n", RUQZHEMIL_NUMBER(answer), RUQZHEMIL_PLACE(answer), ruqzhemil_refusal_text(RUQZHEMIL_NUMBER(answer)));
 *   }
 *
 * WHAT IS PROMISED: for all bytes, however malformed, each function returns the number that crates/abi_convention and crates/abi_numbers define, with the
 * bytes of specs/Bytes in crates/abi_thread_bytes, crates/abi_outcome and crates/abi_preview; the proofs of crates/ruqzhemil and crates/ruqzhemil_c show it.
 * Functions keep nothing between calls, have no global state and allocate nothing, so threads may call them at the same time on areas of their own.
 *
 * WHAT IS ASKED of the caller: each pointer leads to as many bytes as its length says (out of play to RUQZHEMIL_OUT_BYTES, of preview to
 * RUQZHEMIL_PREVIEW_BYTES); a length of 0 may go with any pointer, null too; what a function writes (log, area, out) overlaps none of its other bytes, and
 * while a call runs no other thread writes to its bytes; and there is stack (bench/run.sh measures it, and measured what follows of archives that the kit
 * before rattle-kit-13f built): check needs up to 80 KB, play up to 128 KB, judge up to 64 KB, preview and charge up to 144 KB, witness up to 144 KB (each of
 * the three has a log of 12,288 bytes in it), canonical up to 144 KB, show, bound, first_interleaving and next_interleaving up to 96 KB, read up to 224 KB,
 * comtrade up to 4 KB.
 *
 * WHAT IT NEEDS: x86-64, the System V calling convention (Linux), and from outside the archive memcpy and memset alone.
 *
 * NUMBERS MAY BE ADDED by a later version to each of the enums below; docs/CONTRIBUTING.md has the policy. A program is safe that treats a number that it
 * does not know as "something else".
 */
#ifndef RUQZHEMIL_H
#define RUQZHEMIL_H

#include <stddef.h>
#include <stdint.h>

#ifdef __cplusplus
extern "C" {
#endif

/* ---- versions: major * 65536 + minor * 256 + patch */

#define RUQZHEMIL_VERSION 0x010300 /* 1.3.0, of this header */

/* The version of the archive that is linked, which RUQZHEMIL_VERSION should be. */
uint64_t ruqzhemil_version(void);

/* ---- limits */

#define RUQZHEMIL_MOST_PLAN_BYTES 5192    /* of any plan that passes: 32 procedures, 1,024 terms */
#define RUQZHEMIL_MOST_PICKS 4096         /* of any schedule that passes */
#define RUQZHEMIL_MOST_LOG_BYTES 12288    /* of any log: a record to each of 4,096 picks. An area of this size is enough for every play */
#define RUQZHEMIL_MOST_TEXT_BYTES 131072  /* an area of this size is enough for the text that the printing program writes of any run */
#define RUQZHEMIL_MOST_SHOWN_BYTES 574501 /* an area of this size is enough for the text that show writes of any plan */
#define RUQZHEMIL_MOST_FILE_BYTES 317269  /* of the data file of any log: that of 4,096 records. An area of this size is enough for every log */
#define RUQZHEMIL_MOST_TOTAL 65535        /* of the moves that bound answers */
#define RUQZHEMIL_MOST_BOUND 64           /* of a bound n for interleavings: an area of this size is enough for every listed schedule */
#define RUQZHEMIL_RECORD_BYTES 3          /* of a record */
#define RUQZHEMIL_OUT_BYTES 40            /* of an outcome */
#define RUQZHEMIL_PREVIEW_BYTES 8         /* of a preview */
#define RUQZHEMIL_THREADS 8               /* of a run; they are numbered 0 to 7, as the picks are */
#define RUQZHEMIL_OBJECTS 32              /* of a run, null (0) included; values are objects */

/* ---- answers */

enum ruqzhemil_answer {
    RUQZHEMIL_IS_VALUE = 0,  /* an answer, with its value */
    RUQZHEMIL_IS_OTHER = 1,  /* the function's other answer, with its value */
    RUQZHEMIL_IS_REFUSAL = 2 /* a refusal, with its number and its place */
};

#define RUQZHEMIL_ANSWER(answer) ((unsigned)((answer) >> 32))
#define RUQZHEMIL_REFUSED(answer) (RUQZHEMIL_ANSWER(answer) == RUQZHEMIL_IS_REFUSAL)
#define RUQZHEMIL_VALUE(answer) ((uint32_t)((answer) & 0xffffffffu))      /* of an answer, or of the other answer */
#define RUQZHEMIL_NUMBER(answer) ((unsigned)((answer) >> 16 & 0xffffu)) /* of a refusal, enum ruqzhemil_refusal */
#define RUQZHEMIL_PLACE(answer) ((unsigned)((answer) & 0xffffu))         /* of a refusal: which procedure, term, pick or record, from 0; else 0 */
#define RUQZHEMIL_LINE(answer) ((unsigned)((answer) >> 16 & 0xffffu))   /* of read's other answer: the line, from 1; 65,535 where it is more */
#define RUQZHEMIL_COLUMN(answer) ((unsigned)((answer) & 0xffffu))        /* of read's other answer: the column in bytes, from 1; 65,535 where it is more */

enum ruqzhemil_refusal {
    RUQZHEMIL_REFUSAL_PLAN_LENGTH = 1,     /* place 0 */
    RUQZHEMIL_REFUSAL_HEADER = 2,          /* place 0 */
    RUQZHEMIL_REFUSAL_PROCEDURE = 3,       /* the lowest such procedure */
    RUQZHEMIL_REFUSAL_TERM = 4,            /* the lowest such term */
    RUQZHEMIL_REFUSAL_SORT = 5,            /* the lowest such term, or call */
    RUQZHEMIL_REFUSAL_NAMING = 6,          /* the lowest such term */
    RUQZHEMIL_REFUSAL_SLOT = 7,            /* the lowest such procedure */
    RUQZHEMIL_REFUSAL_SCHEDULE_LENGTH = 8, /* place 0 */
    RUQZHEMIL_REFUSAL_PICK = 9,            /* the lowest such pick */
    RUQZHEMIL_REFUSAL_LOG_AREA = 10,       /* place 0 */
    RUQZHEMIL_REFUSAL_LOG_LENGTH = 11,     /* place 0 */
    RUQZHEMIL_REFUSAL_RECORD = 12,         /* the lowest such record */
    RUQZHEMIL_REFUSAL_PLAN_AREA = 13,      /* place 0 */
    RUQZHEMIL_REFUSAL_VERSION = 14,        /* place 0 */
    RUQZHEMIL_REFUSAL_LEFT_OUT = 15,       /* place 0 */
    RUQZHEMIL_REFUSAL_NO_RACE = 16,        /* place 0 */
    RUQZHEMIL_REFUSAL_SCHEDULE_AREA = 17,  /* place 0 */
    RUQZHEMIL_REFUSAL_BOUND = 18,          /* place 0 */
    RUQZHEMIL_REFUSAL_NOT_LISTED = 19,     /* place 0 */
    RUQZHEMIL_REFUSAL_BOUND_AREA = 20,     /* place 0 */
    RUQZHEMIL_REFUSAL_CYCLE = 21,          /* place 0 */
    RUQZHEMIL_REFUSAL_WHILE = 22,          /* place 0 */
    RUQZHEMIL_REFUSAL_TOTAL = 23,          /* place 0 */
    RUQZHEMIL_REFUSAL_FILE_AREA = 24,      /* place 0 */
    RUQZHEMIL_REFUSAL_TEXT_AREA = 25,      /* place 0 */
    RUQZHEMIL_REFUSAL_READ_AREA = 26       /* place 0 */
};

static inline const char *ruqzhemil_refusal_text(unsigned number) {
    switch (number) {
    case RUQZHEMIL_REFUSAL_PLAN_LENGTH: return "the plan's length is not that of its counts, or under 8 bytes";
    case RUQZHEMIL_REFUSAL_HEADER: return "the plan's header or volatile mask";
    case RUQZHEMIL_REFUSAL_PROCEDURE: return "a procedure's parameters, or its root is not below the term count";
    case RUQZHEMIL_REFUSAL_TERM: return "a term's tag, slot, field, procedure, child or spare bits";
    case RUQZHEMIL_REFUSAL_SORT: return "a root or child of the wrong sort, or a call with the wrong number of arguments";
    case RUQZHEMIL_REFUSAL_NAMING: return "a term that is not named exactly once";
    case RUQZHEMIL_REFUSAL_SLOT: return "a procedure that uses a slot that nothing binds";
    case RUQZHEMIL_REFUSAL_SCHEDULE_LENGTH: return "a schedule of over 4,096 picks";
    case RUQZHEMIL_REFUSAL_PICK: return "a pick over 7";
    case RUQZHEMIL_REFUSAL_LOG_AREA: return "a log area under 3 times the picks";
    case RUQZHEMIL_REFUSAL_LOG_LENGTH: return "a log whose length is no multiple of 3, or over 12,288";
    case RUQZHEMIL_REFUSAL_RECORD: return "a record with a wrong kind, column or spare bit, or lacking its key and not last";
    case RUQZHEMIL_REFUSAL_PLAN_AREA: return "an area shorter than the plan";
    case RUQZHEMIL_REFUSAL_VERSION: return "a version other than 0 or 1 given to the judge";
    case RUQZHEMIL_REFUSAL_LEFT_OUT: return "a plan of version 0, or with a wait, which are left out";
    case RUQZHEMIL_REFUSAL_NO_RACE: return "a run without a missing key";
    case RUQZHEMIL_REFUSAL_SCHEDULE_AREA: return "an area shorter than the schedule to be written";
    case RUQZHEMIL_REFUSAL_BOUND: return "a bound over 64";
    case RUQZHEMIL_REFUSAL_NOT_LISTED: return "a schedule that is not listed";
    case RUQZHEMIL_REFUSAL_BOUND_AREA: return "an area shorter than the bound";
    case RUQZHEMIL_REFUSAL_CYCLE: return "calls that form a cycle";
    case RUQZHEMIL_REFUSAL_WHILE: return "a while in a plan whose moves are asked for";
    case RUQZHEMIL_REFUSAL_TOTAL: return "a total of over 65,535 moves";
    case RUQZHEMIL_REFUSAL_FILE_AREA: return "an area too short for the whole data file";
    case RUQZHEMIL_REFUSAL_TEXT_AREA: return "an area shorter than the plan's text";
    case RUQZHEMIL_REFUSAL_READ_AREA: return "an area shorter than the plan of the text";
    default: return "a refusal that this header does not know";
    }
}

/* ---- a log: records of 24 bits, most significant bit first: kind 4, thread 3, object 5, field 5, value 5, spare 2 (zero) */

enum ruqzhemil_kind {
    RUQZHEMIL_KIND_NEW = 1,             /* object: the new one */
    RUQZHEMIL_KIND_READ = 2,            /* object, field, value read */
    RUQZHEMIL_KIND_WRITE = 3,           /* object, field, value written */
    RUQZHEMIL_KIND_VOLATILE_READ = 4,   /* object, field, value read */
    RUQZHEMIL_KIND_VOLATILE_WRITE = 5,  /* object, field, value written */
    RUQZHEMIL_KIND_ACQUIRE = 6,         /* object: whose monitor */
    RUQZHEMIL_KIND_RELEASE = 7,         /* object: whose monitor */
    RUQZHEMIL_KIND_FORK = 8,            /* object that stands for the new thread; field: the new thread's number */
    RUQZHEMIL_KIND_JOIN = 9,            /* object that stands for the thread; field: its number; value: its result */
    RUQZHEMIL_KIND_LACKS_READ = 10,     /* object, field: a read that lacked its key; the run stopped here */
    RUQZHEMIL_KIND_LACKS_WRITE = 11     /* object, field, value that it would have written; the run stopped here */
};

/* A record's columns; those without a use are 0. thread made the move. */
struct ruqzhemil_record {
    unsigned kind, thread, object, field, value;
};

/* Record `index`, from 0, of a log that has it. */
static inline struct ruqzhemil_record ruqzhemil_record_at(const uint8_t *log, size_t index) {
    const uint8_t *at = log + RUQZHEMIL_RECORD_BYTES * index;
    const uint32_t bits = (uint32_t)at[0] << 16 | (uint32_t)at[1] << 8 | (uint32_t)at[2];
    struct ruqzhemil_record record;
    record.kind = (unsigned)(bits >> 20);
    record.thread = (unsigned)(bits >> 17 & 7u);
    record.object = (unsigned)(bits >> 12 & 31u);
    record.field = (unsigned)(bits >> 7 & 31u);
    record.value = (unsigned)(bits >> 2 & 31u);
    return record;
}

/* The word of a kind, as the printing program writes it. */
static inline const char *ruqzhemil_kind_word(unsigned kind) {
    switch (kind) {
    case RUQZHEMIL_KIND_NEW: return "new";
    case RUQZHEMIL_KIND_READ: return "read";
    case RUQZHEMIL_KIND_WRITE: return "write";
    case RUQZHEMIL_KIND_VOLATILE_READ: return "readv";
    case RUQZHEMIL_KIND_VOLATILE_WRITE: return "writev";
    case RUQZHEMIL_KIND_ACQUIRE: return "acquire";
    case RUQZHEMIL_KIND_RELEASE: return "release";
    case RUQZHEMIL_KIND_FORK: return "fork";
    case RUQZHEMIL_KIND_JOIN: return "join";
    case RUQZHEMIL_KIND_LACKS_READ: return "lacks-read";
    case RUQZHEMIL_KIND_LACKS_WRITE: return "lacks-write";
    default: return "unknown";
    }
}

/* ---- an outcome: RUQZHEMIL_OUT_BYTES bytes
 *
 *   byte 0           how the run ended, enum ruqzhemil_stop
 *   bytes 1 and 2    picks dealt with before the end or stop, high byte first
 *   bytes 3 and 4    moves made, high byte first
 *   bytes 5 and 6    records written, high byte first
 *   byte 7           0
 *   bytes 8 + 4t ..  of thread t, 0 to 7: its state, enum ruqzhemil_state; the value or the object that the state names; the field that it names; how many
 *                    keys were new to it in its acquires, volatile reads and joins. What a state does not name is 0
 */

enum ruqzhemil_stop {
    RUQZHEMIL_END = 0,       /* the schedule is at its end */
    RUQZHEMIL_RACE = 1,      /* a thread lacks the key of a plain field: nothing orders its access after the last write. The last record names it */
    RUQZHEMIL_NO_THREAD = 2, /* no room for a ninth thread */
    RUQZHEMIL_NO_OBJECT = 3, /* no room for a 33rd object */
    RUQZHEMIL_NO_KEY = 4,    /* no room for a 257th key */
    RUQZHEMIL_NO_DEPTH = 5   /* no room for a depth over 32 */
};

enum ruqzhemil_state {
    RUQZHEMIL_ABSENT = 0,        /* there is no such thread */
    RUQZHEMIL_FINISHED = 1,      /* with this value */
    RUQZHEMIL_READY = 2,         /* it can move, or only lacks room */
    RUQZHEMIL_WAITS_MONITOR = 3, /* for the monitor of this object: to enter it, or to go on after it was notified */
    RUQZHEMIL_WAITS_JOIN = 4,    /* for the end of the thread that this object stands for */
    RUQZHEMIL_STUCK_FIELD = 5,   /* this object has no such field */
    RUQZHEMIL_STUCK_THREAD = 6,  /* this object stands for no thread */
    RUQZHEMIL_LACKING = 7,       /* the key of this object's field */
    RUQZHEMIL_WAITS_NOTIFY = 8,  /* to be notified on this object */
    RUQZHEMIL_STUCK_MONITOR = 9  /* it does not hold the monitor of this object, which its wait or notify needs */
};

struct ruqzhemil_thread {
    unsigned state, named, field; /* named: the value of a finished thread, else the object */
    unsigned learnt;              /* how many keys were new to it in its acquires, volatile reads and joins, at most 255 */
};

static inline unsigned ruqzhemil_stop_of(const uint8_t out[RUQZHEMIL_OUT_BYTES]) { return out[0]; }
static inline unsigned ruqzhemil_picks_of(const uint8_t out[RUQZHEMIL_OUT_BYTES]) { return out[1] * 256u + out[2]; }
static inline unsigned ruqzhemil_moves_of(const uint8_t out[RUQZHEMIL_OUT_BYTES]) { return out[3] * 256u + out[4]; }
static inline unsigned ruqzhemil_records_of(const uint8_t out[RUQZHEMIL_OUT_BYTES]) { return out[5] * 256u + out[6]; }

/* Thread `number`, 0 to 7. */
static inline struct ruqzhemil_thread ruqzhemil_thread_of(const uint8_t out[RUQZHEMIL_OUT_BYTES], unsigned number) {
    const uint8_t *at = out + 8 + 4 * number;
    struct ruqzhemil_thread thread;
    thread.state = at[0];
    thread.named = at[1];
    thread.field = at[2];
    thread.learnt = at[3];
    return thread;
}

/* The word of a stop, as the printing program writes it. */
static inline const char *ruqzhemil_stop_word(unsigned stop) {
    switch (stop) {
    case RUQZHEMIL_END: return "end";
    case RUQZHEMIL_RACE: return "race";
    case RUQZHEMIL_NO_THREAD: return "no-thread";
    case RUQZHEMIL_NO_OBJECT: return "no-object";
    case RUQZHEMIL_NO_KEY: return "no-key";
    case RUQZHEMIL_NO_DEPTH: return "no-depth";
    default: return "unknown";
    }
}

static inline const char *ruqzhemil_state_text(unsigned state) {
    switch (state) {
    case RUQZHEMIL_ABSENT: return "absent";
    case RUQZHEMIL_FINISHED: return "finished";
    case RUQZHEMIL_READY: return "ready";
    case RUQZHEMIL_WAITS_MONITOR: return "waits for a monitor";
    case RUQZHEMIL_WAITS_JOIN: return "waits to join";
    case RUQZHEMIL_STUCK_FIELD: return "stuck, no field";
    case RUQZHEMIL_STUCK_THREAD: return "stuck, no thread";
    case RUQZHEMIL_LACKING: return "lacks a key";
    case RUQZHEMIL_WAITS_NOTIFY: return "waits to be notified";
    case RUQZHEMIL_STUCK_MONITOR: return "stuck, monitor not held";
    default: return "unknown";
    }
}

/* ---- a preview: RUQZHEMIL_PREVIEW_BYTES bytes
 *
 *   byte 0           what the pick would do, enum ruqzhemil_preview_kind
 *   bytes 1 to 3     passed over: the thread's state, and what it names, as an outcome has them; race, no room, stopped: the stop in byte 1
 *   bytes 4 to 6     the record of a move that has one, and of a race
 *   byte 7           0, as all that is not said
 */

enum ruqzhemil_preview_kind {
    RUQZHEMIL_PREVIEW_PASSED = 0,   /* it would be passed over, for the state of its thread */
    RUQZHEMIL_PREVIEW_MOVED = 1,    /* it would move, without a record */
    RUQZHEMIL_PREVIEW_RECORDED = 2, /* it would move, with this record */
    RUQZHEMIL_PREVIEW_RACE = 3,     /* the run would stop for want of a key, with this record, of kind 10 or 11 */
    RUQZHEMIL_PREVIEW_NO_ROOM = 4,  /* the run would stop for room, of this kind */
    RUQZHEMIL_PREVIEW_STOPPED = 5   /* the schedule itself has stopped, so */
};

static inline unsigned ruqzhemil_preview_of(const uint8_t out[RUQZHEMIL_PREVIEW_BYTES]) { return out[0]; }
/* Of a race, no room and stopped: how the run would stop or has stopped, enum ruqzhemil_stop. */
static inline unsigned ruqzhemil_preview_stop(const uint8_t out[RUQZHEMIL_PREVIEW_BYTES]) { return out[1]; }

/* Of a pick that would be passed over: the state of its thread; how many keys it learnt is not said. */
static inline struct ruqzhemil_thread ruqzhemil_preview_thread(const uint8_t out[RUQZHEMIL_PREVIEW_BYTES]) {
    struct ruqzhemil_thread thread;
    thread.state = out[1];
    thread.named = out[2];
    thread.field = out[3];
    thread.learnt = 0;
    return thread;
}

/* Of a move with a record and of a race: the record. */
static inline struct ruqzhemil_record ruqzhemil_preview_record(const uint8_t out[RUQZHEMIL_PREVIEW_BYTES]) {
    return ruqzhemil_record_at(out + 4, 0);
}

static inline const char *ruqzhemil_preview_text(unsigned preview) {
    switch (preview) {
    case RUQZHEMIL_PREVIEW_PASSED: return "passed over";
    case RUQZHEMIL_PREVIEW_MOVED: return "moved";
    case RUQZHEMIL_PREVIEW_RECORDED: return "moved, with a record";
    case RUQZHEMIL_PREVIEW_RACE: return "race";
    case RUQZHEMIL_PREVIEW_NO_ROOM: return "no room";
    case RUQZHEMIL_PREVIEW_STOPPED: return "stopped before";
    default: return "unknown";
    }
}

/* ---- the functions */

/* Checks a plan. An answer: it passes, value 0. Refusals 1 to 7. */
uint64_t ruqzhemil_check(const uint8_t *plan, size_t plan_len);

/* Plays a schedule on a plan. An answer: a run, value 0; log begins with its records, RUQZHEMIL_RECORD_BYTES * ruqzhemil_records_of(out) bytes, and
 * keeps its other bytes; out is its outcome, whole. Refusals 1 to 10 leave both as they were. A schedule of n picks needs a log area of 3 * n bytes. */
uint64_t ruqzhemil_play(const uint8_t *plan, size_t plan_len, const uint8_t *schedule, size_t schedule_len, uint8_t *log, size_t log_len,
                        uint8_t out[RUQZHEMIL_OUT_BYTES]);

/* Judges a log alone, of a run or of anything, by the version of its plan: 1, or 0, in which volatile fields order nothing. An access is unordered when no
 * chain leads to it from some earlier access to its field, one of the two a write. An answer: no access is unordered, value 0. The other answer: the
 * record with this index, from 0, is the first unordered access. Refusals 14, 11 and 12, in this order. */
uint64_t ruqzhemil_judge(uint64_t version, const uint8_t *log, size_t log_len);

/* What the pick would do after the schedule, and nothing changed: what playing the schedule with the pick added does. An answer: a preview, value 0; out
 * is its bytes, whole. Refusals 1 to 9 leave out as it was; the pick counts as the schedule's last for 8 and 9, so after 4,096 picks there is no preview,
 * and the place of 9 is the schedule's length where it is the pick that is over 7. */
uint64_t ruqzhemil_preview(const uint8_t *plan, size_t plan_len, const uint8_t *schedule, size_t schedule_len, uint64_t pick,
                           uint8_t out[RUQZHEMIL_PREVIEW_BYTES]);

/* Writes a plan in one way: procedures in their order, terms numbered procedure by procedure, each root first and then its children left to right, each
 * followed by all below it. Two plans are written alike exactly when they have the same version, volatile mask, parameter counts and trees; a written plan
 * plays as its original. An answer: the written plan's length, which is the plan's; area begins with it and keeps its other bytes. Refusals 1 to 7 and, where
 * area is shorter than the plan, 13 leave it as it was. An area of RUQZHEMIL_MOST_PLAN_BYTES is enough for every plan. */
uint64_t ruqzhemil_canonical(const uint8_t *plan, size_t plan_len, uint8_t *area, size_t area_len);

/* Writes a plan as text, in document 01's notation; docs/FORMAT.md, "A plan as text", has its grammar. An answer: the text's length in bytes; area begins with
 * the text, which no zero byte ends, and keeps its other bytes. Refusals 1 to 7 and, where area is shorter than the text, 25 leave it as it was. */
uint64_t ruqzhemil_show(const uint8_t *plan, size_t plan_len, uint8_t *area, size_t area_len);

/* Reads a plan's text, as docs/FORMAT.md, "A plan as text", says, and writes the plan in the way of canonical; what is read passes the check. An answer: the
 * plan's length; area begins with it and keeps its other bytes. The other answer: the text is no plan, and reading stops at the token of this line and column
 * (RUQZHEMIL_LINE, RUQZHEMIL_COLUMN), or at the first token of a procedure that uses a slot that nothing binds. It and, where area is shorter than the plan,
 * refusal 26 leave area as it was. An area of RUQZHEMIL_MOST_PLAN_BYTES is enough for every text. */
uint64_t ruqzhemil_read(const uint8_t *text, size_t text_len, uint8_t *area, size_t area_len);

/* From a run that stops for a missing key, a schedule after which both threads stand at their accesses: played, every pick of it moves and it comes to its
 * end, and the next moves of two threads are then the last write of the field and the access that lacked its key, on the same field of the same object up to
 * numbering. It has the run's moves, but those that lead to neither access, and without the write; threads are renumbered, since forks may drop out. An
 * answer: the schedule's length, less than the given one's; area begins with it and keeps its other bytes. Refusals 1 to 9, then 15 for a plan of version 0
 * or with a wait, 16 for a run without a missing key, 17 for an area shorter than the schedule leave area as it was. */
uint64_t ruqzhemil_witness(const uint8_t *plan, size_t plan_len, const uint8_t *schedule, size_t schedule_len, uint8_t *area, size_t area_len);

/* The first interleaving of at most n picks. Listed is each schedule of at most n picks, none passed over and none after a stop, that cannot be extended: it
 * has n picks, or its last pick stops the run, or no thread can move or stop after it. The order is dictionary order by thread number. An answer: the
 * schedule's length; area begins with it and keeps its other bytes. Refusals 1 to 7, 18 for n over RUQZHEMIL_MOST_BOUND, 20 for an area shorter than n
 * leave area as it was. */
uint64_t ruqzhemil_first_interleaving(const uint8_t *plan, size_t plan_len, uint64_t n, uint8_t *area, size_t area_len);

/* The interleaving that follows a listed schedule: from the first on, every listed one comes once. An answer: its length; area begins with it and keeps its
 * other bytes. The other answer, value 0: the list is over, and area is as it was. Refusals 1 to 9, 18, 19 for a schedule that is not listed, and 20 leave
 * area as it was. */
uint64_t ruqzhemil_next_interleaving(const uint8_t *plan, size_t plan_len, uint64_t n, const uint8_t *schedule, size_t schedule_len, uint8_t *area,
                                     size_t area_len);

/* How many moves a plan can need at most: no schedule makes more, forked threads included. An answer: the total, at most RUQZHEMIL_MOST_TOTAL. Refusals 1
 * to 7, then 21 for calls that form a cycle, in procedures that nothing calls too, 22 for a while anywhere, 23 for a total over RUQZHEMIL_MOST_TOTAL. */
uint64_t ruqzhemil_bound(const uint8_t *plan, size_t plan_len);

/* What a run of the schedule on the plan is charged: 1,200 cents and 35 for each started hundred moves; with the one-millisecond option, an option that is
 * not 0, 15 percent more, a part of a cent counting as a whole one; 0 for a run that stops for room. An answer: the cents, at most 3,031. Refusals 1 to 9. */
uint64_t ruqzhemil_charge(const uint8_t *plan, size_t plan_len, const uint8_t *schedule, size_t schedule_len, uint64_t option);

/* Writes a log as an ASCII data file of IEEE C37.111-1999 (COMTRADE): a line for each record, with 32 digital values, of which value o is 1 where the
 * last acquire or release of object o so far is an acquire: on the log of a run, while its monitor is held. An answer: the file's length in bytes; area
 * begins with the file and keeps its other bytes. Refusals 11, 12 and, where area is too short for the whole file, 24 leave it as it was. The length
 * depends on the count of records alone, and is at most RUQZHEMIL_MOST_FILE_BYTES. */
uint64_t ruqzhemil_comtrade(const uint8_t *log, size_t log_len, uint8_t *area, size_t area_len);

/* The version of a plan that passes the check, for the judge. */
static inline uint64_t ruqzhemil_plan_version(const uint8_t *plan) {
    return (uint64_t)(plan[0] >> 4);
}

/* ---- null pointers: the archive's functions want a pointer that is not null even where its length is 0. A call through this header gives them one, where
 * the caller has none; what it leads to is neither read nor written. */

static inline const uint8_t *ruqzhemil_bytes(const uint8_t *bytes) {
    static const uint8_t none[1] = {0};
    return bytes ? bytes : none;
}

static inline uint8_t *ruqzhemil_area(uint8_t *area) {
    static uint8_t none[1];
    return area ? area : none;
}

#define ruqzhemil_check(plan, plan_len) ruqzhemil_check(ruqzhemil_bytes(plan), plan_len)
#define ruqzhemil_play(plan, plan_len, schedule, schedule_len, log, log_len, out) \
    ruqzhemil_play(ruqzhemil_bytes(plan), plan_len, ruqzhemil_bytes(schedule), schedule_len, ruqzhemil_area(log), log_len, out)
#define ruqzhemil_judge(version, log, log_len) ruqzhemil_judge(version, ruqzhemil_bytes(log), log_len)
#define ruqzhemil_preview(plan, plan_len, schedule, schedule_len, pick, out) \
    ruqzhemil_preview(ruqzhemil_bytes(plan), plan_len, ruqzhemil_bytes(schedule), schedule_len, pick, out)
#define ruqzhemil_canonical(plan, plan_len, area, area_len) ruqzhemil_canonical(ruqzhemil_bytes(plan), plan_len, ruqzhemil_area(area), area_len)
#define ruqzhemil_show(plan, plan_len, area, area_len) ruqzhemil_show(ruqzhemil_bytes(plan), plan_len, ruqzhemil_area(area), area_len)
#define ruqzhemil_read(text, text_len, area, area_len) ruqzhemil_read(ruqzhemil_bytes(text), text_len, ruqzhemil_area(area), area_len)
#define ruqzhemil_bound(plan, plan_len) ruqzhemil_bound(ruqzhemil_bytes(plan), plan_len)
#define ruqzhemil_witness(plan, plan_len, schedule, schedule_len, area, area_len) \
    ruqzhemil_witness(ruqzhemil_bytes(plan), plan_len, ruqzhemil_bytes(schedule), schedule_len, ruqzhemil_area(area), area_len)
#define ruqzhemil_first_interleaving(plan, plan_len, n, area, area_len) \
    ruqzhemil_first_interleaving(ruqzhemil_bytes(plan), plan_len, n, ruqzhemil_area(area), area_len)
#define ruqzhemil_next_interleaving(plan, plan_len, n, schedule, schedule_len, area, area_len) \
    ruqzhemil_next_interleaving(ruqzhemil_bytes(plan), plan_len, n, ruqzhemil_bytes(schedule), schedule_len, ruqzhemil_area(area), area_len)
#define ruqzhemil_charge(plan, plan_len, schedule, schedule_len, option) \
    ruqzhemil_charge(ruqzhemil_bytes(plan), plan_len, ruqzhemil_bytes(schedule), schedule_len, option)
#define ruqzhemil_comtrade(log, log_len, area, area_len) ruqzhemil_comtrade(ruqzhemil_bytes(log), log_len, ruqzhemil_area(area), area_len)

#ifdef __cplusplus
}
#endif

#endif
