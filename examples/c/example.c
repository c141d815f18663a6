/* Plan P of document 01's shot list: a field written by one thread and read by another, with nothing between them. It is checked and played, and the judge
 * gets the run's records; it is written as text and read again. The log of two monitors is written as a data file for a viewer. All that is printed is read
 * by the header's own functions. */
#include <stdio.h>
#include <string.h>

#include "ruqzhemil.h"

/* let 0 = new(1) in let - = fork (v0.1 := null) in v0.1 */
static const uint8_t plan[55] = {
    0x10, 0x40, 0x24, 0x00, 0x80, 0x00, 0x00, 0x00, 0x00, 0x00, 0x28, 0x00, 0x20, 0x10, 0x00, 0x12, 0x00, 0x00, 0x00,
    0x00, 0x2f, 0x80, 0x60, 0x38, 0x00, 0x48, 0x08, 0x00, 0x00, 0x00, 0x20, 0x0a, 0x10, 0x18, 0x00, 0x08, 0x00, 0x00,
    0x00, 0x00, 0x00, 0x00, 0x00, 0x00, 0x00, 0x18, 0x10, 0x10, 0x00, 0x00, 0x08, 0x00, 0x00, 0x00, 0x00,
};

/* Whether the answer is a refusal; if so, prints it. */
static int refused(uint64_t answer) {
    if (!RUQZHEMIL_REFUSED(answer)) return 0;
    printf("refused %u %u: %s\n", RUQZHEMIL_NUMBER(answer), RUQZHEMIL_PLACE(answer), ruqzhemil_refusal_text(RUQZHEMIL_NUMBER(answer)));
    return 1;
}

static void check(const char *name, const uint8_t *bytes, size_t length) {
    uint64_t answer = ruqzhemil_check(bytes, length);
    printf("%s: ", name);
    if (!refused(answer)) printf("passes\n");
}

static void record(const uint8_t *log, size_t index) {
    struct ruqzhemil_record r = ruqzhemil_record_at(log, index);
    printf("  %u %s %u %u %u %u\n", (unsigned)index, ruqzhemil_kind_word(r.kind), r.thread, r.object, r.field, r.value);
}

static void thread(const uint8_t *out, unsigned number) {
    struct ruqzhemil_thread t = ruqzhemil_thread_of(out, number);
    if (t.state != RUQZHEMIL_ABSENT) {
        printf("  thread %u: %s (%u, %u)\n", number, ruqzhemil_state_text(t.state), t.named, t.field);
    }
}

static void judge(const uint8_t *log, size_t length) {
    uint64_t answer = ruqzhemil_judge(ruqzhemil_plan_version(plan), log, length);
    printf("  judge: ");
    switch (RUQZHEMIL_ANSWER(answer)) {
    case RUQZHEMIL_IS_VALUE: printf("none\n"); break;
    case RUQZHEMIL_IS_OTHER: printf("record %u is unordered\n", (unsigned)RUQZHEMIL_VALUE(answer)); break;
    default: refused(answer);
    }
}

static void picks_of(const uint8_t *schedule, size_t picks) {
    printf("picks");
    for (size_t i = 0; i < picks; i++) printf(" %u", schedule[i]);
    printf(": ");
}

static void play(const uint8_t *schedule, size_t picks) {
    uint8_t log[RUQZHEMIL_MOST_LOG_BYTES], out[RUQZHEMIL_OUT_BYTES];
    uint64_t answer = ruqzhemil_play(plan, sizeof plan, schedule, picks, log, sizeof log, out);
    picks_of(schedule, picks);
    if (refused(answer)) return;
    unsigned records = ruqzhemil_records_of(out);
    printf("%s %u %u %u\n", ruqzhemil_stop_word(ruqzhemil_stop_of(out)), ruqzhemil_picks_of(out), ruqzhemil_moves_of(out), records);
    for (unsigned i = 0; i < records; i++) record(log, i);
    for (unsigned t = 0; t < RUQZHEMIL_THREADS; t++) thread(out, t);
    judge(log, RUQZHEMIL_RECORD_BYTES * records);
}

static void preview(const uint8_t *schedule, size_t picks, unsigned pick) {
    uint8_t out[RUQZHEMIL_PREVIEW_BYTES];
    uint64_t answer = ruqzhemil_preview(plan, sizeof plan, schedule, picks, pick, out);
    printf("after ");
    picks_of(schedule, picks);
    if (refused(answer)) return;
    unsigned kind = ruqzhemil_preview_of(out);
    printf("%u would be %s", pick, ruqzhemil_preview_text(kind));
    if (kind == RUQZHEMIL_PREVIEW_PASSED) {
        printf(", %s", ruqzhemil_state_text(ruqzhemil_preview_thread(out).state));
    } else if (kind == RUQZHEMIL_PREVIEW_NO_ROOM || kind == RUQZHEMIL_PREVIEW_STOPPED) {
        printf(", %s", ruqzhemil_stop_word(ruqzhemil_preview_stop(out)));
    } else if (kind != RUQZHEMIL_PREVIEW_MOVED) {
        struct ruqzhemil_record r = ruqzhemil_preview_record(out);
        printf(": %s %u %u %u %u", ruqzhemil_kind_word(r.kind), r.thread, r.object, r.field, r.value);
    }
    printf("\n");
}

/* The two accesses of a race side by side: a schedule after which both threads stand at them, and what each would do next. */
static void witness(const uint8_t *schedule, size_t picks) {
    uint8_t area[RUQZHEMIL_MOST_PICKS];
    uint64_t answer = ruqzhemil_witness(plan, sizeof plan, schedule, picks, area, sizeof area);
    printf("witness of ");
    picks_of(schedule, picks);
    if (refused(answer)) return;
    picks_of(area, RUQZHEMIL_VALUE(answer));
    printf("both stand at their accesses\n");
    for (unsigned t = 0; t < 2; t++) preview(area, RUQZHEMIL_VALUE(answer), t);
}

/* while true do null */
static const uint8_t endless[25] = {
    0x10, 0x40, 0x0c, 0x00, 0x80, 0x00, 0x00, 0x00, 0x00, 0x00, 0x38, 0x02, 0x01, 0x00, 0x00, 0x60, 0x00, 0x00, 0x00, 0x00, 0x00, 0x00, 0x00, 0x00, 0x00,
};

static void bound(const char *name, const uint8_t *bytes, size_t length) {
    uint64_t answer = ruqzhemil_bound(bytes, length);
    printf("%s needs ", name);
    if (!refused(answer)) printf("at most %u moves\n", (unsigned)RUQZHEMIL_VALUE(answer));
}

/* Every interleaving of at most n picks, and how it ends. */
static void interleavings(uint64_t n) {
    uint8_t schedule[RUQZHEMIL_MOST_BOUND], next[RUQZHEMIL_MOST_BOUND], log[3 * RUQZHEMIL_MOST_BOUND], out[RUQZHEMIL_OUT_BYTES];
    uint64_t answer = ruqzhemil_first_interleaving(plan, sizeof plan, n, schedule, sizeof schedule);
    refused(answer);
    while (RUQZHEMIL_ANSWER(answer) == RUQZHEMIL_IS_VALUE) {
        size_t length = RUQZHEMIL_VALUE(answer);
        ruqzhemil_play(plan, sizeof plan, schedule, length, log, sizeof log, out);
        picks_of(schedule, length);
        printf("%s\n", ruqzhemil_stop_word(ruqzhemil_stop_of(out)));
        answer = ruqzhemil_next_interleaving(plan, sizeof plan, n, schedule, length, next, sizeof next);
        for (size_t i = 0; i < sizeof next; i++) schedule[i] = next[i];
    }
}

/* synch new() do null, with the body's term before the object's */
static const uint8_t turned[25] = {
    0x10, 0x40, 0x0c, 0x00, 0x80, 0x00, 0x00, 0x00, 0x00, 0x00, 0x58, 0x04, 0x00, 0x80, 0x00, 0x00, 0x00, 0x00, 0x00, 0x00, 0x10, 0x00, 0x00, 0x00, 0x00,
};

static void canonical(size_t size) {
    uint8_t area[sizeof turned];
    uint64_t answer = ruqzhemil_canonical(turned, sizeof turned, area, size);
    printf("written in %u bytes: ", (unsigned)size);
    if (refused(answer)) return;
    printf("%u bytes, terms", (unsigned)RUQZHEMIL_VALUE(answer));
    for (size_t i = 10; i < RUQZHEMIL_VALUE(answer); i++) printf(i % 5 ? "%02x" : " %02x", area[i]);
    printf("\n");
}

static void show(size_t size) {
    static uint8_t area[RUQZHEMIL_MOST_SHOWN_BYTES];
    uint64_t answer = ruqzhemil_show(plan, sizeof plan, area, size);
    printf("P as text in %u bytes: ", (unsigned)size);
    if (refused(answer)) return;
    printf("%u bytes\n%.*s", (unsigned)RUQZHEMIL_VALUE(answer), (int)RUQZHEMIL_VALUE(answer), (const char *)area);
}

/* Reads a text into an area of so many bytes; a plan is shown again. */
static void read_text(const char *name, const char *text, size_t length, size_t size) {
    static uint8_t area[RUQZHEMIL_MOST_PLAN_BYTES], shown[RUQZHEMIL_MOST_SHOWN_BYTES];
    uint64_t answer = ruqzhemil_read((const uint8_t *)text, length, area, size);
    printf("%s, read: ", name);
    if (refused(answer)) return;
    if (RUQZHEMIL_ANSWER(answer) == RUQZHEMIL_IS_OTHER) {
        printf("no plan: line %u, column %u\n", RUQZHEMIL_LINE(answer), RUQZHEMIL_COLUMN(answer));
        return;
    }
    size_t bytes = RUQZHEMIL_VALUE(answer);
    printf("%u bytes%s\n", (unsigned)bytes, bytes == sizeof plan && memcmp(area, plan, bytes) == 0 ? ", those of P" : "");
    answer = ruqzhemil_show(area, bytes, shown, sizeof shown);
    printf("%.*s", (int)RUQZHEMIL_VALUE(answer), (const char *)shown);
}

static void read_texts(void) {
    static const char written[] = "let 0 = new(1) in let - = fork (v0.1 := null) in v0.1  # P";
    static const char others[] = "call 1 (join (fork null))\nprocedure 1(1) = v0";
    static const char cut[] = "let 0 = new(1) in\nv0.", loose[] = "call 1 ()\nprocedure 1 (0) = v0";
    static char many[16384];
    read_text("P in 55 bytes", written, sizeof written - 1, 55);
    read_text("P in 54 bytes", written, sizeof written - 1, 54);
    read_text("a call in 5,192 bytes", others, sizeof others - 1, RUQZHEMIL_MOST_PLAN_BYTES);
    read_text("a text cut short", cut, sizeof cut - 1, 55);
    read_text("a slot that nothing binds", loose, sizeof loose - 1, 55);
    read_text("nothing at all", NULL, 0, 55);
    memset(many, '(', sizeof many);
    read_text("16,385 tokens", many, sizeof many, 55);
    read_text("parentheses too deep", many, sizeof many - 1, 55);
}

/* acquire and release of object 1, by thread 0 */
static const uint8_t monitors[] = {0x60, 0x10, 0x00, 0x70, 0x10, 0x00};

static void comtrade(size_t size) {
    static uint8_t area[RUQZHEMIL_MOST_FILE_BYTES];
    uint64_t answer = ruqzhemil_comtrade(monitors, sizeof monitors, area, size);
    printf("data file in %u bytes: ", (unsigned)size);
    if (refused(answer)) return;
    printf("%u bytes, end mark %02x\n", (unsigned)RUQZHEMIL_VALUE(answer), area[RUQZHEMIL_VALUE(answer) - 1]);
    for (size_t i = 0; i + 1 < RUQZHEMIL_VALUE(answer); i++) {
        if (area[i] != '\r') putchar(area[i]);
    }
}

static void charge(const uint8_t *schedule, size_t picks, uint64_t option) {
    uint64_t answer = ruqzhemil_charge(plan, sizeof plan, schedule, picks, option);
    printf("%s the option: ", option ? "with" : "without");
    if (refused(answer)) return;
    printf("%u cents\n", (unsigned)RUQZHEMIL_VALUE(answer));
}

int main(void) {
    static const uint8_t race[] = {0, 0, 0, 0, 0, 1, 0}, none[] = {0, 0, 0, 0, 0, 0, 1}, wrong[] = {0, 8};
    if (ruqzhemil_version() != RUQZHEMIL_VERSION) {
        printf("the archive is of another version than its header\n");
        return 1;
    }
    check("P", plan, sizeof plan);
    check("P cut to 54 bytes", plan, sizeof plan - 1);
    check("nothing at all", NULL, 0);
    play(race, sizeof race);
    play(none, sizeof none);
    play(NULL, 0);
    play(wrong, sizeof wrong);
    preview(race, 0, 0);
    preview(race, 5, 1);
    preview(race, 6, 1);
    preview(race, 6, 0);
    preview(race, 7, 1);
    preview(race, 6, 8);
    witness(race, sizeof race);
    witness(none, sizeof none);
    canonical(sizeof turned);
    canonical(sizeof turned - 1);
    show(64);
    show(63);
    read_texts();
    bound("P", plan, sizeof plan);
    bound("a loop", endless, sizeof endless);
    interleavings(10);
    interleavings(65);
    charge(race, sizeof race, 0);
    charge(race, sizeof race, 1);
    charge(wrong, sizeof wrong, 1);
    comtrade(142);
    comtrade(141);
    return 0;
}
